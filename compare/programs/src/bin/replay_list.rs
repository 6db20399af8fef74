//! Makes the fixed list of crates/replay/data anew, all but the settled examples, which are written by hand.
//! usage: replay_list FOLDER
use compare::codes::{build, damage, Shape, Tagged};
use compare::fixed_list::List;
use compare::rng::Rng;
use compare::texts::{Maker, Symbols};
use compare::{edges, model, parts, pools, text_model, texts, Part, ENTRY, PART, RECORD};
use std::collections::BTreeMap;

const SEED: u64 = 1;

/// Document 01's refusals, each of which the list gives so many times at least.
const NUMBERS: [std::ops::RangeInclusive<u32>; 2] = [1..=15, 21..=35];
const LEAST: u64 = 20;

/// The most bytes of a code or a text.
const LIMIT: usize = 65_535;

/// What stands in a lent store before: mostly one word, sometimes words that are all different.
fn old_words(rng: &mut Rng, count: usize) -> Vec<u32> {
    match rng.below(5) {
        0 => (1000..1000 + count as u32).collect(),
        _ => vec![9; count],
    }
}

fn old_bytes(rng: &mut Rng, count: usize) -> Vec<u8> {
    match rng.below(5) {
        0 => b"#0123456789".iter().copied().cycle().take(count).collect(),
        _ => vec![b'#'; count],
    }
}

/// A capacity about what is needed: mostly enough, sometimes too little.
fn about(rng: &mut Rng, needed: usize) -> usize {
    match rng.below(8) {
        0 => needed.saturating_sub(1),
        1 => rng.below(needed + 1),
        2 | 3 => needed + 1,
        _ => needed,
    }
}

/// A code with stores about as large as it needs, some words over.
fn decode(list: &mut List, rng: &mut Rng, code: &[u8], pool: &[u8]) {
    let prepared = model::prepare(code, pool);
    let records = about(rng, prepared.list.len()) * RECORD + rng.below(RECORD);
    let entries = about(rng, prepared.entries()) * ENTRY + rng.below(ENTRY);
    let (records, entries) = (old_words(rng, records), old_words(rng, entries));
    list.decode(code, pool, records, entries);
}

/// One in so many of the codes at the edges.
fn edge_codes(rng: &mut Rng) -> List {
    let mut list = List::new("edges");
    let pool = pools::each().tags;
    for code in edges::short().iter().step_by(9) {
        let entries = rng.pick(&[0, 1, 8]);
        decode(&mut list, rng, code, &pool[..entries]);
    }
    list
}

/// Every byte as an instruction, after wide and as newarray's tag; some where a byte is to be 0.
fn every_byte(rng: &mut Rng) -> List {
    let mut list = List::new("bytes");
    for byte in 0..=255 {
        decode(&mut list, rng, &[byte, 0, 1, 0, 0], &[0, 7, 9]);
        decode(&mut list, rng, &[0xc4, byte, 0, 1, 0], &[]);
        decode(&mut list, rng, &[0xbc, byte], &[]);
        if byte % 15 == 0 {
            decode(&mut list, rng, &[0xb9, 0, 1, 2, byte], &[0, 11]);
            decode(&mut list, rng, &[0xba, 0, 1, byte, 0], &[0, 18]);
            decode(&mut list, rng, &[0xba, 0, 1, 0, byte], &[0, 18]);
        }
    }
    list
}

/// Codes and pool tables at their limits and past them.
fn limits(rng: &mut Rng) -> List {
    let mut list = List::new("limits");
    for op in [0x00, 0xb1, 0xcb, 0xaa, 0x2a, 0xc4, 0xff] {
        for length in [LIMIT - 1, LIMIT, LIMIT + 1] {
            for pool in [0, 4_096, 4_097] {
                let records = old_words(rng, 12 + length % 3);
                list.decode(&vec![op; length], &vec![3; pool], records, vec![9; pool % 5]);
            }
        }
    }
    for (index, tag) in [(0u16, 7), (1, 7), (4_094, 9), (4_095, 3), (4_095, 9), (4_096, 9), (65_535, 9)] {
        let [high, low] = index.to_be_bytes();
        for pool in [4_095, 4_096, 4_097, LIMIT + 1] {
            for op in [0xb2, 0xbb, 0x13] {
                decode(&mut list, rng, &[op, high, low, 0xb1], &vec![tag; pool]);
            }
        }
    }
    list
}

fn any_pool(rng: &mut Rng, i: usize) -> Vec<u8> {
    let tags = [0, 1, 3, 4, 5, 6, 7, 7, 8, 9, 9, 10, 10, 11, 11, 12, 15, 16, 17, 18, 18, 19, 20];
    let count = rng.below([3, 12, 24][i % 3]);
    (0..count).map(|_| if rng.one_in(10) { rng.byte() } else { rng.pick(&tags) }).collect()
}

/// Built codes over any pool; every second one is damaged, some have a bad target, index or byte.
fn built_codes(rng: &mut Rng) -> List {
    let mut list = List::new("codes");
    for i in 0..900 {
        let pool = any_pool(rng, i);
        let shape = Shape {
            instructions: [2, 4, 8, 12][i % 4],
            entries: [1, 2, 4][i % 3],
            bad_targets: if i % 3 == 0 { 6 } else { 0 },
            bad_indices: if i % 7 == 0 { 4 } else { 0 },
            bad_bytes: if i % 5 == 0 { 2 } else { 0 },
        };
        let mut code = build(rng, &Tagged::new(&pool), &shape);
        if i % 2 == 1 {
            damage(rng, &mut code);
        }
        decode(&mut list, rng, &code, &pool);
    }
    list
}

/// A store whose offsets rise, but for one in three.
fn any_records(rng: &mut Rng) -> Vec<u32> {
    let mut store = vec![5; rng.below(8 * RECORD)];
    let (mut at, steep) = (rng.pick(&[0, 0, 7, u32::MAX - 9]), rng.pick(&[2, 9, 1 << 28]));
    for offset in store.iter_mut().step_by(RECORD) {
        *offset = at;
        at = at.wrapping_add(1 + rng.below(steep) as u32);
    }
    if !store.is_empty() && rng.one_in(3) {
        let one = rng.below(store.len().div_ceil(RECORD)) * RECORD;
        let near = store[one];
        store[one] = rng.pick(&[0, u32::MAX, near.wrapping_add(1), near.wrapping_sub(1)]);
    }
    store
}

fn lookups(rng: &mut Rng) -> List {
    let mut list = List::new("lookups");
    for _ in 0..120 {
        let store = any_records(rng);
        let room = store.len() / RECORD;
        let offsets: Vec<u64> = store.iter().step_by(RECORD).map(|offset| *offset as u64).collect();
        let far = [u64::MAX, 1 << 63, u64::MAX / 6 + 1, 1 << 61, room as u64 + 1];
        for _ in 0..4 {
            let count = if rng.one_in(8) { rng.pick(&far) } else { room.saturating_sub(rng.below(2)) as u64 };
            let any = rng.pick(&[0, 1, 6, 1 << 32, u64::MAX]);
            let offset = if offsets.is_empty() { any } else { rng.pick(&offsets) + rng.pick(&[0, 0, 1, 1 << 32]) };
            list.lookup(&store, count, offset);
        }
    }
    list
}

/// A byte repeated between two texts until all have so many bytes.
fn filled(before: &str, with: u8, after: &str, bytes: usize) -> Vec<u8> {
    [before.as_bytes(), &vec![with; bytes - before.len() - after.len()], after.as_bytes()].concat()
}

/// Texts about the limit of bytes, and types about that of dimensions.
fn long_texts() -> Vec<Vec<u8>> {
    let shapes =
        [("", b'a', ""), ("", b'a', ";"), ("L", b'a', ";"), ("L", b'a', "/;"), ("[[L", b'a', ";I"), ("L", b'a', "")];
    let methods = [("(L", b'a', ";)V"), ("()L", b'a', ";"), ("()[[L", b'a', ";I")];
    let arrays = [("", "I"), ("", "La;"), ("", "V"), ("", ""), ("(", "I)V"), ("(I", "La;)I"), ("()", "I"), ("()", "V")];
    let about = |(before, with, after)| [LIMIT - 1, LIMIT, LIMIT + 1].map(|bytes| filled(before, with, after, bytes));
    let deep = |(before, after): (&str, &str)| {
        [254, 255, 256].map(|n| filled(before, b'[', after, n + before.len() + after.len()))
    };
    let long = shapes.into_iter().chain(methods).flat_map(about);
    long.chain(arrays.into_iter().flat_map(deep)).collect()
}

/// Every short text over the symbols of a descriptor, one in so many, between two others.
fn short_texts(before: &str, after: &str, one_in: usize) -> Vec<Vec<u8>> {
    let mut all = vec![];
    texts::every(&Symbols::bytes().of_descriptors(), 3, &mut |middle| {
        all.push([before.as_bytes(), middle, after.as_bytes()].concat());
    });
    all.into_iter().step_by(one_in).collect()
}

fn built_text(rng: &mut Rng, i: usize) -> Vec<u8> {
    Maker { rng, high: &[0xc3, 0xa9] }.any(i)
}

fn descriptors(rng: &mut Rng) -> List {
    let mut list = List::new("descriptors");
    let around = [("", "", 11), ("[", "", 29), ("L", ";", 17), ("La", ";I", 23), ("a/", "", 41)];
    let short = around.into_iter().flat_map(|(before, after, one_in)| short_texts(before, after, one_in));
    let built = (0..160).map(|i| built_text(rng, i)).filter(|text| text.first() != Some(&b'('));
    for text in short.chain(built).chain(long_texts()) {
        list.fields(&text);
        list.class_name(&text);
    }
    list
}

/// A method descriptor with stores about as large as it needs.
fn method(list: &mut List, rng: &mut Rng, text: &[u8]) {
    let words = about(rng, text_model::parameters_read(text)) * PART + rng.below(PART);
    let store = old_words(rng, words);
    list.method(text, &store);
}

fn methods(rng: &mut Rng) -> List {
    let mut list = List::new("methods");
    let around = [("", "", 37), ("(", ")V", 13), ("([I", ")V", 31), ("(La", ";)V", 23), ("()", "", 11), ("(", "", 29)];
    let short = around.into_iter().flat_map(|(before, after, one_in)| short_texts(before, after, one_in));
    let built: Vec<_> = (0..160).map(|i| Maker { rng, high: &[0xff] }.any(6 + i % 4)).collect();
    let many = [255, 256].map(|count| filled("(", b'I', ")V", count + 3));
    for text in short.chain(built).chain(many).chain(long_texts()) {
        method(&mut list, rng, &text);
    }
    list
}

/// Outputs about as long as what is written.
fn outputs(rng: &mut Rng, length: usize) -> [Vec<u8>; 2] {
    [length, about(rng, length) + rng.below(3)].map(|bytes| old_bytes(rng, bytes))
}

fn printed_length(text: &[u8], part: &Part) -> usize {
    let mut room = vec![0; text.len() + 300];
    text_model::print_return(text, *part, &mut room).first as usize
}

fn printing(rng: &mut Rng) -> List {
    let mut list = List::new("printing");
    for i in 0..150 {
        let text = built_text(rng, i);
        let part = if i % 3 == 0 { parts::any(rng, &text) } else { parts::held(rng, &text, i % 2 == 0) };
        for out in outputs(rng, printed_length(&text, &part)) {
            list.print(&text, part, &out);
        }
    }
    // The longest name that can be printed has two bytes less than a text may have.
    for (bytes, dimensions) in
        [(LIMIT - 3, 0), (LIMIT - 2, 0), (LIMIT - 2, 1), (LIMIT - 1, 0), (LIMIT, 255), (LIMIT + 1, 0)]
    {
        for room in [0, LIMIT - 1, LIMIT, LIMIT + 9] {
            list.print(&vec![b'a'; bytes], [dimensions, b'L' as u32, 0, bytes as u32], &vec![b'#'; room]);
        }
    }
    list
}

fn printed_method_length(text: &[u8], made: &parts::Method) -> usize {
    let mut room = vec![0; 6 * (text.len() + 300)];
    text_model::print_method(text, &made.records, made.count, made.returned, &mut room).first as usize
}

fn method_printing(rng: &mut Rng) -> List {
    let mut list = List::new("method_printing");
    for i in 0..300 {
        let text = built_text(rng, 10 + i % 2);
        let made = if i % 3 == 0 { parts::any_method(rng, &text) } else { parts::held_method(rng, &text) };
        for out in outputs(rng, printed_method_length(&text, &made)) {
            list.print_method(&text, &made.records, made.count, made.returned, &out);
        }
    }
    let void = [0, b'V' as u32, 0, 0];
    for bytes in [LIMIT - 5, LIMIT - 4, LIMIT, LIMIT + 1] {
        for room in [LIMIT - 1, LIMIT, LIMIT + 1] {
            list.print_method(&vec![b'a'; bytes], &[0, b'L' as u32, 0, bytes as u32], 1, void, &vec![b'#'; room]);
        }
    }
    list
}

fn identifiers(rng: &mut Rng) -> List {
    let mut list = List::new("identifiers");
    for i in 0..200 {
        let mut maker = Maker { rng: &mut *rng, high: &[0xff] };
        let (mut name, mut descriptor) = (maker.method_name(), maker.method());
        if i % 4 == 1 {
            maker.damage(&mut name);
        }
        if i % 4 == 2 {
            maker.damage(&mut descriptor);
        }
        for out in outputs(rng, name.len() + descriptor.len()) {
            list.identifier(&name, &descriptor, &out);
        }
    }
    for name in [40_000, LIMIT, LIMIT + 1].map(|bytes| vec![b'n'; bytes]) {
        for descriptor in [4, 40_000, LIMIT, LIMIT + 1].map(|bytes| filled("(", b'I', ")V", bytes)) {
            let length = name.len() + descriptor.len();
            [length - 1, length].into_iter().for_each(|room| list.identifier(&name, &descriptor, &vec![b'#'; room]));
        }
    }
    list
}

fn checks(rng: &mut Rng) -> List {
    let mut list = List::new("checks");
    let near = ["<init>", "<clinit>"].map(|name| texts::neighbours(name.as_bytes(), &Symbols::bytes().special()));
    let near = near.concat().into_iter().step_by(23);
    let modules = [&b"\\\\"[..], b"\\:", b"\\@", b"\\", b"a\\", b":", b"@", b"\\\\:", b"\x1f", b" ", b"\x7f\xff"];
    let names = modules.map(|name| name.to_vec()).into_iter().chain([b"<init>".to_vec(), b"<clinit>".to_vec()]);
    let every: Vec<_> = (0..=255).step_by(5).map(|byte| vec![b'a', byte]).collect();
    let long = [LIMIT - 1, LIMIT, LIMIT + 1].map(|bytes| vec![b'a'; bytes]);
    names.chain(near).chain(every).chain(long).for_each(|name| list.name_checks(&name));
    let built: Vec<_> = (0..100).map(|i| built_text(rng, i)).collect();
    let short =
        [("", ""), ("(", ")V"), ("L", ";")].into_iter().flat_map(|(before, after)| short_texts(before, after, 31));
    short.chain(built).chain(long_texts()).for_each(|text| list.descriptor_checks(&text));
    list
}

/// Every refusal's number with how often the whole list gives it.
fn count_refusals(lists: &[List]) -> BTreeMap<u32, u64> {
    let mut all = BTreeMap::new();
    for (number, count) in lists.iter().flat_map(|list| &list.refusals) {
        *all.entry(*number).or_default() += count;
    }
    for number in NUMBERS.into_iter().flatten() {
        assert!(all.get(&number).is_some_and(|count| *count >= LEAST), "too few of refusal {number}");
    }
    all
}

fn main() {
    let folder = std::env::args().nth(1).expect("usage: replay_list FOLDER");
    let rng = &mut Rng::new(SEED);
    let lists = [
        every_byte(rng),
        edge_codes(rng),
        limits(rng),
        built_codes(rng),
        lookups(rng),
        descriptors(rng),
        methods(rng),
        printing(rng),
        method_printing(rng),
        identifiers(rng),
        checks(rng),
    ];
    for list in &lists {
        let head =
            format!("# Made by compare/run replay-list, seed {SEED}. Every answer is that of the model in compare/.\n");
        let file = list.file(&head);
        std::fs::write(format!("{folder}/{}", list.name), &file).expect("the folder can be written");
        println!("{}: {} cases, {} bytes", list.name, list.cases(), file.len());
    }
    println!("refusals: {:?}", count_refusals(&lists));
    println!("all: {} cases", lists.iter().map(List::cases).sum::<usize>());
}
