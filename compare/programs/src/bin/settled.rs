//! The settled examples of document 01, with whole stores.
use compare::report::{difference, shown_code, shown_text, unhex, words, Totals};
use compare::sides::{Call, Outcome, OURS, READS, READS_METHOD};
use compare::station::{decode, lookup, Answer, Parts};
use compare::{ENTRY, PART, RECORD};

/// What the stores hold before.
const OLD: u32 = 0xdead_beef;

struct Example {
    name: &'static str,
    code: Vec<u8>,
    pool: Vec<u8>,
    want: Want,
}

enum Want {
    Accepted(Vec<[u32; RECORD]>, Vec<[u32; ENTRY]>),
    /// Number and place.
    Refused(u32, u64),
}

fn accepted(name: &'static str, code: &str, records: &[[u32; RECORD]], entries: &[[u32; ENTRY]]) -> Example {
    Example { name, code: unhex(code), pool: vec![], want: Want::Accepted(records.to_vec(), entries.to_vec()) }
}

fn refused(name: &'static str, code: &str, number: u32, place: u64) -> Example {
    Example { name, code: unhex(code), pool: vec![], want: Want::Refused(number, place) }
}

fn nops(name: &'static str, count: u32, pool: usize, want: Option<(u32, u64)>) -> Example {
    let want = match want {
        Some((number, place)) => Want::Refused(number, place),
        None => Want::Accepted((0..count).map(|i| [i, 0, 0, 0, 0, 0]).collect(), vec![]),
    };
    Example { name, code: vec![0; count as usize], pool: vec![0; pool], want }
}

fn examples() -> Vec<Example> {
    let switch = "00 00 00 18 00 00 00 00 00 00 00 01 00 00 00 18 00 00 00 18 b1";
    let switch_records = [[0, 0xaa, 24, 0, 1, 0], [24, 0xb1, 0, 0, 0, 0]];
    let table = |name, pads: &str| accepted(name, &format!("aa {pads} {switch}"), &switch_records, &[[0, 24], [1, 24]]);
    let widest = "aa 00 00 00 00 00 00 00 80 00 00 00 7f ff ff ff";
    vec![
        accepted(
            "four instructions",
            "1a 99 00 06 84 00 ff b1",
            &[[0, 0x15, 0, 0, 0, 0], [1, 0x99, 6, 0, 0, 0], [4, 0x84, 0, 4294967295, 0, 0], [7, 0xb1, 0, 0, 0, 0]],
            &[],
        ),
        table("a tableswitch", "00 00 00"),
        table("a tableswitch, any pad bytes", "01 fe ff"),
        accepted("empty code", "", &[], &[]),
        refused("a jump to the end", "a7 00 03", 13, 0),
        refused("a jump below 0", "a7 ff ff", 12, 0),
        refused("the largest jump", "00 c8 7f ff ff ff", 13, 1),
        refused("a bad byte after wide", "c4 00", 5, 1),
        refused("newarray with tag 3", "bc 03", 9, 1),
        accepted("newarray with tag 11", "bc 0b", &[[0, 0xbc, 11, 0, 0, 0]], &[]),
        refused("the widest tableswitch", widest, 10, 12),
        nops("code of 65,535 bytes", 65_535, 0, None),
        nops("code of 65,536 bytes", 65_536, 0, Some((1, 0))),
        nops("code of 65,536 bytes and a pool of 4,097", 65_536, 4_097, Some((1, 0))),
        nops("pool of 4,096", 1, 4_096, None),
        nops("pool of 4,097", 1, 4_097, Some((2, 0))),
    ]
}

/// Words with others after them.
fn then_old<const N: usize>(words: &[[u32; N]], more: usize) -> Vec<u32> {
    let mut store = words.concat();
    store.resize(store.len() + more, OLD);
    store
}

/// The answer and both stores, where so many words are left over.
fn wanted(want: &Want, more: (usize, usize)) -> (Answer, Vec<u32>, Vec<u32>) {
    match want {
        Want::Accepted(records, entries) => {
            let answer = Answer::accepted(records.len() as u64, entries.len() as u64);
            (answer, then_old(records, more.0), then_old(entries, more.1))
        }
        // Room enough for any code here.
        Want::Refused(number, place) => {
            (Answer::refused(*number, *place, 0), vec![0; 65_536 * RECORD + more.0], vec![0; more.1])
        }
    }
}

/// Every record by its offset; of a long code only the last, since each lookup reads all records.
fn lookups(records: &[u32], count: u64, totals: &mut Totals) -> bool {
    let from = if count > 1000 { count - 1 } else { 0 };
    totals.lookups += count - from;
    (from..count).all(|i| lookup(records, count, records[i as usize * RECORD] as u64) == Answer::accepted(i, 1))
}

/// An example for texts.
struct TextExample {
    call: Call,
    text: Vec<u8>,
    want: Outcome,
}

const NO_PARTS: Parts =
    Parts { number: 0, dimensions: 0, letter: 0, start: 0, length: 0, parameters: 0, place: 0, used: 0 };

/// A descriptor of a field, a return or an array in each form, with number and place.
fn refused_type(text: &[u8], number: u32, place: u64) -> impl Iterator<Item = TextExample> {
    let (text, answer) = (text.to_vec(), Parts { number, place, ..NO_PARTS });
    // What does not start with `[` is not an array.
    let forms = if text[0] == b'[' { READS.len() } else { READS.len() - 1 };
    let want = move || Outcome::Parts(answer, vec![]);
    (0..forms).map(move |i| TextExample { call: Call::Read(i), text: text.clone(), want: want() })
}

fn refused_method(text: &[u8], number: u32, place: u64) -> impl Iterator<Item = TextExample> {
    let (text, answer) = (text.to_vec(), Parts { number, place, ..NO_PARTS });
    let store = 2 * PART + 1;
    let want = move || Outcome::Parts(answer, vec![0; store]);
    (0..READS_METHOD.len()).map(move |i| TextExample {
        call: Call::ReadMethod(i, store),
        text: text.clone(),
        want: want(),
    })
}

fn class_name(text: &[u8], answer: Answer) -> TextExample {
    TextExample { call: Call::ClassName, text: text.to_vec(), want: Outcome::Answer(answer, vec![]) }
}

fn text_examples() -> Vec<TextExample> {
    let arrays = |dimensions: usize| [&vec![b'['; dimensions][..], b"I"].concat();
    let most = Parts { dimensions: 255, letter: b'I' as u32, used: 256, ..NO_PARTS };
    let accepted = |i| TextExample { call: Call::Read(i), text: arrays(255), want: Outcome::Parts(most, vec![]) };
    let names = [
        class_name(b"", Answer::accepted(0, 0)),
        class_name(b"a/", Answer::accepted(0, 0)),
        class_name(b";", Answer::refused(25, 0, 0)),
        class_name(b"a;", Answer::refused(28, 1, 0)),
    ];
    refused_method(b"()VV", 23, 2)
        .chain(refused_type(b"La/;", 25, 3))
        .chain(refused_type(b"L;", 25, 1))
        .chain(names)
        .chain((0..READS.len()).map(accepted))
        .chain(refused_type(&arrays(256), 24, 255))
        .collect()
}

fn settled_texts(totals: &mut Totals) {
    for example in text_examples() {
        let got = OURS.outcome(&example.call, &example.text);
        totals.cases += 1;
        if got != example.want && totals.unknown() {
            let (got, want) = (format!("{got:?}"), format!("{:?}", example.want));
            difference(&example.call.to_string(), &shown_text(&example.text), &got, &want);
        }
        println!("{}: {}", example.call, shown_text(&example.text));
    }
}

fn settled_codes(totals: &mut Totals) {
    for example in examples() {
        for more in [(0, 0), (1, 1), (6, 2), (23, 9)] {
            let want = wanted(&example.want, more);
            let (mut records, mut entries) = (vec![OLD; want.1.len()], vec![OLD; want.2.len()]);
            let answer = decode(&example.code, &example.pool, &mut records, &mut entries);
            totals.cases += 1;
            let found = lookups(&records, answer.first, totals);
            let got = (answer, records, entries);
            if (got != want || !found) && totals.unknown() {
                let shown = |o: &(Answer, Vec<u32>, Vec<u32>)| format!("{:?} {}", o.0, words(&o.1, &o.2));
                difference(example.name, &shown_code(&example.code), &shown(&got), &shown(&want));
            }
        }
        println!("{}", example.name);
    }
}

fn main() {
    let mut totals = Totals::default();
    settled_codes(&mut totals);
    settled_texts(&mut totals);
    totals.finish("settled")
}
