//! Our whole answers and whole stores against the model of document 01, at every small capacity of the stores.
//! usage: codes_against_model [SEED [COUNT]]
use compare::codes::{build, damage, Shape, Tagged};
use compare::report::{difference, number, shown_code, shrunk, words, Progress, Refusals, Totals};
use compare::rng::Rng;
use compare::station::{self, Answer};
use compare::{edges, model, pools, ENTRY, RECORD};

/// Words that are all different, so that one left behind shows.
fn old_words(count: usize, salt: u32) -> Vec<u32> {
    (0..count as u32).map(|i| 0x8000_0001 ^ i.wrapping_mul(0x9e37_79b9) ^ salt).collect()
}

type Outcome = (Answer, Vec<u32>, Vec<u32>);

/// How many words each store has.
type Room = (usize, usize);

fn ours(code: &[u8], pool: &[u8], room: Room) -> Outcome {
    let (mut records, mut entries) = (old_words(room.0, 1), old_words(room.1, 77));
    (station::decode(code, pool, &mut records, &mut entries), records, entries)
}

fn paper(code: &[u8], pool: &[u8], prepared: &model::Prepared, room: Room) -> Outcome {
    let (mut records, mut entries) = (old_words(room.0, 1), old_words(room.1, 77));
    (model::decode(code, pool, prepared, &mut records, &mut entries), records, entries)
}

fn report(code: &[u8], pool: &[u8], room: Room) {
    let both = |code: &[u8]| (ours(code, pool, room), paper(code, pool, &model::prepare(code, pool), room));
    let small = shrunk(code, |code| {
        let (ours, paper) = both(code);
        ours != paper
    });
    let (ours, paper) = both(&small);
    let shown = |o: &Outcome| format!("{:?} {}", o.0, words(&o.1, &o.2));
    let what = format!("stores of {} and {} words, pool {:?}", room.0, room.1, &pool[..pool.len().min(40)]);
    difference(&what, &shown_code(&small), &shown(&ours), &shown(&paper));
}

/// Codes of one sort.
struct Section {
    sort: String,
    codes: u64,
    accepted: u64,
    refusals: Refusals,
    totals: Totals,
}

impl Section {
    fn new(sort: &str) -> Section {
        Section { sort: sort.into(), codes: 0, accepted: 0, refusals: Refusals::default(), totals: Totals::default() }
    }

    fn run(&mut self, code: &[u8], pool: &[u8], prepared: &model::Prepared, room: Room) {
        let want = paper(code, pool, prepared, room);
        self.totals.cases += 1;
        match want.0.number {
            0 => self.accepted += 1,
            number => self.refusals.count(number),
        }
        if ours(code, pool, room) != want && self.totals.unknown() {
            report(code, pool, room);
        }
    }

    /// A code at every capacity of both stores up to one more than it needs, each with a part of a record or entry over.
    fn every_room(&mut self, code: &[u8], pool: &[u8], rng: &mut Rng) {
        let prepared = model::prepare(code, pool);
        self.codes += 1;
        for records in 0..=prepared.list.len() + 1 {
            for entries in 0..=prepared.entries() + 1 {
                let room = (records * RECORD + rng.below(RECORD), entries * ENTRY + rng.below(ENTRY));
                self.run(code, pool, &prepared, room);
            }
        }
    }

    /// A long code at the capacities about what it needs.
    fn near_room(&mut self, code: &[u8], pool: &[u8]) {
        let prepared = model::prepare(code, pool);
        self.codes += 1;
        let about = |words: usize| [0, 1, 5, words.saturating_sub(1), words, words + 1, words + 1000];
        for records in about(prepared.list.len() * RECORD) {
            for entries in about(prepared.entries() * ENTRY) {
                self.run(code, pool, &prepared, (records, entries));
            }
        }
    }

    fn finish(self, all: &mut Totals) {
        println!("{}: {} runs of {} codes", self.sort, self.totals.cases, self.codes);
        println!("  accepted {}, refused {} ({})", self.accepted, self.refusals.all(), self.refusals);
        println!("  differences: {} unknown", self.totals.unknown);
        all.add(&self.totals);
    }
}

/// Every tag of document 01 and some that are none.
const EVERY_TAG: &[u8] = &[7, 1, 3, 4, 5, 0, 6, 0, 7, 8, 9, 10, 11, 12, 15, 16, 17, 18, 19, 20, 2, 13, 14, 21, 255];

fn edge_codes(rng: &mut Rng, all: &mut Totals) {
    let mut section = Section::new("edges, every capacity");
    let pool = pools::each().tags;
    edges::short().iter().for_each(|code| section.every_room(code, &pool, rng));
    edges::longest().iter().for_each(|code| section.near_room(code, &pool));
    section.finish(all);
}

/// Codes and pool tables at their limits and past them.
fn limits(all: &mut Totals) {
    let mut section = Section::new("limits of code and pool");
    let mut codes =
        vec![vec![], vec![0; 65_535], vec![0; 65_536], vec![0; 200_000], vec![0xcb; 65_535], vec![0xcb; 65_536]];
    for index in [0u16, 1, 4094, 4095, 4096, 4097, 65535] {
        let [high, low] = index.to_be_bytes();
        codes.extend([0xb2, 0xbb, 0x13].map(|op| vec![op, high, low]));
    }
    for pool in [vec![], vec![0; 4095], vec![9; 4096], vec![9; 4097], vec![7; 70_000]] {
        codes.iter().for_each(|code| section.near_room(code, &pool));
    }
    section.finish(all);
}

/// Codes up to 2 bytes with every number of words up to more than enough, those of 3 with enough and with some.
fn every_code(rng: &mut Rng, all: &mut Totals) {
    let mut section = Section::new("all codes up to 3 bytes");
    let mut progress = Progress::new("all codes up to 3 bytes", 1 << 24);
    let one = (0..=0xff).map(|a: u8| vec![a]);
    let two = (0..=0xffff).map(|ab: u16| ab.to_be_bytes().to_vec());
    for code in std::iter::once(vec![]).chain(one).chain(two) {
        let prepared = model::prepare(&code, EVERY_TAG);
        section.codes += 1;
        for records in 0..=code.len() * RECORD + 7 {
            (0..4).for_each(|entries| section.run(&code, EVERY_TAG, &prepared, (records, entries)));
        }
    }
    for abc in 0..1u32 << 24 {
        let code = &abc.to_be_bytes()[1..];
        let prepared = model::prepare(code, EVERY_TAG);
        section.codes += 1;
        section.run(code, EVERY_TAG, &prepared, (3 * RECORD + 1, 1));
        section.run(code, EVERY_TAG, &prepared, (rng.below(3 * RECORD + 1), rng.below(3)));
        progress.step(1);
    }
    drop(progress);
    section.finish(all);
}

fn any_pool(rng: &mut Rng, i: usize) -> Vec<u8> {
    let tags = [0, 1, 3, 4, 5, 6, 7, 7, 8, 9, 9, 10, 10, 11, 11, 12, 15, 16, 17, 18, 18, 19, 20];
    let count = rng.below([3, 12, 40][i % 3]);
    (0..count).map(|_| if rng.one_in(10) { rng.byte() } else { rng.pick(&tags) }).collect()
}

fn any_code(rng: &mut Rng, pool: &[u8], i: usize) -> Vec<u8> {
    if i % 23 == 0 {
        return (0..rng.below(9)).map(|_| rng.byte()).collect();
    }
    let shape = Shape {
        instructions: [2, 4, 8, 14][i % 4],
        entries: [1, 2, 4][rng.below(3)],
        bad_targets: if i % 3 == 0 { 6 } else { 0 },
        bad_indices: if i % 7 == 0 { 5 } else { 0 },
        bad_bytes: if i % 11 == 0 { 5 } else { 0 },
    };
    let mut code = build(rng, &Tagged::new(pool), &shape);
    if i % 2 == 1 {
        damage(rng, &mut code);
    }
    code
}

fn built_codes(seed: u64, count: usize, all: &mut Totals) {
    let sort = format!("built and damaged codes, every capacity, seed {seed}");
    let mut section = Section::new(&sort);
    let mut progress = Progress::new(&sort, count as u64);
    let mut rng = Rng::new(seed);
    for i in 0..count {
        let pool = any_pool(&mut rng, i);
        let code = any_code(&mut rng, &pool, i);
        section.every_room(&code, &pool, &mut rng);
        progress.step(1);
    }
    drop(progress);
    section.finish(all);
}

/// A store whose offsets rise, but for one in three; some reach past the largest word.
fn any_records(rng: &mut Rng, i: usize) -> Vec<u32> {
    let count = rng.below([2, 8, 20, 100][i % 4] * RECORD);
    let mut store: Vec<u32> = (0..count).map(|_| rng.word() as u32).collect();
    let mut at = rng.pick(&[0, 0, 0, 5, 0xffff_fff0u32]);
    let steep = rng.pick(&[3, 10, 1 << 28]);
    for offset in store.iter_mut().step_by(RECORD) {
        *offset = at;
        at = at.wrapping_add(1 + rng.below(steep) as u32);
    }
    if count > 0 && rng.one_in(3) {
        let one = rng.below(count.div_ceil(RECORD)) * RECORD;
        let (near, any) = (store[one], rng.word() as u32);
        store[one] = rng.pick(&[0, u32::MAX, near.wrapping_add(1), near.wrapping_sub(1), any]);
    }
    store
}

fn any_offset(rng: &mut Rng, store: &[u32]) -> u64 {
    let records = store.len().div_ceil(RECORD);
    match rng.below(4) {
        1 if records > 0 => store[rng.below(records) * RECORD] as u64,
        2 if records > 0 => store[rng.below(records) * RECORD] as u64 + (1 << 32),
        3 => rng.pick(&[0, u64::MAX, u32::MAX as u64, 1 << 32]),
        _ => rng.below(40) as u64,
    }
}

fn lookups(seed: u64, count: usize, all: &mut Totals) {
    let mut rng = Rng::new(seed);
    let mut totals = Totals::default();
    let (mut found, mut refused) = (0u64, 0u64);
    for i in 0..count {
        let store = any_records(&mut rng, i);
        let room = (store.len() / RECORD) as u64;
        let far = [u64::MAX, 1 << 63, 1 << 61, u64::MAX / 6 + 1, room + 1, store.len() as u64];
        let records = if rng.one_in(8) { rng.pick(&far) } else { rng.below(room as usize + 1) as u64 };
        for _ in 0..6 {
            let offset = any_offset(&mut rng, &store);
            let (ours, paper) = (station::lookup(&store, records, offset), model::lookup(&store, records, offset));
            totals.lookups += 1;
            found += paper.next;
            refused += (paper.number != 0) as u64;
            if ours != paper && totals.unknown() {
                let store = format!("{records} {}", words(&store, &[]));
                difference(&format!("lookup of {offset}"), &store, &format!("{ours:?}"), &format!("{paper:?}"));
            }
        }
    }
    println!("lookups in any store, seed {seed}: {} ({found} found, {refused} refused)", totals.lookups);
    println!("  differences: {} unknown", totals.unknown);
    all.add(&totals);
}

fn main() {
    let seed = number(1, 1);
    let count = number(2, 1_000_000) as usize;
    let mut all = Totals::default();
    let mut rng = Rng::new(seed);
    edge_codes(&mut rng, &mut all);
    limits(&mut all);
    every_code(&mut rng, &mut all);
    built_codes(seed, count, &mut all);
    lookups(seed, count, &mut all);
    all.finish("codes_against_model")
}
