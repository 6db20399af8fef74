//! Times of our decoding and of the crate's, both with the check of the jumps, in one process on the same codes. Our stores
//! are lent as they are, not cleared between the codes. usage: bench [ROUNDS [FOLDER]], a folder with the classes of a JDK
use cafebabe::visible::Pool;
use compare::classes::{self, Class};
use compare::pools::{self, MadePool};
use compare::report::{number, unhex};
use compare::rng::Rng;
use compare::station::{self, Answer};
use compare::{ENTRY, RECORD};
use std::hint::black_box;
use std::time::Instant;

/// An instruction with no jump, of 1 or 2 bytes.
fn plain(rng: &mut Rng, code: &mut Vec<u8>) {
    match rng.below(8) {
        0 => code.push(0x00),
        1 => code.push(rng.pick(&[0x57, 0x59, 0x60, 0x64, 0x7e, 0x94, 0xbe])),
        2 => code.push(0x1a + rng.below(20) as u8),
        3 => code.push(0x3b + rng.below(20) as u8),
        4 => code.extend([0x15 + rng.below(5) as u8, rng.byte()]),
        5 => code.extend([0x36 + rng.below(5) as u8, rng.byte()]),
        6 => code.extend([0x10, rng.byte()]),
        _ => code.push(rng.pick(&[0x02, 0x03, 0x04, 0x05, 0x2e, 0x4f])),
    }
}

/// So many bytes; with `jumps` each seventh instruction jumps to one that is near.
fn long_code(rng: &mut Rng, bytes: usize, jumps: bool) -> Vec<u8> {
    let (mut code, mut starts, mut jumping) = (vec![], vec![], vec![]);
    while code.len() < bytes - 3 {
        starts.push(code.len());
        if jumps && starts.len() % 7 == 0 {
            jumping.push(starts.len() - 1);
            code.extend([rng.pick(&[0x99, 0x9a, 0xa7, 0xa0, 0xc6]), 0, 0]);
        } else {
            plain(rng, &mut code);
        }
    }
    code.resize(bytes, 0x00);
    for i in jumping {
        let near = (i + rng.below(2000)).saturating_sub(1000).min(starts.len() - 1);
        let jump = (starts[near] as i32 - starts[i] as i32) as i16;
        code[starts[i] + 1..][..2].copy_from_slice(&jump.to_be_bytes());
    }
    code
}

/// A tableswitch with these jumps, its default the first byte after it, which is a return, and so many nops.
fn table(targets: Vec<i32>, nops: usize) -> Vec<u8> {
    let words = [table_end(targets.len()), 0, targets.len() as i32 - 1].into_iter().chain(targets);
    let mut code = vec![0xaa, 0, 0, 0];
    code.extend(words.flat_map(|w| w.to_be_bytes()));
    code.push(0xb1);
    code.resize(code.len() + nops, 0x00);
    code
}

/// Where a tableswitch of so many entries ends that is the first instruction.
fn table_end(entries: usize) -> i32 {
    (16 + 4 * entries) as i32
}

/// So many entries that lead to the switch itself and to the return after it.
fn near_table(entries: usize) -> Vec<u8> {
    table((0..entries).map(|i| if i % 3 == 0 { 0 } else { table_end(entries) }).collect(), 0)
}

/// So many entries that each lead to any of so many nops: the dearest check of jumps that was found.
fn far_table(rng: &mut Rng, entries: usize, nops: usize) -> Vec<u8> {
    table((0..entries).map(|_| table_end(entries) + 1 + rng.below(nops) as i32).collect(), nops)
}

fn cases(pool: &MadePool) -> Vec<(&'static str, Vec<u8>)> {
    let rng = &mut Rng::new(1);
    let having = |tag: u8| pool.tags.iter().position(|t| *t == tag).unwrap() as u8;
    vec![
        ("1 byte: a return", unhex("b1")),
        ("8 bytes: a jump, an increment", unhex("1a 99 00 06 84 00 ff b1")),
        ("8 bytes: no jump", unhex("1a 10 05 60 3c 1b 04 ac")),
        ("8 bytes: a field, a call", vec![0x2a, 0xb4, 0, having(9), 0xb6, 0, having(10), 0xb1]),
        ("600 plain bytes", long_code(rng, 600, false)),
        ("600 bytes, one jump in seven", long_code(rng, 600, true)),
        ("60,000 plain bytes", long_code(rng, 60_000, false)),
        ("60,000 bytes, one jump in seven", long_code(rng, 60_000, true)),
        ("tableswitch of 10,000", near_table(10_000)),
        ("the same, to any of 20,000 nops", far_table(rng, 10_000, 20_000)),
    ]
}

/// Nanoseconds for one of a batch.
fn time(batch: usize, mut run: impl FnMut()) -> f64 {
    let start = Instant::now();
    (0..batch).for_each(|_| run());
    start.elapsed().as_nanos() as f64 / batch as f64
}

/// The least of these times, the middle one, and what nine in ten stay below.
struct Spread {
    best: f64,
    median: f64,
    high: f64,
}

impl Spread {
    fn of(mut times: Vec<f64>) -> Spread {
        times.sort_by(f64::total_cmp);
        Spread { best: times[0], median: times[times.len() / 2], high: times[times.len() * 9 / 10] }
    }

    fn shown(&self) -> String {
        format!("{} ({}, {})", shown(self.best), shown(self.median), shown(self.high))
    }
}

fn shown(ns: f64) -> String {
    match ns {
        _ if ns < 1e4 => format!("{ns:.1} ns"),
        _ if ns < 1e7 => format!("{:.1} us", ns / 1e3),
        _ => format!("{:.1} ms", ns / 1e6),
    }
}

/// Our rounds and the crate's, one of each in turn, and a row of the table.
fn row(name: &str, rounds: u64, batch: usize, mut ours: impl FnMut(), mut theirs: impl FnMut()) {
    let (our_times, their_times): (Vec<f64>, Vec<f64>) =
        (0..rounds).map(|_| (time(batch, &mut ours), time(batch, &mut theirs))).unzip();
    let mut ratios: Vec<f64> = our_times.iter().zip(&their_times).map(|(ours, theirs)| ours / theirs).collect();
    ratios.sort_by(f64::total_cmp);
    let (low, high) = (ratios[ratios.len() / 10], ratios[ratios.len() * 9 / 10]);
    let (o, t) = (Spread::of(our_times), Spread::of(their_times));
    let ratio = format!("{:.2} ({:.2}, {low:.2} to {high:.2})", o.best / t.best, o.median / t.median);
    println!("{name:<32} {:<34} {:<34} {ratio}", o.shown(), t.shown());
}

struct Stores {
    records: Vec<u32>,
    entries: Vec<u32>,
}

impl Stores {
    fn decode(&mut self, code: &[u8], tags: &[u8]) -> Answer {
        black_box(station::decode(black_box(code), black_box(tags), &mut self.records, &mut self.entries))
    }
}

fn made_codes(rounds: u64, stores: &mut Stores) {
    let made = pools::each();
    let cases = cases(&made);
    let pool = made.read();
    for (name, code) in &cases {
        let answer = stores.decode(code, &made.tags);
        let count = pool.decode(code).map(|decoded| decoded.opcodes.len() as u64).ok();
        assert_eq!((answer.number, Some(answer.first)), (0, count), "{name}");
        let theirs = || drop(black_box(black_box(&pool).decode(black_box(code))));
        // About a third of a millisecond.
        let batch = ((300_000.0 / time(10, theirs)) as usize).clamp(1, 20_000);
        let ours = || {
            stores.decode(code, &made.tags);
        };
        row(name, rounds, batch, ours, theirs);
    }
}

/// A pass over all methods of the classes.
fn real_methods(rounds: u64, classes: &[Class], stores: &mut Stores) {
    let pools: Vec<(&Class, Pool)> = classes.iter().filter_map(|class| Some((class, class.pool()?))).collect();
    let methods: usize = pools.iter().map(|(class, _)| class.codes().count()).sum();
    let ours = || {
        for (class, _) in &pools {
            for code in class.codes() {
                stores.decode(code, &class.tags);
            }
        }
    };
    let theirs = || {
        for (class, pool) in &pools {
            for code in class.codes() {
                drop(black_box(pool.decode(black_box(code))));
            }
        }
    };
    row(&format!("{methods} methods of a JDK"), rounds, 1, ours, theirs);
}

fn main() {
    let rounds = number(1, 60).max(1);
    let mut stores = Stores { records: vec![0; RECORD * 65_536], entries: vec![0; ENTRY * 16_384] };
    println!("{rounds} rounds, the two in turn; times: best (median, nine in ten below)");
    println!("ratio: of the bests (of the medians, eight in ten rounds' own)");
    println!("{:<32} {:<34} {:<34} ours/crate", "code", "ours", "crate");
    made_codes(rounds, &mut stores);
    if let Some(folder) = std::env::args().nth(2) {
        // A pass takes about a second.
        real_methods(rounds.div_ceil(5), &classes::all(&folder), &mut stores);
    }
}
