//! What the programs print: progress, differences, counts and a last line with the totals.
use std::io::IsTerminal;
use std::time::{Duration, Instant};

/// At most so many differences of a sort are shrunk and printed; all are counted.
const SHOWN: u64 = 3;

#[derive(Default)]
pub struct Totals {
    pub cases: u64,
    pub lookups: u64,
    pub known: u64,
    pub unknown: u64,
}

impl Totals {
    /// Counts a difference that is not known; whether it is to be printed.
    pub fn unknown(&mut self) -> bool {
        self.unknown += 1;
        self.unknown <= SHOWN
    }

    pub fn add(&mut self, more: &Totals) {
        self.cases += more.cases;
        self.lookups += more.lookups;
        self.known += more.known;
        self.unknown += more.unknown;
    }

    /// The last line, which `compare/run` adds up. The status is 1 if a difference is unknown.
    pub fn finish(&self, program: &str) -> ! {
        println!(
            "{program}: cases {} lookups {} known-differences {} unknown-differences {}",
            self.cases, self.lookups, self.known, self.unknown
        );
        std::process::exit((self.unknown > 0) as i32)
    }
}

/// A difference, with the code or text and both answers.
pub fn difference(what: &str, input: &str, ours: &str, other: &str) {
    println!("DIFFERENCE, {what}");
    println!("  of {input}");
    println!("  ours:  {ours}");
    println!("  other: {other}");
}

/// The first words of both stores.
pub fn words(records: &[u32], entries: &[u32]) -> String {
    let first = |words: &[u32]| format!("{:x?}", &words[..words.len().min(24)]);
    format!("records {} entries {}", first(records), first(entries))
}

/// How often each refusal was given.
#[derive(Default)]
pub struct Refusals(std::collections::BTreeMap<u32, u64>);

impl Refusals {
    pub fn count(&mut self, number: u32) {
        *self.0.entry(number).or_default() += 1;
    }

    pub fn all(&self) -> u64 {
        self.0.values().sum()
    }
}

impl std::fmt::Display for Refusals {
    fn fmt(&self, f: &mut std::fmt::Formatter) -> std::fmt::Result {
        let each: Vec<String> = self.0.iter().map(|(n, times)| format!("{n}: {times}")).collect();
        write!(f, "{}", each.join(", "))
    }
}

/// How far a long run is: one changing line on a terminal, else a line now and then.
pub struct Progress {
    name: String,
    total: u64,
    done: u64,
    last: Instant,
    terminal: bool,
}

impl Progress {
    pub fn new(name: &str, total: u64) -> Progress {
        let terminal = std::io::stderr().is_terminal();
        Progress { name: name.into(), total, done: 0, last: Instant::now(), terminal }
    }

    pub fn step(&mut self, cases: u64) {
        self.done += cases;
        let pause = Duration::from_secs(if self.terminal { 1 } else { 15 });
        if self.last.elapsed() < pause {
            return;
        }
        self.last = Instant::now();
        let line = format!("{}: {} of {}", self.name, self.done, self.total);
        if self.terminal {
            eprint!("\r\x1b[K{line}");
        } else {
            eprintln!("... {line}");
        }
    }
}

impl Drop for Progress {
    fn drop(&mut self) {
        if self.terminal {
            eprint!("\r\x1b[K");
        }
    }
}

/// At most so many bytes of a code or text are shown.
const SHOWN_BYTES: usize = 64;

fn shown(sort: &str, bytes: &[u8], first: String) -> String {
    let more = if bytes.len() > SHOWN_BYTES { " .." } else { "" };
    format!("{sort} of {} bytes: {first}{more}", bytes.len())
}

pub fn shown_code(code: &[u8]) -> String {
    let first: Vec<String> = code.iter().take(SHOWN_BYTES).map(|b| format!("{b:02x}")).collect();
    shown("code", code, first.join(" "))
}

pub fn shown_text(text: &[u8]) -> String {
    shown("text", text, format!("\"{}\"", text[..text.len().min(SHOWN_BYTES)].escape_ascii()))
}

pub fn unhex(text: &str) -> Vec<u8> {
    text.split_whitespace().map(|b| u8::from_str_radix(b, 16).unwrap()).collect()
}

/// Drops pieces of a code or text, then single bytes, while it still differs.
pub fn shrunk(code: &[u8], differs: impl Fn(&[u8]) -> bool) -> Vec<u8> {
    let mut small = code.to_vec();
    let mut piece = small.len();
    while piece > 0 {
        let mut at = 0;
        while at < small.len() {
            let mut fewer = small.clone();
            fewer.drain(at..(at + piece).min(small.len()));
            if differs(&fewer) {
                small = fewer;
            } else {
                at += piece;
            }
        }
        piece /= 2;
    }
    small
}

/// The argument at a place as a number, or what it is by default.
pub fn number(place: usize, default: u64) -> u64 {
    match std::env::args().nth(place) {
        None => default,
        Some(text) => text.parse().unwrap_or_else(|_| {
            eprintln!("not a number: {text}");
            std::process::exit(2)
        }),
    }
}
