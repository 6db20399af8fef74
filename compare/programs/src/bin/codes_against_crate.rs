//! Our decoding and lookup against the crate's. usage: codes_against_crate [SEED [COUNT]], COUNT codes for each pool
use cafebabe::bytecode::ByteCode;
use cafebabe::visible::Pool;
use compare::codes::{large, small, Tagged};
use compare::crate_side::{self, Indices};
use compare::pools::{self, MadePool};
use compare::report::{difference, number, shown_code, shrunk, words, Progress, Refusals, Totals};
use compare::rng::Rng;
use compare::station::{self, Answer};
use compare::{edges, ENTRY, RECORD};

/// What the stores hold before.
const OLD: u32 = 0xa5a5_5a5a;

/// Our stores and what the crate says of them, kept for the next code.
struct Stores {
    records: Vec<u32>,
    entries: Vec<u32>,
    crate_records: Vec<u32>,
    crate_entries: Vec<u32>,
}

impl Stores {
    /// Room for any code of so many bytes, and a part of a record and of an entry more.
    fn new(bytes: usize) -> Stores {
        Stores {
            records: vec![OLD; bytes * RECORD + 5],
            entries: vec![OLD; bytes * ENTRY + 1],
            crate_records: vec![],
            crate_entries: vec![],
        }
    }

    /// What differs from the crate after an acceptance, with both sides.
    fn difference(&mut self, answer: Answer, decoded: &ByteCode) -> Option<Verdict> {
        crate_side::stores(decoded, Indices::Told, &mut self.crate_records, &mut self.crate_entries);
        let (records, entries) = (self.crate_records.len(), self.crate_entries.len());
        let counts = Answer::accepted((records / RECORD) as u64, (entries / ENTRY) as u64);
        let both = |what| {
            let ours = format!("{answer:?} {}", words(&self.records, &self.entries));
            Verdict::Different(what, ours, words(&self.crate_records, &self.crate_entries))
        };
        if answer != counts {
            return Some(both("counts"));
        }
        if self.records[..records] != self.crate_records || self.entries[..entries] != self.crate_entries {
            return Some(both("words of the stores"));
        }
        if self.records[records..].iter().chain(&self.entries[entries..]).any(|w| *w != OLD) {
            return Some(both("a word past the used ones"));
        }
        None
    }

    /// Makes the words old again that an acceptance used.
    fn renew(&mut self) {
        self.records[..self.crate_records.len()].fill(OLD);
        self.entries[..self.crate_entries.len()].fill(OLD);
    }

    /// Whether a refusal left every word 0. They are old again afterwards.
    fn were_cleared(&mut self) -> bool {
        let cleared = self.records.iter().chain(&self.entries).all(|w| *w == 0);
        self.records.fill(OLD);
        self.entries.fill(OLD);
        cleared
    }
}

/// Which offsets of an accepted code are looked up.
#[derive(Clone, Copy)]
enum Lookups {
    All,
    Some,
}

impl Lookups {
    fn offsets(self, length: usize) -> Vec<u64> {
        let end = length as u64 + 3;
        match self {
            Lookups::All => (0..end).chain([u32::MAX as u64, 1 << 32, 1 << 63, u64::MAX]).collect(),
            Lookups::Some => (0..end).step_by(length / 30 + 1).collect(),
        }
    }
}

enum Verdict {
    Accepted {
        answer: Answer,
        lookups: u64,
        hits: u64,
    },
    Refused(u32),
    Known,
    /// What differs, our answer, the crate's.
    Different(&'static str, String, String),
}

/// The crate's count of a tableswitch from the least number to the largest wraps to 0, and it accepts with no entries.
fn is_known(code: &[u8], answer: Answer) -> bool {
    let high = answer.place as usize;
    let bounds = high.checked_sub(4).and_then(|low| code.get(low..high + 4));
    answer.number == 10 && bounds == Some(&[0x80, 0, 0, 0, 0x7f, 0xff, 0xff, 0xff])
}

fn lookups(records: &[u32], answer: Answer, decoded: &ByteCode, offsets: &[u64]) -> Result<u64, Verdict> {
    let mut hits = 0;
    for offset in offsets {
        let ours = station::lookup(records, answer.first, *offset);
        let theirs = decoded.get_opcode_index(*offset as usize);
        let want = theirs.map_or(Answer::accepted(0, 0), |i| Answer::accepted(i as u64, 1));
        if ours != want {
            return Err(Verdict::Different("lookup", format!("at {offset}: {ours:?}"), format!("{theirs:?}")));
        }
        hits += theirs.is_some() as u64;
    }
    Ok(hits)
}

fn judge_accepted(code: &[u8], answer: Answer, decoded: &ByteCode, stores: &mut Stores, which: Lookups) -> Verdict {
    if let Some(different) = stores.difference(answer, decoded) {
        return different;
    }
    let offsets = which.offsets(code.len());
    match lookups(&stores.records, answer, decoded, &offsets) {
        Err(different) => different,
        Ok(hits) => {
            stores.renew();
            Verdict::Accepted { answer, lookups: offsets.len() as u64, hits }
        }
    }
}

fn judge<'a>(code: &'a [u8], pool: &Pool<'a>, tags: &[u8], stores: &mut Stores, which: Lookups) -> Verdict {
    let answer = station::decode(code, tags, &mut stores.records, &mut stores.entries);
    let different = |what, theirs: String| Verdict::Different(what, format!("{answer:?}"), theirs);
    match (answer.number, pool.decode(code)) {
        (0, Ok(decoded)) => judge_accepted(code, answer, &decoded, stores, which),
        (0, Err(error)) => different("acceptance", format!("refused: {error}")),
        (_, _) if !stores.were_cleared() => different("a refusal leaves words", "not asked".into()),
        (_, Ok(_)) if is_known(code, answer) => Verdict::Known,
        (_, Ok(decoded)) => different("acceptance", format!("accepted: {} instructions", decoded.opcodes.len())),
        (number, Err(_)) => Verdict::Refused(number),
    }
}

/// The same judgement with everything made anew: for a code that is being shrunk.
fn judge_alone(code: &[u8], made: &MadePool, which: Lookups) -> Verdict {
    judge(code, &made.read(), &made.tags, &mut Stores::new(code.len() + 1), which)
}

/// Codes of one sort over one pool.
struct Section<'a> {
    made: &'a MadePool,
    which: Lookups,
    stores: Stores,
    totals: Totals,
    accepted: u64,
    instructions: u64,
    entries: u64,
    hits: u64,
    refusals: Refusals,
}

impl<'a> Section<'a> {
    fn new(made: &'a MadePool, which: Lookups) -> Section<'a> {
        Section {
            made,
            which,
            stores: Stores::new(0),
            totals: Totals::default(),
            accepted: 0,
            instructions: 0,
            entries: 0,
            hits: 0,
            refusals: Refusals::default(),
        }
    }

    fn batch<C: AsRef<[u8]>>(&mut self, codes: &[C]) {
        let pool = self.made.read();
        self.stores = Stores::new(codes.iter().map(|code| code.as_ref().len()).max().unwrap_or(0));
        for code in codes {
            let verdict = judge(code.as_ref(), &pool, &self.made.tags, &mut self.stores, self.which);
            self.count(code.as_ref(), verdict);
        }
    }

    fn count(&mut self, code: &[u8], verdict: Verdict) {
        self.totals.cases += 1;
        match verdict {
            Verdict::Accepted { answer, lookups, hits } => {
                self.accepted += 1;
                self.instructions += answer.first;
                self.entries += answer.next;
                self.totals.lookups += lookups;
                self.hits += hits;
            }
            Verdict::Refused(number) => self.refusals.count(number),
            Verdict::Known => self.totals.known += 1,
            Verdict::Different(..) => self.report(code),
        }
    }

    fn report(&mut self, code: &[u8]) {
        // What a difference left in the stores must not show again.
        self.stores = Stores::new(self.stores.entries.len() / ENTRY);
        if !self.totals.unknown() {
            return;
        }
        let differs = |code: &[u8]| matches!(judge_alone(code, self.made, self.which), Verdict::Different(..));
        let small = shrunk(code, differs);
        match judge_alone(&small, self.made, self.which) {
            Verdict::Different(what, ours, theirs) => {
                difference(&format!("{what}, pool of {}", self.made.name), &shown_code(&small), &ours, &theirs)
            }
            _ => difference("not the same twice", &shown_code(code), "", ""),
        }
    }

    fn finish(self, sort: &str, all: &mut Totals) {
        println!("{sort}, pool of {}: {} codes", self.made.name, self.totals.cases);
        println!("  accepted {} ({} instructions, {} entries)", self.accepted, self.instructions, self.entries);
        println!("  refused by both {} ({})", self.refusals.all(), self.refusals);
        println!("  lookups {} ({} found)", self.totals.lookups, self.hits);
        println!("  differences: {} known, {} unknown", self.totals.known, self.totals.unknown);
        all.add(&self.totals);
    }
}

fn edge_codes(made: &MadePool, all: &mut Totals) {
    for (sort, codes, which) in
        [("edges", edges::short(), Lookups::All), ("edges, longest codes", edges::longest(), Lookups::Some)]
    {
        let mut section = Section::new(made, which);
        section.batch(&codes);
        section.finish(sort, all);
    }
}

/// All codes of up to 3 bytes, those of 3 in batches by their first.
fn every_code(made: &MadePool, all: &mut Totals) {
    let sort = "all codes up to 3 bytes";
    let mut progress = Progress::new(sort, 1 << 24);
    let mut section = Section::new(made, Lookups::All);
    section.batch(&[[]; 1]);
    section.batch(&(0..=0xff).map(|a: u8| [a]).collect::<Vec<_>>());
    section.batch(&(0..=0xffff).map(|ab: u16| ab.to_be_bytes()).collect::<Vec<_>>());
    for a in 0..=0xff {
        let codes: Vec<[u8; 3]> = (0..=0xffffu16).map(|bc| [a, (bc >> 8) as u8, bc as u8]).collect();
        section.batch(&codes);
        progress.step(1 << 16);
    }
    drop(progress);
    section.finish(sort, all);
}

fn built_codes(made: &MadePool, seed: u64, count: usize, is_large: bool, all: &mut Totals) {
    let (sort, make, which, batch): (_, fn(&mut Rng, &Tagged, usize) -> Vec<u8>, _, _) = match is_large {
        false => ("built and damaged codes", small, Lookups::All, 10_000),
        true => ("large codes", large, Lookups::Some, 50),
    };
    let mut rng = Rng::new(seed);
    let tagged = Tagged::new(&made.tags);
    let mut progress = Progress::new(sort, count as u64);
    let mut section = Section::new(made, which);
    for start in (0..count).step_by(batch) {
        let codes: Vec<Vec<u8>> = (start..count.min(start + batch)).map(|i| make(&mut rng, &tagged, i)).collect();
        section.batch(&codes);
        progress.step(codes.len() as u64);
    }
    drop(progress);
    section.finish(&format!("{sort}, seed {seed}"), all);
}

fn main() {
    let seed = number(1, 1);
    let count = number(2, 300_000) as usize;
    let made = pools::all();
    let mut all = Totals::default();
    edge_codes(&made[0], &mut all);
    for pool in &made[..2] {
        every_code(pool, &mut all);
    }
    for pool in &made {
        built_codes(pool, seed, count, false, &mut all);
    }
    for pool in &made[..2] {
        built_codes(pool, seed, count / 200, true, &mut all);
    }
    println!("known difference: tableswitch from -2147483648 to 2147483647, here refusal 10: {} times", all.known);
    all.finish("codes_against_crate")
}
