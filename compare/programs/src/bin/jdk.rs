//! The methods, names and descriptors of real classes, ours against the crate; the texts against the model as well.
//! usage: jdk FOLDER, in which every file NAME.class is read
use cafebabe::visible::Pool;
use compare::classes::{self, Class};
use compare::crate_side::{self, Indices};
use compare::model::is_pool_user;
use compare::report::{self, Progress, Refusals, Totals};
use compare::station::{self, Answer};
use compare::text_runs::{Reference, Section};
use compare::{references, ENTRY, RECORD};
use std::collections::BTreeSet;

/// What the stores hold before.
const OLD: u32 = 7;

#[derive(Default)]
struct Counts {
    totals: Totals,
    bytes: usize,
    instructions: u64,
    entries: u64,
    found: u64,
    refusals: Refusals,
}

struct Stores {
    records: Vec<u32>,
    entries: Vec<u32>,
}

impl Stores {
    fn new() -> Stores {
        Stores { records: vec![OLD; RECORD * 65_535], entries: vec![OLD; ENTRY * 16_384] }
    }

    /// The used words with 0 for each pool index, as the crate's side has it; they are old again afterwards.
    fn take(&mut self, answer: Answer) -> (Vec<u32>, Vec<u32>) {
        let (records, entries) = (answer.first as usize * RECORD, answer.next as usize * ENTRY);
        let mut used = (self.records[..records].to_vec(), self.entries[..entries].to_vec());
        for record in used.0.chunks_mut(RECORD).filter(|record| is_pool_user(record[1] as u8)) {
            record[2] = 0;
        }
        self.records[..records].fill(OLD);
        self.entries[..entries].fill(OLD);
        used
    }
}

/// What differs for a code, if something does.
fn difference<'a>(
    code: &'a [u8],
    tags: &[u8],
    pool: &Pool<'a>,
    stores: &mut Stores,
    counts: &mut Counts,
) -> Option<String> {
    let answer = station::decode(code, tags, &mut stores.records, &mut stores.entries);
    let decoded = match (answer.number, pool.decode(code)) {
        (0, Ok(decoded)) => decoded,
        (number, Err(_)) if number > 0 => {
            counts.refusals.count(number);
            *stores = Stores::new();
            return None;
        }
        (_, theirs) => return Some(format!("acceptance: the crate {:?}", theirs.map(|d| d.opcodes.len()).ok())),
    };
    counts.instructions += answer.first;
    counts.entries += answer.next;
    for offset in (0..code.len() + 2).step_by(1 + code.len() / 200) {
        let ours = station::lookup(&stores.records, answer.first, offset as u64);
        let theirs = decoded.get_opcode_index(offset);
        counts.totals.lookups += 1;
        counts.found += ours.next;
        if ours != theirs.map_or(Answer::accepted(0, 0), |i| Answer::accepted(i as u64, 1)) {
            return Some(format!("lookup of {offset}: the crate {theirs:?}"));
        }
    }
    let mut theirs = (vec![], vec![]);
    crate_side::stores(&decoded, Indices::Zero, &mut theirs.0, &mut theirs.1);
    (stores.take(answer) != theirs).then_some("words of the stores".into())
}

fn methods(classes: &[Class], all: &mut Totals) {
    let mut counts = Counts::default();
    let mut stores = Stores::new();
    let mut progress = Progress::new("classes", classes.len() as u64);
    for class in classes {
        progress.step(1);
        let Some(pool) = class.pool() else { continue };
        for code in class.codes() {
            counts.totals.cases += 1;
            counts.bytes += code.len();
            if let Some(theirs) = difference(code, &class.tags, &pool, &mut stores, &mut counts) {
                let ours = station::decode(code, &class.tags, &mut stores.records, &mut stores.entries);
                if counts.totals.unknown() {
                    report::difference("a real method", &report::shown_code(code), &format!("{ours:?}"), &theirs);
                }
                stores = Stores::new();
            }
        }
    }
    drop(progress);
    println!("{} methods of {} bytes", counts.totals.cases, counts.bytes);
    println!("  accepted with {} instructions, {} entries", counts.instructions, counts.entries);
    println!("  refused by both {} ({})", counts.refusals.all(), counts.refusals);
    println!("  lookups {} ({} found)", counts.totals.lookups, counts.found);
    println!("  differences: {} unknown", counts.totals.unknown);
    all.add(&counts.totals);
}

/// Each text once, and each pair of a name and a descriptor.
fn texts(classes: &[Class], reference: &Reference, against: &str, is_taken: fn(&[u8]) -> bool, all: &mut Totals) {
    let pairs: BTreeSet<(&[u8], &[u8])> = classes.iter().flat_map(Class::members).collect();
    let members = pairs.iter().flat_map(|(name, descriptor)| [*name, *descriptor]);
    let texts: BTreeSet<&[u8]> = classes.iter().flat_map(Class::named).chain(members).collect();
    let mut section = Section::new(reference, &format!("names and descriptors, {against}"), texts.len() as u64);
    for text in texts.into_iter().filter(|text| is_taken(text)) {
        section.readings(text);
        section.printed_back(text);
    }
    section.finish(all);
    let mut section = Section::new(reference, &format!("members' identifiers, {against}"), pairs.len() as u64);
    for (name, descriptor) in pairs.into_iter().filter(|(name, descriptor)| is_taken(name) && is_taken(descriptor)) {
        section.identifier(name, descriptor);
    }
    section.finish(all);
}

fn main() {
    let Some(folder) = std::env::args().nth(1) else {
        eprintln!("usage: jdk FOLDER");
        std::process::exit(2)
    };
    let classes = classes::all(&folder);
    let left = classes.iter().filter(|class| class.pool().is_none()).count();
    println!("{} classes; without the methods of {left}, whose pool is over its limit or unread", classes.len());
    let mut all = Totals::default();
    methods(&classes, &mut all);
    texts(&classes, &references::the_crate(), "against the crate", |text| std::str::from_utf8(text).is_ok(), &mut all);
    texts(&classes, &references::the_model(), "against the model", |_| true, &mut all);
    all.finish("jdk")
}
