//! Runs of ours against another side on texts of every sort, the same for the crate and for the model.
use crate::parts::Method;
use crate::report::{difference, shown_text, shrunk, Progress, Refusals, Totals};
use crate::rng::Rng;
use crate::sides::{Call, Outcome, Side, OURS, PRINTS, READS, READS_METHOD, SAYS};
use crate::texts::{self, Maker, Symbol, Symbols};
use crate::{station, Part, PART};
use std::collections::BTreeMap;

/// The other side, and what it can be asked.
pub struct Reference {
    pub side: Side,
    pub symbols: Symbols,
    /// A text as the side takes it, if it does.
    pub taken: fn(Vec<u8>) -> Option<Vec<u8>>,
    /// For a text, how many words its parameter stores have.
    pub stores: fn(&[u8]) -> Vec<usize>,
    /// For a length that is to be written, how many bytes the outputs have.
    pub outputs: fn(usize) -> Vec<usize>,
    pub part: fn(&mut Rng, &[u8], bool) -> Part,
    pub method: fn(&mut Rng, &[u8]) -> Method,
    /// The difference of docs/DIFFERENCES.md that this is, if it is one: the call, ours, the other's.
    pub known: fn(&Call, &Outcome, &Outcome) -> Option<&'static str>,
}

/// Texts of one sort.
pub struct Section<'a> {
    reference: &'a Reference,
    sort: String,
    progress: Progress,
    texts: u64,
    yes: u64,
    no: u64,
    accepted: u64,
    refusals: Refusals,
    known: BTreeMap<&'static str, u64>,
    totals: Totals,
}

impl<'a> Section<'a> {
    pub fn new(reference: &'a Reference, sort: &str, texts: u64) -> Section<'a> {
        Section {
            reference,
            sort: sort.into(),
            progress: Progress::new(sort, texts),
            texts: 0,
            yes: 0,
            no: 0,
            accepted: 0,
            refusals: Refusals::default(),
            known: BTreeMap::new(),
            totals: Totals::default(),
        }
    }

    fn both(&self, call: &Call, text: &[u8]) -> (Outcome, Outcome) {
        (OURS.outcome(call, text), self.reference.side.outcome(call, text))
    }

    fn run(&mut self, call: &Call, text: &[u8]) {
        let (ours, other) = self.both(call, text);
        self.totals.cases += 1;
        match (&ours, ours.number()) {
            (Outcome::Says(true), _) => self.yes += 1,
            (Outcome::Says(false), _) => self.no += 1,
            (_, 0) => self.accepted += 1,
            (_, number) => self.refusals.count(number),
        }
        if ours.agrees(&other) {
            return;
        }
        if let Some(name) = (self.reference.known)(call, &ours, &other) {
            self.totals.known += 1;
            *self.known.entry(name).or_default() += 1;
        } else if self.totals.unknown() {
            self.report(call, text);
        }
    }

    fn differs(&self, call: &Call, text: &[u8]) -> bool {
        let (ours, other) = self.both(call, text);
        !ours.agrees(&other) && (self.reference.known)(call, &ours, &other).is_none()
    }

    fn report(&self, call: &Call, text: &[u8]) {
        // The crate's texts stay valid UTF-8.
        let is_utf8 = |text: &[u8]| std::str::from_utf8(text).is_ok();
        let small = shrunk(text, |fewer| is_utf8(fewer) == is_utf8(text) && self.differs(call, fewer));
        let (ours, other) = self.both(call, &small);
        difference(&call.to_string(), &shown_text(&small), &shown_outcome(&ours), &shown_outcome(&other));
    }

    fn text(&mut self) {
        self.texts += 1;
        self.progress.step(1);
    }

    pub fn checks(&mut self, text: &[u8]) {
        self.text();
        (0..SAYS.len()).for_each(|i| self.run(&Call::Says(i), text));
    }

    /// Every function that reads a text.
    pub fn readings(&mut self, text: &[u8]) {
        self.checks(text);
        self.run(&Call::ClassName, text);
        (0..READS.len()).for_each(|i| self.run(&Call::Read(i), text));
        for words in (self.reference.stores)(text) {
            (0..READS_METHOD.len()).for_each(|i| self.run(&Call::ReadMethod(i, words), text));
        }
    }

    /// A call that writes, at most so much, with each output that is tried for the length.
    fn writing(&mut self, text: &[u8], most: usize, call: impl Fn(usize) -> Call) {
        let length = match self.reference.side.outcome(&call(most), text) {
            Outcome::Answer(answer, _) if answer.number == 0 => answer.first as usize,
            _ => 0,
        };
        (self.reference.outputs)(length).into_iter().for_each(|room| self.run(&call(room), text));
    }

    fn print(&mut self, i: usize, text: &[u8], part: Part) {
        self.writing(text, printed_most(text, &part), |room| Call::Print(i, part, room));
    }

    fn print_method(&mut self, text: &[u8], method: &Method) {
        let Method { records, count, returned } = method;
        let most = printed_most(text, records) + printed_most(text, returned);
        self.writing(text, most, |room| Call::PrintMethod(records.clone(), *count, *returned, room));
    }

    pub fn identifier(&mut self, name: &[u8], descriptor: &[u8]) {
        self.text();
        self.writing(name, name.len() + descriptor.len(), |room| Call::Identifier(descriptor.to_vec(), room));
    }

    /// Printed from the parts that were read, in each form whose whole text it is.
    pub fn printed_back(&mut self, text: &[u8]) {
        for (i, read) in [station::field_whole(text), station::return_whole(text)].iter().enumerate() {
            if read.number == 0 {
                self.print(i, text, [read.dimensions, read.letter, read.start, read.length]);
            }
        }
        let mut records = vec![0; PART * text.len()];
        let read = station::method_whole(text, &mut records);
        if read.number == 0 {
            let returned = [read.dimensions, read.letter, read.start, read.length];
            self.print_method(text, &Method { records, count: read.parameters as u64, returned });
        }
    }

    pub fn finish(self, all: &mut Totals) {
        drop(self.progress);
        println!("{}: {} calls on {} texts", self.sort, self.totals.cases, self.texts);
        println!("  yes {}, no {}, accepted {}", self.yes, self.no, self.accepted);
        println!("  refused {} ({})", self.refusals.all(), self.refusals);
        for (name, times) in &self.known {
            println!("  known difference, {name}: {times} times");
        }
        println!("  differences: {} known, {} unknown", self.totals.known, self.totals.unknown);
        all.add(&self.totals);
    }
}

/// Enough bytes for these parts, and for `(` and `)`.
fn printed_most(text: &[u8], parts: &[u32]) -> usize {
    let most = |part: &[u32]| part[0].min(255) as usize + 2 + text.len().min(part[3] as usize);
    parts.chunks_exact(PART).map(most).sum::<usize>() + 2
}

/// The first words or bytes of what was lent.
fn shown_outcome(outcome: &Outcome) -> String {
    match outcome {
        Outcome::Says(answer) => format!("{answer}"),
        Outcome::Parts(parts, store) => format!("{parts:?} store {:?}", &store[..store.len().min(24)]),
        Outcome::Answer(answer, out) => format!("{answer:?} output {}", shown_text(out)),
    }
}

fn every(reference: &Reference, sort: &str, symbols: &[Symbol], most: u32, all: &mut Totals) {
    let sort = format!("{sort}, up to {most} of {} symbols", symbols.len());
    let mut section = Section::new(reference, &sort, texts::count_every(symbols.len(), most));
    texts::every(symbols, most, &mut |text| section.readings(text));
    section.finish(all);
}

fn module_names(reference: &Reference, all: &mut Totals) {
    let (symbols, most) = (reference.symbols.of_module_names(), 7);
    let sort = format!("names as of modules, up to {most} of {} symbols", symbols.len());
    let mut section = Section::new(reference, &sort, texts::count_every(symbols.len(), most));
    texts::every(&symbols, most, &mut |text| section.checks(text));
    section.finish(all);
}

/// Every pair of symbols, in every surrounding.
fn pairs(reference: &Reference, all: &mut Totals) {
    let symbols = &reference.symbols.all;
    let count = symbols.len() * symbols.len() * texts::AROUND.len();
    let sort = format!("every two of {} symbols, in {} surroundings", symbols.len(), texts::AROUND.len());
    let mut section = Section::new(reference, &sort, count as u64);
    for (before, after) in texts::AROUND {
        for first in symbols {
            for second in symbols {
                section.readings(&[before.as_bytes(), first, second, after.as_bytes()].concat());
            }
        }
    }
    section.finish(all);
}

/// The special names with one change by any symbol, or with two by the special ones.
fn special_names(reference: &Reference, all: &mut Totals) {
    let special = reference.symbols.special();
    let mut section = Section::new(reference, "neighbours of <init> and <clinit>", 150_000);
    for name in [&b"<init>"[..], b"<clinit>"] {
        section.checks(name);
        let near = texts::neighbours(name, &special);
        let twice = near.iter().flat_map(|near| texts::neighbours(near, &special));
        let once = texts::neighbours(name, &reference.symbols.all).into_iter();
        once.chain(twice).filter_map(reference.taken).for_each(|text| section.checks(&text));
    }
    section.finish(all);
}

fn built(reference: &Reference, seed: u64, count: u64, all: &mut Totals) {
    let mut rng = Rng::new(seed);
    let mut section = Section::new(reference, &format!("built and damaged texts, seed {seed}"), count);
    for i in 0..count {
        let made = Maker { rng: &mut rng, high: &reference.symbols.high }.any(i as usize);
        if let Some(text) = (reference.taken)(made) {
            section.readings(&text);
            section.printed_back(&text);
        }
    }
    section.finish(all);
}

fn limits(reference: &Reference, all: &mut Totals) {
    let texts: Vec<Vec<u8>> = texts::limits().into_iter().filter_map(reference.taken).collect();
    let mut section = Section::new(reference, "limits of dimensions, parameters and bytes", texts.len() as u64);
    for text in &texts {
        section.readings(text);
        section.printed_back(text);
    }
    section.finish(all);
}

/// A field, a return and a method of parts that the side can be asked for.
fn print_some(section: &mut Section, rng: &mut Rng, text: &[u8]) {
    for (print, is_return) in [false, true].into_iter().enumerate() {
        let part = (section.reference.part)(rng, text, is_return);
        section.print(print, text, part);
    }
    let method = (section.reference.method)(rng, text);
    section.print_method(text, &method);
}

/// Parts printed from texts that hold class names.
fn printings(reference: &Reference, seed: u64, count: u64, all: &mut Totals) {
    let mut rng = Rng::new(seed);
    let mut section = Section::new(reference, &format!("printings, seed {seed}"), count);
    for i in 0..count {
        let mut maker = Maker { rng: &mut rng, high: &reference.symbols.high };
        let mut made = maker.class_name();
        if i % 3 == 1 {
            maker.damage(&mut made);
        }
        let Some(text) = (reference.taken)(made) else { continue };
        section.text();
        print_some(&mut section, &mut rng, &text);
    }
    section.finish(all);
}

/// Parts that name a whole long text, once and twice, and others.
fn long_printings(reference: &Reference, seed: u64, all: &mut Totals) {
    let mut rng = Rng::new(seed);
    let sizes = [32_760, 32_764, 32_765, 65_279, 65_280, 65_531, 65_532, 65_533, 65_534, 65_535, 65_536];
    let sort = format!("printings from long texts, seed {seed}");
    let mut section = Section::new(reference, &sort, sizes.len() as u64);
    for bytes in sizes {
        let Some(text) = (reference.taken)(vec![b'a'; bytes]) else { continue };
        section.text();
        for dimensions in [0, 1, 255] {
            let part = [dimensions, b'L' as u32, 0, bytes as u32];
            (0..PRINTS.len()).for_each(|print| section.print(print, &text, part));
            for records in [vec![], part.to_vec()] {
                let count = (records.len() / PART) as u64;
                section.print_method(&text, &Method { records, count, returned: part });
            }
        }
        (0..100).for_each(|_| print_some(&mut section, &mut rng, &text));
    }
    section.finish(all);
}

fn identifiers(reference: &Reference, seed: u64, count: u64, all: &mut Totals) {
    let mut rng = Rng::new(seed);
    let mut section = Section::new(reference, &format!("identifiers, seed {seed}"), count);
    for i in 0..count {
        let mut maker = Maker { rng: &mut rng, high: &reference.symbols.high };
        let (mut name, mut descriptor) = (maker.method_name(), maker.method());
        match i % 4 {
            0 => maker.damage(&mut name),
            1 => maker.damage(&mut descriptor),
            _ => {}
        }
        if let (Some(name), Some(descriptor)) = ((reference.taken)(name), (reference.taken)(descriptor)) {
            section.identifier(&name, &descriptor);
        }
    }
    section.finish(all);
}

/// Names and descriptors at the limits, each with a short one and with the others.
fn long_identifiers(reference: &Reference, all: &mut Totals) {
    let a_name = |bytes: usize| vec![b'a'; bytes];
    let names = [vec![], a_name(1), b"<init>".to_vec(), b"<".to_vec(), a_name(65_535), a_name(65_536)];
    let of = |bytes: usize| [b"(L", &a_name(bytes - 5)[..], b";)V"].concat();
    let descriptors = [vec![], b"()V".to_vec(), b"()VV".to_vec(), of(65_534), of(65_535), of(65_536)];
    let mut section = Section::new(reference, "identifiers at the limits", 36);
    for name in names.into_iter().filter_map(reference.taken) {
        for descriptor in descriptors.iter().cloned().filter_map(reference.taken) {
            section.identifier(&name, &descriptor);
        }
    }
    section.finish(all);
}

/// All sorts; `count` built texts, printings and identifiers each.
pub fn everything(reference: &Reference, seed: u64, count: u64) -> Totals {
    let mut all = Totals::default();
    every(reference, "all texts", &reference.symbols.special(), 5, &mut all);
    every(reference, "all texts as of descriptors", &reference.symbols.of_descriptors(), 7, &mut all);
    module_names(reference, &mut all);
    pairs(reference, &mut all);
    special_names(reference, &mut all);
    limits(reference, &mut all);
    built(reference, seed, count, &mut all);
    printings(reference, seed, count, &mut all);
    long_printings(reference, seed, &mut all);
    identifiers(reference, seed, count, &mut all);
    long_identifiers(reference, &mut all);
    all
}
