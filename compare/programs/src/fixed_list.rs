//! The lines of the fixed list that the crate replay runs. Every answer in them is the model's, and for the reading of a
//! text it is seen to be the crate's as well; crates/replay/src/line.rt and case.rt say how a line is written.
use crate::crate_texts::{self, REFUSED};
use crate::station::{Answer, Parts};
use crate::{model, text_model as texts, Part, PART};
use std::collections::{BTreeMap, BTreeSet};

/// What replay has room for: the bytes of a file and of an output, those of an input, the words of a store.
const FILE_ROOM: usize = 131_072;
const BYTES_ROOM: usize = 65_536;
const WORDS_ROOM: usize = 16_384;

/// The most bytes of a text of the crate's domain.
const TEXT_LIMIT: usize = 65_535;

/// Replay takes a decimal number from here on for the largest.
const TOO_LARGE: u64 = 10 << 60;

/// So many equal numbers or more are written once, with how many times they come.
const SHORTEST_RUN: usize = 4;

/// One file of the list.
pub struct List {
    pub name: &'static str,
    lines: Vec<String>,
    seen: BTreeSet<String>,
    pub refusals: BTreeMap<u32, u64>,
}

/// Numbers as the list has them, each written by itself but for runs.
fn numbers<T: Copy + PartialEq>(all: &[T], shown: impl Fn(T) -> String) -> String {
    let runs = all.chunk_by(|a, b| a == b).flat_map(|run| match run.len() {
        length if length < SHORTEST_RUN => vec![shown(run[0]); length],
        length => vec![format!("{}*{length}", shown(run[0]))],
    });
    runs.collect::<Vec<_>>().join(" ")
}

fn number(one: u64) -> String {
    assert!(one < TOO_LARGE || one == u64::MAX);
    one.to_string()
}

fn words(all: &[u32]) -> String {
    assert!(all.len() <= WORDS_ROOM);
    numbers(all, |word| word.to_string())
}

fn hex(all: &[u8]) -> String {
    assert!(all.len() <= FILE_ROOM);
    numbers(all, |byte| format!("{byte:02x}"))
}

/// Bytes that can be read are written as a text, but for long runs.
fn text(all: &[u8]) -> String {
    let is_readable = |byte: u8| (b' '..=b'~').contains(&byte) && byte != b'"';
    let is_long = |run: &[u8]| run.len() >= 8 * SHORTEST_RUN;
    let mut pieces: Vec<String> = vec![];
    let mut is_open = false;
    for run in all.chunk_by(|a, b| a == b) {
        let readable = is_readable(run[0]) && !is_long(run);
        match (readable, is_open) {
            (true, true) => pieces.last_mut().unwrap().extend(run.iter().map(|byte| *byte as char)),
            (true, false) => pieces.push(format!("\"{}", String::from_utf8_lossy(run))),
            (false, _) => pieces.push(hex(run)),
        }
        if is_open && !readable {
            let before = pieces.len() - 2;
            pieces[before].push('"');
        }
        is_open = readable;
    }
    pieces.join(" ") + if is_open { "\"" } else { "" }
}

/// A refusal's number or 0, and the whole answer.
type Outcome = (u32, String);

/// The crate reads valid UTF-8 alone, and its refusals have no number.
fn assert_as_crate(text: &[u8], ours: Outcome, theirs: impl Fn() -> Outcome) {
    if text.len() > TEXT_LIMIT || std::str::from_utf8(text).is_err() {
        return;
    }
    let theirs = theirs();
    let agrees = if theirs.0 == REFUSED { ours.0 > 0 } else { ours == theirs };
    assert!(agrees, "the crate differs on {}: {theirs:?}, not {ours:?}", text.escape_ascii());
}

fn answered(by: Answer) -> Outcome {
    (by.number, answer(&by))
}

fn parsed(by: Parts, parameters: &[u32]) -> Outcome {
    (by.number, format!("{} {}", parts(&by), words(parameters)))
}

fn answer(of: &Answer) -> String {
    format!("{} {} {} {} {}", of.number, of.second, of.place, of.first, of.next)
}

fn parts(of: &Parts) -> String {
    let Parts { number, dimensions, letter, start, length, parameters, place, used } = of;
    format!("{number} {dimensions} {letter} {start} {length} {parameters} {place} {used}")
}

fn part(of: &Part) -> String {
    of.map(|word| word.to_string()).join(" ")
}

/// The sections with `:` between them.
fn sections(all: &[String]) -> String {
    let spaced = all.iter().map(|section| if section.is_empty() { String::new() } else { format!(" {section}") });
    spaced.collect::<Vec<_>>().join(" :")
}

impl List {
    pub fn new(name: &'static str) -> List {
        List { name, lines: vec![], seen: BTreeSet::new(), refusals: BTreeMap::new() }
    }

    pub fn cases(&self) -> usize {
        self.lines.len()
    }

    /// The file, which replay has room for.
    pub fn file(&self, head: &str) -> String {
        let file = format!("{head}{}\n", self.lines.join("\n"));
        assert!(file.len() <= FILE_ROOM, "{} has {} bytes", self.name, file.len());
        file
    }

    /// One case; the same line comes once.
    fn case(&mut self, entry: &str, given: &[String], number: u32, outcome: &[String]) {
        let line = format!("{entry}{} ={}", sections(given), sections(outcome));
        if self.seen.insert(line.clone()) {
            self.lines.push(line);
            if number > 0 {
                *self.refusals.entry(number).or_default() += 1;
            }
        }
    }

    pub fn decode(&mut self, code: &[u8], pool: &[u8], mut records: Vec<u32>, mut entries: Vec<u32>) {
        assert!(code.len() <= BYTES_ROOM && pool.len() <= BYTES_ROOM);
        let given = [hex(code), hex(pool), words(&records), words(&entries)];
        let decoded = model::decode(code, pool, &model::prepare(code, pool), &mut records, &mut entries);
        let outcome = [answer(&decoded), words(&records), words(&entries)];
        self.case("decode", &given, decoded.number, &outcome);
    }

    pub fn lookup(&mut self, records: &[u32], count: u64, offset: u64) {
        let found = model::lookup(records, count, offset);
        self.case(
            "lookup",
            &[words(records), format!("{} {}", number(count), number(offset))],
            found.number,
            &[answer(&found)],
        );
    }

    pub fn class_name(&mut self, name: &[u8]) {
        let checked = texts::class_name(name);
        assert_as_crate(name, answered(checked), || answered(crate_texts::class_name(name)));
        self.case("class_name", &[text(name)], checked.number, &[answer(&checked)]);
    }

    /// A text read in each of the five forms without parameters.
    pub fn fields(&mut self, from: &[u8]) {
        assert!(from.len() <= BYTES_ROOM);
        type Read = fn(&[u8]) -> Parts;
        let forms: [(&str, Read, Read); 5] = [
            ("field_prefix", texts::field_prefix, crate_texts::field_prefix),
            ("field_whole", texts::field_whole, crate_texts::field_whole),
            ("return_prefix", texts::return_prefix, crate_texts::return_prefix),
            ("return_whole", texts::return_whole, crate_texts::return_whole),
            ("array", texts::array, crate_texts::array),
        ];
        for (entry, read, theirs) in forms {
            let found = read(from);
            assert_as_crate(from, parsed(found, &[]), || parsed(theirs(from), &[]));
            self.case(entry, &[text(from)], found.number, &[parts(&found)]);
        }
    }

    /// A method descriptor in both forms, with a store.
    pub fn method(&mut self, from: &[u8], store: &[u32]) {
        type Read = fn(&[u8], &mut [u32]) -> Parts;
        let forms: [(&str, Read, Read); 2] = [
            ("method_prefix", texts::method_prefix, crate_texts::method_prefix),
            ("method_whole", texts::method_whole, crate_texts::method_whole),
        ];
        for (entry, read, theirs) in forms {
            let mut parameters = store.to_vec();
            let found = read(from, &mut parameters);
            let with_room = |read: Read| {
                let mut room = vec![0; PART * texts::parameters_read(from)];
                parsed(read(from, &mut room), &room)
            };
            assert_as_crate(from, with_room(read), || with_room(theirs));
            self.case(entry, &[text(from), words(store)], found.number, &[parts(&found), words(&parameters)]);
        }
    }

    /// A part printed as a field and as a return.
    pub fn print(&mut self, from: &[u8], printed: Part, out: &[u8]) {
        let forms: [(&str, fn(&[u8], Part, &mut [u8]) -> Answer); 2] =
            [("print_field", texts::print_field), ("print_return", texts::print_return)];
        for (entry, print) in forms {
            let mut after = out.to_vec();
            let written = print(from, printed, &mut after);
            let given = [text(from), part(&printed), text(out)];
            self.case(entry, &given, written.number, &[answer(&written), text(&after)]);
        }
    }

    pub fn print_method(&mut self, from: &[u8], parameters: &[u32], count: u64, returned: Part, out: &[u8]) {
        let mut after = out.to_vec();
        let written = texts::print_method(from, parameters, count, returned, &mut after);
        let given = [text(from), words(parameters), number(count), part(&returned), text(out)];
        self.case("print_method", &given, written.number, &[answer(&written), text(&after)]);
    }

    pub fn identifier(&mut self, name: &[u8], descriptor: &[u8], out: &[u8]) {
        assert!(name.len() <= BYTES_ROOM && descriptor.len() <= BYTES_ROOM);
        let mut after = out.to_vec();
        let written = texts::identifier(name, descriptor, &mut after);
        let given = [text(name), text(descriptor), text(out)];
        self.case("identifier", &given, written.number, &[answer(&written), text(&after)]);
    }

    fn says(&mut self, entry: &str, text: &[u8], flags: &[String], yes: bool, theirs: impl Fn() -> bool) {
        let said = |yes: bool| (if yes { 0 } else { REFUSED }, String::new());
        assert_as_crate(text, said(yes), || said(theirs()));
        let given = [&[self::text(text)], flags].concat();
        self.case(entry, &given, 0, &[(yes as u32).to_string()]);
    }

    fn check(&mut self, entry: &str, text: &[u8], ours: fn(&[u8]) -> bool, theirs: fn(&[u8]) -> bool) {
        self.says(entry, text, &[], ours(text), || theirs(text));
    }

    pub fn name_checks(&mut self, name: &[u8]) {
        self.check("is_binary_name", name, texts::is_binary_name, crate_texts::is_binary_name);
        self.check("is_unqualified_name", name, texts::is_unqualified_name, crate_texts::is_unqualified_name);
        self.check("is_module_name", name, texts::is_module_name, crate_texts::is_module_name);
        for (init, clinit) in [(false, false), (true, false), (false, true), (true, true)] {
            let flags = format!("{} {}", init as u32, clinit as u32);
            let yes = texts::is_method_name(name, init, clinit);
            self.says("is_method_name", name, &[flags], yes, || crate_texts::is_method_name(name, init, clinit));
        }
    }

    pub fn descriptor_checks(&mut self, from: &[u8]) {
        self.check("is_field_descriptor", from, texts::is_field_descriptor, crate_texts::is_field_descriptor);
        self.check("is_array_descriptor", from, texts::is_array_descriptor, crate_texts::is_array_descriptor);
        self.check("is_return_descriptor", from, texts::is_return_descriptor, crate_texts::is_return_descriptor);
        self.check("is_method_descriptor", from, texts::is_method_descriptor, crate_texts::is_method_descriptor);
    }
}
