//! A call of one function on a text and all that it leaves, alike for ours, for the crate and for the model.
use crate::crate_texts::REFUSED;
use crate::station::{Answer, Parts};
use crate::{crate_texts, station, text_model, Part};

/// With the parameter store.
type ReadMethod = fn(&[u8], &mut [u32]) -> Parts;
/// With the text that the part points into, and the output.
type Print = fn(&[u8], Part, &mut [u8]) -> Answer;
/// With the text, the records, how many of them, the return and the output.
type PrintMethod = fn(&[u8], &[u32], u64, Part, &mut [u8]) -> Answer;

/// The functions of one side, each at the same place on all sides.
pub struct Side {
    says: [fn(&[u8]) -> bool; 11],
    reads: [fn(&[u8]) -> Parts; 5],
    reads_method: [ReadMethod; 2],
    class_name: fn(&[u8]) -> Answer,
    prints: [Print; 2],
    print_method: PrintMethod,
    identifier: fn(&[u8], &[u8], &mut [u8]) -> Answer,
}

/// The yes/no checks by their place; a method name with each of its two flags.
pub const SAYS: [&str; 11] = [
    "is_binary_name",
    "is_unqualified_name",
    "is_method_name",
    "is_method_name, init",
    "is_method_name, clinit",
    "is_method_name, init, clinit",
    "is_module_name",
    "is_field_descriptor",
    "is_array_descriptor",
    "is_return_descriptor",
    "is_method_descriptor",
];
pub const READS: [&str; 5] = ["field_prefix", "field_whole", "return_prefix", "return_whole", "array"];
pub const READS_METHOD: [&str; 2] = ["method_prefix", "method_whole"];
pub const PRINTS: [&str; 2] = ["print_field", "print_return"];

/// The side of a module, which has the library's names.
macro_rules! side {
    ($from:ident) => {
        Side {
            says: [
                $from::is_binary_name,
                $from::is_unqualified_name,
                |text| $from::is_method_name(text, false, false),
                |text| $from::is_method_name(text, true, false),
                |text| $from::is_method_name(text, false, true),
                |text| $from::is_method_name(text, true, true),
                $from::is_module_name,
                $from::is_field_descriptor,
                $from::is_array_descriptor,
                $from::is_return_descriptor,
                $from::is_method_descriptor,
            ],
            reads: [$from::field_prefix, $from::field_whole, $from::return_prefix, $from::return_whole, $from::array],
            reads_method: [$from::method_prefix, $from::method_whole],
            class_name: $from::class_name,
            prints: [$from::print_field, $from::print_return],
            print_method: $from::print_method,
            identifier: $from::identifier,
        }
    };
}

pub const OURS: Side = side!(station);
pub const CRATE: Side = side!(crate_texts);
pub const MODEL: Side = side!(text_model);

/// A function with all it is given but the text.
#[derive(Clone)]
pub enum Call {
    Says(usize),
    Read(usize),
    /// With a store of so many words.
    ReadMethod(usize, usize),
    ClassName,
    /// With an output of so many bytes, here and in the next two.
    Print(usize, Part, usize),
    /// The records of the parameters, and how many are to be printed.
    PrintMethod(Vec<u32>, u64, Part, usize),
    /// The text is the name, and this is the descriptor.
    Identifier(Vec<u8>, usize),
}

impl std::fmt::Display for Call {
    fn fmt(&self, f: &mut std::fmt::Formatter) -> std::fmt::Result {
        match self {
            Call::Says(i) => write!(f, "{}", SAYS[*i]),
            Call::Read(i) => write!(f, "{}", READS[*i]),
            Call::ReadMethod(i, words) => write!(f, "{}, store of {words} words", READS_METHOD[*i]),
            Call::ClassName => write!(f, "class_name"),
            Call::Print(i, part, room) => write!(f, "{} of {part:?}, output of {room}", PRINTS[*i]),
            Call::PrintMethod(records, count, returned, room) => {
                let shown = &records[..records.len().min(24)];
                write!(f, "print_method of {count} in {shown:?} and {returned:?}, output of {room}")
            }
            Call::Identifier(descriptor, room) => {
                write!(f, "identifier with \"{}\", output of {room}", descriptor.escape_ascii())
            }
        }
    }
}

/// An answer, with what was lent as it is afterwards.
#[derive(Debug, PartialEq, Eq)]
pub enum Outcome {
    Says(bool),
    Parts(Parts, Vec<u32>),
    Answer(Answer, Vec<u8>),
}

impl Outcome {
    /// 0 for an acceptance, for a yes and for a no.
    pub fn number(&self) -> u32 {
        match self {
            Outcome::Says(_) => 0,
            Outcome::Parts(parts, _) => parts.number,
            Outcome::Answer(answer, _) => answer.number,
        }
    }

    /// Whether ours is what another side says. Where that refuses in words, ours is to be some refusal.
    pub fn agrees(&self, other: &Outcome) -> bool {
        match (self, other) {
            _ if other.number() != REFUSED => self == other,
            (Outcome::Parts(_, ours), Outcome::Parts(_, theirs)) => self.number() != 0 && ours == theirs,
            (Outcome::Answer(_, ours), Outcome::Answer(_, theirs)) => self.number() != 0 && ours == theirs,
            _ => false,
        }
    }
}

/// Words that are all different, so that one left behind shows.
fn old_words(count: usize) -> Vec<u32> {
    (0..count as u32).map(|i| 0x8000_0001 ^ i.wrapping_mul(0x9e37_79b9)).collect()
}

fn old_bytes(count: usize) -> Vec<u8> {
    (0..count).map(|i| 0x80 | (i % 61) as u8).collect()
}

fn written(room: usize, write: impl Fn(&mut [u8]) -> Answer) -> Outcome {
    let mut out = old_bytes(room);
    Outcome::Answer(write(&mut out), out)
}

impl Side {
    pub fn outcome(&self, call: &Call, text: &[u8]) -> Outcome {
        match call {
            Call::Says(i) => Outcome::Says(self.says[*i](text)),
            Call::Read(i) => Outcome::Parts(self.reads[*i](text), vec![]),
            Call::ReadMethod(i, words) => {
                let mut store = old_words(*words);
                Outcome::Parts(self.reads_method[*i](text, &mut store), store)
            }
            Call::ClassName => Outcome::Answer((self.class_name)(text), vec![]),
            Call::Print(i, part, room) => written(*room, |out| self.prints[*i](text, *part, out)),
            Call::PrintMethod(records, count, returned, room) => {
                written(*room, |out| (self.print_method)(text, records, *count, *returned, out))
            }
            Call::Identifier(descriptor, room) => written(*room, |out| (self.identifier)(text, descriptor, out)),
        }
    }
}
