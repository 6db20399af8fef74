//! Texts to try: every short one over some symbols, the neighbours of a name, built ones that are then perhaps damaged, and
//! those at the limits.
use crate::rng::Rng;

/// A byte or a character.
pub type Symbol = Vec<u8>;

/// Every byte that document 01 gives a role in a text, a control byte and a name letter.
const SPECIAL: &[u8] = b"()[L;/.<>VI\\:@\x01a";

/// What descriptors are made of; `I` is a name letter as well.
const OF_DESCRIPTORS: &[u8] = b"()[L;/.IV";

const OF_MODULE_NAMES: &[u8] = b"\\:@\x01a";

const PLAIN_LETTERS: &[u8] = b"BCDFIJSZ";

/// The symbols of one run: bytes for the model, characters for the crate.
pub struct Symbols {
    /// Every one that is tried by itself.
    pub all: Vec<Symbol>,
    /// One of 128 or more.
    pub high: Symbol,
}

impl Symbols {
    pub fn bytes() -> Symbols {
        Symbols { all: (0..=255).map(|byte| vec![byte]).collect(), high: vec![0xff] }
    }

    /// Those of one byte, and some of two, three and four.
    pub fn characters() -> Symbols {
        let more = ["\u{80}", "é", "\u{7ff}", "\u{800}", "\u{fffd}", "\u{10000}", "\u{10ffff}"];
        let one = (0..128).map(|byte| vec![byte]);
        Symbols { all: one.chain(more.map(|c| c.into())).collect(), high: "é".into() }
    }

    fn with_high(&self, bytes: &[u8]) -> Vec<Symbol> {
        bytes.iter().map(|byte| vec![*byte]).chain([self.high.clone()]).collect()
    }

    /// 17 symbols.
    pub fn special(&self) -> Vec<Symbol> {
        self.with_high(SPECIAL)
    }

    /// 9 symbols.
    pub fn of_descriptors(&self) -> Vec<Symbol> {
        OF_DESCRIPTORS.iter().map(|byte| vec![*byte]).collect()
    }

    /// 6 symbols.
    pub fn of_module_names(&self) -> Vec<Symbol> {
        self.with_high(OF_MODULE_NAMES)
    }
}

/// How many texts have up to so many of so many symbols.
pub fn count_every(symbols: usize, most: u32) -> u64 {
    (0..=most).map(|length| (symbols as u64).pow(length)).sum()
}

/// Every text of up to so many symbols, the empty one first.
pub fn every(symbols: &[Symbol], most: u32, each: &mut impl FnMut(&[u8])) {
    grown(symbols, most, &mut vec![], each);
}

fn grown(symbols: &[Symbol], most: u32, text: &mut Vec<u8>, each: &mut impl FnMut(&[u8])) {
    each(text);
    if most == 0 {
        return;
    }
    for symbol in symbols {
        let length = text.len();
        text.extend_from_slice(symbol);
        grown(symbols, most - 1, text, each);
        text.truncate(length);
    }
}

/// Every text that one change makes: a byte left out, a symbol in its place, a symbol put in.
pub fn neighbours(text: &[u8], symbols: &[Symbol]) -> Vec<Vec<u8>> {
    let mut near = vec![];
    for at in 0..=text.len() {
        let (before, after) = text.split_at(at);
        near.extend(symbols.iter().map(|symbol| [before, symbol, after].concat()));
        if let [_, rest @ ..] = after {
            near.push([before, rest].concat());
            near.extend(symbols.iter().map(|symbol| [before, symbol, rest].concat()));
        }
    }
    near
}

/// What stands before and after each pair of symbols that is tried.
pub const AROUND: [(&str, &str); 12] = [
    ("", ""),
    ("a", "a"),
    ("a/", ""),
    ("L", ";"),
    ("La", ";I"),
    ("[", ""),
    ("(", ")V"),
    ("([I", ")V"),
    ("(La", ";)V"),
    ("()", ""),
    ("()L", ";"),
    ("\\", ""),
];

/// Makes texts by their grammar.
pub struct Maker<'a> {
    pub rng: &'a mut Rng,
    pub high: &'a [u8],
}

impl Maker<'_> {
    fn name_symbol(&mut self) -> Vec<u8> {
        match self.rng.below(12) {
            0 => self.high.to_vec(),
            _ => vec![self.rng.pick(b"abcILVZ()$-\\:@")],
        }
    }

    /// A name with none of the bytes that some name refuses, but for those of module names.
    pub fn segment(&mut self) -> Vec<u8> {
        (0..1 + self.rng.below(4)).flat_map(|_| self.name_symbol()).collect()
    }

    pub fn class_name(&mut self) -> Vec<u8> {
        let segments: Vec<Vec<u8>> = (0..1 + self.rng.below(3)).map(|_| self.segment()).collect();
        segments.join(&b'/')
    }

    pub fn field(&mut self) -> Vec<u8> {
        let dimensions = match self.rng.below(40) {
            0 => 250 + self.rng.below(8),
            1..=12 => 1 + self.rng.below(3),
            _ => 0,
        };
        let mut text = vec![b'['; dimensions];
        match self.rng.below(3) {
            0 => text.extend([b"L", &self.class_name()[..], b";"].concat()),
            _ => text.push(self.rng.pick(PLAIN_LETTERS)),
        }
        text
    }

    pub fn returned(&mut self) -> Vec<u8> {
        match self.rng.below(3) {
            0 => b"V".to_vec(),
            _ => self.field(),
        }
    }

    pub fn method(&mut self) -> Vec<u8> {
        let most = self.rng.pick(&[1, 3, 6, 12]);
        let parameters: Vec<u8> = (0..self.rng.below(most)).flat_map(|_| self.field()).collect();
        [b"(", &parameters[..], b")", &self.returned()].concat()
    }

    pub fn method_name(&mut self) -> Vec<u8> {
        match self.rng.below(6) {
            0 => b"<init>".to_vec(),
            1 => b"<clinit>".to_vec(),
            _ => self.segment(),
        }
    }

    fn module_name(&mut self) -> Vec<u8> {
        let symbol = |maker: &mut Self| match maker.rng.below(3) {
            0 => vec![b'\\', maker.rng.pick(b"\\:@")],
            _ => vec![maker.rng.pick(b"ab./;[<>() \x7f")],
        };
        (0..self.rng.below(6)).flat_map(|_| symbol(self)).collect()
    }

    /// One sort after the other; every second text is damaged.
    pub fn any(&mut self, i: usize) -> Vec<u8> {
        let mut text = match i / 2 % 8 {
            0 => self.field(),
            1 => self.returned(),
            2 => [b"[", &self.field()[..]].concat(),
            3 | 4 => self.method(),
            5 => self.class_name(),
            6 => self.method_name(),
            _ => self.module_name(),
        };
        if i % 2 == 1 {
            self.damage(&mut text);
        }
        text
    }

    /// Cut, changed, lengthened or shortened somewhere, once or twice.
    pub fn damage(&mut self, text: &mut Vec<u8>) {
        for _ in 0..1 + self.rng.below(2) {
            let (at, byte) = (self.rng.below(text.len() + 1), self.rng.pick(SPECIAL));
            match self.rng.below(6) {
                0 => text.truncate(at),
                1 => text.push(byte),
                2 => text.insert(at, self.rng.byte()),
                3 => text.insert(at, byte),
                _ if at == text.len() => {}
                4 => drop(text.remove(at)),
                _ => text[at] = byte,
            }
        }
    }
}

/// A text repeated until it has so many bytes.
fn filled(with: &str, bytes: usize) -> Vec<u8> {
    with.bytes().cycle().take(bytes).collect()
}

/// One text between two others, repeated until all have so many bytes.
fn around(before: &str, with: &str, after: &str, bytes: usize) -> Vec<u8> {
    [before.as_bytes(), &filled(with, bytes - before.len() - after.len()), after.as_bytes()].concat()
}

/// 254 to 257 dimensions, in every place of a type.
fn dimensions() -> Vec<Vec<u8>> {
    let mut texts = vec![];
    for count in 254..=257 {
        for (before, after) in [("", "I"), ("", "La;"), ("", "V"), ("", ""), ("", ";"), ("", "I["), ("(", "I)V")] {
            texts.push(around(before, "[", after, before.len() + count + after.len()));
        }
        for (before, after) in [("(I", "La;)I"), ("()", "I"), ("(", ")V"), ("()", ""), ("()[", "La;I"), ("([I", "I)V")]
        {
            texts.push(around(before, "[", after, before.len() + count + after.len()));
        }
    }
    texts
}

/// Many parameters, of one slot and of two.
fn parameters() -> Vec<Vec<u8>> {
    let counts = [127, 128, 254, 255, 256, 257, 1000];
    counts.iter().flat_map(|count| ["I", "J"].map(|letter| around("(", letter, ")V", count + 3))).collect()
}

/// One byte under the limit, at it, one over it, and far over it.
fn longest() -> Vec<Vec<u8>> {
    let shapes = [
        ("", "a", ""),
        ("", "a", "."),
        ("", "a", ";"),
        ("", "a/", ""),
        ("", "a/", "b"),
        ("", "\\\\", ""),
        ("", "[", ""),
        ("", "(", ""),
        ("L", "a", ";"),
        ("L", "a", "/;"),
        ("L", "a", ";I"),
        ("L", "a", ""),
        ("[[L", "ab/", "c;"),
        ("I", "I", ""),
        ("V", "V", ""),
        ("(", "I", ")V"),
        ("(", "I", ")VV"),
        ("(", "I", ")"),
        ("(", "I", ""),
        ("(", "[I", "I)[La;"),
        ("(", "La;", "La;)J"),
        ("()L", "a", ";"),
        ("(L", "a", ";)I"),
    ];
    let sizes = [65_534, 65_535, 65_536, 200_000];
    shapes.iter().flat_map(|(before, with, after)| sizes.map(|bytes| around(before, with, after, bytes))).collect()
}

pub fn limits() -> Vec<Vec<u8>> {
    [dimensions(), parameters(), longest()].concat()
}
