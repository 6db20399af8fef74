//! Codes to try: built of valid instructions whose jumps name an instruction, then perhaps damaged.
use crate::model::LOADABLE;
use crate::rng::Rng;

const PLAIN: &[u8] = &[
    0x00, 0x01, 0x02, 0x03, 0x05, 0x09, 0x0b, 0x0f, 0x2e, 0x35, 0x4f, 0x56, 0x57, 0x5f, 0x60, 0x6b, 0x78, 0x83, 0x85,
    0x93, 0x94, 0x98, 0xac, 0xb1, 0xbe, 0xbf, 0xc2, 0xc3, 0xca, 0xfe, 0xff,
];
const JUMPS: &[u8] = &[0x99, 0x9a, 0x9e, 0x9f, 0xa0, 0xa4, 0xa5, 0xa6, 0xa7, 0xa8, 0xc6, 0xc7];
const LOCALS: &[u8] = &[0x15, 0x16, 0x17, 0x18, 0x19, 0x36, 0x37, 0x38, 0x39, 0x3a, 0xa9];
const IINC: u8 = 0x84;

/// How large a code is, and what is wrong with it. One in so many is bad; 0: none.
pub struct Shape {
    pub instructions: usize,
    pub entries: usize,
    pub bad_targets: usize,
    pub bad_indices: usize,
    pub bad_bytes: usize,
}

/// A pool table, and for each tag the indices that have it.
pub struct Tagged {
    count: usize,
    having: Vec<Vec<usize>>,
}

impl Tagged {
    pub fn new(tags: &[u8]) -> Tagged {
        let mut having = vec![vec![]; 256];
        for (i, tag) in tags.iter().enumerate().skip(1) {
            having[*tag as usize].push(i);
        }
        Tagged { count: tags.len(), having }
    }
}

/// Where a jump leads.
#[derive(Clone, Copy)]
enum To {
    Start(usize),
    End,
    Inside(usize),
    BelowZero,
    Relative(i32),
}

enum Part {
    Bytes(Vec<u8>),
    Jump2(u8, To),
    Jump4(u8, To),
    Table(i32, To, Vec<To>),
    Lookup(To, Vec<(i32, To)>),
}

/// The bytes from a switch's first byte, at this offset, to the next multiple of 4.
fn lead(offset: usize) -> usize {
    (offset + 1).next_multiple_of(4) - offset
}

impl Part {
    fn length(&self, offset: usize) -> usize {
        match self {
            Part::Bytes(bytes) => bytes.len(),
            Part::Jump2(..) => 3,
            Part::Jump4(..) => 5,
            Part::Table(_, _, targets) => lead(offset) + 12 + 4 * targets.len(),
            Part::Lookup(_, pairs) => lead(offset) + 8 + 8 * pairs.len(),
        }
    }
}

struct Builder<'a> {
    rng: &'a mut Rng,
    pool: &'a Tagged,
    shape: &'a Shape,
    /// The number of instructions.
    count: usize,
}

impl Builder<'_> {
    fn bad(&mut self, one_in: usize) -> bool {
        one_in > 0 && self.rng.one_in(one_in)
    }

    fn index(&mut self, kinds: &[u8]) -> usize {
        let count = self.pool.count;
        if self.bad(self.shape.bad_indices) {
            return match self.rng.below(4) {
                0 => 0,
                1 => count,
                2 => self.rng.below(count + 3),
                _ => 65535,
            };
        }
        let kind = self.rng.pick(kinds);
        match &self.pool.having[kind as usize][..] {
            [] => self.rng.below(count + 1),
            indices => self.rng.pick(indices),
        }
    }

    fn target(&mut self) -> To {
        let near = [i32::MIN, i32::MAX, i32::MIN + 1, 0x7fff, -0x8000, 0x10000, -1, 1, 65535, -65536];
        if !self.bad(self.shape.bad_targets) {
            return To::Start(self.rng.below(self.count));
        }
        match self.rng.below(6) {
            0 => To::End,
            1 => To::Inside(self.rng.below(self.count)),
            2 => To::BelowZero,
            3 => To::Relative(self.rng.pick(&near)),
            4 => To::Relative(self.rng.below(40) as i32 - 20),
            _ => To::Relative(self.rng.word() as i32),
        }
    }

    /// A target that two bytes reach from an instruction.
    fn near_target(&mut self, here: usize) -> To {
        match self.target() {
            To::Start(i) if here.abs_diff(i) > 300 => {
                To::Start((here + i % 300).saturating_sub(150).min(self.count - 1))
            }
            to => to,
        }
    }

    fn named(&mut self, op: u8, kinds: &[u8], more: &[u8]) -> Part {
        let index = (self.index(kinds) as u16).to_be_bytes();
        Part::Bytes([&[op], &index[..], more].concat())
    }

    fn constant(&mut self) -> Part {
        let index = self.index(LOADABLE);
        if index < 256 {
            return Part::Bytes(vec![0x12, index as u8]);
        }
        let [high, low] = (index as u16).to_be_bytes();
        Part::Bytes(vec![0x13 + self.rng.below(2) as u8, high, low])
    }

    /// A byte that is to be 0.
    fn zero(&mut self) -> u8 {
        if self.bad(self.shape.bad_bytes) {
            self.rng.byte()
        } else {
            0
        }
    }

    fn member(&mut self) -> Part {
        match self.rng.below(6) {
            0..=2 => {
                let op = 0xb2 + self.rng.below(4) as u8;
                self.named(op, &[9], &[])
            }
            3 => self.named(0xb6, &[10], &[]),
            _ => {
                let op = 0xb7 + self.rng.below(2) as u8;
                self.named(op, &[10, 11], &[])
            }
        }
    }

    fn class_user(&mut self) -> Part {
        let op = self.rng.pick(&[0xbb, 0xbd, 0xc0, 0xc1, 0xc5]);
        let dimensions = [self.rng.byte()];
        self.named(op, &[7], if op == 0xc5 { &dimensions } else { &[] })
    }

    fn array(&mut self) -> Part {
        let tag = if self.bad(self.shape.bad_bytes) { self.rng.byte() } else { 4 + self.rng.below(8) as u8 };
        Part::Bytes(vec![0xbc, tag])
    }

    fn table(&mut self) -> Part {
        let n = 1 + self.rng.below(self.shape.entries.max(1));
        let end = i32::MAX - n as i32;
        let low = self.rng.pick(&[0, -1, 1, i32::MIN, end, end + 1, -(n as i32), 1000]);
        Part::Table(low, self.target(), (0..n).map(|_| self.target()).collect())
    }

    fn lookup(&mut self) -> Part {
        let n = self.rng.below(self.shape.entries + 1);
        Part::Lookup(self.target(), (0..n).map(|_| (self.rng.word() as i32, self.target())).collect())
    }

    fn wide(&mut self) -> Part {
        let op = if self.rng.one_in(12) { IINC } else { self.rng.pick(LOCALS) };
        let mut bytes = vec![0xc4, op, self.rng.byte(), self.rng.byte()];
        if op == IINC {
            bytes.extend([self.rng.byte(), self.rng.byte()]);
        }
        Part::Bytes(bytes)
    }

    fn part(&mut self, here: usize) -> Part {
        let rng = &mut *self.rng;
        match rng.below(22) {
            0..=3 => Part::Bytes(vec![rng.pick(PLAIN)]),
            4 => Part::Bytes(vec![0x10, rng.byte()]),
            5 => Part::Bytes(vec![0x11, rng.byte(), rng.byte()]),
            6 => self.constant(),
            7 => Part::Bytes(vec![rng.pick(LOCALS), rng.byte()]),
            8 => Part::Bytes(vec![0x1a + rng.below(20) as u8]),
            9 => Part::Bytes(vec![0x3b + rng.below(20) as u8]),
            10 => Part::Bytes(vec![IINC, rng.byte(), rng.byte()]),
            11 | 12 => Part::Jump2(rng.pick(JUMPS), self.near_target(here)),
            13 => Part::Jump4(rng.pick(&[0xc8, 0xc9]), self.target()),
            14 => self.table(),
            15 => self.lookup(),
            16 => self.member(),
            17 => {
                let more = [self.rng.byte(), self.zero()];
                self.named(0xb9, &[11], &more)
            }
            18 => {
                let more = [self.zero(), self.zero()];
                self.named(0xba, &[18], &more)
            }
            19 => self.class_user(),
            20 => self.array(),
            _ => self.wide(),
        }
    }
}

/// Parts whose offsets are known, so that their jumps are too.
struct Layout<'a> {
    rng: &'a mut Rng,
    offsets: Vec<usize>,
    end: usize,
    /// Whether the bytes before a switch's words are other than 0.
    padded: bool,
    code: Vec<u8>,
}

impl Layout<'_> {
    fn jump(&mut self, from: usize, to: To) -> i32 {
        let here = self.offsets[from] as i32;
        match to {
            To::Start(i) => self.offsets[i] as i32 - here,
            To::End => self.end as i32 - here,
            To::Inside(i) => self.offsets[i] as i32 + 1 - here,
            To::BelowZero => -here - 1 - self.rng.below(3) as i32,
            To::Relative(jump) => jump,
        }
    }

    fn word(&mut self, word: i32) {
        self.code.extend_from_slice(&word.to_be_bytes());
    }

    fn jump_word(&mut self, from: usize, to: To) {
        let jump = self.jump(from, to);
        self.word(jump);
    }

    fn switch(&mut self, op: u8, from: usize, default: To) {
        let pads = lead(self.code.len()) - 1;
        self.code.push(op);
        for _ in 0..pads {
            let pad = if self.padded { self.rng.byte() } else { 0 };
            self.code.push(pad);
        }
        self.jump_word(from, default);
    }

    fn put(&mut self, i: usize, part: &Part) {
        match part {
            Part::Bytes(bytes) => self.code.extend_from_slice(bytes),
            Part::Jump2(op, to) => {
                let jump = self.jump(i, *to) as i16;
                self.code.push(*op);
                self.code.extend_from_slice(&jump.to_be_bytes());
            }
            Part::Jump4(op, to) => {
                self.code.push(*op);
                self.jump_word(i, *to);
            }
            Part::Table(low, default, targets) => {
                self.switch(0xaa, i, *default);
                self.word(*low);
                self.word(low.wrapping_add(targets.len() as i32 - 1));
                targets.iter().for_each(|to| self.jump_word(i, *to));
            }
            Part::Lookup(default, pairs) => {
                self.switch(0xab, i, *default);
                self.word(pairs.len() as i32);
                for (key, to) in pairs {
                    self.word(*key);
                    self.jump_word(i, *to);
                }
            }
        }
    }
}

pub fn build(rng: &mut Rng, pool: &Tagged, shape: &Shape) -> Vec<u8> {
    let count = rng.below(shape.instructions + 1);
    let mut builder = Builder { rng, pool, shape, count };
    let parts: Vec<Part> = (0..count).map(|i| builder.part(i)).collect();
    let mut offsets = vec![];
    let mut end = 0;
    for part in &parts {
        offsets.push(end);
        end += part.length(end);
    }
    let padded = rng.one_in(3);
    let mut layout = Layout { rng, offsets, end, padded, code: vec![] };
    for (i, part) in parts.iter().enumerate() {
        layout.put(i, part);
    }
    assert_eq!(layout.code.len(), end);
    layout.code
}

/// Cut, changed, lengthened or shortened somewhere, once or twice.
pub fn damage(rng: &mut Rng, code: &mut Vec<u8>) {
    let telling = [0xaa, 0xab, 0xc4, 0xc8, 0xa7, 0xba, 0xb9, 0xff, 0x00, 0xcb, 0x80, 0x7f];
    for _ in 0..1 + rng.below(2) {
        if code.is_empty() {
            code.push(rng.byte());
            continue;
        }
        let i = rng.below(code.len());
        match rng.below(6) {
            0 => code.truncate(i),
            1 => code[i] = rng.byte(),
            2 => code[i] ^= 1 << rng.below(8),
            3 => code.insert(i, rng.byte()),
            4 => drop(code.remove(i)),
            _ => code[i] = rng.pick(&telling),
        }
    }
}

/// Small codes: one in two is damaged, some have a bad target, index or byte.
pub fn small(rng: &mut Rng, pool: &Tagged, i: usize) -> Vec<u8> {
    let shape = Shape {
        instructions: [3, 6, 12, 40][i % 4],
        entries: [2, 5, 20][i % 3],
        bad_targets: if i % 5 == 0 { 8 } else { 0 },
        bad_indices: if i % 7 == 0 { 8 } else { 0 },
        bad_bytes: if i % 11 == 0 { 8 } else { 0 },
    };
    let mut code = build(rng, pool, &shape);
    if i % 2 == 1 {
        damage(rng, &mut code);
    }
    code
}

/// Codes of thousands of instructions, up to the longest.
pub fn large(rng: &mut Rng, pool: &Tagged, i: usize) -> Vec<u8> {
    let shape = Shape {
        instructions: [3000, 9000][i % 2],
        entries: [60, 4][i % 2],
        bad_targets: if i % 5 == 0 { 10_000 } else { 0 },
        bad_indices: if i % 5 == 1 { 3000 } else { 0 },
        bad_bytes: if i % 5 == 2 { 1000 } else { 0 },
    };
    let mut code = build(rng, pool, &shape);
    if i % 6 == 1 {
        damage(rng, &mut code);
    }
    code.truncate(65_535);
    code
}
