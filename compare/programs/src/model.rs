//! Document 01 in plain Rust, written from the page: first the list of instructions, then the jumps, then the stores.
use crate::station::Answer;
use crate::{ENTRY, RECORD};

/// A refusal's number and place.
pub type Fault = (u32, usize);

/// Document 01's limits on a code and on a pool table.
const CODE_LIMIT: usize = 65_535;
const POOL_LIMIT: usize = 4_096;

/// The kinds that ldc, ldc_w and ldc2_w may name.
pub const LOADABLE: &[u8] = &[3, 4, 5, 6, 7, 8, 15, 16, 17];

pub struct Instruction {
    pub offset: usize,
    pub kind: u8,
    /// The words a, b and c of its record.
    pub words: [u32; 3],
    pub is_switch: bool,
    /// Key and jump.
    pub entries: Vec<(i32, i32)>,
    /// The plain jump or the default, if it has one.
    pub jump: Option<i32>,
}

/// What does not depend on the stores.
pub struct Prepared {
    pub list: Vec<Instruction>,
    fault: Option<Fault>,
    jump_fault: Option<(u32, usize, u32)>,
}

impl Prepared {
    pub fn entries(&self) -> usize {
        self.list.iter().map(|x| x.entries.len()).sum()
    }
}

struct Cursor<'a> {
    code: &'a [u8],
    pool: &'a [u8],
    at: usize,
}

impl Cursor<'_> {
    /// So many bytes as one number; the place may lie past the end.
    fn take(&mut self, n: usize) -> Result<u32, Fault> {
        let bytes = self.code.get(self.at..).and_then(|rest| rest.get(..n)).ok_or((3, self.at))?;
        self.at += n;
        Ok(bytes.iter().fold(0, |x, b| x << 8 | *b as u32))
    }

    fn u1(&mut self) -> Result<u32, Fault> {
        self.take(1)
    }

    fn u2(&mut self) -> Result<u32, Fault> {
        self.take(2)
    }

    fn i1(&mut self) -> Result<i32, Fault> {
        Ok(self.take(1)? as i8 as i32)
    }

    fn i2(&mut self) -> Result<i32, Fault> {
        Ok(self.take(2)? as i16 as i32)
    }

    fn i4(&mut self) -> Result<i32, Fault> {
        Ok(self.take(4)? as i32)
    }

    /// An index of an entry of one of these kinds.
    fn index(&mut self, width: usize, kinds: &[u8]) -> Result<u32, Fault> {
        let place = self.at;
        let index = self.take(width)?;
        match self.pool.get(index as usize) {
            Some(tag) if index > 0 => match kinds.contains(tag) {
                true => Ok(index),
                false => Err((7, place)),
            },
            _ => Err((6, place)),
        }
    }

    fn zero(&mut self, width: usize) -> Result<(), Fault> {
        let place = self.at;
        match self.take(width)? {
            0 => Ok(()),
            _ => Err((8, place)),
        }
    }
}

fn jump(x: &mut Instruction, jump: i32) {
    x.words[0] = jump as u32;
    x.jump = Some(jump);
}

fn table_switch(c: &mut Cursor, x: &mut Instruction) -> Result<(), Fault> {
    c.at = c.at.next_multiple_of(4);
    let (default, low, place, high) = (c.i4()?, c.i4()?, c.at, c.i4()?);
    let count = high as i64 - low as i64 + 1;
    if count < 1 || count > i32::MAX as i64 {
        return Err((10, place));
    }
    for i in 0..count {
        x.entries.push(((low as i64 + i) as i32, c.i4()?));
    }
    x.words = [default as u32, low as u32, high as u32];
    x.is_switch = true;
    x.jump = Some(default);
    Ok(())
}

fn lookup_switch(c: &mut Cursor, x: &mut Instruction) -> Result<(), Fault> {
    c.at = c.at.next_multiple_of(4);
    let (default, place, pairs) = (c.i4()?, c.at, c.i4()?);
    if pairs < 0 {
        return Err((11, place));
    }
    for _ in 0..pairs {
        x.entries.push((c.i4()?, c.i4()?));
    }
    x.words = [default as u32, pairs as u32, 0];
    x.is_switch = true;
    x.jump = Some(default);
    Ok(())
}

fn wide(c: &mut Cursor, x: &mut Instruction) -> Result<(), Fault> {
    let place = c.at;
    x.kind = c.u1()? as u8;
    match x.kind {
        0x15..=0x19 | 0x36..=0x3a | 0xa9 => x.words[0] = c.u2()?,
        0x84 => x.words = [c.u2()?, c.i2()? as u32, 0],
        _ => return Err((5, place)),
    }
    Ok(())
}

/// The instructions that name an entry of the pool.
fn pool_user(c: &mut Cursor, op: u8, x: &mut Instruction) -> Result<(), Fault> {
    x.words[0] = match op {
        0x12 => c.index(1, LOADABLE)?,
        0x13 | 0x14 => c.index(2, LOADABLE)?,
        0xb2..=0xb5 => c.index(2, &[9])?,
        0xb6 => c.index(2, &[10])?,
        0xb7 | 0xb8 => c.index(2, &[10, 11])?,
        0xb9 => c.index(2, &[11])?,
        0xba => c.index(2, &[18])?,
        _ => c.index(2, &[7])?,
    };
    match op {
        0xb9 => {
            x.words[1] = c.u1()?;
            c.zero(1)?
        }
        0xba => c.zero(2)?,
        0xc5 => x.words[1] = c.u1()?,
        _ => {}
    }
    Ok(())
}

pub fn is_pool_user(op: u8) -> bool {
    matches!(op, 0x12..=0x14 | 0xb2..=0xbb | 0xbd | 0xc0 | 0xc1 | 0xc5)
}

fn operands(c: &mut Cursor, op: u8, x: &mut Instruction) -> Result<(), Fault> {
    match op {
        0x10 => x.words[0] = c.i1()? as u32,
        0x11 => x.words[0] = c.i2()? as u32,
        0x15..=0x19 | 0x36..=0x3a | 0xa9 => x.words[0] = c.u1()?,
        // Four short forms for each of five kinds.
        0x1a..=0x2d => (x.kind, x.words[0]) = (0x15 + (op - 0x1a) / 4, (op as u32 - 0x1a) % 4),
        0x3b..=0x4e => (x.kind, x.words[0]) = (0x36 + (op - 0x3b) / 4, (op as u32 - 0x3b) % 4),
        0x84 => x.words = [c.u1()?, c.i1()? as u32, 0],
        0x99..=0xa8 | 0xc6 | 0xc7 => jump(x, c.i2()?),
        0xc8 | 0xc9 => {
            x.kind = op - 0xc8 + 0xa7;
            jump(x, c.i4()?)
        }
        0xaa => table_switch(c, x)?,
        0xab => lookup_switch(c, x)?,
        0xbc => match (c.at, c.u1()?) {
            (_, tag @ 4..=11) => x.words[0] = tag,
            (place, _) => return Err((9, place)),
        },
        0xc4 => wide(c, x)?,
        0xcb..=0xfd => return Err((4, x.offset)),
        _ if is_pool_user(op) => pool_user(c, op, x)?,
        _ => {}
    }
    Ok(())
}

fn listing(code: &[u8], pool: &[u8]) -> (Vec<Instruction>, Option<Fault>) {
    let mut list = vec![];
    let mut c = Cursor { code, pool, at: 0 };
    while c.at < code.len() {
        let (offset, kind) = (c.at, code[c.at]);
        let mut x = Instruction { offset, kind, words: [0; 3], is_switch: false, entries: vec![], jump: None };
        c.at += 1;
        if let Err(fault) = operands(&mut c, kind, &mut x) {
            return (list, Some(fault));
        }
        list.push(x);
    }
    (list, None)
}

fn jump_fault(list: &[Instruction]) -> Option<(u32, usize, u32)> {
    let starts: std::collections::HashSet<i64> = list.iter().map(|x| x.offset as i64).collect();
    for x in list {
        let jumps = x.jump.into_iter().chain(x.entries.iter().map(|e| e.1));
        for (i, jump) in jumps.enumerate() {
            let target = x.offset as i64 + jump as i64;
            if target < 0 {
                return Some((12, x.offset, i as u32));
            }
            if !starts.contains(&target) {
                return Some((13, x.offset, i as u32));
            }
        }
    }
    None
}

pub fn prepare(code: &[u8], pool: &[u8]) -> Prepared {
    let (list, fault) = match code.len() > CODE_LIMIT {
        true => (vec![], None),
        false => listing(code, pool),
    };
    let jump_fault = if fault.is_none() { jump_fault(&list) } else { None };
    Prepared { list, fault, jump_fault }
}

fn fill(p: &Prepared, records: &mut [u32], entries: &mut [u32]) -> Result<(usize, usize), (u32, usize, u32)> {
    let (mut used, mut stored) = (0, 0);
    for x in &p.list {
        if x.entries.len() > entries.len() / ENTRY - stored {
            return Err((14, x.offset, 0));
        }
        if used == records.len() / RECORD {
            return Err((15, x.offset, 0));
        }
        let [a, b, c] = x.words;
        let d = if x.is_switch { stored as u32 } else { 0 };
        let record = [x.offset as u32, x.kind as u32, a, b, c, d];
        records[RECORD * used..][..RECORD].copy_from_slice(&record);
        used += 1;
        for (key, jump) in &x.entries {
            entries[ENTRY * stored..][..ENTRY].copy_from_slice(&[*key as u32, *jump as u32]);
            stored += 1;
        }
    }
    Ok((used, stored))
}

fn decide(
    code: &[u8],
    pool: &[u8],
    p: &Prepared,
    records: &mut [u32],
    entries: &mut [u32],
) -> Result<(usize, usize), (u32, usize, u32)> {
    if code.len() > CODE_LIMIT {
        return Err((1, 0, 0));
    }
    if pool.len() > POOL_LIMIT {
        return Err((2, 0, 0));
    }
    let counts = fill(p, records, entries)?;
    match (p.fault, p.jump_fault) {
        (Some((number, place)), _) => Err((number, place, 0)),
        (None, Some(fault)) => Err(fault),
        (None, None) => Ok(counts),
    }
}

/// The whole answer; both stores are left as document 01 says.
pub fn decode(code: &[u8], pool: &[u8], p: &Prepared, records: &mut [u32], entries: &mut [u32]) -> Answer {
    match decide(code, pool, p, records, entries) {
        Ok((instructions, stored)) => Answer::accepted(instructions as u64, stored as u64),
        Err((number, place, second)) => {
            records.fill(0);
            entries.fill(0);
            Answer::refused(number, place as u64, second)
        }
    }
}

/// Offset lookup by looking at every record.
pub fn lookup(records: &[u32], count: u64, offset: u64) -> Answer {
    if count > (records.len() / RECORD) as u64 {
        return Answer::refused(35, 0, 0);
    }
    let offsets: Vec<u64> = records.chunks_exact(RECORD).take(count as usize).map(|r| r[0] as u64).collect();
    if offsets.windows(2).any(|w| w[0] >= w[1]) {
        return Answer::refused(35, 0, 0);
    }
    match offsets.iter().position(|o| *o == offset) {
        Some(i) => Answer::accepted(i as u64, 1),
        None => Answer::accepted(0, 0),
    }
}
