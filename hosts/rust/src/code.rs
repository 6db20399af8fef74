//! A code decoded into lent stores, and its instructions.
use crate::descriptors::BaseType;
use crate::refusal::{accepted, Refusal};
use crate::{front, raw, ENTRY_WORDS, RECORD_WORDS};

type Record = [u32; RECORD_WORDS];
type Entry = [u32; ENTRY_WORDS];

/// Decodes a whole code and checks its jumps.
///
/// `pool` has a byte for each entry of the constant pool, its tag (JVMS 4.4), 0 for an unused slot; index 0 is never an
/// entry. Which tags an instruction takes is JVMS 6.5's, but that `ldc`, `ldc_w` and `ldc2_w` take any loadable
/// constant.
///
/// The words of the instructions go to `records`, those of the switch entries to `entries`, each from the front. Words
/// past them stay as they were; a refusal sets every word of both stores to zero.
///
/// ```
/// use nikorepum::{decode, Operation, Reason};
///
/// let (mut records, mut entries) = ([0; 12], []);
/// let decoded = decode(&[0x10, 0xff, 0xac], &[], &mut records, &mut entries)?;
/// let operations: Vec<_> = decoded.instructions().map(|i| i.operation).collect();
/// assert_eq!(operations, [Operation::Push(-1), Operation::Plain]);
///
/// // Entry 1 of this pool table is a String, and a field is called for.
/// let refusal = decode(&[0xb2, 0, 1], &[0, 8], &mut records, &mut entries).unwrap_err();
/// assert_eq!((refusal.reason, refusal.place), (Reason::WrongKind, 1));
/// assert_eq!(records, [0; 12]);
/// # Ok::<(), nikorepum::Refusal>(())
/// ```
pub fn decode<'s>(
    code: &[u8],
    pool: &[u8],
    records: &'s mut [u32],
    entries: &'s mut [u32],
) -> Result<Decoded<'s>, Refusal> {
    let answer = accepted(raw::decode(code, pool, records, entries))?;
    Ok(Decoded { records: front(records, answer.first as usize), entries: front(entries, answer.next as usize) })
}

/// The index of the record with this offset among the first `count` of any store of records.
///
/// It is refused with [`Reason::NotSorted`](crate::Reason::NotSorted) where the store has fewer records or their
/// offsets do not strictly increase. Every counted record is looked at.
///
/// ```
/// use nikorepum::{decode, lookup};
///
/// let mut records = [0; 12];
/// let count = decode(&[0x10, 0xff, 0xac], &[], &mut records, &mut [])?.len();
/// assert_eq!(lookup(&records, count, 2)?, Some(1));
/// assert_eq!(lookup(&records, count, 1)?, None);
/// assert!(lookup(&records, 3, 0).is_err());
/// # Ok::<(), nikorepum::Refusal>(())
/// ```
pub fn lookup(records: &[u32], count: usize, offset: usize) -> Result<Option<usize>, Refusal> {
    let answer = accepted(raw::lookup(records, count as u64, offset as u64))?;
    Ok((answer.next == 1).then_some(answer.first as usize))
}

/// An accepted code: its instructions, in the stores that were lent to [`decode`].
///
/// The instructions cover the code with no gap and no overlap, and every jump leads to the start of one.
#[derive(Clone, Copy, Debug, PartialEq, Eq)]
pub struct Decoded<'s> {
    records: &'s [Record],
    entries: &'s [Entry],
}

impl<'s> Decoded<'s> {
    /// How many instructions there are.
    pub fn len(&self) -> usize {
        self.records.len()
    }

    /// Whether the code is empty.
    pub fn is_empty(&self) -> bool {
        self.records.is_empty()
    }

    /// The instructions in the order of the code.
    ///
    /// ```
    /// # let mut records = [0; 12];
    /// let decoded = nikorepum::decode(&[0x10, 0xff, 0xac], &[], &mut records, &mut [])?;
    /// assert_eq!(decoded.instructions().map(|i| i.offset).collect::<Vec<_>>(), [0, 2]);
    /// assert_eq!(decoded.instructions().next_back().map(|i| i.kind), Some(0xac));
    /// # Ok::<(), nikorepum::Refusal>(())
    /// ```
    pub fn instructions(
        &self,
    ) -> impl ExactSizeIterator<Item = Instruction<'s>> + DoubleEndedIterator + Clone + use<'s> {
        let entries = self.entries;
        self.records.iter().map(move |record| Instruction::of(record, entries))
    }

    /// The instruction of this index.
    pub fn get(&self, index: usize) -> Option<Instruction<'s>> {
        self.records.get(index).map(|record| Instruction::of(record, self.entries))
    }

    /// The index of the instruction that starts at this offset of the code, if one does. By [`lookup`], which looks at
    /// every record.
    pub fn index_of(&self, offset: usize) -> Option<usize> {
        // The records of an accepted code are sorted, so this lookup is never refused.
        lookup(self.records.as_flattened(), self.records.len(), offset).ok().flatten()
    }

    /// The instruction that starts at this offset of the code, if one does.
    ///
    /// ```
    /// # let mut records = [0; 12];
    /// let decoded = nikorepum::decode(&[0x10, 0xff, 0xac], &[], &mut records, &mut [])?;
    /// assert_eq!(decoded.at(2), decoded.get(1));
    /// assert_eq!(decoded.at(1), None);
    /// # Ok::<(), nikorepum::Refusal>(())
    /// ```
    pub fn at(&self, offset: usize) -> Option<Instruction<'s>> {
        self.get(self.index_of(offset)?)
    }
}

/// One instruction.
#[derive(Clone, Copy, Debug, PartialEq, Eq)]
pub struct Instruction<'s> {
    /// Where it starts in the code.
    pub offset: usize,
    /// Its opcode byte. Short and wide forms have that of their plain one: `iload_0` to `aload_3` and `istore_0` to
    /// `astore_3` that of `iload` to `aload` and `istore` to `astore`, `goto_w` that of `goto`, `jsr_w` that of `jsr`,
    /// and what follows `wide` its own.
    pub kind: u8,
    /// Its operands.
    pub operation: Operation<'s>,
}

/// What an instruction does with its operands. Targets are offsets in the code, where an instruction starts.
#[derive(Clone, Copy, Debug, PartialEq, Eq)]
pub enum Operation<'s> {
    /// No operand.
    Plain,
    /// `bipush` and `sipush`: the value.
    Push(i32),
    /// Loads, stores and `ret`: the local.
    Local(u32),
    /// `iinc`.
    Increment {
        /// The local that is changed.
        local: u32,
        /// What is added to it.
        by: i32,
    },
    /// A jump that is no switch.
    Jump {
        /// Where it leads.
        target: usize,
    },
    /// An instruction that names a pool entry and nothing else.
    Pool {
        /// The entry.
        index: u32,
    },
    /// `invokeinterface`.
    InvokeInterface {
        /// The pool entry.
        index: u32,
        /// The count of argument slots, as it stands in the code.
        count: u32,
    },
    /// `newarray`: the type of an element.
    NewArray(BaseType),
    /// `multianewarray`.
    MultiNewArray {
        /// The pool entry.
        index: u32,
        /// How many dimensions are made.
        dimensions: u32,
    },
    /// `tableswitch`.
    TableSwitch {
        /// Where a value outside the bounds leads.
        default: usize,
        /// The first key.
        low: i32,
        /// The last key.
        high: i32,
        /// An entry for each key from `low` to `high`.
        entries: SwitchEntries<'s>,
    },
    /// `lookupswitch`.
    LookupSwitch {
        /// Where a value that is no key leads.
        default: usize,
        /// The entries in the order of the code; their keys need no order.
        entries: SwitchEntries<'s>,
    },
}

impl<'s> Instruction<'s> {
    fn of(record: &Record, entries: &'s [Entry]) -> Instruction<'s> {
        let [offset, kind, ..] = *record;
        // A kind is an opcode byte.
        Instruction { offset: offset as usize, kind: kind as u8, operation: Operation::of(record, entries) }
    }
}

impl<'s> Operation<'s> {
    /// By the kinds of JVMS 6.5. Every record of an accepted code has one of them.
    fn of(record: &Record, entries: &'s [Entry]) -> Operation<'s> {
        let [offset, kind, a, b, c, d] = *record;
        let from = |count| SwitchEntries::of(offset, entries, d, count);
        match kind {
            0x10 | 0x11 => Operation::Push(a as i32),
            0x15..=0x19 | 0x36..=0x3a | 0xa9 => Operation::Local(a),
            0x84 => Operation::Increment { local: a, by: b as i32 },
            0x99..=0xa8 | 0xc6 | 0xc7 => Operation::Jump { target: target(offset, a) },
            0x12..=0x14 | 0xb2..=0xb8 | 0xba | 0xbb | 0xbd | 0xc0 | 0xc1 => Operation::Pool { index: a },
            0xb9 => Operation::InvokeInterface { index: a, count: b },
            0xbc => Operation::NewArray(BaseType::of_array_tag(a)),
            0xc5 => Operation::MultiNewArray { index: a, dimensions: b },
            0xaa => {
                // At most 2,147,483,647 keys, so the number wraps at no bounds that are accepted.
                let keys = c.wrapping_sub(b).wrapping_add(1);
                let (low, high) = (b as i32, c as i32);
                Operation::TableSwitch { default: target(offset, a), low, high, entries: from(keys) }
            }
            0xab => Operation::LookupSwitch { default: target(offset, a), entries: from(b) },
            _ => Operation::Plain,
        }
    }
}

/// Where a jump from an instruction leads. The sum of words is that of signed numbers, since an accepted target is an
/// offset in the code.
fn target(offset: u32, jump: u32) -> usize {
    offset.wrapping_add(jump) as usize
}

/// The entries of a switch.
#[derive(Clone, Copy, Debug, PartialEq, Eq)]
pub struct SwitchEntries<'s> {
    offset: u32,
    entries: &'s [Entry],
}

impl<'s> SwitchEntries<'s> {
    /// The library counts no entry that is not stored, so none is missing.
    fn of(offset: u32, entries: &'s [Entry], first: u32, count: u32) -> SwitchEntries<'s> {
        let entries = entries.get(first as usize..).unwrap_or_default();
        SwitchEntries { offset, entries: entries.get(..count as usize).unwrap_or(entries) }
    }

    /// How many there are.
    pub fn len(&self) -> usize {
        self.entries.len()
    }

    /// Whether there are none.
    pub fn is_empty(&self) -> bool {
        self.entries.is_empty()
    }

    /// Each key with its target, in the order of the code.
    ///
    /// ```
    /// use nikorepum::{decode, Operation};
    ///
    /// // A lookupswitch that leads from the key 5 to 20, and else to 21, with a return at each.
    /// let code = [0xab, 0, 0, 0, 0, 0, 0, 21, 0, 0, 0, 1, 0, 0, 0, 5, 0, 0, 0, 20, 0xb1, 0xb1];
    /// let (mut records, mut entries) = ([0; 18], [0; 2]);
    /// let decoded = decode(&code, &[], &mut records, &mut entries)?;
    /// let Some(Operation::LookupSwitch { default, entries }) = decoded.at(0).map(|i| i.operation) else { panic!() };
    /// assert_eq!(default, 21);
    /// assert_eq!(entries.iter().collect::<Vec<_>>(), [(5, 20)]);
    /// # Ok::<(), nikorepum::Refusal>(())
    /// ```
    pub fn iter(&self) -> impl ExactSizeIterator<Item = (i32, usize)> + DoubleEndedIterator + Clone + use<'s> {
        let offset = self.offset;
        self.entries.iter().map(move |&[key, jump]| (key as i32, target(offset, jump)))
    }
}
