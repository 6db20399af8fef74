//! Every operation, iterators from both ends, lookups, and the sizes of the stores.
use nikorepum::{decode, entry_words, lookup, record_words, BaseType, Operation, Reason, CODE_LIMIT};

/// The tags of a Class, an InterfaceMethodref, a String, a Fieldref, a Methodref and an InvokeDynamic, at 1 to 6.
const POOL: [u8; 7] = [0, 7, 11, 8, 9, 10, 18];

/// Kind and operation of a code's first instruction, at most one other following it. The stores are leaked, so that the
/// operation may be compared later.
fn first(code: &[u8]) -> (u8, Operation<'static>) {
    let (records, entries) = (vec![0; record_words(code.len())], vec![0; entry_words(code.len())]);
    let decoded = decode(code, &POOL, records.leak(), entries.leak()).unwrap();
    assert!(decoded.len() <= 2);
    let instruction = decoded.get(0).unwrap();
    assert_eq!(instruction.offset, 0);
    (instruction.kind, instruction.operation)
}

#[test]
fn plain_instructions() {
    let plain = (0x00..=0x0f).chain(0x2e..=0x35).chain(0x4f..=0x83).chain(0x85..=0x98).chain(0xac..=0xb1);
    for byte in plain.chain([0xbe, 0xbf, 0xc2, 0xc3, 0xca, 0xfe, 0xff]) {
        assert_eq!(first(&[byte]), (byte, Operation::Plain));
    }
}

#[test]
fn pool_indices() {
    let classes = [0xbb, 0xbd, 0xc0, 0xc1].map(|byte| (byte, 1));
    let constants = [0x13, 0x14].map(|byte| (byte, 3));
    let fields = [0xb2, 0xb3, 0xb4, 0xb5].map(|byte| (byte, 4));
    let methods = [0xb6, 0xb7, 0xb8].map(|byte| (byte, 5));
    for (byte, index) in classes.into_iter().chain(constants).chain(fields).chain(methods) {
        assert_eq!(first(&[byte, 0, index]), (byte, Operation::Pool { index: index.into() }));
    }
    assert_eq!(first(&[0xba, 0, 6, 0, 0]), (0xba, Operation::Pool { index: 6 }));
}

#[test]
fn operands() {
    assert_eq!(first(&[0x10, 0x80]), (0x10, Operation::Push(-128)));
    assert_eq!(first(&[0x11, 0x80, 0x00]), (0x11, Operation::Push(-32_768)));
    assert_eq!(first(&[0xbc, 4]), (0xbc, Operation::NewArray(BaseType::Boolean)));
    assert_eq!(first(&[0xbc, 11]), (0xbc, Operation::NewArray(BaseType::Long)));
    assert_eq!(first(&[0x12, 3]), (0x12, Operation::Pool { index: 3 }));
    assert_eq!(first(&[0xb9, 0, 2, 9, 0]), (0xb9, Operation::InvokeInterface { index: 2, count: 9 }));
    assert_eq!(first(&[0xc5, 0, 1, 3]), (0xc5, Operation::MultiNewArray { index: 1, dimensions: 3 }));
}

#[test]
fn array_types_follow_jvms() {
    use BaseType::*;
    let types = [Boolean, Char, Float, Double, Byte, Short, Int, Long];
    for (tag, element) in (4..).zip(types) {
        assert_eq!(first(&[0xbc, tag]).1, Operation::NewArray(element));
    }
}

#[test]
fn locals_and_their_short_and_wide_forms() {
    for kind in (0x15..=0x19).chain(0x36..=0x3a).chain([0xa9]) {
        assert_eq!(first(&[kind, 200]), (kind, Operation::Local(200)));
        assert_eq!(first(&[0xc4, kind, 0x12, 0x34]), (kind, Operation::Local(0x1234)));
    }
    for short in 0..20 {
        assert_eq!(first(&[0x1a + short]), (0x15 + short / 4, Operation::Local((short % 4).into())));
        assert_eq!(first(&[0x3b + short]), (0x36 + short / 4, Operation::Local((short % 4).into())));
    }
}

#[test]
fn increments() {
    assert_eq!(first(&[0x84, 2, 0xff]), (0x84, Operation::Increment { local: 2, by: -1 }));
    let wide = Operation::Increment { local: 256, by: -32_768 };
    assert_eq!(first(&[0xc4, 0x84, 1, 0, 0x80, 0]), (0x84, wide));
}

#[test]
fn jumps_have_absolute_targets() {
    for kind in (0x99..=0xa8).chain([0xc6, 0xc7]) {
        assert_eq!(first(&[kind, 0, 3, 0xb1]), (kind, Operation::Jump { target: 3 }));
    }
    assert_eq!(first(&[0xc8, 0, 0, 0, 5, 0xb1]), (0xa7, Operation::Jump { target: 5 }));
    assert_eq!(first(&[0xc9, 0, 0, 0, 0]), (0xa8, Operation::Jump { target: 0 }));
    let mut records = [0; 12];
    let decoded = decode(&[0x00, 0xa7, 0xff, 0xff], &[], &mut records, &mut []).unwrap();
    assert_eq!(decoded.at(1).unwrap().operation, Operation::Jump { target: 0 });
}

/// A nop, then at 1 a tableswitch of the keys -1 and 0, at 24 a lookupswitch of the keys 9 and -9, at 52 a return.
const SWITCHES: [u8; 53] = [
    0x00, 0xaa, 0x00, 0x00, 0x00, 0x00, 0x00, 0x33, 0xff, 0xff, 0xff, 0xff, 0x00, 0x00, 0x00, 0x00, //
    0xff, 0xff, 0xff, 0xff, 0x00, 0x00, 0x00, 0x17, //
    0xab, 0x00, 0x00, 0x00, 0x00, 0x00, 0x00, 0x1c, 0x00, 0x00, 0x00, 0x02, //
    0x00, 0x00, 0x00, 0x09, 0xff, 0xff, 0xff, 0xe9, 0xff, 0xff, 0xff, 0xf7, 0x00, 0x00, 0x00, 0x00, 0xb1,
];

#[test]
fn switches() {
    let (mut records, mut stored) = ([0; 24], [0; 8]);
    let decoded = decode(&SWITCHES, &[], &mut records, &mut stored).unwrap();
    let Operation::TableSwitch { default, low, high, entries } = decoded.at(1).unwrap().operation else {
        panic!("no tableswitch")
    };
    assert_eq!((default, low, high, entries.len()), (52, -1, 0, 2));
    assert_eq!(entries.iter().collect::<Vec<_>>(), [(-1, 0), (0, 24)]);
    let Operation::LookupSwitch { default, entries } = decoded.at(24).unwrap().operation else {
        panic!("no lookupswitch")
    };
    assert_eq!(default, 52);
    assert_eq!(entries.iter().collect::<Vec<_>>(), [(9, 1), (-9, 24)]);
    assert_eq!(entries.iter().rev().collect::<Vec<_>>(), [(-9, 24), (9, 1)]);
    assert_eq!(entries.iter().len(), 2);
}

#[test]
fn a_lookupswitch_without_pairs() {
    let code = [0xab, 0, 0, 0, 0, 0, 0, 0, 0, 0, 0, 0];
    let Operation::LookupSwitch { default, entries } = first(&code).1 else { panic!("no lookupswitch") };
    assert_eq!(default, 0);
    assert!(entries.is_empty());
    assert_eq!(entries.iter().next(), None);
}

#[test]
fn instructions_from_both_ends() {
    let (mut records, mut entries) = ([0; 24], [0; 8]);
    let decoded = decode(&SWITCHES, &[], &mut records, &mut entries).unwrap();
    let offsets: Vec<_> = decoded.instructions().map(|i| i.offset).collect();
    assert_eq!(offsets, [0, 1, 24, 52]);
    let mut instructions = decoded.instructions();
    assert_eq!(instructions.len(), 4);
    assert_eq!(instructions.next_back().map(|i| i.offset), Some(52));
    assert_eq!(instructions.next().map(|i| i.offset), Some(0));
    assert_eq!(instructions.clone().rev().map(|i| i.kind).collect::<Vec<_>>(), [0xab, 0xaa]);
    assert_eq!(instructions.len(), 2);
    assert_eq!(instructions.map(|i| i.kind).collect::<Vec<_>>(), [0xaa, 0xab]);
    assert!(!decoded.is_empty());
    assert!(decode(&[], &[], &mut [], &mut []).unwrap().is_empty());
}

#[test]
fn lookups_at_every_offset() {
    let (mut records, mut entries) = ([0; 24], [0; 8]);
    let decoded = decode(&SWITCHES, &[], &mut records, &mut entries).unwrap();
    for offset in 0..=SWITCHES.len() {
        let index = [0, 1, 24, 52].iter().position(|&start| start == offset);
        assert_eq!(decoded.index_of(offset), index);
        assert_eq!(decoded.at(offset), index.and_then(|index| decoded.get(index)));
    }
    assert_eq!(decoded.at(usize::MAX), None);
    assert_eq!(decoded.get(4), None);
    assert_eq!(lookup(&records, 4, 52), Ok(Some(3)));
    assert_eq!(lookup(&records, 3, 52), Ok(None));
    assert_eq!(lookup(&[], 0, 0), Ok(None));
}

#[test]
fn stores_exactly_full_and_one_short() {
    let decodes = |records: usize, entries: usize| {
        let (mut records, mut entries) = (vec![0; records], vec![0; entries]);
        decode(&SWITCHES, &[], &mut records, &mut entries).map(|decoded| decoded.len()).map_err(|r| (r.reason, r.place))
    };
    assert_eq!(decodes(24, 8), Ok(4));
    assert_eq!(decodes(29, 9), Ok(4));
    assert_eq!(decodes(23, 8), Err((Reason::NoRecordLeft, 52)));
    assert_eq!(decodes(24, 7), Err((Reason::NoEntryLeft, 24)));
    assert_eq!(decodes(0, 0), Err((Reason::NoRecordLeft, 0)));
}

#[test]
fn words_past_the_used_ones_stay() {
    let (mut records, mut entries) = ([9; 30], [9; 11]);
    decode(&SWITCHES, &[], &mut records, &mut entries).unwrap();
    assert_eq!(records[24..], [9; 6]);
    assert_eq!(entries[8..], [9; 3]);
    assert_eq!(records[18..24], [52, 0xb1, 0, 0, 0, 0]);
    assert_eq!(entries[..8], [u32::MAX, u32::MAX, 0, 23, 9, -23_i32 as u32, -9_i32 as u32, 0]);
}

/// The code with the most entries: one tableswitch from 0 on, whose every jump is to itself.
#[test]
fn the_largest_switch_fits_the_words_that_are_enough() {
    let entries = (CODE_LIMIT - 16) / 4;
    let mut code = vec![0; CODE_LIMIT];
    code[0] = 0xaa;
    code[12..16].copy_from_slice(&(entries as u32 - 1).to_be_bytes());
    let (mut records, mut stored) = (vec![0; record_words(code.len())], vec![0; entry_words(code.len())]);
    let decoded = decode(&code, &[], &mut records, &mut stored).unwrap();
    let Operation::TableSwitch { low, high, entries: found, .. } = decoded.get(0).unwrap().operation else {
        panic!("no tableswitch")
    };
    assert_eq!((low, high as usize, found.len()), (0, entries - 1, entries));
    assert_eq!(found.iter().next_back(), Some((high, 0)));
    assert_eq!(decoded.len(), 1 + CODE_LIMIT - 16 - 4 * entries);
}

#[test]
fn words_that_are_enough() {
    assert_eq!((record_words(0), entry_words(0)), (0, 0));
    assert_eq!((record_words(7), entry_words(7)), (42, 2));
    assert_eq!(record_words(usize::MAX), 6 * CODE_LIMIT);
    let (mut records, mut entries) = (vec![0; record_words(CODE_LIMIT)], vec![0; entry_words(CODE_LIMIT)]);
    assert_eq!(decode(&[0; CODE_LIMIT], &[], &mut records, &mut entries).unwrap().len(), CODE_LIMIT);
}
