//! Every refusal of document 01, by a small input that a reader can check by hand.
use nikorepum::Reason::*;
use nikorepum::{
    class_name, decode, lookup, method_identifier, raw, ElementType, FieldDescriptor, MethodDescriptor, Reason, Refusal,
};

/// Reason, place and second number of a code with room for so many records and entries.
fn code_refusal(code: &[u8], pool: &[u8], records: usize, entries: usize) -> (Reason, usize, u32) {
    let (mut records, mut entries) = (vec![7; 6 * records + 5], vec![7; 2 * entries + 1]);
    let refusal = decode(code, pool, &mut records, &mut entries).unwrap_err();
    assert!(records.iter().chain(&entries).all(|&word| word == 0), "a refusal clears both stores");
    (refusal.reason, refusal.place, refusal.second)
}

/// Reason and place of what has no second number.
fn refusal<T: std::fmt::Debug>(result: Result<T, Refusal>) -> (Reason, usize) {
    let refusal = result.unwrap_err();
    assert_eq!(refusal.second, 0);
    (refusal.reason, refusal.place)
}

/// A tableswitch at 0 with the keys 0 and 1, whose default and entries jump as given, then a return at 24.
fn table(jumps: [u8; 3]) -> Vec<u8> {
    let [default, first, second] = jumps;
    vec![0xaa, 0, 0, 0, 0, 0, 0, default, 0, 0, 0, 0, 0, 0, 0, 1, 0, 0, 0, first, 0, 0, 0, second, 0xb1]
}

#[test]
fn codes_1_to_11() {
    let pool = [0, 7, 11, 18];
    assert_eq!(code_refusal(&[0; 65_536], &pool, 9, 9), (CodeTooLong, 0, 0));
    assert_eq!(code_refusal(&[0; 65_536], &[0; 4_097], 9, 9), (CodeTooLong, 0, 0));
    assert_eq!(code_refusal(&[0], &[0; 4_097], 9, 9), (PoolTooLong, 0, 0));
    assert_eq!(code_refusal(&[0, 0x11, 0], &pool, 9, 9), (PastEnd, 2, 0));
    assert_eq!(code_refusal(&[0xaa], &pool, 9, 9), (PastEnd, 4, 0));
    assert_eq!(code_refusal(&[0, 0xcb], &pool, 9, 9), (NoInstruction, 1, 0));
    assert_eq!(code_refusal(&[0xc4, 0x10], &pool, 9, 9), (NotAfterWide, 1, 0));
    assert_eq!(code_refusal(&[0xbb, 0, 0], &pool, 9, 9), (NoPoolEntry, 1, 0));
    assert_eq!(code_refusal(&[0xbb, 0, 4], &pool, 9, 9), (NoPoolEntry, 1, 0));
    assert_eq!(code_refusal(&[0xbb, 0, 2], &pool, 9, 9), (WrongKind, 1, 0));
    assert_eq!(code_refusal(&[0xb9, 0, 2, 1, 1], &pool, 9, 9), (NotZero, 4, 0));
    assert_eq!(code_refusal(&[0xba, 0, 3, 0, 1], &pool, 9, 9), (NotZero, 3, 0));
    assert_eq!(code_refusal(&[0xbc, 12], &pool, 9, 9), (NoArrayTag, 1, 0));
    let low_above_high = [0xaa, 0, 0, 0, 0, 0, 0, 0, 0, 0, 0, 1, 0, 0, 0, 0];
    assert_eq!(code_refusal(&low_above_high, &pool, 9, 9), (BadBounds, 12, 0));
    let negative = [0xab, 0, 0, 0, 0, 0, 0, 0, 0xff, 0xff, 0xff, 0xff];
    assert_eq!(code_refusal(&negative, &pool, 9, 9), (NegativeCount, 8, 0));
}

#[test]
fn codes_12_to_15() {
    assert_eq!(code_refusal(&[0, 0xa7, 0xff, 0xfe], &[], 9, 9), (TargetBelowZero, 1, 0));
    assert_eq!(code_refusal(&table([23, 24, 24]), &[], 9, 9), (NoTarget, 0, 0));
    assert_eq!(code_refusal(&table([24, 23, 24]), &[], 9, 9), (NoTarget, 0, 1));
    assert_eq!(code_refusal(&table([24, 24, 25]), &[], 9, 9), (NoTarget, 0, 2));
    assert_eq!(code_refusal(&table([24, 24, 24]), &[], 9, 1), (NoEntryLeft, 0, 0));
    assert_eq!(code_refusal(&table([24, 24, 24]), &[], 0, 1), (NoEntryLeft, 0, 0));
    assert_eq!(code_refusal(&table([24, 24, 24]), &[], 0, 2), (NoRecordLeft, 0, 0));
    assert_eq!(code_refusal(&table([24, 24, 24]), &[], 1, 2), (NoRecordLeft, 24, 0));
}

#[test]
fn texts_21_to_28() {
    let long = vec![b'a'; 65_536];
    assert_eq!(refusal(class_name(&long)), (TextTooLong, 0));
    assert_eq!(refusal(FieldDescriptor::parse(&long)), (TextTooLong, 0));
    assert_eq!(refusal(FieldDescriptor::parse(b"[[")), (TypeDue, 2));
    assert_eq!(refusal(FieldDescriptor::parse(b"[V")), (NoSuchType, 1));
    assert_eq!(refusal(FieldDescriptor::parse(&[b'['; 256])), (Dimension256, 255));
    assert_eq!(refusal(FieldDescriptor::parse(b"La//b;")), (EmptySegment, 3));
    assert_eq!(refusal(FieldDescriptor::parse(b"La.b;")), (BarredByte, 2));
    assert_eq!(refusal(FieldDescriptor::parse(b"La")), (NameNotEnded, 2));
    assert_eq!(refusal(class_name(b"a/b;")), (LoneSemicolon, 3));
}

#[test]
fn texts_29_to_34() {
    let mut store = [7; 9];
    assert_eq!(refusal(MethodDescriptor::parse(b"", &mut store)), (NoParenthesis, 0));
    assert_eq!(refusal(MethodDescriptor::parse(b"I)V", &mut store)), (NoParenthesis, 0));
    assert_eq!(refusal(MethodDescriptor::parse(b"(I[JI)V", &mut store)), (NoParameterLeft, 4));
    assert_eq!(store, [0; 9]);
    assert_eq!(refusal(FieldDescriptor::parse(b"II")), (LeftOver, 1));
    assert_eq!(refusal(MethodDescriptor::parse(b"()II", &mut store)), (LeftOver, 3));
    let mut out = *b"kept";
    assert_eq!(refusal(method_identifier(b"a.b", b"()V", &mut out)), (NameNotValid, 0));
    assert_eq!(refusal(method_identifier(b"a", b"()V?", &mut out)), (NoSuchType, 2));
    assert_eq!(refusal(method_identifier(b"ab", b"()V", &mut out)), (OutputTooShort, 0));
    let empty = FieldDescriptor { dimensions: 0, element: ElementType::Class(b"") };
    assert_eq!(refusal(empty.write(&mut out)), (BrokenParts, 0));
    assert_eq!(&out, b"kept");
}

#[test]
fn lookup_35() {
    let twice = [4, 0, 0, 0, 0, 0, 4, 0, 0, 0, 0, 0];
    assert_eq!(refusal(lookup(&twice, 2, 4)), (NotSorted, 0));
    assert_eq!(lookup(&twice, 1, 4), Ok(Some(0)));
    assert_eq!(refusal(lookup(&twice[..11], 2, 4)), (NotSorted, 0));
    assert_eq!(refusal(lookup(&[], usize::MAX, 0)), (NotSorted, 0));
}

#[test]
fn parts_that_rust_cannot_hold() {
    let mut out = *b"kept";
    assert_eq!(raw::print_field(b"", 256, b'I'.into(), 0, 0, &mut out), raw::Answer::refused(34, 0, 0));
    assert_eq!(raw::print_field(b"", 0, b'V'.into(), 0, 0, &mut out), raw::Answer::refused(34, 0, 0));
    assert_eq!(raw::print_return(b"", 0, b'V'.into(), 0, 0, &mut out), raw::Answer::accepted(1, 0));
    assert_eq!(&out, b"Vept");
    assert_eq!(raw::print_method(b"", &[0; 3], 1, 0, b'V'.into(), 0, 0, &mut out), raw::Answer::refused(34, 0, 0));
    assert_eq!(&out, b"Vept");
}

#[test]
fn numbers_and_reasons_agree() {
    for number in (1..=15).chain(21..=35) {
        let reason = Reason::from_number(number);
        assert_eq!(reason.number(), number);
        assert_ne!(reason, Reason::Other(number));
    }
    for number in [16, 20, 36, u32::MAX] {
        assert_eq!(Reason::from_number(number), Reason::Other(number));
        assert_eq!(Reason::Other(number).number(), number);
    }
}

#[test]
fn refusals_in_words() {
    let switch = decode(&table([24, 24, 25]), &[], &mut [0; 12], &mut [0; 4]).unwrap_err();
    let words = "no instruction starts at a jump's target (refusal 13 at 0, entry 1 of its switch)";
    assert_eq!(switch.to_string(), words);
    let error: Box<dyn std::error::Error> = Box::new(class_name(b"a;").unwrap_err());
    assert_eq!(error.to_string(), "a class name alone has a ; (refusal 28 at 1)");
}
