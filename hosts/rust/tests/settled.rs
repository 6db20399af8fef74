//! The settled examples of document 01, with every word of the stores.
use nikorepum::{class_name, raw, FieldDescriptor, MethodDescriptor, Refusal};

/// What the stores hold before.
const OLD: u32 = 0xdead_beef;

/// The words of the records and of the entries.
type Stored = (Vec<[u32; 6]>, Vec<[u32; 2]>);

/// Decodes into stores with room to spare, or says number, place and second number. Words past the used ones must stay,
/// and a refusal must clear all.
fn decoded(code: &[u8], pool: &[u8]) -> Result<Stored, (u32, u64, u32)> {
    let (mut records, mut entries) = (vec![OLD; 6 * code.len() + 7], vec![OLD; 2 * code.len() + 3]);
    let answer = raw::decode(code, pool, &mut records, &mut entries);
    if answer.number != 0 {
        assert!(records.iter().chain(&entries).all(|&word| word == 0), "a refusal clears both stores");
        return Err((answer.number, answer.place, answer.second));
    }
    let (count, stored) = (answer.first as usize, answer.next as usize);
    let (used_records, past_records) = records.split_at(6 * count);
    let (used_entries, past_entries) = entries.split_at(2 * stored);
    assert!(past_records.iter().chain(past_entries).all(|&word| word == OLD), "words past the used ones stay");
    Ok((used_records.as_chunks().0.to_vec(), used_entries.as_chunks().0.to_vec()))
}

/// Number and place.
fn refusal<T: std::fmt::Debug>(result: Result<T, Refusal>) -> (u32, usize) {
    let refusal = result.unwrap_err();
    (refusal.reason.number(), refusal.place)
}

#[test]
fn four_instructions() {
    let (records, entries) = decoded(&[0x1a, 0x99, 0x00, 0x06, 0x84, 0x00, 0xff, 0xb1], &[]).unwrap();
    let want = [[0, 0x15, 0, 0, 0, 0], [1, 0x99, 6, 0, 0, 0], [4, 0x84, 0, 4294967295, 0, 0], [7, 0xb1, 0, 0, 0, 0]];
    assert_eq!(records, want);
    assert!(entries.is_empty());
}

#[test]
fn a_tableswitch() {
    let code = [0xaa, 0, 0, 0, 0, 0, 0, 24, 0, 0, 0, 0, 0, 0, 0, 1, 0, 0, 0, 24, 0, 0, 0, 24, 0xb1];
    let (records, entries) = decoded(&code, &[]).unwrap();
    assert_eq!(records, [[0, 0xaa, 24, 0, 1, 0], [24, 0xb1, 0, 0, 0, 0]]);
    assert_eq!(entries, [[0, 24], [1, 24]]);
}

#[test]
fn small_codes() {
    assert_eq!(decoded(&[], &[]), Ok((vec![], vec![])));
    assert_eq!(decoded(&[0xa7, 0x00, 0x03], &[]), Err((13, 0, 0)));
    assert_eq!(decoded(&[0xa7, 0xff, 0xff], &[]), Err((12, 0, 0)));
    assert_eq!(decoded(&[0x00, 0xc8, 0x7f, 0xff, 0xff, 0xff], &[]), Err((13, 1, 0)));
    assert_eq!(decoded(&[0xc4, 0x00], &[]), Err((5, 1, 0)));
    assert_eq!(decoded(&[0xbc, 0x03], &[]), Err((9, 1, 0)));
    assert_eq!(decoded(&[0xbc, 0x0b], &[]), Ok((vec![[0, 0xbc, 11, 0, 0, 0]], vec![])));
    let widest = [0xaa, 0, 0, 0, 0, 0, 0, 0, 0x80, 0, 0, 0, 0x7f, 0xff, 0xff, 0xff];
    assert_eq!(decoded(&widest, &[]), Err((10, 12, 0)));
}

#[test]
fn limits_of_code_and_pool() {
    let (records, _) = decoded(&[0; 65_535], &[]).unwrap();
    assert_eq!(records.len(), 65_535);
    assert_eq!(records[65_534], [65_534, 0, 0, 0, 0, 0]);
    assert_eq!(decoded(&[0; 65_536], &[]), Err((1, 0, 0)));
    assert!(decoded(&[0], &[0; 4_096]).is_ok());
    assert_eq!(decoded(&[0], &[0; 4_097]), Err((2, 0, 0)));
}

#[test]
fn texts() {
    let mut store = [OLD; 9];
    assert_eq!(refusal(MethodDescriptor::parse(b"()VV", &mut store)), (23, 2));
    assert_eq!(store, [0; 9]);
    assert_eq!(refusal(FieldDescriptor::parse(b"La/;")), (25, 3));
    assert_eq!(refusal(FieldDescriptor::parse(b"L;")), (25, 1));
    assert_eq!(class_name(b""), Ok(()));
    assert_eq!(class_name(b"a/"), Ok(()));
    assert_eq!(refusal(class_name(b";")), (25, 0));
    assert_eq!(refusal(class_name(b"a;")), (28, 1));
}

#[test]
fn dimensions() {
    let mut text = vec![b'['; 255];
    text.push(b'I');
    assert_eq!(FieldDescriptor::parse(&text).unwrap().dimensions, 255);
    text.insert(0, b'[');
    assert_eq!(refusal(FieldDescriptor::parse(&text)), (24, 255));
}
