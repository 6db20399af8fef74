//! A stand-in for cesu8: reads Java's modified UTF-8 (JVMS 4.4.7).
use std::borrow::Cow;

#[derive(Debug)]
pub struct Cesu8DecodingError;

impl std::fmt::Display for Cesu8DecodingError {
    fn fmt(&self, f: &mut std::fmt::Formatter<'_>) -> std::fmt::Result {
        write!(f, "not modified UTF-8")
    }
}

impl std::error::Error for Cesu8DecodingError {}

/// The UTF-16 unit that one, two or three bytes stand for, and how many they are.
fn unit(bytes: &[u8]) -> Option<(u16, usize)> {
    let follows = |i: usize| bytes.get(i).filter(|b| **b & 0xc0 == 0x80).map(|b| (b & 0x3f) as u16);
    let first = bytes[0] as u16;
    match first {
        0x00..=0x7f => Some((first, 1)),
        0xc0..=0xdf => Some(((first & 0x1f) << 6 | follows(1)?, 2)),
        0xe0..=0xef => Some(((first & 0x0f) << 12 | follows(1)? << 6 | follows(2)?, 3)),
        _ => None,
    }
}

pub fn from_java_cesu8(bytes: &[u8]) -> Result<Cow<'_, str>, Cesu8DecodingError> {
    if let Ok(text) = std::str::from_utf8(bytes) {
        return Ok(Cow::Borrowed(text));
    }
    let (mut units, mut at) = (vec![], 0);
    while at < bytes.len() {
        let (unit, length) = unit(&bytes[at..]).ok_or(Cesu8DecodingError)?;
        units.push(unit);
        at += length;
    }
    String::from_utf16(&units).map(Cow::Owned).map_err(|_| Cesu8DecodingError)
}
