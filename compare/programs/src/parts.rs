//! Parts to print: those that a descriptor may have, and any words.
use crate::rng::Rng;
use crate::Part;

const LETTERS: &[u8] = b"BCDFIJSZLLLLLL";

/// A range of the text, often all of it, which cuts no character.
fn range(rng: &mut Rng, text: &[u8]) -> (usize, usize) {
    if rng.one_in(2) {
        return (0, text.len());
    }
    let starts = text.iter().enumerate().filter(|(_, byte)| **byte & 0xc0 != 0x80).map(|(at, _)| at);
    let cuts: Vec<usize> = starts.chain([text.len()]).collect();
    let (one, other) = (rng.pick(&cuts), rng.pick(&cuts));
    (one.min(other), one.max(other) - one.min(other))
}

/// What the crate's types can hold; the name may still be none of a descriptor.
pub fn held(rng: &mut Rng, text: &[u8], is_return: bool) -> Part {
    if is_return && rng.one_in(4) {
        return [0, b'V' as u32, 0, 0];
    }
    let dimensions = rng.pick(&[0, 0, 0, 1, 2, 254, 255]);
    match rng.pick(LETTERS) {
        b'L' => {
            let (start, length) = range(rng, text);
            [dimensions, b'L' as u32, start as u32, length as u32]
        }
        letter => [dimensions, letter as u32, 0, 0],
    }
}

/// A part of which one word or two may be any.
pub fn any(rng: &mut Rng, text: &[u8]) -> Part {
    let is_return = rng.one_in(2);
    let mut part = held(rng, text, is_return);
    for _ in 0..rng.below(3) {
        let word = rng.word() as u32;
        let length = text.len() as u32;
        match rng.below(5) {
            0 => part[0] = rng.pick(&[255, 256, 257, 512, 1 << 16, u32::MAX, word]),
            1 => {
                part[1] =
                    rng.pick(&[0, 1, b'L' as u32, b'V' as u32, b'b' as u32, 0x100 + b'I' as u32, word % 256, word])
            }
            2 => part[2] = rng.pick(&[0, 1, length, length + 1, u32::MAX, word]),
            3 => part[3] = rng.pick(&[0, 1, length, length + 1, u32::MAX, word]),
            // A start and a length whose sum passes the largest word.
            _ => (part[2], part[3]) = (word, 0u32.wrapping_sub(word).wrapping_add(rng.below(3) as u32)),
        }
    }
    part
}

/// The records of some parameters, with some words over, and a return.
pub struct Method {
    pub records: Vec<u32>,
    pub count: u64,
    pub returned: Part,
}

fn method(rng: &mut Rng, mut part: impl FnMut(&mut Rng, bool) -> Part) -> Method {
    let count = rng.below(5);
    let mut records: Vec<u32> = (0..count).flat_map(|_| part(rng, false)).collect();
    records.extend((0..rng.below(4)).map(|_| rng.word() as u32));
    Method { records, count: count as u64, returned: part(rng, true) }
}

pub fn held_method(rng: &mut Rng, text: &[u8]) -> Method {
    method(rng, |rng, is_return| held(rng, text, is_return))
}

/// Most parts are as the crate's types hold them, so that more than one number is seen; the count may be any.
pub fn any_method(rng: &mut Rng, text: &[u8]) -> Method {
    let mut made = method(rng, |rng, is_return| match rng.below(6) {
        0 => any(rng, text),
        _ => held(rng, text, is_return),
    });
    let few = made.count;
    if rng.one_in(6) {
        made.count = rng.pick(&[0, few + 1, few.saturating_sub(1), 1 << 32, 1 << 62, u64::MAX]);
    }
    made
}
