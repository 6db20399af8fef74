//! Document 01's section Texts in plain Rust, written from the page: what a text holds, then the stores and the outputs.
//! The functions have the names and the answers of the library's.
use crate::model::Fault;
use crate::station::{Answer, Parts};
use crate::{Part, PART};

const TEXT_LIMIT: usize = 65_535;
const MOST_DIMENSIONS: usize = 255;

/// The letters of the types without a class name, but for V.
const PLAIN_LETTERS: &[u8] = b"BCDFIJSZ";

/// A part, and where its text ends.
type Found = Result<(Part, usize), Fault>;

fn is_within_limit(text: &[u8]) -> bool {
    text.len() <= TEXT_LIMIT
}

fn limited(text: &[u8]) -> Result<(), Fault> {
    is_within_limit(text).then_some(()).ok_or((21, 0))
}

/// Where the class name ends that starts here: at its `;`, or with the text.
fn name_end(text: &[u8], start: usize) -> Result<usize, Fault> {
    let mut opens = true;
    for (place, byte) in text.iter().enumerate().skip(start) {
        match byte {
            b'/' | b';' if opens => return Err((25, place)),
            b'.' | b'[' | b'<' | b'>' => return Err((26, place)),
            b';' => return Ok(place),
            _ => opens = *byte == b'/',
        }
    }
    Ok(text.len())
}

pub fn class_name(text: &[u8]) -> Answer {
    let checked = limited(text).and_then(|()| match name_end(text, 0)? {
        end if end < text.len() => Err((28, end)),
        _ => Ok(()),
    });
    match checked {
        Ok(()) => Answer::accepted(0, 0),
        Err((number, place)) => Answer::refused(number, place as u64, 0),
    }
}

fn field_at(text: &[u8], start: usize) -> Found {
    let dimensions = text[start..].iter().take_while(|byte| **byte == b'[').count();
    if dimensions > MOST_DIMENSIONS {
        return Err((24, start + MOST_DIMENSIONS));
    }
    let at = start + dimensions;
    let (letter, name) = (*text.get(at).ok_or((22, text.len()))?, at + 1);
    let part = |start: usize, length: usize| [dimensions as u32, letter as u32, start as u32, length as u32];
    match letter {
        b'L' => match name_end(text, name)? {
            end if end == text.len() => Err((27, end)),
            end => Ok((part(name, end - name), end + 1)),
        },
        _ if PLAIN_LETTERS.contains(&letter) => Ok((part(0, 0), at + 1)),
        _ => Err((23, at)),
    }
}

fn return_at(text: &[u8], start: usize) -> Found {
    match &text[start..] {
        b"V" => Ok(([0, b'V' as u32, 0, 0], start + 1)),
        _ => field_at(text, start),
    }
}

#[derive(Clone, Copy)]
enum Form {
    Prefix,
    Whole,
}

impl Form {
    /// What ends here in a text is all of it, or may be followed.
    fn ended(self, text: &[u8], end: usize) -> Result<(), Fault> {
        match self {
            Form::Whole if end < text.len() => Err((31, end)),
            _ => Ok(()),
        }
    }
}

fn one(text: &[u8], form: Form, at: fn(&[u8], usize) -> Found) -> Found {
    limited(text)?;
    let (part, end) = at(text, 0)?;
    form.ended(text, end)?;
    Ok((part, end))
}

fn parts([dimensions, letter, start, length]: Part, parameters: usize, used: usize) -> Parts {
    let (parameters, used) = (parameters as u32, used as u64);
    Parts { number: 0, dimensions, letter, start, length, parameters, place: 0, used }
}

fn refused((number, place): Fault) -> Parts {
    Parts { number, place: place as u64, ..parts([0; PART], 0, 0) }
}

fn answered(found: Found) -> Parts {
    found.map_or_else(refused, |(part, used)| parts(part, 0, used))
}

pub fn field_prefix(text: &[u8]) -> Parts {
    answered(one(text, Form::Prefix, field_at))
}

pub fn field_whole(text: &[u8]) -> Parts {
    answered(one(text, Form::Whole, field_at))
}

pub fn return_prefix(text: &[u8]) -> Parts {
    answered(one(text, Form::Prefix, return_at))
}

pub fn return_whole(text: &[u8]) -> Parts {
    answered(one(text, Form::Whole, return_at))
}

/// The library says "not an array" by an acceptance whose words are all 0.
pub fn array(text: &[u8]) -> Parts {
    match text.first() {
        Some(b'[') => field_whole(text),
        _ => limited(text).map_or_else(refused, |()| parts([0; PART], 0, 0)),
    }
}

struct Method {
    parameters: Vec<Part>,
    returned: Part,
    used: usize,
}

/// A method descriptor whose parameters have room for so many records.
fn method(text: &[u8], form: Form, room: usize) -> Result<Method, Fault> {
    limited(text)?;
    if text.first() != Some(&b'(') {
        return Err((29, 0));
    }
    let (mut parameters, mut at) = (vec![], 1);
    while text.get(at) != Some(&b')') {
        let (part, end) = field_at(text, at)?;
        if parameters.len() == room {
            return Err((30, at));
        }
        parameters.push(part);
        at = end;
    }
    let (returned, used) = return_at(text, at + 1)?;
    form.ended(text, used)?;
    Ok(Method { parameters, returned, used })
}

fn stored(read: Result<Method, Fault>, store: &mut [u32]) -> Parts {
    match read {
        Ok(Method { parameters, returned, used }) => {
            let words = parameters.concat();
            store[..words.len()].copy_from_slice(&words);
            parts(returned, parameters.len(), used)
        }
        Err(fault) => {
            store.fill(0);
            refused(fault)
        }
    }
}

pub fn method_prefix(text: &[u8], parameters: &mut [u32]) -> Parts {
    stored(method(text, Form::Prefix, parameters.len() / PART), parameters)
}

pub fn method_whole(text: &[u8], parameters: &mut [u32]) -> Parts {
    stored(method(text, Form::Whole, parameters.len() / PART), parameters)
}

/// Whether these bytes are a class name of a descriptor, whose `;` comes after them.
fn is_name_in_descriptor(name: &[u8]) -> bool {
    name_end(&[name, b";"].concat(), 0) == Ok(name.len())
}

/// A printed part. `V` is a return only.
fn printed(text: &[u8], part: Part, is_return: bool) -> Result<Vec<u8>, Fault> {
    let [dimensions, letter, start, length] = part.map(|word| word as usize);
    let letter = u8::try_from(letter).map_err(|_| (34, 0))?;
    let end = match letter {
        b'L' => {
            let name = text.get(start..start + length).filter(|name| is_name_in_descriptor(name));
            [name.ok_or((34, 0))?, b";"].concat()
        }
        _ if (start, length) != (0, 0) => return Err((34, 0)),
        b'V' if is_return && dimensions == 0 => vec![],
        _ if PLAIN_LETTERS.contains(&letter) => vec![],
        _ => return Err((34, 0)),
    };
    if dimensions > MOST_DIMENSIONS {
        return Err((34, 0));
    }
    Ok([&vec![b'['; dimensions][..], &[letter], &end].concat())
}

fn printed_method(text: &[u8], parameters: &[u32], count: u64, returned: Part) -> Result<Vec<u8>, Fault> {
    if count > (parameters.len() / PART) as u64 {
        return Err((34, 0));
    }
    let mut descriptor = vec![b'('];
    for record in parameters.chunks_exact(PART).take(count as usize) {
        descriptor.extend(printed(text, record.try_into().unwrap(), false)?);
    }
    descriptor.push(b')');
    descriptor.extend(printed(text, returned, true)?);
    Ok(descriptor)
}

/// Puts bytes at the front of an output, if there are any and it has room.
fn put(bytes: Result<Vec<u8>, Fault>, out: &mut [u8]) -> Answer {
    match bytes {
        Ok(bytes) if bytes.len() <= out.len() => {
            out[..bytes.len()].copy_from_slice(&bytes);
            Answer::accepted(bytes.len() as u64, 0)
        }
        Ok(_) => Answer::refused(33, 0, 0),
        Err((number, place)) => Answer::refused(number, place as u64, 0),
    }
}

/// A printing's order: the text's limit, its parts, the limit of what is printed, room.
fn print(text: &[u8], printed: impl Fn() -> Result<Vec<u8>, Fault>, out: &mut [u8]) -> Answer {
    let bytes = limited(text).and_then(|()| printed()).and_then(|bytes| limited(&bytes).map(|()| bytes));
    put(bytes, out)
}

pub fn print_field(text: &[u8], part: Part, out: &mut [u8]) -> Answer {
    print(text, || printed(text, part, false), out)
}

pub fn print_return(text: &[u8], part: Part, out: &mut [u8]) -> Answer {
    print(text, || printed(text, part, true), out)
}

pub fn print_method(text: &[u8], parameters: &[u32], count: u64, returned: Part, out: &mut [u8]) -> Answer {
    print(text, || printed_method(text, parameters, count, returned), out)
}

fn identified(name: &[u8], descriptor: &[u8]) -> Result<Vec<u8>, Fault> {
    if !is_method_name(name, true, true) {
        return Err((32, 0));
    }
    method(descriptor, Form::Whole, usize::MAX)?;
    Ok([name, descriptor].concat())
}

pub fn identifier(name: &[u8], descriptor: &[u8], out: &mut [u8]) -> Answer {
    put(identified(name, descriptor), out)
}

pub fn is_unqualified_name(text: &[u8]) -> bool {
    is_within_limit(text) && !text.is_empty() && !text.iter().any(|byte| b".;[/".contains(byte))
}

pub fn is_binary_name(text: &[u8]) -> bool {
    is_within_limit(text) && text.split(|byte| *byte == b'/').all(is_unqualified_name)
}

pub fn is_method_name(text: &[u8], init: bool, clinit: bool) -> bool {
    match text {
        b"<init>" => init,
        b"<clinit>" => clinit,
        _ => is_unqualified_name(text) && !text.iter().any(|byte| b"<>".contains(byte)),
    }
}

pub fn is_module_name(text: &[u8]) -> bool {
    let mut rest = text;
    loop {
        rest = match rest {
            [] => return is_within_limit(text),
            [b'\\', b'\\' | b':' | b'@', more @ ..] => more,
            [0..=0x1f | b'\\' | b':' | b'@', ..] => return false,
            [_, more @ ..] => more,
        }
    }
}

pub fn is_field_descriptor(text: &[u8]) -> bool {
    one(text, Form::Whole, field_at).is_ok()
}

pub fn is_return_descriptor(text: &[u8]) -> bool {
    one(text, Form::Whole, return_at).is_ok()
}

pub fn is_array_descriptor(text: &[u8]) -> bool {
    text.first() == Some(&b'[') && is_field_descriptor(text)
}

pub fn is_method_descriptor(text: &[u8]) -> bool {
    method(text, Form::Whole, usize::MAX).is_ok()
}

/// How many parameters a method text has before its `)`, its end or its first fault.
pub fn parameters_read(text: &[u8]) -> usize {
    let (mut count, mut at) = (0, 1);
    while at < text.len() && text[0] == b'(' {
        let Ok((_, end)) = field_at(text, at) else { break };
        (count, at) = (count + 1, end);
    }
    count
}
