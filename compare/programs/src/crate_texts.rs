//! The crate's side for texts, under the library's names and with its answers. Texts are valid UTF-8, outputs and stores
//! have room, and parts are what the crate's types can hold.
use crate::station::{Answer, Parts};
use crate::{Part, PART};
use cafebabe::descriptors::visible_texts as visible;
use cafebabe::descriptors::{ClassName, FieldDescriptor, FieldType, MethodDescriptor, ReturnDescriptor};
use std::borrow::Cow;

/// The number of every refusal here: the crate's own are words.
pub const REFUSED: u32 = u32::MAX;

const VOID: Part = [0, b'V' as u32, 0, 0];

fn utf8(text: &[u8]) -> &str {
    std::str::from_utf8(text).expect("the crate's texts are valid UTF-8")
}

/// A class name borrows from the text that was read, which tells its start.
fn part(text: &str, read: &FieldDescriptor) -> Part {
    let (letter, name) = match &read.field_type {
        FieldType::Byte => (b'B', None),
        FieldType::Char => (b'C', None),
        FieldType::Double => (b'D', None),
        FieldType::Float => (b'F', None),
        FieldType::Integer => (b'I', None),
        FieldType::Long => (b'J', None),
        FieldType::Short => (b'S', None),
        FieldType::Boolean => (b'Z', None),
        FieldType::Object(name) => (b'L', Some(&**name)),
    };
    let range = |name: &str| (name.as_ptr() as usize - text.as_ptr() as usize, name.len());
    let (start, length) = name.map_or((0, 0), range);
    [read.dimensions as u32, letter as u32, start as u32, length as u32]
}

fn return_part(text: &str, read: &ReturnDescriptor) -> Part {
    match read {
        ReturnDescriptor::Return(field) => part(text, field),
        ReturnDescriptor::Void => VOID,
    }
}

fn parts([dimensions, letter, start, length]: Part, parameters: usize, used: usize) -> Parts {
    let (parameters, used) = (parameters as u32, used as u64);
    Parts { number: 0, dimensions, letter, start, length, parameters, place: 0, used }
}

fn answered(read: Option<(Part, usize)>) -> Parts {
    match read {
        Some((part, used)) => parts(part, 0, used),
        None => Parts { number: REFUSED, ..parts([0; PART], 0, 0) },
    }
}

/// What is read is all of the text.
fn whole<T>(text: &[u8], read: Option<(T, usize)>) -> Option<(T, usize)> {
    read.filter(|(_, used)| *used == text.len())
}

fn field(text: &[u8]) -> Option<(Part, usize)> {
    visible::field(utf8(text)).map(|(read, used)| (part(utf8(text), &read), used))
}

fn returned(text: &[u8]) -> Option<(Part, usize)> {
    visible::returned(utf8(text)).map(|(read, used)| (return_part(utf8(text), &read), used))
}

pub fn field_prefix(text: &[u8]) -> Parts {
    answered(field(text))
}

pub fn field_whole(text: &[u8]) -> Parts {
    answered(whole(text, field(text)))
}

pub fn return_prefix(text: &[u8]) -> Parts {
    answered(returned(text))
}

pub fn return_whole(text: &[u8]) -> Parts {
    answered(whole(text, returned(text)))
}

pub fn array(text: &[u8]) -> Parts {
    match visible::array(utf8(text)) {
        Some(None) => parts([0; PART], 0, 0),
        read => answered(read.flatten().map(|read| (part(utf8(text), &read), text.len()))),
    }
}

fn stored(text: &str, read: Option<(MethodDescriptor, usize)>, store: &mut [u32]) -> Parts {
    let Some((method, used)) = read else {
        store.fill(0);
        return answered(None);
    };
    for (record, parameter) in store.chunks_mut(PART).zip(&method.parameters) {
        record.copy_from_slice(&part(text, parameter));
    }
    parts(return_part(text, &method.return_type), method.parameters.len(), used)
}

pub fn method_prefix(text: &[u8], parameters: &mut [u32]) -> Parts {
    stored(utf8(text), visible::method(utf8(text)), parameters)
}

pub fn method_whole(text: &[u8], parameters: &mut [u32]) -> Parts {
    stored(utf8(text), whole(text, visible::method(utf8(text))), parameters)
}

pub fn class_name(text: &[u8]) -> Answer {
    match ClassName::try_from(Cow::Borrowed(utf8(text))) {
        Ok(_) => Answer::accepted(0, 0),
        Err(_) => Answer::refused(REFUSED, 0, 0),
    }
}

/// The crate's value of a part; there is none where its name is no class name.
fn descriptor(text: &[u8], [dimensions, letter, start, length]: Part) -> Option<FieldDescriptor<'_>> {
    let field_type = match letter as u8 {
        b'B' => FieldType::Byte,
        b'C' => FieldType::Char,
        b'D' => FieldType::Double,
        b'F' => FieldType::Float,
        b'I' => FieldType::Integer,
        b'J' => FieldType::Long,
        b'S' => FieldType::Short,
        b'Z' => FieldType::Boolean,
        _ => {
            let name = utf8(text).get(start as usize..start as usize + length as usize)?;
            FieldType::Object(ClassName::try_from(Cow::Borrowed(name)).ok()?)
        }
    };
    Some(FieldDescriptor { dimensions: dimensions as u8, field_type })
}

fn return_descriptor(text: &[u8], part: Part) -> Option<ReturnDescriptor<'_>> {
    match part {
        VOID => Some(ReturnDescriptor::Void),
        _ => descriptor(text, part).map(ReturnDescriptor::Return),
    }
}

fn method_descriptor<'a>(text: &'a [u8], records: &[u32], returned: Part) -> Option<MethodDescriptor<'a>> {
    let parameters = records.chunks_exact(PART).map(|record| descriptor(text, record.try_into().unwrap()));
    Some(MethodDescriptor {
        parameters: parameters.collect::<Option<Vec<_>>>()?,
        return_type: return_descriptor(text, returned)?,
    })
}

fn put(printed: Option<String>, out: &mut [u8]) -> Answer {
    match printed {
        Some(printed) => {
            out[..printed.len()].copy_from_slice(printed.as_bytes());
            Answer::accepted(printed.len() as u64, 0)
        }
        None => Answer::refused(REFUSED, 0, 0),
    }
}

pub fn print_field(text: &[u8], part: Part, out: &mut [u8]) -> Answer {
    put(descriptor(text, part).map(|field| field.to_string()), out)
}

pub fn print_return(text: &[u8], part: Part, out: &mut [u8]) -> Answer {
    put(return_descriptor(text, part).map(|returned| returned.to_string()), out)
}

pub fn print_method(text: &[u8], parameters: &[u32], count: u64, returned: Part, out: &mut [u8]) -> Answer {
    let records = &parameters[..count as usize * PART];
    put(method_descriptor(text, records, returned).map(|method| method.to_string()), out)
}

/// The crate has no identifier, but the checks of its two texts.
pub fn identifier(name: &[u8], descriptor: &[u8], out: &mut [u8]) -> Answer {
    let is_good = is_method_name(name, true, true) && is_method_descriptor(descriptor);
    put(is_good.then(|| [utf8(name), utf8(descriptor)].concat()), out)
}

pub fn is_binary_name(text: &[u8]) -> bool {
    visible::is_binary_name(utf8(text))
}

pub fn is_unqualified_name(text: &[u8]) -> bool {
    visible::is_unqualified_name(utf8(text))
}

pub fn is_method_name(text: &[u8], init: bool, clinit: bool) -> bool {
    visible::is_method_name(utf8(text), init, clinit)
}

pub fn is_module_name(text: &[u8]) -> bool {
    visible::is_module_name(utf8(text))
}

pub fn is_field_descriptor(text: &[u8]) -> bool {
    visible::is_field(utf8(text))
}

pub fn is_array_descriptor(text: &[u8]) -> bool {
    visible::is_array(utf8(text))
}

pub fn is_return_descriptor(text: &[u8]) -> bool {
    visible::is_return(utf8(text))
}

pub fn is_method_descriptor(text: &[u8]) -> bool {
    visible::is_method(utf8(text))
}
