//! Ours, put into the crate's module of descriptors: its readings with the bytes they use, and the yes/no checks, made
//! visible. A reading says nothing of its refusal.
use super::*;

pub fn field(text: &str) -> Option<(FieldDescriptor<'_>, usize)> {
    let read = parse_field_descriptor(&Cow::Borrowed(text), 0).ok()?;
    let used = read.byte_len();
    Some((read, used))
}

pub fn returned(text: &str) -> Option<(ReturnDescriptor<'_>, usize)> {
    let read = parse_return_descriptor(&Cow::Borrowed(text), 0).ok()?;
    let used = read.byte_len();
    Some((read, used))
}

pub fn method(text: &str) -> Option<(MethodDescriptor<'_>, usize)> {
    let read = parse_method_descriptor(&Cow::Borrowed(text), 0).ok()?;
    let used = read.byte_len();
    Some((read, used))
}

/// Within, nothing where the text is not an array.
pub fn array(text: &str) -> Option<Option<FieldDescriptor<'_>>> {
    parse_array_descriptor(&Cow::Borrowed(text)).ok()
}

pub fn is_field(text: &str) -> bool {
    is_field_descriptor(text)
}

pub fn is_array(text: &str) -> bool {
    is_array_descriptor(text)
}

pub fn is_return(text: &str) -> bool {
    is_return_descriptor(text)
}

pub fn is_method(text: &str) -> bool {
    is_method_descriptor(text)
}

pub fn is_binary_name(text: &str) -> bool {
    crate::names::is_binary_name(text)
}

pub fn is_unqualified_name(text: &str) -> bool {
    crate::names::is_unqualified_name(text)
}

pub fn is_method_name(text: &str, init: bool, clinit: bool) -> bool {
    crate::names::is_unqualified_method_name(text, init, clinit)
}

pub fn is_module_name(text: &str) -> bool {
    crate::names::is_module_name(text)
}
