//! The library's functions as they are, over slices: numbers in, numbers out. This is the only module with unsafe code.
//!
//! `nikorepum.h` in `hosts/c` says of each function what its numbers are, and what words it leaves in the stores.
#![allow(unsafe_code)]

/// Number 0 is acceptance, and `first` and `next` say what was found. Any other number is a refusal, with its place and
/// its second number.
#[repr(C)]
#[derive(Clone, Copy, Debug, PartialEq, Eq)]
pub struct Answer {
    /// 0, or the number of a refusal.
    pub number: u32,
    /// Which jump is refused.
    pub second: u32,
    /// Where the refusal stands.
    pub place: u64,
    /// What the function found.
    pub first: u64,
    /// What else it found.
    pub next: u64,
}

impl Answer {
    /// An acceptance.
    pub const fn accepted(first: u64, next: u64) -> Answer {
        Answer { number: 0, second: 0, place: 0, first, next }
    }

    /// A refusal.
    pub const fn refused(number: u32, place: u64, second: u32) -> Answer {
        Answer { number, second, place, first: 0, next: 0 }
    }
}

/// The parts of a descriptor, for a method those of its return. Number 0 is acceptance; any other is a refusal with its
/// place.
#[repr(C)]
#[derive(Clone, Copy, Debug, PartialEq, Eq)]
pub struct Parts {
    /// 0, or the number of a refusal.
    pub number: u32,
    /// Those of an array.
    pub dimensions: u32,
    /// The byte of its type.
    pub letter: u32,
    /// Where the class name starts in the text.
    pub start: u32,
    /// How many bytes it has.
    pub length: u32,
    /// How many parameters a method has.
    pub parameters: u32,
    /// Where the refusal stands.
    pub place: u64,
    /// How many bytes of the text the descriptor has.
    pub used: u64,
}

/// As C sees them: each slice is a pointer and a count of elements.
mod c {
    use super::{Answer, Parts};

    extern "C" {
        pub fn nk_decode(
            code: *const u8,
            code_count: usize,
            pool: *const u8,
            pool_count: usize,
            records: *mut u32,
            records_count: usize,
            entries: *mut u32,
            entries_count: usize,
        ) -> Answer;
        pub fn nk_lookup(records: *const u32, records_count: usize, count: u64, offset: u64) -> Answer;
        pub fn nk_class_name(text: *const u8, text_count: usize) -> Answer;
        pub fn nk_print_field(
            text: *const u8,
            text_count: usize,
            dimensions: u32,
            letter: u32,
            name_start: u32,
            name_length: u32,
            out: *mut u8,
            out_count: usize,
        ) -> Answer;
        pub fn nk_print_return(
            text: *const u8,
            text_count: usize,
            dimensions: u32,
            letter: u32,
            name_start: u32,
            name_length: u32,
            out: *mut u8,
            out_count: usize,
        ) -> Answer;
        pub fn nk_print_method(
            text: *const u8,
            text_count: usize,
            parameters: *const u32,
            parameters_count: usize,
            count: u64,
            dimensions: u32,
            letter: u32,
            name_start: u32,
            name_length: u32,
            out: *mut u8,
            out_count: usize,
        ) -> Answer;
        pub fn nk_identifier(
            name: *const u8,
            name_count: usize,
            descriptor: *const u8,
            descriptor_count: usize,
            out: *mut u8,
            out_count: usize,
        ) -> Answer;
        pub fn nk_field_prefix(text: *const u8, text_count: usize) -> Parts;
        pub fn nk_field_whole(text: *const u8, text_count: usize) -> Parts;
        pub fn nk_return_prefix(text: *const u8, text_count: usize) -> Parts;
        pub fn nk_return_whole(text: *const u8, text_count: usize) -> Parts;
        pub fn nk_array(text: *const u8, text_count: usize) -> Parts;
        pub fn nk_method_prefix(
            text: *const u8,
            text_count: usize,
            parameters: *mut u32,
            parameters_count: usize,
        ) -> Parts;
        pub fn nk_method_whole(
            text: *const u8,
            text_count: usize,
            parameters: *mut u32,
            parameters_count: usize,
        ) -> Parts;
        pub fn nk_is_binary_name(text: *const u8, text_count: usize) -> bool;
        pub fn nk_is_unqualified_name(text: *const u8, text_count: usize) -> bool;
        pub fn nk_is_method_name(text: *const u8, text_count: usize, init: bool, clinit: bool) -> bool;
        pub fn nk_is_module_name(text: *const u8, text_count: usize) -> bool;
        pub fn nk_is_field_descriptor(text: *const u8, text_count: usize) -> bool;
        pub fn nk_is_array_descriptor(text: *const u8, text_count: usize) -> bool;
        pub fn nk_is_return_descriptor(text: *const u8, text_count: usize) -> bool;
        pub fn nk_is_method_descriptor(text: *const u8, text_count: usize) -> bool;
    }
}

// Why each call below is safe: a pointer comes with the count of what it points to, what is lent to be changed is
// borrowed by itself, and the library asks for nothing else.

/// A code decoded. On acceptance `first` is the number of instructions and `next` that of switch entries.
#[inline]
pub fn decode(code: &[u8], pool: &[u8], records: &mut [u32], entries: &mut [u32]) -> Answer {
    unsafe {
        c::nk_decode(
            code.as_ptr(),
            code.len(),
            pool.as_ptr(),
            pool.len(),
            records.as_mut_ptr(),
            records.len(),
            entries.as_mut_ptr(),
            entries.len(),
        )
    }
}

/// The record of an offset among the first `count`. On acceptance `next` is 1 where there is one, and `first` its
/// index.
#[inline]
pub fn lookup(records: &[u32], count: u64, offset: u64) -> Answer {
    unsafe { c::nk_lookup(records.as_ptr(), records.len(), count, offset) }
}

/// A class name alone. On acceptance `first` and `next` are 0.
#[inline]
pub fn class_name(text: &[u8]) -> Answer {
    unsafe { c::nk_class_name(text.as_ptr(), text.len()) }
}

/// A field descriptor from its part. On acceptance `first` is the length written, here and in the next three.
#[inline]
pub fn print_field(
    text: &[u8],
    dimensions: u32,
    letter: u32,
    name_start: u32,
    name_length: u32,
    out: &mut [u8],
) -> Answer {
    unsafe {
        c::nk_print_field(
            text.as_ptr(),
            text.len(),
            dimensions,
            letter,
            name_start,
            name_length,
            out.as_mut_ptr(),
            out.len(),
        )
    }
}

/// A return descriptor from its part.
#[inline]
pub fn print_return(
    text: &[u8],
    dimensions: u32,
    letter: u32,
    name_start: u32,
    name_length: u32,
    out: &mut [u8],
) -> Answer {
    unsafe {
        c::nk_print_return(
            text.as_ptr(),
            text.len(),
            dimensions,
            letter,
            name_start,
            name_length,
            out.as_mut_ptr(),
            out.len(),
        )
    }
}

/// A method descriptor from the first `count` parameters and the part of its return.
#[inline]
#[allow(clippy::too_many_arguments)]
pub fn print_method(
    text: &[u8],
    parameters: &[u32],
    count: u64,
    dimensions: u32,
    letter: u32,
    name_start: u32,
    name_length: u32,
    out: &mut [u8],
) -> Answer {
    unsafe {
        c::nk_print_method(
            text.as_ptr(),
            text.len(),
            parameters.as_ptr(),
            parameters.len(),
            count,
            dimensions,
            letter,
            name_start,
            name_length,
            out.as_mut_ptr(),
            out.len(),
        )
    }
}

/// The method identifier: the name, then the descriptor.
#[inline]
pub fn identifier(name: &[u8], descriptor: &[u8], out: &mut [u8]) -> Answer {
    unsafe {
        c::nk_identifier(name.as_ptr(), name.len(), descriptor.as_ptr(), descriptor.len(), out.as_mut_ptr(), out.len())
    }
}

/// The field descriptor that the text begins with.
#[inline]
pub fn field_prefix(text: &[u8]) -> Parts {
    unsafe { c::nk_field_prefix(text.as_ptr(), text.len()) }
}

/// The whole text as a field descriptor.
#[inline]
pub fn field_whole(text: &[u8]) -> Parts {
    unsafe { c::nk_field_whole(text.as_ptr(), text.len()) }
}

/// The return descriptor that the text begins with.
#[inline]
pub fn return_prefix(text: &[u8]) -> Parts {
    unsafe { c::nk_return_prefix(text.as_ptr(), text.len()) }
}

/// The whole text as a return descriptor.
#[inline]
pub fn return_whole(text: &[u8]) -> Parts {
    unsafe { c::nk_return_whole(text.as_ptr(), text.len()) }
}

/// The whole text as an array descriptor; `letter` is 0 where it is not an array.
#[inline]
pub fn array(text: &[u8]) -> Parts {
    unsafe { c::nk_array(text.as_ptr(), text.len()) }
}

/// The method descriptor that the text begins with.
#[inline]
pub fn method_prefix(text: &[u8], parameters: &mut [u32]) -> Parts {
    unsafe { c::nk_method_prefix(text.as_ptr(), text.len(), parameters.as_mut_ptr(), parameters.len()) }
}

/// The whole text as a method descriptor.
#[inline]
pub fn method_whole(text: &[u8], parameters: &mut [u32]) -> Parts {
    unsafe { c::nk_method_whole(text.as_ptr(), text.len(), parameters.as_mut_ptr(), parameters.len()) }
}

/// Whether the text is a binary name.
#[inline]
pub fn is_binary_name(text: &[u8]) -> bool {
    unsafe { c::nk_is_binary_name(text.as_ptr(), text.len()) }
}

/// Whether the text is an unqualified name.
#[inline]
pub fn is_unqualified_name(text: &[u8]) -> bool {
    unsafe { c::nk_is_unqualified_name(text.as_ptr(), text.len()) }
}

/// Whether the text is a method's name, `<init>` or `<clinit>` where that is allowed.
#[inline]
pub fn is_method_name(text: &[u8], init: bool, clinit: bool) -> bool {
    unsafe { c::nk_is_method_name(text.as_ptr(), text.len(), init, clinit) }
}

/// Whether the text is a module name.
#[inline]
pub fn is_module_name(text: &[u8]) -> bool {
    unsafe { c::nk_is_module_name(text.as_ptr(), text.len()) }
}

/// Whether the whole text is a field descriptor.
#[inline]
pub fn is_field_descriptor(text: &[u8]) -> bool {
    unsafe { c::nk_is_field_descriptor(text.as_ptr(), text.len()) }
}

/// Whether the whole text is an array descriptor.
#[inline]
pub fn is_array_descriptor(text: &[u8]) -> bool {
    unsafe { c::nk_is_array_descriptor(text.as_ptr(), text.len()) }
}

/// Whether the whole text is a return descriptor.
#[inline]
pub fn is_return_descriptor(text: &[u8]) -> bool {
    unsafe { c::nk_is_return_descriptor(text.as_ptr(), text.len()) }
}

/// Whether the whole text is a method descriptor.
#[inline]
pub fn is_method_descriptor(text: &[u8]) -> bool {
    unsafe { c::nk_is_method_descriptor(text.as_ptr(), text.len()) }
}
