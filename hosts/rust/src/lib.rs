//! Checks JVM bytecode, descriptors and names before they are loaded.
//!
//! The answers come from a library written in Rattle, in which every function is proved to give exactly the answer that
//! the JVM Specification (JVMS, Java SE 21) and document 01, the order's page on what is checked, ask for. This crate
//! puts those answers into Rust's terms: it allocates nothing, has no dependency, needs no `std`, and never panics.
//!
//! Whatever is found goes to stores that the caller lends, slices of 32-bit words, and is read from there through
//! iterators. [`record_words`], [`entry_words`] and [`parameter_words`] say how many words are enough.
//!
//! ```
//! use nikorepum::{decode, Operation};
//!
//! let code = [0x1a, 0x99, 0x00, 0x06, 0x84, 0x00, 0xff, 0xb1];
//! let mut records = [0; nikorepum::record_words(8)];
//! let mut entries = [0; nikorepum::entry_words(8)];
//!
//! let decoded = decode(&code, &[], &mut records, &mut entries)?;
//! for instruction in decoded.instructions() {
//!     println!("{} {:02x} {:?}", instruction.offset, instruction.kind, instruction.operation);
//! }
//! assert_eq!(decoded.at(1).map(|i| i.operation), Some(Operation::Jump { target: 7 }));
//! assert_eq!(decoded.at(2), None);
//! # Ok::<(), nikorepum::Refusal>(())
//! ```
//!
//! Texts are bytes, as a class file has them; a byte of 128 or more is an ordinary byte of a name.
#![no_std]
#![deny(unsafe_code)]
#![deny(missing_docs)]

/// The examples in Rust of the hosts' page, run with those of the documentation.
#[cfg(doctest)]
#[doc = include_str!("../../README.md")]
mod readme {}

mod code;
mod descriptors;
mod names;
pub mod raw;
mod refusal;

pub use code::{decode, lookup, Decoded, Instruction, Operation, SwitchEntries};
pub use descriptors::{
    is_array_descriptor, is_field_descriptor, is_method_descriptor, is_return_descriptor, BaseType, ElementType,
    FieldDescriptor, MethodDescriptor, ReturnDescriptor,
};
pub use names::{class_name, is_binary_name, is_method_name, is_module_name, is_unqualified_name, method_identifier};
pub use refusal::{Reason, Refusal};

/// The words of an instruction's record.
pub const RECORD_WORDS: usize = 6;
/// The words of a switch entry.
pub const ENTRY_WORDS: usize = 2;
/// The words of a parameter's part.
pub const PARAMETER_WORDS: usize = 4;
/// The most bytes of a code.
pub const CODE_LIMIT: usize = 65_535;
/// The most bytes of a pool table.
pub const POOL_LIMIT: usize = 4_096;
/// The most bytes of a text.
pub const TEXT_LIMIT: usize = 65_535;

/// Words of records that are enough for any code of so many bytes: an instruction has a byte at least.
///
/// ```
/// const WORDS: usize = nikorepum::record_words(100);
/// let records = [0u32; WORDS];
/// # assert_eq!(records.len(), 600);
/// ```
pub const fn record_words(code_bytes: usize) -> usize {
    RECORD_WORDS * at_most(CODE_LIMIT, code_bytes)
}

/// Words of switch entries that are enough for any code of so many bytes: an entry has four bytes at least.
pub const fn entry_words(code_bytes: usize) -> usize {
    ENTRY_WORDS * (at_most(CODE_LIMIT, code_bytes) / 4)
}

/// Words of parameters that are enough for any method descriptor of so many bytes: a parameter has a byte at least.
pub const fn parameter_words(text_bytes: usize) -> usize {
    PARAMETER_WORDS * at_most(TEXT_LIMIT, text_bytes)
}

/// What is longer than the limit is refused before any store is used.
const fn at_most(limit: usize, bytes: usize) -> usize {
    if bytes < limit {
        bytes
    } else {
        limit
    }
}

/// The first `count` groups of N words. The library counts no group that is not there, so none is missing.
fn front<const N: usize>(words: &[u32], count: usize) -> &[[u32; N]] {
    let (groups, _) = words.as_chunks::<N>();
    groups.get(..count).unwrap_or(groups)
}
