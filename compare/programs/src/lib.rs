//! What the programs share. Each module's first line says what it holds.
#![deny(unsafe_code)]

pub mod classes;
pub mod codes;
pub mod crate_side;
pub mod crate_texts;
pub mod edges;
pub mod fixed_list;
pub mod model;
pub mod parts;
pub mod pools;
pub mod references;
pub mod report;
pub mod rng;
pub mod sides;
pub mod station;
pub mod text_model;
pub mod text_runs;
pub mod texts;

/// The words of an instruction's record, of a switch entry, and of a descriptor's part.
pub const RECORD: usize = 6;
pub const ENTRY: usize = 2;
pub const PART: usize = 4;

/// Dimensions, letter, start and length of the class name.
pub type Part = [u32; PART];
