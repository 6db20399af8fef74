//! Our side: the library's functions over slices, where a part is passed as one value.
use crate::Part;
use nikorepum::raw;

pub use nikorepum::raw::*;

pub fn print_field(text: &[u8], [dimensions, letter, start, length]: Part, out: &mut [u8]) -> Answer {
    raw::print_field(text, dimensions, letter, start, length, out)
}

pub fn print_return(text: &[u8], [dimensions, letter, start, length]: Part, out: &mut [u8]) -> Answer {
    raw::print_return(text, dimensions, letter, start, length, out)
}

pub fn print_method(text: &[u8], parameters: &[u32], count: u64, returned: Part, out: &mut [u8]) -> Answer {
    let [dimensions, letter, start, length] = returned;
    raw::print_method(text, parameters, count, dimensions, letter, start, length, out)
}
