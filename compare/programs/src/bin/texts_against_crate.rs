//! Our readings, checks and printings of texts against the crate's. usage: texts_against_crate [SEED [COUNT]]
use compare::report::number;
use compare::{references, text_runs};

fn main() {
    text_runs::everything(&references::the_crate(), number(1, 1), number(2, 1_000_000)).finish("texts_against_crate")
}
