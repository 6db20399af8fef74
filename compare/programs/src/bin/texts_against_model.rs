//! Our whole answers on texts, with whole stores and outputs, against the model of document 01.
//! usage: texts_against_model [SEED [COUNT]]
use compare::report::number;
use compare::{references, text_runs};

fn main() {
    text_runs::everything(&references::the_model(), number(1, 1), number(2, 1_000_000)).finish("texts_against_model")
}
