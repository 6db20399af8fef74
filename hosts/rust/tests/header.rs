//! The C header and this crate say the same numbers by the same names.
use nikorepum::{Reason, CODE_LIMIT, ENTRY_WORDS, PARAMETER_WORDS, POOL_LIMIT, RECORD_WORDS, TEXT_LIMIT};

const HEADER: &str = include_str!("../../c/nikorepum.h");

/// `NoTarget` as C writes it: `NO_TARGET`.
fn c_name(name: &str) -> String {
    let mut c_name = String::new();
    let mut before = '_';
    for letter in name.chars() {
        if letter.is_uppercase() && before != '_' || letter.is_numeric() && !before.is_numeric() {
            c_name.push('_');
        }
        c_name.push(letter.to_ascii_uppercase());
        before = letter;
    }
    c_name
}

#[test]
fn every_reason_is_in_the_enum() {
    for number in (1..=15).chain(21..=35) {
        let name = c_name(&format!("{:?}", Reason::from_number(number)));
        let line = format!("    NK_{name} = {number}");
        assert!(HEADER.lines().any(|l| l.strip_prefix(&line).is_some_and(|rest| !rest.starts_with(char::is_numeric))));
    }
}

#[test]
fn every_limit_is_the_same() {
    let limits = [
        ("RECORD_WORDS", RECORD_WORDS),
        ("ENTRY_WORDS", ENTRY_WORDS),
        ("PART_WORDS", PARAMETER_WORDS),
        ("CODE_LIMIT", CODE_LIMIT),
        ("POOL_LIMIT", POOL_LIMIT),
        ("TEXT_LIMIT", TEXT_LIMIT),
    ];
    for (name, limit) in limits {
        assert!(HEADER.lines().any(|line| line == format!("#define NK_{name} {limit}")), "{name}");
    }
}
