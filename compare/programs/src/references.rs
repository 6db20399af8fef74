//! The two sides that ours is held against on texts, and what each can be asked.
use crate::sides::{Call, Outcome, CRATE, MODEL};
use crate::text_model::parameters_read;
use crate::text_runs::Reference;
use crate::texts::Symbols;
use crate::{crate_texts, parts, PART};

/// The most bytes of a text of the crate's domain.
const TEXT_LIMIT: usize = 65_535;

/// The crate prints a class name that its own reading refuses, empty or ending in `/`; and it prints any number of bytes.
fn known_of_crate(call: &Call, ours: &Outcome, theirs: &Outcome) -> Option<&'static str> {
    let (Outcome::Answer(ours, _), Outcome::Answer(answer, out)) = (ours, theirs) else { return None };
    let printed = out.get(..answer.first as usize).filter(|_| answer.number == 0)?;
    let reads_back = match call {
        Call::Print(0, ..) => crate_texts::is_field_descriptor(printed),
        Call::Print(..) => crate_texts::is_return_descriptor(printed),
        _ => crate_texts::is_method_descriptor(printed),
    };
    match ours.number {
        21 if printed.len() > TEXT_LIMIT => Some("the crate prints over 65,535 bytes, here 21"),
        34 if !reads_back => Some("the crate prints a class name that it does not read, here 34"),
        _ => None,
    }
}

/// The crate on its domain: acceptance and what is read or printed, in stores and outputs with room.
pub fn the_crate() -> Reference {
    Reference {
        side: CRATE,
        symbols: Symbols::characters(),
        taken: |text| {
            let text = String::from_utf8_lossy(&text).into_owned().into_bytes();
            (text.len() <= TEXT_LIMIT).then_some(text)
        },
        // Room for any parameters of the text, and a part of a record more.
        stores: |text| vec![PART * text.len() + 3],
        outputs: |length| vec![length + 3],
        part: parts::held,
        method: parts::held_method,
        known: known_of_crate,
    }
}

/// Room for no parameter, for one too few, for all and for one more, each with some words over.
fn stores_about(text: &[u8]) -> Vec<usize> {
    let needed = parameters_read(text);
    let mut capacities = vec![0, needed.saturating_sub(1), needed, needed + 1];
    capacities.dedup();
    let over = text.len() % PART;
    capacities.into_iter().map(|records| records * PART + over).collect()
}

fn outputs_about(length: usize) -> Vec<usize> {
    let mut sizes = vec![0, length.saturating_sub(1), length, length + 1, length + 9];
    sizes.dedup();
    sizes
}

/// The model of document 01, on any bytes and any words: whole answers, at the capacities about the needed one.
pub fn the_model() -> Reference {
    Reference {
        side: MODEL,
        symbols: Symbols::bytes(),
        taken: Some,
        stores: stores_about,
        outputs: outputs_about,
        part: |rng, text, _| parts::any(rng, text),
        method: parts::any_method,
        known: |_, _, _| None,
    }
}
