// The kind reading UTF-16: its cases are those of every kind that reads units; a few are stored.
// It defines no answers: those stand with the definitions of UTF-16.

use crate::kinds::{no_calls, Kind};
use crate::reading_kinds::Made;
use crate::unit_kinds::UnitKind;
use crate::unit_texts;
use crate::utf16::read;
use crate::wire::{Call, Shape, Width};
use crate::words;

pub const UNIT_READING: Kind = Kind {
    number: READ_UNITS.number,
    name: "reading UTF-16",
    shape: Shape::UNITS_TO_CODES,
    answer: |call| READ_UNITS.answer(call),
    edges: || READ_UNITS.edges(),
    random: |random| READ_UNITS.random_call(random),
    every: || READ_UNITS.every(),
    stored,
    forbidden: no_calls,
    arguments: words::units_argument,
    outcome: words::codes_and_subparts,
};

pub const READ_UNITS: UnitKind = UnitKind {
    number: 20,
    lent: Width::Number,
    whole: |units| {
        let reading = read(units);
        Made {
            elements: reading.codes,
            ill_formed: reading.ill_formed,
        }
    },
    growth: 1,
    stretch: 1,
    units: unit_texts::units,
    repeated: &unit_texts::REPEATED,
};

/// Refusal 1 is not among the stored ones: 16,385 units would not be small.
fn stored() -> Vec<Call> {
    let mut calls = vec![READ_UNITS.call(&[0xAC01, 0xD83D, 0xDEA2, 0x41], 4)];
    let examples = unit_texts::EXAMPLES.iter();
    calls.extend(examples.map(|&(units, _, _)| READ_UNITS.with_exact_room(units)));
    calls.extend(READ_UNITS.calls(&[
        (&[], 0),
        (&[], 1),
        (&[0xAC01, 0xD83D, 0xDEA2, 0x41], 3),
        (&[0xAC01, 0xD83D, 0xDEA2, 0x41], 2),
        (&[0xAC01, 0xD83D, 0xDEA2, 0x41], 0),
        (&[0xDEA2, 0xD83D], 2),
        (&[0xDEA2, 0xD83D], 1),
        (&[0xFFFD], 1),
        (&[0x01AC, 0x4100], 2),
    ]));
    calls
}
