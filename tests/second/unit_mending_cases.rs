// The kind mending UTF-16: what cases are made for it. They lean on letters beside other units.
// It defines no answers: those stand with the definition of mending.

use crate::byte_texts::{at_each_place, changed_units, damaged_units};
use crate::kinds::{no_calls, Kind};
use crate::mending_texts::HANGUL_TEXT;
use crate::random::Random;
use crate::reading_kinds::Made;
use crate::text_kinds::packed;
use crate::unit_kinds::UnitKind;
use crate::unit_mending::mended;
use crate::unit_mending_texts::*;
use crate::unit_texts::{self, BOUNDARY_UNITS};
use crate::utf16::written;
use crate::wire::{elements_of, Call, Shape, Width};
use crate::words;

pub const UNIT_MENDING: Kind = Kind {
    number: MENDED_UNITS.number,
    name: "mending UTF-16",
    shape: Shape::UNITS,
    answer: |call| MENDED_UNITS.answer(call),
    edges,
    random: |random| MENDED_UNITS.random_call(random),
    every,
    stored,
    forbidden: no_calls,
    arguments: words::units_argument,
    outcome: words::units_and_unpaired,
};

pub const MENDED_UNITS: UnitKind = UnitKind {
    number: 22,
    lent: Width::Unit,
    whole: |units| {
        let mending = mended(units);
        Made {
            elements: elements_of(&mending.units),
            ill_formed: mending.unpaired,
        }
    },
    growth: 1,
    stretch: 2,
    units,
    repeated: &REPEATED,
};

fn examples() -> Vec<Call> {
    let examples = EXAMPLES.iter();
    examples
        .flat_map(|(units, _, _)| MENDED_UNITS.in_rooms_around(units))
        .collect()
}

/// Every syllable in each of its spellings, whole and with a surrogate; what only looks like one.
fn spellings_in_long_texts() -> Vec<Call> {
    let mut calls = MENDED_UNITS.in_long_texts(strayed());
    calls.extend(MENDED_UNITS.in_long_texts(followed_by_letters()));
    for pieces in [finished(), spelled(), with_finals()] {
        // One after the other, each where another letter could have come.
        calls.extend(MENDED_UNITS.one_by_one(&packed(pieces.clone())));
        calls.extend(MENDED_UNITS.in_long_texts(pieces));
    }
    calls
}

/// What may stand between letters: any unit, any two mean ones, and pairs.
fn between_letters_in_long_texts() -> Vec<Call> {
    let mut calls = MENDED_UNITS.in_long_texts(between_letters(&unit_texts::single_units()));
    calls.extend(MENDED_UNITS.in_long_texts(between_letters(&unit_texts::boundary_pairs())));
    calls.extend(MENDED_UNITS.in_long_texts(between_letters(&paired_values())));
    calls
}

/// The meanest of its own, those of every kind that reads units, then more of its own.
fn edges() -> Vec<Call> {
    let text = written(&HANGUL_TEXT);
    let mut calls = examples();
    calls.extend(spellings_in_long_texts());
    calls.extend(between_letters_in_long_texts());
    calls.extend(MENDED_UNITS.with_exact_rooms(&within_plain()));
    calls.extend(MENDED_UNITS.edges());
    calls.extend(MENDED_UNITS.one_by_one(&damaged_units(&text)));
    calls.extend(MENDED_UNITS.with_exact_rooms(&at_each_place(&PLACED)));
    calls.extend(MENDED_UNITS.with_exact_rooms(&beside_plain()));
    calls
}

/// Every syllable at the very end of a text, in each of its spellings.
fn at_the_end() -> Vec<Call> {
    let mut calls = MENDED_UNITS.with_exact_rooms(&finished());
    calls.extend(MENDED_UNITS.with_exact_rooms(&spelled()));
    calls.extend(MENDED_UNITS.with_exact_rooms(&with_finals()));
    calls
}

/// Mixtures, for which a comparison of few calls has little room.
fn mixtures() -> Vec<Call> {
    let mut random = Random::new(11);
    let calls = (0..10_000).map(|_| MENDED_UNITS.random_call(&mut random));
    calls.collect()
}

fn every() -> Vec<Call> {
    let text = written(&HANGUL_TEXT);
    let mut calls = MENDED_UNITS.every();
    calls.extend(at_the_end());
    calls.extend(spellings_in_long_texts());
    calls.extend(between_letters_in_long_texts());
    calls.extend(MENDED_UNITS.in_long_texts(between_letters(&unit_texts::triples())));
    calls.extend(MENDED_UNITS.one_by_one(&within_plain()));
    calls.extend(MENDED_UNITS.one_by_one(&beside_plain()));
    calls.extend(MENDED_UNITS.one_by_one(&beside_others()));
    calls.extend(MENDED_UNITS.one_by_one(&at_each_place(&PLACED)));
    calls.extend(MENDED_UNITS.one_by_one(&damaged_units(&text)));
    calls.extend(MENDED_UNITS.one_by_one(&changed_units(&text, &BOUNDARY_UNITS)));
    calls.extend(mixtures());
    calls
}

/// Refusal 1 is not among the stored ones: 16,385 units would not be small.
fn stored() -> Vec<Call> {
    let examples = EXAMPLES.iter();
    let mut calls: Vec<Call> = examples
        .map(|&(units, _, _)| MENDED_UNITS.with_exact_room(units))
        .collect();
    calls.extend(MENDED_UNITS.calls(&[
        (&[], 0),
        (&[], 1),
        (&[0x1100, 0x1161, 0x11A8], 0),
        (&[0x1100, 0x1161, 0x11A8, 0x41], 1),
        (&[0x1100, 0x1161, 0x11A8, 0x41], 3),
        (&[0xDC00, 0xD800], 2),
        (&[0xDC00, 0xD800], 1),
        (&[0xFFFD], 3),
        (&[0xAC00, 0x11A8, 0xD83D, 0xDEA2], 3),
        (&[0xAC00, 0x11A8, 0xD83D, 0xDEA2], 2),
    ]));
    calls
}
