// The kind writing UTF-16: what cases are made for it. They lean on where the length changes.
// It defines no answers: those stand with the definitions of UTF-16.

use crate::kinds::{no_calls, Kind};
use crate::letters::LIMIT;
use crate::random::Random;
use crate::text_kinds::TextKind;
use crate::texts;
use crate::utf16::written;
use crate::wire::{elements_of, Call, Shape, Width};
use crate::words;

pub const UNIT_WRITING: Kind = Kind {
    number: WRITTEN_UNITS.number,
    name: "writing UTF-16",
    shape: Shape::CODES_TO_UNITS,
    answer: |call| WRITTEN_UNITS.answer(call),
    edges,
    random: |random| WRITTEN_UNITS.random_call(random),
    every,
    stored,
    forbidden: no_calls,
    arguments: words::text_argument,
    outcome: words::units_in_buffer,
};

pub const WRITTEN_UNITS: TextKind = TextKind {
    number: 21,
    lent: Width::Unit,
    whole: |text| elements_of(&written(text)),
    growth: 2,
    good_text,
    repeated: &[
        &[0x10_FFFF],
        &[0xAC01],
        &[0x41],
        &[0xD7FF, 0xE000, 0xFFFF, 0x1_0000, 0x10_FFFF],
    ],
};

/// The ends of the rows of table 3-5, with the ends of planes and of what one high surrogate leads.
const LENGTH_ENDS: [u32; 14] = [
    0x00, 0x41, 0xD7FF, 0xE000, 0xFEFF, 0xFFFD, 0xFFFF, 0x1_0000, 0x1_03FF, 0x1_0400, 0x1_FFFF,
    0x2_0000, 0x10_0000, 0x10_FFFF,
];

/// A good text, half of the time of characters on both sides of where the length changes.
fn good_text(random: &mut Random, length: usize) -> Vec<u32> {
    match random.below(4) {
        0 => (0..length).map(|_| random.pick(&LENGTH_ENDS)).collect(),
        1 => {
            let ranges = [(0, 0xD7FF), (0xE000, 0xFFFF), (0x1_0000, 0x10_FFFF)];
            let mut code = || {
                let (first, last) = random.pick(&ranges);
                random.between(first, last)
            };
            (0..length).map(|_| code()).collect()
        }
        _ => texts::good_text(random, length),
    }
}

/// With two units of room for each code point, which is always enough, and with one less, which
/// mostly is too: a program that asks for more than it needs is caught.
fn in_worst_rooms(text: &[u32]) -> [Call; 2] {
    let most = 2 * text.len();
    [most, most.saturating_sub(1)].map(|room| WRITTEN_UNITS.call(text, room))
}

fn in_many_rooms(text: &[u32]) -> Vec<Call> {
    let mut calls = WRITTEN_UNITS.in_rooms_around(text);
    calls.extend(in_worst_rooms(text));
    calls
}

/// A character of two units at each place among those of one, and the other way round.
fn at_each_place() -> Vec<Call> {
    let mut calls = Vec::new();
    for (around, code) in [(0x41, 0x1_0000), (0xAC01, 0x10_FFFF), (0x1_F6A2, 0x41)] {
        for place in 0..=33 {
            let mut text = vec![around; 33];
            text.insert(place, code);
            calls.push(WRITTEN_UNITS.with_exact_room(&text));
        }
    }
    calls
}

/// All pairs of codes at which the length changes.
fn pairs() -> Vec<Vec<u32>> {
    let pairs = LENGTH_ENDS
        .iter()
        .flat_map(|&first| LENGTH_ENDS.map(|second| vec![first, second]));
    pairs.collect()
}

fn edges() -> Vec<Call> {
    let mut calls = WRITTEN_UNITS.no_text();
    calls.extend(in_many_rooms(&LENGTH_ENDS));
    calls.extend(WRITTEN_UNITS.long_spoilt());
    calls.extend(WRITTEN_UNITS.short_spoilt());
    for code in LENGTH_ENDS {
        calls.extend(in_many_rooms(&[code]));
    }
    for code in texts::TEMPTING_CODES {
        calls.extend(WRITTEN_UNITS.exact_and_short(&[code, 0xAC01, code, code]));
    }
    calls.extend(WRITTEN_UNITS.long_good());
    for code in texts::boundary_codes() {
        calls.extend(WRITTEN_UNITS.exact_and_short(&[0x41, code, 0xAC01]));
    }
    for text in texts::scalar_values().chunks(LIMIT).take(16) {
        calls.extend(WRITTEN_UNITS.exact_and_short(text));
    }
    calls.extend(at_each_place());
    for pair in pairs() {
        calls.extend(WRITTEN_UNITS.exact_and_short(&pair));
    }
    for code in texts::look_alike_codes() {
        calls.push(WRITTEN_UNITS.with_exact_room(&[code]));
    }
    calls
}

/// Every number of sixteen bits alone, with the surrogates among them, and bad ones beyond; every
/// scalar value in texts as long as the limit allows.
fn every() -> Vec<Call> {
    let mut calls = Vec::new();
    for code in (0..=0xFFFF).chain(texts::numbers_beyond()) {
        calls.extend(WRITTEN_UNITS.exact_and_short(&[code]));
    }
    for text in texts::scalar_values().chunks(LIMIT) {
        calls.extend(WRITTEN_UNITS.exact_and_short(text));
        calls.extend(in_worst_rooms(text));
    }
    calls
}

/// Refusal 1 is not among the stored ones: 16,385 code points would not be small.
fn stored() -> Vec<Call> {
    WRITTEN_UNITS.calls(&[
        (&[0xAC01, 0x1_F6A2, 0x41], 5),
        (&[], 0),
        (&[], 1),
        (&[0xAC01, 0x1_F6A2, 0x41], 4),
        (&[0xAC01, 0x1_F6A2, 0x41], 3),
        (&[0xAC01, 0x1_F6A2, 0x41], 0),
        (&[0x00, 0xD7FF, 0xE000, 0xFFFF], 4),
        (&[0x1_0000, 0x10_FFFF], 4),
        (&[0x1_0000, 0x10_FFFF], 3),
        (&[0x1_03FF, 0x1_0400], 4),
        (&[0xFEFF, 0xFFFD], 3),
        (&[0x4D, 0x430, 0x4E8C, 0x1_0302], 5),
        (&[0x1112, 0x1161, 0x11AB, 0x20, 0xD55C], 5),
        (&[0xD800], 4),
        (&[0xD83D, 0xDEA2], 4),
        (&[0x41, 0xDFFF], 0),
        (&[0x11_0000, 0xD800], 8),
        (&[0x41, 0xFFFF_FFFF, 0x42], 6),
        (&[0x8000_0041], 1),
    ])
}
