// The kind reading UTF-8: its cases are those of every kind that reads bytes; a few are stored.
// It defines no answers: those stand with the definitions of UTF-8.

use crate::byte_kinds::ByteKind;
use crate::byte_texts;
use crate::kinds::{no_calls, Kind};
use crate::reading_kinds::Made;
use crate::utf8::read;
use crate::wire::{Call, Shape, Width};
use crate::words;

pub const READING: Kind = Kind {
    number: READ.number,
    name: "reading UTF-8",
    shape: Shape::BYTES_TO_CODES,
    answer: |call| READ.answer(call),
    edges,
    random: |random| READ.random_call(random),
    every: || READ.every(),
    stored,
    forbidden: no_calls,
    arguments: words::bytes_argument,
    outcome: words::codes_and_subparts,
};

pub const READ: ByteKind = ByteKind {
    number: 10,
    lent: Width::Number,
    whole: |bytes| {
        let reading = read(bytes);
        Made {
            elements: reading.codes,
            ill_formed: reading.ill_formed,
        }
    },
    growth: 1,
    stretch: 1,
    units: byte_texts::bytes,
    repeated: &byte_texts::REPEATED,
};

/// A comparison of few calls does not come to the end of the last ones.
fn edges() -> Vec<Call> {
    let mut calls = READ.edges();
    calls.extend(READ.one_by_one(&byte_texts::boundary_sequences(3)));
    calls
}

/// Refusal 1 is not among the stored ones: 16,385 bytes would not be small.
fn stored() -> Vec<Call> {
    let mut calls = vec![READ.call(&[0xEA, 0xB0, 0x81, 0x41], 3)];
    let examples = byte_texts::EXAMPLES.iter();
    calls.extend(examples.map(|&(bytes, _, _)| READ.with_exact_room(bytes)));
    calls.extend(READ.calls(&[
        (&[], 0),
        (&[], 1),
        (&[0xEA, 0xB0, 0x81, 0x41], 1),
        (&[0xEA, 0xB0, 0x81, 0x41], 0),
        (&[0xE1, 0x84, 0x80, 0xE1, 0x20, 0xA1, 0xE1, 0x86, 0xA8], 4),
        (&[0xEF, 0xBB, 0xBF], 1),
        (&[0xEF, 0xBF, 0xBD], 1),
        (&[0xEF, 0xBF, 0xBD, 0xEF, 0xBF, 0xEF, 0xBF, 0xBD], 8),
        (&[0x00, 0x7F, 0xC2, 0x80, 0xDF, 0xBF], 4),
        (&[0xE0, 0xA0, 0x80, 0xED, 0x9F, 0xBF, 0xEE, 0x80, 0x80], 3),
        (&[0xF0, 0x90, 0x80, 0x80, 0xF4, 0x8F, 0xBF, 0xBF], 2),
        (&[0xF4, 0x90, 0x80, 0x80], 4),
        (&[0xF4, 0x90, 0x80, 0x80], 3),
        (&[0xF0, 0x8F, 0xBF, 0xBF, 0xF5, 0x80, 0x80, 0x80], 8),
        (&[0xC0, 0x80, 0xC1, 0xBF], 4),
        (&[0xF1, 0x80, 0x80], 1),
    ]));
    calls
}
