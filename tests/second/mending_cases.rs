// The kind mending: what cases are made for it. They lean on letters that lie apart in bytes.
// It defines no answers: those stand with the definition of mending.

use crate::byte_kinds::ByteKind;
use crate::byte_texts::{self, boundary_sequences, sequences};
use crate::kinds::{no_calls, Kind};
use crate::mending::mended;
use crate::mending_texts::*;
use crate::random::Random;
use crate::reading_kinds::Made;
use crate::text_kinds::packed;
use crate::wire::{elements_of, Call, Shape, Width};
use crate::words;

pub const MENDING: Kind = Kind {
    number: MENDED.number,
    name: "mending",
    shape: Shape::BYTES,
    answer: |call| MENDED.answer(call),
    edges,
    random: |random| MENDED.random_call(random),
    every,
    stored,
    forbidden: no_calls,
    arguments: words::bytes_argument,
    outcome: words::bytes_and_subparts,
};

pub const MENDED: ByteKind = ByteKind {
    number: 12,
    lent: Width::Byte,
    whole: |bytes| {
        let mending = mended(bytes);
        Made {
            elements: elements_of(&mending.bytes),
            ill_formed: mending.ill_formed,
        }
    },
    growth: 3,
    stretch: 3,
    units: bytes,
    repeated: &REPEATED,
};

fn examples() -> Vec<Call> {
    let examples = EXAMPLES.iter();
    examples
        .flat_map(|(bytes, _, _)| MENDED.in_rooms_around(bytes))
        .collect()
}

/// Every syllable in each of its spellings, whole and with a stray byte; what only looks like one.
fn spellings_in_long_texts() -> Vec<Call> {
    let mut calls = MENDED.in_long_texts(strayed());
    calls.extend(MENDED.in_long_texts(followed_by_letters()));
    for pieces in [finished(), spelled(), with_finals()] {
        // One after the other, each where another letter could have come.
        calls.extend(MENDED.one_by_one(&packed(pieces.clone())));
        calls.extend(MENDED.in_long_texts(pieces));
    }
    calls
}

/// What may stand between letters: any two bytes, and E1 with any two after it.
fn between_letters_in_long_texts() -> Vec<Call> {
    let mut calls = MENDED.in_long_texts(between_letters(&led_by_e1()));
    calls.extend(MENDED.in_long_texts(between_letters(&byte_texts::byte_pairs())));
    calls.extend(MENDED.in_long_texts(between_letters(&boundary_sequences(3))));
    calls
}

/// The meanest of its own, those of every kind that reads bytes, then more of its own.
fn edges() -> Vec<Call> {
    let mut calls = examples();
    calls.extend(MENDED.in_long_texts(sequences(&PIECES, 3)));
    calls.extend(spellings_in_long_texts());
    calls.extend(between_letters_in_long_texts());
    calls.extend(MENDED.edges());
    calls.extend(MENDED.one_by_one(&byte_texts::damaged_texts(&HANGUL_TEXT)));
    calls.extend(MENDED.with_exact_rooms(&byte_texts::at_each_place(&PLACED)));
    calls.extend(MENDED.with_exact_rooms(&beside_syllables()));
    calls.extend(MENDED.one_by_one(&sequences(&PIECES, 2)));
    calls
}

/// Every syllable at the very end of a text, in each of its spellings.
fn at_the_end() -> Vec<Call> {
    let mut calls = MENDED.with_exact_rooms(&finished());
    calls.extend(MENDED.with_exact_rooms(&spelled()));
    calls.extend(MENDED.with_exact_rooms(&with_finals()));
    calls
}

/// Mixtures, for which a comparison of few calls has little room.
fn mixtures() -> Vec<Call> {
    let mut random = Random::new(9);
    let calls = (0..10_000).map(|_| MENDED.random_call(&mut random));
    calls.collect()
}

fn every() -> Vec<Call> {
    let mut calls = MENDED.every();
    calls.extend(MENDED.long());
    calls.extend(at_the_end());
    calls.extend(spellings_in_long_texts());
    calls.extend(between_letters_in_long_texts());
    calls.extend(MENDED.in_long_texts(between_letters(&lower_scalar_values())));
    calls.extend(MENDED.one_by_one(&sequences(&PIECES, 3)));
    calls.extend(MENDED.in_long_texts(sequences(&PIECES, 4)));
    calls.extend(MENDED.in_long_texts(letter_byte_sequences()));
    calls.extend(MENDED.one_by_one(&beside_ascii()));
    calls.extend(MENDED.one_by_one(&beside_syllables()));
    calls.extend(MENDED.one_by_one(&byte_texts::at_each_place(&PLACED)));
    calls.extend(MENDED.one_by_one(&byte_texts::damaged_texts(&HANGUL_TEXT)));
    calls.extend(MENDED.one_by_one(&byte_texts::changed_texts(&HANGUL_TEXT)));
    calls.extend(MENDED.with_exact_rooms(&with_each_byte(&HANGUL_TEXT)));
    calls.extend(mixtures());
    calls
}

/// Refusal 1 is not among the stored ones: 16,385 bytes would not be small.
fn stored() -> Vec<Call> {
    let examples = EXAMPLES.iter();
    let mut calls: Vec<Call> = examples
        .map(|&(bytes, _, _)| MENDED.with_exact_room(bytes))
        .collect();
    calls.extend(MENDED.calls(&[
        (&[], 0),
        (&[], 1),
        (&[0xE1, 0x84, 0x80, 0xE1, 0x85, 0xA1, 0xE1, 0x86, 0xA8], 2),
        (&[0xE1, 0x84, 0x80, 0xE1, 0x85, 0xA1, 0xE1, 0x86, 0xA8], 0),
        (&[0xE1, 0x84, 0x80, 0xE1, 0x85, 0xA1, 0xE1, 0x86, 0xA8], 5),
        (&[0x80, 0xBF], 6),
        (&[0x80, 0xBF], 5),
        (&[0xEF, 0xBF, 0xBD], 3),
        (&[0xEF, 0xBF, 0xBD], 9),
        (&[0xEA, 0xB0, 0x80, 0xE1, 0x86, 0xA8, 0x41], 4),
        (&[0xEA, 0xB0, 0x80, 0xE1, 0x86, 0xA8, 0x41], 3),
        (&[0xF0, 0x9F, 0x9A, 0xA2, 0xF0, 0x9F, 0x9A], 7),
    ]));
    calls
}
