// The kind filler groups: what cases are made for it. They lean on groups that nearly are.
// It defines no answers: those stand with the definition of filler groups.

use crate::filler_texts::{filler_text, SMALL_ALPHABET};
use crate::fillers::{turned, FILLER};
use crate::kinds::{no_calls, Kind};
use crate::letters::is_bad;
use crate::text_kinds::{packed, TextKind};
use crate::texts;
use crate::wire::{Call, Shape, Width};
use crate::words;

pub const FILLER_GROUPS: Kind = Kind {
    number: TURNED.number,
    name: "filler groups",
    shape: Shape::CODES,
    answer: |call| TURNED.answer(call),
    edges,
    random: |random| TURNED.random_call(random),
    every,
    stored,
    forbidden: no_calls,
    arguments: words::text_argument,
    outcome: words::codes_in_buffer,
};

pub const TURNED: TextKind = TextKind {
    number: 7,
    lent: Width::Number,
    whole: turned,
    growth: 1,
    good_text: filler_text,
    repeated: &[
        &[FILLER, 0x3131, 0x314F, FILLER],
        &[FILLER, 0x314E, 0x3163, 0x314E],
        &[FILLER, 0x3131, 0x314F],
        &[FILLER, 0x3131, 0x314F, 0x3138],
        &[FILLER],
        &[0x41],
    ],
};

/// Stands in no group, so pieces divided by it do not touch.
const WALL: u32 = 0x41;

/// The four places of mean groups: the ends of the ranges that fit and their neighbours, letters
/// of one place alone, old ones, the other fillers, and bad code points.
const FIRSTS: [u32; 6] = [FILLER, 0x3163, 0x3165, 0x115F, 0xFFA0, 0x1_3164];
const SECONDS: [u32; 13] = [
    0x3131, 0x3138, 0x3143, 0x3149, 0x314E, 0x3130, 0x3133, 0x3144, 0x314F, FILLER, 0x1100, 0xA960,
    0x3165,
];
const THIRDS: [u32; 9] = [
    0x314F, 0x3163, 0x314E, FILLER, 0x1160, 0x3187, 0x1161, 0xD7B0, 0xD800,
];
const FOURTHS: [u32; 15] = [
    FILLER, 0x3131, 0x3132, 0x3133, 0x314E, 0x3138, 0x3143, 0x3149, 0x3130, 0x314F, 0x3165, 0x11A8,
    0xD7CB, 0x115F, 0x11_0000,
];

fn mean_groups() -> Vec<Vec<u32>> {
    let mut groups = Vec::new();
    for first in FIRSTS {
        for second in SECONDS {
            for third in THIRDS {
                groups.extend(FOURTHS.map(|fourth| vec![first, second, third, fourth]));
            }
        }
    }
    groups
}

/// All texts over the small alphabet of up to the given length, longer ones first.
pub fn longer_first(longest: usize) -> Vec<Vec<u32>> {
    let mut texts = texts::short_texts(&SMALL_ALPHABET, longest);
    texts.reverse();
    texts
}

/// The pieces without bad code points in few long texts, so that a comparison of few calls has
/// them all.
fn in_long_texts(pieces: Vec<Vec<u32>>) -> Vec<Call> {
    let good = pieces
        .into_iter()
        .filter(|piece| !piece.iter().any(|&code| is_bad(code)));
    let walled = good.map(|piece| [&piece[..], &[WALL]].concat());
    let texts = packed(walled);
    texts
        .iter()
        .flat_map(|text| TURNED.exact_and_short(text))
        .collect()
}

fn one_by_one(pieces: Vec<Vec<u32>>) -> Vec<Call> {
    pieces
        .iter()
        .flat_map(|piece| TURNED.exact_and_short(piece))
        .collect()
}

/// A group at each place of a text that else passes through: a program that takes several code
/// points at a time must not lose one that lies across its blocks.
fn at_each_place() -> Vec<Call> {
    let mut calls = Vec::new();
    for around in [0x41, FILLER, 0x3131] {
        for place in 0..=66 {
            let mut text = vec![around; 66];
            text.splice(place..place, [FILLER, 0x3131, 0x314F, 0x3147]);
            calls.extend(TURNED.exact_and_short(&text));
        }
    }
    calls
}

fn edges() -> Vec<Call> {
    let mut calls = TURNED.no_text();
    calls.extend(TURNED.long_spoilt());
    calls.extend(in_long_texts(mean_groups()));
    calls.extend(in_long_texts(longer_first(6)));
    calls.extend(TURNED.short_spoilt());
    calls.extend(TURNED.long_good());
    calls.extend(at_each_place());
    calls.extend(one_by_one(mean_groups()));
    calls
}

/// The filler before every three code points of the letters' range and its neighbours: all groups
/// there are, and all that fail by a letter.
fn every_four() -> Vec<Vec<u32>> {
    let mut fours = Vec::new();
    for second in 0x3130..=0x3165 {
        for third in 0x314D..=0x3165 {
            fours.extend((0x3130..=0x3165).map(|fourth| vec![FILLER, second, third, fourth]));
        }
    }
    fours
}

/// Every scalar value in each of the four places of a group. The last group has it twice: where
/// it is the filler, one group ends and none begins.
fn every_scalar_value() -> Vec<Call> {
    let around = |code| {
        [
            [code, 0x3131, 0x314F, 0x3147, WALL],
            [FILLER, code, 0x314F, FILLER, WALL],
            [FILLER, 0x3131, code, FILLER, WALL],
            [FILLER, 0x3131, 0x314F, code, code],
        ]
        .concat()
    };
    let texts = packed(texts::scalar_values().into_iter().map(around));
    texts
        .iter()
        .map(|text| TURNED.with_exact_room(text))
        .collect()
}

/// With the short edges once more, since a comparison does not come to the end of them.
fn every() -> Vec<Call> {
    let mut calls = one_by_one(every_four());
    for text in packed(every_four()) {
        calls.extend(TURNED.in_rooms_around(&text));
    }
    calls.extend(every_scalar_value());
    for code in (0xD800..=0xDFFF).chain(texts::numbers_beyond()) {
        calls.push(TURNED.call(&[FILLER, 0x3131, 0x314F, code], 4));
    }
    calls.extend(one_by_one(mean_groups()));
    calls.extend(one_by_one(longer_first(6)));
    calls
}

/// Refusal 1 is not among the stored ones: 16,385 code points would not be small.
fn stored() -> Vec<Call> {
    TURNED.calls(&[
        (&[FILLER, 0x3131, 0x314F, FILLER], 2),
        (&[], 0),
        (&[], 1),
        (&[FILLER, 0x3131, 0x314F, FILLER], 1),
        (&[FILLER, 0x3131, 0x314F, FILLER], 0),
        (&[FILLER, 0x3131, 0x314F, 0x3138], 4),
        (&[FILLER, 0x3131, 0x314F, 0x3138], 3),
        (&[FILLER, 0x3138, 0x3157, 0x3141], 1),
        (&[FILLER, 0x314E, 0x3163, 0x314E], 1),
        (&[FILLER, 0x3133, 0x314F, FILLER], 4),
        (&[FILLER, 0x3131, FILLER, FILLER], 4),
        (&[FILLER, FILLER, 0x314F, FILLER], 4),
        (&[FILLER, FILLER, 0x3131, 0x314F, 0x3147], 2),
        (&[FILLER, 0x3131, 0x314F, FILLER, 0x3131, 0x314F, 0x3147], 4),
        (&[FILLER, 0x3131, 0x314F], 3),
        (&[FILLER, 0x3131, 0x314F], 2),
        (&[FILLER, 0x3165, 0x314F, FILLER], 4),
        (&[FILLER, 0x3131, 0x3187, FILLER], 4),
        (&[0xFFA0, 0x3131, 0x314F, 0x1160], 4),
        (&[FILLER, 0x1100, 0x1161, FILLER], 4),
        (&[FILLER, 0xA960, 0x314F, 0xD7CB], 4),
        (&[0x3131, 0x314F, 0xAC00, 0], 4),
        (&[FILLER, 0x3131, 0x314F, 0xD800], 4),
        (&[FILLER, 0x3131, 0x314F, 0x11_0000, 0xDFFF], 0),
        (&[0xFFFF_FFFF], 1),
    ])
}
