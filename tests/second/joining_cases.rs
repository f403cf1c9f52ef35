// The kind joining: what cases are made for it. They lean on letters that only nearly join.
// It defines no answers: those stand with the definition of joining.

use crate::joining::joined;
use crate::kinds::{no_calls, Kind};
use crate::letters::{added_letters, is_bad};
use crate::text_kinds::{packed, TextKind};
use crate::texts;
use crate::wire::{Call, Shape, Width};
use crate::words;

pub const JOINING: Kind = Kind {
    number: JOINED.number,
    name: "joining",
    shape: Shape::CODES,
    answer: |call| JOINED.answer(call),
    edges,
    random: |random| JOINED.random_call(random),
    every,
    stored,
    forbidden: no_calls,
    arguments: words::text_argument,
    outcome: words::codes_in_buffer,
};

pub const JOINED: TextKind = TextKind {
    number: 4,
    lent: Width::Number,
    whole: joined,
    growth: 1,
    good_text: texts::joining_text,
    repeated: &[
        &[0x1112, 0x1175, 0x11C2],
        &[0x1100, 0x1161],
        &[0xD788, 0x11C2],
        &[0x1100],
        &[0x41],
    ],
};

/// Stands in no syllable, so pieces divided by it do not touch.
const WALL: u32 = 0x41;

/// First, second and third of the triples: the ends of the ranges that join and their neighbours,
/// LV and LVT, old letters of the later blocks, what only looks like a letter, and a mark.
const FIRSTS: [u32; 12] = [
    0x1100, 0x1112, 0x10FF, 0x1113, 0xA960, 0x1161, 0x11A8, 0xAC00, 0xAC01, 0xAC1B, 0xD788, 0xD7A3,
];
const SECONDS: [u32; 13] = [
    0x1161, 0x1175, 0x1160, 0x1176, 0x11A7, 0xD7B0, 0x11A8, 0x11C2, 0x11C3, 0x1100, 0xAC00, 0x302E,
    0x115F,
];
const THIRDS: [u32; 9] = [
    0x11A8, 0x11C2, 0x11A7, 0x11C3, 0xD7CB, 0x1161, 0x1100, 0xAC00, 0x302F,
];

/// A mark and a joiner; good code points that are letters or syllables again when bits are lost;
/// and bad ones, some of which are so too.
const STRANGE: [u32; 18] = [
    0x0300,
    0x200D,
    0x1_1100,
    0x1_1161,
    0x1_11A8,
    0x1_AC00,
    0x10_1100,
    0x10_1161,
    0x10_11A8,
    0x10_AC00,
    0xD800,
    0xDFFF,
    0x11_0000,
    0x8000_1100,
    0x8000_1161,
    0x8000_11A8,
    0x8000_AC00,
    0xFFFF_FFFF,
];

fn triples() -> Vec<Vec<u32>> {
    let mut triples = Vec::new();
    for first in FIRSTS {
        for second in SECONDS {
            for third in THIRDS {
                triples.push(vec![first, second, third]);
            }
        }
    }
    triples
}

/// Each letter that Unicode 5.2 added: alone, before and after a modern letter of each place and a
/// syllable, and in place of each letter of a spelled syllable. None of them joins.
fn added_beside_modern() -> Vec<Vec<u32>> {
    let mut pieces = Vec::new();
    for code in added_letters() {
        pieces.push(vec![code]);
        for modern in [
            0x1100, 0x1112, 0x1161, 0x1175, 0x11A8, 0x11C2, 0xAC00, 0xAC01,
        ] {
            pieces.push(vec![code, modern]);
            pieces.push(vec![modern, code]);
        }
        pieces.push(vec![code, 0x1161, 0x11A8]);
        pieces.push(vec![0x1100, code, 0x11A8]);
        pieces.push(vec![0x1100, 0x1161, code]);
        pieces.push(vec![0x1100, code, 0x1161, code, 0x11A8]);
        pieces.push(vec![code, code]);
    }
    pieces
}

fn is_near_hangul(code: u32) -> bool {
    (0x10FE..=0x1201).contains(&code)
        || (0xA95E..=0xA97E).contains(&code)
        || (0xABFE..=0xD7FD).contains(&code)
}

/// All pairs of boundaries and of strange code points, those of letters and syllables first.
fn pairs() -> Vec<Vec<u32>> {
    let mut codes = texts::boundary_codes();
    codes.retain(|&code| !is_bad(code));
    codes.extend(STRANGE);
    let mut pairs = Vec::new();
    for &first in &codes {
        pairs.extend(codes.iter().map(|&second| vec![first, second]));
    }
    pairs.sort_by_key(|pair| pair.iter().filter(|&&code| !is_near_hangul(code)).count());
    pairs
}

fn with_wall(mut piece: Vec<u32>) -> Vec<u32> {
    piece.push(WALL);
    piece
}

/// The pieces without bad code points in few long texts, so that a comparison of few calls has
/// them all.
fn in_long_texts(pieces: Vec<Vec<u32>>) -> Vec<Call> {
    let good = pieces
        .into_iter()
        .filter(|piece| !piece.iter().any(|&code| is_bad(code)));
    let texts = packed(good.map(with_wall));
    texts
        .iter()
        .flat_map(|text| JOINED.exact_and_short(text))
        .collect()
}

fn one_by_one(pieces: Vec<Vec<u32>>) -> Vec<Call> {
    pieces
        .iter()
        .flat_map(|piece| JOINED.exact_and_short(piece))
        .collect()
}

/// A spelled syllable at each place of a text that else passes through: a program that takes
/// several code points at a time must not lose one that lies across its blocks.
fn at_each_place() -> Vec<Call> {
    let mut calls = Vec::new();
    for around in [0x41, 0xAC01, 0x1161] {
        for place in 0..=66 {
            let mut text = vec![around; 66];
            text.splice(place..place, [0x1100, 0x1161, 0x11A8]);
            calls.extend(JOINED.exact_and_short(&text));
        }
    }
    calls
}

fn edges() -> Vec<Call> {
    let mut calls = JOINED.no_text();
    calls.extend(JOINED.long_spoilt());
    calls.extend(in_long_texts(triples()));
    calls.extend(in_long_texts(added_beside_modern()));
    calls.extend(in_long_texts(pairs()));
    calls.extend(JOINED.short_spoilt());
    calls.extend(JOINED.long_good());
    calls.extend(one_by_one(triples()));
    calls.extend(at_each_place());
    calls.extend(one_by_one(pairs()));
    calls
}

/// Every modern initial with every modern peak.
fn every_initial_and_peak() -> Vec<Vec<u32>> {
    let initials = 0x1100..=0x1112;
    initials
        .flat_map(|initial| (0x1161..=0x1175).map(move |peak| vec![initial, peak]))
        .collect()
}

fn every_initial_peak_and_final() -> Vec<Vec<u32>> {
    let mut spelled = Vec::new();
    for pair in every_initial_and_peak() {
        for last in 0x11A8..=0x11C2 {
            spelled.push(vec![pair[0], pair[1], last]);
        }
    }
    spelled
}

/// Every LV before every final and the neighbours of the finals; every syllable before a final.
fn every_syllable_and_final() -> Vec<Vec<u32>> {
    let mut pieces = Vec::new();
    for lv in (0xAC00..=0xD7A3).step_by(28) {
        pieces.extend((0x11A7..=0x11C3).map(|last| vec![lv, last]));
    }
    pieces.extend((0xAC00..=0xD7A3).map(|syllable| vec![syllable, 0x11A8]));
    pieces
}

/// Every scalar value between an initial and a peak, and between an LV and a final: it joins there
/// if it is itself a peak or an initial, a final or an LV, and what stands around it never does.
fn every_scalar_value() -> Vec<Call> {
    let codes = texts::scalar_values().into_iter();
    let texts = packed(codes.map(|code| vec![0x1100, code, 0x1161, 0xAC00, code, 0x11A8]));
    texts
        .iter()
        .map(|text| JOINED.with_exact_room(text))
        .collect()
}

/// With the short edges once more, since a comparison does not come to the end of them.
fn every() -> Vec<Call> {
    let mut calls = Vec::new();
    for pair in every_initial_and_peak() {
        calls.extend(JOINED.in_rooms_around(&pair));
    }
    for text in packed(every_initial_peak_and_final()) {
        calls.extend(JOINED.in_rooms_around(&text));
    }
    calls.extend(one_by_one(every_syllable_and_final()));
    calls.extend(every_scalar_value());
    calls.extend(one_by_one(added_beside_modern()));
    calls.extend(one_by_one(triples()));
    calls.extend(one_by_one(pairs()));
    calls
}

/// Refusal 1 is not among the stored ones: 16,385 code points would not be small.
fn stored() -> Vec<Call> {
    JOINED.calls(&[
        (&[0x1100, 0x1161, 0x11A8], 2),
        (&[], 0),
        (&[], 1),
        (&[0x1100, 0x1161, 0x11A7], 2),
        (&[0x1100, 0x11A7, 0x11A8], 3),
        (&[0xA960, 0x1161, 0x11A8], 3),
        (&[0x1100, 0xD7B0, 0xAC00, 0xD7CB], 4),
        (&[0x1100, 0xD7B0, 0xAC00, 0xD7CB], 3),
        (&[0x1100, 0x1161, 0x11C3], 3),
        (&[0xAC01, 0x11A8], 2),
        (&[0x1100, 0x1100, 0x1161], 2),
        (&[0xAC00, 0x11A8], 1),
        (&[0xD788, 0x11C2], 0),
        (&[0xD7A3, 0x11C2], 1),
        (&[0x1112, 0x1175, 0x11C2, 0x11C2], 2),
        (&[0x1112, 0x1175], 1),
        (&[0x1100, 0xAC00], 2),
        (&[0xAC00, 0x1161], 1),
        (&[0x1100, 0x302E, 0x1161], 3),
        (&[0xAC00, 0x302F, 0x11A8], 3),
        (&[0x1113, 0x1161], 2),
        (&[0x1100, 0x1176], 2),
        (&[0x115F, 0x1161, 0x1100, 0x1160], 4),
        (&[0x1_1100, 0x1161], 2),
        (&[0x1112, 0x1161, 0x11AB, 0x1100, 0x1173, 0x11AF, 0x41], 4),
        (&[0x1112, 0x1161, 0x11AB, 0x1100, 0x1173, 0x11AF, 0x41], 3),
        (&[0x1112, 0x1161, 0x11AB, 0x1100, 0x1173, 0x11AF, 0x41], 2),
        (&[0x1100], 0),
        (&[0x1100, 0x1161, 0xD800], 1),
        (&[0x1100, 0x11_0000, 0xDFFF], 0),
        (&[0xFFFF_FFFF, 0x1161], 2),
        (&[0x1161, 0x11A8], 2),
    ])
}
