// The kinds sorter, one step and full parts: what cases are made for each, and their words.
// It defines no answers: those stand with the letters.

use crate::kinds::{by_value, no_calls, refused, with_unused_numbers, Kind};
use crate::letters::{answer_of_one_step, answer_of_sorter, full_parts_of_text, LIMIT, SORTS};
use crate::random::Random;
use crate::simple::codes_around_tables;
use crate::text_kinds::TextKind;
use crate::texts;
use crate::wire::{Answer, Call, Shape, Width};
use crate::words;

pub const SORTER: Kind = Kind {
    number: 1,
    name: "sorter",
    shape: Shape::CODES,
    answer: sorter_answer,
    edges: || with_codes(1, edge_codes()),
    random: |random| code_call(1, random),
    every: || with_codes(1, every_code()),
    stored: || with_codes(1, STORED_FOR_SORTER.to_vec()),
    forbidden: no_calls,
    arguments: words::code_argument,
    outcome: sorter_outcome,
};

pub const ONE_STEP: Kind = Kind {
    number: 2,
    name: "one step",
    shape: Shape::CODES,
    answer: one_step_answer,
    edges: || with_codes(2, edge_codes()),
    random: |random| code_call(2, random),
    every: || with_codes(2, every_code()),
    stored: || with_codes(2, STORED_FOR_ONE_STEP.to_vec()),
    forbidden: no_calls,
    arguments: words::code_argument,
    outcome: one_step_outcome,
};

pub const FULL_PARTS: Kind = Kind {
    number: PARTS.number,
    name: "full parts",
    shape: Shape::CODES,
    answer: |call| PARTS.answer(call),
    edges: full_parts_edges,
    random: |random| PARTS.random_call(random),
    every: full_parts_every,
    stored: full_parts_stored,
    forbidden: no_calls,
    arguments: words::text_argument,
    outcome: words::codes_in_buffer,
};

pub const PARTS: TextKind = TextKind {
    number: 3,
    lent: Width::Number,
    whole: full_parts_of_text,
    growth: 3,
    good_text: texts::good_text,
    repeated: &[&[0xD7A3], &[0xAC00], &[0x41]],
};

const STORED_FOR_SORTER: [u32; 49] = [
    0x1161, 0x1100, 0x1101, 0x1112, 0x1113, 0x1140, 0x1159, 0x115A, 0x115E, 0x115F, 0x1160, 0x1162,
    0x1175, 0x1176, 0x119E, 0x11A2, 0x11A3, 0x11A7, 0x11A8, 0x11A9, 0x11C2, 0x11C3, 0x11EB, 0x11F9,
    0x11FA, 0x11FF, 0x1200, 0xA95F, 0xA960, 0xA97C, 0xA97D, 0xAC00, 0xAC01, 0xD788, 0xD7A3, 0xD7A4,
    0xD7AF, 0xD7B0, 0xD7C6, 0xD7C7, 0xD7CA, 0xD7CB, 0xD7FB, 0xD7FC, 0x0000, 0x10FFFF, 0xD800,
    0xDFFF, 0x110000,
];

const STORED_FOR_ONE_STEP: [u32; 14] = [
    0xD7A3,
    0xAC00,
    0xAC01,
    0xAC03,
    0xAC1C,
    0xAC1D,
    0xD788,
    0x1100,
    0x11A7,
    0x0000,
    0x10FFFF,
    0xD800,
    0x110000,
    0xFFFF_FFFF,
];

fn sorter_answer(call: &Call) -> Answer {
    match answer_of_sorter(call.x) {
        Err(refusal) => refused(call, Width::Number, refusal),
        Ok(sort) => {
            // A sort's number on the wire is its place in the list of sorts.
            let number = SORTS.iter().position(|&(listed, _)| listed == sort);
            let number = number.expect("each sort is in the list");
            by_value(call, Width::Number, number as u32, 0, 0)
        }
    }
}

fn one_step_answer(call: &Call) -> Answer {
    match answer_of_one_step(call.x) {
        Err(refusal) => refused(call, Width::Number, refusal),
        Ok(parts) => {
            let third = parts.get(1).copied().unwrap_or(0);
            by_value(call, Width::Number, parts.len() as u32, parts[0], third)
        }
    }
}

fn sorter_outcome(_call: &Call, answer: &Answer) -> String {
    let name = match SORTS.get(answer.value as usize) {
        Some((_, name)) => name.to_string(),
        None => format!("no sort ({})", answer.value),
    };
    name + &words::unexpected_values(answer.second, answer.third)
}

fn one_step_outcome(_call: &Call, answer: &Answer) -> String {
    let (second, third) = (answer.second, answer.third);
    match answer.value {
        1 => words::code(second) + &words::unexpected_values(0, third),
        2 => format!("{} {}", words::code(second), words::code(third)),
        count => format!(
            "{count} parts? {} {}",
            words::code(second),
            words::code(third)
        ),
    }
}

fn with_codes(kind: u32, codes: Vec<u32>) -> Vec<Call> {
    codes
        .into_iter()
        .map(|x| Call {
            kind,
            x,
            ..Call::default()
        })
        .collect()
}

fn edge_codes() -> Vec<u32> {
    let mut codes = texts::boundary_codes();
    codes.extend(texts::look_alike_codes());
    codes.extend(texts::row_neighbours());
    codes.extend(codes_around_tables());
    codes
}

fn every_code() -> Vec<u32> {
    (0..=0x10_FFFF).chain(texts::numbers_beyond()).collect()
}

fn code_call(kind: u32, random: &mut Random) -> Call {
    let call = Call {
        kind,
        x: texts::any_code(random),
        ..Call::default()
    };
    with_unused_numbers(call, random)
}

fn full_parts_edges() -> Vec<Call> {
    let mut calls = PARTS.no_text();
    calls.extend(PARTS.long_spoilt());
    calls.extend(PARTS.long_good());
    calls.extend(PARTS.in_rooms_around(&texts::row_neighbours()));
    calls.extend(PARTS.short_spoilt());
    for code in texts::boundary_codes() {
        calls.push(PARTS.call(&[0x41, code, 0xAC01], 7));
    }
    for code in texts::boundary_codes() {
        calls.extend(PARTS.in_rooms_around(&[code]));
    }
    calls
}

fn full_parts_every() -> Vec<Call> {
    let mut calls = Vec::new();
    for code in 0xAC00..=0xD7A3 {
        calls.extend(PARTS.in_rooms_around(&[code]));
    }
    for code in codes_around_tables() {
        calls.push(PARTS.call(&[code], 2));
    }
    for code in (0xD800..=0xDFFF).chain(texts::numbers_beyond()) {
        calls.push(PARTS.call(&[code], 4));
    }
    let syllables: Vec<u32> = (0xAC00..=0xD7A3).collect();
    calls.extend(PARTS.in_rooms_around(&syllables));
    // Every scalar value in texts as long as the limit allows.
    let values = texts::scalar_values();
    let blocks = values.chunks(LIMIT);
    calls.extend(blocks.map(|block| PARTS.with_exact_room(block)));
    calls
}

/// Refusal 1 is not among the stored ones: 16,385 code points would not be small.
fn full_parts_stored() -> Vec<Call> {
    PARTS.calls(&[
        (&[0xAC01], 4),
        (&[], 0),
        (&[], 2),
        (&[0xAC00], 2),
        (&[0xAC00], 1),
        (&[0xAC03], 3),
        (&[0xAC03], 2),
        (&[0xAC03], 0),
        (&[0xAC1D], 3),
        (&[0xD7A3], 4),
        (&[0x1100], 1),
        (&[0x1100], 0),
        (&[0x1100, 0x1161, 0x11A7], 3),
        (&[0xA960, 0xD7B0, 0xAC00, 0xD7CB], 5),
        (&[0xD55C, 0xAE00, 0x41], 8),
        (&[0xD55C, 0xAE00, 0x41], 7),
        (&[0xD55C, 0xAE00, 0x41], 6),
        (&[0x115F, 0x1160, 0x302E, 0x3164], 5),
        (&[0, 0x1F6A2, 0x10FFFF], 3),
        (&[0x110000], 4),
        (&[0xD800, 0xAC00], 6),
        (&[0xAC00, 0xDFFF], 0),
        (&[0x41, 0xFFFF_FFFF, 0x42], 3),
        (&[0xD7FF, 0xE000, 0xDBFF, 0xDC00], 1),
        (&[0x1112, 0x1175, 0x11C2, 0xD7A3], 6),
    ])
}
