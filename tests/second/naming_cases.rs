// The kind naming: what cases are made for it. They lean on what stands beside the syllables.
// It defines no answers: those stand with the definitions of names.

use crate::kinds::{in_buffer, no_calls, with_unused_numbers, Kind};
use crate::letters::is_syllable;
use crate::naming::{answer_of_naming, name_of, LONGEST, PREFIX, SHORTEST};
use crate::random::Random;
use crate::texts;
use crate::wire::{elements_of, Answer, Call, Shape, Width, MOST_ROOM};
use crate::words;

/// It takes no elements; the lent buffer is of bytes.
pub const NAMING: Kind = Kind {
    number: 8,
    name: "naming",
    shape: Shape::CODES_TO_BYTES,
    answer,
    edges,
    random,
    every,
    stored,
    forbidden: no_calls,
    arguments: words::code_and_room,
    outcome: words::name_in_buffer,
};

fn answer(call: &Call) -> Answer {
    let outcome = answer_of_naming(call.x, call.room);
    let elements = outcome.map(|name| elements_of(&name));
    in_buffer(call, Width::Byte, elements)
}

pub fn naming_call(code: u32, room: usize) -> Call {
    Call {
        kind: NAMING.number,
        x: code,
        room: texts::bounded_room(room),
        ..Call::default()
    }
}

/// Of what is no syllable too: a room is mean only beside the length of some name.
fn needed(code: u32) -> usize {
    if is_syllable(code) {
        name_of(code).len()
    } else {
        LONGEST
    }
}

/// Exactly enough, one short, one more, none, and as much as any name needs; then the lengths of
/// the prefix and of the shortest name, in which a program that writes before it looks leaves
/// something behind.
fn in_rooms(code: u32, more: &[usize]) -> Vec<Call> {
    let needed = needed(code);
    let mut rooms = vec![needed, needed - 1, needed + 1, 0, LONGEST];
    rooms.extend(more);
    rooms.sort_unstable();
    rooms.dedup();
    let calls = rooms.into_iter().map(|room| naming_call(code, room));
    calls.collect()
}

fn in_many_rooms(code: u32) -> Vec<Call> {
    let prefix = PREFIX.len();
    let more = [1, prefix - 1, prefix, SHORTEST, LONGEST - 1, 64, 255, 256];
    let mut calls = in_rooms(code, &more);
    calls.push(naming_call(code, MOST_ROOM as usize));
    calls
}

/// The ends of the syllables with what stands beside them, names of every length, the syllables
/// that the rules name, and what is no syllable.
const MEANEST: [u32; 32] = [
    0xAC00,
    0xD7A3,
    0xABFF,
    0xD7A4,
    0xC544,
    0xD4DE,
    0xC774,
    0xC624,
    0xAC1B,
    0xAC1C,
    0xAE4B,
    0xAE4C,
    0xAC56,
    0xAEA2,
    0xCB79,
    0x0000,
    0x0041,
    0x1100,
    0x1161,
    0x11A8,
    0x3131,
    0xD7A5,
    0xD7FF,
    0xD800,
    0xDBFF,
    0xDC00,
    0xDFFF,
    0xE000,
    0x10_FFFF,
    0x11_0000,
    0x8000_AC00,
    0xFFFF_FFFF,
];

fn edges() -> Vec<Call> {
    let mut calls: Vec<Call> = MEANEST.into_iter().flat_map(in_many_rooms).collect();
    for code in texts::boundary_codes() {
        calls.extend(in_rooms(code, &[]));
    }
    let look_alikes = texts::look_alike_codes().into_iter();
    calls.extend(look_alikes.map(|code| naming_call(code, LONGEST)));
    let rows = texts::row_neighbours().into_iter();
    calls.extend(rows.map(|code| naming_call(code, needed(code))));
    calls
}

fn random(random: &mut Random) -> Call {
    let code = match random.below(3) {
        0 => texts::any_code(random),
        _ => random.between(0xAC00, 0xD7A3),
    };
    let room = texts::room(random, needed(code), LONGEST);
    with_unused_numbers(naming_call(code, room as usize), random)
}

/// Every syllable in many rooms; every other code point, and numbers beyond, in as much as any name
/// needs and, a few, in none.
fn every() -> Vec<Call> {
    let mut calls = Vec::new();
    for code in 0xAC00..=0xD7A3 {
        calls.extend(in_rooms(code, &[PREFIX.len(), 64]));
    }
    let others = (0..0xAC00).chain(0xD7A4..=0x10_FFFF);
    let others = others.chain(texts::numbers_beyond());
    calls.extend(others.map(|code| naming_call(code, LONGEST)));
    let near = (0xA000..0xAC00).chain(0xD7A4..=0xE100);
    calls.extend(near.map(|code| naming_call(code, 0)));
    calls
}

fn stored() -> Vec<Call> {
    let cases = [
        (0xAC01, 19),
        (0xAC00, 18),
        (0xAC00, 17),
        (0xAC00, 0),
        (0xC544, 17),
        (0xC544, 16),
        (0xC774, 20),
        (0xC624, 17),
        (0xD4DE, 21),
        (0xD4DE, 20),
        (0xD7A3, 23),
        (0xAC03, 24),
        (0xAEA2, 23),
        (0xAEA2, 22),
        (0xABFF, 23),
        (0xD7A4, 0),
        (0x0041, 5),
        (0x1100, 23),
        (0xD800, 23),
        (0xDFFF, 0),
        (0x10_FFFF, 1),
        (0x11_0000, 23),
        (0xFFFF_FFFF, 23),
    ];
    let calls = cases.map(|(code, room)| naming_call(code, room));
    calls.into()
}
