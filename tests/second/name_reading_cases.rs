// The kind reading a name: what cases are made for it. They lean on names with a single fault.
// It defines no answers: those stand with the definitions of names.

use crate::byte_texts::{repeated, single_bytes};
use crate::kinds::{by_value, no_calls, refused, with_unused_numbers, Kind};
use crate::letters::LIMIT;
use crate::name_texts::{self, with_fault, FAULTS};
use crate::naming::{answer_of_name, name_of, PREFIX};
use crate::random::Random;
use crate::texts;
use crate::wire::{bytes_of, elements_of, Answer, Call, Shape, Width, MOST_ELEMENTS};
use crate::words;

/// It lends no buffer: its calls have no room.
pub const NAME_READING: Kind = Kind {
    number: 9,
    name: "reading a name",
    shape: Shape::BYTES,
    answer,
    edges,
    random,
    every,
    stored,
    forbidden: no_calls,
    arguments: words::name_argument,
    outcome: words::code_by_value,
};

fn answer(call: &Call) -> Answer {
    match answer_of_name(&bytes_of(&call.a)) {
        Err(refusal) => refused(call, Width::Byte, refusal),
        Ok(code) => by_value(call, Width::Byte, code, 0, 0),
    }
}

pub fn name_call(bytes: &[u8]) -> Call {
    Call {
        kind: NAME_READING.number,
        a: elements_of(bytes),
        ..Call::default()
    }
}

fn calls_of(names: &[Vec<u8>]) -> Vec<Call> {
    names.iter().map(|name| name_call(name)).collect()
}

/// The first and last syllable, the rules' own cases, and names whose strings begin each other.
const SOME_SYLLABLES: [u32; 10] = [
    0xAC00, 0xD7A3, 0xC544, 0xD4DE, 0xC774, 0xC624, 0xAEA2, 0xC6E8, 0xC0AC, 0xB2ED,
];

fn some_names() -> Vec<Vec<u8>> {
    SOME_SYLLABLES.map(name_of).into()
}

fn every_name() -> Vec<Vec<u8>> {
    (0xAC00..=0xD7A3).map(name_of).collect()
}

/// Names that go on to around the limit and to the wire form's bound, and what is no name from the
/// first byte on: 1 goes before 5, and no length makes a name.
fn long() -> Vec<Call> {
    let name = name_of(0xAC01);
    let mut calls = Vec::new();
    for length in [LIMIT, LIMIT + 1, LIMIT - 1, MOST_ELEMENTS as usize] {
        for after in [0x00, 0x20, 0x47, 0xA5] {
            let mut bytes = name.clone();
            bytes.resize(length, after);
            calls.push(name_call(&bytes));
        }
        for pattern in [&name[..], PREFIX.as_bytes(), b"G", b" ", b"\0"] {
            calls.push(name_call(&repeated(pattern, length)));
        }
        let mut bytes = vec![0x20; length - name.len()];
        bytes.extend_from_slice(&name);
        calls.push(name_call(&bytes));
    }
    calls
}

/// Lengths that are a name's again when cut to 8 bits, each with a name in front.
fn of_look_alike_lengths() -> Vec<Call> {
    let mut calls = Vec::new();
    for length in [24, 31, 32, 33, 64, 255, 256, 256 + 19, 512 + 19, 4096 + 19] {
        for after in [0x00, 0x20, 0x47] {
            let mut bytes = name_of(0xAC01);
            bytes.resize(length, after);
            calls.push(name_call(&bytes));
        }
    }
    calls
}

/// All the faults of some of the names, every so many of them.
fn with_faults(step: usize, seed: u64) -> Vec<Vec<u8>> {
    let mut random = Random::new(seed);
    let mut names = Vec::new();
    for name in every_name().iter().step_by(step) {
        names.extend((0..FAULTS).map(|fault| with_fault(&mut random, name, fault)));
    }
    names
}

fn random_bytes(count: usize) -> Vec<Vec<u8>> {
    let mut random = Random::new(9);
    let lengths = (0..count).map(|index| index % 40);
    lengths
        .map(|length| (0..length).map(|_| random.number() as u8).collect())
        .collect()
}

fn edges() -> Vec<Call> {
    let mut calls = calls_of(&name_texts::nearly_names());
    calls.extend(calls_of(&some_names()));
    calls.extend(long());
    calls.extend(of_look_alike_lengths());
    calls.extend(calls_of(&name_texts::with_look_alikes()));
    calls.extend(calls_of(&name_texts::with_foreign_strings()));
    for name in some_names() {
        calls.extend(calls_of(&name_texts::beginnings_and_endings(&name)));
    }
    calls.extend(calls_of(&name_texts::with_figures()));
    calls.extend(calls_of(&name_texts::every_short_syllable(1)));
    calls.extend(calls_of(&name_texts::every_short_syllable(2)));
    calls.extend(calls_of(&with_faults(101, 11)));
    calls.extend(calls_of(&random_bytes(200)));
    for name in some_names() {
        calls.extend(calls_of(&name_texts::damaged_at_each_place(&name)));
    }
    calls.extend(calls_of(&every_name()));
    calls
}

/// Every name, each without each of its letters and with every sort of fault; every string of up to
/// three capitals after the prefix; what fits but for one of the three strings. With the short
/// edges once more, since a comparison does not come to the end of them.
fn every() -> Vec<Call> {
    let mut calls = calls_of(&every_name());
    for name in every_name() {
        calls.extend(calls_of(&name_texts::without_each_letter(&name)));
    }
    calls.extend(calls_of(&with_faults(1, 12)));
    for length in 0..=3 {
        calls.extend(calls_of(&name_texts::every_short_syllable(length)));
    }
    calls.extend(calls_of(&name_texts::without_initial()));
    calls.extend(calls_of(&name_texts::without_peak()));
    calls.extend(calls_of(&name_texts::without_final()));
    calls.extend(calls_of(&name_texts::with_figures()));
    calls.extend(calls_of(&name_texts::with_look_alikes()));
    calls.extend(calls_of(&name_texts::nearly_names()));
    for name in some_names() {
        calls.extend(calls_of(&name_texts::beginnings_and_endings(&name)));
        calls.extend(calls_of(&name_texts::damaged_at_each_place(&name)));
    }
    calls.extend(calls_of(&single_bytes()));
    calls.extend(calls_of(&random_bytes(4_000)));
    calls.extend(of_look_alike_lengths());
    calls.extend(long());
    calls
}

/// One seeded call. This kind takes no number at all, so x is filled as well.
fn random(random: &mut Random) -> Call {
    let length = texts::length(random);
    let bytes = name_texts::bytes(random, length);
    let mut call = with_unused_numbers(name_call(&bytes), random);
    if random.one_in(4) {
        call.x = texts::any_code(random);
    }
    call
}

/// Refusal 1 is not among the stored ones: 16,385 bytes would not be small.
fn stored() -> Vec<Call> {
    let syllables = [
        "GAG", "GA", "A", "O", "I", "PWIBS", "HIH", "GGYAEGG", "", "G", "GG", "G1", "G0", "Gag",
        "GAR", "GAGGG", "LA", "GUI", "GA ", "GA\0",
    ];
    let mut calls: Vec<Call> = syllables
        .iter()
        .map(|syllable| name_call([PREFIX, syllable].concat().as_bytes()))
        .collect();
    let others = ["", "GA", " HANGUL SYLLABLE GA", "HANGUL SYLLABLEGA"];
    calls.extend(others.map(|text| name_call(text.as_bytes())));
    calls
}
