// The kinds ranking, of code points and of UTF-8: what cases are made for them.
// It defines no answers: those stand with the definition of ranking.

use crate::kinds::{by_value, no_calls, refused, with_all_unused, Kind};
use crate::letters::{Refusal, LIMIT};
use crate::random::Random;
use crate::ranking::{answer_of_bytes, answer_of_texts};
use crate::ranking_texts::{self, codes_of, Pair, EQUAL_BYTES, RISING_BYTES};
use crate::texts;
use crate::utf8::written;
use crate::wire::{bytes_of, elements_of, Answer, Call, Shape, Width, MOST_ROOM};
use crate::words;
use std::cmp::Ordering;

pub const RANKING: Kind = Kind {
    number: 13,
    name: "ranking",
    shape: Shape::TWO_TEXTS,
    answer: |call| ranked(call, Width::Number, answer_of_texts(&call.a, &call.b)),
    edges,
    random,
    every,
    stored,
    forbidden: no_calls,
    arguments: words::two_texts,
    outcome: words::order_by_value,
};

/// What C calls.
pub const RANKING_OF_BYTES: Kind = Kind {
    number: 14,
    name: "ranking of UTF-8",
    shape: Shape::TWO_TEXTS_OF_BYTES,
    answer: byte_answer,
    edges: byte_edges,
    random: byte_random,
    every: byte_every,
    stored: byte_stored,
    forbidden: no_calls,
    arguments: words::two_texts_of_bytes,
    outcome: words::order_by_value,
};

fn byte_answer(call: &Call) -> Answer {
    let outcome = answer_of_bytes(&bytes_of(&call.a), &bytes_of(&call.b));
    ranked(call, Width::Byte, outcome)
}

fn ranked(call: &Call, width: Width, outcome: Result<Ordering, Refusal>) -> Answer {
    let value = match outcome {
        Err(refusal) => return refused(call, width, refusal),
        Ok(Ordering::Less) => 0,
        Ok(Ordering::Equal) => 1,
        Ok(Ordering::Greater) => 2,
    };
    by_value(call, width, value, 0, 0)
}

pub fn text_call((a, b): Pair<u32>) -> Call {
    Call {
        kind: RANKING.number,
        a,
        b,
        ..Call::default()
    }
}

pub fn byte_call((first, second): Pair<u8>) -> Call {
    Call {
        kind: RANKING_OF_BYTES.number,
        a: elements_of(&first),
        b: elements_of(&second),
        ..Call::default()
    }
}

fn text_calls(pairs: Vec<Pair<u32>>) -> Vec<Call> {
    pairs.into_iter().map(text_call).collect()
}

fn byte_calls(pairs: Vec<Pair<u8>>) -> Vec<Call> {
    pairs.into_iter().map(byte_call).collect()
}

/// Pairs of code points as UTF-8.
fn written_calls(pairs: Vec<Pair<u32>>) -> Vec<Call> {
    let written = pairs.into_iter().map(|(a, b)| (written(&a), written(&b)));
    written.map(byte_call).collect()
}

/// Nothing is lent, so whatever room is given comes back as it was, refused or not.
fn with_rooms(calls: &[Call]) -> Vec<Call> {
    let mut lent = Vec::new();
    for call in calls {
        lent.extend([1, 2, 40, MOST_ROOM].map(|room| Call {
            room,
            ..call.clone()
        }));
    }
    lent
}

fn edges() -> Vec<Call> {
    let mut calls = text_calls(ranking_texts::refused_pairs());
    calls.extend(text_calls(ranking_texts::long_pairs()));
    calls.extend(text_calls(ranking_texts::neighbours_in_order()));
    calls.extend(text_calls(ranking_texts::spellings_of_all(LIMIT / 3)));
    calls.extend(with_rooms(&stored()));
    let in_order = ranking_texts::labels_in_order();
    calls.extend(text_calls(ranking_texts::each_with_each(&in_order)));
    calls
}

/// The examples of damage, either way round, and each against itself.
fn damaged_pairs() -> Vec<Pair<u8>> {
    let mut pairs = Vec::new();
    for (first, second) in EQUAL_BYTES.into_iter().chain(RISING_BYTES) {
        let labels = [first.to_vec(), second.to_vec()];
        pairs.extend(ranking_texts::each_with_each(&labels));
    }
    pairs
}

fn byte_edges() -> Vec<Call> {
    let mut calls = byte_calls(damaged_pairs());
    calls.extend(byte_calls(ranking_texts::refused_byte_pairs()));
    calls.extend(written_calls(ranking_texts::long_pairs()));
    calls.extend(written_calls(ranking_texts::neighbours_in_order()));
    calls.extend(written_calls(ranking_texts::spellings_of_all(LIMIT / 9)));
    calls.extend(with_rooms(&byte_stored()));
    let in_order = ranking_texts::labels_in_order();
    calls.extend(written_calls(ranking_texts::each_with_each(&in_order)));
    calls
}

/// Every pair of short labels, and codes beside numbers, every so many of them; with the edges once
/// more, since a comparison does not come to the end of them.
fn every() -> Vec<Call> {
    let mut calls = text_calls(ranking_texts::short_pairs());
    calls.extend(text_calls(ranking_texts::codes_beside_numbers(37)));
    calls.extend(edges());
    calls
}

fn byte_every() -> Vec<Call> {
    let mut calls = byte_calls(ranking_texts::short_byte_pairs());
    calls.extend(written_calls(ranking_texts::codes_beside_numbers(37)));
    calls.extend(byte_edges());
    calls
}

/// In one of six the first label is spoilt, and in one of six the second.
fn random(random: &mut Random) -> Call {
    let length = texts::length(random);
    let (mut first, mut second) = ranking_texts::pair(random, length);
    for label in [&mut first, &mut second] {
        if random.one_in(6) {
            let spoiling = random.pick(&texts::SPOILINGS);
            texts::spoil(random, label, spoiling);
        }
    }
    with_all_unused(text_call((first, second)), random)
}

fn byte_random(random: &mut Random) -> Call {
    let length = texts::length(random);
    let pair = ranking_texts::byte_pair(random, length);
    with_all_unused(byte_call(pair), random)
}

const STORED: [(&str, &str); 24] = [
    ("2", "10"),
    ("", ""),
    ("", "0"),
    ("7", "07"),
    ("08", "7"),
    ("A", "A0"),
    ("A9", "AA"),
    ("A10B2", "A10B10"),
    ("9", "\0"),
    ("18446744073709551616", "18446744073709551615"),
    ("0000000000000000000000", "0"),
    ("\u{AC01}", "\u{1100}\u{1161}\u{11A8}"),
    ("\u{AC00}7", "\u{1100}\u{1161}07"),
    ("\u{1100}1\u{1161}", "\u{AC00}1"),
    ("\u{AC01}\u{11A8}", "\u{AC01}"),
    ("\u{1100}\u{1161}\u{11A7}", "\u{AC01}"),
    ("\u{1100}\u{11A7}", "\u{AC00}"),
    ("\u{A960}\u{1161}", "\u{A960}\u{1100}\u{1161}"),
    ("\u{D478} 10", "\u{1111}\u{116E} 2"),
    ("\u{FF11}", "2"),
    ("\u{661}", "\u{662}"),
    ("/", "0"),
    (":", "9"),
    ("\u{10FFFF}", "\u{FFFF}"),
];

fn stored_pairs() -> Vec<Pair<u32>> {
    let pairs = STORED.iter();
    pairs.map(|(a, b)| (codes_of(a), codes_of(b))).collect()
}

/// Refusal 1 is not among the stored ones: 16,385 code points would not be small.
fn stored() -> Vec<Call> {
    let mut calls = text_calls(stored_pairs());
    calls.extend(text_calls(vec![
        (vec![0x31, 0xD800], vec![0x11_0000]),
        (vec![0x31], vec![0x41, 0xDFFF, 0x42]),
    ]));
    let lent = (vec![0x32], vec![0x31]);
    calls.push(Call {
        room: 2,
        ..text_call(lent)
    });
    calls
}

fn byte_stored() -> Vec<Call> {
    let mut calls = written_calls(stored_pairs());
    calls.extend(byte_calls(vec![
        (vec![0x80], vec![0xEF, 0xBF, 0xBD]),
        (vec![0x31, 0xE1, 0x84, 0x32], vec![0x31, 0x32]),
        (vec![0xE1, 0x84], vec![0xE1, 0x80, 0xE1]),
    ]));
    let lent = (vec![0x32], vec![0x31]);
    calls.push(Call {
        room: 3,
        ..byte_call(lent)
    });
    calls
}
