// The kind simple form: what cases are made for it. They lean on clusters and on what stays whole.
// It defines no answers: those stand with the definition of the simple form.

use crate::kinds::{no_calls, Kind};
use crate::letters::{added_letters, is_bad, LIMIT};
use crate::simple::{clusters, codes_around_tables, simple_form, simple_letters};
use crate::simple_texts::{simple_text, OF_THREE, TEMPTING_LETTERS};
use crate::text_kinds::{packed, TextKind};
use crate::texts;
use crate::wire::{Call, Shape, Width};
use crate::words;

pub const SIMPLE_FORM: Kind = Kind {
    number: SIMPLE.number,
    name: "simple form",
    shape: Shape::CODES,
    answer: |call| SIMPLE.answer(call),
    edges,
    random: |random| SIMPLE.random_call(random),
    every,
    stored,
    forbidden: no_calls,
    arguments: words::text_argument,
    outcome: words::codes_in_buffer,
};

/// Of the repeated texts the first has seven letters for each code point, the most there are.
pub const SIMPLE: TextKind = TextKind {
    number: 5,
    lent: Width::Number,
    whole: simple_form,
    growth: 7,
    good_text: simple_text,
    repeated: &[
        &[0xAF66],
        &[0x1122],
        &[0xA965],
        &[0xAC03],
        &[0x1140],
        &[0x41],
    ],
};

fn each_syllable() -> Vec<u32> {
    (0xAC00..=0xD7A3).collect()
}

/// Every cluster, and the letters of every cluster, with another letter on both sides: what stands
/// beside a cluster changes nothing, and letters that would make a cluster are not gathered.
fn beside_clusters() -> Vec<Vec<u32>> {
    let mut pieces = Vec::new();
    for cluster in clusters() {
        let letters = simple_letters(cluster);
        for code in OF_THREE.into_iter().chain(TEMPTING_LETTERS) {
            pieces.push(vec![code, cluster, code]);
            pieces.push([vec![code], letters.clone(), vec![code]].concat());
        }
        pieces.push([letters.clone(), letters].concat());
        pieces.push(vec![cluster, cluster, cluster]);
    }
    pieces
}

/// Each letter that Unicode 5.2 added in place of a modern letter in a spelled syllable, and after
/// syllables: nothing there joins, and all of it comes apart.
fn added_in_syllables() -> Vec<Vec<u32>> {
    let mut pieces = Vec::new();
    for code in added_letters() {
        pieces.push(vec![code, 0x1162, 0x11A9]);
        pieces.push(vec![0x1101, code, 0x11A9]);
        pieces.push(vec![0x1101, 0x1162, code]);
        pieces.push(vec![0xAC00, code, 0xAC03, code]);
    }
    pieces
}

/// Good code points that are clusters or syllables again when bits are lost.
fn look_alikes() -> Vec<u32> {
    let codes = clusters().into_iter().chain([0xAC00, 0xAC03, 0xAF66]);
    codes
        .flat_map(|code| [code + 0x1_0000, code + 0x10_0000, code.swap_bytes() >> 16])
        .filter(|&code| !is_bad(code))
        .collect()
}

/// A cluster and a long syllable at each place of a text that else passes through: a program that
/// takes several code points at a time must not lose one that lies across its blocks.
fn at_each_place() -> Vec<Call> {
    let mut calls = Vec::new();
    for around in [0x41, 0x1161, 0xAC03] {
        for place in 0..=66 {
            let mut text = vec![around; 66];
            text.splice(place..place, [0x1122, 0xAF66]);
            calls.extend(SIMPLE.exact_and_short(&text));
        }
    }
    calls
}

fn edges() -> Vec<Call> {
    let mut calls = SIMPLE.no_text();
    for text in [codes_around_tables(), each_syllable(), look_alikes()] {
        calls.extend(SIMPLE.exact_and_short(&text));
    }
    calls.extend(SIMPLE.long_spoilt());
    for text in packed(beside_clusters().into_iter().chain(added_in_syllables())) {
        calls.extend(SIMPLE.exact_and_short(&text));
    }
    for code in codes_around_tables() {
        calls.extend(SIMPLE.in_rooms_around(&[code]));
    }
    calls.extend(SIMPLE.short_spoilt());
    calls.extend(SIMPLE.long_good());
    calls.extend(at_each_place());
    for code in texts::boundary_codes() {
        calls.push(SIMPLE.call(&[0x41, code, 0xAC03], 9));
    }
    for code in look_alikes() {
        calls.push(SIMPLE.call(&[code], 2));
    }
    calls
}

/// Every code point alone, letters and syllables in all the rooms that tell; then every scalar
/// value in texts as long as the limit allows, which no answer to one alone can show.
fn every() -> Vec<Call> {
    let mut calls = Vec::new();
    for code in codes_around_tables().into_iter().chain(each_syllable()) {
        calls.extend(SIMPLE.in_rooms_around(&[code]));
    }
    for code in (0..=0x10_FFFF).chain(texts::numbers_beyond()) {
        calls.push(SIMPLE.call(&[code], 1));
    }
    for block in texts::scalar_values().chunks(LIMIT) {
        calls.push(SIMPLE.with_exact_room(block));
    }
    for text in packed(beside_clusters()) {
        calls.extend(SIMPLE.exact_and_short(&text));
    }
    for piece in added_in_syllables() {
        calls.extend(SIMPLE.in_rooms_around(&piece));
    }
    calls
}

/// Refusal 1 is not among the stored ones: 16,385 code points would not be small.
fn stored() -> Vec<Call> {
    SIMPLE.calls(&[
        (&[0xAC03], 5),
        (&[], 0),
        (&[], 1),
        (&[0xAC03], 4),
        (&[0xAC03], 3),
        (&[0xAC00], 2),
        (&[0xAF66], 7),
        (&[0xAF66], 6),
        (&[0x1101, 0x1161], 3),
        (&[0x1122], 3),
        (&[0x1122], 2),
        (&[0x1122], 0),
        (&[0x1107, 0x1109, 0x1100], 3),
        (&[0x1140, 0x1146, 0x1153], 5),
        (&[0x113D, 0x114F, 0x1155, 0x112C], 8),
        (&[0x116A, 0x116B], 5),
        (&[0x11B6, 0x11B7, 0x11B3], 5),
        (&[0x1176, 0x11A2, 0x11C3, 0x11F9], 7),
        (&[0x1176, 0x11A2, 0x11C3, 0x11F9], 6),
        (&[0x118C, 0x118E, 0x119E], 6),
        (&[0x11CF, 0x11ED, 0x11EB, 0x11F0], 8),
        (&[0x115F, 0x1160, 0x115A, 0x11A7, 0x11FF], 9),
        (&[0xA960, 0x1161], 3),
        (&[0xA960, 0x1161], 2),
        (&[0xA97C, 0xD7B0, 0xD7C6, 0xD7CB, 0xD7FB], 11),
        (&[0xA95F, 0xA97D, 0xD7C7, 0xD7FC, 0x3133, 0x1_1101], 6),
        (&[0, 0x1F6A2, 0x302E, 0x10_FFFF], 4),
        (&[0xD55C, 0xAE00, 0x20, 0xB2ED], 11),
        (&[0xD55C, 0xAE00, 0x20, 0xB2ED], 10),
        (&[0x1101, 0xD800], 3),
        (&[0x11_0000, 0xDFFF], 0),
        (&[0x1122, 0xFFFF_FFFF], 4),
    ])
}
