// The kind gathered form: what cases are made for it. They lean on letters that two clusters could
// take, and on those at the border of a syllable. It defines no answers: those stand with the
// definition of the gathered form.

use crate::gathering::gathered_form;
use crate::kinds::{no_calls, Kind};
use crate::letters::{added_letters, LIMIT, SIMPLE_FINALS, SIMPLE_INITIALS, SIMPLE_PEAKS};
use crate::random::Random;
use crate::simple::{clusters, codes_around_tables, simple_letters};
use crate::simple_texts::{simple_text, OF_THREE};
use crate::text_kinds::{packed, TextKind};
use crate::texts;
use crate::wire::{Call, Shape, Width};
use crate::words;

pub const GATHERED_FORM: Kind = Kind {
    number: GATHERED.number,
    name: "gathered form",
    shape: Shape::CODES,
    answer: |call| GATHERED.answer(call),
    edges,
    random: |random| GATHERED.random_call(random),
    every,
    stored,
    forbidden: no_calls,
    arguments: words::text_argument,
    outcome: words::codes_in_buffer,
};

/// Of the repeated texts the second and the third come back longer than they were.
pub const GATHERED: TextKind = TextKind {
    number: 6,
    lent: Width::Number,
    whole: gathered_form,
    growth: 7,
    good_text: gathering_text,
    repeated: &[
        &[0x1100],
        &[0x1107, 0xAC01],
        &[0xD07D, 0x11CF],
        &[0x1109],
        &[0xAF66],
        &[0x41],
    ],
};

/// Letters of every place of which clusters are made.
const LETTERS: [u32; 14] = [
    0x1100, 0x1102, 0x1103, 0x1107, 0x1109, 0x110B, 0x110C, 0x1161, 0x1165, 0x1169, 0x116E, 0x1175,
    0x11A8, 0x11BA,
];

/// A syllable, and after it two or three letters of one place, which may go on with its last.
fn with_a_border(random: &mut Random) -> Vec<u32> {
    let syllable = random.between(0xAC00, 0xD7A3);
    let letters: &[u32] = random.pick(&[&SIMPLE_PEAKS, &SIMPLE_FINALS]);
    let mut text = vec![syllable];
    for _ in 0..random.between(2, 3) {
        text.push(random.pick(letters));
    }
    text
}

/// Much that gathers: runs of single letters, the letters of clusters, and what is taken apart.
fn gathering_text(random: &mut Random, length: usize) -> Vec<u32> {
    if random.one_in(3) {
        return simple_text(random, length);
    }
    let clusters = clusters();
    let mut text = Vec::with_capacity(length + 4);
    while text.len() < length {
        match random.below(13) {
            0..=3 => text.push(random.pick(&LETTERS)),
            4 | 5 => text.extend(simple_letters(random.pick(&clusters))),
            6 => text.push(random.between(0xAC00, 0xD7A3)),
            7 => text.push(random.pick(&clusters)),
            8 => text.push(random.pick(&SIMPLE_PEAKS)),
            9 => text.push(random.pick(&SIMPLE_FINALS)),
            10 => text.push(random.pick(&SIMPLE_INITIALS)),
            11 => text.extend(with_a_border(random)),
            _ => text.push(random.pick(&[0x0000, 0x41, 0x302E, 0x115F, 0x1160, 0x11A7])),
        }
    }
    text.truncate(length);
    text
}

/// Every run of some letters of the given length.
fn runs(letters: &[u32], count: usize) -> Vec<Vec<u32>> {
    let texts = texts::short_texts(letters, count);
    texts.into_iter().filter(|run| run.len() == count).collect()
}

/// At the border of a syllable: every peak after every LV of one initial, every final after that
/// initial's first LV and every LVT made of it, and every initial before them.
fn at_borders() -> Vec<Vec<u32>> {
    let mut pieces = Vec::new();
    for lv in (0xAC00..0xAE4C).step_by(28) {
        let peaks = (0x1161..=0x11A7).chain(0xD7B0..=0xD7C6);
        pieces.extend(peaks.map(|peak| vec![lv, peak, 0x41]));
    }
    for syllable in 0xAC00..0xAC1C {
        let finals = (0x11A8..=0x11FF).chain(0xD7CB..=0xD7FB);
        pieces.extend(finals.map(|last| vec![syllable, last, 0x41]));
        let initials = (0x1100..=0x115E).chain(0xA960..=0xA97C);
        pieces.extend(initials.map(|initial| vec![initial, syllable, 0x41]));
    }
    pieces
}

/// The letters of each cluster of three and more or less of them: all but the last, all but the
/// first, the last twice, the first twice, and a mark between the last two.
fn around_three() -> Vec<Vec<u32>> {
    let mut pieces = Vec::new();
    for cluster in OF_THREE {
        let letters = simple_letters(cluster);
        let (first, last) = (letters[0], letters[2]);
        for piece in [
            &letters[..2],
            &letters[1..],
            &[first, letters[1], last, last],
            &[first, first, letters[1], last],
            &[first, letters[1], 0x302E, last],
        ] {
            pieces.push([piece, &[0x41]].concat());
        }
    }
    pieces
}

/// Each letter that Unicode 5.2 added, taken apart and gathered back: alone, where a modern letter
/// of its place would join, and twice.
fn added_apart() -> Vec<Vec<u32>> {
    let mut pieces = Vec::new();
    for code in added_letters() {
        let letters = simple_letters(code);
        pieces.push(vec![code, 0x41]);
        pieces.push([&letters[..], &[0x41]].concat());
        pieces.push([&[0x1100], &letters[..], &[0x1161, 0x11A8, 0x41]].concat());
        pieces.push([&[0x1100, 0x1161], &letters[..], &[0x11A8, 0x41]].concat());
        pieces.push([&letters[..], &letters, &[0x41]].concat());
        pieces.push([&[code], &letters[..], &[code, 0x41]].concat());
    }
    pieces
}

/// The letters of each cluster, beside a letter on either side, and of two clusters.
fn beside_clusters() -> Vec<Vec<u32>> {
    let mut pieces = Vec::new();
    for cluster in clusters() {
        let letters = simple_letters(cluster);
        for letter in LETTERS {
            pieces.push([vec![letter], letters.clone(), vec![0x41]].concat());
            pieces.push([letters.clone(), vec![letter, 0x41]].concat());
        }
        pieces.push([letters.clone(), letters].concat());
    }
    pieces
}

fn each_code() -> Vec<u32> {
    let letters = codes_around_tables().into_iter();
    letters.chain(0xAC00..=0xD7A3).collect()
}

fn edges() -> Vec<Call> {
    let mut calls = GATHERED.no_text();
    calls.extend(GATHERED.long_spoilt());
    let pieces = [
        beside_clusters(),
        at_borders(),
        around_three(),
        added_apart(),
    ];
    for text in packed(pieces.concat()) {
        calls.extend(GATHERED.exact_and_short(&text));
    }
    for run in runs(&LETTERS, 2) {
        calls.extend(GATHERED.in_rooms_around(&run));
    }
    calls.extend(GATHERED.short_spoilt());
    calls.extend(GATHERED.long_good());
    calls.extend(GATHERED.exact_and_short(&each_code()));
    calls
}

/// Every run of four letters, of four simple peaks and of four simple finals, of three simple
/// initials, what stands at the border of a syllable, every letter, every syllable, and every
/// scalar value.
fn every() -> Vec<Call> {
    let mut calls = Vec::new();
    let lists: [(&[u32], usize); 4] = [
        (&LETTERS, 4),
        (&SIMPLE_PEAKS, 4),
        (&SIMPLE_FINALS, 4),
        (&SIMPLE_INITIALS, 3),
    ];
    for (letters, count) in lists {
        for run in runs(letters, count) {
            calls.push(GATHERED.with_exact_room(&run));
        }
    }
    for piece in [at_borders(), around_three(), added_apart()].concat() {
        calls.extend(GATHERED.exact_and_short(&piece));
    }
    for code in each_code() {
        calls.extend(GATHERED.in_rooms_around(&[code]));
    }
    for block in texts::scalar_values().chunks(LIMIT) {
        calls.push(GATHERED.with_exact_room(block));
    }
    calls
}

/// Refusal 1 is not among the stored ones: 16,385 code points would not be small.
fn stored() -> Vec<Call> {
    GATHERED.calls(&[
        (&[0x1100, 0x1100, 0x1161], 2),
        (&[], 0),
        (&[0x1100, 0x1161, 0x1175], 1),
        (&[0x1100, 0x1161, 0x1175], 0),
        (&[0x1107, 0x1109, 0x1100], 1),
        (&[0x1109, 0x1107, 0x1109, 0x1100], 2),
        (&[0x1107, 0xAC01], 3),
        (&[0x1107, 0xAC01], 2),
        (&[0x1109, 0x1109, 0x1109, 0x1109], 2),
        (&[0x1107, 0x1107, 0x1107, 0x110B], 2),
        (&[0x1169, 0x1161, 0x1175, 0x1175], 2),
        (&[0x11A8, 0x11BA, 0x11BA], 2),
        (&[0xAC03, 0x11BA], 2),
        (&[0x1100, 0x0000, 0x1100, 0x1100], 3),
        (&[0x1100, 0x302E, 0x1100], 3),
        (&[0x115F, 0x1160, 0x11C3, 0x1176], 4),
        (&[0x1103, 0x1106, 0x1161], 2),
        (&[0xA960, 0x1161], 2),
        (&[0xA960, 0x1161], 1),
        (&[0x1105, 0x1100, 0x1100], 1),
        (&[0x1105, 0x1100, 0x1103], 2),
        (&[0x1100, 0x1169, 0x1163, 0x1175, 0x11A8], 3),
        (&[0xAC00, 0x11C1, 0x11C0], 2),
        (&[0x1100, 0x1175, 0x119E, 0x11AF, 0x11AE, 0x11C2], 3),
        (&[0xD07D, 0x11CF], 4),
        (&[0xD07D, 0x11CF], 3),
        (&[0xAC01, 0x11AF], 2),
        (&[0x1173, 0x1175, 0x116E], 1),
        (&[0xD55C, 0xAE00, 0x20, 0xB2ED], 4),
        (&[0x1100, 0xD800], 2),
    ])
}
