// Facts about sorts, one step, full parts and their refusals, from the Standard and the rules.
// It runs no program and makes no cases; it holds only the definitions of the letters to account.

use crate::cases::SORTER;
use crate::facts::{refusal, Facts, TextCase};
use crate::letters::*;
use crate::simple::is_cluster;
use crate::wire::Call;
use std::collections::HashSet;

pub fn state_all(facts: &mut Facts) {
    marked_cases(facts);
    known_syllables(facts);
    counts(facts);
    sorts(facts);
    numbers_of_sorts(facts);
    makes(facts);
    added(facts);
    parts_over_all_syllables(facts);
    other_code_points(facts);
    refused_codes(facts);
    texts_refused_for_parts(facts);
}

fn marked_cases(facts: &mut Facts) {
    facts.state(
        "AC03 has parts 1100 1161 11AA",
        full_parts(0xAC03) == [0x1100, 0x1161, 0x11AA],
    );
    facts.state(
        "AC1D in one step is AC1C 11A8",
        one_step(0xAC1D) == [0xAC1C, 0x11A8],
    );
    facts.state(
        "D7A3 in one step is D788 11C2",
        one_step(0xD7A3) == [0xD788, 0x11C2],
    );
}

/// The first is chapter 3's own example; the others are words that any reader of Korean knows.
fn known_syllables(facts: &mut Facts) {
    facts.state(
        "D4DB in one step is D4CC 11B6",
        one_step(0xD4DB) == [0xD4CC, 0x11B6],
    );
    facts.state(
        "D4CC in one step is 1111 1171",
        one_step(0xD4CC) == [0x1111, 0x1171],
    );
    let known: [(u32, &[u32]); 14] = [
        (0xD4DB, &[0x1111, 0x1171, 0x11B6]),
        (0xAC00, &[0x1100, 0x1161]),
        (0xAC01, &[0x1100, 0x1161, 0x11A8]),
        (0xAC1B, &[0x1100, 0x1161, 0x11C2]),
        (0xAC1C, &[0x1100, 0x1162]),
        (0xAE4C, &[0x1101, 0x1161]),
        (0xD55C, &[0x1112, 0x1161, 0x11AB]),
        (0xAE00, &[0x1100, 0x1173, 0x11AF]),
        (0xB2ED, &[0x1103, 0x1161, 0x11B0]),
        (0xAC12, &[0x1100, 0x1161, 0x11B9]),
        (0xC544, &[0x110B, 0x1161]),
        (0xD4DE, &[0x1111, 0x1171, 0x11B9]),
        (0xD788, &[0x1112, 0x1175]),
        (0xD7A3, &[0x1112, 0x1175, 0x11C2]),
    ];
    for (code, parts) in known {
        facts.state(
            &format!("{code:04X} has parts {parts:04X?}"),
            full_parts(code) == parts,
        );
    }
}

fn count(sort: Sort) -> usize {
    (0..=0x10_FFFF)
        .filter(|&code| sort_of(code) == sort)
        .count()
}

fn counts(facts: &mut Facts) {
    let expected = [
        14, 5, 9, 96, 1, 1, 10, 11, 1, 72, 14, 13, 3, 107, 399, 10_773,
    ];
    for ((sort, name), expected) in SORTS.into_iter().zip(expected) {
        facts.state(
            &format!("there are {expected} of sort {name}"),
            count(sort) == expected,
        );
    }
    for (place, sorts, count) in [
        ("initials", 0..4, 124),
        ("peaks", 6..10, 94),
        ("finals", 10..14, 137),
    ] {
        let all: usize = expected[sorts].iter().sum();
        facts.state(&format!("there are {count} {place}"), all == count);
    }
    let letters = 124 + 94 + 137;
    let others = 0x11_0000 - letters - 2 - 11_172;
    facts.state("all else is other", count(Sort::Other) == others);
    let is_one = (0..=0x10_FFFF).filter(|&code| is_letter(code));
    facts.state("there are 355 letters", is_one.count() == letters);
    facts.state(
        "there are 11172 syllables",
        S_COUNT == 11_172 && N_COUNT == 588,
    );
    facts.state("the last syllable is D7A3", S_BASE + S_COUNT - 1 == 0xD7A3);
    facts.state("the last initial is 1112", L_BASE + L_COUNT - 1 == 0x1112);
    facts.state("the last peak is 1175", V_BASE + V_COUNT - 1 == 0x1175);
    facts.state("the last final is 11C2", T_BASE + T_COUNT - 1 == 0x11C2);
}

fn sorts(facts: &mut Facts) {
    let alike = |first: u32, last: u32, sort: Sort| {
        let mut codes = first..=last;
        codes.all(|code| sort_of(code) == sort)
    };
    for (first, last, sort) in [
        (0x115A, 0x115E, Sort::OldInitial(Make::Cluster)),
        (0x11A3, 0x11A7, Sort::OldPeak(Make::Cluster)),
        (0x11FA, 0x11FF, Sort::OldFinal(Make::Cluster)),
        (0xA960, 0xA97C, Sort::OldInitial(Make::Cluster)),
        (0xD7B0, 0xD7C6, Sort::OldPeak(Make::Cluster)),
        (0xD7CB, 0xD7FB, Sort::OldFinal(Make::Cluster)),
        (0x10FF, 0x10FF, Sort::Other),
        (0x1200, 0xA95F, Sort::Other),
        (0xA97D, 0xABFF, Sort::Other),
        (0xD7A4, 0xD7AF, Sort::Other),
        (0xD7C7, 0xD7CA, Sort::Other),
        (0xD7FC, 0xD7FF, Sort::Other),
    ] {
        let fact = format!("{first:04X} to {last:04X} are {sort:?}");
        facts.state(&fact, alike(first, last, sort));
    }
    let peak = matches!(sort_of(0x11A7), Sort::OldPeak(_));
    facts.state("11A7 is an old peak and no final", peak);
    facts.state("AC1C is an LV", sort_of(0xAC1C) == Sort::Lv);
    facts.state("AC1B is an LVT", sort_of(0xAC1B) == Sort::Lvt);
    let rising = LETTER_RANGES.windows(2).all(|pair| pair[0].1 < pair[1].0);
    facts.state("the ranges do not overlap", rising);
    let mut block = 0x1100..=0x11FF;
    facts.state(
        "each code of the letters' block is a letter or a filler",
        block.all(|code| is_letter(code) != (code == 0x115F || code == 0x1160)),
    );
}

/// A code of each sort, with the number that docs/CALLS.md gives to it.
fn numbers_of_sorts(facts: &mut Facts) {
    let known = [
        0x1100, 0x1101, 0x113C, 0x1113, 0x115F, 0x1160, 0x1161, 0x1162, 0x119E, 0x1176, 0x11A8,
        0x11A9, 0x11EB, 0x11C3, 0xAC00, 0xAC01, 0x0041,
    ];
    for (number, code) in (0..).zip(known) {
        let answer = (SORTER.answer)(&Call {
            kind: SORTER.number,
            x: code,
            ..Call::default()
        });
        let numbers = [answer.refusal, answer.value, answer.second, answer.third];
        let fact = format!("the sort of {code:04X} has number {number}");
        facts.state(&fact, numbers == [0, number, 0, 0]);
    }
    let distinct: HashSet<String> = SORTS.iter().map(|(sort, _)| format!("{sort:?}")).collect();
    facts.state("17 sorts have a number", distinct.len() == 17);
}

/// What a letter is made of; None for all that is no letter.
fn make_of(code: u32) -> Option<Make> {
    match sort_of(code) {
        Sort::ModernInitial(make) | Sort::ModernPeak(make) | Sort::ModernFinal(make) => Some(make),
        Sort::OldInitial(make) | Sort::OldPeak(make) | Sort::OldFinal(make) => Some(make),
        _ => None,
    }
}

/// Two ways to what a letter is made of: the list of simple letters, and the letters' names.
fn makes(facts: &mut Facts) {
    let agree = (0..=0x10_FFFF).all(|code| match make_of(code) {
        Some(make) => is_letter(code) && is_cluster(code) == (make == Make::Cluster),
        None => !is_letter(code) && !is_cluster(code),
    });
    facts.state(
        "the sorter says cluster exactly where the name spells several letters",
        agree,
    );
    for (make, expected) in [(Make::Simple, 51), (Make::Cluster, 304)] {
        let letters = (0..=0x10_FFFF).filter(|&code| make_of(code) == Some(make));
        let fact = format!("{expected} letters are {make:?}");
        facts.state(&fact, letters.count() == expected);
    }
}

/// What was a letter or a filler before Unicode 5.2 added some.
const BEFORE: [(u32, u32); 4] = [
    (0x1100, 0x1159),
    (0x115F, 0x1160),
    (0x1161, 0x11A2),
    (0x11A8, 0x11F9),
];

/// The letters that Unicode 5.2 added: how many, that they were other, and what they are.
fn added(facts: &mut Facts) {
    for ((first, last), expected) in ADDED_RANGES.into_iter().zip([5, 5, 6, 29, 23, 49]) {
        let fact = format!("{expected} letters were added at {first:04X}");
        facts.state(&fact, last - first + 1 == expected);
    }
    facts.state("117 were added in all", added_letters().len() == 117);
    let was_known = |code| {
        let mut ranges = BEFORE.into_iter();
        ranges.any(|(first, last)| first <= code && code <= last)
    };
    let mut added = added_letters().into_iter();
    facts.state("each was other", added.all(|code| !was_known(code)));
    let others = (0..=0x10_FFFF).all(|code| match sort_of(code) {
        Sort::Other => !was_known(code) && !is_added(code),
        Sort::Lv | Sort::Lvt => !was_known(code) && !is_added(code),
        _ => was_known(code) != is_added(code),
    });
    facts.state("nothing else came or went", others);
    let old = added_letters().into_iter().all(|code| {
        let sorts = [Sort::OldInitial, Sort::OldPeak, Sort::OldFinal];
        let mut sorts = sorts.into_iter().map(|sort| sort(Make::Cluster));
        sorts.any(|sort| sort_of(code) == sort)
    });
    facts.state("each is old and a cluster", old);
}

/// The one step taken again on each part until nothing changes.
fn repeated_steps(code: u32) -> Vec<u32> {
    let mut parts = vec![code];
    loop {
        let next: Vec<u32> = parts.iter().flat_map(|&part| one_step(part)).collect();
        if next == parts {
            return parts;
        }
        parts = next;
    }
}

/// The Standard's composition, written out here to go the other way.
fn composed(parts: &[u32]) -> u32 {
    let pair = (parts[0] - L_BASE) * N_COUNT + (parts[1] - V_BASE) * T_COUNT;
    S_BASE + pair + parts.get(2).map_or(0, |last| last - T_BASE)
}

pub fn state_for_all_syllables(facts: &mut Facts, fact: &str, holds: fn(u32) -> bool) {
    facts.state(fact, (0xAC00..=0xD7A3).all(holds));
}

fn parts_over_all_syllables(facts: &mut Facts) {
    state_for_all_syllables(facts, "full parts are repeated steps", |code| {
        full_parts(code) == repeated_steps(code)
    });
    state_for_all_syllables(facts, "full parts compose again", |code| {
        composed(&full_parts(code)) == code
    });
    state_for_all_syllables(facts, "an LV has two parts, an LVT three", |code| {
        full_parts(code).len() == if sort_of(code) == Sort::Lv { 2 } else { 3 }
    });
    state_for_all_syllables(facts, "the parts are modern letters in order", |code| {
        let order = [Sort::ModernInitial, Sort::ModernPeak, Sort::ModernFinal];
        let mut pairs = full_parts(code).into_iter().zip(order);
        pairs.all(|(part, sort)| make_of(part).map(sort) == Some(sort_of(part)))
    });
    let syllables: Vec<u32> = (0xAC00..=0xD7A3).collect();
    let distinct: HashSet<Vec<u32>> = syllables.iter().map(|&code| full_parts(code)).collect();
    facts.state(
        "no two syllables have the same parts",
        distinct.len() == 11_172,
    );
    let whole = full_parts_of_text(&syllables);
    facts.state("all syllables have 33117 parts", whole.len() == 33_117);
}

fn other_code_points(facts: &mut Facts) {
    let others = (0..0xAC00).chain(0xD7A4..=0x10_FFFF);
    let same = others
        .into_iter()
        .all(|code| one_step(code) == [code] && full_parts(code) == [code]);
    facts.state("any other code point is itself", same);
    let text = [0x41, 0xAC00, 0x11A7, 0x1F6A2, 0xAC01];
    let parts = [
        0x41, 0x1100, 0x1161, 0x11A7, 0x1F6A2, 0x1100, 0x1161, 0x11A8,
    ];
    facts.state(
        "a text's parts follow each other",
        full_parts_of_text(&text) == parts,
    );
    facts.state("no text has no parts", full_parts_of_text(&[]).is_empty());
}

fn refused_codes(facts: &mut Facts) {
    for code in [
        0xD800,
        0xDBFF,
        0xDC00,
        0xDFFF,
        0x11_0000,
        0x8000_0000,
        0xFFFF_FFFF,
    ] {
        let refused = Err(Refusal {
            number: 2,
            place: 0,
        });
        facts.state(
            &format!("{code:X} is refused"),
            answer_of_sorter(code) == refused,
        );
    }
    for code in [0, 0xD7FF, 0xE000, 0xFFFE, 0xFFFF, 0x10_FFFF] {
        facts.state(
            &format!("{code:X} is taken"),
            answer_of_one_step(code) == Ok(vec![code]),
        );
    }
}

fn texts_refused_for_parts(facts: &mut Facts) {
    let full = vec![0xD7A3; LIMIT];
    let over = vec![0xD7A3; LIMIT + 1];
    let mut both = over.clone();
    both[0] = 0xD800;
    let cases: [TextCase; 9] = [
        ("16384 are taken", &full, 49_152, (0, 0)),
        ("16384 need their room", &full, 49_151, (3, 49_152)),
        ("16385 are refused", &over, 60_000, (1, 16_384)),
        ("1 goes before 3", &over, 0, (1, 16_384)),
        ("1 goes before 2", &both, 0, (1, 16_384)),
        ("2 goes before 3", &[0x41, 0xD800, 0xDFFF], 0, (2, 1)),
        (
            "the length needed is the place",
            &[0xAC00, 0xAC01],
            4,
            (3, 5),
        ),
        ("an exact room is enough", &[0xAC00, 0xAC01], 5, (0, 0)),
        ("no text needs no room", &[], 0, (0, 0)),
    ];
    for (fact, text, room, expected) in cases {
        facts.state(fact, refusal(full_parts_of_text, text, room) == expected);
    }
}
