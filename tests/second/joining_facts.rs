// Facts about joining: known cases, what the rules promise of it, and the Standard's composition.
// It runs no program and makes no cases; it holds only the definition of joining to account.

use crate::facts::{refusal, Facts, TextCase};
use crate::joining::joined;
use crate::letter_facts::state_for_all_syllables;
use crate::letters::*;
use crate::random::Random;
use crate::texts;
use std::collections::{HashMap, HashSet};

pub fn state_all(facts: &mut Facts) {
    known_joinings(facts);
    letters_that_do_not_join(facts);
    joining_over_all_syllables(facts);
    joining_of_seeded_texts(facts);
    joining_of_short_texts(facts);
    texts_refused_for_joining(facts);
}

/// The marked cases 4 to 7 and the errors to shut out, then the rules' words one by one.
fn known_joinings(facts: &mut Facts) {
    let known: [(&[u32], &[u32]); 18] = [
        (&[0x1100, 0x1161, 0x11A7], &[0xAC00, 0x11A7]),
        (&[0x1100, 0x1161, 0x11C3], &[0xAC00, 0x11C3]),
        (&[0xAC01, 0x11A8], &[0xAC01, 0x11A8]),
        (&[0x1100, 0x1100, 0x1161], &[0x1100, 0xAC00]),
        (&[0x1100, 0x302E, 0x1161], &[0x1100, 0x302E, 0x1161]),
        (&[0xAC00, 0x302F, 0x11A8], &[0xAC00, 0x302F, 0x11A8]),
        (&[0x1100, 0x1161], &[0xAC00]),
        (&[0x1100, 0x1161, 0x11A8], &[0xAC01]),
        (&[0xAC00, 0x11A8], &[0xAC01]),
        (&[0xAC1C, 0x11A8], &[0xAC1D]),
        (&[0x1100, 0x1161, 0x11A8, 0x11A8], &[0xAC01, 0x11A8]),
        (&[0x1100, 0xAC00], &[0x1100, 0xAC00]),
        (&[0xAC00, 0x1161], &[0xAC00, 0x1161]),
        (&[0x1113, 0x1161], &[0x1113, 0x1161]),
        (&[0x1100, 0x1176], &[0x1100, 0x1176]),
        (&[0x115F, 0x1161, 0x11A8], &[0x115F, 0x1161, 0x11A8]),
        (&[0x1111, 0x1171, 0x11B6], &[0xD4DB]),
        (&[], &[]),
    ];
    for (text, whole) in known {
        let fact = format!("{text:04X?} joins to {whole:04X?}");
        facts.state(&fact, joined(text) == whole);
    }
    let word = [
        0x1112, 0x1161, 0x11AB, 0x1100, 0x1173, 0x11AF, 0x20, 0x1F6A2,
    ];
    let whole = [0xD55C, 0xAE00, 0x20, 0x1F6A2];
    facts.state("a spelled word joins", joined(&word) == whole);
}

/// The letters that Unicode 5.2 added, between any two of the code points that join and of these
/// letters: they stay, and hold the others off.
fn letters_that_do_not_join(facts: &mut Facts) {
    let known: [(&[u32], &[u32]); 6] = [
        (&[0x1100, 0x11A7], &[0x1100, 0x11A7]),
        (&[0xAC00, 0x11A7], &[0xAC00, 0x11A7]),
        (&[0x1100, 0x11A7, 0x11A8], &[0x1100, 0x11A7, 0x11A8]),
        (&[0xA960, 0x1161, 0x11A8], &[0xA960, 0x1161, 0x11A8]),
        (&[0x1100, 0x1161, 0xD7CB], &[0xAC00, 0xD7CB]),
        (&[0x115A, 0x1100, 0x1161], &[0x115A, 0xAC00]),
    ];
    for (text, whole) in known {
        let fact = format!("{text:04X?} joins to {whole:04X?}");
        facts.state(&fact, joined(text) == whole);
    }
    let modern = (0x1100..=0x1112)
        .chain(0x1161..=0x1175)
        .chain(0x11A8..=0x11C2);
    let beside: Vec<u32> = modern
        .chain([0xAC00, 0xAC01, 0xD788, 0xD7A3])
        .chain(ADDED_RANGES.map(|(first, _)| first))
        .collect();
    let stay = added_letters().into_iter().all(|code| {
        let mut pairs = beside
            .iter()
            .flat_map(|&before| beside.iter().map(move |&after| [before, code, after]));
        pairs.all(|text| joined(&text) == text)
    });
    facts.state("no added letter joins with anything", stay);
}

fn joining_over_all_syllables(facts: &mut Facts) {
    state_for_all_syllables(facts, "a syllable's full parts join to it", |code| {
        joined(&full_parts(code)) == [code]
    });
    state_for_all_syllables(facts, "a syllable's one step joins to it", |code| {
        joined(&one_step(code)) == [code]
    });
    let syllables: Vec<u32> = (0xAC00..=0xD7A3).collect();
    facts.state("syllables stay", joined(&syllables) == syllables);
    let letters = full_parts_of_text(&syllables);
    facts.state("all full parts join", joined(&letters) == syllables);
    let stay = (0..=0x10_FFFF).all(|code| joined(&[code]) == [code]);
    facts.state("any code point alone stays", stay);
}

/// The canonical combining class in the repertoire: tone marks have 224, all else is a starter.
fn combining_class(code: u32) -> u32 {
    if is_tone_mark(code) {
        224
    } else {
        0
    }
}

/// Definition D115: something between the starter and the code point holds it off.
fn is_blocked(sequence: &[u32], starter: usize, place: usize) -> bool {
    let class = combining_class(sequence[place]);
    let mut between = sequence[starter + 1..place].iter().copied();
    between.any(|code| combining_class(code) == 0 || combining_class(code) >= class)
}

/// The primary composites (D114) of the repertoire, each by the pair that it takes apart to.
fn primary_composites() -> HashMap<Vec<u32>, u32> {
    (0xAC00..=0xD7A3)
        .map(|code| (one_step(code), code))
        .collect()
}

/// The canonical composition algorithm (D117), word by word: from the second code point on, seek
/// back for the last starter, and where nothing blocks and a primary composite is there, replace.
fn composition(text: &[u32], composites: &HashMap<Vec<u32>, u32>) -> Vec<u32> {
    let mut sequence = text.to_vec();
    let mut place = 1;
    while place < sequence.len() {
        let starter = (0..place)
            .rev()
            .find(|&place| combining_class(sequence[place]) == 0);
        let composite = starter
            .filter(|&starter| !is_blocked(&sequence, starter, place))
            .and_then(|starter| {
                let pair = vec![sequence[starter], sequence[place]];
                composites.get(&pair).map(|&code| (starter, code))
            });
        match composite {
            Some((starter, code)) => {
                sequence[starter] = code;
                sequence.remove(place);
            }
            None => place += 1,
        }
    }
    sequence
}

/// States of all texts what the rules promise of joining, and that it is the Standard's NFC.
fn joining_of_texts(facts: &mut Facts, which: &str, texts: &[Vec<u32>]) {
    let composites = primary_composites();
    let mut state = |fact: &str, holds: &dyn Fn(&[u32]) -> bool| {
        let all = texts.iter().all(|text| holds(text));
        facts.state(&format!("{fact} ({which})"), all);
    };
    state("joining is at most as long", &|text| {
        joined(text).len() <= text.len()
    });
    state("joining is at least a third", &|text| {
        3 * joined(text).len() >= text.len()
    });
    state("joining twice changes nothing", &|text| {
        joined(&joined(text)) == joined(text)
    });
    state("joining the parts is joining the text", &|text| {
        joined(&full_parts_of_text(text)) == joined(text)
    });
    state("the parts of the joined are the parts", &|text| {
        full_parts_of_text(&joined(text)) == full_parts_of_text(text)
    });
    state("joining is the Standard's composition", &|text| {
        joined(text) == composition(text, &composites)
    });
    state("joining is the Standard's NFC", &|text| {
        joined(text) == composition(&full_parts_of_text(text), &composites)
    });
}

/// The texts are kept to the repertoire: outside it the Standard's NFC joins other scripts too.
fn joining_of_seeded_texts(facts: &mut Facts) {
    let mut random = Random::new(5);
    let mut seeded = Vec::new();
    for length in (0..3_000).map(|index| index % 60) {
        let mut text = texts::joining_text(&mut random, length);
        text.retain(|&code| in_repertoire(code));
        seeded.push(text);
    }
    joining_of_texts(facts, "seeded texts", &seeded);
    let shorter = seeded.iter().filter(|text| joined(text).len() < text.len());
    facts.state("seeded texts do join", shorter.count() > 1_500);
}

/// The letters and syllables that have to do with each other, and what only looks like them.
const SMALL_ALPHABET: [u32; 10] = [
    0x1100, 0x1161, 0x11A8, 0xAC00, 0xAC01, 0x11A7, 0x11C3, 0x1113, 0x1176, 0x302E,
];

/// Whether two of the texts join to the same exactly when they have the same full parts: each
/// joined text goes with one list of parts, and each list of parts with one joined text.
fn same_exactly_with_parts(texts: &[Vec<u32>]) -> bool {
    let mut parts_of = HashMap::new();
    let mut joined_of = HashMap::new();
    texts.iter().all(|text| {
        let (whole, parts) = (joined(text), full_parts_of_text(text));
        let first_parts = parts_of.entry(whole.clone()).or_insert(parts.clone());
        let first_whole = joined_of.entry(parts.clone()).or_insert(whole.clone());
        *first_parts == parts && *first_whole == whole
    })
}

fn joining_of_short_texts(facts: &mut Facts) {
    let mut texts = texts::short_texts(&SMALL_ALPHABET, 4);
    facts.state("there are 11111 short texts", texts.len() == 11_111);
    joining_of_texts(facts, "short texts", &texts);
    let mut random = Random::new(6);
    for _ in 0..20_000 {
        let length = 5 + random.below(4);
        texts.push((0..length).map(|_| random.pick(&SMALL_ALPHABET)).collect());
    }
    facts.state(
        "texts join to the same exactly when their parts are the same",
        same_exactly_with_parts(&texts),
    );
    let distinct: HashSet<Vec<u32>> = texts.iter().map(|text| joined(text)).collect();
    facts.state("some do", distinct.len() < texts.len());
}

fn texts_refused_for_joining(facts: &mut Facts) {
    let pairs: Vec<u32> = [0x1100, 0x1161].repeat(LIMIT / 2);
    let mut over = pairs.clone();
    over.push(0x11A8);
    let mut both = over.clone();
    both[0] = 0xD800;
    let spelled = [0x1100, 0x1161, 0x11A8, 0x1100];
    let cases: [TextCase; 9] = [
        ("8192 pairs are taken", &pairs, 8_192, (0, 0)),
        ("8192 pairs need their room", &pairs, 8_191, (3, 8_192)),
        ("one letter more is refused", &over, 8_192, (1, 16_384)),
        ("1 before 3 in joining", &over, 0, (1, 16_384)),
        ("1 before 2 in joining", &both, 0, (1, 16_384)),
        ("2 before 3 in joining", &[0x1100, 0xDFFF], 0, (2, 1)),
        ("the place is the joined length", &spelled, 1, (3, 2)),
        ("a room for the joined is enough", &spelled, 2, (0, 0)),
        ("nothing joins in no room", &[], 0, (0, 0)),
    ];
    for (fact, text, room, expected) in cases {
        facts.state(fact, refusal(joined, text, room) == expected);
    }
}
