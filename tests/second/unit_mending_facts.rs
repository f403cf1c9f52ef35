// Facts about mending UTF-16: known cases, what the rules promise of it, and mending of UTF-8.
// It runs no program and makes no cases; it holds only the definition of mending to account.

use crate::byte_texts::{damaged_units, repeated};
use crate::facts::{refusal_of_units, Facts, UnitCase};
use crate::joining::joined;
use crate::letters::LIMIT;
use crate::mending;
use crate::mending_texts::HANGUL_TEXT;
use crate::random::Random;
use crate::unit_mending::{mended, UnitMending};
use crate::unit_mending_cases::{MENDED_UNITS, UNIT_MENDING};
use crate::unit_mending_texts::{self, EXAMPLES, PLACED};
use crate::unit_texts;
use crate::utf16::{read, written};
use crate::utf8;

pub fn state_all(facts: &mut Facts) {
    known_mendings(facts);
    every_syllable(facts);
    mending_of_texts(facts, "mean units", &unit_texts::triples());
    mending_of_texts(facts, "units in runs", &unit_mending_texts::within_plain());
    let damaged = damaged_units(&written(&HANGUL_TEXT));
    mending_of_texts(facts, "damaged units", &damaged);
    mending_of_seeded_units(facts);
    nothing_joins_across(facts);
    answers(facts);
    units_refused_for_mending(facts);
}

fn known_mendings(facts: &mut Facts) {
    for (units, whole, unpaired) in EXAMPLES {
        let expected = UnitMending {
            units: whole.to_vec(),
            unpaired,
        };
        let fact = format!("{units:04X?} is mended to {whole:04X?}, {unpaired} unpaired");
        facts.state(&fact, mended(units) == expected);
    }
    let nothing = mended(&[]) == UnitMending::default();
    facts.state("no units are mended to nothing", nothing);
}

fn every_syllable(facts: &mut Facts) {
    let syllables: Vec<u16> = (0xAC00..=0xD7A3).collect();
    let mend_to = |pieces: &[Vec<u16>], wholes: &[u16]| {
        let mut pairs = pieces.iter().zip(wholes);
        let each = pairs.all(|(piece, &whole)| mended(piece).units == [whole]);
        each && pieces.len() == wholes.len() && mended(&pieces.concat()).units == wholes
    };
    let finished = unit_mending_texts::finished();
    facts.state("syllables stay in units", mend_to(&finished, &syllables));
    let spelled = unit_mending_texts::spelled();
    facts.state("units become syllables", mend_to(&spelled, &syllables));
    let closed: Vec<u16> = syllables
        .iter()
        .copied()
        .filter(|code| (code - 0xAC00) % 28 != 0)
        .collect();
    let with_finals = unit_mending_texts::with_finals();
    facts.state(
        "finals close an LV in units",
        mend_to(&with_finals, &closed),
    );
    let strayed = unit_mending_texts::strayed();
    let count = 399 + 2 * 10_773 + 10_773;
    facts.state("the strayed units are all there", strayed.len() == count);
    let each = strayed.iter().all(|units| {
        let mending = mended(units);
        mending.unpaired == 1 && mending.units.contains(&0xFFFD)
    });
    facts.state("a surrogate between letters is unpaired", each);
}

/// What mending of UTF-8 makes of the same code points, as units.
fn mended_by_bytes(units: &[u16]) -> Vec<u16> {
    let bytes = utf8::written(&read(units).codes);
    written(&utf8::read(&mending::mended(&bytes).bytes).codes)
}

/// States of all texts what the rules promise of mending.
fn mending_of_texts(facts: &mut Facts, which: &str, texts: &[Vec<u16>]) {
    let mut state = |fact: &str, holds: fn(&[u16]) -> bool| {
        let all = texts.iter().all(|units| holds(units));
        facts.state(&format!("{fact} ({which})"), all);
    };
    state("mending units makes no more of them", |units| {
        mended(units).units.len() <= units.len()
    });
    state("mending units again changes nothing", |units| {
        let whole = mended(units).units;
        let again = mended(&whole);
        again.units == whole && again.unpaired == 0
    });
    state("mended units std finds well-formed", |units| {
        String::from_utf16(&mended(units).units).is_ok()
    });
    state("the count of units is that of the reading", |units| {
        mended(units).unpaired == read(units).ill_formed
    });
    state("mending of UTF-8 makes the same text", |units| {
        mended(units).units == mended_by_bytes(units)
    });
}

fn mending_of_seeded_units(facts: &mut Facts) {
    let mut random = Random::new(13);
    let seeded: Vec<Vec<u16>> = (0..10_000)
        .map(|index| unit_mending_texts::units(&mut random, index % 100))
        .collect();
    mending_of_texts(facts, "seeded units", &seeded);
    let ill = seeded.iter().filter(|units| read(units).ill_formed > 0);
    let ill = ill.count();
    facts.state("many mixtures have unpaired units", ill > 3_000);
    facts.state("and many have none", seeded.len() - ill > 3_000);
    let joining = seeded.iter().filter(|units| {
        let codes = read(units).codes;
        joined(&codes).len() < codes.len()
    });
    facts.state(
        "in most mixtures of units something joins",
        joining.count() > 5_000,
    );
}

/// Before and after an unpaired surrogate each side is mended as if it stood alone. A low one makes
/// a pair only with what ends in a high one.
fn nothing_joins_across(facts: &mut Facts) {
    let alone = |units: &[u16]| mended(units).units;
    let mut sides = unit_texts::boundary_pairs();
    sides.retain(|side| !(0xD800..=0xDBFF).contains(&side[1]));
    let apart = sides.iter().all(|front| {
        PLACED.iter().all(|back| {
            let whole = [&front[..], &[0xDC00], back].concat();
            alone(&whole) == [&alone(front)[..], &[0xFFFD], &alone(back)].concat()
        })
    });
    facts.state("nothing joins across unpaired surrogates", apart);
}

/// Units in and units out, the count beside them, and the rest of the buffer as it was.
fn answers(facts: &mut Facts) {
    let answer = (UNIT_MENDING.answer)(&MENDED_UNITS.call(&[0x1100, 0x1161, 0xDC00], 4));
    let lent = [0xAC00, 0xFFFD, 0xA5A5, 0xA5A5];
    facts.state("what is mended stands in units", answer.lent == lent);
    let numbers = (answer.refusal, answer.value, answer.second, answer.third);
    facts.state(
        "value is the length in units, second the count",
        numbers == (0, 2, 1, 0),
    );
    let answer = (UNIT_MENDING.answer)(&MENDED_UNITS.call(&[0x1100, 0x1161, 0xDC00], 1));
    let numbers = (answer.refusal, answer.value, answer.second, answer.third);
    facts.state("a refusal of units has no count", numbers == (3, 2, 0, 0));
    facts.state("and leaves the units lent", answer.lent == [0xA5A5]);
}

fn units_refused_for_mending(facts: &mut Facts) {
    let pattern = [0x1100, 0x1161, 0x11A8];
    // 5,461 syllables and an initial.
    let full = repeated(&pattern, LIMIT);
    let over = repeated(&pattern, LIMIT + 1);
    let ill = vec![0xD800; LIMIT];
    let cases: [UnitCase<u16>; 9] = [
        ("16384 units are mended", &full, 5_462, (0, 0)),
        ("16384 units to mend need room", &full, 5_461, (3, 5_462)),
        ("16385 units are not mended", &over, 60_000, (1, 16_384)),
        ("1 before 3 in mending units", &over, 0, (1, 16_384)),
        ("each lone unit needs one", &ill, 16_383, (3, 16_384)),
        ("one for each always does", &ill, 16_384, (0, 0)),
        ("3 counts mended units", &pattern, 0, (3, 1)),
        ("room for the mended units is enough", &pattern, 1, (0, 0)),
        ("no units are mended in no room", &[], 0, (0, 0)),
    ];
    for (fact, units, room, expected) in cases {
        let refusal = refusal_of_units(MENDED_UNITS.whole, units, room);
        facts.state(fact, refusal == expected);
    }
}
