// Facts about reading and writing UTF-16, from the Standard's table and example and from std.
// It runs no program and makes no cases; it holds only the definitions of UTF-16 to account.

use crate::byte_texts::{at_each_place, changed_units, damaged_units, repeated};
use crate::facts::{refusal, refusal_of_units, Facts, TextCase, UnitCase};
use crate::letters::LIMIT;
use crate::random::Random;
use crate::texts;
use crate::unit_reading_cases::READ_UNITS;
use crate::unit_texts::{self, BOUNDARY_UNITS, MIXED_TEXT, PLACED};
use crate::unit_writing_cases::WRITTEN_UNITS;
use crate::utf16::{read, written, written_code};
use crate::utf8::{Reading, REPLACEMENT};

pub fn state_all(facts: &mut Facts) {
    known_readings(facts);
    every_scalar_value(facts);
    every_pair(facts);
    reading_as_std_does(facts);
    seeded_readings_as_std_does(facts);
    good_characters_are_kept(facts);
    units_refused_for_reading(facts);
    texts_refused_for_writing(facts);
}

fn known_readings(facts: &mut Facts) {
    for (units, codes, ill_formed) in unit_texts::EXAMPLES {
        let expected = Reading {
            codes: codes.to_vec(),
            ill_formed,
        };
        let fact = format!("{units:04X?} reads {codes:04X?}, {ill_formed} unpaired");
        facts.state(&fact, read(units) == expected);
    }
    let nothing = read(&[]) == Reading::default();
    facts.state("no units read as nothing", nothing);
}

fn every_scalar_value(facts: &mut Facts) {
    let values = texts::scalar_values();
    let by_std = |code: u32| {
        let character = char::from_u32(code)?;
        Some(character.encode_utf16(&mut [0; 2]).to_vec())
    };
    let mut all = values.iter();
    let same = all.all(|&code| by_std(code) == Some(written_code(code)));
    facts.state("std writes the same units", same);
    let units = written(&values);
    let length = 63_488 + 2 * 1_048_576;
    facts.state("all values have so many units", units.len() == length);
    let reading = read(&units);
    let back = reading.codes == values && reading.ill_formed == 0;
    facts.state("all values are read back from units", back);
}

/// The code point of a pair by its place in the order of pairs alone: no bits are looked at.
fn every_pair(facts: &mut Facts) {
    let highs = 0xD800..=0xDBFF_u16;
    let pairs = highs.flat_map(|high| (0xDC00..=0xDFFF).map(move |low| [high, low]));
    let mut counted = pairs.zip(0x1_0000..);
    let same = counted.all(|(pair, code)| read(&pair).codes == [code]);
    facts.state("the pairs are the code points from 10000 on", same);
    facts.state(
        "the last of them is 10FFFF",
        written_code(0x10_FFFF) == [0xDBFF, 0xDFFF],
    );
}

/// Whether std reads the same code points and finds as many unpaired surrogates.
fn is_as_std_does(units: &[u16]) -> bool {
    let reading = read(units);
    let by_std: Vec<Option<char>> = char::decode_utf16(units.iter().copied())
        .map(Result::ok)
        .collect();
    let codes = by_std
        .iter()
        .map(|code| code.map_or(REPLACEMENT, u32::from));
    let unpaired = by_std.iter().filter(|code| code.is_none()).count();
    codes.eq(reading.codes.iter().copied()) && reading.ill_formed as usize == unpaired
}

fn state_as_std_does(facts: &mut Facts, which: &str, texts: &[Vec<u16>]) {
    let all = texts.iter().all(|units| is_as_std_does(units));
    facts.state(&format!("std reads the same of {which}"), all);
}

fn reading_as_std_does(facts: &mut Facts) {
    let text = written(&MIXED_TEXT);
    state_as_std_does(facts, "single units", &unit_texts::single_units());
    state_as_std_does(
        facts,
        "units beside surrogates",
        &unit_texts::beside_surrogates(),
    );
    let (pairs, triples) = (unit_texts::boundary_pairs(), unit_texts::triples());
    facts.state("the pairs are all there", pairs.len() == 34 * 34);
    facts.state("the triples are all there", triples.len() == 25 * 25 * 25);
    state_as_std_does(facts, "boundary units", &pairs);
    state_as_std_does(facts, "three mean units", &triples);
    state_as_std_does(facts, "four mean units", &unit_texts::quadruples());
    state_as_std_does(facts, "damaged units", &damaged_units(&text));
    let changed = changed_units(&text, &BOUNDARY_UNITS);
    state_as_std_does(facts, "changed units", &changed);
    state_as_std_does(facts, "units at each place", &at_each_place(&PLACED));
}

fn seeded_readings_as_std_does(facts: &mut Facts) {
    let mut random = Random::new(12);
    let seeded: Vec<Vec<u16>> = (0..20_000)
        .map(|index| unit_texts::units(&mut random, index % 80))
        .collect();
    state_as_std_does(facts, "seeded units", &seeded);
    let readings: Vec<Reading> = seeded.iter().map(|units| read(units)).collect();
    let ill = readings.iter().filter(|reading| reading.ill_formed > 0);
    let ill = ill.count();
    facts.state("many seeded units are unpaired", ill > 8_000);
    facts.state("and many texts have none", readings.len() - ill > 2_000);
    let replaced = |reading: &Reading| {
        let codes = reading.codes.iter();
        codes.filter(|&&code| code == REPLACEMENT).count() as u32
    };
    let uncounted = readings
        .iter()
        .any(|reading| reading.ill_formed > 0 && replaced(reading) > reading.ill_formed);
    facts.state("true FFFD stand beside unpaired surrogates", uncounted);
    let paired = readings
        .iter()
        .any(|reading| reading.ill_formed > 0 && reading.codes.iter().any(|&code| code > 0xFFFF));
    facts.state("and so do pairs", paired);
}

/// After whatever units, a good character is read: none is eaten.
fn good_characters_are_kept(facts: &mut Facts) {
    let sequences = unit_texts::triples();
    for code in [0x41, 0xAC01, 0x1_F6A2, REPLACEMENT] {
        let kept = sequences.iter().all(|units| {
            let mut alone = read(units);
            alone.codes.push(code);
            read(&[&units[..], &written_code(code)].concat()) == alone
        });
        facts.state(&format!("{code:04X} is kept after any units"), kept);
    }
}

fn units_refused_for_reading(facts: &mut Facts) {
    let full = repeated(&[0xD83D, 0xDEA2], LIMIT);
    let over = repeated(&[0xD83D, 0xDEA2], LIMIT + 1);
    let ill = vec![0xDC00; LIMIT];
    let cases: [UnitCase<u16>; 8] = [
        ("16384 units are taken", &full, 8_192, (0, 0)),
        ("16384 units need their room", &full, 8_191, (3, 8_192)),
        ("16385 units are refused", &over, 60_000, (1, 16_384)),
        ("1 before 3 in reading units", &over, 0, (1, 16_384)),
        ("unpaired units need room", &ill, 16_383, (3, 16_384)),
        ("unpaired units are taken", &ill, 16_384, (0, 0)),
        ("3 counts code points of units", &[0xD800, 0x41], 1, (3, 2)),
        ("no units need no room", &[], 0, (0, 0)),
    ];
    for (fact, units, room, expected) in cases {
        let refusal = refusal_of_units(READ_UNITS.whole, units, room);
        facts.state(fact, refusal == expected);
    }
}

fn texts_refused_for_writing(facts: &mut Facts) {
    let full = vec![0x10_FFFF; LIMIT];
    let over = vec![0x41; LIMIT + 1];
    let mut both = over.clone();
    both[0] = 0xD800;
    let cases: [TextCase; 10] = [
        ("16384 are written as units", &full, 32_768, (0, 0)),
        ("16384 need room for units", &full, 32_767, (3, 32_768)),
        ("16385 are no units", &over, 60_000, (1, 16_384)),
        ("1 before 3 in writing units", &over, 0, (1, 16_384)),
        ("1 before 2 in writing units", &both, 0, (1, 16_384)),
        ("2 before 3 in writing units", &[0x41, 0xDFFF], 0, (2, 1)),
        ("a pair of code points is bad", &[0xD83D, 0xDEA2], 9, (2, 0)),
        ("110000 is not written", &[0x41, 0x42, 0x11_0000], 9, (2, 2)),
        ("3 counts units in writing", &[0x1_0000, 0x41], 2, (3, 3)),
        ("nothing is written as units", &[], 0, (0, 0)),
    ];
    for (fact, text, room, expected) in cases {
        facts.state(fact, refusal(WRITTEN_UNITS.whole, text, room) == expected);
    }
}
