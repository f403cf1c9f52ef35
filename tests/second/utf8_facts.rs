// Facts about reading and writing UTF-8, from the Standard's tables and examples and from std.
// It runs no program and makes no cases; it holds only the definitions of UTF-8 to account.

use crate::byte_texts::{self, MIXED_TEXT, PLACED};
use crate::facts::{refusal, refusal_of_units, Facts, TextCase, UnitCase};
use crate::letters::{is_bad, LIMIT};
use crate::random::Random;
use crate::reading_cases::READ;
use crate::texts;
use crate::utf8::{read, written, written_code, Reading, Row};
use crate::utf8::{REPLACEMENT, TABLE_3_7};
use crate::writing_cases::WRITTEN;

pub fn state_all(facts: &mut Facts) {
    table(facts);
    known_readings(facts);
    every_scalar_value(facts);
    reading_as_std_does(facts);
    seeded_readings_as_std_does(facts);
    good_characters_are_kept(facts);
    tempting_characters_are_kept(facts);
    cut_sequences(facts);
    bytes_refused_for_reading(facts);
    texts_refused_for_writing(facts);
}

/// How many sequences a row has.
fn sequences(row: &Row) -> u32 {
    let ranges = row.bytes.iter();
    ranges
        .map(|&(first, last)| u32::from(last - first) + 1)
        .product()
}

fn table(facts: &mut Facts) {
    let matching = TABLE_3_7
        .iter()
        .all(|row| sequences(row) == row.codes.1 - row.codes.0 + 1);
    facts.state("a row has a sequence for each code point", matching);
    let all: u32 = TABLE_3_7.iter().map(sequences).sum();
    facts.state("there are 1112064 scalar values", all == 1_112_064);
    let gaps: Vec<(u32, u32)> = TABLE_3_7
        .windows(2)
        .map(|pair| (pair[0].codes.1 + 1, pair[1].codes.0))
        .filter(|(end, next)| end != next)
        .collect();
    facts.state(
        "the rows leave out D800 to DFFF",
        gaps == [(0xD800, 0xE000)],
    );
    let ends = (TABLE_3_7[0].codes.0, TABLE_3_7[8].codes.1);
    facts.state("the rows go from 0 to 10FFFF", ends == (0, 0x10_FFFF));
    let leads = TABLE_3_7.iter().map(|row| row.bytes[0]);
    let leads: usize = leads
        .map(|(first, last)| usize::from(last - first) + 1)
        .sum();
    facts.state("179 bytes begin a sequence", leads == 128 + 30 + 16 + 5);
}

fn state_reading(facts: &mut Facts, bytes: &[u8], codes: &[u32], ill_formed: u32) {
    let expected = Reading {
        codes: codes.to_vec(),
        ill_formed,
    };
    let fact = format!("{bytes:02X?} reads {codes:04X?}, {ill_formed} ill-formed");
    facts.state(&fact, read(bytes) == expected);
}

fn known_readings(facts: &mut Facts) {
    for (bytes, codes, ill_formed) in byte_texts::EXAMPLES {
        state_reading(facts, bytes, codes, ill_formed);
    }
    state_reading(facts, &[], &[], 0);
    state_reading(facts, &[0x00, 0x7F], &[0x00, 0x7F], 0);
    state_reading(facts, &[0xEF, 0xBB, 0xBF, 0x41], &[0xFEFF, 0x41], 0);
    state_reading(facts, &[0xEF, 0xBF, 0xBD], &[0xFFFD], 0);
    state_reading(facts, &[0xEF, 0xBF, 0xEF, 0xBF, 0xBD], &[0xFFFD, 0xFFFD], 1);
    state_reading(facts, &[0xEF, 0xBF, 0xBF], &[0xFFFF], 0);
    state_reading(
        facts,
        &[0xED, 0x9F, 0xBF, 0xEE, 0x80, 0x80],
        &[0xD7FF, 0xE000],
        0,
    );
    state_reading(facts, &[0xF0, 0x90, 0x80], &[0xFFFD], 1);
    state_reading(
        facts,
        &[0xF0, 0x9F, 0x9A, 0xEA, 0xB0, 0x81],
        &[0xFFFD, 0xAC01],
        1,
    );
    state_reading(facts, &[0xF4, 0x8F, 0xBF, 0xBF], &[0x10_FFFF], 0);
    state_reading(facts, &[0xF4, 0x90], &[0xFFFD, 0xFFFD], 2);
    state_reading(facts, &[0xC2], &[0xFFFD], 1);
}

/// The code point that a well-formed sequence has by its place in its row of table 3-7 alone:
/// the sequences of a row, counted in the order of their bytes. No bits are looked at.
fn code_by_counting(row: &Row, sequence: &[u8]) -> u32 {
    let pairs = sequence.iter().zip(row.bytes);
    let place = pairs.fold(0, |place, (&byte, &(first, last))| {
        place * (u32::from(last - first) + 1) + u32::from(byte - first)
    });
    row.codes.0 + place
}

fn row_of_code(code: u32) -> Option<&'static Row> {
    let mut rows = TABLE_3_7.iter();
    rows.find(|row| row.codes.0 <= code && code <= row.codes.1)
}

/// The bytes that std gives a scalar value.
fn written_by_std(code: u32) -> Vec<u8> {
    let character = char::from_u32(code).map(String::from);
    character.unwrap_or_default().into_bytes()
}

fn every_scalar_value(facts: &mut Facts) {
    let values = texts::scalar_values();
    let mut state = |fact: &str, holds: fn(u32) -> bool| {
        facts.state(fact, values.iter().all(|&code| holds(code)));
    };
    state("std writes the same", |code| {
        written_code(code) == written_by_std(code)
    });
    state("what is written is read back", |code| {
        let reading = read(&written_code(code));
        reading.codes == [code] && reading.ill_formed == 0
    });
    state("the tables 3-6 and 3-7 agree", |code| {
        let sequence = written_code(code);
        let holds = row_of_code(code).map(|row| {
            sequence.len() == row.bytes.len() && code_by_counting(row, &sequence) == code
        });
        holds == Some(true)
    });
    let bytes = written(&values);
    let length = 128 + 2 * 1_920 + 3 * 61_440 + 4 * 1_048_576;
    facts.state("all values have so many bytes", bytes.len() == length);
    facts.state("all values are read back", read(&bytes).codes == values);
    let none_bad = (0..0x11_0000).filter(|&code| !is_bad(code));
    facts.state("the scalar values are those not bad", none_bad.eq(values));
}

/// How many errors std finds when it goes on after each; it too takes maximal subparts.
fn errors_of_std(mut bytes: &[u8]) -> u32 {
    let mut count = 0;
    while let Err(error) = std::str::from_utf8(bytes) {
        let end = error.error_len().map(|length| error.valid_up_to() + length);
        bytes = &bytes[end.unwrap_or(bytes.len())..];
        count += 1;
    }
    count
}

/// Whether std reads the same code points and finds as many ill-formed subparts.
fn is_as_std_does(bytes: &[u8]) -> bool {
    let reading = read(bytes);
    let text = String::from_utf8_lossy(bytes);
    let same = text
        .chars()
        .map(u32::from)
        .eq(reading.codes.iter().copied());
    same && reading.ill_formed == errors_of_std(bytes)
}

fn state_as_std_does(facts: &mut Facts, which: &str, texts: &[Vec<u8>]) {
    let all = texts.iter().all(|bytes| is_as_std_does(bytes));
    facts.state(&format!("std reads the same of {which}"), all);
}

fn reading_as_std_does(facts: &mut Facts) {
    state_as_std_does(facts, "single bytes", &byte_texts::single_bytes());
    state_as_std_does(facts, "pairs of bytes", &byte_texts::byte_pairs());
    for length in 0..=4 {
        let sequences = byte_texts::boundary_sequences(length);
        let expected = 24_usize.pow(length as u32);
        facts.state("the sequences are all there", sequences.len() == expected);
        state_as_std_does(facts, &format!("{length} boundary bytes"), &sequences);
    }
    state_as_std_does(facts, "cut sequences", &byte_texts::every_cut_sequence());
    state_as_std_does(
        facts,
        "damaged texts",
        &byte_texts::damaged_texts(&MIXED_TEXT),
    );
    state_as_std_does(
        facts,
        "changed texts",
        &byte_texts::changed_texts(&MIXED_TEXT),
    );
    state_as_std_does(
        facts,
        "bytes at each place",
        &byte_texts::at_each_place(&PLACED),
    );
}

fn seeded_readings_as_std_does(facts: &mut Facts) {
    let mut random = Random::new(8);
    let seeded: Vec<Vec<u8>> = (0..20_000)
        .map(|index| byte_texts::bytes(&mut random, index % 80))
        .collect();
    state_as_std_does(facts, "seeded bytes", &seeded);
    let readings: Vec<Reading> = seeded.iter().map(|bytes| read(bytes)).collect();
    let ill = readings.iter().filter(|reading| reading.ill_formed > 0);
    let ill = ill.count();
    facts.state("many seeded bytes are ill-formed", ill > 8_000);
    facts.state("and many are not", readings.len() - ill > 2_000);
    let mut pairs = seeded.iter().zip(&readings);
    let bounded = pairs.all(|(bytes, reading)| {
        let most = reading.codes.len() as u32;
        reading.codes.len() <= bytes.len() && reading.ill_formed <= most
    });
    facts.state("there are at most as many codes as bytes", bounded);
    let replaced = |reading: &Reading| {
        let codes = reading.codes.iter();
        codes.filter(|&&code| code == REPLACEMENT).count() as u32
    };
    let uncounted = readings
        .iter()
        .any(|reading| reading.ill_formed > 0 && replaced(reading) > reading.ill_formed);
    facts.state("true FFFD stand beside ill-formed bytes", uncounted);
}

/// After whatever bytes, a good character is read: no lead byte is eaten.
fn good_characters_are_kept(facts: &mut Facts) {
    let sequences = byte_texts::boundary_sequences(3);
    for code in [0x41, 0xF1, 0xAC01, 0x1_F6A2, REPLACEMENT] {
        let kept = sequences.iter().all(|bytes| {
            let mut alone = read(bytes);
            alone.codes.push(code);
            read(&[&bytes[..], &written_code(code)].concat()) == alone
        });
        facts.state(&format!("{code:04X} is kept after any bytes"), kept);
    }
}

/// Counted row by row: the beginnings of one byte, of two and of three.
fn cut_sequences(facts: &mut Facts) {
    let cut = byte_texts::every_cut_sequence();
    let of_three_bytes = (1 + 32) + (12 + 768) + (1 + 32) + (2 + 128);
    let of_four_bytes = (1 + 48 + 3_072) + (3 + 192 + 12_288) + (1 + 16 + 1_024);
    let count = 30 + of_three_bytes + of_four_bytes;
    facts.state("the cut sequences are all there", cut.len() == count);
    let single = Reading {
        codes: vec![REPLACEMENT],
        ill_formed: 1,
    };
    let each = cut.iter().all(|bytes| read(bytes) == single);
    facts.state("each cut sequence is one maximal subpart", each);
}

fn tempting_characters_are_kept(facts: &mut Facts) {
    let well_formed = byte_texts::tempting_texts().iter().all(|bytes| {
        let reading = read(bytes);
        reading.ill_formed == 0 && written(&reading.codes) == *bytes
    });
    facts.state("tempting characters are kept", well_formed);
}

fn bytes_refused_for_reading(facts: &mut Facts) {
    let full = byte_texts::repeated(&[0xEA, 0xB0, 0x81], LIMIT);
    let over = byte_texts::repeated(&[0xEA, 0xB0, 0x81], LIMIT + 1);
    let ill = vec![0x80; LIMIT];
    let cases: [UnitCase<u8>; 8] = [
        ("16384 bytes are taken", &full, 5_462, (0, 0)),
        ("16384 bytes need their room", &full, 5_461, (3, 5_462)),
        ("16385 bytes are refused", &over, 60_000, (1, 16_384)),
        ("1 before 3 in reading", &over, 0, (1, 16_384)),
        ("ill-formed bytes need room", &ill, 16_383, (3, 16_384)),
        ("ill-formed bytes are taken", &ill, 16_384, (0, 0)),
        ("3 counts code points", &[0xE1, 0x80, 0x41], 1, (3, 2)),
        ("no bytes need no room", &[], 0, (0, 0)),
    ];
    for (fact, bytes, room, expected) in cases {
        facts.state(fact, refusal_of_units(READ.whole, bytes, room) == expected);
    }
}

fn texts_refused_for_writing(facts: &mut Facts) {
    let full = vec![0x10_FFFF; LIMIT];
    let over = vec![0x41; LIMIT + 1];
    let mut both = over.clone();
    both[0] = 0xD800;
    let cases: [TextCase; 9] = [
        ("16384 are written", &full, 65_536, (0, 0)),
        (
            "16384 need room for their bytes",
            &full,
            65_535,
            (3, 65_536),
        ),
        ("16385 are not written", &over, 60_000, (1, 16_384)),
        ("1 before 3 in writing", &over, 0, (1, 16_384)),
        ("1 before 2 in writing", &both, 0, (1, 16_384)),
        ("2 before 3 in writing", &[0x41, 0xDFFF], 0, (2, 1)),
        ("a surrogate is not written", &[0xD800], 3, (2, 0)),
        ("3 counts bytes in writing", &[0xAC01, 0x41], 3, (3, 4)),
        ("nothing is written in no room", &[], 0, (0, 0)),
    ];
    for (fact, text, room, expected) in cases {
        facts.state(fact, refusal(WRITTEN.whole, text, room) == expected);
    }
}
