// Mean bytes for the kinds that read UTF-8: boundaries, the Standard's examples, damaged texts.
// It makes no whole calls and decides no answers.

use crate::random::Random;
use crate::texts::{self, TextMaker};
use crate::utf8::{written, written_code, TABLE_3_7};
use crate::wire::CodeUnit;

/// The ends of the ranges of table 3-7 and the bytes next to them.
pub const BOUNDARY_BYTES: [u8; 24] = [
    0x00, 0x7F, 0x80, 0x8F, 0x90, 0x9F, 0xA0, 0xBF, 0xC0, 0xC1, 0xC2, 0xDF, 0xE0, 0xE1, 0xEC, 0xED,
    0xEE, 0xEF, 0xF0, 0xF1, 0xF3, 0xF4, 0xF5, 0xFF,
];

/// Begins and continues no other sequence, so pieces divided by it do not touch.
const WALL: u8 = 0x41;

/// Bytes, what they are read as, and how many of these are ill-formed subparts.
pub type Example = (&'static [u8], &'static [u32], u32);

/// The Standard's tables 3-8 to 3-11 (overlong forms, surrogates, other bytes, cut sequences), an
/// older edition's table, examples from the text around D92 and D93b, and the rules' case 12.
#[rustfmt::skip]
pub const EXAMPLES: [Example; 11] = [
    (&[0xC0, 0xAF, 0xE0, 0x80, 0xBF, 0xF0, 0x81, 0x82, 0x41],
     &[0xFFFD, 0xFFFD, 0xFFFD, 0xFFFD, 0xFFFD, 0xFFFD, 0xFFFD, 0xFFFD, 0x41], 8),
    (&[0xED, 0xA0, 0x80, 0xED, 0xBF, 0xBF, 0xED, 0xAF, 0x41],
     &[0xFFFD, 0xFFFD, 0xFFFD, 0xFFFD, 0xFFFD, 0xFFFD, 0xFFFD, 0xFFFD, 0x41], 8),
    (&[0xF4, 0x91, 0x92, 0x93, 0xFF, 0x41, 0x80, 0xBF, 0x42],
     &[0xFFFD, 0xFFFD, 0xFFFD, 0xFFFD, 0xFFFD, 0x41, 0xFFFD, 0xFFFD, 0x42], 7),
    (&[0xE1, 0x80, 0xE2, 0xF0, 0x91, 0x92, 0xF1, 0xBF, 0x41],
     &[0xFFFD, 0xFFFD, 0xFFFD, 0xFFFD, 0x41], 4),
    (&[0x61, 0xF1, 0x80, 0x80, 0xE1, 0x80, 0xC2, 0x62, 0x80, 0x63, 0x80, 0xBF, 0x64],
     &[0x61, 0xFFFD, 0xFFFD, 0xFFFD, 0x62, 0xFFFD, 0x63, 0xFFFD, 0xFFFD, 0x64], 6),
    (&[0x41, 0xC0, 0xAF, 0x41, 0xF4, 0x80, 0x80, 0x41],
     &[0x41, 0xFFFD, 0xFFFD, 0x41, 0xFFFD, 0x41], 3),
    (&[0x41, 0xC2, 0xC3, 0xB1, 0x42], &[0x41, 0xFFFD, 0xF1, 0x42], 1),
    (&[0xE0, 0x9F, 0x80], &[0xFFFD, 0xFFFD, 0xFFFD], 3),
    (&[0xF4, 0x80, 0x83, 0x92], &[0x10_00D2], 0),
    (&[0x4D, 0xD0, 0xB0, 0xE4, 0xBA, 0x8C, 0xF0, 0x90, 0x8C, 0x82],
     &[0x4D, 0x430, 0x4E8C, 0x1_0302], 0),
    (&[0xE1, 0x84, 0x80, 0xE1, 0x20, 0xA1, 0xE1, 0x86, 0xA8],
     &[0x1100, 0xFFFD, 0x20, 0xFFFD, 0x11A8], 2),
];

/// One character of each row of table 3-7, with FEFF and a true FFFD among them.
pub const MIXED_TEXT: [u32; 13] = [
    0x41, 0x80, 0x7FF, 0x800, 0x1100, 0xAC01, 0xD7FF, 0xFEFF, 0xFFFD, 0x1_0000, 0x4_F123,
    0x10_FFFF, 0x7A,
];

/// Each byte alone.
pub fn single_bytes() -> Vec<Vec<u8>> {
    (0..=0xFF).map(|byte| vec![byte]).collect()
}

/// All pairs of bytes, those of boundaries first.
pub fn byte_pairs() -> Vec<Vec<u8>> {
    let mut pairs = Vec::new();
    for first in 0..=0xFF {
        pairs.extend((0..=0xFF).map(|second| vec![first, second]));
    }
    pairs.sort_by_key(|pair| pair.iter().any(|byte| !BOUNDARY_BYTES.contains(byte)));
    pairs
}

/// Each sequence with each of the pieces after it.
fn longer<Unit: Copy, Piece: AsRef<[Unit]>>(
    sequences: &[Vec<Unit>],
    pieces: &[Piece],
) -> Vec<Vec<Unit>> {
    let mut longer = Vec::with_capacity(sequences.len() * pieces.len());
    for sequence in sequences {
        let pieces = pieces.iter().map(AsRef::as_ref);
        longer.extend(pieces.map(|piece| [sequence, piece].concat()));
    }
    longer
}

/// All sequences of so many of the pieces.
pub fn sequences<Unit: Copy, Piece: AsRef<[Unit]>>(
    pieces: &[Piece],
    count: usize,
) -> Vec<Vec<Unit>> {
    let mut sequences = vec![Vec::new()];
    for _ in 0..count {
        sequences = longer(&sequences, pieces);
    }
    sequences
}

/// All sequences of boundary bytes of the given length.
pub fn boundary_sequences(length: usize) -> Vec<Vec<u8>> {
    sequences(&BOUNDARY_BYTES.map(|byte| [byte]), length)
}

pub fn with_wall<Unit: CodeUnit>(mut piece: Vec<Unit>) -> Vec<Unit> {
    piece.push(Unit::from(WALL));
    piece
}

/// Each scalar value as UTF-8.
pub fn every_written() -> Vec<Vec<u8>> {
    let values = texts::scalar_values();
    values.into_iter().map(written_code).collect()
}

/// Each cut sequence there is: every proper beginning of a well-formed one.
pub fn every_cut_sequence() -> Vec<Vec<u8>> {
    let mut cut = Vec::new();
    for row in &TABLE_3_7 {
        let mut beginnings = vec![Vec::new()];
        for &(first, last) in &row.bytes[..row.bytes.len() - 1] {
            let bytes: Vec<[u8; 1]> = (first..=last).map(|byte| [byte]).collect();
            beginnings = longer(&beginnings, &bytes);
            cut.extend(beginnings.clone());
        }
    }
    cut
}

/// The bytes, or code points, with those in the places given replaced.
pub fn with<Element: Copy>(
    elements: &[Element],
    places: std::ops::Range<usize>,
    replacing: &[Element],
) -> Vec<Element> {
    let mut elements = elements.to_vec();
    elements.splice(places, replacing.iter().copied());
    elements
}

/// Characters that a program may be tempted to treat in a way of its own, in front, within and at
/// the end; none of them is ill-formed.
pub fn tempting_texts() -> Vec<Vec<u8>> {
    let codes = texts::TEMPTING_CODES.iter();
    codes
        .map(|&code| written(&[code, 0xAC01, code, code]))
        .collect()
}

/// The code units cut after and before each, with each lost, and each doubled.
pub fn damaged_units<Unit: CodeUnit>(units: &[Unit]) -> Vec<Vec<Unit>> {
    let mut texts = vec![units.to_vec()];
    for (place, &unit) in units.iter().enumerate() {
        texts.push(with(units, place..place + 1, &[]));
        texts.push(with(units, place..place + 1, &[unit, unit]));
        texts.push(units[..place].to_vec());
        texts.push(units[place..].to_vec());
    }
    texts
}

/// The code units with each changed to each of the others, and with one of these put in before it.
pub fn changed_units<Unit: CodeUnit>(units: &[Unit], others: &[Unit]) -> Vec<Vec<Unit>> {
    let mut texts = Vec::new();
    for &other in others {
        for place in 0..units.len() {
            texts.push(with(units, place..place + 1, &[other]));
            texts.push(with(units, place..place, &[other]));
        }
    }
    texts
}

pub fn damaged_texts(text: &[u32]) -> Vec<Vec<u8>> {
    damaged_units(&written(text))
}

pub fn changed_texts(text: &[u32]) -> Vec<Vec<u8>> {
    changed_units(&written(text), &BOUNDARY_BYTES)
}

/// Each of these, over and over, is a long text: one to four bytes to a character, and bytes that
/// read as one FFFD each, two to one and three to one.
pub const REPEATED: [&[u8]; 9] = [
    &[0x41],
    &[0xC3, 0xB1],
    &[0xEA, 0xB0, 0x81],
    &[0xF0, 0x9F, 0x9A, 0xA2],
    &[0xEF, 0xBF, 0xBD],
    &[0x80],
    &[0xE1, 0x80],
    &[0xF1, 0x80, 0x80],
    &[0xE1, 0x84, 0x80, 0xE1, 0x20, 0xA1, 0xF4, 0x90],
];

pub fn repeated<Element: Copy>(pattern: &[Element], length: usize) -> Vec<Element> {
    pattern.iter().copied().cycle().take(length).collect()
}

/// What is put at each place of a text.
pub const PLACED: [&[u8]; 6] = [
    &[0xEA, 0xB0, 0x81],
    &[0xF0, 0x9F, 0x9A, 0xA2],
    &[0x80],
    &[0xE1, 0x80],
    &[0xF1, 0x80, 0x80, 0xC3, 0xB1],
    &[0xEF, 0xBF, 0xBD],
];

/// A few code units at each place of a text that else passes through: a program that takes several
/// at a time must not lose what lies across its blocks.
pub fn at_each_place<Unit: CodeUnit>(pieces: &[&[Unit]]) -> Vec<Vec<Unit>> {
    let passing = [Unit::from(WALL); 66];
    let mut texts = Vec::new();
    for piece in pieces {
        texts.extend((0..=66).map(|place| with(&passing, place..place, piece)));
    }
    texts
}

/// A cut sequence, as a program meets it that stops one byte late or early.
fn cut_sequence(random: &mut Random) -> Vec<u8> {
    let mut sequence =
        written_code(random.pick(&[0x80, 0x800, 0xAC01, 0xD7FF, 0x1_0000, 0x10_FFFF]));
    let length = 1 + random.below(sequence.len() - 1);
    sequence.truncate(length);
    sequence
}

/// A lead byte with a second byte that only nearly fits it, then one or two that would.
fn nearly_well_formed(random: &mut Random) -> Vec<u8> {
    let (lead, second) = random.pick(&[
        (0xC0, 0x80),
        (0xC1, 0xBF),
        (0xE0, 0x80),
        (0xE0, 0x9F),
        (0xED, 0xA0),
        (0xED, 0xBF),
        (0xF0, 0x80),
        (0xF0, 0x8F),
        (0xF4, 0x90),
        (0xF4, 0xBF),
        (0xF5, 0x80),
        (0xF8, 0x88),
    ]);
    let mut bytes = vec![lead, second];
    bytes.extend(vec![0x80; random.below(3)]);
    bytes
}

/// A few bytes, well-formed or nearly so.
pub fn piece(random: &mut Random) -> Vec<u8> {
    match random.below(8) {
        0 => vec![random.pick(&BOUNDARY_BYTES)],
        1 | 2 => cut_sequence(random),
        3 => nearly_well_formed(random),
        4 => vec![random.between(0x80, 0xBF) as u8],
        5 => written_code(random.pick(&[0xFFFD, 0xFEFF, 0xD7FF, 0xE000, 0x10_FFFF, 0x1_0000])),
        6 => written_code(random.between(0x20, 0x7E)),
        _ => written_code(texts::good_code(random)),
    }
}

/// The bytes of a good text, in which then a few are changed, lost or put in.
pub fn damaged(random: &mut Random, good: TextMaker, length: usize) -> Vec<u8> {
    let bytes = written(&good(random, length));
    with_damage(random, bytes)
}

pub fn with_damage(random: &mut Random, bytes: Vec<u8>) -> Vec<u8> {
    with_damaged_units(random, bytes, &BOUNDARY_BYTES)
}

/// The code units with a few, often none, changed, lost or put in: by one of the others, or by a
/// changed bit.
pub fn with_damaged_units<Unit: CodeUnit>(
    random: &mut Random,
    mut units: Vec<Unit>,
    others: &[Unit],
) -> Vec<Unit> {
    for _ in 0..random.below(4) {
        if units.is_empty() {
            return units;
        }
        let place = random.below(units.len());
        let other = random.pick(others);
        let replacing = match random.below(4) {
            0 => vec![],
            1 => vec![other, units[place]],
            2 => vec![other],
            _ => vec![with_changed_bit(random, units[place])],
        };
        units = with(&units, place..place + 1, &replacing);
    }
    units
}

fn with_changed_bit<Unit: CodeUnit>(random: &mut Random, unit: Unit) -> Unit {
    let bits = 8 * std::mem::size_of::<Unit>();
    let changed = unit.into() ^ (1 << random.below(bits));
    Unit::try_from(changed).unwrap_or(unit)
}

/// Bytes of the given length, of one of several styles. Well-formed ones are cut to it, so that
/// they may end within a sequence.
pub fn bytes(random: &mut Random, length: usize) -> Vec<u8> {
    let style = random.below(8);
    let mut bytes = match style {
        0 => (0..length).map(|_| random.pick(&BOUNDARY_BYTES)).collect(),
        1 => (0..length).map(|_| random.number() as u8).collect(),
        2 => (0..length)
            .map(|_| random.between(0x80, 0xFF) as u8)
            .collect(),
        3 => written(&texts::good_text(random, length)),
        4 | 5 => damaged(random, texts::good_text, length),
        _ => Vec::with_capacity(length + 4),
    };
    while bytes.len() < length {
        bytes.extend(piece(random));
    }
    bytes.truncate(length);
    bytes
}
