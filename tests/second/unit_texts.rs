// Mean units for the kinds that read UTF-16: boundaries, unpaired surrogates, damaged texts.
// It makes no whole calls and decides no answers.

use crate::byte_texts::{sequences, with_damaged_units};
use crate::random::Random;
use crate::texts::{self, TextMaker};
use crate::utf16::{written, written_code};

/// The ends of the ranges of surrogates, letters and syllables and the units next to them, FEFF, a
/// true FFFD, and the ends of what a program may take several of at a time.
pub const BOUNDARY_UNITS: [u16; 34] = [
    0x0000, 0x0041, 0x0FFF, 0x1000, 0x10FF, 0x1100, 0x1112, 0x1113, 0x115F, 0x1160, 0x1161, 0x1175,
    0x1176, 0x11A7, 0x11A8, 0x11C2, 0x11C3, 0x11FF, 0x1200, 0xABFF, 0xAC00, 0xAC01, 0xAC1C, 0xD7A3,
    0xD7A4, 0xD7FF, 0xD800, 0xDBFF, 0xDC00, 0xDFFF, 0xE000, 0xFEFF, 0xFFFD, 0xFFFF,
];

/// Those of them of which all sequences of three are tried.
const MEAN_UNITS: [u16; 25] = [
    0x0041, 0x1100, 0x1112, 0x1113, 0x1161, 0x1175, 0x1176, 0x11A7, 0x11A8, 0x11C2, 0x11C3, 0xAC00,
    0xAC01, 0xAC1C, 0xD7A3, 0xD7A4, 0xD7FF, 0xD800, 0xDBFF, 0xDC00, 0xDFFF, 0xE000, 0xFEFF, 0xFFFD,
    0xFFFF,
];

/// And of which all sequences of four are.
const MEANEST_UNITS: [u16; 12] = [
    0x0041, 0x1000, 0x1100, 0x1161, 0x11A8, 0xAC00, 0xAC01, 0xD800, 0xDBFF, 0xDC00, 0xDFFF, 0xFFFD,
];

/// Units, what they are read as, and how many of these are unpaired surrogates.
pub type Example = (&'static [u16], &'static [u32], u32);

/// The Standard's example of D91, surrogates alone and in the wrong order, and what only looks as
/// if a program had to do something about it.
#[rustfmt::skip]
pub const EXAMPLES: [Example; 15] = [
    (&[0x4D, 0x430, 0x4E8C, 0xD800, 0xDF02], &[0x4D, 0x430, 0x4E8C, 0x1_0302], 0),
    (&[0xD800], &[0xFFFD], 1),
    (&[0xDC00], &[0xFFFD], 1),
    (&[0xDC00, 0xD800], &[0xFFFD, 0xFFFD], 2),
    (&[0xD800, 0xD800, 0xDC00], &[0xFFFD, 0x1_0000], 1),
    (&[0xD800, 0xDC00, 0xDC00], &[0x1_0000, 0xFFFD], 1),
    (&[0xDBFF, 0xDFFF, 0xDBFF, 0xDC00], &[0x10_FFFF, 0x10_FC00], 0),
    (&[0xD83D, 0x41, 0xDEA2], &[0xFFFD, 0x41, 0xFFFD], 2),
    (&[0x41, 0xD83D, 0xDEA2, 0x42], &[0x41, 0x1_F6A2, 0x42], 0),
    (&[0xFFFD, 0xD83D, 0xFFFD, 0xDEA2], &[0xFFFD, 0xFFFD, 0xFFFD, 0xFFFD], 2),
    (&[0xFEFF, 0xAC01], &[0xFEFF, 0xAC01], 0),
    (&[0xFFFE, 0xFFFF, 0x0000], &[0xFFFE, 0xFFFF, 0x0000], 0),
    (&[0xD7FF, 0xE000], &[0xD7FF, 0xE000], 0),
    (&[0xDBFF, 0xE000, 0xD7FF, 0xDC00], &[0xFFFD, 0xE000, 0xD7FF, 0xFFFD], 2),
    (&[0x1100, 0xD800, 0x1161, 0xDC00, 0x11A8], &[0x1100, 0xFFFD, 0x1161, 0xFFFD, 0x11A8], 2),
];

/// Characters of one unit and of two, with FEFF and a true FFFD among them.
pub const MIXED_TEXT: [u32; 14] = [
    0x41, 0x80, 0x7FF, 0x1100, 0xAC01, 0xD7FF, 0xE000, 0xFEFF, 0xFFFD, 0x1_0000, 0x1_F6A2,
    0x4_F123, 0x10_FFFF, 0x7A,
];

/// Each of these, over and over, is a long text: one and two units to a character, and unpaired
/// surrogates.
pub const REPEATED: [&[u16]; 7] = [
    &[0x41],
    &[0xAC01],
    &[0xD83D, 0xDEA2],
    &[0xD83D],
    &[0xDEA2],
    &[0xFFFD],
    &[0x1100, 0xD800, 0x20, 0xDC00, 0xD800, 0xDC00],
];

/// What is put at each place of a text.
pub const PLACED: [&[u16]; 6] = [
    &[0xAC01],
    &[0xD83D, 0xDEA2],
    &[0xD83D],
    &[0xDEA2],
    &[0xDEA2, 0xD83D],
    &[0xFFFD],
];

/// Each unit alone.
pub fn single_units() -> Vec<Vec<u16>> {
    (0..=0xFFFF).map(|unit| vec![unit]).collect()
}

/// All pairs of boundary units.
pub fn boundary_pairs() -> Vec<Vec<u16>> {
    sequences(&BOUNDARY_UNITS.map(|unit| [unit]), 2)
}

/// All sequences of three mean units.
pub fn triples() -> Vec<Vec<u16>> {
    sequences(&MEAN_UNITS.map(|unit| [unit]), 3)
}

/// All sequences of four of the meanest.
pub fn quadruples() -> Vec<Vec<u16>> {
    sequences(&MEANEST_UNITS.map(|unit| [unit]), 4)
}

/// Each unit after a high surrogate, and before a low one: 1,024 of each are pairs.
pub fn beside_surrogates() -> Vec<Vec<u16>> {
    let units = 0..=0xFFFF;
    units
        .flat_map(|unit| [vec![0xDBFF, unit], vec![unit, 0xDC00]])
        .collect()
}

/// Each scalar value as UTF-16: every pair of surrogates is among them.
pub fn every_written() -> Vec<Vec<u16>> {
    let values = texts::scalar_values();
    values.into_iter().map(written_code).collect()
}

/// Characters that a program may be tempted to treat in a way of its own, in front, within and at
/// the end; none of them is ill-formed.
pub fn tempting_texts() -> Vec<Vec<u16>> {
    let codes = texts::TEMPTING_CODES.iter();
    codes
        .map(|&code| written(&[code, 0xAC01, code, code]))
        .collect()
}

pub fn surrogate(random: &mut Random) -> u16 {
    random.between(0xD800, 0xDFFF) as u16
}

/// A pair, its halves in the right order or the wrong one.
fn pair(random: &mut Random) -> Vec<u16> {
    let mut pair = written_code(random.between(0x1_0000, 0x10_FFFF));
    if random.one_in(3) {
        pair.reverse();
    }
    pair
}

/// A few units, well-formed or nearly so.
pub fn piece(random: &mut Random) -> Vec<u16> {
    match random.below(8) {
        0 => vec![random.pick(&BOUNDARY_UNITS)],
        1 => vec![surrogate(random)],
        2 | 3 => pair(random),
        4 => written_code(random.pick(&[0xFFFD, 0xFEFF, 0xD7FF, 0xE000, 0x10_FFFF, 0x1_0000])),
        5 => written_code(random.between(0x20, 0x7E)),
        _ => written_code(texts::good_code(random)),
    }
}

/// The units of a good text, in which then a few are changed, lost or put in.
pub fn damaged(random: &mut Random, good: TextMaker, length: usize) -> Vec<u16> {
    let units = written(&good(random, length));
    with_damaged_units(random, units, &BOUNDARY_UNITS)
}

/// Units of the given length, of one of several styles. Well-formed ones are cut to it, so that
/// they may end within a pair.
pub fn units(random: &mut Random, length: usize) -> Vec<u16> {
    let mut units = match random.below(8) {
        0 => (0..length).map(|_| random.pick(&BOUNDARY_UNITS)).collect(),
        1 => (0..length).map(|_| random.number() as u16).collect(),
        2 => (0..length).map(|_| surrogate(random)).collect(),
        3 => written(&texts::good_text(random, length)),
        4 | 5 => damaged(random, texts::good_text, length),
        _ => Vec::with_capacity(length + 2),
    };
    while units.len() < length {
        units.extend(piece(random));
    }
    units.truncate(length);
    units
}
