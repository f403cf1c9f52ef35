// Mean units for mending UTF-16: spelled syllables, letters that only nearly join, runs of units.
// It makes no whole calls and decides no answers.

use crate::byte_texts::with;
use crate::letters::{full_parts, one_step, sort_of, Sort};
use crate::random::Random;
use crate::texts;
use crate::unit_texts::{self, BOUNDARY_UNITS};
use crate::utf16::{written, written_code};

/// Units, what they are mended to, and how many unpaired surrogates they have.
pub type Example = (&'static [u16], &'static [u16], u32);

/// The Standard's composition of Hangul, the rules' cases 4 to 7 as units, surrogates between
/// letters, and what has to pass through.
#[rustfmt::skip]
pub const EXAMPLES: [Example; 24] = [
    (&[0x1100, 0x1161, 0x11A8], &[0xAC01], 0),
    (&[0xAC00, 0x11A8], &[0xAC01], 0),
    (&[0xAC00, 0xDC00, 0x11A8], &[0xAC00, 0xFFFD, 0x11A8], 1),
    (&[0x1112, 0x1161, 0x11AB, 0x1100, 0x1173, 0x11AF], &[0xD55C, 0xAE00], 0),
    (&[0x1111, 0x1171, 0x11B6], &[0xD4DB], 0),
    (&[0x1112, 0x1175, 0x11C2], &[0xD7A3], 0),
    (&[0xD788, 0x11C2], &[0xD7A3], 0),
    (&[0xD7A3, 0x11C2], &[0xD7A3, 0x11C2], 0),
    (&[0x1100, 0x1161, 0x11A7], &[0xAC00, 0x11A7], 0),
    (&[0x1100, 0x1161, 0x11C3], &[0xAC00, 0x11C3], 0),
    (&[0xAC01, 0x11A8], &[0xAC01, 0x11A8], 0),
    (&[0x1100, 0x1100, 0x1161], &[0x1100, 0xAC00], 0),
    (&[0x1113, 0x1161], &[0x1113, 0x1161], 0),
    (&[0x1100, 0xD800], &[0x1100, 0xFFFD], 1),
    (&[0xD800, 0x1100, 0x1161], &[0xFFFD, 0xAC00], 1),
    (&[0x1100, 0xD83D, 0xDEA2, 0x1161], &[0x1100, 0xD83D, 0xDEA2, 0x1161], 0),
    (&[0xD83D, 0xDEA2, 0xAC00, 0x11A8, 0xD83D], &[0xD83D, 0xDEA2, 0xAC01, 0xFFFD], 1),
    (&[0xD804, 0xDD00, 0x1161], &[0xD804, 0xDD00, 0x1161], 0),
    (&[0xFFFD, 0x1100, 0x1161], &[0xFFFD, 0xAC00], 0),
    (&[0x1100, 0xFFFD, 0x1161], &[0x1100, 0xFFFD, 0x1161], 0),
    (&[0x1100, 0x302E, 0x1161], &[0x1100, 0x302E, 0x1161], 0),
    (&[0xFEFF, 0x1100, 0x1161], &[0xFEFF, 0xAC00], 0),
    (&[0x41, 0x42, 0x43, 0x44, 0xAC00, 0x11A8], &[0x41, 0x42, 0x43, 0x44, 0xAC01], 0),
    (&[0x65, 0x301, 0xE9], &[0x65, 0x301, 0xE9], 0),
];

/// What stands beside runs of units: whole, spelled, nearly spelled, parted, paired and not.
pub const PLACED: [&[u16]; 14] = [
    &[0x1100, 0x1161, 0x11A8],
    &[0x1100, 0x1161],
    &[0xAC00, 0x11A8],
    &[0xAC01, 0x11A8],
    &[0xAC00],
    &[0x1100],
    &[0x1161],
    &[0x11A8],
    &[0x1113, 0x1161],
    &[0xD83D, 0xDEA2],
    &[0xD83D],
    &[0xDEA2, 0x11A8],
    &[0xAC00, 0xD800, 0x11A8],
    &[0xFFFD, 0x1161],
];

/// Each of these, over and over, is a long text.
pub const REPEATED: [&[u16]; 11] = [
    &[0xD800],
    &[0x41],
    &[0xAC01],
    &[0x1112, 0x1175, 0x11C2],
    &[0x1100, 0x1161],
    &[0xD788, 0x11C2],
    &[0x1100],
    &[0xFFFD],
    &[0xD83D, 0xDEA2],
    &[0xDC00, 0xD800],
    &[0xAC00, 0xDC00, 0x11A8, 0x41, 0x42, 0x43, 0x44, 0x45],
];

fn syllables() -> std::ops::RangeInclusive<u32> {
    0xAC00..=0xD7A3
}

/// Every syllable as it is.
pub fn finished() -> Vec<Vec<u16>> {
    syllables().map(written_code).collect()
}

/// Every syllable as its two or three letters.
pub fn spelled() -> Vec<Vec<u16>> {
    let letters = syllables().map(full_parts);
    letters.map(|letters| written(&letters)).collect()
}

/// Every LVT as an LV and a final.
pub fn with_finals() -> Vec<Vec<u16>> {
    let closed = syllables().filter(|&code| sort_of(code) == Sort::Lvt);
    closed.map(|code| written(&one_step(code))).collect()
}

/// The pieces, each with one unpaired surrogate at each place but the outer ones.
fn strayed_into(pieces: &[Vec<u16>]) -> Vec<Vec<u16>> {
    let strays = [0xD800, 0xDC00, 0xDBFF, 0xDFFF];
    let mut strayed = Vec::new();
    for (index, piece) in pieces.iter().enumerate() {
        let stray = strays[index % strays.len()];
        strayed.extend((1..piece.len()).map(|place| with(piece, place..place, &[stray])));
    }
    strayed
}

/// Every syllable as letters, and as an LV and a final, with a surrogate between them.
pub fn strayed() -> Vec<Vec<u16>> {
    let mut strayed = strayed_into(&spelled());
    strayed.extend(strayed_into(&with_finals()));
    strayed
}

/// Each piece between an initial and a peak, and between an LV and a final: these join with it if
/// it is itself a letter or a syllable, and never across it.
pub fn between_letters(pieces: &[Vec<u16>]) -> Vec<Vec<u16>> {
    let pieces = pieces.iter();
    pieces
        .map(|piece| [&[0x1100], &piece[..], &[0x1161, 0xAC00], piece, &[0x11A8]].concat())
        .collect()
}

/// LV and their neighbours before each unit of the letters' block, and every syllable before the
/// ends of the finals and what is next to them.
pub fn followed_by_letters() -> Vec<Vec<u16>> {
    let mut pieces = Vec::new();
    for code in texts::row_neighbours() {
        pieces.extend((0x1100..=0x11FF).map(|letter| written(&[code, letter])));
    }
    for code in syllables() {
        let letters = [0x11A7, 0x11A8, 0x11BF, 0x11C0, 0x11C2, 0x11C3];
        pieces.extend(letters.map(|letter| written(&[code, letter])));
    }
    pieces
}

/// The scalar values of planes 1 and 16, among them those that are letters or syllables when a bit
/// is lost.
pub fn paired_values() -> Vec<Vec<u16>> {
    let values = (0x1_0000..=0x1_FFFF).chain(0x10_0000..=0x10_FFFF);
    values.map(written_code).collect()
}

/// ASCII whose units differ, so that one that is lost, doubled or moved shows.
fn plain_run(count: usize) -> Vec<u16> {
    (0x30..0x7F).take(count).collect()
}

/// Syllables that differ; the last is an LV, which a final after them joins.
fn syllable_run(count: usize) -> Vec<u16> {
    let indices = (0..count as u16).rev();
    indices.map(|index| 0xAC00 + 587 * index).collect()
}

/// Pairs that differ.
fn pair_run(count: usize) -> Vec<u16> {
    let codes: Vec<u32> = (0x1_F6A2..).take(count).collect();
    written(&codes)
}

/// Each piece, twice, after and before runs of one sort of all lengths up to a few blocks of four.
fn beside(run: fn(usize) -> Vec<u16>) -> Vec<Vec<u16>> {
    let mut texts = Vec::new();
    for piece in PLACED {
        for before in 0..=20 {
            let front = [&run(before), piece].concat();
            texts.extend((0..=20).map(|after| [&front, &run(after)[..], piece].concat()));
        }
    }
    texts
}

pub fn beside_plain() -> Vec<Vec<u16>> {
    beside(plain_run)
}

/// The same with runs of syllables and of pairs.
pub fn beside_others() -> Vec<Vec<u16>> {
    let mut texts = beside(syllable_run);
    texts.extend(beside(pair_run));
    texts
}

/// A boundary unit at each place of a run of twelve, which ends with nothing or before a letter: a
/// program that takes four at a time must see it at each place of the four.
pub fn within_plain() -> Vec<Vec<u16>> {
    let mut texts = Vec::new();
    for unit in BOUNDARY_UNITS {
        for place in 0..12 {
            let run = with(&plain_run(12), place..place + 1, &[unit]);
            texts.push(run.clone());
            texts.extend([0x1161, 0x11A8].map(|letter| [&run[..], &[letter]].concat()));
        }
    }
    texts
}

/// A few units of a mixture: runs, surrogates, letters and all else.
fn mixture(random: &mut Random) -> Vec<u16> {
    match random.below(9) {
        0 => plain_run(random.below(25)),
        1 => vec![unit_texts::surrogate(random)],
        2 => unit_texts::piece(random),
        3 => syllable_run(random.below(9)),
        4 => vec![random.pick(&BOUNDARY_UNITS)],
        5 => random.pick(&PLACED).to_vec(),
        count => written(&texts::joining_text(random, count - 4)),
    }
}

/// A text of the given number of units, in which much joins, with nothing unpaired: where a pair
/// would be cut, ASCII stands.
fn well_formed(random: &mut Random, length: usize) -> Vec<u16> {
    let mut units = Vec::with_capacity(length);
    for code in texts::joining_text(random, length) {
        let character = written_code(code);
        if units.len() + character.len() > length {
            break;
        }
        units.extend(character);
    }
    units.extend(plain_run(length - units.len()));
    units
}

/// Units of the given length, of one of several styles: of any sort, texts in which much joins,
/// whole and damaged, and mixtures. Most are cut to it and may end within a pair.
pub fn units(random: &mut Random, length: usize) -> Vec<u16> {
    let mut units = match random.below(6) {
        0 => unit_texts::units(random, length),
        1 | 2 => well_formed(random, length),
        3 => unit_texts::damaged(random, texts::joining_text, length),
        _ => Vec::with_capacity(length + 25),
    };
    while units.len() < length {
        units.extend(mixture(random));
    }
    units.truncate(length);
    units
}
