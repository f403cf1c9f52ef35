// Mean bytes for mending: spelled syllables, letters that only nearly join, bytes that stray in.
// It makes no whole calls and decides no answers.

use crate::byte_texts::{self, with};
use crate::letters::{full_parts, one_step, sort_of, Sort};
use crate::random::Random;
use crate::texts;
use crate::utf8::{written, written_code};

/// Bytes, what they are mended to, and how many ill-formed subparts they have.
pub type Example = (&'static [u8], &'static [u8], u32);

/// The Standard's composition of Hangul in UTF-8, the rules' cases 4 to 7 and 12 as bytes, the
/// errors that they name, and what has to pass through.
#[rustfmt::skip]
pub const EXAMPLES: [Example; 24] = [
    (&[0xE1, 0x84, 0x80, 0xE1, 0x85, 0xA1, 0xE1, 0x86, 0xA8], &[0xEA, 0xB0, 0x81], 0),
    (&[0xEA, 0xB0, 0x80, 0xE1, 0x86, 0xA8], &[0xEA, 0xB0, 0x81], 0),
    (&[0xEA, 0xB0, 0x80, 0x80, 0xE1, 0x86, 0xA8],
     &[0xEA, 0xB0, 0x80, 0xEF, 0xBF, 0xBD, 0xE1, 0x86, 0xA8], 1),
    (&[0xE1, 0x84, 0x92, 0xE1, 0x85, 0xA1, 0xE1, 0x86, 0xAB,
       0xE1, 0x84, 0x80, 0xE1, 0x85, 0xB3, 0xE1, 0x86, 0xAF],
     &[0xED, 0x95, 0x9C, 0xEA, 0xB8, 0x80], 0),
    (&[0xE1, 0x84, 0x91, 0xE1, 0x85, 0xB1, 0xE1, 0x86, 0xB6], &[0xED, 0x93, 0x9B], 0),
    (&[0xE1, 0x84, 0x92, 0xE1, 0x85, 0xB5, 0xE1, 0x87, 0x82], &[0xED, 0x9E, 0xA3], 0),
    (&[0xED, 0x9E, 0x88, 0xE1, 0x87, 0x82], &[0xED, 0x9E, 0xA3], 0),
    (&[0xED, 0x9E, 0xA3, 0xE1, 0x87, 0x82], &[0xED, 0x9E, 0xA3, 0xE1, 0x87, 0x82], 0),
    (&[0xE1, 0x84, 0x80, 0xE1, 0x85, 0xA1, 0xE1, 0x86, 0xA7],
     &[0xEA, 0xB0, 0x80, 0xE1, 0x86, 0xA7], 0),
    (&[0xE1, 0x84, 0x80, 0xE1, 0x85, 0xA1, 0xE1, 0x87, 0x83],
     &[0xEA, 0xB0, 0x80, 0xE1, 0x87, 0x83], 0),
    (&[0xEA, 0xB0, 0x81, 0xE1, 0x86, 0xA8], &[0xEA, 0xB0, 0x81, 0xE1, 0x86, 0xA8], 0),
    (&[0xE1, 0x84, 0x80, 0xE1, 0x84, 0x80, 0xE1, 0x85, 0xA1],
     &[0xE1, 0x84, 0x80, 0xEA, 0xB0, 0x80], 0),
    (&[0xE1, 0x84, 0x80, 0xE1, 0x20, 0xA1, 0xE1, 0x86, 0xA8],
     &[0xE1, 0x84, 0x80, 0xEF, 0xBF, 0xBD, 0x20, 0xEF, 0xBF, 0xBD, 0xE1, 0x86, 0xA8], 2),
    (&[0xE1, 0x84, 0xE1, 0x85, 0xA1], &[0xEF, 0xBF, 0xBD, 0xE1, 0x85, 0xA1], 1),
    (&[0xE1, 0x84, 0x80, 0xE1, 0x85], &[0xE1, 0x84, 0x80, 0xEF, 0xBF, 0xBD], 1),
    (&[0xE1, 0x84, 0x80, 0xE1, 0x85, 0xA1, 0xE1, 0x86], &[0xEA, 0xB0, 0x80, 0xEF, 0xBF, 0xBD], 1),
    (&[0xEF, 0xBF, 0xBD, 0xE1, 0x84, 0x80, 0xE1, 0x85, 0xA1],
     &[0xEF, 0xBF, 0xBD, 0xEA, 0xB0, 0x80], 0),
    (&[0xE1, 0x84, 0x80, 0xEF, 0xBF, 0xBD, 0xE1, 0x85, 0xA1],
     &[0xE1, 0x84, 0x80, 0xEF, 0xBF, 0xBD, 0xE1, 0x85, 0xA1], 0),
    (&[0xE1, 0x84, 0x80, 0xE3, 0x80, 0xAE, 0xE1, 0x85, 0xA1],
     &[0xE1, 0x84, 0x80, 0xE3, 0x80, 0xAE, 0xE1, 0x85, 0xA1], 0),
    (&[0xE1, 0x84, 0x93, 0xE1, 0x85, 0xA1], &[0xE1, 0x84, 0x93, 0xE1, 0x85, 0xA1], 0),
    (&[0xF0, 0x91, 0x84, 0x80, 0xE1, 0x85, 0xA1], &[0xF0, 0x91, 0x84, 0x80, 0xE1, 0x85, 0xA1], 0),
    (&[0xEF, 0xBB, 0xBF, 0xE1, 0x84, 0x80, 0xE1, 0x85, 0xA1],
     &[0xEF, 0xBB, 0xBF, 0xEA, 0xB0, 0x80], 0),
    (&[0x65, 0xCC, 0x81, 0xC3, 0xA9], &[0x65, 0xCC, 0x81, 0xC3, 0xA9], 0),
    (&[0x80], &[0xEF, 0xBF, 0xBD], 1),
];

/// ASCII, syllables, letters, old letters, a mark, a character of four bytes and a true FFFD; much
/// in it joins, and much only nearly.
pub const HANGUL_TEXT: [u32; 21] = [
    0x41, 0x1100, 0x1161, 0x11A8, 0xAC00, 0x11A8, 0xAC01, 0x11A8, 0x1113, 0x1161, 0x1_F6A2, 0xFFFD,
    0x1112, 0x1175, 0x302E, 0xD788, 0x11C3, 0x42, 0x43, 0xC5B4, 0x1176,
];

/// Letters and syllables at the ends of their ranges and next to them, marks, and cut sequences;
/// some of these are a letter with the next one.
pub const PIECES: [&[u8]; 20] = [
    &[0xE1, 0x84, 0x80],
    &[0xE1, 0x84, 0x92],
    &[0xE1, 0x84, 0x93],
    &[0xE1, 0x85, 0xA1],
    &[0xE1, 0x85, 0xB5],
    &[0xE1, 0x86, 0xA7],
    &[0xE1, 0x86, 0xA8],
    &[0xE1, 0x87, 0x82],
    &[0xE1, 0x87, 0x83],
    &[0xEA, 0xB0, 0x80],
    &[0xEA, 0xB0, 0x81],
    &[0xED, 0x9E, 0x88],
    &[0xE1],
    &[0xE1, 0x84],
    &[0xEA, 0xB0],
    &[0x80],
    &[0x41],
    &[0xE3, 0x80, 0xAE],
    &[0xEF, 0xBF, 0xBD],
    &[0xF0, 0x9F, 0x9A, 0xA2],
];

/// The bytes of the ends of the letters' and the syllables' ranges, and those next to them.
const LETTER_BYTES: [u8; 24] = [
    0x41, 0x7F, 0x80, 0x81, 0x82, 0x83, 0x84, 0x85, 0x86, 0x87, 0x88, 0x92, 0x93, 0x9E, 0xA0, 0xA1,
    0xA7, 0xA8, 0xB0, 0xB5, 0xBF, 0xE1, 0xEA, 0xED,
];

/// What stands beside runs of ASCII and of syllables: whole, spelled, nearly spelled, cut.
pub const PLACED: [&[u8]; 8] = [
    &[0xE1, 0x84, 0x80, 0xE1, 0x85, 0xA1, 0xE1, 0x86, 0xA8],
    &[0xE1, 0x84, 0x80, 0xE1, 0x85, 0xA1],
    &[0xEA, 0xB0, 0x80, 0xE1, 0x86, 0xA8],
    &[0xEA, 0xB0, 0x80],
    &[0xE1, 0x86, 0xA8],
    &[0xEA, 0xB0, 0x80, 0xE1, 0xB8, 0x80],
    &[0xEA, 0xB0, 0x80, 0x80, 0xE1, 0x86, 0xA8],
    &[0xE1, 0x84, 0x80, 0xE1, 0x85],
];

/// Each of these, over and over, is a long text; the lone byte alone needs three for one.
pub const REPEATED: [&[u8]; 11] = [
    &[0x80],
    &[0x41],
    &[0xEA, 0xB0, 0x81],
    &[0xE1, 0x84, 0x92, 0xE1, 0x85, 0xB5, 0xE1, 0x87, 0x82],
    &[0xE1, 0x84, 0x80, 0xE1, 0x85, 0xA1],
    &[0xED, 0x9E, 0x88, 0xE1, 0x87, 0x82],
    &[0xE1, 0x84, 0x80],
    &[0xE1, 0x80],
    &[0xEF, 0xBF, 0xBD],
    &[0xF0, 0x9F, 0x9A, 0xA2],
    &[0xEA, 0xB0, 0x80, 0x80, 0xE1, 0x86, 0xA8, 0x41, 0x42],
];

/// Bytes that stray in between letters: continuations, leads, and what stands in no sequence.
const STRAYS: [u8; 12] = [
    0x80, 0x84, 0xA1, 0xBF, 0xC0, 0xC2, 0xE1, 0xEA, 0xED, 0xF0, 0xF5, 0xFF,
];

fn syllables() -> std::ops::RangeInclusive<u32> {
    0xAC00..=0xD7A3
}

/// Every syllable as it is.
pub fn finished() -> Vec<Vec<u8>> {
    syllables().map(written_code).collect()
}

/// Every syllable as its two or three letters.
pub fn spelled() -> Vec<Vec<u8>> {
    let letters = syllables().map(full_parts);
    letters.map(|letters| written(&letters)).collect()
}

/// Every LVT as an LV and a final.
pub fn with_finals() -> Vec<Vec<u8>> {
    let closed = syllables().filter(|&code| sort_of(code) == Sort::Lvt);
    closed.map(|code| written(&one_step(code))).collect()
}

/// The pieces, each with one stray byte at each end of a character but the outer ones. All their
/// characters have three bytes.
fn strayed_into(pieces: &[Vec<u8>]) -> Vec<Vec<u8>> {
    let mut strayed = Vec::new();
    for (index, piece) in pieces.iter().enumerate() {
        let stray = STRAYS[index % STRAYS.len()];
        let places = (3..piece.len()).step_by(3);
        strayed.extend(places.map(|place| with(piece, place..place, &[stray])));
    }
    strayed
}

/// Every syllable as letters, and as an LV and a final, with a stray byte between them.
pub fn strayed() -> Vec<Vec<u8>> {
    let mut strayed = strayed_into(&spelled());
    strayed.extend(strayed_into(&with_finals()));
    strayed
}

/// Each piece between an initial and a peak, and between an LV and a final: these join with it if
/// it is itself a letter or a syllable, and never across it.
pub fn between_letters(pieces: &[Vec<u8>]) -> Vec<Vec<u8>> {
    let (initial, peak) = (written_code(0x1100), written_code(0x1161));
    let (lv, last) = (written_code(0xAC00), written_code(0x11A8));
    let pieces = pieces.iter();
    pieces
        .map(|piece| [&initial, piece, &peak, &lv, piece, &last[..]].concat())
        .collect()
}

/// The scalar values up to 1FFFF, among them those that are letters or syllables when a bit is
/// lost.
pub fn lower_scalar_values() -> Vec<Vec<u8>> {
    let values = texts::scalar_values().into_iter();
    let values = values.take_while(|&code| code <= 0x1_FFFF);
    values.map(written_code).collect()
}

/// E1 with any two bytes: every letter, every other character that it leads, and every way of
/// being none.
pub fn led_by_e1() -> Vec<Vec<u8>> {
    let pairs = byte_texts::byte_pairs().into_iter();
    pairs.map(|pair| vec![0xE1, pair[0], pair[1]]).collect()
}

/// LV and their neighbours before each code of the letters' block, and every syllable before the
/// ends of the finals and what is next to them.
pub fn followed_by_letters() -> Vec<Vec<u8>> {
    let mut pieces = Vec::new();
    for code in texts::row_neighbours() {
        pieces.extend((0x1100..=0x11FF).map(|letter| written(&[code, letter])));
    }
    for code in syllables() {
        let letters = [0x11A7, 0x11A8, 0x11BF, 0x11C0, 0x11C2, 0x11C3];
        pieces.extend(letters.map(|letter| written(&[code, letter])));
    }
    pieces
}

/// All sequences of four bytes of letters.
pub fn letter_byte_sequences() -> Vec<Vec<u8>> {
    byte_texts::sequences(&LETTER_BYTES.map(|byte| [byte]), 4)
}

/// The text with each byte changed to every other.
pub fn with_each_byte(text: &[u32]) -> Vec<Vec<u8>> {
    let bytes = written(text);
    let mut texts = Vec::new();
    for (place, &own) in bytes.iter().enumerate() {
        let others = (0..=0xFF).filter(|&other| other != own);
        texts.extend(others.map(|other| with(&bytes, place..place + 1, &[other])));
    }
    texts
}

/// ASCII whose bytes differ, so that one that is lost, doubled or moved shows.
fn ascii_run(count: usize) -> Vec<u8> {
    (0x30..0x7F).take(count).collect()
}

/// Syllables that differ; the last is an LV, which a final after them joins.
fn syllable_run(count: u32) -> Vec<u8> {
    let codes: Vec<u32> = (0..count).rev().map(|index| 0xAC00 + 587 * index).collect();
    written(&codes)
}

/// Each piece, twice, after and before runs of ASCII of all lengths up to a few blocks of eight,
/// at every alignment to a block of sixteen.
pub fn beside_ascii() -> Vec<Vec<u8>> {
    let mut texts = Vec::new();
    for piece in PLACED {
        for before in 0..16 {
            let front = [&ascii_run(before), piece].concat();
            texts.extend((0..=33).map(|run| [&front, &ascii_run(run), piece].concat()));
        }
    }
    texts
}

/// The same with runs of syllables, after a few bytes of ASCII.
pub fn beside_syllables() -> Vec<Vec<u8>> {
    let mut texts = Vec::new();
    for piece in PLACED {
        for before in 0..8 {
            for run in 0..=12 {
                let (front, run) = (ascii_run(before), syllable_run(run));
                texts.push([&front, &run, piece, &run, piece].concat());
            }
        }
    }
    texts
}

/// A few bytes of a mixture: runs, strays, pieces of letters and of all else.
fn mixture(random: &mut Random) -> Vec<u8> {
    match random.below(8) {
        0 => ascii_run(random.below(35)),
        1 => vec![random.pick(&STRAYS)],
        2 => byte_texts::piece(random),
        3 => syllable_run(random.between(0, 5)),
        4 => random.pick(&PIECES).to_vec(),
        count => written(&texts::joining_text(random, count - 4)),
    }
}

/// A text of the given number of bytes, in which much joins, with nothing ill-formed: where a
/// character would be cut, ASCII stands.
fn well_formed(random: &mut Random, length: usize) -> Vec<u8> {
    let mut bytes = Vec::with_capacity(length);
    for code in texts::joining_text(random, length) {
        let character = written_code(code);
        if bytes.len() + character.len() > length {
            break;
        }
        bytes.extend(character);
    }
    bytes.extend(ascii_run(length - bytes.len()));
    bytes
}

/// Bytes of the given length, of one of several styles: of any sort, texts in which much joins,
/// whole and damaged, and mixtures. Most are cut to it and may end within a sequence.
pub fn bytes(random: &mut Random, length: usize) -> Vec<u8> {
    let mut bytes = match random.below(6) {
        0 => byte_texts::bytes(random, length),
        1 | 2 => well_formed(random, length),
        3 => byte_texts::damaged(random, texts::joining_text, length / 3 + 1),
        _ => Vec::with_capacity(length + 34),
    };
    while bytes.len() < length {
        bytes.extend(mixture(random));
    }
    bytes.truncate(length);
    bytes
}
