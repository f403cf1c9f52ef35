// Mean code points, texts and rooms, from which the cases of every kind that takes text are made.
// It makes no whole calls and decides no answers.

use crate::letters::{is_bad, ADDED_RANGES, LIMIT};
use crate::random::Random;
use crate::simple::{EXTENDED, TABLE};
use crate::wire::{MOST_ELEMENTS, MOST_ROOM};

/// First and last code of each range in the rules, and of the blocks that look like them:
/// tone marks, compatibility letters and the half-width letters.
const RANGE_ENDS: [u32; 46] = [
    0x0000, 0x0030, 0x0039, 0x0041, 0x007F, 0x0080, 0x07FF, 0x0800, 0x1100, 0x1112, 0x1113, 0x1159,
    0x115A, 0x115E, 0x115F, 0x1160, 0x1161, 0x1175, 0x1176, 0x11A2, 0x11A3, 0x11A7, 0x11A8, 0x11C2,
    0x11C3, 0x11F9, 0x11FA, 0x11FF, 0x302E, 0x302F, 0x3131, 0x314E, 0x314F, 0x3163, 0x3164, 0xA960,
    0xA97C, 0xAC00, 0xD7A3, 0xD7B0, 0xD7C6, 0xD7CB, 0xD7FB, 0xFFA0, 0xFFFD, 0xFFFF,
];

/// Where the scalar values begin and end, and numbers with the top bits set.
const NUMBER_ENDS: [u32; 10] = [
    0xD7FF,
    0xD800,
    0xDBFF,
    0xDC00,
    0xDFFF,
    0xE000,
    0x10000,
    0x10FFFF,
    0x7FFF_FFFF,
    0xFFFF_FFFE,
];

/// Added to a range end, these give numbers that are it again when cut to 8, 16, 20 or 31 bits.
const LOOK_ALIKES: [u32; 6] = [
    0x100,
    0x1_0000,
    0x10_0000,
    0x11_0000,
    0x8000_0000,
    0xFFFF_0000,
];

/// Ranges from which the good code points of texts are drawn; Hangul stands in most of them.
const GOOD_RANGES: [(u32, u32); 18] = [
    (0x1100, 0x1112),
    (0x1113, 0x1159),
    (0x115A, 0x1160),
    (0x1161, 0x1175),
    (0x1176, 0x11A2),
    (0x11A3, 0x11A7),
    (0x11A8, 0x11C2),
    (0x11C3, 0x11F9),
    (0x11FA, 0x11FF),
    (0xAC00, 0xD7A3),
    (0x0020, 0x007E),
    (0x3131, 0x3164),
    (0x302E, 0x302F),
    (0xA960, 0xA97F),
    (0xD7B0, 0xD7CA),
    (0xD7CB, 0xD7FF),
    (0xE000, 0xFFFF),
    (0x10000, 0x10FFFF),
];

/// Each boundary with the two codes on either side, bad ones included, in rising order.
pub fn boundary_codes() -> Vec<u32> {
    let mut codes = Vec::new();
    for end in RANGE_ENDS.into_iter().chain(NUMBER_ENDS) {
        for distance in 0..=2 {
            codes.push(end.saturating_add(distance));
            codes.push(end.saturating_sub(distance));
        }
    }
    codes.extend(syllable_boundaries());
    codes.sort_unstable();
    codes.dedup();
    codes
}

/// Around the first rows of 28 and of 588, where a wrong divisor shows.
fn syllable_boundaries() -> Vec<u32> {
    let mut codes = Vec::new();
    for row in [28, 588, 588 * 2, 588 * 18, 588 * 18 + 28 * 20] {
        for code in [0xAC00 + row - 1, 0xAC00 + row, 0xAC00 + row + 1] {
            codes.push(code);
        }
    }
    codes
}

/// Every LV, with the syllable before it and after it.
pub fn row_neighbours() -> Vec<u32> {
    let rows = (0xAC00..=0xD7A3).step_by(28);
    rows.flat_map(|code| [code - 1, code, code + 1]).collect()
}

/// Numbers that become a boundary when bits are lost; some are good and some bad.
pub fn look_alike_codes() -> Vec<u32> {
    let mut codes = Vec::new();
    for end in RANGE_ENDS {
        for distance in LOOK_ALIKES {
            codes.push(end.wrapping_add(distance));
        }
        codes.push(end.swap_bytes());
    }
    codes
}

/// Good code points that a program may be tempted to treat in a way of its own: controls, the ends
/// of lines, the byte order mark, the replacement character and noncharacters.
pub const TEMPTING_CODES: [u32; 13] = [
    0x00, 0x0A, 0x0D, 0x1A, 0x85, 0x2028, 0xFDD0, 0xFEFF, 0xFFFD, 0xFFFE, 0xFFFF, 0x1_FFFE,
    0x10_FFFF,
];

/// Bad numbers for the exhaustive run: the named ones and seeded ones above 10FFFF.
pub fn numbers_beyond() -> Vec<u32> {
    let mut codes = vec![0x11_0000, 0x11_0001, 0x7FFF_FFFF, 0x8000_0000, 0xFFFF_FFFF];
    codes.extend(
        look_alike_codes()
            .into_iter()
            .filter(|&code| code > 0x10_FFFF),
    );
    let mut random = Random::new(0x110000);
    for _ in 0..400 {
        codes.push(random.between(0x11_0000, 0xFFFF_FFFF));
        codes.push(random.between(0x11_0000, 0x20_0000));
    }
    codes
}

pub fn scalar_values() -> Vec<u32> {
    (0..=0xD7FF).chain(0xE000..=0x10_FFFF).collect()
}

pub fn good_code(random: &mut Random) -> u32 {
    let (first, last) = random.pick(&GOOD_RANGES);
    random.between(first, last)
}

pub fn bad_code(random: &mut Random) -> u32 {
    match random.below(4) {
        0 => random.pick(&[
            0xD800,
            0xDBFF,
            0xDC00,
            0xDFFF,
            0x11_0000,
            0x8000_AC00,
            0xFFFF_FFFF,
        ]),
        1 => random.between(0xD800, 0xDFFF),
        2 => random.between(0x11_0000, 0x12_0000),
        _ => random.between(0x11_0000, 0xFFFF_FFFF),
    }
}

/// Any number, good or bad, with the boundaries often.
pub fn any_code(random: &mut Random) -> u32 {
    match random.below(8) {
        0 => random
            .pick(&RANGE_ENDS)
            .wrapping_add(random.between(0, 4))
            .wrapping_sub(2),
        1 => random
            .pick(&NUMBER_ENDS)
            .wrapping_add(random.between(0, 4))
            .wrapping_sub(2),
        2 => bad_code(random),
        3 => random.between(0xAC00, 0xD7A3),
        4 => letter(random),
        5 => random.between(0, 0x10_FFFF),
        _ => good_code(random),
    }
}

fn good_boundary(random: &mut Random) -> u32 {
    loop {
        let code = random
            .pick(&RANGE_ENDS)
            .saturating_add(random.between(0, 4))
            .saturating_sub(2);
        if !is_bad(code) {
            return code;
        }
    }
}

/// A code of the letters' block, or in one of four a letter of the later blocks.
fn letter(random: &mut Random) -> u32 {
    let (first, last) = match random.one_in(4) {
        true => random.pick(&EXTENDED),
        false => TABLE,
    };
    random.between(first, last)
}

fn syllable(random: &mut Random) -> u32 {
    random.between(0xAC00, 0xD7A3)
}

/// One code of a modern letter, initial, peak and final in turn, as spelled text has them.
fn spelled(random: &mut Random, index: usize) -> u32 {
    match index % 3 {
        0 => random.between(0x1100, 0x1112),
        1 => random.between(0x1161, 0x1175),
        _ => random.between(0x11A7, 0x11C3),
    }
}

/// What makes a good text of a given length.
pub type TextMaker = fn(&mut Random, usize) -> Vec<u32>;

/// A good text of the given length, of one of several styles.
pub fn good_text(random: &mut Random, length: usize) -> Vec<u32> {
    let style = random.below(8);
    let mut text = Vec::with_capacity(length);
    for index in 0..length {
        let either = random.one_in(2);
        text.push(match style {
            0 => syllable(random),
            1 => letter(random),
            2 if either => letter(random),
            2 => syllable(random),
            3 if either => random.between(0x20, 0x7E),
            3 => syllable(random),
            4 => spelled(random, index),
            5 => good_boundary(random),
            6 => random.pick(&[
                0xAC00, 0xAC01, 0xD788, 0xD7A3, 0x1100, 0x1161, 0x11A8, 0x11A7, 0xA960, 0xD7B0,
                0xD7CB,
            ]),
            _ => good_code(random),
        });
    }
    text
}

/// What parts letters that would join as neighbours: marks, joiners, spaces, fillers, and old
/// letters, 11A7 among them.
const PARTING: [u32; 16] = [
    0x302E, 0x302F, 0x0300, 0x200B, 0x200D, 0x0020, 0x115F, 0x1160, 0x11A7, 0x115A, 0xA960, 0xD7B0,
    0xD7CB, 0x3164, 0xFE0F, 0xFFFD,
];

/// The letters of one syllable, half of the time without a final.
fn spelled_syllable(random: &mut Random) -> Vec<u32> {
    let count = random.pick(&[2, 3]);
    let mut letters = vec![
        random.between(0x1100, 0x1112),
        random.between(0x1161, 0x1175),
        random.between(0x11A8, 0x11C2),
    ];
    letters.truncate(count);
    letters
}

fn any_lv(random: &mut Random) -> u32 {
    0xAC00 + 28 * random.between(0, 398)
}

/// Looks as if it joined, but for one letter that is old, a filler or none.
fn nearly_joining(random: &mut Random) -> Vec<u32> {
    let (initial, peak) = (
        random.between(0x1100, 0x1112),
        random.between(0x1161, 0x1175),
    );
    let added = random.pick(&ADDED_RANGES);
    let added = random.between(added.0, added.1);
    let no_initial = random.pick(&[0x10FF, 0x1113, 0x1159, 0x115F, 0xA960, added]);
    let no_peak = random.pick(&[0x1160, 0x1176, 0x11A2, 0x11A7, 0xD7B0, added]);
    let no_final = random.pick(&[0x11A7, 0x11C3, 0x11F9, 0x11A6, 0xD7CB, added]);
    match random.below(4) {
        0 => vec![no_initial, peak],
        1 => vec![initial, no_peak],
        2 => vec![initial, peak, no_final],
        _ => vec![any_lv(random), no_final],
    }
}

/// A few code points that join, or that a wrong joiner would join.
fn joining_piece(random: &mut Random) -> Vec<u32> {
    let mut letters = spelled_syllable(random);
    let last = random.between(0x11A8, 0x11C2);
    match random.below(12) {
        0..=2 => letters,
        3 => vec![any_lv(random), last],
        4 => vec![any_lv(random), last, last],
        5 => vec![syllable(random), last],
        6 => {
            // After the first initial or peak, where a joiner has something open.
            letters.insert(random.pick(&[1, 2]), random.pick(&PARTING));
            letters
        }
        7 => vec![any_lv(random), random.pick(&PARTING), last],
        8 => nearly_joining(random),
        9 => vec![letters[0]; 1 + random.below(3)],
        10 => vec![letter(random)],
        _ => vec![random.between(0x20, 0x7E)],
    }
}

/// A good text of the given length in which much joins: spelled words, or pieces of many sorts.
/// It is cut to its length, so that it may end with something open.
pub fn joining_text(random: &mut Random, length: usize) -> Vec<u32> {
    let style = random.below(4);
    if style == 0 {
        return good_text(random, length);
    }
    let mut text = Vec::with_capacity(length + 4);
    while text.len() < length {
        text.extend(match style {
            1 => spelled_syllable(random),
            _ => joining_piece(random),
        });
    }
    text.truncate(length);
    text
}

/// Where bad code points are put into a good text.
#[derive(Clone, Copy, Debug)]
pub enum Spoiling {
    First,
    Last,
    Middle,
    Several,
    All,
    AfterLimit,
}

pub const SPOILINGS: [Spoiling; 6] = [
    Spoiling::First,
    Spoiling::Last,
    Spoiling::Middle,
    Spoiling::Several,
    Spoiling::All,
    Spoiling::AfterLimit,
];

/// Puts bad code points in. An empty text stays, and AfterLimit changes only longer texts.
pub fn spoil(random: &mut Random, text: &mut [u32], spoiling: Spoiling) {
    let length = text.len();
    if length == 0 {
        return;
    }
    let places = match spoiling {
        Spoiling::First => vec![0],
        Spoiling::Last => vec![length - 1],
        Spoiling::Middle => vec![random.below(length)],
        Spoiling::Several => (0..4).map(|_| random.below(length)).collect(),
        Spoiling::All => (0..length).collect(),
        Spoiling::AfterLimit => (LIMIT..length).take(1).collect(),
    };
    for place in places {
        text[place] = bad_code(random);
    }
}

/// Most texts are short, since each length up to a few dozen shows the same errors faster.
pub fn length(random: &mut Random) -> usize {
    if random.one_in(600) {
        return random.pick(&[LIMIT - 1, LIMIT, LIMIT + 1, MOST_ELEMENTS as usize, 9_999]);
    }
    match random.below(20) {
        0 => random.below(400),
        1..=3 => random.below(64),
        4..=7 => random.below(3),
        _ => random.below(13),
    }
}

/// A text of the given sort, in one of six spoilt.
pub fn text(random: &mut Random, good: TextMaker) -> Vec<u32> {
    let count = length(random);
    let mut text = good(random, count);
    if random.one_in(6) {
        let spoiling = random.pick(&SPOILINGS);
        spoil(random, &mut text, spoiling);
    }
    text
}

/// A room for an answer of the given length that cannot be longer than most.
pub fn room(random: &mut Random, needed: usize, most: usize) -> u32 {
    if random.one_in(500) {
        return MOST_ROOM;
    }
    let room = match random.below(9) {
        0 => 0,
        1 | 2 => needed,
        3 => needed.saturating_sub(1),
        4 => needed + 1,
        5 => most,
        6 => random.below(needed + 1),
        _ => needed + random.below(9),
    };
    bounded_room(room)
}

/// Rooms over the wire form's bound would end the program, so they are cut to it.
pub fn bounded_room(room: usize) -> u32 {
    room.min(MOST_ROOM as usize) as u32
}

/// All texts over an alphabet of up to the given length, shorter ones first.
pub fn short_texts(alphabet: &[u32], longest: usize) -> Vec<Vec<u32>> {
    let mut texts = vec![Vec::new()];
    let mut begin = 0;
    for _ in 0..longest {
        let end = texts.len();
        for index in begin..end {
            for &code in alphabet {
                texts.push([&texts[index][..], &[code]].concat());
            }
        }
        begin = end;
    }
    texts
}
