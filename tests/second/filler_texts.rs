// Texts for filler groups: groups of all sorts, whole, cut and overlapping, and what is nearly one.
// It makes no whole calls and decides no answers.

use crate::fillers::{final_of, initial_of, FILLER};
use crate::random::Random;
use crate::texts;

/// The few code points with which groups overlap: the filler, a letter of both places, a peak, a
/// letter that is only an initial, and one that is only a final.
pub const SMALL_ALPHABET: [u32; 5] = [FILLER, 0x3131, 0x314F, 0x3138, 0x3133];

/// The other fillers, half-width and conjoining, and marks and spaces.
const OTHER_FILLERS: [u32; 8] = [
    0x115F, 0x1160, 0xFFA0, 0x11A7, 0x302E, 0x0020, 0x3000, 0x200D,
];

/// Letters that no group takes: old compatibility letters, the neighbours of the letters, and
/// conjoining and half-width ones.
const OTHER_LETTERS: [u32; 15] = [
    0x3130, 0x3165, 0x3186, 0x3187, 0x318E, 0x318F, 0x1100, 0x1161, 0x11A8, 0xFFA1, 0x115A, 0xA960,
    0xD7B0, 0xD7CB, 0xD7FB,
];

/// A compatibility letter that passes the test.
fn letter(random: &mut Random, passes: fn(u32) -> Option<u32>) -> u32 {
    loop {
        let code = random.between(0x3131, 0x314E);
        if passes(code).is_some() {
            return code;
        }
    }
}

/// A whole group, in one of three with no final.
pub fn whole_group(random: &mut Random) -> Vec<u32> {
    let last = match random.below(3) {
        0 => FILLER,
        _ => letter(random, final_of),
    };
    let initial = letter(random, initial_of);
    vec![FILLER, initial, random.between(0x314F, 0x3163), last]
}

/// A whole group but for one code point, which another has taken the place of.
fn nearly_group(random: &mut Random) -> Vec<u32> {
    let mut group = whole_group(random);
    let place = random.below(4);
    group[place] = match random.below(6) {
        0 => FILLER,
        1 => random.pick(&OTHER_FILLERS),
        2 => random.pick(&OTHER_LETTERS),
        // A letter of the wrong place, as often as not.
        3 => random.between(0x3131, 0x3164),
        4 => random.pick(&[0x3138, 0x3143, 0x3149, 0x3133, 0x3144]),
        // The right one again when bits are lost.
        _ => group[place] + random.pick(&[0x1_0000, 0x10_0000]),
    };
    group
}

/// The filler at the end of one group is also where the next would begin, if the one had not
/// taken it.
fn overlapping(random: &mut Random) -> Vec<u32> {
    let mut text = whole_group(random);
    text[3] = FILLER;
    for _ in 0..=random.below(3) {
        text.extend(&whole_group(random)[1..]);
    }
    text
}

/// A few code points in which groups are, or nearly are.
fn piece(random: &mut Random) -> Vec<u32> {
    let mut group = whole_group(random);
    match random.below(12) {
        0..=2 => group,
        3 | 4 => nearly_group(random),
        5 => overlapping(random),
        6 => vec![FILLER; 1 + random.below(5)],
        7 => {
            group.truncate(1 + random.below(3));
            group
        }
        8 => {
            group.insert(1 + random.below(3), random.pick(&OTHER_FILLERS));
            group
        }
        9 => vec![random.between(0x3130, 0x318F)],
        10 => vec![random.between(0xAC00, 0xD7A3), random.pick(&OTHER_LETTERS)],
        _ => vec![random.between(0x20, 0x7E)],
    }
}

/// A good text of the given length with many groups; it may be cut within one.
pub fn filler_text(random: &mut Random, length: usize) -> Vec<u32> {
    let style = random.below(6);
    if style == 0 {
        return texts::good_text(random, length);
    }
    let mut text = Vec::with_capacity(length + 12);
    while text.len() < length {
        match style {
            1 => text.push(random.pick(&SMALL_ALPHABET)),
            2 => text.extend(whole_group(random)),
            _ => text.extend(piece(random)),
        }
    }
    text.truncate(length);
    text
}
