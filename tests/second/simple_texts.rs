// Texts for the simple form: clusters, their letters, long syllables, and what looks like them.
// It makes no whole calls and decides no answers.

use crate::joining::joined;
use crate::letters::ADDED_RANGES;
use crate::random::Random;
use crate::simple::{clusters, simple_letters};
use crate::texts;

/// Clusters of three letters, in all places; no modern final has three.
pub const OF_THREE: [u32; 66] = [
    0x1122, 0x1123, 0x1124, 0x1125, 0x1126, 0x112C, 0x1133, 0x1134, 0x116B, 0x1170, 0x1180, 0x1181,
    0x1185, 0x118A, 0x118B, 0x118C, 0x1190, 0x1192, 0x1197, 0x11A7, 0x11C4, 0x11CC, 0x11CF, 0x11D1,
    0x11D2, 0x11D3, 0x11D4, 0x11D5, 0x11D6, 0x11DE, 0x11ED, 0xA965, 0xA967, 0xA96A, 0xA96B, 0xA972,
    0xA975, 0xA978, 0xD7B1, 0xD7B3, 0xD7B6, 0xD7B7, 0xD7BB, 0xD7BD, 0xD7BE, 0xD7C0, 0xD7C1, 0xD7C6,
    0xD7CE, 0xD7D1, 0xD7D5, 0xD7D6, 0xD7D7, 0xD7D8, 0xD7D9, 0xD7DA, 0xD7DC, 0xD7DF, 0xD7E1, 0xD7E4,
    0xD7E7, 0xD7EB, 0xD7EC, 0xD7ED, 0xD7F4, 0xD7F8,
];

/// Letters whose name or neighbour tempts, but that are simple.
pub const TEMPTING_LETTERS: [u32; 17] = [
    0x113C, 0x113E, 0x1140, 0x114C, 0x114E, 0x1150, 0x1154, 0x1155, 0x1159, 0x116D, 0x1172, 0x119E,
    0x11B7, 0x11BC, 0x11EB, 0x11F0, 0x11F9,
];

/// What stays whole: the fillers, what stands next to the tables of letters and in their gaps, and
/// compatibility letters.
const WHOLE_RANGES: [(u32, u32); 10] = [
    (0x115F, 0x1160),
    (0x10FE, 0x10FF),
    (0x1200, 0x1201),
    (0xA95E, 0xA95F),
    (0xA97D, 0xA97F),
    (0xD7A4, 0xD7AF),
    (0xD7C7, 0xD7CA),
    (0xD7FC, 0xD7FF),
    (0x3131, 0x318E),
    (0xFFA0, 0xFFDC),
];

fn in_ranges(random: &mut Random, ranges: &[(u32, u32)]) -> u32 {
    let (first, last) = random.pick(ranges);
    random.between(first, last)
}

/// A syllable whose initial and peak, and mostly final, are clusters: five to seven letters.
fn long_syllable(random: &mut Random) -> u32 {
    let initial = random.pick(&[0x1101, 0x1104, 0x1108, 0x110A, 0x110D]);
    let peak = random.pick(&[
        0x1162, 0x116A, 0x116B, 0x116B, 0x116F, 0x1170, 0x1170, 0x1174,
    ]);
    let last = random.pick(&[
        0x11A9, 0x11AA, 0x11AD, 0x11B0, 0x11B3, 0x11B6, 0x11B9, 0x11BB,
    ]);
    let letters = [initial, peak, last];
    let count = random.pick(&[2, 3, 3, 3]);
    joined(&letters[..count])[0]
}

/// A few code points of one sort; `clusters` are those of the table.
fn piece(random: &mut Random, clusters: &[u32]) -> Vec<u32> {
    let cluster = random.pick(clusters);
    match random.below(12) {
        0 | 1 => vec![cluster],
        2 => simple_letters(cluster),
        3 => vec![random.pick(&OF_THREE)],
        4 => vec![random.pick(&TEMPTING_LETTERS)],
        5 => vec![long_syllable(random)],
        6 => vec![random.between(0xAC00, 0xD7A3)],
        7 => vec![in_ranges(random, &WHOLE_RANGES)],
        8 => vec![in_ranges(random, &ADDED_RANGES)],
        // A cluster again when bits are lost.
        9 => vec![cluster + random.pick(&[0x1_0000, 0x10_0000])],
        10 => vec![random.pick(&[0x0000, 0x302E, 0x302F, 0x3164])],
        _ => vec![random.between(0x20, 0x7E)],
    }
}

/// A good text of the given length in which much comes apart; it may be cut within a piece.
pub fn simple_text(random: &mut Random, length: usize) -> Vec<u32> {
    let clusters = clusters();
    let style = random.below(5);
    if style == 0 {
        return texts::good_text(random, length);
    }
    let mut text = Vec::with_capacity(length + 3);
    while text.len() < length {
        match style {
            1 => text.push(random.pick(&clusters)),
            2 => text.push(long_syllable(random)),
            _ => text.extend(piece(random, &clusters)),
        }
    }
    text.truncate(length);
    text
}
