// The definition of filler groups (KS X 1001): which four code points become a syllable.
// It makes no cases and knows no refusals; it aims at plainness, not at speed.

use crate::letters::{N_COUNT, S_BASE, T_COUNT};

pub const FILLER: u32 = 0x3164;

/// Stands for none in the pairs.
const NO: u32 = u32::MAX;

/// The pairs (I, F) of 3131 to 314E, in order.
const PAIRS: [(u32, u32); 30] = [
    (0, 1),
    (1, 2),
    (NO, 3),
    (2, 4),
    (NO, 5),
    (NO, 6),
    (3, 7),
    (4, NO),
    (5, 8),
    (NO, 9),
    (NO, 10),
    (NO, 11),
    (NO, 12),
    (NO, 13),
    (NO, 14),
    (NO, 15),
    (6, 16),
    (7, 17),
    (8, NO),
    (NO, 18),
    (9, 19),
    (10, 20),
    (11, 21),
    (12, 22),
    (13, NO),
    (14, 23),
    (15, 24),
    (16, 25),
    (17, 26),
    (18, 27),
];

fn pair_of(code: u32) -> (u32, u32) {
    match code {
        0x3131..=0x314E => PAIRS[(code - 0x3131) as usize],
        _ => (NO, NO),
    }
}

/// I of a code point that can be an initial.
pub fn initial_of(code: u32) -> Option<u32> {
    Some(pair_of(code).0).filter(|&initial| initial != NO)
}

/// P of a peak.
pub fn peak_of(code: u32) -> Option<u32> {
    match code {
        0x314F..=0x3163 => Some(code - 0x314F),
        _ => None,
    }
}

/// F of a code point that can be a final; the filler stands for no final.
pub fn final_of(code: u32) -> Option<u32> {
    match code {
        FILLER => Some(0),
        _ => Some(pair_of(code).1).filter(|&last| last != NO),
    }
}

/// The syllable of the group with which a text begins.
pub fn group(text: &[u32]) -> Option<u32> {
    match *text {
        [FILLER, a, b, c, ..] => {
            let (initial, peak, last) = (initial_of(a)?, peak_of(b)?, final_of(c)?);
            Some(S_BASE + initial * N_COUNT + peak * T_COUNT + last)
        }
        _ => None,
    }
}

/// Groups are taken from the left, each after the one before; all else is copied.
pub fn turned(text: &[u32]) -> Vec<u32> {
    let mut turned = Vec::new();
    let mut rest = text;
    while let Some(&first) = rest.first() {
        let (code, taken) = match group(rest) {
            Some(syllable) => (syllable, 4),
            None => (first, 1),
        };
        turned.push(code);
        rest = &rest[taken..];
    }
    turned
}
