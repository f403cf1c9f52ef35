// The definitions of naming a syllable and of reading a name, with refusals 4 and 5, as the rules
// state them. It makes no cases and knows no wire form; it aims at plainness, not at speed.

use crate::letters::{check_length, check_room, is_syllable, Refusal, N_COUNT, S_BASE, T_COUNT};
use std::collections::HashMap;

pub const PREFIX: &str = "HANGUL SYLLABLE ";

/// The strings of the initials, picked by I. The twelfth is empty.
#[rustfmt::skip]
pub const INITIALS: [&str; 19] = [
    "G", "GG", "N", "D", "DD", "R", "M", "B", "BB", "S", "SS", "", "J", "JJ", "C", "K", "T",
    "P", "H",
];

/// The strings of the peaks, picked by P. None has a figure in it: the ninth is the letter O and
/// the last the letter I.
#[rustfmt::skip]
pub const PEAKS: [&str; 21] = [
    "A", "AE", "YA", "YAE", "EO", "E", "YEO", "YE", "O", "WA", "WAE", "OE", "YO", "U", "WEO", "WE",
    "WI", "YU", "EU", "YI", "I",
];

/// The strings of the finals, picked by F. The first is empty.
#[rustfmt::skip]
pub const FINALS: [&str; 28] = [
    "", "G", "GG", "GS", "N", "NJ", "NH", "D", "L", "LG", "LM", "LB", "LS", "LT", "LP", "LH", "M",
    "B", "BS", "S", "SS", "NG", "J", "C", "K", "T", "P", "H",
];

/// The fewest and the most bytes of a name.
pub const SHORTEST: usize = 17;
pub const LONGEST: usize = 23;

/// The name of a syllable. What is no syllable has none here.
pub fn name_of(syllable: u32) -> Vec<u8> {
    let index = (syllable - S_BASE) as usize;
    let (row, column) = (N_COUNT as usize, T_COUNT as usize);
    let initial = INITIALS[index / row];
    let peak = PEAKS[(index % row) / column];
    let last = FINALS[index % column];
    [PREFIX, initial, peak, last].concat().into_bytes()
}

/// The syllable that has the name, looked up among the names of all: no two are the same, which is
/// one of the facts. That a search through the three lists finds it too is another.
pub fn named(name: &[u8]) -> Option<u32> {
    thread_local! {
        static NAMES: HashMap<Vec<u8>, u32> =
            (0xAC00..=0xD7A3).map(|code| (name_of(code), code)).collect();
    }
    NAMES.with(|names| names.get(name).copied())
}

/// Refusal 4: what is to be named is no syllable; the place is 0. It is given for every other
/// number, for a surrogate and for what is no code point too: naming never gives 2.
fn check_syllable(code: u32) -> Result<(), Refusal> {
    if is_syllable(code) {
        return Ok(());
    }
    Err(Refusal {
        number: 4,
        place: 0,
    })
}

/// The checks go 4, 3.
pub fn answer_of_naming(code: u32, room: u32) -> Result<Vec<u8>, Refusal> {
    check_syllable(code)?;
    let name = name_of(code);
    check_room(name.len(), room)?;
    Ok(name)
}

/// The checks go 1, 5. Refusal 5: the bytes are no syllable's name; the place is 0.
pub fn answer_of_name(bytes: &[u8]) -> Result<u32, Refusal> {
    check_length(bytes.len())?;
    named(bytes).ok_or(Refusal {
        number: 5,
        place: 0,
    })
}
