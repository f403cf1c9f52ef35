// The definitions of reading and writing UTF-16, from the Unicode Standard, chapter 3.
// It makes no cases and knows no wire form; it aims at plainness, not at speed.

use crate::utf8::{Reading, REPLACEMENT};

fn is_high(unit: u16) -> bool {
    (0xD800..=0xDBFF).contains(&unit)
}

fn is_low(unit: u16) -> bool {
    (0xDC00..=0xDFFF).contains(&unit)
}

/// The code point of a pair, its bits put together as table 3-5 spreads them: four of the plane,
/// less one, and six in the high surrogate, ten in the low one.
fn code_of_pair(high: u16, low: u16) -> u32 {
    let (high, low) = (u32::from(high), u32::from(low));
    let plane = ((high >> 6) & 0b1111) + 1;
    (plane << 16) | ((high & 0b11_1111) << 10) | (low & 0b11_1111_1111)
}

/// The code point of the well-formed sequence at the front and how many units that has, if one
/// stands there (D91): a unit that is no surrogate, or a high one and then a low one.
fn well_formed_front(units: &[u16]) -> Option<(u32, usize)> {
    match *units {
        [high, low, ..] if is_high(high) && is_low(low) => Some((code_of_pair(high, low), 2)),
        [unit, ..] if !is_high(unit) && !is_low(unit) => Some((u32::from(unit), 1)),
        _ => None,
    }
}

/// An unpaired surrogate is a unit of its own: the next one is looked at afresh.
pub fn read(units: &[u16]) -> Reading {
    let mut reading = Reading::default();
    let mut place = 0;
    while place < units.len() {
        let front = well_formed_front(&units[place..]);
        let (code, length) = front.unwrap_or((REPLACEMENT, 1));
        reading.codes.push(code);
        reading.ill_formed += u32::from(front.is_none());
        place += length;
    }
    reading
}

/// Table 3-5: the bits of a code point spread over its units. Of a bad one too, without sense but
/// as long as a careless program would make it: rooms are mean beside that length.
pub fn written_code(code: u32) -> Vec<u16> {
    if code <= 0xFFFF {
        return vec![code as u16];
    }
    let plane = ((code >> 16) - 1) & 0b1111;
    let high = 0b1101_1000_0000_0000 | (plane << 6) | ((code >> 10) & 0b11_1111);
    let low = 0b1101_1100_0000_0000 | (code & 0b11_1111_1111);
    vec![high as u16, low as u16]
}

pub fn written(text: &[u32]) -> Vec<u16> {
    text.iter().flat_map(|&code| written_code(code)).collect()
}
