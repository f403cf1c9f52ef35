// The definitions of reading and writing UTF-8, from the Unicode Standard, chapter 3.
// It makes no cases and knows no wire form; it aims at plainness, not at speed.

/// What an ill-formed subpart is read as.
pub const REPLACEMENT: u32 = 0xFFFD;

/// A range of bytes, both ends included.
type Range = (u8, u8);

/// A row of table 3-7: the first and last code point, and the range of each byte in turn.
pub struct Row {
    pub codes: (u32, u32),
    pub bytes: &'static [Range],
}

const fn row(first: u32, last: u32, bytes: &'static [Range]) -> Row {
    Row {
        codes: (first, last),
        bytes,
    }
}

/// Table 3-7, well-formed UTF-8 byte sequences. Only second bytes have ranges of their own, after
/// E0, ED, F0 and F4; they shut out overlong forms, surrogates and what lies beyond 10FFFF.
#[rustfmt::skip]
pub const TABLE_3_7: [Row; 9] = [
    row(0x0000, 0x007F, &[(0x00, 0x7F)]),
    row(0x0080, 0x07FF, &[(0xC2, 0xDF), (0x80, 0xBF)]),
    row(0x0800, 0x0FFF, &[(0xE0, 0xE0), (0xA0, 0xBF), (0x80, 0xBF)]),
    row(0x1000, 0xCFFF, &[(0xE1, 0xEC), (0x80, 0xBF), (0x80, 0xBF)]),
    row(0xD000, 0xD7FF, &[(0xED, 0xED), (0x80, 0x9F), (0x80, 0xBF)]),
    row(0xE000, 0xFFFF, &[(0xEE, 0xEF), (0x80, 0xBF), (0x80, 0xBF)]),
    row(0x1_0000, 0x3_FFFF, &[(0xF0, 0xF0), (0x90, 0xBF), (0x80, 0xBF), (0x80, 0xBF)]),
    row(0x4_0000, 0xF_FFFF, &[(0xF1, 0xF3), (0x80, 0xBF), (0x80, 0xBF), (0x80, 0xBF)]),
    row(0x10_0000, 0x10_FFFF, &[(0xF4, 0xF4), (0x80, 0x8F), (0x80, 0xBF), (0x80, 0xBF)]),
];

/// The most bytes in a row.
const LONGEST: usize = 4;

/// Whether the bytes are an initial part of a sequence of the row; the whole of one is such too.
fn begins(row: &Row, bytes: &[u8]) -> bool {
    let mut pairs = bytes.iter().zip(row.bytes);
    bytes.len() <= row.bytes.len()
        && pairs.all(|(byte, (first, last))| first <= byte && byte <= last)
}

/// The length of the well-formed sequence at the front, if one stands there. No sequence begins
/// another, so there is at most one.
fn well_formed_front(bytes: &[u8]) -> Option<usize> {
    let mut rows = TABLE_3_7.iter();
    let row = rows.find(|row| {
        let length = row.bytes.len();
        length <= bytes.len() && begins(row, &bytes[..length])
    });
    row.map(|row| row.bytes.len())
}

/// The length of the maximal subpart at the front, where no well-formed sequence stands (D93b):
/// the longest initial part of some well-formed sequence, else a single byte.
fn maximal_subpart(bytes: &[u8]) -> usize {
    let longest = bytes.len().min(LONGEST);
    let mut lengths = (1..=longest).rev();
    let found = lengths.find(|&length| {
        let mut rows = TABLE_3_7.iter();
        rows.any(|row| begins(row, &bytes[..length]))
    });
    found.unwrap_or(1)
}

/// The code point of a well-formed sequence, its bits put together as table 3-6 spreads them.
fn code_of(sequence: &[u8]) -> u32 {
    let bits_of_first = match sequence.len() {
        1 => 0b0111_1111,
        2 => 0b0001_1111,
        3 => 0b0000_1111,
        _ => 0b0000_0111,
    };
    let first = u32::from(sequence[0] & bits_of_first);
    sequence[1..].iter().fold(first, |code, &byte| {
        (code << 6) | u32::from(byte & 0b0011_1111)
    })
}

/// What bytes are read as.
#[derive(Clone, Debug, Default, PartialEq, Eq)]
pub struct Reading {
    pub codes: Vec<u32>,
    /// How many of the code points stand for an ill-formed subpart; a true FFFD does not.
    pub ill_formed: u32,
}

pub fn read(bytes: &[u8]) -> Reading {
    let mut reading = Reading::default();
    let mut place = 0;
    while place < bytes.len() {
        let rest = &bytes[place..];
        match well_formed_front(rest) {
            Some(length) => {
                reading.codes.push(code_of(&rest[..length]));
                place += length;
            }
            None => {
                reading.codes.push(REPLACEMENT);
                reading.ill_formed += 1;
                place += maximal_subpart(rest);
            }
        }
    }
    reading
}

/// Where the first ill-formed subpart begins, if there is one.
pub fn first_ill_formed(bytes: &[u8]) -> Option<usize> {
    let mut place = 0;
    while place < bytes.len() {
        match well_formed_front(&bytes[place..]) {
            Some(length) => place += length,
            None => return Some(place),
        }
    }
    None
}

/// A byte after the first, with the six bits of the code point from the given one on.
fn following(code: u32, shift: u32) -> u8 {
    0b1000_0000 | ((code >> shift) & 0b0011_1111) as u8
}

/// Table 3-6: the bits of a code point spread over its bytes. Of a bad one too, without sense but
/// as long as a careless program would make it: rooms are mean beside that length.
pub fn written_code(code: u32) -> Vec<u8> {
    let first = |mark: u8, shift: u32| mark | (code >> shift) as u8;
    match code {
        0..=0x7F => vec![first(0, 0)],
        0x80..=0x7FF => vec![first(0b1100_0000, 6), following(code, 0)],
        0x800..=0xFFFF => vec![
            first(0b1110_0000, 12),
            following(code, 6),
            following(code, 0),
        ],
        _ => vec![
            first(0b1111_0000, 18),
            following(code, 12),
            following(code, 6),
            following(code, 0),
        ],
    }
}

pub fn written(text: &[u32]) -> Vec<u8> {
    text.iter().flat_map(|&code| written_code(code)).collect()
}
