// The definition of ranking: the items of a joined text, their order, and the order of two labels.
// It makes no cases and knows no wire form; a number here is its digits, never a machine's integer.

use crate::joining::joined;
use crate::letters::{check_codes, check_length, Refusal};
use crate::utf8::read;
use std::cmp::Ordering;

/// A number of any length. Without leading zeros the longer of two is the larger, and of two that
/// are equally long the first digit that differs decides: the order that is derived here.
#[derive(Clone, Debug, PartialEq, Eq, PartialOrd, Ord)]
pub struct Number {
    length: usize,
    digits: Vec<u32>,
}

impl Number {
    fn of(run: &[u32]) -> Number {
        let zeros = run.iter().take_while(|&&digit| digit == ZERO);
        let digits = run[zeros.count()..].to_vec();
        Number {
            length: digits.len(),
            digits,
        }
    }
}

/// Numbers stand before code points, so their case stands first: the order is derived.
#[derive(Clone, Debug, PartialEq, Eq, PartialOrd, Ord)]
pub enum Item {
    Number(Number),
    Code(u32),
}

const ZERO: u32 = 0x30;
const NINE: u32 = 0x39;

/// Only ASCII digits are digits.
pub fn is_digit(code: u32) -> bool {
    (ZERO..=NINE).contains(&code)
}

/// What a label is ranked by: the items of its text once it is joined. A digit joins with nothing,
/// so joining makes no run of digits longer or shorter.
pub fn items(text: &[u32]) -> Vec<Item> {
    let joined = joined(text);
    let mut items = Vec::new();
    let mut rest = &joined[..];
    while let Some(&first) = rest.first() {
        let digits = rest.iter().take_while(|&&code| is_digit(code)).count();
        items.push(match digits {
            0 => Item::Code(first),
            _ => Item::Number(Number::of(&rest[..digits])),
        });
        rest = &rest[digits.max(1)..];
    }
    items
}

/// The first item that differs decides; without one the label with fewer items comes first. That
/// is the order of lists.
pub fn rank(first: &[u32], second: &[u32]) -> Ordering {
    items(first).cmp(&items(second))
}

/// 1 for the first text, 1 for the second, then 2 likewise.
pub fn answer_of_texts(first: &[u32], second: &[u32]) -> Result<Ordering, Refusal> {
    check_length(first.len())?;
    check_length(second.len())?;
    check_codes(first)?;
    check_codes(second)?;
    Ok(rank(first, second))
}

/// The same of UTF-8, as C calls it: ill-formed bytes are mended, so only 1 is refused. The limit
/// is on the bytes given.
pub fn answer_of_bytes(first: &[u8], second: &[u8]) -> Result<Ordering, Refusal> {
    check_length(first.len())?;
    check_length(second.len())?;
    Ok(rank(&read(first).codes, &read(second).codes))
}
