// The definition of the simple form: full parts, then each letter's row of the tables of clusters.
// It makes no cases and knows no refusals; it aims at plainness, not at speed.

use crate::letter_names::rows;
use crate::letters::full_parts_of_text;

/// The codes that have a row, first and last of each range: the table of the letters' block, and
/// that of the letters outside it.
pub const TABLE: (u32, u32) = (0x1100, 0x11FF);
pub const EXTENDED: [(u32, u32); 3] = [(0xA960, 0xA97C), (0xD7B0, 0xD7C6), (0xD7CB, 0xD7FB)];

/// The ranges of both tables.
fn ranges() -> impl Iterator<Item = (u32, u32)> {
    [TABLE].into_iter().chain(EXTENDED)
}

/// The codes of both tables.
pub fn table_codes() -> Vec<u32> {
    ranges().flat_map(|(first, last)| first..=last).collect()
}

/// The same, with the two codes on either side of each range.
pub fn codes_around_tables() -> Vec<u32> {
    ranges()
        .flat_map(|(first, last)| first - 2..=last + 2)
        .collect()
}

thread_local! {
    /// The first code of each range and its rows, made once, since the names are long.
    static ROWS: Vec<(u32, Vec<[u32; 3]>)> =
        ranges().map(|(first, last)| (first, rows(first, last))).collect();
}

/// The row of a code in one of the tables.
pub fn row_of(code: u32) -> Option<[u32; 3]> {
    ROWS.with(|tables| {
        let mut tables = tables.iter();
        tables.find_map(|(first, rows)| {
            let index = code.checked_sub(*first)?;
            rows.get(index as usize).copied()
        })
    })
}

/// The row of a code, zeros left out. A code outside the tables is itself, also if it is 0.
pub fn simple_letters(code: u32) -> Vec<u32> {
    match row_of(code) {
        Some(row) => row.into_iter().filter(|&letter| letter != 0).collect(),
        None => vec![code],
    }
}

pub fn is_cluster(code: u32) -> bool {
    simple_letters(code).len() > 1
}

pub fn clusters() -> Vec<u32> {
    let codes = table_codes().into_iter();
    codes.filter(|&code| is_cluster(code)).collect()
}

pub fn simple_form(text: &[u32]) -> Vec<u32> {
    let parts = full_parts_of_text(text);
    parts.into_iter().flat_map(simple_letters).collect()
}
