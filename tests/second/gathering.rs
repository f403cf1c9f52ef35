// The definition of the gathered form: the simple form, its letters gathered into clusters, joined.
// It makes no cases and knows no refusals; it aims at plainness, not at speed.

use crate::joining::joined;
use crate::simple::{clusters, simple_form, simple_letters};
use std::collections::HashMap;

thread_local! {
    /// The cluster that letters make, made once.
    static CLUSTERS: HashMap<Vec<u32>, u32> =
        clusters().into_iter().map(|code| (simple_letters(code), code)).collect();
}

/// The cluster that the first letters of a text make, as many as said, if some row lists them.
fn cluster_of_first(letters: &[u32], count: usize) -> Option<u32> {
    let first = letters.get(..count)?;
    CLUSTERS.with(|clusters| clusters.get(first).copied())
}

/// From the left, going on after each cluster: three letters before two, two before one.
pub fn clustered(letters: &[u32]) -> Vec<u32> {
    let mut codes = Vec::with_capacity(letters.len());
    let mut place = 0;
    while place < letters.len() {
        let rest = &letters[place..];
        let longest = [3, 2]
            .into_iter()
            .find_map(|count| cluster_of_first(rest, count).map(|code| (code, count)));
        let (code, count) = longest.unwrap_or((rest[0], 1));
        codes.push(code);
        place += count;
    }
    codes
}

pub fn gathered_form(text: &[u32]) -> Vec<u32> {
    joined(&clustered(&simple_form(text)))
}
