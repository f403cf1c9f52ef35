// The definition of joining: which neighbours become a syllable, as the rules and chapter 3 state.
// It makes no cases and knows no refusals; it aims at plainness, not at speed.

use crate::letters::{sort_of, Sort, L_BASE, N_COUNT, S_BASE, T_BASE, T_COUNT, V_BASE};

/// The syllable of a modern initial and a modern peak.
fn lv_of(initial: u32, peak: u32) -> u32 {
    S_BASE + (initial - L_BASE) * N_COUNT + (peak - V_BASE) * T_COUNT
}

/// The syllable of an LV and a modern final. 11A7 is a peak, so the difference is never 0.
fn lvt_of(lv: u32, last: u32) -> u32 {
    lv + (last - T_BASE)
}

/// What the front of a text, given with its sorts, joins to, and how many code points that takes.
/// This looks ahead over the text as given and remembers nothing. Three are taken before two, so
/// each final goes to its own syllable; what was made is not looked at again, so no syllable gets
/// a second final. That joining two at a time gives the same is one of the facts.
fn front(text: &[u32], sorts: &[Sort]) -> (u32, usize) {
    use Sort::{Lv, ModernFinal, ModernInitial, ModernPeak};
    match sorts {
        [ModernInitial(_), ModernPeak(_), ModernFinal(_), ..] => {
            (lvt_of(lv_of(text[0], text[1]), text[2]), 3)
        }
        [ModernInitial(_), ModernPeak(_), ..] => (lv_of(text[0], text[1]), 2),
        [Lv, ModernFinal(_), ..] => (lvt_of(text[0], text[1]), 2),
        _ => (text[0], 1),
    }
}

pub fn joined(text: &[u32]) -> Vec<u32> {
    let sorts: Vec<Sort> = text.iter().map(|&code| sort_of(code)).collect();
    let mut joined = Vec::new();
    let mut place = 0;
    while place < text.len() {
        let (code, taken) = front(&text[place..], &sorts[place..]);
        joined.push(code);
        place += taken;
    }
    joined
}
