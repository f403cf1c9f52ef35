// The definitions of sorts, one step, full parts and refusals 1, 2 and 3, as the rules state them.
// It makes no cases and knows no wire form; it aims at plainness, not at speed.

/// The constants of the Unicode Standard, chapter 3, conjoining jamo behaviour.
pub const S_BASE: u32 = 0xAC00;
pub const L_BASE: u32 = 0x1100;
pub const V_BASE: u32 = 0x1161;
pub const T_BASE: u32 = 0x11A7;
pub const L_COUNT: u32 = 19;
pub const V_COUNT: u32 = 21;
pub const T_COUNT: u32 = 28;
pub const N_COUNT: u32 = V_COUNT * T_COUNT;
pub const S_COUNT: u32 = L_COUNT * N_COUNT;

/// The largest number of code points, or of bytes, that a call takes.
pub const LIMIT: usize = 16_384;

/// What a letter is: simple, or two or three simple letters written as one.
#[derive(Clone, Copy, Debug, PartialEq, Eq)]
pub enum Make {
    Simple,
    Cluster,
}

#[derive(Clone, Copy, Debug, PartialEq, Eq)]
pub enum Sort {
    ModernInitial(Make),
    OldInitial(Make),
    InitialFiller,
    PeakFiller,
    ModernPeak(Make),
    OldPeak(Make),
    ModernFinal(Make),
    OldFinal(Make),
    Lv,
    Lvt,
    Other,
}

/// The sorts in the order of their numbers on the wire.
pub const SORTS: [(Sort, &str); 17] = [
    (Sort::ModernInitial(Make::Simple), "modern initial, simple"),
    (
        Sort::ModernInitial(Make::Cluster),
        "modern initial, cluster",
    ),
    (Sort::OldInitial(Make::Simple), "old initial, simple"),
    (Sort::OldInitial(Make::Cluster), "old initial, cluster"),
    (Sort::InitialFiller, "initial filler"),
    (Sort::PeakFiller, "peak filler"),
    (Sort::ModernPeak(Make::Simple), "modern peak, simple"),
    (Sort::ModernPeak(Make::Cluster), "modern peak, cluster"),
    (Sort::OldPeak(Make::Simple), "old peak, simple"),
    (Sort::OldPeak(Make::Cluster), "old peak, cluster"),
    (Sort::ModernFinal(Make::Simple), "modern final, simple"),
    (Sort::ModernFinal(Make::Cluster), "modern final, cluster"),
    (Sort::OldFinal(Make::Simple), "old final, simple"),
    (Sort::OldFinal(Make::Cluster), "old final, cluster"),
    (Sort::Lv, "LV"),
    (Sort::Lvt, "LVT"),
    (Sort::Other, "other"),
];

/// A range of letters: the first, the last, and their sort but for what each is made of.
pub type LetterRange = (u32, u32, fn(Make) -> Sort);

/// The ranges of letters. 11A7 is a peak, though finals are counted from it. What stands in no
/// range, and is no filler and no syllable, is other.
pub const LETTER_RANGES: [LetterRange; 9] = [
    (0x1100, 0x1112, Sort::ModernInitial),
    (0x1113, 0x115E, Sort::OldInitial),
    (0x1161, 0x1175, Sort::ModernPeak),
    (0x1176, 0x11A7, Sort::OldPeak),
    (0x11A8, 0x11C2, Sort::ModernFinal),
    (0x11C3, 0x11FF, Sort::OldFinal),
    (0xA960, 0xA97C, Sort::OldInitial),
    (0xD7B0, 0xD7C6, Sort::OldPeak),
    (0xD7CB, 0xD7FB, Sort::OldFinal),
];

/// Those of the letters that Unicode 5.2 added.
pub const ADDED_RANGES: [(u32, u32); 6] = [
    (0x115A, 0x115E),
    (0x11A3, 0x11A7),
    (0x11FA, 0x11FF),
    (0xA960, 0xA97C),
    (0xD7B0, 0xD7C6),
    (0xD7CB, 0xD7FB),
];

/// The simple letters as source document 002 lists them, in sections 1.2 and 1.8: of each place the
/// modern ones, then the old ones by their codes. Every other letter is a cluster. That the
/// letters' names say the same is one of the facts.
pub const SIMPLE_INITIALS: [u32; 23] = [
    0x1100, 0x1102, 0x1103, 0x1105, 0x1106, 0x1107, 0x1109, 0x110B, 0x110C, 0x110E, 0x110F, 0x1110,
    0x1111, 0x1112, 0x113C, 0x113E, 0x1140, 0x114C, 0x114E, 0x1150, 0x1154, 0x1155, 0x1159,
];
pub const SIMPLE_PEAKS: [u32; 11] = [
    0x1161, 0x1163, 0x1165, 0x1167, 0x1169, 0x116D, 0x116E, 0x1172, 0x1173, 0x1175, 0x119E,
];
pub const SIMPLE_FINALS: [u32; 17] = [
    0x11A8, 0x11AB, 0x11AE, 0x11AF, 0x11B7, 0x11B8, 0x11BA, 0x11BC, 0x11BD, 0x11BE, 0x11BF, 0x11C0,
    0x11C1, 0x11C2, 0x11EB, 0x11F0, 0x11F9,
];

fn is_simple(letter: u32) -> bool {
    let lists: [&[u32]; 3] = [&SIMPLE_INITIALS, &SIMPLE_PEAKS, &SIMPLE_FINALS];
    lists.iter().any(|list| list.contains(&letter))
}

pub fn sort_of(code: u32) -> Sort {
    match code {
        0x115F => return Sort::InitialFiller,
        0x1160 => return Sort::PeakFiller,
        _ => {}
    }
    for (first, last, sort) in LETTER_RANGES {
        if first <= code && code <= last {
            return sort(match is_simple(code) {
                true => Make::Simple,
                false => Make::Cluster,
            });
        }
    }
    if !is_syllable(code) {
        return Sort::Other;
    }
    if (code - S_BASE) % T_COUNT == 0 {
        Sort::Lv
    } else {
        Sort::Lvt
    }
}

pub fn is_letter(code: u32) -> bool {
    let mut ranges = LETTER_RANGES.into_iter();
    ranges.any(|(first, last, _)| first <= code && code <= last)
}

pub fn is_added(code: u32) -> bool {
    let mut ranges = ADDED_RANGES.into_iter();
    ranges.any(|(first, last)| first <= code && code <= last)
}

/// The letters that Unicode 5.2 added, all of them.
pub fn added_letters() -> Vec<u32> {
    let ranges = ADDED_RANGES.into_iter();
    ranges.flat_map(|(first, last)| first..=last).collect()
}

pub fn is_syllable(code: u32) -> bool {
    (0xAC00..=0xD7A3).contains(&code)
}

/// The repertoire on which full parts are NFD and joined text is NFC: ASCII, the letters' block,
/// the syllables and the two tone marks.
pub fn in_repertoire(code: u32) -> bool {
    code <= 0x7F || (0x1100..=0x11FF).contains(&code) || is_syllable(code) || is_tone_mark(code)
}

pub fn is_tone_mark(code: u32) -> bool {
    code == 0x302E || code == 0x302F
}

/// One step: the Standard's arithmetic decomposition mapping; any other code point is itself.
pub fn one_step(code: u32) -> Vec<u32> {
    match sort_of(code) {
        Sort::Lv => {
            let s_index = code - S_BASE;
            let l_index = s_index / N_COUNT;
            let v_index = (s_index % N_COUNT) / T_COUNT;
            vec![L_BASE + l_index, V_BASE + v_index]
        }
        Sort::Lvt => {
            let s_index = code - S_BASE;
            let lv_index = (s_index / T_COUNT) * T_COUNT;
            let t_index = s_index % T_COUNT;
            vec![S_BASE + lv_index, T_BASE + t_index]
        }
        _ => vec![code],
    }
}

/// Full parts of one code point: the Standard's full canonical mapping, not the repeated step.
/// That both are the same is one of the facts, so a slip in either shows.
pub fn full_parts(code: u32) -> Vec<u32> {
    if !is_syllable(code) {
        return vec![code];
    }
    let s_index = code - S_BASE;
    let l_index = s_index / N_COUNT;
    let v_index = (s_index % N_COUNT) / T_COUNT;
    let t_index = s_index % T_COUNT;
    let mut parts = vec![L_BASE + l_index, V_BASE + v_index];
    if t_index > 0 {
        parts.push(T_BASE + t_index);
    }
    parts
}

pub fn full_parts_of_text(text: &[u32]) -> Vec<u32> {
    text.iter().flat_map(|&code| full_parts(code)).collect()
}

/// A refusal's number and the place returned with it.
#[derive(Clone, Copy, Debug, PartialEq, Eq)]
pub struct Refusal {
    pub number: u32,
    pub place: u32,
}

/// Refusal 1: over the limit; the place is the limit, however much longer the text is.
pub fn check_length(count: usize) -> Result<(), Refusal> {
    if count > LIMIT {
        return Err(Refusal {
            number: 1,
            place: LIMIT as u32,
        });
    }
    Ok(())
}

/// No Unicode scalar value: a surrogate, or a number beyond the last code point.
pub fn is_bad(code: u32) -> bool {
    code > 0x10FFFF || (0xD800..=0xDFFF).contains(&code)
}

/// Refusal 2: a bad code point; the place is the index of the first.
pub fn check_codes(text: &[u32]) -> Result<(), Refusal> {
    match text.iter().position(|&code| is_bad(code)) {
        Some(index) => Err(Refusal {
            number: 2,
            place: index as u32,
        }),
        None => Ok(()),
    }
}

/// Refusal 3: the answer is longer than the lent buffer; the place is the length needed.
pub fn check_room(needed: usize, room: u32) -> Result<(), Refusal> {
    if needed > room as usize {
        return Err(Refusal {
            number: 3,
            place: needed as u32,
        });
    }
    Ok(())
}

/// The sorter takes one code point, so a bad one stands at place 0.
pub fn answer_of_sorter(code: u32) -> Result<Sort, Refusal> {
    check_codes(&[code])?;
    Ok(sort_of(code))
}

pub fn answer_of_one_step(code: u32) -> Result<Vec<u32>, Refusal> {
    check_codes(&[code])?;
    Ok(one_step(code))
}

/// The scheme of every call that makes a text of a text; `whole` is what it makes of a good one.
/// The checks go 1, 2, 3; each is made only where those before it passed.
pub fn answer_of_text(
    text: &[u32],
    room: u32,
    whole: fn(&[u32]) -> Vec<u32>,
) -> Result<Vec<u32>, Refusal> {
    check_length(text.len())?;
    check_codes(text)?;
    let made = whole(text);
    check_room(made.len(), room)?;
    Ok(made)
}
