// Mean bytes for the kind that reads names: names with a fault, and what only looks like a name.
// It makes no whole calls and decides no answers: some of these are names after all.

use crate::byte_texts::with;
use crate::naming::{name_of, FINALS, INITIALS, PEAKS, PREFIX};
use crate::random::Random;

/// No string of the initials: those of finals alone, doubled letters that there are not, the second
/// spellings of other ways to write Korean, and letters of no list.
const NO_INITIALS: [&str; 20] = [
    "L", "NG", "NJ", "NH", "GS", "LG", "BS", "KK", "TT", "PP", "HH", "CC", "CH", "KH", "X", "F",
    "V", "Z", "GGG", "Q",
];

/// No string of the peaks.
const NO_PEAKS: [&str; 20] = [
    "", "Y", "W", "AA", "AO", "AU", "EE", "IE", "II", "OO", "OI", "UI", "WO", "WU", "WEE", "YEU",
    "YWA", "UE", "EOE", "WYA",
];

/// No string of the finals: those of initials alone, clusters that there are not, and a peak.
const NO_FINALS: [&str; 20] = [
    "R", "DD", "BB", "JJ", "KS", "PS", "LN", "LD", "LK", "NS", "NC", "NGG", "GGG", "SG", "HN", "Q",
    "A", " ", "GA", "-",
];

/// Letters of other scripts that look like capitals of the lists. Source document 003's table has
/// several of them in place of these.
const LOOK_ALIKES: [(&str, &str); 12] = [
    ("A", "\u{391}"),
    ("B", "\u{412}"),
    ("C", "\u{421}"),
    ("H", "\u{41D}"),
    ("P", "\u{420}"),
    ("T", "\u{422}"),
    ("Y", "\u{3A5}"),
    ("O", "\u{41E}"),
    ("I", "\u{399}"),
    ("K", "\u{212A}"),
    ("G", "\u{FF27}"),
    ("E", "\u{395}"),
];

/// Bytes that a program may be tempted to pass over, or to take for a letter.
const TEMPTING_BYTES: [u8; 16] = [
    0x00, 0x09, 0x0A, 0x0D, 0x20, 0x2D, 0x2E, 0x30, 0x31, 0x5F, 0x61, 0x67, 0x7F, 0x80, 0xA0, 0xFF,
];

/// What a program that is lenient in one way or another would take.
const NEARLY_NAMES: [&str; 30] = [
    "",
    " ",
    "HANGUL SYLLABLE",
    "HANGUL SYLLABLE ",
    "HANGUL SYLLABLE  ",
    "HANGUL SYLLABLE G",
    "HANGUL SYLLABLE NG",
    "HANGUL SYLLABLE GG",
    "HANGUL SYLLABLE SSS",
    "HANGUL SYLLABLE GA ",
    "HANGUL SYLLABLE GA\n",
    "HANGUL SYLLABLE GA\0",
    "HANGUL SYLLABLE  GA",
    " HANGUL SYLLABLE GA",
    "\u{FEFF}HANGUL SYLLABLE GA",
    "\"HANGUL SYLLABLE GA\"",
    "HANGUL SYLLABLE\tGA",
    "HANGUL SYLLABLE-GA",
    "HANGUL_SYLLABLE_GA",
    "HANGULSYLLABLEGA",
    "HANGUL SYLLABLEGA",
    "HANGUL  SYLLABLE GA",
    "Hangul Syllable Ga",
    "hangul syllable ga",
    "HANGUL SYLLABLE AC00",
    "HANGUL SYLLABLE \u{AC00}",
    "HANGUL SYLLABLES GA",
    "HANGUL CHOSEONG KIYEOK",
    "HANGUL LETTER A",
    "GA",
];

pub fn nearly_names() -> Vec<Vec<u8>> {
    let texts = NEARLY_NAMES.iter();
    texts.map(|text| text.as_bytes().to_vec()).collect()
}

fn with_prefix(syllable: &[&str]) -> Vec<u8> {
    [PREFIX, &syllable.concat()].concat().into_bytes()
}

/// The prefix and each choice of one string from each of the three.
fn products(initials: &[&str], peaks: &[&str], finals: &[&str]) -> Vec<Vec<u8>> {
    let mut names = Vec::new();
    for initial in initials {
        for peak in peaks {
            names.extend(
                finals
                    .iter()
                    .map(|last| with_prefix(&[initial, peak, last])),
            );
        }
    }
    names
}

/// Source document 003 prints the last peak as a figure one and the ninth as a figure zero.
pub fn with_figures() -> Vec<Vec<u8>> {
    products(&INITIALS, &["1", "0", "0E", "Y0", "W1", "Y1"], &FINALS)
}

/// Initial and peak fit, and no final does.
pub fn without_final() -> Vec<Vec<u8>> {
    products(&INITIALS, &PEAKS, &NO_FINALS)
}

pub fn without_initial() -> Vec<Vec<u8>> {
    products(&NO_INITIALS, &PEAKS, &FINALS)
}

pub fn without_peak() -> Vec<Vec<u8>> {
    products(&INITIALS, &NO_PEAKS, &FINALS)
}

/// One string of the three is of no list, and the others are a few.
pub fn with_foreign_strings() -> Vec<Vec<u8>> {
    let mut names = products(&NO_INITIALS, &["A", "YEO", "I"], &["", "GG"]);
    names.extend(products(&["", "G", "SS"], &NO_PEAKS, &["", "NG", "H"]));
    names.extend(products(&["", "GG", "H"], &["A", "WAE", "I"], &NO_FINALS));
    names
}

/// The names of some syllables with letters of other scripts.
pub fn with_look_alikes() -> Vec<Vec<u8>> {
    let mut names = Vec::new();
    for (letter, other) in LOOK_ALIKES {
        for syllable in ["GA", "BYEOC", "PWIBS", "TEOK", "HIH", "YI", "KOT"] {
            let changed = syllable.replace(letter, other);
            if changed != syllable {
                names.push(with_prefix(&[&changed]));
            }
        }
    }
    let prefixes = LOOK_ALIKES.map(|(letter, other)| PREFIX.replacen(letter, other, 1));
    let changed = prefixes.into_iter().filter(|prefix| prefix != PREFIX);
    names.extend(changed.map(|prefix| (prefix + "GA").into_bytes()));
    names
}

/// Every beginning and every ending of a name, the whole among them.
pub fn beginnings_and_endings(name: &[u8]) -> Vec<Vec<u8>> {
    let places = 0..=name.len();
    places
        .flat_map(|place| [name[..place].to_vec(), name[place..].to_vec()])
        .collect()
}

/// The name without each byte of the syllable's own part in turn; some of these are names too.
pub fn without_each_letter(name: &[u8]) -> Vec<Vec<u8>> {
    let places = PREFIX.len()..name.len();
    places
        .map(|place| with(name, place..place + 1, &[]))
        .collect()
}

/// The name with a byte lost, changed by one bit or to a tempting byte, and with one put in, at
/// each place.
pub fn damaged_at_each_place(name: &[u8]) -> Vec<Vec<u8>> {
    let mut names = Vec::new();
    for place in 0..name.len() {
        names.push(with(name, place..place + 1, &[]));
        for bit in 0..8 {
            names.push(with(name, place..place + 1, &[name[place] ^ (1 << bit)]));
        }
        for byte in TEMPTING_BYTES {
            names.push(with(name, place..place + 1, &[byte]));
            names.push(with(name, place..place, &[byte]));
        }
    }
    let after = TEMPTING_BYTES.iter();
    names.extend(after.map(|&byte| [name, &[byte]].concat()));
    names
}

/// The prefix and every string of so many capitals: all short names are among them.
pub fn every_short_syllable(length: usize) -> Vec<Vec<u8>> {
    let capitals: Vec<[u8; 1]> = (b'A'..=b'Z').map(|letter| [letter]).collect();
    let syllables = crate::byte_texts::sequences(&capitals, length);
    syllables
        .iter()
        .map(|syllable| [PREFIX.as_bytes(), syllable].concat())
        .collect()
}

fn any_name(random: &mut Random) -> Vec<u8> {
    name_of(random.between(0xAC00, 0xD7A3))
}

fn capital(random: &mut Random) -> u8 {
    random.between(0x41, 0x5A) as u8
}

/// A place of a name: mostly in the syllable's own part, where a fault may give another name.
fn place_in(random: &mut Random, name: &[u8]) -> usize {
    if random.one_in(4) {
        random.below(name.len())
    } else {
        PREFIX.len() + random.below(name.len() - PREFIX.len())
    }
}

/// How many sorts of fault there are.
pub const FAULTS: usize = 12;

/// The name with a fault of the given sort, at a seeded place.
pub fn with_fault(random: &mut Random, name: &[u8], fault: usize) -> Vec<u8> {
    let place = place_in(random, name);
    let own = &name[PREFIX.len()..];
    match fault {
        0 => with(name, place..place + 1, &[]),
        1 => [name, &[capital(random)]].concat(),
        2 => [name, &[random.pick(&TEMPTING_BYTES)]].concat(),
        3 => [&[random.pick(&TEMPTING_BYTES)], name].concat(),
        4 => [&[capital(random)], name].concat(),
        5 => with(name, place..place + 1, &[name[place].to_ascii_lowercase()]),
        6 => name.to_ascii_lowercase(),
        7 => [name, &any_name(random)[..]].concat(),
        8 => [name, &any_name(random)[PREFIX.len()..]].concat(),
        9 => with(name, place..place + 1, &[capital(random)]),
        10 => with(
            name,
            place..place + 1,
            &[name[place] ^ (1 << random.below(8))],
        ),
        _ => [PREFIX.as_bytes(), &[capital(random)], own].concat(),
    }
}

/// Strings of the three lists in any order and number, after the prefix.
fn strings_of_the_lists(random: &mut Random) -> Vec<u8> {
    let mut syllable = Vec::new();
    for _ in 0..random.below(5) {
        syllable.push(match random.below(3) {
            0 => random.pick(&INITIALS),
            1 => random.pick(&PEAKS),
            _ => random.pick(&FINALS),
        });
    }
    with_prefix(&syllable)
}

/// One string of each list in its place; one of the three, half of the time, of no list.
fn strings_in_order(random: &mut Random) -> Vec<u8> {
    let mut strings = [
        random.pick(&INITIALS),
        random.pick(&PEAKS),
        random.pick(&FINALS),
    ];
    match random.below(6) {
        0 => strings[0] = random.pick(&NO_INITIALS),
        1 => strings[1] = random.pick(&NO_PEAKS),
        2 => strings[2] = random.pick(&NO_FINALS),
        _ => {}
    }
    with_prefix(&strings)
}

/// Seeded bytes: a name, a name with one fault or more, what is made of the lists' strings, or
/// anything of the given length.
pub fn bytes(random: &mut Random, length: usize) -> Vec<u8> {
    match random.below(10) {
        0 | 1 => any_name(random),
        2..=4 => {
            let name = any_name(random);
            let fault = random.below(FAULTS);
            with_fault(random, &name, fault)
        }
        5 | 6 => strings_in_order(random),
        7 => strings_of_the_lists(random),
        8 => {
            let mut bytes = any_name(random);
            bytes.resize(length, random.pick(&TEMPTING_BYTES));
            bytes
        }
        _ => (0..length).map(|_| random.number() as u8).collect(),
    }
}
