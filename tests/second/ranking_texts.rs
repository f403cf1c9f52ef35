// Mean pairs of labels: numbers of every length, both spellings, and labels that nearly are equal.
// It makes no whole calls and decides no answers, but for the labels in order that the rules give.

use crate::byte_texts::{repeated, sequences, with, with_damage};
use crate::joining::joined;
use crate::letters::{full_parts_of_text, is_bad, LIMIT};
use crate::random::Random;
use crate::ranking::is_digit;
use crate::texts;
use crate::utf8::{read, written};
use crate::wire::MOST_ELEMENTS;

/// Two labels that are ranked against each other.
pub type Pair<Element> = (Vec<Element>, Vec<Element>);

/// Labels in rising order; those on one line rank equal. From the rules alone: numbers by value,
/// before code points; the beginning first; joined before all else; only ASCII digits are digits.
#[rustfmt::skip]
pub const IN_ORDER: [&[&str]; 75] = [
    &[""],
    &["0", "00", "0000000000000000000000000000000000000000000"],
    &["0\0"],
    &["0 ", "00 "],
    &["0 0", "00 000"],
    &["0 2", "00 02"],
    &["0 10"],
    &["1", "01"],
    &["1A", "01A"],
    &["2", "02"],
    &["7", "07", "0000000000000000000000000000000000000000007"],
    &["7 ", "07 "],
    &["9"],
    &["10", "010"],
    &["10.2"],
    &["10.10", "010.0010"],
    &["99"],
    &["100"],
    &["255"],
    &["256"],
    &["4294967295"],
    &["4294967296", "04294967296"],
    &["18446744073709551615"],
    &["18446744073709551616", "0018446744073709551616"],
    &["340282366920938463463374607431768211455"],
    &["340282366920938463463374607431768211456"],
    &["\0"],
    &[" "],
    &["/"],
    &["/9"],
    &[":"],
    &["A"],
    &["A0", "A00"],
    &["A2", "A02"],
    &["A2B"],
    &["A10"],
    &["A10B2", "A10B02"],
    &["A10B10"],
    &["A\0"],
    &["A "],
    &["AA"],
    &["B"],
    &["\u{B2}"],
    &["\u{661}"],
    &["\u{1100}"],
    &["\u{1100}1\u{1161}", "\u{1100}01\u{1161}"],
    &["\u{1100}\u{11A7}\u{11A8}"],
    &["\u{1100}\u{302E}\u{1161}"],
    &["\u{1100}\u{AC00}", "\u{1100}\u{1100}\u{1161}"],
    &["\u{115A}\u{1161}"],
    &["\u{1161}"],
    &["\u{11A7}"],
    &["\u{11A8}"],
    &["\u{11FF}"],
    &["\u{A960}\u{1161}\u{11A8}"],
    &["\u{A960}\u{AC00}", "\u{A960}\u{1100}\u{1161}"],
    &["\u{AC00}", "\u{1100}\u{1161}"],
    &["\u{AC00}7", "\u{1100}\u{1161}07"],
    &["\u{AC00}10", "\u{1100}\u{1161}10"],
    &["\u{AC00}10\u{11A8}", "\u{1100}\u{1161}010\u{11A8}"],
    &["\u{AC00}\u{11A7}", "\u{1100}\u{1161}\u{11A7}"],
    &["\u{AC01}", "\u{AC00}\u{11A8}", "\u{1100}\u{1161}\u{11A8}"],
    &["\u{AC01}\u{11A8}", "\u{AC00}\u{11A8}\u{11A8}", "\u{1100}\u{1161}\u{11A8}\u{11A8}"],
    &["\u{D478}\u{B978} 2", "\u{1111}\u{116E}\u{1105}\u{1173}\u{11AB} 02"],
    &["\u{D478}\u{B978} 10", "\u{1111}\u{116E}\u{B974}\u{11AB} 10"],
    &["\u{D7A3}", "\u{D788}\u{11C2}", "\u{1112}\u{1175}\u{11C2}"],
    &["\u{D7B0}"],
    &["\u{D7FB}"],
    &["\u{FF11}"],
    &["\u{FF12}"],
    &["\u{FFFD}"],
    &["\u{10000}"],
    &["\u{1D7CF}"],
    &["\u{1D7CF}0"],
    &["\u{10FFFF}"],
];

/// Pairs of bytes that rank equal, though they differ: ill-formed subparts rank as one FFFD each.
#[rustfmt::skip]
pub const EQUAL_BYTES: [(&[u8], &[u8]); 8] = [
    (&[0x80], &[0xFF]),
    (&[0xEF, 0xBF, 0xBD], &[0xF1, 0x80, 0x80]),
    (&[0x37, 0x80], &[0x30, 0x37, 0xEF, 0xBF, 0xBD]),
    (&[0x31, 0xE1, 0x84, 0x32], &[0x31, 0xEF, 0xBF, 0xBD, 0x30, 0x32]),
    (&[0xE1, 0x84, 0x80, 0xE1, 0x20, 0xA1, 0xE1, 0x86, 0xA8],
     &[0xE1, 0x84, 0x80, 0xFF, 0x20, 0xFF, 0xE1, 0x86, 0xA8]),
    (&[0xE1, 0x84, 0x80, 0xE1, 0x85, 0xA1, 0xE1, 0x86], &[0xEA, 0xB0, 0x80, 0xC2]),
    (&[0xC0, 0xB1], &[0xFF, 0xFF]),
    (&[0xEA, 0xB0, 0x80, 0xE1, 0x86, 0xA8, 0x30, 0x39], &[0xEA, 0xB0, 0x81, 0x39]),
];

/// Pairs of bytes of which the first comes before: damage is no digit and parts numbers.
#[rustfmt::skip]
pub const RISING_BYTES: [(&[u8], &[u8]); 8] = [
    (&[0x31, 0x80, 0x39], &[0x32]),
    (&[0x31], &[0x31, 0x80]),
    (&[0x39], &[0x80]),
    (&[0x80, 0x31], &[0x80, 0x80]),
    (&[0xE1, 0x84], &[0xE1, 0xE1]),
    (&[0xE1, 0x84, 0x80, 0x80, 0xE1, 0x85, 0xA1], &[0xE1, 0x84, 0x80, 0xE1, 0x85, 0xA1]),
    (&[0x80], &[0xF0, 0x90, 0x80, 0x80]),
    (&[0x31, 0xC0, 0xB1], &[0x31, 0x31]),
];

/// Digits of other scripts, numbers that are no digits, and what is a digit again when bits are
/// lost or is next to the digits.
pub const LOOK_ALIKE_DIGITS: [u32; 20] = [
    0x2F, 0x3A, 0x00, 0xB2, 0xBD, 0x130, 0x139, 0x661, 0x6F0, 0x966, 0x2460, 0x3007, 0x3030,
    0xAC30, 0xFF10, 0xFF11, 0x1_0031, 0x1_D7CE, 0x1_F101, 0x10_0030,
];

/// Of these every short text is made, and each of them is ranked against each.
const SHORT_ALPHABET: [u32; 7] = [0x30, 0x31, 0x39, 0x41, 0x1100, 0x1161, 0x11A8];

/// The same of bytes: digits, and what may be a letter, damage, or damage that a letter ends.
const SHORT_BYTES: [&[u8]; 7] = [
    &[0x30],
    &[0x37],
    &[0x80],
    &[0xE1, 0x84],
    &[0xE1, 0x84, 0x80],
    &[0xE1, 0x85, 0xA1],
    &[0xEF, 0xBF, 0xBD],
];

pub fn codes_of(label: &str) -> Vec<u32> {
    label.chars().map(u32::from).collect()
}

/// Each with each.
pub fn each_with_each<Element: Clone>(labels: &[Vec<Element>]) -> Vec<Pair<Element>> {
    let mut pairs = Vec::with_capacity(labels.len() * labels.len());
    for first in labels {
        pairs.extend(labels.iter().map(|second| (first.clone(), second.clone())));
    }
    pairs
}

pub fn labels_in_order() -> Vec<Vec<u32>> {
    let labels = IN_ORDER.iter().flat_map(|equals| equals.iter());
    labels.map(|label| codes_of(label)).collect()
}

/// Each of the labels in order with itself and its neighbours in the list, either way round.
pub fn neighbours_in_order() -> Vec<Pair<u32>> {
    let labels = labels_in_order();
    let windows = labels.windows(2);
    windows.flat_map(each_with_each).collect()
}

pub fn short_pairs() -> Vec<Pair<u32>> {
    each_with_each(&texts::short_texts(&SHORT_ALPHABET, 3))
}

pub fn short_byte_pairs() -> Vec<Pair<u8>> {
    let lengths = 0..=3;
    let labels: Vec<Vec<u8>> = lengths
        .flat_map(|length| sequences(&SHORT_BYTES, length))
        .collect();
    each_with_each(&labels)
}

/// Codes against a number, and against the next code: all low ones, those of letters and at the
/// boundaries, the look-alikes, and every so many of the others.
pub fn codes_beside_numbers(step: usize) -> Vec<Pair<u32>> {
    let some = texts::scalar_values().into_iter().step_by(step);
    let codes = (0..0x3000)
        .chain(texts::boundary_codes())
        .chain(LOOK_ALIKE_DIGITS)
        .chain(some)
        .filter(|&code| !is_bad(code));
    let mut pairs = Vec::new();
    for code in codes {
        pairs.push((vec![code], vec![0x37]));
        pairs.push((vec![0x41, 0x37, 0x30], vec![0x41, 0x37, code]));
        if !is_bad(code + 1) {
            pairs.push((vec![code], vec![code + 1]));
        }
    }
    pairs
}

/// A long text, with every sort of code point in it, against its other spelling.
pub fn spellings_of_all(length: usize) -> Vec<Pair<u32>> {
    let values = texts::scalar_values();
    let blocks = values.chunks(length);
    let spelled = blocks.map(|block| (block.to_vec(), full_parts_of_text(block)));
    spelled.collect()
}

/// Digits that differ from their neighbours; the first is no zero.
fn digit_run(length: usize) -> Vec<u32> {
    repeated(&codes_of("7319042586"), length)
}

/// Numbers of so many digits and more that differ in one digit, in length, or in zeros only.
fn long_numbers(length: usize) -> Vec<Pair<u32>> {
    let run = digit_run(length);
    let zeros = vec![0x30; length];
    let other_digit = |place: usize| with(&run, place..place + 1, &[run[place] ^ 1]);
    let mut pairs: Vec<Pair<u32>> = [0, 1, length / 2, length - 2, length - 1]
        .map(|place| (run.clone(), other_digit(place)))
        .to_vec();
    let last = &run[length - 1000..];
    let one = with(&zeros, length - 1..length, &[0x31]);
    pairs.extend([
        (run.clone(), run.clone()),
        (run.clone(), run[..length - 1].to_vec()),
        (run.clone(), run[1..].to_vec()),
        ([&zeros[1000..], last].concat(), last.to_vec()),
        ([&zeros[1001..], last].concat(), [&[0x30], last].concat()),
        ([&zeros[1000..], last].concat(), run.clone()),
        (zeros.clone(), codes_of("0")),
        (zeros.clone(), codes_of("")),
        (zeros.clone(), zeros[1..].to_vec()),
        (zeros.clone(), one.clone()),
        (one.clone(), codes_of("1")),
        (one.clone(), codes_of("2")),
        (one, codes_of("10")),
        (run, codes_of("A")),
    ]);
    pairs
}

/// A long number within a label, with zeros before it, and with another one or more after.
fn numbers_within() -> Vec<Pair<u32>> {
    let run = digit_run(5_000);
    let label = |front: &str, zeros: usize, after: &str| {
        let zeros = vec![0x30; zeros];
        [codes_of(front), zeros, run.clone(), codes_of(after)].concat()
    };
    let mut pairs = Vec::new();
    for after in ["", "0", "A", "B2", "B10", "\u{11A8}"] {
        for zeros in [0, 1, 300, 5_000] {
            pairs.push((label("A", 0, "A"), label("A", zeros, after)));
            pairs.push((
                label("\u{1100}\u{1161}", zeros, after),
                label("\u{AC00}", 0, "B10"),
            ));
        }
    }
    pairs
}

/// Long texts of one pattern, against themselves, a beginning, and with a change at the end.
fn long_patterns(length: usize) -> Vec<Pair<u32>> {
    let mut pairs = Vec::new();
    for pattern in ["A", "A1", "01", "1 ", "10A02"] {
        let text: Vec<u32> = repeated(&codes_of(pattern), length);
        for last in ["", "0", "9", "A", "Z"] {
            pairs.push((
                text.clone(),
                [&text[..length - 1], &codes_of(last)].concat(),
            ));
        }
    }
    pairs
}

/// Labels as long as the limit allows, and nearly: all of ASCII, so that their bytes are too.
pub fn long_pairs() -> Vec<Pair<u32>> {
    let mut pairs = long_numbers(LIMIT);
    pairs.extend(numbers_within());
    pairs.extend(long_patterns(LIMIT));
    pairs.extend(long_numbers(4_096));
    pairs
}

/// Short and long, up to the limit and over it, good and spoilt, each against each: the checks go
/// 1 for the first, 1 for the second, 2 for the first, 2 for the second.
pub fn refused_pairs() -> Vec<Pair<u32>> {
    let lengths = [3, LIMIT, LIMIT + 1, MOST_ELEMENTS as usize];
    let good = lengths.map(|length| repeated(&codes_of("A07"), length));
    let mut labels = good.to_vec();
    for (place, bad) in [(2, 0xD800), (0, 0x11_0000), (1, 0xDFFF)] {
        labels.extend(
            good.iter()
                .map(|label| with(label, place..place + 1, &[bad])),
        );
    }
    // The bad one stands at the very end, or after the limit.
    for label in &good {
        labels.push(with(label, label.len() - 1..label.len(), &[0xFFFF_FFFF]));
    }
    each_with_each(&labels)
}

/// The same of bytes, of which none is bad.
pub fn refused_byte_pairs() -> Vec<Pair<u8>> {
    let mut labels = Vec::new();
    for length in [0, 3, LIMIT - 1, LIMIT, LIMIT + 1, MOST_ELEMENTS as usize] {
        labels.push(repeated(b"A07", length));
        labels.push(repeated(&[0x80], length));
        labels.push(repeated(
            &[0xE1, 0x84, 0x80, 0xE1, 0x85, 0xA1, 0x37],
            length,
        ));
    }
    each_with_each(&labels)
}

fn digit(random: &mut Random) -> u32 {
    random.between(0x30, 0x39)
}

/// A run of digits, some of them zeros in front; mostly short.
fn number(random: &mut Random) -> Vec<u32> {
    let zeros = match random.below(3) {
        0 => random.below(4),
        _ => 0,
    };
    let count = match random.below(12) {
        0 => random.below(45),
        _ => 1 + random.below(3),
    };
    let mut number = vec![0x30; zeros];
    number.extend((0..count).map(|_| digit(random)));
    number
}

/// A few code points: much of few sorts, so that labels are often alike.
fn piece(random: &mut Random) -> Vec<u32> {
    match random.below(9) {
        0..=2 => number(random),
        3 => vec![random.pick(&[0x20, 0x41, 0x42])],
        4 => vec![random.pick(&LOOK_ALIKE_DIGITS)],
        5 => {
            let count = 1 + random.below(4);
            texts::joining_text(random, count)
        }
        6 => vec![0x1100, digit(random), 0x1161],
        7 => vec![random.pick(&[
            0xAC00, 0xAC01, 0xAC02, 0xAC1C, 0x1100, 0x1161, 0x11A7, 0x11A8, 0xA960, 0xD7B0, 0xD7CB,
        ])],
        _ => vec![texts::good_code(random)],
    }
}

/// A good label of the given length; it may be cut within a piece.
pub fn label(random: &mut Random, length: usize) -> Vec<u32> {
    let mut label = Vec::with_capacity(length + 48);
    while label.len() < length {
        label.extend(piece(random));
    }
    label.truncate(length);
    label
}

/// The place of some digit, or of any code point where there is none; None of no text.
fn place_of_digit(random: &mut Random, label: &[u32]) -> Option<usize> {
    let digits: Vec<usize> = (0..label.len())
        .filter(|&place| is_digit(label[place]))
        .collect();
    match (label.len(), digits.len()) {
        (0, _) => None,
        (length, 0) => Some(random.below(length)),
        _ => Some(random.pick(&digits)),
    }
}

/// The next code point, or the one before; a bad one stays as it was.
fn beside(random: &mut Random, code: u32) -> u32 {
    let other = match random.one_in(2) {
        true => code.saturating_add(1),
        false => code.saturating_sub(1),
    };
    match is_bad(other) {
        true => code,
        false => other,
    }
}

/// The label with one change, after which it may rank as before or only a little apart.
fn changed(random: &mut Random, label: &[u32]) -> Vec<u32> {
    let place = random.below(label.len().max(1));
    let at_digit = place_of_digit(random, label);
    let zeros = vec![0x30; 1 + random.below(40)];
    match (random.below(11), at_digit) {
        (0, _) => full_parts_of_text(label),
        (1, _) => joined(label),
        (2, Some(at)) => with(label, at..at + 1, &[digit(random)]),
        (3, Some(at)) => with(label, at..at, &zeros),
        (4, Some(at)) => with(label, at..at, &[digit(random)]),
        (5, Some(at)) => with(label, at..at + 1, &[]),
        (6, _) => label[..place].to_vec(),
        (7, _) => [label, &piece(random)].concat(),
        (8, Some(_)) => with(label, place..place + 1, &[beside(random, label[place])]),
        (9, _) => with(label, place..place, &piece(random)),
        _ => label.to_vec(),
    }
}

/// Two labels, neither longer than the wire form's bound: longer ones would end the program.
fn bounded<Element>((mut first, mut second): Pair<Element>) -> Pair<Element> {
    first.truncate(MOST_ELEMENTS as usize);
    second.truncate(MOST_ELEMENTS as usize);
    (first, second)
}

/// Two good labels, the first of the given length: the second is another of that length or, more
/// often, the first one changed once or twice.
pub fn pair(random: &mut Random, length: usize) -> Pair<u32> {
    let first = label(random, length);
    let second = match random.below(6) {
        0 => label(random, length),
        1 => {
            let once = changed(random, &first);
            changed(random, &once)
        }
        _ => changed(random, &first),
    };
    bounded(match random.one_in(2) {
        true => (first, second),
        false => (second, first),
    })
}

/// Two labels in bytes: whole, one of them damaged, one with more damage than the other, or damaged
/// and with a true FFFD for each ill-formed subpart.
pub fn byte_pair(random: &mut Random, length: usize) -> Pair<u8> {
    let (first, second) = pair(random, length);
    let (first, second) = (written(&first), written(&second));
    bounded(match random.below(5) {
        0 => (with_damage(random, first), second),
        1 => (first, with_damage(random, second)),
        2 => {
            let damaged = with_damage(random, first);
            (damaged.clone(), with_damage(random, damaged))
        }
        3 => {
            let damaged = with_damage(random, first);
            (written(&read(&damaged).codes), damaged)
        }
        _ => (first, second),
    })
}
