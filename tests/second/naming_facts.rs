// Facts about names: known ones, the Standard's rule NR1, and what the rules promise of them.
// It runs no program and makes no cases; it holds only the definitions of names to account.

use crate::facts::Facts;
use crate::letter_facts::state_for_all_syllables;
use crate::letters::{full_parts, Refusal, LIMIT};
use crate::name_reading_cases::{name_call, NAME_READING};
use crate::name_texts;
use crate::naming::*;
use crate::naming_cases::{naming_call, NAMING};
use crate::published_names;
use crate::random::Random;
use std::collections::HashSet;

pub fn state_all(facts: &mut Facts) {
    known_names(facts);
    lists(facts);
    naming_over_all_syllables(facts);
    names_as_published(facts);
    reading_is_a_search(facts);
    seeded_bytes(facts);
    refused_for_naming(facts);
    refused_for_reading(facts);
    answers(facts);
    files_of_names(facts);
}

/// The rules' marked cases, chapter 3's example, the ends, and words that any reader knows.
fn known_names(facts: &mut Facts) {
    let known = [
        (0xC544, "HANGUL SYLLABLE A"),
        (0xD4DE, "HANGUL SYLLABLE PWIBS"),
        (0xD7A3, "HANGUL SYLLABLE HIH"),
        (0xAC01, "HANGUL SYLLABLE GAG"),
        (0xD4DB, "HANGUL SYLLABLE PWILH"),
        (0xAC00, "HANGUL SYLLABLE GA"),
        (0xD55C, "HANGUL SYLLABLE HAN"),
        (0xAE00, "HANGUL SYLLABLE GEUL"),
        (0xAE4C, "HANGUL SYLLABLE GGA"),
        (0xB2ED, "HANGUL SYLLABLE DALG"),
        (0xAC12, "HANGUL SYLLABLE GABS"),
        (0xC774, "HANGUL SYLLABLE I"),
        (0xC624, "HANGUL SYLLABLE O"),
        (0xC758, "HANGUL SYLLABLE YI"),
        (0xC6E8, "HANGUL SYLLABLE WE"),
        (0xC6CC, "HANGUL SYLLABLE WEO"),
        (0xC655, "HANGUL SYLLABLE WANG"),
        (0xAEA2, "HANGUL SYLLABLE GGYAEGG"),
    ];
    for (code, name) in known {
        let fact = format!("{code:04X} is {name}");
        facts.state(&fact, name_of(code) == name.as_bytes());
        let fact = format!("{name} is {code:04X}");
        facts.state(&fact, named(name.as_bytes()) == Some(code));
    }
}

/// Peaks are made of other letters than initials and finals, and no list has a string twice: so
/// the three strings of a name can be told apart in one way only.
fn lists(facts: &mut Facts) {
    let all_of = |list: &[&str], letters: &str| {
        let mut letters_used = list.iter().flat_map(|string| string.chars());
        letters_used.all(|letter| letters.contains(letter))
    };
    let consonants = "BCDGHJKLMNPRST";
    facts.state("initials are consonants", all_of(&INITIALS, consonants));
    facts.state("peaks are vowels", all_of(&PEAKS, "AEIOUWY"));
    facts.state("finals are consonants", all_of(&FINALS, consonants));
    facts.state("no peak is empty", !PEAKS.contains(&""));
    for (name, list) in [
        ("initials", &INITIALS[..]),
        ("peaks", &PEAKS),
        ("finals", &FINALS),
    ] {
        let distinct: HashSet<&str> = list.iter().copied().collect();
        let fact = format!("no two {name} are the same");
        facts.state(&fact, distinct.len() == list.len());
    }
    facts.state("the prefix has 16 bytes", PREFIX.len() == 16);
}

/// Jamo_Short_Name, by the letter's code point.
fn short_name(letter: u32) -> &'static str {
    match letter {
        0x1100..=0x1112 => INITIALS[(letter - 0x1100) as usize],
        0x1161..=0x1175 => PEAKS[(letter - 0x1161) as usize],
        0x11A8..=0x11C2 => FINALS[(letter - 0x11A7) as usize],
        _ => "?",
    }
}

/// Rule NR1 of chapter 4: the prefix, and the short names of the full canonical decomposition.
fn name_by_rule(code: u32) -> Vec<u8> {
    let mut name = PREFIX.to_string();
    for letter in full_parts(code) {
        name += short_name(letter);
    }
    name.into_bytes()
}

fn naming_over_all_syllables(facts: &mut Facts) {
    state_for_all_syllables(facts, "names are the Standard's", |code| {
        name_of(code) == name_by_rule(code)
    });
    state_for_all_syllables(facts, "reading undoes naming", |code| {
        named(&name_of(code)) == Some(code)
    });
    state_for_all_syllables(facts, "names have 17 to 23 bytes", |code| {
        (SHORTEST..=LONGEST).contains(&name_of(code).len())
    });
    let names: Vec<Vec<u8>> = (0xAC00..=0xD7A3).map(name_of).collect();
    let distinct: HashSet<&Vec<u8>> = names.iter().collect();
    facts.state("no two names are the same", distinct.len() == 11_172);
    let expected = [5, 142, 1_256, 3_595, 4_066, 1_828, 280];
    for (length, expected) in (SHORTEST..=LONGEST).zip(expected) {
        let count = names.iter().filter(|name| name.len() == length).count();
        let fact = format!("{expected} names have {length} bytes");
        facts.state(&fact, count == expected);
    }
}

/// The FNV-1a sum of all names, a line each, as extracted/DerivedName.txt of the Unicode Character
/// Database 15.0 has them; another program took it from there.
const PUBLISHED_SUM: u64 = 0x0C49_4ECC_EE4F_96A3;

fn names_as_published(facts: &mut Facts) {
    let mut sum: u64 = 0xCBF2_9CE4_8422_2325;
    for code in 0xAC00..=0xD7A3 {
        let mut line = name_of(code);
        line.push(b'\n');
        for byte in line {
            sum = (sum ^ u64::from(byte)).wrapping_mul(0x0100_0000_01B3);
        }
    }
    facts.state("the names are as published", sum == PUBLISHED_SUM);
}

/// The peak's and the final's string looked for after the initial's.
fn searched_after(initial: u32, after: &[u8]) -> Option<u32> {
    for (peak, string) in (0..).zip(PEAKS) {
        if let Some(rest) = after.strip_prefix(string.as_bytes()) {
            let last = FINALS.iter().position(|string| string.as_bytes() == rest);
            if let Some(last) = last {
                return Some(0xAC00 + initial * 588 + peak * 28 + last as u32);
            }
        }
    }
    None
}

/// The name's three strings looked for in the lists, one within the other: the first three that
/// fit with nothing left over.
fn searched(name: &[u8]) -> Option<u32> {
    let own = name.strip_prefix(PREFIX.as_bytes())?;
    for (initial, string) in (0..).zip(INITIALS) {
        let after = own.strip_prefix(string.as_bytes());
        let found = after.and_then(|after| searched_after(initial, after));
        if found.is_some() {
            return found;
        }
    }
    None
}

fn reading_is_a_search(facts: &mut Facts) {
    state_for_all_syllables(facts, "a search finds every name", |code| {
        searched(&name_of(code)) == Some(code)
    });
    let agree = |names: &[Vec<u8>]| names.iter().all(|name| named(name) == searched(name));
    let refused = |names: &[Vec<u8>]| names.iter().all(|name| named(name).is_none());
    let short = name_texts::every_short_syllable(3);
    facts.state("short strings are read as searched", agree(&short));
    let read = short.iter().filter(|name| named(name).is_some()).count();
    facts.state("1256 names have three letters", read == 1_256);
    for (fact, names) in [
        ("no final of no list", name_texts::without_final()),
        ("no peak of no list", name_texts::without_peak()),
        ("no figure is a letter", name_texts::with_figures()),
        (
            "no letter of another script",
            name_texts::with_look_alikes(),
        ),
        ("no nearly name", name_texts::nearly_names()),
    ] {
        facts.state(fact, refused(&names) && agree(&names));
    }
    let names = name_texts::without_initial();
    facts.state("no initial of no list", refused(&names) && agree(&names));
}

/// The seeded cases are of both sorts, and read as a search reads them.
fn seeded_bytes(facts: &mut Facts) {
    let mut random = Random::new(13);
    let seeded: Vec<Vec<u8>> = (0..10_000)
        .map(|index| name_texts::bytes(&mut random, index % 40))
        .collect();
    let agree = seeded.iter().all(|name| named(name) == searched(name));
    facts.state("seeded bytes are read as searched", agree);
    let names = seeded.iter().filter(|name| named(name).is_some()).count();
    facts.state("many are names", names > 3_000);
    facts.state("and many are not", seeded.len() - names > 3_000);
}

fn refused_for_naming(facts: &mut Facts) {
    let others = (0..0xAC00).chain(0xD7A4..=0x10_FFFF);
    let refusal = Err(Refusal {
        number: 4,
        place: 0,
    });
    let all = others
        .into_iter()
        .all(|code| answer_of_naming(code, 23) == refusal);
    facts.state("all but syllables are refused with 4", all);
    for code in [0xD800, 0xDFFF, 0x11_0000, 0x8000_AC00, 0xFFFF_FFFF] {
        let refused = answer_of_naming(code, 0) == refusal;
        facts.state(&format!("{code:X} is refused with 4, not 2 or 3"), refused);
    }
    let lacking = |code, room| match answer_of_naming(code, room) {
        Err(Refusal { number: 3, place }) => place,
        _ => 0,
    };
    facts.state("AC00 needs 18", lacking(0xAC00, 17) == 18);
    facts.state("AC00 needs 18 in no room", lacking(0xAC00, 0) == 18);
    facts.state("18 are enough", answer_of_naming(0xAC00, 18).is_ok());
    state_for_all_syllables(facts, "23 are enough for any", |code| {
        answer_of_naming(code, 23).is_ok()
    });
}

fn refused_for_reading(facts: &mut Facts) {
    let refusal = |bytes: &[u8]| match answer_of_name(bytes) {
        Err(Refusal { number, place }) => (number, place),
        Ok(_) => (0, 0),
    };
    let mut long = name_of(0xAC01);
    long.resize(LIMIT, b' ');
    let mut over = long.clone();
    over.push(b' ');
    let cases: [(&str, &[u8], (u32, u32)); 9] = [
        ("HANGUL SYLLABLE G is refused", b"HANGUL SYLLABLE G", (5, 0)),
        ("the prefix is no name", b"HANGUL SYLLABLE ", (5, 0)),
        ("nothing is no name", b"", (5, 0)),
        ("a figure one is no I", b"HANGUL SYLLABLE G1", (5, 0)),
        ("a figure zero is no O", b"HANGUL SYLLABLE G0", (5, 0)),
        ("only capitals count", b"HANGUL SYLLABLE Ga", (5, 0)),
        ("16384 bytes are no name", &long, (5, 0)),
        ("16385 bytes are over the limit", &over, (1, 16_384)),
        ("a name is none of these", b"HANGUL SYLLABLE GAG", (0, 0)),
    ];
    for (fact, bytes, expected) in cases {
        facts.state(fact, refusal(bytes) == expected);
    }
}

/// The name in bytes and the rest of the buffer as it was; the syllable as value.
fn answers(facts: &mut Facts) {
    let answer = (NAMING.answer)(&naming_call(0xC544, 19));
    let mut lent: Vec<u32> = "HANGUL SYLLABLE A".chars().map(u32::from).collect();
    lent.extend([0xA5, 0xA5]);
    facts.state("a name stands in bytes", answer.lent == lent);
    let numbers = (answer.refusal, answer.value, answer.second, answer.third);
    facts.state("value is the name's length", numbers == (0, 17, 0, 0));
    let answer = (NAMING.answer)(&naming_call(0xC544, 16));
    facts.state("a name is written whole", answer.lent == [0xA5; 16]);
    let answer = (NAMING.answer)(&naming_call(0x41, 30));
    facts.state("what has no name leaves all", answer.lent == [0xA5; 30]);
    let answer = (NAME_READING.answer)(&name_call(b"HANGUL SYLLABLE A"));
    let numbers = (answer.refusal, answer.value, answer.second, answer.third);
    facts.state("value is the syllable", numbers == (0, 0xC544, 0, 0));
    facts.state("nothing is lent for it", answer.lent.is_empty());
}

/// Only the right file is taken: a wrong one could have nothing in it to disagree with.
fn files_of_names(facts: &mut Facts) {
    let (title, end) = ("# DerivedName-0.0.0.txt\n", "# EOF\n");
    let others = "0041          ; LATIN CAPITAL LETTER A\n4E00..9FFF    ; IDEOGRAPH-*\n";
    let mut whole = format!("{title}#\n\n{others}");
    for code in 0xAC00..=0xD7A3 {
        whole += &format!("{code:04X} ; {}\n", String::from_utf8_lossy(&name_of(code)));
    }
    whole += end;
    let counted =
        published_names::trials_of(&whole).map(|trials| (trials.syllables, trials.others));
    facts.state("a file of names is read", counted == Ok((11_172, 3)));
    let line = "D55C ; HANGUL SYLLABLE HAN\n";
    let wrong = [
        ("no title", whole.replace(title, "")),
        ("no end", whole.replace(end, "")),
        ("a name lost", whole.replace(line, "")),
        ("a name twice", whole.replace(line, &line.repeat(2))),
        ("a line cut", whole.replace(" ; HANGUL SYLLABLE HIH", "")),
        (
            "no name in a line",
            whole
                .replace("SYLLABLE HIH", "")
                .replace("; HANGUL \n", ";\n"),
        ),
        ("what is no number", whole.replace("0041", "004G")),
        ("nothing", String::new()),
    ];
    for (fault, text) in wrong {
        let refused = published_names::trials_of(&text).is_err();
        facts.state(&format!("a file of names with {fault} is refused"), refused);
    }
}
