// Facts about the simple form: the table of clusters, known cases, and what the rules promise.
// It runs no program and makes no cases; it holds only the definition of the form to account.

use crate::appendix;
use crate::facts::{refusal, Facts, TextCase};
use crate::joining::joined;
use crate::letter_facts::state_for_all_syllables;
use crate::letter_names::{spelled, PLACES};
use crate::letters::*;
use crate::random::Random;
use crate::simple::*;
use crate::simple_cases::SIMPLE;
use crate::simple_texts::{simple_text, OF_THREE};
use std::collections::{HashMap, HashSet};

pub fn state_all(facts: &mut Facts) {
    names(facts);
    spellings(facts);
    counts(facts);
    rule_of_the_tables(facts);
    table_as_printed(facts);
    known_rows(facts);
    known_rows_of_added_letters(facts);
    rows_that_stay(facts);
    known_forms(facts);
    forms_over_all_syllables(facts);
    forms_of_other_code_points(facts);
    forms_of_seeded_texts(facts);
    texts_refused_for_simple_form(facts);
    answers(facts);
}

fn names(facts: &mut Facts) {
    for (place, lists, expected) in [
        ("initials", PLACES[0], [90, 5, 29]),
        ("peaks", PLACES[1], [66, 5, 23]),
        ("finals", PLACES[2], [82, 6, 49]),
    ] {
        let counts = lists.map(|(_, names)| names.split(' ').count());
        let fact = format!("{expected:?} {place} have names");
        facts.state(&fact, counts == expected);
        let names = lists.iter().flat_map(|(_, names)| names.split(' '));
        let distinct: HashSet<&str> = names.collect();
        let all: usize = counts.iter().sum();
        facts.state(&format!("no two {place} share one"), distinct.len() == all);
    }
}

fn spellings(facts: &mut Facts) {
    let known = [
        ("PIEUP-SIOS-KIYEOK", "PIEUP SIOS KIYEOK"),
        ("SIOS-SSANGSIOS", "SIOS SIOS SIOS"),
        ("KAPYEOUNSSANGPIEUP", "PIEUP PIEUP IEUNG"),
        ("CHITUEUMSSANGSIOS", "CHITUEUMSIOS CHITUEUMSIOS"),
        ("CEONGCHIEUMCHIEUCH", "CEONGCHIEUMCHIEUCH"),
        ("PANSIOS", "PANSIOS"),
        ("WAE", "O A I"),
        ("YO", "YO"),
        ("O-YE", "O YEO I"),
        ("YI-U", "EU I U"),
        ("U-EO-EU", "U EO EU"),
        ("SSANGARAEA", "ARAEA ARAEA"),
        ("RIEUL-KAPYEOUNPIEUP", "RIEUL PIEUP IEUNG"),
        ("RIEUL-YEORINHIEUH", "RIEUL YEORINHIEUH"),
        ("IEUNG-SSANGKIYEOK", "IEUNG KIYEOK KIYEOK"),
        ("RIEUL-SSANGKIYEOK", "RIEUL KIYEOK KIYEOK"),
        ("SSANGSIOS-PIEUP", "SIOS SIOS PIEUP"),
        ("SSANGYEORINHIEUH", "YEORINHIEUH YEORINHIEUH"),
        ("PANSIOS-KAPYEOUNPIEUP", "PANSIOS PIEUP IEUNG"),
        ("KAPYEOUNRIEUL", "RIEUL IEUNG"),
        ("O-YAE", "O YA I"),
        ("U-I-I", "U I I"),
        ("ARAEA-E", "ARAEA EO I"),
    ];
    for (name, letters) in known {
        let fact = format!("{name} spells {letters}");
        facts.state(&fact, spelled(name).join(" ") == letters);
    }
}

/// The clusters and the simple letters that a list of ranges has, by the letters' names.
fn split_ranges(ranges: &[(u32, u32)]) -> (usize, usize) {
    let codes = ranges.iter().flat_map(|&(first, last)| first..=last);
    let (taken, whole): (Vec<u32>, Vec<u32>) = codes.partition(|&code| is_cluster(code));
    (taken.len(), whole.len())
}

/// How many clusters and how many simple letters there are: before Unicode 5.2 as in 002, table 1,
/// then with the letters that it added.
fn counts(facts: &mut Facts) {
    let expected: [(&str, &[(u32, u32)], usize, usize); 9] = [
        ("modern initials", &[(0x1100, 0x1112)], 5, 14),
        ("old initials in 002", &[(0x1113, 0x1159)], 62, 9),
        ("modern peaks", &[(0x1161, 0x1175)], 11, 10),
        ("old peaks in 002", &[(0x1176, 0x11A2)], 44, 1),
        ("modern finals", &[(0x11A8, 0x11C2)], 13, 14),
        ("old finals in 002", &[(0x11C3, 0x11F9)], 52, 3),
        ("letters that 5.2 added", &ADDED_RANGES, 117, 0),
        ("codes of the block", &[TABLE], 203, 53),
        ("letters outside", &EXTENDED, 101, 0),
    ];
    for (what, ranges, complex, simple) in expected {
        let fact = format!("{what}: {complex} clusters, {simple} others");
        facts.state(&fact, split_ranges(ranges) == (complex, simple));
    }
    facts.state("there are 304 clusters", clusters().len() == 304);
    let numbers = |codes: &mut dyn Iterator<Item = u32>| 3 * codes.filter_map(row_of).count();
    let block = numbers(&mut (TABLE.0..=TABLE.1));
    facts.state("the block's table has 768 numbers", block == 768);
    let both = numbers(&mut table_codes().into_iter());
    facts.state("that of the letters outside has 303", both == 768 + 303);
    let of_three = clusters()
        .into_iter()
        .filter(|&code| simple_letters(code).len() == 3);
    facts.state("66 clusters have three letters", of_three.eq(OF_THREE));
}

/// Initial, peak or final; None for all that is no letter.
fn place_of(code: u32) -> Option<&'static str> {
    match sort_of(code) {
        Sort::ModernInitial(_) | Sort::OldInitial(_) => Some("initial"),
        Sort::ModernPeak(_) | Sort::OldPeak(_) => Some("peak"),
        Sort::ModernFinal(_) | Sort::OldFinal(_) => Some("final"),
        _ => None,
    }
}

/// The rule of both tables together, and that a row is its code's letters or the code itself, zeros
/// after.
fn rule_of_the_tables(facts: &mut Facts) {
    let one_place = clusters().into_iter().all(|code| {
        let mut letters = simple_letters(code).into_iter();
        place_of(code).is_some() && letters.all(|letter| place_of(letter) == place_of(code))
    });
    facts.state("a cluster's letters are of its place", one_place);
    let alone = table_codes()
        .into_iter()
        .flat_map(simple_letters)
        .all(|letter| simple_letters(letter) == [letter] && letter <= TABLE.1);
    facts.state(
        "each letter's own row is that letter alone, in the block",
        alone,
    );
    let rows: Vec<[u32; 3]> = table_codes().into_iter().filter_map(row_of).collect();
    let distinct: HashSet<[u32; 3]> = rows.iter().copied().collect();
    facts.state(
        "no two rows are equal, in both tables",
        distinct.len() == 357,
    );
    let whole = table_codes()
        .into_iter()
        .filter(|&code| row_of(code) == Some([code, 0, 0]));
    facts.state("53 rows are their code alone", whole.count() == 357 - 304);
    let zeros_after = rows
        .iter()
        .all(|row| row[0] != 0 && (row[1] != 0 || row[2] == 0));
    facts.state("zeros stand after letters", zeros_after);
}

/// The other way to the table: the appendix, with the rules' corrections, the cluster that it
/// lacks, and no names. It is older than the letters that Unicode 5.2 added.
fn table_as_printed(facts: &mut Facts) {
    let printed = appendix::numbers(appendix::PRINTED);
    facts.state("188 rows are printed", printed.len() == 188);
    let mut letters: HashMap<u32, Vec<u32>> = HashMap::new();
    for row in &printed {
        let before = letters.insert(row[0], row[1..].to_vec());
        let as_known = match before {
            Some(before) => row[0] == appendix::TWICE && before == row[1..],
            None => true,
        };
        facts.state("no other row is printed twice", as_known);
    }
    facts.state("one row is", letters.len() == printed.len() - 1);
    for row in appendix::numbers(appendix::CORRECTIONS) {
        let printed = letters.insert(row[0], row[1..].to_vec());
        let wrong = printed.is_some_and(|printed| printed != row[1..]);
        facts.state(&format!("{:04X} is printed wrong", row[0]), wrong);
    }
    for row in appendix::numbers(appendix::MISSING) {
        let printed = letters.insert(row[0], row[1..].to_vec());
        facts.state(&format!("{:04X} is not printed", row[0]), printed.is_none());
    }
    let mut codes = (TABLE.0..=TABLE.1).filter(|&code| !is_added(code));
    let same = codes.all(|code| {
        let printed = letters.get(&code).cloned();
        printed.unwrap_or_else(|| vec![code]) == simple_letters(code)
    });
    facts.state("corrected, the printed table is that of the names", same);
    let none_added = letters.keys().all(|&code| !is_added(code));
    facts.state("no letter that 5.2 added is printed", none_added);
}

fn known_rows(facts: &mut Facts) {
    let known: [(u32, &[u32]); 27] = [
        (0x1140, &[0x1140]),
        (0x1153, &[0x110E, 0x1112]),
        (0x116A, &[0x1169, 0x1161]),
        (0x116B, &[0x1169, 0x1161, 0x1175]),
        (0x11B6, &[0x11AF, 0x11C2]),
        (0x11B7, &[0x11B7]),
        (0x1146, &[0x110B, 0x1140]),
        (0x1122, &[0x1107, 0x1109, 0x1100]),
        (0x1101, &[0x1100, 0x1100]),
        (0x112B, &[0x1107, 0x110B]),
        (0x112C, &[0x1107, 0x1107, 0x110B]),
        (0x113D, &[0x113C, 0x113C]),
        (0x1147, &[0x110B, 0x110B]),
        (0x1170, &[0x116E, 0x1165, 0x1175]),
        (0x11AA, &[0x11A8, 0x11BA]),
        (0x11BB, &[0x11BA, 0x11BA]),
        (0x118B, &[0x116E, 0x1165, 0x1173]),
        (0x118C, &[0x116E, 0x1167, 0x1175]),
        (0x118E, &[0x1172, 0x1161]),
        (0x1197, &[0x1173, 0x1175, 0x116E]),
        (0x119D, &[0x1175, 0x119E]),
        (0x11C8, &[0x11AB, 0x11EB]),
        (0x11CF, &[0x11AF, 0x11AE, 0x11C2]),
        (0x11D9, &[0x11AF, 0x11F9]),
        (0x11ED, &[0x11BC, 0x11A8, 0x11A8]),
        (0x11F1, &[0x11F0, 0x11BA]),
        (0x11F4, &[0x11C1, 0x11BC]),
    ];
    for (code, letters) in known {
        let fact = format!("{code:04X} is {letters:04X?}");
        facts.state(&fact, simple_letters(code) == letters);
    }
}

/// The ends of the ranges that Unicode 5.2 added, and every way of spelling in them.
fn known_rows_of_added_letters(facts: &mut Facts) {
    let known: [(u32, &[u32]); 27] = [
        (0x115A, &[0x1100, 0x1103]),
        (0x115E, &[0x1103, 0x1105]),
        (0x11A3, &[0x1161, 0x1173]),
        (0x11A6, &[0x1169, 0x1163]),
        (0x11A7, &[0x1169, 0x1163, 0x1175]),
        (0x11FA, &[0x11A8, 0x11AB]),
        (0x11FF, &[0x11AB, 0x11AB]),
        (0xA960, &[0x1103, 0x1106]),
        (0xA964, &[0x1105, 0x1100]),
        (0xA965, &[0x1105, 0x1100, 0x1100]),
        (0xA96B, &[0x1105, 0x1107, 0x110B]),
        (0xA975, &[0x1109, 0x1109, 0x1107]),
        (0xA976, &[0x110B, 0x1105]),
        (0xA97C, &[0x1159, 0x1159]),
        (0xD7B0, &[0x1169, 0x1167]),
        (0xD7B1, &[0x1169, 0x1169, 0x1175]),
        (0xD7B3, &[0x116D, 0x1161, 0x1175]),
        (0xD7B6, &[0x116E, 0x1175, 0x1175]),
        (0xD7C0, &[0x1175, 0x1167, 0x1175]),
        (0xD7C5, &[0x119E, 0x1161]),
        (0xD7C6, &[0x119E, 0x1165, 0x1175]),
        (0xD7CB, &[0x11AB, 0x11AF]),
        (0xD7DB, &[0x11AF, 0x11F0]),
        (0xD7DC, &[0x11AF, 0x11F9, 0x11C2]),
        (0xD7DD, &[0x11AF, 0x11BC]),
        (0xD7F4, &[0x11EB, 0x11B8, 0x11BC]),
        (0xD7FB, &[0x11C1, 0x11C0]),
    ];
    for (code, letters) in known {
        let fact = format!("{code:04X} is {letters:04X?}");
        facts.state(&fact, simple_letters(code) == letters);
    }
}

/// The letters that are alone in their rows, by the letters' names, and the fillers.
fn rows_that_stay(facts: &mut Facts) {
    facts.state(
        "the fillers stay whole",
        [0x115F, 0x1160].into_iter().all(|code| !is_cluster(code)),
    );
    let lists: [(&str, &[u32]); 3] = [
        ("initial", &SIMPLE_INITIALS),
        ("peak", &SIMPLE_PEAKS),
        ("final", &SIMPLE_FINALS),
    ];
    for (place, list) in lists {
        let simple = table_codes()
            .into_iter()
            .filter(|&code| place_of(code) == Some(place) && !is_cluster(code));
        let fact = format!("{} letters are a simple {place}", list.len());
        facts.state(&fact, simple.eq(list.iter().copied()));
    }
    let old = table_codes().into_iter().filter(|&code| {
        let modern = [0x1100..=0x1112, 0x1161..=0x1175, 0x11A8..=0x11C2];
        let modern = modern.iter().any(|range| range.contains(&code));
        place_of(code).is_some() && !modern && !is_cluster(code)
    });
    let simple = [
        0x113C, 0x113E, 0x1140, 0x114C, 0x114E, 0x1150, 0x1154, 0x1155, 0x1159, 0x119E, 0x11EB,
        0x11F0, 0x11F9,
    ];
    facts.state("thirteen old letters are simple", old.eq(simple));
}

/// Marked case 1, 002's own examples, and words that any reader knows.
fn known_forms(facts: &mut Facts) {
    let known: [(&[u32], &[u32]); 18] = [
        (&[0xAC03], &[0x1100, 0x1161, 0x11A8, 0x11BA]),
        (&[0x1169, 0x1162], &[0x1169, 0x1161, 0x1175]),
        (&[0x116A, 0x1175], &[0x1169, 0x1161, 0x1175]),
        (&[0xAC1C], &[0x1100, 0x1161, 0x1175]),
        (&[0x1122, 0x1161], &[0x1107, 0x1109, 0x1100, 0x1161]),
        (&[0x1107, 0xAC01], &[0x1107, 0x1100, 0x1161, 0x11A8]),
        (&[0xB2ED], &[0x1103, 0x1161, 0x11AF, 0x11A8]),
        (&[0xAC0C], &[0x1100, 0x1161, 0x11AF, 0x11BA]),
        (&[0xAE4C], &[0x1100, 0x1100, 0x1161]),
        (
            &[0xAC00, 0x11A7, 0x0000],
            &[0x1100, 0x1161, 0x1169, 0x1163, 0x1175, 0],
        ),
        (&[0xA960, 0x1161], &[0x1103, 0x1106, 0x1161]),
        (&[0x115A], &[0x1100, 0x1103]),
        (&[0xAC00, 0xD7FB], &[0x1100, 0x1161, 0x11C1, 0x11C0]),
        (&[0xA95F, 0xA97D, 0xD7CA], &[0xA95F, 0xA97D, 0xD7CA]),
        (&[0x115F, 0x1160, 0x11C3], &[0x115F, 0x1160, 0x11A8, 0x11AF]),
        (&[0x113C, 0x119D, 0x11F0], &[0x113C, 0x1175, 0x119E, 0x11F0]),
        (&[0x3164, 0x115F, 0x3133], &[0x3164, 0x115F, 0x3133]),
        (&[], &[]),
    ];
    for (text, form) in known {
        let fact = format!("{text:04X?} has the simple form {form:04X?}");
        facts.state(&fact, simple_form(text) == form);
    }
    let seven = [0x1100, 0x1100, 0x1169, 0x1161, 0x1175, 0x11A8, 0x11A8];
    facts.state("AF66 has seven letters", simple_form(&[0xAF66]) == seven);
}

fn forms_over_all_syllables(facts: &mut Facts) {
    state_for_all_syllables(facts, "a syllable's form is that of its parts", |code| {
        let parts = full_parts(code).into_iter();
        simple_form(&[code]) == parts.flat_map(simple_letters).collect::<Vec<u32>>()
    });
    state_for_all_syllables(facts, "a syllable has at most seven letters", |code| {
        (2..=7).contains(&simple_form(&[code]).len())
    });
    state_for_all_syllables(facts, "initials, peaks, finals in this order", |code| {
        let places = simple_form(&[code]).into_iter().map(place_of);
        let mut places: Vec<Option<&str>> = places.collect();
        places.dedup();
        let order = [Some("initial"), Some("peak"), Some("final")];
        places == order[..full_parts(code).len()]
    });
    let syllables = 0xAC00..=0xD7A3;
    let forms: Vec<Vec<u32>> = syllables.map(|code| simple_form(&[code])).collect();
    let distinct: HashSet<&Vec<u32>> = forms.iter().collect();
    facts.state("no two syllables share a form", distinct.len() == 11_172);
    for (length, expected) in (2..).zip([140, 2_136, 4_357, 3_320, 1_089, 130]) {
        let count = forms.iter().filter(|form| form.len() == length).count();
        let fact = format!("{expected} syllables have {length} letters");
        facts.state(&fact, count == expected);
    }
    facts.state("all have 48160 letters", forms.concat().len() == 48_160);
}

fn forms_of_other_code_points(facts: &mut Facts) {
    let low = (0..0x1100).chain(0x1200..0xA960).chain(0xA97D..0xAC00);
    let high = (0xD7A4..0xD7B0).chain(0xD7C7..0xD7CB);
    let mut others = low.chain(high).chain(0xD7FC..=0x10_FFFF);
    facts.state(
        "what is no letter and no syllable is itself",
        others.all(|code| simple_form(&[code]) == [code]),
    );
}

/// The codes of a simple form that are letters, and the rest of it.
fn letters_and_others(text: &[u32]) -> (Vec<u32>, Vec<u32>) {
    let form = simple_form(text).into_iter();
    form.partition(|&code| place_of(code).is_some())
}

fn forms_of_seeded_texts(facts: &mut Facts) {
    let mut random = Random::new(15);
    let lengths = (0..3_000).map(|index| index % 60);
    let texts: Vec<Vec<u32>> = lengths
        .map(|length| simple_text(&mut random, length))
        .collect();
    let mut state = |fact: &str, holds: &dyn Fn(&[u32]) -> bool| {
        facts.state(fact, texts.iter().all(|text| holds(text)));
    };
    state("a simple form is its own", &|text| {
        simple_form(&simple_form(text)) == simple_form(text)
    });
    state("a simple form has at most 7n, at least n", &|text| {
        (text.len()..=7 * text.len()).contains(&simple_form(text).len())
    });
    state("the parts have the same simple form", &|text| {
        simple_form(&full_parts_of_text(text)) == simple_form(text)
    });
    state("the joined text has the same simple form", &|text| {
        simple_form(&joined(text)) == simple_form(text)
    });
    state("no cluster and no syllable is left", &|text| {
        let mut form = simple_form(text).into_iter();
        form.all(|code| !is_cluster(code) && !is_syllable(code))
    });
    state("other characters stay, in their order", &|text| {
        let others = text.iter().copied();
        let others = others.filter(|&code| place_of(code).is_none() && !is_syllable(code));
        letters_and_others(text).1 == others.collect::<Vec<u32>>()
    });
    let longer = texts
        .iter()
        .filter(|text| simple_form(text).len() > text.len());
    facts.state("seeded texts do come apart", longer.count() > 2_500);
}

fn texts_refused_for_simple_form(facts: &mut Facts) {
    let full = vec![0xAF66; LIMIT];
    let over = vec![0xAF66; LIMIT + 1];
    let mut both = over.clone();
    both[0] = 0xD800;
    let cases: [TextCase; 9] = [
        ("16384 of seven are taken", &full, 114_688, (0, 0)),
        ("they need their room", &full, 114_687, (3, 114_688)),
        ("16385 have no simple form", &over, 120_000, (1, 16_384)),
        ("1 before 3 in simple form", &over, 0, (1, 16_384)),
        ("1 before 2 in simple form", &both, 0, (1, 16_384)),
        ("2 before 3 in simple form", &[0x1122, 0xDFFF], 0, (2, 1)),
        ("the place is the simple length", &[0xAC03], 3, (3, 4)),
        ("a room for the letters is enough", &[0xAC03], 4, (0, 0)),
        ("no text has a form in no room", &[], 0, (0, 0)),
    ];
    for (fact, text, room, expected) in cases {
        facts.state(fact, refusal(simple_form, text, room) == expected);
    }
}

/// The letters in front and the rest of the buffer as it was; a refusal leaves all.
fn answers(facts: &mut Facts) {
    let answer = SIMPLE.answer(&SIMPLE.call(&[0xAC03], 5));
    let lent = [0x1100, 0x1161, 0x11A8, 0x11BA, 0xA5A5_A5A5];
    facts.state("simple letters fill the front", answer.lent == lent);
    let numbers = (answer.refusal, answer.value, answer.second, answer.third);
    facts.state("value is their number", numbers == (0, 4, 0, 0));
    let answer = SIMPLE.answer(&SIMPLE.call(&[0xAC03], 3));
    facts.state(
        "no form is written in part",
        answer.lent == [0xA5A5_A5A5; 3],
    );
}
