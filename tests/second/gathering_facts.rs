// Facts about the gathered form: the paper's cases, and what the rules promise of every text.
// It runs no program and makes no cases; it holds only the definition of the form to account.

use crate::facts::{refusal, Facts};
use crate::gathering::{clustered, gathered_form};
use crate::gathering_cases::GATHERED;
use crate::letters::{added_letters, LIMIT};
use crate::random::Random;
use crate::simple::{clusters, is_cluster, simple_form, simple_letters};
use crate::simple_texts::OF_THREE;

pub fn state_all(facts: &mut Facts) {
    known_forms(facts);
    known_forms_of_added_letters(facts);
    every_cluster(facts);
    clusters_of_three(facts);
    seeded_texts(facts);
    refused_texts(facts);
}

fn known_forms(facts: &mut Facts) {
    let known: [(&[u32], &[u32]); 15] = [
        (&[0x1100, 0x1100, 0x1161], &[0xAE4C]),
        (&[0x1100, 0x1161, 0x1175], &[0xAC1C]),
        (&[0x1107, 0x1109, 0x1100], &[0x1122]),
        (&[0x1109, 0x1107, 0x1109, 0x1100], &[0x1132, 0x112D]),
        (&[0x1107, 0xAC01], &[0x111E, 0x1161, 0x11A8]),
        (&[0x1109, 0x1109, 0x1109, 0x1109], &[0x1134, 0x1109]),
        (&[0xAC00, 0x11A8, 0x11BA], &[0xAC03]),
        (&[0x1100, 0x302E, 0x1100], &[0x1100, 0x302E, 0x1100]),
        (
            &[0x1100, 0x1175, 0x119E, 0x11AF, 0x11AE, 0x11C2],
            &[0x1100, 0x119D, 0x11CF],
        ),
        (&[0xD07D, 0x11CF], &[0xD06C, 0x11E3, 0x11AE, 0x11C2]),
        (&[0xAC01, 0x11AF], &[0xAC00, 0x11C3]),
        (&[0x1173, 0x1175, 0x116E], &[0x1197]),
        (&[0xAE30, 0x1161], &[0x1100, 0x1198]),
        (&[0x119E, 0x119E, 0x119E], &[0x11A2, 0x119E]),
        (&[0xAC13, 0x11BA, 0x11AF], &[0xAC14, 0x11AF]),
    ];
    for (text, form) in known {
        facts.state(
            &format!("{text:X?} gathers to {form:X?}"),
            gathered_form(text) == form,
        );
    }
}

/// What gathers to the letters that Unicode 5.2 added, and what nearly does.
fn known_forms_of_added_letters(facts: &mut Facts) {
    let known: [(&[u32], &[u32]); 16] = [
        (&[0x1103, 0x1106, 0x1161], &[0xA960, 0x1161]),
        (&[0xA960, 0x1161], &[0xA960, 0x1161]),
        (&[0x1103, 0xB9C8], &[0xA960, 0x1161]),
        (&[0x1103, 0xAC00], &[0x1117, 0x1161]),
        (&[0x1100, 0x1103], &[0x115A]),
        (&[0x1105, 0x1100], &[0xA964]),
        (&[0x1105, 0x1100, 0x1100], &[0xA965]),
        (&[0x1105, 0x1101], &[0xA965]),
        (&[0xA964, 0x1100], &[0xA965]),
        (&[0xA964, 0x1103], &[0xA964, 0x1103]),
        (&[0x1105, 0x1100, 0x1100, 0x1100], &[0xA965, 0x1100]),
        (&[0x1169, 0x1163, 0x1175], &[0x11A7]),
        (&[0x11A6, 0x1175], &[0x11A7]),
        (&[0xAC00, 0x11A7], &[0x1100, 0x1176, 0x1164]),
        (&[0xAC13, 0x11BA, 0x11A8], &[0xAC00, 0xD7EC]),
        (&[0xAC00, 0x11C1, 0x11C0], &[0xAC00, 0xD7FB]),
    ];
    for (text, form) in known {
        facts.state(
            &format!("{text:X?} gathers to {form:X?}"),
            gathered_form(text) == form,
        );
    }
}

fn every_cluster(facts: &mut Facts) {
    let whole = clusters()
        .into_iter()
        .all(|code| clustered(&simple_letters(code)) == [code]);
    facts.state("the letters of every cluster gather to it", whole);
    let old = added_letters()
        .into_iter()
        .all(|code| gathered_form(&simple_letters(code)) == [code]);
    facts.state("those of each added letter do, and nothing joins", old);
}

/// Two letters are a cluster, and a third makes another of it, which may stand in another table.
fn clusters_of_three(facts: &mut Facts) {
    let first_two = |code| match clustered(&simple_letters(code)[..2])[..] {
        [cluster] if is_cluster(cluster) => Some(cluster),
        _ => None,
    };
    facts.state(
        "the first two letters of every cluster of three are one",
        OF_THREE.into_iter().all(|code| first_two(code).is_some()),
    );
    let in_block = |code: u32| code <= 0x11FF;
    for (three, two, expected) in [
        (true, true, 29),
        (true, false, 2),
        (false, true, 23),
        (false, false, 12),
    ] {
        let count = OF_THREE.into_iter().filter(|&code| {
            let cluster = first_two(code);
            in_block(code) == three && cluster.is_some_and(in_block) == two
        });
        let fact = format!("{expected} have three in the block: {three}, two: {two}");
        facts.state(&fact, count.count() == expected);
    }
}

/// Of seeded texts: the simple form stays, gathering again changes nothing, and letters alone
/// gather as their simple form does.
fn seeded_texts(facts: &mut Facts) {
    let mut random = Random::new(6);
    let mut texts = Vec::new();
    for _ in 0..2_000 {
        let length = random.below(40);
        texts.push((GATHERED.good_text)(&mut random, length));
    }
    let all = |holds: &dyn Fn(&[u32]) -> bool| texts.iter().all(|text| holds(text));
    let kept = all(&|text| simple_form(&gathered_form(text)) == simple_form(text));
    facts.state(
        "a gathered text has the simple form that it came from",
        kept,
    );
    let again = all(&|text| gathered_form(&gathered_form(text)) == gathered_form(text));
    facts.state("gathering again changes nothing", again);
    let same = all(&|text| gathered_form(&simple_form(text)) == gathered_form(text));
    facts.state("a text and its simple form gather alike", same);
    let bound = all(&|text| gathered_form(text).len() <= 7 * text.len());
    facts.state("a gathered text has at most 7n code points", bound);
}

fn refused_texts(facts: &mut Facts) {
    let over = vec![0x1100; LIMIT + 1];
    let cases: [(&str, &[u32], u32, (u32, u32)); 4] = [
        ("one letter more is not gathered", &over, 0, (1, 16_384)),
        ("a surrogate is not gathered", &[0x1100, 0xD800], 0, (2, 1)),
        ("three code points need three", &[0x1107, 0xAC01], 2, (3, 3)),
        ("and have them", &[0x1107, 0xAC01], 3, (0, 0)),
    ];
    for (fact, text, room, expected) in cases {
        facts.state(fact, refusal(gathered_form, text, room) == expected);
    }
}
