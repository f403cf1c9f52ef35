// Facts about filler groups: the pairs by the letters' names, known cases, and what must hold.
// It runs no program and makes no cases; it holds only the definition of the groups to account.

use crate::facts::{refusal, Facts, TextCase};
use crate::filler_cases::{longer_first, TURNED};
use crate::filler_texts::filler_text;
use crate::fillers::*;
use crate::letter_facts::state_for_all_syllables;
use crate::letter_names::{place_in, FINALS, INITIALS, PEAKS};
use crate::letters::{full_parts, is_syllable, LIMIT};
use crate::random::Random;
use std::collections::HashMap;

pub fn state_all(facts: &mut Facts) {
    pairs_by_names(facts);
    known_groups(facts);
    known_to_stay(facts);
    groups_over_all_syllables(facts);
    groups_are_few(facts);
    groups_of_short_texts(facts);
    groups_of_seeded_texts(facts);
    texts_refused_for_groups(facts);
    answers(facts);
}

/// HANGUL LETTER, from 3131 to 3163: consonants, then vowels.
const NAMES: &str = "KIYEOK SSANGKIYEOK KIYEOK-SIOS NIEUN NIEUN-CIEUC NIEUN-HIEUH TIKEUT \
    SSANGTIKEUT RIEUL RIEUL-KIYEOK RIEUL-MIEUM RIEUL-PIEUP RIEUL-SIOS RIEUL-THIEUTH \
    RIEUL-PHIEUPH RIEUL-HIEUH MIEUM PIEUP SSANGPIEUP PIEUP-SIOS SIOS SSANGSIOS IEUNG CIEUC \
    SSANGCIEUC CHIEUCH KHIEUKH THIEUTH PHIEUPH HIEUH A AE YA YAE EO E YEO YE O WA WAE OE YO U WEO \
    WE WI YU EU YI I";

/// A letter is the initial, the peak and the final that have its name; of these the modern ones.
fn pairs_by_names(facts: &mut Facts) {
    facts.state("51 letters have names", NAMES.split(' ').count() == 51);
    for (code, name) in (0x3131..).zip(NAMES.split(' ')) {
        let initial = place_in(INITIALS, name).filter(|&place| place < 19);
        let peak = place_in(PEAKS, name).filter(|&place| place < 21);
        let last = place_in(FINALS, name).filter(|&place| place < 27);
        let last = last.map(|place| place + 1);
        let said = (initial_of(code), peak_of(code), final_of(code));
        let fact = format!("{code:04X} is what HANGUL LETTER {name} can be");
        facts.state(&fact, said == (initial, peak, last));
    }
    let mut others = (0..0x3131).chain(0x3164..=0x10_FFFF);
    let none = others.all(|code| {
        let last = if code == FILLER { Some(0) } else { None };
        (initial_of(code), peak_of(code), final_of(code)) == (None, None, last)
    });
    facts.state("no other code point is any", none);
}

/// Marked case 11, 002's own examples, then the rules' words one by one.
fn known_groups(facts: &mut Facts) {
    let known: [(&[u32], &[u32]); 8] = [
        (&[FILLER, 0x3131, 0x314F, FILLER], &[0xAC00]),
        (&[FILLER, 0x3138, 0x3157, 0x3141], &[0xB620]),
        (&[FILLER, 0x3131, 0x314F, 0x3147], &[0xAC15]),
        (&[FILLER, 0x314E, 0x3163, 0x314E, 0x41], &[0xD7A3, 0x41]),
        (&[FILLER, FILLER, 0x3131, 0x314F, FILLER], &[FILLER, 0xAC00]),
        (
            &[FILLER, 0x3131, 0x314F, FILLER, 0x3131, 0x314F, FILLER],
            &[0xAC00, 0x3131, 0x314F, FILLER],
        ),
        (
            &[FILLER, 0x3131, FILLER, FILLER, 0x3131, 0x314F, 0x3131],
            &[FILLER, 0x3131, FILLER, 0xAC01],
        ),
        (&[], &[]),
    ];
    for (text, whole) in known {
        let fact = format!("{text:04X?} turns to {whole:04X?}");
        facts.state(&fact, turned(text) == whole);
    }
}

/// The other half of case 11; a final for an initial, fillers in the wrong place, other fillers,
/// old and conjoining letters, and a group that is cut.
fn known_to_stay(facts: &mut Facts) {
    let known: [&[u32]; 10] = [
        &[FILLER, 0x3131, 0x314F, 0x3138],
        &[FILLER, 0x3133, 0x314F, FILLER],
        &[FILLER, FILLER, 0x314F, FILLER],
        &[FILLER, 0x3131, FILLER, FILLER],
        &[FILLER, 0x3131, 0x314F, 0xFFA0],
        &[0x115F, 0x3131, 0x314F, FILLER],
        &[FILLER, 0x3165, 0x314F, FILLER],
        &[FILLER, 0x1100, 0x1161, FILLER],
        &[FILLER, 0x3131, 0x314F],
        &[0x3131, 0x314F],
    ];
    for text in known {
        facts.state(&format!("{text:04X?} stays"), turned(text) == text);
    }
}

/// The group of a syllable: its conjoining letters, each found again among the letters by place.
fn group_of(syllable: u32) -> Vec<u32> {
    let parts = full_parts(syllable);
    let letter = |passes: fn(u32) -> Option<u32>, place| {
        let mut codes = 0x3131..=0x3163;
        codes.find(|&code| passes(code) == Some(place))
    };
    let initial = letter(initial_of, parts[0] - 0x1100);
    let peak = letter(peak_of, parts[1] - 0x1161);
    let last = match parts.get(2) {
        Some(&last) => letter(final_of, last - 0x11A7),
        None => Some(FILLER),
    };
    let group = [Some(FILLER), initial, peak, last];
    group.into_iter().flatten().collect()
}

fn groups_over_all_syllables(facts: &mut Facts) {
    state_for_all_syllables(facts, "each syllable has a group of four", |code| {
        group_of(code).len() == 4
    });
    state_for_all_syllables(facts, "each syllable's group turns to it", |code| {
        turned(&group_of(code)) == [code]
    });
    let syllables: Vec<u32> = (0xAC00..=0xD7A3).collect();
    let groups: Vec<u32> = syllables.iter().flat_map(|&code| group_of(code)).collect();
    facts.state(
        "groups turn one after the other",
        turned(&groups) == syllables,
    );
}

/// No group but those of the syllables: 19 initials, 21 peaks, 27 finals and none.
fn groups_are_few(facts: &mut Facts) {
    let mut found: HashMap<u32, usize> = HashMap::new();
    for second in 0x3130..=0x3165 {
        for third in 0x3130..=0x3165 {
            for fourth in 0x3130..=0x3165 {
                if let Some(syllable) = group(&[FILLER, second, third, fourth]) {
                    *found.entry(syllable).or_default() += 1;
                }
            }
        }
    }
    facts.state("there are 11172 groups", found.len() == 11_172);
    let once = found
        .iter()
        .all(|(&syllable, &count)| is_syllable(syllable) && count == 1);
    facts.state("each is of its own syllable", once);
}

/// Said another way: a group is taken where one can begin and none was taken at the three places
/// before; what lies in no group that was taken is copied.
fn turned_by_places(text: &[u32]) -> Vec<u32> {
    let mut taken = vec![false; text.len()];
    let mut turned = Vec::new();
    for place in 0..text.len() {
        let inside = taken[place.saturating_sub(3)..place].contains(&true);
        let syllable = group(&text[place..]).filter(|_| !inside);
        taken[place] = syllable.is_some();
        if !inside {
            turned.push(syllable.unwrap_or(text[place]));
        }
    }
    turned
}

/// States of all texts what must hold of groups turned from the left.
fn groups_of_texts(facts: &mut Facts, which: &str, texts: &[Vec<u32>]) {
    let mut state = |fact: &str, holds: &dyn Fn(&[u32]) -> bool| {
        let all = texts.iter().all(|text| holds(text));
        facts.state(&format!("{fact} ({which})"), all);
    };
    state("groups are taken where they can begin", &|text| {
        turned(text) == turned_by_places(text)
    });
    state("turning twice changes nothing", &|text| {
        turned(&turned(text)) == turned(text)
    });
    state("turned text is a quarter at least", &|text| {
        let length = turned(text).len();
        length <= text.len() && text.len() <= 4 * length
    });
    state("without a filler nothing turns", &|text| {
        let mut text = text.to_vec();
        text.retain(|&code| code != FILLER);
        turned(&text) == text
    });
    state("syllables written as groups come back", &|text| {
        let mut text = turned(text);
        text.retain(|&code| code != FILLER);
        let groups = text.iter().flat_map(|&code| match is_syllable(code) {
            true => group_of(code),
            false => vec![code],
        });
        turned(&groups.collect::<Vec<u32>>()) == text
    });
}

fn groups_of_short_texts(facts: &mut Facts) {
    let texts = longer_first(7);
    facts.state("there are 97656 short texts", texts.len() == 97_656);
    groups_of_texts(facts, "short texts", &texts);
}

fn groups_of_seeded_texts(facts: &mut Facts) {
    let mut random = Random::new(17);
    let lengths = (0..3_000).map(|index| index % 60);
    let texts: Vec<Vec<u32>> = lengths
        .map(|length| filler_text(&mut random, length))
        .collect();
    groups_of_texts(facts, "seeded texts", &texts);
    let shorter = texts.iter().filter(|text| turned(text).len() < text.len());
    facts.state("seeded texts do turn", shorter.count() > 1_500);
    let left = texts.iter().filter(|text| turned(text).contains(&FILLER));
    facts.state("and fillers are left", left.count() > 1_500);
}

fn texts_refused_for_groups(facts: &mut Facts) {
    let groups: Vec<u32> = [FILLER, 0x3131, 0x314F, FILLER].repeat(LIMIT / 4);
    let mut over = groups.clone();
    over.push(FILLER);
    let mut both = over.clone();
    both[0] = 0xD800;
    let bad = [FILLER, 0x3131, 0x314F, 0xDFFF];
    let cases: [TextCase; 8] = [
        ("4096 groups are taken", &groups, 4_096, (0, 0)),
        ("4096 groups need their room", &groups, 4_095, (3, 4_096)),
        ("one filler more is refused", &over, 16_385, (1, 16_384)),
        ("1 before 3 in groups", &over, 0, (1, 16_384)),
        ("1 before 2 in groups", &both, 0, (1, 16_384)),
        ("2 before 3 in groups", &bad, 0, (2, 3)),
        ("the place is the turned length", &bad[..3], 2, (3, 3)),
        ("nothing turns in no room", &[], 0, (0, 0)),
    ];
    for (fact, text, room, expected) in cases {
        facts.state(fact, refusal(turned, text, room) == expected);
    }
}

/// The text in front and the rest of the buffer as it was; a refusal leaves all.
fn answers(facts: &mut Facts) {
    let text = [0x41, FILLER, 0x3131, 0x314F, FILLER];
    let answer = TURNED.answer(&TURNED.call(&text, 3));
    let lent = [0x41, 0xAC00, 0xA5A5_A5A5];
    facts.state("turned text fills the front", answer.lent == lent);
    let numbers = (answer.refusal, answer.value, answer.second, answer.third);
    facts.state("value is its length", numbers == (0, 2, 0, 0));
    let answer = TURNED.answer(&TURNED.call(&text, 1));
    facts.state("no text is turned in part", answer.lent == [0xA5A5_A5A5]);
}
