// Facts about ranking: the rules' own examples, what they promise of every pair, and the refusals.
// It runs no program and makes no cases; it holds only the definition of ranking to account.

use crate::facts::Facts;
use crate::joining::joined;
use crate::letters::{full_parts_of_text, Refusal, LIMIT};
use crate::random::Random;
use crate::ranking::{answer_of_bytes, answer_of_texts, items, rank, Item};
use crate::ranking_cases::{text_call, RANKING, RANKING_OF_BYTES};
use crate::ranking_texts::{self, codes_of, Pair, EQUAL_BYTES, IN_ORDER, RISING_BYTES};
use crate::utf8::written;
use std::cmp::Ordering;

pub fn state_all(facts: &mut Facts) {
    known_ranks(facts);
    labels_in_order(facts);
    order_of_samples(facts);
    seeded_pairs(facts);
    numbers_by_a_machine(facts);
    damaged_bytes(facts);
    long_numbers(facts);
    refused_texts(facts);
    refused_bytes(facts);
    answers(facts);
}

/// What the rules say of single pairs.
fn known_ranks(facts: &mut Facts) {
    use Ordering::{Equal, Less};
    let known = [
        ("2 before 10", "2", "10", Less),
        ("07 as 7", "07", "7", Equal),
        ("a beginning first", "A", "A1", Less),
        ("no text first", "", "0", Less),
        ("no text as no text", "", "", Equal),
        ("a number before a code point", "9", "\0", Less),
        ("both spellings of one boat", NAME, NAME_IN_LETTERS, Equal),
        ("code points by value", "\u{FFFF}", "\u{10000}", Less),
        ("no digit but the ASCII ones", "2", "\u{FF11}", Less),
        ("zeros are 0", "000", "0", Equal),
        ("a number is no text", "", "000", Less),
    ];
    for (fact, first, second, order) in known {
        let (first, second) = (codes_of(first), codes_of(second));
        let both = rank(&first, &second) == order && rank(&second, &first) == order.reverse();
        facts.state(&format!("ranked: {fact}"), both);
    }
    let count = items(&codes_of("A007 \u{1100}\u{1161}8")).len();
    facts.state("a run of digits is one item", count == 5);
}

const NAME: &str = "\u{D478}\u{B978}\u{BC14}\u{B2E4} 7";
const NAME_IN_LETTERS: &str =
    "\u{1111}\u{116E}\u{1105}\u{1173}\u{11AB}\u{1107}\u{1161}\u{1103}\u{1161} 07";

/// Each label against each: by the places of their lines in the list.
fn labels_in_order(facts: &mut Facts) {
    let lines = IN_ORDER.iter().enumerate();
    let placed: Vec<(usize, Vec<u32>)> = lines
        .flat_map(|(line, equals)| equals.iter().map(move |label| (line, codes_of(label))))
        .collect();
    for (line, label) in &placed {
        let right = placed
            .iter()
            .all(|(other, text)| rank(label, text) == line.cmp(other));
        facts.state(&format!("{label:X?} has its place in the order"), right);
    }
}

/// A total preorder: each as itself, swapped as swapped, and transitive.
fn order_of_samples(facts: &mut Facts) {
    let mut random = Random::new(13);
    let mut labels: Vec<Vec<u32>> = (0..90)
        .map(|index| ranking_texts::label(&mut random, index % 6))
        .collect();
    labels.extend(ranking_texts::labels_in_order());
    let ranks: Vec<Vec<Ordering>> = labels
        .iter()
        .map(|first| labels.iter().map(|second| rank(first, second)).collect())
        .collect();
    let all = 0..labels.len();
    let itself = all.clone().all(|a| ranks[a][a] == Ordering::Equal);
    facts.state("a label ranks equal to itself", itself);
    let pairs = || all.clone().flat_map(|a| all.clone().map(move |b| (a, b)));
    let swapped = pairs().all(|(a, b)| ranks[a][b] == ranks[b][a].reverse());
    facts.state("swapping swaps before and after", swapped);
    let transitive = pairs().all(|(a, b)| {
        // Not after, and not after again, is not after; and equal only if both were.
        all.clone().all(|c| {
            let (first, second, both) = (ranks[a][b], ranks[b][c], ranks[a][c]);
            first.is_gt() || second.is_gt() || both == first.then(second)
        })
    });
    facts.state("ranking is transitive", transitive);
    let same = pairs().all(|(a, b)| {
        let equal = ranks[a][b] == Ordering::Equal;
        equal == (items(&labels[a]) == items(&labels[b]))
    });
    facts.state("equal labels have equal items", same);
}

/// Of seeded pairs: spelling does not count, and a beginning never comes after.
fn seeded_pairs(facts: &mut Facts) {
    let mut random = Random::new(14);
    let pairs: Vec<Pair<u32>> = (0..6_000)
        .map(|index| ranking_texts::pair(&mut random, index % 12))
        .collect();
    let mut state = |fact: &str, holds: fn(&[u32], &[u32]) -> bool| {
        let all = pairs.iter().all(|(first, second)| holds(first, second));
        facts.state(fact, all);
    };
    state("both spellings rank alike", |first, second| {
        let spelled = rank(&full_parts_of_text(first), &joined(second));
        rank(first, second) == spelled && rank(first, &full_parts_of_text(first)).is_eq()
    });
    state("UTF-8 ranks as its code points", |first, second| {
        answer_of_bytes(&written(first), &written(second)) == answer_of_texts(first, second)
    });
    state("a beginning comes not after", |first, _| {
        (0..first.len()).all(|length| rank(&first[..length], first).is_le())
    });
    let count = |order| {
        let ranked = pairs.iter().filter(|(a, b)| rank(a, b) == order);
        ranked.count()
    };
    let (before, equal) = (count(Ordering::Less), count(Ordering::Equal));
    let after = pairs.len() - before - equal;
    let each = before > 1_000 && equal > 1_000 && after > 1_000;
    facts.state("seeded pairs rank in every way", each);
}

/// A number that a machine has is ranked as the machine does it.
fn numbers_by_a_machine(facts: &mut Facts) {
    let mut random = Random::new(15);
    let mut numbers: Vec<u128> = vec![0, 1, 9, 10, 99, 100, u128::MAX, u128::MAX - 1];
    for _ in 0..200 {
        let wide = u128::from(random.next()) << 64 | u128::from(random.next());
        numbers.push(wide >> random.below(128));
    }
    let same = numbers.iter().all(|first| {
        numbers.iter().all(|second| {
            let labels = [format!("{first:045}"), format!("{second}")].map(|it| codes_of(&it));
            rank(&labels[0], &labels[1]) == first.cmp(second)
        })
    });
    facts.state("numbers rank by value", same);
}

fn damaged_bytes(facts: &mut Facts) {
    let ranked = |(first, second): (&[u8], &[u8])| answer_of_bytes(first, second);
    for pair in EQUAL_BYTES {
        let equal = ranked(pair) == Ok(Ordering::Equal);
        facts.state(&format!("{pair:02X?} rank equal"), equal);
    }
    for pair in RISING_BYTES {
        let before = ranked(pair) == Ok(Ordering::Less);
        facts.state(&format!("{pair:02X?} rank before"), before);
    }
}

/// What differs deep within long numbers shows, and zeros in front do not.
fn long_numbers(facts: &mut Facts) {
    let long = vec![0x37; LIMIT];
    let mut other = long.clone();
    other[LIMIT - 1] = 0x38;
    let zeros = vec![0x30; LIMIT];
    let known: [(&str, &[u32], &[u32], Ordering); 5] = [
        ("the last digit counts", &long, &other, Ordering::Less),
        ("the length counts", &other[1..], &long, Ordering::Less),
        ("zeros do not", &zeros, &[0x30], Ordering::Equal),
        ("zeros are before 1", &zeros, &[0x31], Ordering::Less),
        ("zeros are after nothing", &[], &zeros, Ordering::Less),
    ];
    for (fact, first, second, order) in known {
        let ranked = answer_of_texts(first, second) == Ok(order);
        facts.state(&format!("long numbers: {fact}"), ranked);
    }
    let one = items(&long).len() == 1 && matches!(items(&zeros)[..], [Item::Number(_)]);
    facts.state("16384 digits are one item", one);
}

/// Number and place, or two zeros.
fn of(outcome: Result<Ordering, Refusal>) -> (u32, u32) {
    outcome.map_or_else(|refusal| (refusal.number, refusal.place), |_| (0, 0))
}

fn refused_texts(facts: &mut Facts) {
    let full = vec![0x41; LIMIT];
    let over = vec![0x41; LIMIT + 1];
    let mut both = over.clone();
    both[3] = 0xD800;
    let bad = vec![0x41, 0x42, 0x110000];
    let worse = vec![0x41, 0xDFFF, 0xD800];
    let cases: [(&str, &[u32], &[u32], (u32, u32)); 9] = [
        ("16384 code points each", &full, &full, (0, 0)),
        ("16385 first", &over, &full, (1, 16_384)),
        ("16385 second", &full, &over, (1, 16_384)),
        ("1 before 2 in one text", &both, &full, (1, 16_384)),
        ("1 of the second before 2", &bad, &over, (1, 16_384)),
        ("2 first", &bad, &full, (2, 2)),
        ("2 second", &full, &worse, (2, 1)),
        ("2 of the first before the second", &bad, &worse, (2, 2)),
        ("and the other way round", &worse, &bad, (2, 1)),
    ];
    for (fact, first, second, expected) in cases {
        let refusal = of(answer_of_texts(first, second));
        facts.state(&format!("ranking: {fact}"), refusal == expected);
    }
}

/// Only 1, and of the bytes given: ill-formed ones would be longer when mended.
fn refused_bytes(facts: &mut Facts) {
    let ill = vec![0x80; LIMIT];
    let over = vec![0x80; LIMIT + 1];
    let cases: [(&str, &[u8], &[u8], (u32, u32)); 4] = [
        ("16384 ill-formed bytes each", &ill, &ill, (0, 0)),
        ("16385 bytes first", &over, &[], (1, 16_384)),
        ("16385 bytes second", &[], &over, (1, 16_384)),
        ("16385 bytes twice", &over, &over, (1, 16_384)),
    ];
    for (fact, first, second, expected) in cases {
        let refusal = of(answer_of_bytes(first, second));
        facts.state(&format!("ranking: {fact}"), refusal == expected);
    }
}

/// By value, and whatever room is given stays as it was.
fn answers(facts: &mut Facts) {
    let in_words = [("2", "10"), ("7", "07"), ("10", "2")];
    for (value, (first, second)) in in_words.into_iter().enumerate() {
        let call = text_call((codes_of(first), codes_of(second)));
        let answer = (RANKING.answer)(&call);
        let numbers = [answer.refusal, answer.value, answer.second, answer.third];
        let right = numbers == [0, value as u32, 0, 0] && answer.lent.is_empty();
        facts.state(&format!("the value of {first} and {second}"), right);
    }
    let lent = |kind: &crate::kinds::Kind| {
        let mut call = (kind.stored)().swap_remove(0);
        call.room = 2;
        (kind.answer)(&call).lent
    };
    let untouched = lent(&RANKING) == [0xA5A5_A5A5; 2] && lent(&RANKING_OF_BYTES) == [0xA5; 2];
    facts.state("ranking writes to no buffer", untouched);
}
