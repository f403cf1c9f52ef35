// Facts about mending: known cases, what the rules promise of it, and std's reading and writing.
// It runs no program and makes no cases; it holds only the definition of mending to account.

use crate::byte_texts;
use crate::facts::{refusal_of_units, Facts, UnitCase};
use crate::joining::joined;
use crate::letters::LIMIT;
use crate::mending::{mended, Mending};
use crate::mending_cases::{MENDED, MENDING};
use crate::mending_texts::{self, EXAMPLES, HANGUL_TEXT, PIECES};
use crate::random::Random;
use crate::utf8::{read, written};

pub fn state_all(facts: &mut Facts) {
    known_mendings(facts);
    every_syllable(facts);
    mending_of_texts(facts, "pieces of letters", &some_sequences());
    let damaged = byte_texts::damaged_texts(&HANGUL_TEXT);
    mending_of_texts(facts, "a damaged text", &damaged);
    mending_of_seeded_bytes(facts);
    nothing_joins_across(facts);
    answers(facts);
    bytes_refused_for_mending(facts);
}

fn known_mendings(facts: &mut Facts) {
    for (bytes, whole, ill_formed) in EXAMPLES {
        let expected = Mending {
            bytes: whole.to_vec(),
            ill_formed,
        };
        let fact = format!("{bytes:02X?} is mended to {whole:02X?}, {ill_formed} ill-formed");
        facts.state(&fact, mended(bytes) == expected);
    }
    let nothing = mended(&[]) == Mending::default();
    facts.state("nothing is mended to nothing", nothing);
}

/// The bytes that std gives the syllables, in their order.
fn syllables_by_std() -> Vec<Vec<u8>> {
    let syllables = '\u{AC00}'..='\u{D7A3}';
    syllables
        .map(|code| code.to_string().into_bytes())
        .collect()
}

fn every_syllable(facts: &mut Facts) {
    let syllables = syllables_by_std();
    facts.state("there are 11172 syllables", syllables.len() == 11_172);
    let mend_to = |pieces: &[Vec<u8>], wholes: &[Vec<u8>]| {
        let mut pairs = pieces.iter().zip(wholes);
        let each = pairs.all(|(piece, whole)| mended(piece).bytes == *whole);
        each && pieces.len() == wholes.len() && mended(&pieces.concat()).bytes == wholes.concat()
    };
    let finished = mending_texts::finished();
    facts.state("syllables stay in bytes", mend_to(&finished, &syllables));
    let spelled = mending_texts::spelled();
    facts.state("letters become syllables", mend_to(&spelled, &syllables));
    let indexed = syllables.iter().enumerate();
    let closed = indexed.filter(|(index, _)| index % 28 != 0);
    let closed: Vec<Vec<u8>> = closed.map(|(_, whole)| whole.clone()).collect();
    let with_finals = mending_texts::with_finals();
    facts.state("finals close an LV", mend_to(&with_finals, &closed));
    let strayed = mending_texts::strayed();
    let count = 399 + 2 * 10_773 + 10_773;
    facts.state("the strayed are all there", strayed.len() == count);
    let ill = strayed.iter().all(|bytes| mended(bytes).ill_formed > 0);
    facts.state("a stray byte is ill-formed", ill);
}

fn some_sequences() -> Vec<Vec<u8>> {
    let counts = 0..=3;
    counts
        .flat_map(|count| byte_texts::sequences(&PIECES, count))
        .collect()
}

/// What std reads and writes, with the joining in between.
fn mended_with_std(bytes: &[u8]) -> Vec<u8> {
    let text = String::from_utf8_lossy(bytes);
    let codes: Vec<u32> = text.chars().map(u32::from).collect();
    let whole = joined(&codes).into_iter().filter_map(char::from_u32);
    whole.collect::<String>().into_bytes()
}

/// States of all texts what the rules promise of mending.
fn mending_of_texts(facts: &mut Facts, which: &str, texts: &[Vec<u8>]) {
    let mut state = |fact: &str, holds: fn(&[u8]) -> bool| {
        let all = texts.iter().all(|bytes| holds(bytes));
        facts.state(&format!("{fact} ({which})"), all);
    };
    state("mending is at most three times as long", |bytes| {
        mended(bytes).bytes.len() <= 3 * bytes.len()
    });
    state("mending again changes nothing and counts 0", |bytes| {
        let whole = mended(bytes).bytes;
        let again = mended(&whole);
        again.bytes == whole && again.ill_formed == 0
    });
    state("what is mended std finds well-formed", |bytes| {
        std::str::from_utf8(&mended(bytes).bytes).is_ok()
    });
    state("the count is that of the reading", |bytes| {
        mended(bytes).ill_formed == read(bytes).ill_formed
    });
    state("what was written of a reading mends to the same", |bytes| {
        mended(&written(&read(bytes).codes)).bytes == mended(bytes).bytes
    });
    state("std reads and writes the same", |bytes| {
        mended(bytes).bytes == mended_with_std(bytes)
    });
}

fn mending_of_seeded_bytes(facts: &mut Facts) {
    let mut random = Random::new(10);
    let seeded: Vec<Vec<u8>> = (0..10_000)
        .map(|index| mending_texts::bytes(&mut random, index % 100))
        .collect();
    mending_of_texts(facts, "seeded bytes", &seeded);
    let ill = seeded.iter().filter(|bytes| read(bytes).ill_formed > 0);
    let ill = ill.count();
    facts.state("many mixtures are ill-formed", ill > 4_000);
    facts.state("and many are well-formed", seeded.len() - ill > 3_000);
    let joining = seeded.iter().filter(|bytes| {
        let codes = read(bytes).codes;
        joined(&codes).len() < codes.len()
    });
    facts.state("in most mixtures something joins", joining.count() > 5_000);
}

/// Before and after an ill-formed byte each side is mended as if it stood alone. FF stands in no
/// sequence, so it is a subpart of its own whatever is next to it.
fn nothing_joins_across(facts: &mut Facts) {
    let alone = |bytes: &[u8]| mended(bytes).bytes;
    let sides = byte_texts::sequences(&PIECES, 2);
    let apart = sides.iter().all(|front| {
        PIECES.iter().all(|back| {
            let whole = [&front[..], &[0xFF], back].concat();
            alone(&whole) == [alone(front), alone(&[0xFF]), alone(back)].concat()
        })
    });
    facts.state("nothing joins across an ill-formed byte", apart);
}

/// Bytes in and bytes out, the count beside them, and the rest of the buffer as it was.
fn answers(facts: &mut Facts) {
    let answer = (MENDING.answer)(&MENDED.call(&[0xEA, 0xB0, 0x80, 0x80], 8));
    let lent = [0xEA, 0xB0, 0x80, 0xEF, 0xBF, 0xBD, 0xA5, 0xA5];
    facts.state("what is mended stands in bytes", answer.lent == lent);
    let numbers = (answer.refusal, answer.value, answer.second, answer.third);
    facts.state(
        "value is the length, second the count",
        numbers == (0, 6, 1, 0),
    );
    let answer = (MENDING.answer)(&MENDED.call(&[0xEA, 0xB0, 0x80, 0x80], 5));
    let numbers = (answer.refusal, answer.value, answer.second, answer.third);
    facts.state("a refusal has no count", numbers == (3, 6, 0, 0));
    facts.state("and leaves the buffer", answer.lent == [0xA5; 5]);
}

fn bytes_refused_for_mending(facts: &mut Facts) {
    let pattern = [0xE1, 0x84, 0x80, 0xE1, 0x85, 0xA1, 0xE1, 0x86, 0xA8];
    // 1,820 syllables and the four bytes of an initial and a cut sequence.
    let full = byte_texts::repeated(&pattern, LIMIT);
    let over = byte_texts::repeated(&pattern, LIMIT + 1);
    let ill = vec![0x80; LIMIT];
    let needed = 3 * 1_820 + 3 + 3;
    let cases: [UnitCase<u8>; 9] = [
        ("16384 bytes are mended", &full, needed, (0, 0)),
        ("16384 bytes need room", &full, needed - 1, (3, needed)),
        ("16385 bytes are not mended", &over, 60_000, (1, 16_384)),
        ("1 before 3 in mending", &over, 0, (1, 16_384)),
        ("each lone byte needs three", &ill, 49_151, (3, 49_152)),
        ("three for each always do", &ill, 49_152, (0, 0)),
        ("3 counts mended bytes", &pattern, 2, (3, 3)),
        ("room for the mended is enough", &pattern, 3, (0, 0)),
        ("nothing is mended in no room", &[], 0, (0, 0)),
    ];
    for (fact, bytes, room, expected) in cases {
        let refusal = refusal_of_units(MENDED.whole, bytes, room);
        facts.state(fact, refusal == expected);
    }
}
