// The lister, held to the definition in document 01: which texts it is run on, and what it prints
// of each. It has no rule of its own for reading, joining or names (utf8, joining, naming).

use crate::joining::joined;
use crate::letters::{is_syllable, LIMIT};
use crate::mending_texts;
use crate::naming::name_of;
use crate::printing::{refused, Printing};
use crate::random::Random;
use crate::run::Program;
use crate::utf8::read;

const LISTER: Printing = Printing {
    name: "lister",
    printed,
    // What is listed of a text that is not over the limit is never longer.
    most: 10 * LIMIT,
};
const SEED: u64 = 2026;
const RANDOM_TEXTS: usize = 150;

fn line_of(code: u32) -> String {
    if !is_syllable(code) {
        return format!("{code:04X} -\n");
    }
    let name = String::from_utf8(name_of(code)).expect("a name is ASCII");
    format!("{code:04X} {name}\n")
}

/// The whole output of the lister.
fn printed(text: &[u8]) -> Vec<u8> {
    if text.len() > LIMIT {
        return refused(1);
    }
    let characters = joined(&read(text).codes);
    characters
        .into_iter()
        .map(line_of)
        .collect::<String>()
        .into_bytes()
}

/// A name in finished syllables and in letters, the paper's example, damage, and both sides of the
/// limit.
fn chosen() -> Vec<Vec<u8>> {
    vec![
        Vec::new(),
        vec![0xEA, 0xB0, 0x81, 0x41],
        "갈매기 갈매기\n".as_bytes().to_vec(),
        vec![0xE1, 0x84, 0x80, 0xE1, 0x20, 0xA1, 0xE1, 0x86, 0xA8],
        "\u{FFFF}\u{10000}\u{FFFFF}\u{100000}\u{10FFFF}\0"
            .as_bytes()
            .to_vec(),
        "가".as_bytes().repeat(LIMIT / 3),
        vec![0xFF; LIMIT],
        vec![b'A'; LIMIT],
        vec![b'A'; LIMIT + 1],
        vec![0xEA; 3 * LIMIT],
    ]
}

fn random_texts() -> Vec<Vec<u8>> {
    let mut random = Random::new(SEED);
    let mut text = |most: usize| {
        let length = random.below(most);
        mending_texts::bytes(&mut random, length)
    };
    (0..RANDOM_TEXTS)
        .map(|turn| text(if turn % 10 == 0 { LIMIT } else { 200 }))
        .collect()
}

/// How many texts were listed as they must be, or what was wrong.
pub fn check(program: &Program) -> Result<usize, Vec<String>> {
    LISTER.check(program, &[chosen(), random_texts()].concat())
}
