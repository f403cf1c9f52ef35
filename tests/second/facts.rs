// Holds the definitions against facts from the Unicode Standard and from the rules' marked cases.
// It runs no program; a broken fact means that this program is wrong, not the one under test.

use crate::cases::FULL_PARTS;
use crate::compare_facts;
use crate::filler_facts;
use crate::gathering_facts;
use crate::joining_facts;
use crate::kinds::{self, kind_of, Kind};
use crate::label_facts;
use crate::letter_facts;
use crate::letters::{answer_of_text, Refusal};
use crate::mending_facts;
use crate::naming_facts;
use crate::published;
use crate::random::Random;
use crate::ranking_cases::RANKING;
use crate::ranking_facts;
use crate::reading_cases::READING;
use crate::reading_kinds::{answer_of_units, Made};
use crate::simple_facts;
use crate::unit_mending_facts;
use crate::unit_reading_cases::UNIT_READING;
use crate::unit_writing_cases::UNIT_WRITING;
use crate::utf16_facts;
use crate::utf8_facts;
use crate::wire::{get_answer, get_call, put_answer, put_call, Call, Cursor, Shape};
use crate::writing_cases::WRITING;

#[derive(Default)]
pub struct Facts {
    pub held: usize,
    pub broken: Vec<String>,
}

impl Facts {
    pub fn state(&mut self, fact: &str, holds: bool) {
        if holds {
            self.held += 1;
        } else {
            self.broken.push(fact.to_string());
        }
    }
}

pub fn all() -> Facts {
    let mut facts = Facts::default();
    letter_facts::state_all(&mut facts);
    joining_facts::state_all(&mut facts);
    simple_facts::state_all(&mut facts);
    gathering_facts::state_all(&mut facts);
    filler_facts::state_all(&mut facts);
    utf8_facts::state_all(&mut facts);
    mending_facts::state_all(&mut facts);
    utf16_facts::state_all(&mut facts);
    unit_mending_facts::state_all(&mut facts);
    naming_facts::state_all(&mut facts);
    ranking_facts::state_all(&mut facts);
    label_facts::state_all(&mut facts);
    files_of_normalization_tests(&mut facts);
    wire_form(&mut facts);
    wire_form_of_answers(&mut facts);
    wire_form_of_bytes(&mut facts);
    wire_form_of_units(&mut facts);
    wire_form_of_two_texts(&mut facts);
    wire_form_of_images(&mut facts);
    generator(&mut facts);
    stored_cases(&mut facts);
    compare_facts::state_all(&mut facts);
    facts
}

/// Number and place of the refusal of a call that makes `whole`; two zeros where it is given.
pub fn refusal(whole: fn(&[u32]) -> Vec<u32>, text: &[u32], room: u32) -> (u32, u32) {
    match answer_of_text(text, room, whole) {
        Err(Refusal { number, place }) => (number, place),
        Ok(_) => (0, 0),
    }
}

/// A fact in words, a text, a room, and the number and place of the refusal.
pub type TextCase<'text> = (&'static str, &'text [u32], u32, (u32, u32));

/// The same of a call that reads code units.
pub fn refusal_of_units<Unit>(whole: fn(&[Unit]) -> Made, units: &[Unit], room: u32) -> (u32, u32) {
    match answer_of_units(units, room, whole) {
        Err(Refusal { number, place }) => (number, place),
        Ok(_) => (0, 0),
    }
}

/// A fact in words, code units, a room, and the number and place of the refusal.
pub type UnitCase<'units, Unit> = (&'static str, &'units [Unit], u32, (u32, u32));

/// Only the right file is taken: a wrong one could have nothing in it to disagree with.
fn files_of_normalization_tests(facts: &mut Facts) {
    let title = "# NormalizationTest-0.0.0.txt\n";
    let outside = "00C5;00C5;0041 030A;00C5;0041 030A;\n";
    let inside = "AC00;AC00;1100 1161;AC00;1100 1161; # (comment; with a semicolon)\n";
    let whole = format!("{title}@Part0 # cases\n{outside}#\n@Part1 # characters\n{inside}# EOF\n");
    let counted = |list| {
        let kinds = kinds::chosen(list).expect("these are kinds");
        let trials = published::trials_of(&whole, &kinds)?;
        Ok::<_, String>((trials.lines, trials.characters))
    };
    let characters = 128 + 256 + 11_172 + 2 - 1;
    facts.state(
        "a published file is read",
        counted("3,4") == Ok((1, characters)),
    );
    facts.state("and read for units", counted("22") == Ok((1, characters)));
    facts.state("it says nothing of other kinds", counted("20,21").is_err());
    let wrong = [
        ("no title", whole.replace(title, "")),
        ("no end", whole.replace("# EOF\n", "")),
        ("no part 1", whole.replace("@Part1", "@Part2")),
        ("no line in part 1", whole.replace(inside, "")),
        ("no line in the repertoire", whole.replace(inside, outside)),
        (
            "a line that is cut",
            whole.replace(";1100 1161; #", ";1100"),
        ),
        (
            "a column that is empty",
            whole.replace("AC00;AC00", "AC00;"),
        ),
        ("what is no number", whole.replace("030A", "030G")),
        ("nothing", String::new()),
    ];
    for (fault, text) in wrong {
        let refused = published::trials_of(&text, kinds::OF_CALLS).is_err();
        facts.state(&format!("a file with {fault} is refused"), refused);
    }
}

fn wire_form(facts: &mut Facts) {
    let mut call = Call {
        kind: 3,
        x: 0x0102_0304,
        room: 4,
        ..Call::default()
    };
    call.a.push(0xAC01);
    let shape = kind_of(&call).shape;
    let mut bytes = Vec::new();
    put_call(&call, &shape, &mut bytes);
    facts.state("a call has 32 bytes and its elements", bytes.len() == 36);
    facts.state("numbers go low byte first", bytes[4..8] == [4, 3, 2, 1]);
    facts.state("elements too", bytes[32..] == [0x01, 0xAC, 0, 0]);
    let read = |bytes: &[u8]| get_call(&mut Cursor::new(bytes), |_| Some(shape));
    facts.state(
        "a call is read as written",
        read(&bytes) == Some(call.clone()),
    );
    facts.state("a cut call is not read", read(&bytes[..35]).is_none());
}

fn wire_form_of_answers(facts: &mut Facts) {
    let call = (FULL_PARTS.stored)().swap_remove(0);
    let kind = kind_of(&call);
    let answer = (kind.answer)(&call);
    let buffer = [0x1100, 0x1161, 0x11A8, 0xA5A5_A5A5];
    facts.state("the rest of the buffer is unchanged", answer.lent == buffer);
    let mut bytes = Vec::new();
    put_answer(&answer, &kind.shape, &mut bytes);
    facts.state("an answer has 16 bytes and its room", bytes.len() == 32);
    facts.state("its length is known", kind.shape.answer_bytes(&call) == 32);
    let read = get_answer(&mut Cursor::new(&bytes), &call, &kind.shape);
    facts.state("an answer is read as written", read == Some(answer));
}

/// Bytes in and code points out, and the other way round.
fn wire_form_of_bytes(facts: &mut Facts) {
    let reading = (READING.stored)().swap_remove(0);
    let answer = (READING.answer)(&reading);
    let mut bytes = Vec::new();
    put_call(&reading, &READING.shape, &mut bytes);
    let elements = [0xEA, 0xB0, 0x81, 0x41];
    facts.state("bytes to read take a byte each", bytes[32..] == elements);
    let read = get_call(&mut Cursor::new(&bytes), |_| Some(READING.shape));
    facts.state("and are read as written", read == Some(reading));
    let buffer = [0xAC01, 0x41, 0xA5A5_A5A5];
    facts.state("what is read stands in numbers", answer.lent == buffer);
    let writing = (WRITING.stored)().swap_remove(0);
    let answer = (WRITING.answer)(&writing);
    let buffer = [0xEA, 0xB0, 0x81, 0x41, 0xA5];
    facts.state("what is written stands in bytes", answer.lent == buffer);
    bytes.clear();
    put_answer(&answer, &WRITING.shape, &mut bytes);
    facts.state("a byte of room takes a byte", bytes.len() == 16 + 5);
    let read = get_answer(&mut Cursor::new(&bytes), &writing, &WRITING.shape);
    facts.state("such an answer is read as written", read == Some(answer));
}

/// Units in and code points out, and the other way round.
fn wire_form_of_units(facts: &mut Facts) {
    let reading = (UNIT_READING.stored)().swap_remove(0);
    let answer = (UNIT_READING.answer)(&reading);
    let mut bytes = Vec::new();
    put_call(&reading, &UNIT_READING.shape, &mut bytes);
    let elements = [0x01, 0xAC, 0x3D, 0xD8, 0xA2, 0xDE, 0x41, 0];
    facts.state("units take two bytes each", bytes[32..] == elements);
    let read = get_call(&mut Cursor::new(&bytes), |_| Some(UNIT_READING.shape));
    facts.state("and units are read as written", read == Some(reading));
    let buffer = [0xAC01, 0x1_F6A2, 0x41, 0xA5A5_A5A5];
    facts.state("what units are stands in numbers", answer.lent == buffer);
    let writing = (UNIT_WRITING.stored)().swap_remove(0);
    let answer = (UNIT_WRITING.answer)(&writing);
    let buffer = [0xAC01, 0xD83D, 0xDEA2, 0x41, 0xA5A5];
    facts.state("what is written stands in units", answer.lent == buffer);
    bytes.clear();
    put_answer(&answer, &UNIT_WRITING.shape, &mut bytes);
    facts.state("a unit of room takes two bytes", bytes.len() == 16 + 10);
    let read = get_answer(&mut Cursor::new(&bytes), &writing, &UNIT_WRITING.shape);
    facts.state(
        "an answer in units is read as written",
        read == Some(answer),
    );
}

/// The second text stands after the first; a kind that takes none has no place for it.
fn wire_form_of_two_texts(facts: &mut Facts) {
    let call = Call {
        kind: RANKING.number,
        a: vec![0x31],
        b: vec![0xAC01, 0x32],
        ..Call::default()
    };
    let mut bytes = Vec::new();
    put_call(&call, &RANKING.shape, &mut bytes);
    let elements = [0x31, 0, 0, 0, 0x01, 0xAC, 0, 0, 0x32, 0, 0, 0];
    facts.state("b stands after a", bytes[32..] == elements);
    facts.state(
        "nb is the last number",
        bytes[24..32] == [1, 0, 0, 0, 2, 0, 0, 0],
    );
    let read = |bytes: &[u8], shape| get_call(&mut Cursor::new(bytes), |_| Some(shape));
    let whole = read(&bytes, RANKING.shape);
    facts.state("two texts are read as written", whole == Some(call));
    let cut = read(&bytes[..43], RANKING.shape);
    facts.state("a cut second text is not read", cut.is_none());
    let none = read(&bytes, Shape::CODES);
    facts.state("where there is no b none is read", none.is_none());
    let bounds = (RANKING.shape.most_of_b(), Shape::CODES.most_of_b());
    facts.state("nb has bounds", bounds == (20_000, 0));
}

/// An image has a bound of its own, and may be answered in place of the lent buffer.
fn wire_form_of_images(facts: &mut Facts) {
    let mut call = Call {
        kind: 19,
        room: 9,
        ..Call::default()
    };
    call.a.extend([1, 0xFF]);
    call.b.push(0xAC);
    let (plain, image) = (Shape::BYTES, Shape::IMAGE_AND_TEXT);
    let mut bytes = Vec::new();
    put_call(&call, &image, &mut bytes);
    facts.state("byte elements take a byte", bytes[32..] == [1, 0xFF, 0xAC]);
    let read = get_call(&mut Cursor::new(&bytes), |_| Some(image));
    facts.state("an image is read as written", read == Some(call.clone()));
    facts.state(
        "an image is answered whole",
        image.answer_bytes(&call) == 18,
    );
    facts.state(
        "a buffer is answered whole",
        plain.answer_bytes(&call) == 25,
    );
    let bounds = (image.most_of_a(), plain.most_of_a());
    facts.state("an image may be longer", bounds == (66_000, 20_000));
    facts.state("an unchanged byte is A5", plain.lent.untouched() == 0xA5);
}

/// The first outputs of splitmix64 for seed 0, as published with the generator.
fn generator(facts: &mut Facts) {
    let mut random = Random::new(0);
    for expected in [
        0xE220_A839_7B1D_CDAF,
        0x6E78_9E6A_A1B9_65F4,
        0x06C4_5D18_8009_454F_u64,
    ] {
        facts.state("the generator is splitmix64", random.next() == expected);
    }
}

/// The bytes of a kind's stored calls and of their answers.
fn stored_bytes(kind: &Kind) -> usize {
    let mut bytes = Vec::new();
    for call in (kind.stored)() {
        put_call(&call, &kind.shape, &mut bytes);
        put_answer(&(kind.answer)(&call), &kind.shape, &mut bytes);
    }
    bytes.len()
}

/// The stored cases show every refusal that fits into a small file, and leave room to spare.
fn stored_cases(facts: &mut Facts) {
    let kinds = kinds::all;
    for refusal in [0, 2, 3, 4, 5, 6, 7] {
        let stored = kinds().any(|kind| {
            let calls = (kind.stored)();
            let mut answers = calls.iter().map(|call| (kind.answer)(call));
            answers.any(|answer| answer.refusal == refusal)
        });
        facts.state(&format!("refusal {refusal} is stored"), stored);
    }
    for kind in kinds() {
        let first = (kind.stored)().swap_remove(0);
        let good = (kind.answer)(&first).refusal == 0;
        facts.state(&format!("the first stored {} is good", kind.name), good);
        let small = stored_bytes(kind) < 3_000;
        facts.state(&format!("the stored {} are small", kind.name), small);
    }
}
