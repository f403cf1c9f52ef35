// The kind writing a record into an image: what cases are made for it.
// It defines no answers: those stand with the definition of the label file.

use crate::byte_texts::repeated;
use crate::kinds::{refused, Kind};
use crate::label_cases::{count_of, numbers_around};
use crate::label_file::{answer_of_writing, Record, MOST_RECORDS, RECORD_BYTES};
use crate::label_texts::{self, bad_records, image_of};
use crate::letters::LIMIT;
use crate::random::Random;
use crate::texts;
use crate::wire::{bytes_of, elements_of, Answer, Call, Shape, Width};
use crate::words;

pub const RECORD_WRITING: Kind = Kind {
    number: 19,
    name: "writing a record",
    shape: Shape::IMAGE_AND_TEXT,
    answer,
    edges,
    random,
    every,
    stored,
    forbidden,
    arguments: words::record_to_write,
    outcome: words::image_written,
};

/// The image is answered in place of a lent buffer; of a refusal as it was.
fn answer(call: &Call) -> Answer {
    let record = Record {
        object: call.y,
        berth: call.z as u16,
        label: bytes_of(&call.b),
    };
    match answer_of_writing(&bytes_of(&call.a), call.x, &record, call.w == 1) {
        Err(refusal) => Answer {
            lent: call.a.clone(),
            ..refused(call, Width::Byte, refusal)
        },
        Ok(image) => Answer {
            lent: elements_of(&image),
            ..Answer::default()
        },
    }
}

/// What is written has an object and a berth number of four and two bytes that differ.
pub fn writing_call(image: &[u8], number: u32, label: &[u8], join: bool) -> Call {
    Call {
        kind: RECORD_WRITING.number,
        x: number,
        y: 0xF1E2_D3C4,
        z: 0xB5A6,
        w: u32::from(join),
        a: elements_of(image),
        b: elements_of(label),
        ..Call::default()
    }
}

fn both_ways(image: &[u8], number: u32, label: &[u8]) -> [Call; 2] {
    [false, true].map(|join| writing_call(image, number, label, join))
}

/// Three records of which none is good: they are not judged, and those beside the written one stay.
fn image_of_bad() -> Vec<u8> {
    let bad = bad_records().into_iter().map(|(record, _)| record);
    bad.step_by(20).take(3).flatten().collect()
}

/// Images that are over the limit, no multiple and good, numbers in them and not, and labels that
/// are over the limit, ill-formed, over-long and good: the checks go 1, 1, 6, 7.
fn refusals() -> Vec<Call> {
    let images = [&image_of(683)[..], &image_of(2)[..191], &[], &image_of(2)];
    let over = vec![b'A'; LIMIT + 1];
    let labels: [&[u8]; 5] = [&over, &over[1..], &[0x80], &[b'A'; 89], b"AB"];
    let mut calls = Vec::new();
    for image in images {
        for number in [0, 1, 2, u32::MAX] {
            let pairs = labels.iter().map(|label| both_ways(image, number, label));
            calls.extend(pairs.flatten());
        }
    }
    calls
}

fn edges() -> Vec<Call> {
    let mut calls = refusals();
    let bad = image_of_bad();
    for label in label_texts::labels_to_store() {
        calls.extend(both_ways(&bad, 1, &label));
    }
    for image in label_texts::odd_lengths() {
        let numbers = numbers_around(&image).into_iter();
        calls.extend(numbers.map(|number| writing_call(&image, number, b"A7", false)));
    }
    for image in label_texts::bad_images() {
        calls.push(writing_call(&image, 0, b"A7", true));
        calls.push(writing_call(&image, count_of(&image), b"", false));
    }
    for number in [0, 1, 340, 680, 681, 682] {
        let long = repeated_label(29);
        calls.extend(both_ways(&image_of(MOST_RECORDS), number, &long));
    }
    for (object, berth) in [(0, 0), (1, 1), (u32::MAX, 0xFFFF), (0x8000_0000, 0x8000)] {
        calls.push(Call {
            y: object,
            z: berth,
            room: 9,
            ..writing_call(&image_of(3), 1, b"A7", false)
        });
    }
    calls
}

/// So many syllables, each in two letters.
fn repeated_label(count: usize) -> Vec<u8> {
    repeated("\u{1112}\u{1175}".as_bytes(), 6 * count)
}

/// Every place of an image of which no record is good, and some of the largest there is; every
/// length of a label, and every number of syllables.
fn every() -> Vec<Call> {
    let mut calls = edges();
    let bad: Vec<u8> = bad_records().into_iter().flat_map(|(bad, _)| bad).collect();
    let bad = &bad[..100 * RECORD_BYTES];
    calls.extend((0..=100).map(|number| writing_call(bad, number, b"A7", false)));
    for number in (0..=MOST_RECORDS as u32).step_by(31) {
        calls.push(writing_call(&image_of(MOST_RECORDS), number, b"A7", false));
    }
    for length in 0..200 {
        calls.extend(both_ways(&image_of_bad(), 2, &vec![b'A'; length]));
        calls.extend(both_ways(&image_of_bad(), 0, &repeated_label(length)));
    }
    calls
}

fn random(random: &mut Random) -> Call {
    let image = label_texts::image(random);
    let number = label_texts::number(random, &image);
    let label = label_texts::label_to_store(random);
    let join = random.one_in(2);
    let mut call = writing_call(&image, number, &label, join);
    call.y = random.number();
    call.z = random.between(0, 0xFFFF);
    if random.one_in(8) {
        call.room = texts::room(random, 3, 9);
    }
    call
}

fn stored() -> Vec<Call> {
    let two = [
        label_texts::record_bytes(1, 2, b"old"),
        vec![0xFF; RECORD_BYTES],
    ]
    .concat();
    let one = &two[..RECORD_BYTES];
    let spelled = "\u{1100}\u{1161}7".as_bytes();
    vec![
        writing_call(&two, 0, spelled, true),
        writing_call(&two, 1, spelled, false),
        writing_call(one, 0, b"", true),
        writing_call(one, 1, b"A", false),
        writing_call(&one[1..], 0, b"A", false),
        writing_call(one, 0, &[0x41, 0xC2], true),
        writing_call(one, 0, &[b'A'; 88], false),
        writing_call(one, 0, &[b'A'; 89], true),
    ]
}

/// A berth number that is over 16 bits, and a w that is neither 0 nor 1; also where the call would
/// be refused.
fn forbidden() -> Vec<Call> {
    let good = writing_call(&image_of(1), 0, b"A", false);
    let refused = writing_call(&[0], 7, &[0x80], true);
    let mut calls = Vec::new();
    for call in [good, refused] {
        let berths = [0x1_0000, 0x1_0007, 0x8000_0000, u32::MAX].into_iter();
        calls.extend(berths.map(|z| Call { z, ..call.clone() }));
        let ways = [2, 3, 0x100, 0x101, 0x1_0000, 0x8000_0001, u32::MAX].into_iter();
        calls.extend(ways.map(|w| Call { w, ..call.clone() }));
    }
    calls
}
