// The kinds of the label file that write no image: fresh record, reading, the records' order.
// It defines no answers: those stand with the definition of the label file.

use crate::kinds::{by_value, in_buffer, no_calls, refused, Kind};
use crate::kinds::{with_all_unused, with_unused_numbers};
use crate::label_file::{answer_of_image, answer_of_order, answer_of_record};
use crate::label_file::{fresh, ImageRefusal, MOST_RECORDS, RECORD_BYTES};
use crate::label_texts::{self, bad_records, changed, image_of, labelled};
use crate::random::Random;
use crate::texts;
use crate::wire::{bytes_of, elements_of, Answer, Call, Shape, Width, MOST_ROOM};
use crate::words;

pub const FRESH_RECORD: Kind = Kind {
    number: 15,
    name: "a fresh record",
    shape: Shape::BYTES,
    answer: |call| in_buffer(call, Width::Byte, Ok(elements_of(&fresh()))),
    edges: || fresh_calls(&[96, 97, 98, 100, 127, 128, 192, 256, 1_000, MOST_ROOM]),
    random: fresh_random,
    every: || fresh_calls(&(96..400).collect::<Vec<u32>>()),
    stored: || fresh_calls(&[99, 96, 97]),
    forbidden: || fresh_calls(&[0, 1, 8, 88, 95]),
    arguments: |call| format!("room {}", call.room),
    outcome: words::bytes_in_buffer,
};

pub const RECORD_READING: Kind = Kind {
    number: 16,
    name: "reading a record",
    shape: Shape::IMAGE,
    answer: record_answer,
    edges: record_edges,
    random: record_random,
    every: record_every,
    stored: record_stored,
    forbidden: no_calls,
    arguments: |call| format!("{} in {}", call.x, words::bytes_argument(call)),
    outcome: words::record_in_buffer,
};

pub const IMAGE_READING: Kind = Kind {
    number: 17,
    name: "reading an image",
    shape: Shape::IMAGE,
    answer: image_answer,
    edges: || {
        image_edges()
            .iter()
            .map(|image| image_call(image))
            .collect()
    },
    random: image_random,
    every: image_every,
    stored: image_stored,
    forbidden: no_calls,
    arguments: words::bytes_argument,
    outcome: words::records_by_value,
};

pub const IMAGE_ORDER: Kind = Kind {
    number: 18,
    name: "the order of an image's records",
    shape: Shape::IMAGE_TO_NUMBERS,
    answer: order_answer,
    edges: order_edges,
    random: order_random,
    every: order_every,
    stored: order_stored,
    forbidden: no_calls,
    arguments: words::bytes_argument,
    outcome: words::codes_in_buffer,
};

fn record_answer(call: &Call) -> Answer {
    match answer_of_record(&bytes_of(&call.a), call.x, call.room) {
        Err(refusal) => refused(call, Width::Byte, refusal),
        Ok(record) => Answer {
            second: record.object,
            third: u32::from(record.berth),
            ..in_buffer(call, Width::Byte, Ok(elements_of(&record.label)))
        },
    }
}

/// Of refusal 7 the record stands beside the place.
fn image_refused(call: &Call, width: Width, image: ImageRefusal) -> Answer {
    Answer {
        second: image.record,
        ..refused(call, width, image.refusal)
    }
}

fn image_answer(call: &Call) -> Answer {
    match answer_of_image(&bytes_of(&call.a)) {
        Err(refusal) => image_refused(call, Width::Byte, refusal),
        Ok(records) => by_value(call, Width::Byte, records.len() as u32, 0, 0),
    }
}

fn order_answer(call: &Call) -> Answer {
    match answer_of_order(&bytes_of(&call.a), call.room) {
        Err(refusal) => image_refused(call, Width::Number, refusal),
        Ok(order) => in_buffer(call, Width::Number, Ok(order)),
    }
}

fn fresh_calls(rooms: &[u32]) -> Vec<Call> {
    let calls = rooms.iter().map(|&room| Call {
        kind: FRESH_RECORD.number,
        room,
        ..Call::default()
    });
    calls.collect()
}

/// It takes no number at all, so x is filled as well.
fn fresh_random(random: &mut Random) -> Call {
    let room = 96 + texts::room(random, 96, 192);
    let mut call = fresh_calls(&[room.min(MOST_ROOM)]).swap_remove(0);
    call.x = texts::any_code(random);
    with_unused_numbers(call, random)
}

/// How many whole records stand in an image.
pub fn count_of(image: &[u8]) -> u32 {
    (image.len() / RECORD_BYTES) as u32
}

pub fn record_call(image: &[u8], number: u32, room: usize) -> Call {
    Call {
        kind: RECORD_READING.number,
        x: number,
        room: texts::bounded_room(room),
        a: elements_of(image),
        ..Call::default()
    }
}

/// A record alone, in the rooms around its label's length: 7 goes before 3.
fn in_rooms_around(record: &[u8]) -> Vec<Call> {
    let length = usize::from(record[6]);
    let mut rooms = vec![0, length.saturating_sub(1), length, length + 1, 88];
    rooms.sort_unstable();
    rooms.dedup();
    let calls = rooms.into_iter().map(|room| record_call(record, 0, room));
    calls.collect()
}

/// Numbers around those that an image has, some of which are such when bits are lost, or when they
/// are multiplied by 96 in 32 bits.
pub fn numbers_around(image: &[u8]) -> Vec<u32> {
    let count = count_of(image);
    let mut numbers = vec![0, 1, count, count + 1, count + 0x100, count + 0x1_0000];
    numbers.extend([0x0800_0000, 0x0800_0001, 0x8000_0000, 0x0AAA_AAAB, u32::MAX]);
    numbers.push(count.saturating_sub(1));
    numbers.sort_unstable();
    numbers.dedup();
    numbers
}

/// A good record between bad ones, and the other way round: each is judged alone.
fn between_others() -> Vec<Call> {
    let good = labelled(b"AB");
    let mut calls = Vec::new();
    for (bad, _) in bad_records().iter().step_by(3) {
        let images = [[bad, &good[..], bad], [&good[..], bad, &good]].map(|image| image.concat());
        for image in images {
            calls.extend([0, 1, 2].map(|number| record_call(&image, number, 4)));
        }
    }
    calls
}

fn record_edges() -> Vec<Call> {
    let mut calls = Vec::new();
    for record in label_texts::good_records() {
        calls.extend(in_rooms_around(&record));
    }
    for image in label_texts::odd_lengths() {
        let numbers = numbers_around(&image).into_iter();
        calls.extend(numbers.map(|number| record_call(&image, number, 88)));
    }
    for (record, _) in bad_records() {
        calls.push(record_call(&record, 0, 88));
        calls.push(record_call(&record, 0, 0));
    }
    calls.extend(between_others());
    for image in label_texts::long_bad_images() {
        calls.push(record_call(&image, 340, 87));
        calls.push(record_call(&image, count_of(&image) - 1, 88));
    }
    calls.push(record_call(&labelled(b"AB"), 0, MOST_ROOM as usize));
    calls
}

/// Every record of a full image, and each byte of a record changed to each other.
fn record_every() -> Vec<Call> {
    let mut calls = record_edges();
    let image = image_of(23);
    calls.extend((0..24).map(|number| record_call(&image, number, 88)));
    for image in label_texts::images_to_order() {
        let numbers = 0..=count_of(&image);
        calls.extend(numbers.map(|number| record_call(&image, number, 20)));
    }
    for record in with_each_byte() {
        calls.push(record_call(&record, 0, 88));
    }
    calls
}

/// A record with a label of several sorts of character, each of its bytes changed to each other.
fn with_each_byte() -> Vec<Vec<u8>> {
    let record = labelled("A\u{AC01}\0\u{1F6A2}7\u{80}".as_bytes());
    let mut records = Vec::new();
    for place in 0..RECORD_BYTES {
        records.extend((0..=0xFF).map(|byte| changed(&record, place, byte)));
    }
    records
}

fn record_random(random: &mut Random) -> Call {
    let image = label_texts::image(random);
    let number = label_texts::number(random, &image);
    let length = image.get(number as usize * RECORD_BYTES + 6);
    let length = usize::from(length.copied().unwrap_or(0)).min(88);
    let room = texts::room(random, length, 88) as usize;
    with_unused_numbers(record_call(&image, number, room), random)
}

fn record_stored() -> Vec<Call> {
    let two = [labelled("\u{AC01} 7".as_bytes()), labelled(b"AB")].concat();
    let bad = |place: usize, byte: u8| changed(&labelled(b"A\0B"), place, byte);
    vec![
        record_call(&two, 0, 7),
        record_call(&two, 1, 2),
        record_call(&two, 1, 1),
        record_call(&two, 2, 2),
        record_call(&fresh(), 0, 0),
        record_call(&[], 0, 1),
        record_call(&fresh()[1..], 0, 1),
        record_call(&bad(95, 0), 0, 3),
        record_call(&bad(95, 1), 0, 3),
        record_call(&bad(6, 89), 0, 3),
        record_call(&bad(7, 1), 0, 0),
        record_call(&bad(9, 0x80), 0, 0),
        record_call(&bad(10, 0xE1), 0, 3),
    ]
}

fn image_call(image: &[u8]) -> Call {
    Call {
        kind: IMAGE_READING.number,
        a: elements_of(image),
        ..Call::default()
    }
}

fn image_edges() -> Vec<Vec<u8>> {
    let mut images = label_texts::odd_lengths();
    images.extend(label_texts::long_bad_images());
    images.extend(label_texts::bad_images());
    images.extend(label_texts::good_records());
    images.extend(label_texts::images_to_order());
    images.extend(label_texts::long_images_to_order());
    images
}

fn image_every() -> Vec<Call> {
    let mut images = image_edges();
    images.extend((0..200).map(|length| image_of(3)[..length].to_vec()));
    images.extend(with_each_byte());
    images.iter().map(|image| image_call(image)).collect()
}

/// Nothing is lent; whatever room is given comes back as it was.
fn image_random(random: &mut Random) -> Call {
    with_all_unused(image_call(&label_texts::image(random)), random)
}

fn image_stored() -> Vec<Call> {
    let good = labelled(b"AB");
    let bad = labelled(&[0x41, 0xC2]);
    let images: [&[u8]; 9] = [
        &[&good[..], &fresh()].concat(),
        &[],
        &fresh(),
        &good[1..],
        &[&good[..], &[0]].concat(),
        &bad,
        &[&good[..], &changed(&good, 6, 255), &bad].concat(),
        &[&changed(&good, 95, 1), &good[..]].concat(),
        &[&fresh()[..], &changed(&good, 7, 1)].concat(),
    ];
    images.iter().map(|image| image_call(image)).collect()
}

pub fn order_call(image: &[u8], room: usize) -> Call {
    Call {
        kind: IMAGE_ORDER.number,
        room: texts::bounded_room(room),
        a: elements_of(image),
        ..Call::default()
    }
}

/// With room for as many numbers as there are records, one short, one more, and none.
fn ordered_in_rooms(image: &[u8]) -> Vec<Call> {
    let count = count_of(image) as usize;
    let mut rooms = vec![count, count + 1, count.saturating_sub(1), 0];
    rooms.sort_unstable();
    rooms.dedup();
    let calls = rooms.into_iter().map(|room| order_call(image, room));
    calls.collect()
}

fn order_edges() -> Vec<Call> {
    let images = [
        label_texts::images_to_order(),
        label_texts::long_images_to_order(),
        label_texts::odd_lengths(),
        label_texts::long_bad_images(),
    ]
    .concat();
    let mut calls: Vec<Call> = images
        .iter()
        .flat_map(|image| ordered_in_rooms(image))
        .collect();
    // 7 goes before 3.
    for image in label_texts::bad_images() {
        calls.push(order_call(&image, 0));
        calls.push(order_call(&image, 9));
    }
    calls.push(order_call(&image_of(3), MOST_ROOM as usize));
    calls.push(order_call(&image_of(MOST_RECORDS), MOST_ROOM as usize));
    calls
}

/// Every three of some records, in every order.
fn order_every() -> Vec<Call> {
    let mut records = Vec::new();
    for label in ["2", "10", "02", "\u{AC01}", "\u{1100}\u{1161}\u{11A8}", ""] {
        for berth in [0, 1, 256] {
            records.push(label_texts::record_bytes(7, berth, label.as_bytes()));
        }
    }
    let mut calls = order_edges();
    for first in &records {
        for second in &records {
            let images = records
                .iter()
                .map(|third| [&first[..], second, third].concat());
            calls.extend(images.map(|image| order_call(&image, 3)));
        }
    }
    calls
}

/// It takes no number at all, so x is filled as well.
fn order_random(random: &mut Random) -> Call {
    let image = label_texts::image(random);
    let count = count_of(&image) as usize;
    let room = texts::room(random, count, count + 9) as usize;
    let mut call = with_unused_numbers(order_call(&image, room), random);
    if random.one_in(4) {
        call.x = texts::any_code(random);
    }
    call
}

fn order_stored() -> Vec<Call> {
    let record = |berth, label: &str| label_texts::record_bytes(1, berth, label.as_bytes());
    let numbers = [record(3, "10"), record(3, "2"), record(1, "02")].concat();
    let spellings = [record(7, "\u{AC00}"), record(256, "\u{1100}\u{1161}")].concat();
    let alike = [record(0, "A"), record(0, "A"), record(0, "")].concat();
    let bad = [record(0, "A"), changed(&record(0, "A"), 95, 1)].concat();
    vec![
        order_call(&numbers, 4),
        order_call(&numbers, 2),
        order_call(&spellings, 2),
        order_call(&alike, 3),
        order_call(&[], 0),
        order_call(&fresh(), 1),
        order_call(&fresh()[1..], 1),
        order_call(&bad, 0),
    ]
}
