// Mean images and labels for the label file: good records, records bad at each place, odd lengths.
// It makes no whole calls and decides no answers, but for the places that the rules give.

use crate::byte_texts::{repeated, with, with_damage};
use crate::label_file::{laid_out, Record, LABEL_PLACE, LENGTH_PLACE, ZERO_PLACE};
use crate::label_file::{MOST_IMAGE, MOST_LABEL, MOST_RECORDS, RECORD_BYTES};
use crate::letters::{full_parts_of_text, LIMIT};
use crate::random::Random;
use crate::ranking_texts::{self, codes_of};
use crate::texts;
use crate::utf8::{written, written_code};
use crate::wire::{MOST_ELEMENTS, MOST_IMAGE_BYTES};

/// The bytes of a record with such a label; its object and berth number are no neighbours' zeros.
pub fn labelled(label: &[u8]) -> Vec<u8> {
    record_bytes(0x0102_0304, 0x0506, label)
}

pub fn record_bytes(object: u32, berth: u16, label: &[u8]) -> Vec<u8> {
    let label = label.to_vec();
    let record = Record {
        object,
        berth,
        label,
    };
    laid_out(&record).to_vec()
}

/// A record's bytes with one of them changed.
pub fn changed(record: &[u8], place: usize, byte: u8) -> Vec<u8> {
    with(record, place..place + 1, &[byte])
}

/// 87 bytes of letters and the bytes given.
fn after_87(bytes: &[u8]) -> Vec<u8> {
    [&[b'A'; 87], bytes].concat()
}

/// Labels that a record may hold: of every length at which something ends, with zeros, digits,
/// marks, both spellings and a true FFFD.
pub fn good_labels() -> Vec<Vec<u8>> {
    let mut labels: Vec<Vec<u8>> = [0, 1, 2, 3, 7, 8, 44, 86, 87, 88]
        .map(|length| vec![b'A'; length])
        .to_vec();
    let texts = [
        "\0",
        "\0\0\0",
        "A\0",
        "7",
        "007",
        "10",
        "\u{AC01}",
        "\u{1100}\u{1161}\u{11A8}",
        "\u{FFFD}",
        "\u{FEFF}A",
        "\u{10FFFF}",
        "\u{80}\u{7FF}\u{800}\u{FFFF}\u{10000}",
    ];
    labels.extend(texts.map(|text| text.as_bytes().to_vec()));
    labels.push(after_87(&[0]));
    labels.push(repeated("\u{AC01}".as_bytes(), 87));
    labels.push(repeated("\u{1F6A2}".as_bytes(), 88));
    labels.push(vec![0; MOST_LABEL]);
    labels
}

pub fn good_records() -> Vec<Vec<u8>> {
    let mut records: Vec<Vec<u8>> = good_labels().iter().map(|label| labelled(label)).collect();
    records.push(vec![0; RECORD_BYTES]);
    records.push(record_bytes(u32::MAX, u16::MAX, b"A"));
    records.push(record_bytes(0x8000_0000, 0x8000, b""));
    records.push(record_bytes(1, 1, b"A"));
    records
}

/// Labels that are ill-formed, with the place where the first ill-formed subpart begins.
pub fn ill_formed_labels() -> Vec<(Vec<u8>, usize)> {
    let cases: [(&[u8], usize); 14] = [
        (&[0x80], 0),
        (&[0xFF], 0),
        (&[0x41, 0x80], 1),
        (&[0xC0, 0x80], 0),
        (&[0xED, 0xA0, 0x80], 0),
        (&[0xF4, 0x90, 0x80, 0x80], 0),
        (&[0x41, 0xE1, 0x80, 0x41], 1),
        (&[0x41, 0x42, 0xE1], 2),
        (&[0xEA, 0xB0, 0x81, 0x80], 3),
        (&[0xEA, 0xB0, 0x81, 0xEA, 0xB0], 3),
        (&[0xE1, 0x84, 0x80, 0xE1, 0x20, 0xA1, 0xE1, 0x86, 0xA8], 3),
        (&[0x00, 0x00, 0xC2, 0x00], 2),
        (&[0xEF, 0xBF, 0xBD, 0xF1, 0x80, 0x80], 3),
        (&[0x80, 0xFF, 0xC2], 0),
    ];
    let mut labels = cases.map(|(label, place)| (label.to_vec(), place)).to_vec();
    labels.push((after_87(&[0x80]), 87));
    labels.push((after_87(&[0xC2]), 87));
    labels
}

/// Bad records, each with the first byte that offends.
pub fn bad_records() -> Vec<(Vec<u8>, usize)> {
    let good = labelled(b"AB");
    let ill_formed = labelled(&[0x41, 0x80]);
    let mut records = Vec::new();
    for length in [89, 90, 96, 127, 128, 255] {
        for record in [&good, &ill_formed] {
            let over = changed(record, LENGTH_PLACE, length);
            records.push((changed(&over, ZERO_PLACE, 1), LENGTH_PLACE));
            records.push((over, LENGTH_PLACE));
        }
    }
    for byte in [1, 0x41, 0x80, 0xFF] {
        for record in [&good, &ill_formed, &changed(&good, 95, 7)] {
            records.push((changed(record, ZERO_PLACE, byte), ZERO_PLACE));
        }
    }
    for (label, place) in ill_formed_labels() {
        let record = labelled(&label);
        records.push((changed(&record, 95, record[95] | 1), LABEL_PLACE + place));
        records.push((record, LABEL_PLACE + place));
    }
    records.extend(with_cut_labels());
    records.extend(with_tails());
    records
}

/// The length cuts a character, whose first byte offends: not its rest, which stands in the tail.
fn with_cut_labels() -> Vec<(Vec<u8>, usize)> {
    let mut records = Vec::new();
    for character in ["\u{80}", "\u{AC01}", "\u{1F6A2}"] {
        for front in [0, 1, 40, 84] {
            let label = [&vec![b'A'; front], character.as_bytes()].concat();
            let record = labelled(&label);
            for kept in 1..character.len() {
                let cut = changed(&record, LENGTH_PLACE, (front + kept) as u8);
                records.push((cut, LABEL_PLACE + front));
            }
        }
    }
    records
}

/// A byte after the label that is no zero, at each place; two of them, of which the first counts.
fn with_tails() -> Vec<(Vec<u8>, usize)> {
    let mut records = Vec::new();
    for length in [0, 1, 3, 87] {
        let record = labelled(&vec![b'A'; length]);
        for place in LABEL_PLACE + length..RECORD_BYTES {
            let byte = [1, 0x41, 0x80, 0xFF][place % 4];
            let bad = changed(&record, place, byte);
            records.push((changed(&bad, RECORD_BYTES - 1, 1), place));
            records.push((bad, place));
        }
    }
    records
}

/// So many good records, with labels by turns.
pub fn image_of(count: usize) -> Vec<u8> {
    let records = good_records();
    records
        .iter()
        .cycle()
        .take(count)
        .flatten()
        .copied()
        .collect()
}

/// Good images around every bound: a byte too few and too many of a record, and of the limit.
pub fn odd_lengths() -> Vec<Vec<u8>> {
    let all = image_of(MOST_RECORDS + 6);
    let lengths = [
        0,
        1,
        2,
        48,
        95,
        96,
        97,
        191,
        192,
        193,
        288,
        1_000,
        65_375,
        65_376,
        65_377,
        65_471,
        MOST_IMAGE,
        65_473,
        65_536,
        65_568,
        MOST_IMAGE_BYTES as usize,
    ];
    lengths.map(|length| all[..length].to_vec()).to_vec()
}

/// Images with bad records: each kind of fault alone, first, last and between, and two of them.
pub fn bad_images() -> Vec<Vec<u8>> {
    let good = labelled(b"AB");
    let bad: Vec<Vec<u8>> = bad_records()
        .into_iter()
        .map(|(record, _)| record)
        .collect();
    let mut images = bad.clone();
    for (index, record) in bad.iter().enumerate().step_by(5) {
        let other = &bad[(index * 7 + 3) % bad.len()];
        images.push([&good[..], record].concat());
        images.push([record, &good[..], &good].concat());
        images.push([&good[..], record, &good, other].concat());
        images.push([other, &record[..]].concat());
        // Not a multiple of 96: 6 goes before 7.
        images.push([record, &[0][..]].concat());
        images.push(record[..95].to_vec());
    }
    images
}

/// As many records as there may be, and one more, with a bad one at some places.
pub fn long_bad_images() -> Vec<Vec<u8>> {
    let full = image_of(MOST_RECORDS);
    let bad = labelled(&[0x41, 0x80]);
    let mut images = Vec::new();
    for record in [0, 1, 340, MOST_RECORDS - 2, MOST_RECORDS - 1] {
        let place = record * RECORD_BYTES;
        let image = with(&full, place..place + RECORD_BYTES, &bad);
        images.push([&image, &[0; RECORD_BYTES][..]].concat());
        images.push(image[..MOST_IMAGE - 1].to_vec());
        images.push(image);
    }
    images
}

/// Records in which the label, the berth number and at last the record number decide the order.
pub fn images_to_order() -> Vec<Vec<u8>> {
    let labels = [
        "10",
        "2",
        "\u{AC01}",
        "02",
        "",
        "\u{1100}\u{1161}\u{11A8}",
        "0",
        "\0",
        "A",
        "2 ",
    ];
    let mut all: Vec<Vec<u8>> = Vec::new();
    for (index, label) in labels.iter().enumerate() {
        for berth in [0, 7, u16::MAX, 7, 256, 1] {
            all.push(record_bytes(index as u32, berth, label.as_bytes()));
        }
    }
    let mut random = Random::new(18);
    let mut images = vec![all.concat()];
    for count in [2, 3, 5, 9, 17, 33, 60] {
        for _ in 0..4 {
            random.shuffle(&mut all);
            images.push(all[..count].concat());
        }
    }
    images
}

/// As many records as there may be: all alike, in falling order, and of a few labels.
pub fn long_images_to_order() -> Vec<Vec<u8>> {
    let numbers = 0..MOST_RECORDS;
    let image = |record: &dyn Fn(usize) -> Vec<u8>| -> Vec<u8> {
        numbers.clone().flat_map(|number| record(number)).collect()
    };
    vec![
        image(&|_| labelled(b"A7")),
        image(&|number| record_bytes(7, (MOST_RECORDS - number) as u16, b"A7")),
        image(&|number| labelled(format!("boat {}", MOST_RECORDS - number).as_bytes())),
        image(&|number| labelled(format!("boat {number:03}").as_bytes())),
        image(&|number| labelled(["\u{AC00}7", "\u{1100}\u{1161}07", "9"][number % 3].as_bytes())),
        image(&|number| labelled(&repeated(b"7319042586", number % 89))),
    ]
}

/// Labels to store: around 88 bytes as given and joined, and around the limit.
pub fn labels_to_store() -> Vec<Vec<u8>> {
    let mut labels = good_labels();
    labels.extend(ill_formed_labels().into_iter().map(|(label, _)| label));
    for count in [9, 10, 28, 29, 30] {
        let joined = vec![0xAC01; count];
        for after in ["", "A", "AB"] {
            let after = codes_of(after);
            let spelled = full_parts_of_text(&joined);
            let with_finals = repeated(&[0xAC00, 0x11A8], 2 * count);
            labels.push(written(&[&joined[..], &after].concat()));
            labels.push(written(&[&spelled[..], &after].concat()));
            labels.push(written(&[&with_finals[..], &after].concat()));
        }
    }
    // The last letter joins what stands right at the bound.
    labels.push([&[b'A'; 85], "\u{AC00}\u{11A8}".as_bytes()].concat());
    labels.push([&[b'A'; 86], "\u{AC00}\u{11A8}".as_bytes()].concat());
    // Well-formed up to the bound and not after it; joined, it would fit.
    labels.push([&repeated("\u{AC00}\u{11A8}".as_bytes(), 90), &[0x80][..]].concat());
    for length in [
        89,
        96,
        255,
        256,
        344,
        LIMIT,
        LIMIT + 1,
        MOST_ELEMENTS as usize,
    ] {
        labels.push(vec![b'A'; length]);
        labels.push(vec![0x80; length]);
    }
    labels
}

/// A well-formed label of at most 88 bytes, with so many characters of the text as fit.
fn fitting(text: &[u32]) -> Vec<u8> {
    let mut label = Vec::new();
    for character in text.iter().map(|&code| written_code(code)) {
        if label.len() + character.len() > MOST_LABEL {
            break;
        }
        label.extend(character);
    }
    label
}

/// A few labels, of which some are likely to rank equal.
fn labels(random: &mut Random) -> Vec<Vec<u8>> {
    let mut labels = Vec::new();
    for _ in 0..1 + random.below(3) {
        let length = random.pick(&[0, 1, 2, 3, 5, 9, 30, 60]);
        let (first, second) = ranking_texts::pair(random, length);
        labels.extend([fitting(&first), fitting(&second)]);
    }
    labels
}

fn berth(random: &mut Random) -> u16 {
    match random.below(3) {
        0 => random.number() as u16,
        _ => random.pick(&[0, 1, 7, 255, 256, u16::MAX]),
    }
}

/// A good record with one of the labels.
fn record(random: &mut Random, labels: &[Vec<u8>]) -> Vec<u8> {
    let label = &labels[random.below(labels.len())];
    let object = match random.below(3) {
        0 => random.number(),
        _ => random.pick(&[0, 1, 0xFF, 0x100, 0x8000_0000, u32::MAX]),
    };
    record_bytes(object, berth(random), label)
}

/// The record with one fault, which may happen to be none.
fn with_fault(random: &mut Random, record: &[u8]) -> Vec<u8> {
    let length = usize::from(record[LENGTH_PLACE]).min(MOST_LABEL);
    let any = random.number() as u8;
    let in_label = LABEL_PLACE + random.below(length.max(1));
    let in_tail = LABEL_PLACE + length + random.below((MOST_LABEL - length).max(1));
    match random.below(8) {
        0 => changed(record, LENGTH_PLACE, random.between(89, 255) as u8),
        1 => changed(record, LENGTH_PLACE, random.between(0, 88) as u8),
        2 => changed(record, ZERO_PLACE, any),
        3 | 4 => changed(record, in_label, random.between(0x80, 0xFF) as u8),
        5 => changed(record, in_tail.min(RECORD_BYTES - 1), any),
        6 => changed(record, random.below(RECORD_BYTES), any),
        _ => (0..RECORD_BYTES).map(|_| random.number() as u8).collect(),
    }
}

fn count(random: &mut Random) -> usize {
    if random.one_in(300) {
        return random.pick(&[MOST_RECORDS - 1, MOST_RECORDS, MOST_RECORDS, 683, 687]);
    }
    match random.below(12) {
        0 => random.below(40),
        1..=3 => random.below(10),
        4 => 0,
        _ => 1 + random.below(4),
    }
}

/// An image: two of three are good; of the others some have a length that is no multiple of 96.
pub fn image(random: &mut Random) -> Vec<u8> {
    let count = count(random);
    let labels = labels(random);
    let mut records: Vec<Vec<u8>> = (0..count).map(|_| record(random, &labels)).collect();
    if random.one_in(4) && count > 0 {
        for _ in 0..1 + random.below(3) {
            let place = random.below(count);
            records[place] = with_fault(random, &records[place]);
        }
    }
    let mut image = records.concat();
    if random.one_in(10) {
        let length = match random.below(3) {
            0 => image.len() + 1,
            1 => random.below(image.len() + 1),
            _ => image.len().saturating_sub(1),
        };
        image.resize(length, 0);
    }
    image.truncate(MOST_IMAGE_BYTES as usize);
    image
}

/// A record number: mostly of the image, else the next one, or any.
pub fn number(random: &mut Random, image: &[u8]) -> u32 {
    let count = image.len() / RECORD_BYTES;
    match random.below(12) {
        0 => count as u32,
        1 => random.pick(&[0x100, 0x1_0000, 0x0800_0000, 0x8000_0000, u32::MAX]),
        _ => random.below(count.max(1)) as u32,
    }
}

/// A label to store: mostly one that may be, else longer, damaged, or over the limit.
pub fn label_to_store(random: &mut Random) -> Vec<u8> {
    if random.one_in(300) {
        let length = random.pick(&[LIMIT, LIMIT + 1, MOST_ELEMENTS as usize]);
        return vec![b'A'; length];
    }
    let length = random.pick(&[0, 1, 3, 9, 27, 30, 33, 60, 88, 100]);
    let text = match random.one_in(2) {
        true => ranking_texts::label(random, length),
        false => texts::joining_text(random, length),
    };
    match random.below(5) {
        0 => written(&text),
        1 => with_damage(random, written(&text)),
        2 => fitting(&full_parts_of_text(&text)),
        _ => fitting(&text),
    }
}
