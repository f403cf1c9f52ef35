// The definition of the label file: a record's layout, reading, writing, and the records' order.
// It makes no cases and knows no wire form; it aims at plainness, not at speed.

use crate::joining::joined;
use crate::letters::{check_length, check_room, Refusal};
use crate::ranking::{items, Item};
use crate::utf8::{first_ill_formed, read, written};
use std::ops::Range;

pub const RECORD_BYTES: usize = 96;
pub const MOST_RECORDS: usize = 682;
pub const MOST_IMAGE: usize = 65_472;
pub const MOST_LABEL: usize = 88;

/// Where in a record the label's length, the zero and the label stand.
pub const LENGTH_PLACE: usize = 6;
pub const ZERO_PLACE: usize = 7;
pub const LABEL_PLACE: usize = 8;

/// What a record holds; of a good one the label is well-formed and not over 88 bytes.
#[derive(Clone, Debug, Default, PartialEq, Eq)]
pub struct Record {
    pub object: u32,
    pub berth: u16,
    pub label: Vec<u8>,
}

pub fn fresh() -> [u8; RECORD_BYTES] {
    [0; RECORD_BYTES]
}

/// The bytes of a record whose label is not over 88 bytes.
pub fn laid_out(record: &Record) -> [u8; RECORD_BYTES] {
    let mut bytes = fresh();
    bytes[0..4].copy_from_slice(&record.object.to_be_bytes());
    bytes[4..6].copy_from_slice(&record.berth.to_be_bytes());
    bytes[LENGTH_PLACE] = record.label.len() as u8;
    bytes[LABEL_PLACE..][..record.label.len()].copy_from_slice(&record.label);
    bytes
}

/// The first offending byte of a record: 6, then 7, then the first byte of the label's first
/// ill-formed subpart, then a tail byte. Where byte 6 is over 88 nothing else is looked at.
pub fn first_offending(bytes: &[u8]) -> Option<usize> {
    let length = usize::from(bytes[LENGTH_PLACE]);
    if length > MOST_LABEL {
        return Some(LENGTH_PLACE);
    }
    if bytes[ZERO_PLACE] != 0 {
        return Some(ZERO_PLACE);
    }
    let (label, tail) = bytes[LABEL_PLACE..].split_at(length);
    if let Some(place) = first_ill_formed(label) {
        return Some(LABEL_PLACE + place);
    }
    let place = tail.iter().position(|&byte| byte != 0);
    place.map(|place| LABEL_PLACE + length + place)
}

fn refusal(number: u32, place: usize) -> Refusal {
    let place = place as u32;
    Refusal { number, place }
}

/// Refusal 7 of a stored record.
fn read_record(bytes: &[u8]) -> Result<Record, Refusal> {
    if let Some(place) = first_offending(bytes) {
        return Err(refusal(7, place));
    }
    let high_first = |number, &byte: &u8| number * 0x100 + u32::from(byte);
    Ok(Record {
        object: bytes[0..4].iter().fold(0, high_first),
        berth: bytes[4..6].iter().fold(0, high_first) as u16,
        label: bytes[LABEL_PLACE..][..usize::from(bytes[LENGTH_PLACE])].to_vec(),
    })
}

/// Refusal 1 of an image.
fn check_image(image: &[u8]) -> Result<(), Refusal> {
    match image.len() {
        0..=MOST_IMAGE => Ok(()),
        _ => Err(refusal(1, MOST_IMAGE)),
    }
}

/// Refusal 6 of an image; else how many records it has.
fn count_records(image: &[u8]) -> Result<usize, Refusal> {
    match image.len() % RECORD_BYTES {
        0 => Ok(image.len() / RECORD_BYTES),
        _ => Err(refusal(6, image.len())),
    }
}

/// Refusal 6 of an image or of a record number in it; else where the record stands.
fn places_of(image: &[u8], number: u32) -> Result<Range<usize>, Refusal> {
    let number = number as usize;
    if number >= count_records(image)? {
        return Err(refusal(6, image.len()));
    }
    Ok(number * RECORD_BYTES..(number + 1) * RECORD_BYTES)
}

/// Reading one record, which is judged alone: 1, 6, 7, then 3 for the label.
pub fn answer_of_record(image: &[u8], number: u32, room: u32) -> Result<Record, Refusal> {
    check_image(image)?;
    let record = read_record(&image[places_of(image, number)?])?;
    check_room(record.label.len(), room)?;
    Ok(record)
}

/// A refusal where a whole image is read: of 7 with the record, which else is 0.
#[derive(Clone, Copy, Debug, PartialEq, Eq)]
pub struct ImageRefusal {
    pub refusal: Refusal,
    pub record: u32,
}

impl From<Refusal> for ImageRefusal {
    fn from(refusal: Refusal) -> ImageRefusal {
        ImageRefusal { refusal, record: 0 }
    }
}

/// Reading a whole image: 1, 6, then 7 of the lowest bad record.
pub fn answer_of_image(image: &[u8]) -> Result<Vec<Record>, ImageRefusal> {
    check_image(image)?;
    count_records(image)?;
    let records = image.chunks(RECORD_BYTES).map(read_record).enumerate();
    let records = records.map(|(number, record)| {
        record.map_err(|refusal| ImageRefusal {
            refusal,
            record: number as u32,
        })
    });
    records.collect()
}

/// By the rank of the label, then by berth number, 0 being 0, then by record number.
pub fn order(records: &[Record]) -> Vec<u32> {
    let numbered = records.iter().zip(0..);
    let mut keys: Vec<(Vec<Item>, u16, u32)> = numbered
        .map(|(record, number)| (items(&read(&record.label).codes), record.berth, number))
        .collect();
    keys.sort();
    keys.into_iter().map(|(_, _, number)| number).collect()
}

/// The order of an image's records: as reading it, then 3 for the record numbers.
pub fn answer_of_order(image: &[u8], room: u32) -> Result<Vec<u32>, ImageRefusal> {
    let records = answer_of_image(image)?;
    check_room(records.len(), room)?;
    Ok(order(&records))
}

/// The label as it is stored, or 7 at 8. An ill-formed one is refused also when it is to be joined;
/// an over-long one is judged after that.
fn stored_label(label: &[u8], join: bool) -> Result<Vec<u8>, Refusal> {
    if first_ill_formed(label).is_some() {
        return Err(refusal(7, LABEL_PLACE));
    }
    let stored = match join {
        true => written(&joined(&read(label).codes)),
        false => label.to_vec(),
    };
    match stored.len() {
        0..=MOST_LABEL => Ok(stored),
        _ => Err(refusal(7, LABEL_PLACE)),
    }
}

/// The image with the record of that number written: 1 for the image, 1 for the label, 6, 7. No
/// stored record is judged, and no byte outside the one that is named changes.
pub fn answer_of_writing(
    image: &[u8],
    number: u32,
    record: &Record,
    join: bool,
) -> Result<Vec<u8>, Refusal> {
    check_image(image)?;
    check_length(record.label.len())?;
    let places = places_of(image, number)?;
    let stored = Record {
        label: stored_label(&record.label, join)?,
        ..*record
    };
    let mut image = image.to_vec();
    image[places].copy_from_slice(&laid_out(&stored));
    Ok(image)
}
