// Facts about the label file: a record's bytes by hand, offending places, the order, the writer.
// It runs no program and makes no cases; it holds only the definition of the label file to account.

use crate::facts::Facts;
use crate::joining::joined;
use crate::label_cases::{order_call, record_call};
use crate::label_cases::{FRESH_RECORD, IMAGE_ORDER, RECORD_READING};
use crate::label_file::{
    self, answer_of_image, answer_of_order, answer_of_record, answer_of_writing,
};
use crate::label_file::{first_offending, fresh, laid_out, Record, MOST_IMAGE, RECORD_BYTES};
use crate::label_texts::{self, bad_records, changed, image_of, labelled, record_bytes};
use crate::label_writing_cases::{writing_call, RECORD_WRITING};
use crate::letters::{full_parts_of_text, Refusal, LIMIT};
use crate::random::Random;
use crate::ranking::rank;
use crate::texts;
use crate::utf8::{first_ill_formed, read, written};
use crate::wire::{bytes_of, elements_of, Answer, Call};
use std::cmp::Ordering;

pub fn state_all(facts: &mut Facts) {
    records_by_hand(facts);
    offending_places(facts);
    ill_formed_by_std(facts);
    single_records(facts);
    whole_images(facts);
    known_orders(facts);
    seeded_images(facts);
    writing(facts);
    writing_joined(facts);
    refused_writing(facts);
    seeded_writing(facts);
    answers(facts);
}

/// Number and place, or two zeros.
fn of<Given>(outcome: Result<Given, Refusal>) -> (u32, u32) {
    outcome.map_or_else(|refusal| (refusal.number, refusal.place), |_| (0, 0))
}

/// Number, place and record, or three zeros.
fn of_image(image: &[u8]) -> (u32, u32, u32) {
    match answer_of_image(image) {
        Ok(_) => (0, 0, 0),
        Err(refused) => {
            let refusal = refused.refusal;
            (refusal.number, refusal.place, refused.record)
        }
    }
}

fn records_by_hand(facts: &mut Facts) {
    facts.state("a fresh record is zeros", fresh() == [0; 96]);
    facts.state("an image has 682 records", MOST_IMAGE == 682 * 96);
    let record = Record {
        object: 0x0102_0304,
        berth: 0x0506,
        label: vec![0x41, 0x42],
    };
    let mut bytes = vec![1, 2, 3, 4, 5, 6, 2, 0, 0x41, 0x42];
    bytes.resize(96, 0);
    facts.state("a record is laid out", laid_out(&record)[..] == bytes);
    let read = answer_of_record(&bytes, 0, 2);
    facts.state("and read again", read == Ok(record));
    let read = answer_of_record(&fresh(), 0, 0);
    facts.state("a fresh record is good", read == Ok(Record::default()));
    let good = label_texts::good_records();
    let all = good.iter().all(|record| first_offending(record).is_none());
    facts.state("good records have no offending byte", all);
}

fn offending_places(facts: &mut Facts) {
    for (index, (record, place)) in bad_records().iter().enumerate() {
        let right = first_offending(record) == Some(*place);
        facts.state(&format!("bad record {index} offends at {place}"), right);
    }
    // By hand, where several offend.
    let good = labelled(&[0x41, 0xE1, 0x84, 0x80, 0x42]);
    let cases: [(&str, &[(usize, u8)], usize); 9] = [
        ("6 before all", &[(6, 89), (7, 1), (8, 0x80), (95, 1)], 6),
        ("7 before the label", &[(7, 1), (8, 0x80), (95, 1)], 7),
        ("the label before the tail", &[(9, 0x80), (95, 1)], 9),
        ("the first subpart", &[(10, 0x41), (12, 0x80)], 9),
        ("a cut character", &[(6, 3)], 9),
        ("a cut character, earlier", &[(6, 2)], 9),
        ("what a shorter length leaves", &[(6, 1)], 9),
        ("the first tail byte", &[(13, 1), (14, 1)], 13),
        ("the last tail byte", &[(95, 0x80)], 95),
    ];
    for (fact, changes, place) in cases {
        let bad = changes.iter().fold(good.clone(), |record, &(place, byte)| {
            changed(&record, place, byte)
        });
        let right = first_offending(&bad) == Some(place);
        facts.state(&format!("offending: {fact}"), right);
    }
    let bound = (88, 89, 255);
    let full = labelled(&[0x41; 88]);
    let lengths =
        [bound.0, bound.1, bound.2].map(|length| first_offending(&changed(&full, 6, length)));
    facts.state(
        "88 is a length and 89 is none",
        lengths == [None, Some(6), Some(6)],
    );
}

/// std finds the same place where bytes stop being well-formed.
fn ill_formed_by_std(facts: &mut Facts) {
    let mut random = Random::new(16);
    let same = (0..4_000).all(|_| {
        let bytes = label_texts::label_to_store(&mut random);
        let by_std = std::str::from_utf8(&bytes).err();
        first_ill_formed(&bytes) == by_std.map(|error| error.valid_up_to())
    });
    facts.state("std finds the same first ill-formed byte", same);
}

fn single_records(facts: &mut Facts) {
    let good = labelled(b"AB");
    let bad = changed(&good, 7, 1);
    let image = [&bad[..], &good, &changed(&good, 95, 1)].concat();
    let over = image_of(683);
    let cases: [(&str, &[u8], u32, u32, (u32, u32)); 12] = [
        ("judged alone", &image, 1, 2, (0, 0)),
        ("the first is bad", &image, 0, 2, (7, 7)),
        ("the last is bad", &image, 2, 2, (7, 95)),
        ("7 before 3", &image, 0, 0, (7, 7)),
        ("its label needs room", &image, 1, 1, (3, 2)),
        ("there is no fourth", &image, 3, 2, (6, 288)),
        ("nor a last number", &image, u32::MAX, 2, (6, 288)),
        ("no multiple of 96", &image[..287], 1, 2, (6, 287)),
        ("nothing has no record", &[], 0, 0, (6, 0)),
        ("6 before 7", &image[..97], 0, 0, (6, 97)),
        ("683 records are over", &over, 0, 88, (1, 65_472)),
        ("1 before 6", &over[..65_473], 9_999, 0, (1, 65_472)),
    ];
    for (fact, image, number, room, expected) in cases {
        let refusal = of(answer_of_record(image, number, room));
        facts.state(&format!("reading a record: {fact}"), refusal == expected);
    }
}

fn whole_images(facts: &mut Facts) {
    let good = labelled(b"AB");
    let bad = changed(&good, 9, 0x80);
    let worse = changed(&good, 6, 200);
    let full = image_of(682);
    let over = image_of(683);
    let cases: [(&str, &[u8], (u32, u32, u32)); 10] = [
        ("none", &[], (0, 0, 0)),
        ("one", &good, (0, 0, 0)),
        ("682", &full, (0, 0, 0)),
        ("a byte less", &full[1..], (6, 65_471, 0)),
        ("a byte more", &over[..65_473], (1, 65_472, 0)),
        ("683", &over, (1, 65_472, 0)),
        ("a byte alone", &[0], (6, 1, 0)),
        ("bad in front", &[&bad[..], &good].concat(), (7, 9, 0)),
        ("the lowest", &[&good[..], &bad, &worse].concat(), (7, 9, 1)),
        ("6 before 7", &[&bad[..], &[0]].concat(), (6, 97, 0)),
    ];
    for (fact, image, expected) in cases {
        let right = of_image(image) == expected;
        facts.state(&format!("reading an image: {fact}"), right);
    }
    let count = answer_of_image(&full).map(|records| records.len());
    facts.state("682 records are read", count == Ok(682));
}

/// Labels with berth numbers, and the order of their numbers.
fn known_orders(facts: &mut Facts) {
    let known: [(&str, &[(&str, u16)], &[u32]); 9] = [
        ("of none", &[], &[]),
        ("of one", &[("A", 3)], &[0]),
        ("by label", &[("10", 1), ("2", 1), ("", 1)], &[2, 1, 0]),
        ("by berth", &[("7", 300), ("07", 7), ("007", 0)], &[2, 1, 0]),
        ("by number", &[("7", 1), ("07", 1), ("7", 1)], &[0, 1, 2]),
        ("label first", &[("B", 0), ("A", 9), ("AA", 1)], &[1, 2, 0]),
        (
            "both spellings",
            &[("\u{1100}\u{1161}", 2), ("\u{AC00}", 1), ("\u{1100}", 3)],
            &[2, 1, 0],
        ),
        ("high bytes count", &[("", 0x0100), ("", 0x00FF)], &[1, 0]),
        ("zeros are code points", &[("\0", 0), ("0", 0)], &[1, 0]),
    ];
    for (fact, records, expected) in known {
        let records = records.iter();
        let image: Vec<u8> = records
            .flat_map(|(label, berth)| record_bytes(9, *berth, label.as_bytes()))
            .collect();
        let order = answer_of_order(&image, 9);
        facts.state(&format!("order: {fact}"), order.as_deref() == Ok(expected));
    }
    let room = answer_of_order(&image_of(3), 2).map_err(|refused| refused.refusal);
    facts.state("order: 3 counts records", of(room) == (3, 3));
}

/// What the rules say of two neighbours in the order.
fn is_in_order(records: &[Record], first: u32, second: u32) -> bool {
    let (one, other) = (&records[first as usize], &records[second as usize]);
    let labels = rank(&read(&one.label).codes, &read(&other.label).codes);
    let order = labels.then(one.berth.cmp(&other.berth));
    order.then(first.cmp(&second)) == Ordering::Less
}

fn seeded_images(facts: &mut Facts) {
    let mut random = Random::new(17);
    let images: Vec<Vec<u8>> = (0..3_000)
        .map(|_| label_texts::image(&mut random))
        .collect();
    let good: Vec<Vec<Record>> = images
        .iter()
        .filter_map(|image| answer_of_image(image).ok())
        .collect();
    let ordered = good.iter().all(|records| {
        let order = label_file::order(records);
        let mut sorted = order.clone();
        sorted.sort_unstable();
        let all = sorted.into_iter().eq(0..records.len() as u32);
        let mut pairs = order.windows(2);
        all && pairs.all(|pair| is_in_order(records, pair[0], pair[1]))
    });
    facts.state("each order has every record once, rising", ordered);
    let again = good.iter().all(|records| {
        let image: Vec<u8> = records.iter().flat_map(laid_out).collect();
        answer_of_image(&image).as_ref() == Ok(records)
    });
    facts.state("records are read as laid out", again);
    let refused = |number| {
        let refused = images.iter().filter(|image| of_image(image).0 == number);
        refused.count()
    };
    let (given, six, seven) = (refused(0), refused(6), refused(7));
    let each = given > 1_500 && six > 100 && seven > 300 && refused(1) > 0;
    facts.state("seeded images are good and bad", each);
    let alike = good.iter().filter(|records| {
        let mut labels = records.windows(2);
        labels.any(|pair| pair[0].label == pair[1].label)
    });
    facts.state("in many, labels are alike", alike.count() > 500);
}

fn record_of(label: &[u8]) -> Record {
    Record {
        object: 7,
        berth: 8,
        label: label.to_vec(),
    }
}

/// Only the named record's bytes change, whatever stands there and beside it.
fn writing(facts: &mut Facts) {
    let image: Vec<u8> = (0..3 * RECORD_BYTES).map(|place| place as u8 | 1).collect();
    let mut expected = vec![0, 0, 0, 7, 0, 8, 2, 0, 0x41, 0x42];
    expected.resize(96, 0);
    for number in 0..3 {
        let written = answer_of_writing(&image, number, &record_of(b"AB"), false);
        let mut whole = image.clone();
        let place = number as usize * RECORD_BYTES;
        whole[place..place + RECORD_BYTES].copy_from_slice(&expected);
        facts.state(&format!("written as record {number}"), written == Ok(whole));
    }
}

/// As given, unless asked for joined; over-length is judged after joining.
fn writing_joined(facts: &mut Facts) {
    let stored = |label: &[u8], join| {
        let image = answer_of_writing(&fresh(), 0, &record_of(label), join)?;
        answer_of_record(&image, 0, 88).map(|record| record.label)
    };
    let joined_label = "\u{AC01}7".as_bytes();
    let spelled = "\u{1100}\u{1161}\u{11A8}7".as_bytes();
    let given = stored(spelled, false);
    facts.state("a label is stored as given", given == Ok(spelled.to_vec()));
    let asked = stored(spelled, true);
    facts.state("or joined", asked == Ok(joined_label.to_vec()));
    let long = written(&full_parts_of_text(&[0xAC01; 29]));
    facts.state("261 bytes are over", of(stored(&long, false)) == (7, 8));
    let whole = written(&[0xAC01; 29]);
    facts.state("joined they are 87", stored(&long, true) == Ok(whole));
    let longer = [&long[..], b"A7"].concat();
    facts.state("and 89 are over", of(stored(&longer, true)) == (7, 8));
    let ill_formed = [&spelled[..], &[0x80]].concat();
    for join in [false, true] {
        let refused = of(stored(&ill_formed, join)) == (7, 8);
        facts.state("an ill-formed label is 7 at 8", refused);
        facts.state("88 bytes fit", of(stored(&[0x41; 88], join)) == (0, 0));
        facts.state("89 do not", of(stored(&[0x41; 89], join)) == (7, 8));
    }
    // So no label is over 88 bytes only when joined.
    let mut random = Random::new(19);
    let never = (0..5_000).all(|index| {
        let text = texts::joining_text(&mut random, index % 50);
        written(&joined(&text)).len() <= written(&text).len()
    });
    facts.state("joining never lengthens well-formed text", never);
}

fn refused_writing(facts: &mut Facts) {
    let (over, full) = (image_of(683), image_of(682));
    let long = vec![0x80; LIMIT + 1];
    let cases: [(&str, &[u8], u32, &[u8], (u32, u32)); 9] = [
        ("1 for the image first", &over, 9_999, &long, (1, 65_472)),
        (
            "then 1 for the label",
            &full[1..],
            9_999,
            &long,
            (1, 16_384),
        ),
        ("then 6, no multiple", &full[1..], 0, &[0x80], (6, 65_471)),
        ("or not in it", &full, 682, &[0x80], (6, 65_472)),
        ("then 7", &full, 681, &[0x80], (7, 8)),
        ("16384 bytes are 7", &full, 681, &long[1..], (7, 8)),
        ("nothing has no place", &[], 0, b"A", (6, 0)),
        ("the last has one", &full, 681, b"A", (0, 0)),
        ("the first too", &full, 0, b"", (0, 0)),
    ];
    for (fact, image, number, label, expected) in cases {
        for join in [false, true] {
            let refusal = of(answer_of_writing(image, number, &record_of(label), join));
            facts.state(&format!("writing: {fact}"), refusal == expected);
        }
    }
}

/// Of seeded calls: what is written is read back, and many are written.
fn seeded_writing(facts: &mut Facts) {
    let mut random = Random::new(20);
    let calls: Vec<Call> = (0..3_000)
        .map(|_| (RECORD_WRITING.random)(&mut random))
        .collect();
    let done: Vec<(&Call, Answer)> = calls
        .iter()
        .map(|call| (call, (RECORD_WRITING.answer)(call)))
        .filter(|(_, answer)| answer.refusal == 0)
        .collect();
    let kept = done.iter().all(|(call, answer)| {
        let own = call.x as usize * RECORD_BYTES..(call.x as usize + 1) * RECORD_BYTES;
        let mut pairs = call.a.iter().zip(&answer.lent).enumerate();
        let rest = pairs.all(|(place, (old, new))| own.contains(&place) || old == new);
        rest && answer.lent.len() == call.a.len()
    });
    facts.state("all else of an image stays", kept);
    let read_back = done.iter().all(|(call, answer)| {
        let image = bytes_of(&answer.lent);
        let record = answer_of_record(&image, call.x, 88);
        record.map_or(false, |record| {
            let label = bytes_of(&call.b);
            let same = rank(&read(&record.label).codes, &read(&label).codes).is_eq();
            let given = call.w == 1 || record.label == label;
            same && given && (record.object, u32::from(record.berth)) == (call.y, call.z)
        })
    });
    facts.state("a written record is read back", read_back);
    facts.state("many seeded records are written", done.len() > 1_000);
    facts.state("and many are not", calls.len() - done.len() > 500);
}

/// What stands where in an answer.
fn answers(facts: &mut Facts) {
    let numbers = |answer: &Answer| {
        let numbers = [answer.refusal, answer.value, answer.second, answer.third];
        (numbers, answer.lent.clone())
    };
    let call = &(FRESH_RECORD.stored)()[0];
    let (values, lent) = numbers(&(FRESH_RECORD.answer)(call));
    let zeros = lent[..96].iter().all(|&byte| byte == 0);
    let right = zeros && lent[96..] == [0xA5; 3] && values == [0, 96, 0, 0];
    facts.state("a fresh record is answered", right);
    let call = record_call(&labelled(b"AB"), 0, 3);
    let right = numbers(&(RECORD_READING.answer)(&call))
        == ([0, 2, 0x0102_0304, 0x0506], vec![0x41, 0x42, 0xA5]);
    facts.state("a record is answered", right);
    let image = [labelled(b"10"), labelled(b"2")].concat();
    let right = numbers(&(IMAGE_ORDER.answer)(&order_call(&image, 3)))
        == ([0, 2, 0, 0], vec![1, 0, 0xA5A5_A5A5]);
    facts.state("an order is answered", right);
    let bad = [labelled(b"2"), labelled(b"10"), labelled(&[0x80])].concat();
    let right =
        numbers(&(IMAGE_ORDER.answer)(&order_call(&bad, 1))) == ([7, 8, 2, 0], vec![0xA5A5_A5A5]);
    facts.state("7 is answered with its record", right);
    let right = numbers(&(RECORD_WRITING.answer)(&writing_call(
        &image, 2, b"A", false,
    ))) == ([6, 192, 0, 0], elements_of(&image));
    facts.state("a refused image is answered as it was", right);
}
