// The ranker, held to the definition in document 01: which images it is run on, and what it prints
// of each. It has no rule of its own for records or their order (label_file, ranking).

use crate::label_file::{answer_of_order, MOST_IMAGE, MOST_RECORDS};
use crate::label_texts;
use crate::printing::{refused, Printing};
use crate::random::Random;
use crate::run::Program;

const RANKER: Printing = Printing {
    name: "ranker",
    printed,
    // A record number has three digits at most.
    most: 4 * MOST_RECORDS,
};
const SEED: u64 = 2026;
const RANDOM_IMAGES: usize = 150;

/// The record numbers, one a line; of no record nothing.
fn printed(image: &[u8]) -> Vec<u8> {
    match answer_of_order(image, MOST_RECORDS as u32) {
        Err(image) => refused(image.refusal.number),
        Ok(numbers) => {
            let lines = numbers.iter().map(|number| format!("{number}\n"));
            lines.collect::<String>().into_bytes()
        }
    }
}

/// Every bound of an image's length and far beyond it, records in every order, and bad ones: of
/// the many of these every so many.
fn chosen() -> Vec<Vec<u8>> {
    let mut images = label_texts::odd_lengths();
    images.extend([2, 3, 16].map(|times| vec![0; times * MOST_IMAGE]));
    images.extend(label_texts::images_to_order());
    images.extend(label_texts::long_images_to_order());
    images.extend(label_texts::long_bad_images());
    images.extend(label_texts::good_records());
    images.extend(label_texts::bad_images().into_iter().step_by(9));
    images
}

fn random_images() -> Vec<Vec<u8>> {
    let mut random = Random::new(SEED);
    let images = (0..RANDOM_IMAGES).map(|_| label_texts::image(&mut random));
    images.collect()
}

/// How many images were ranked as they must be, or what was wrong.
pub fn check(program: &Program) -> Result<usize, Vec<String>> {
    RANKER.check(program, &[chosen(), random_images()].concat())
}
