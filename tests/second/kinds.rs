// The table of the kinds of call: for each its number, wire form, definition, cases and words.
// It defines no answers itself; a new kind is a module of its own and one line in a table.

use crate::cases;
use crate::filler_cases;
use crate::gathering_cases;
use crate::joining_cases;
use crate::label_cases;
use crate::label_writing_cases;
use crate::letters::Refusal;
use crate::mending_cases;
use crate::name_reading_cases;
use crate::naming_cases;
use crate::random::Random;
use crate::ranking_cases;
use crate::reading_cases;
use crate::simple_cases;
use crate::texts;
use crate::unit_mending_cases;
use crate::unit_reading_cases;
use crate::unit_writing_cases;
use crate::wire::{Answer, Call, Shape, Width};
use crate::writing_cases;

pub struct Kind {
    pub number: u32,
    pub name: &'static str,
    pub shape: Shape,
    /// The answer that the rules give to a call.
    pub answer: fn(&Call) -> Answer,
    /// Fixed mean cases: boundaries, limits, the order of the checks. The meanest stand first,
    /// since a comparison of few calls does not come to the end of them.
    pub edges: fn() -> Vec<Call>,
    /// One seeded case.
    pub random: fn(&mut Random) -> Call,
    /// The exhaustive cases; none where there is nothing to exhaust.
    pub every: fn() -> Vec<Call>,
    /// The few small cases that are stored as bytes. The first is a plain good call with elements
    /// where the kind has any: the stops are made from it.
    pub stored: fn() -> Vec<Call>,
    /// Calls that break a bound which the kind's own row of docs/CALLS.md names.
    pub forbidden: fn() -> Vec<Call>,
    /// The arguments in words.
    pub arguments: fn(&Call) -> String,
    /// The answer in words where it is no refusal.
    pub outcome: fn(&Call, &Answer) -> String,
}

/// The kinds of the program calls, each on a line of its own, in the order of their numbers.
#[rustfmt::skip]
pub const OF_CALLS: &[&Kind] = &[
    &cases::SORTER,
    &cases::ONE_STEP,
    &cases::FULL_PARTS,
    &joining_cases::JOINING,
    &simple_cases::SIMPLE_FORM,
    &gathering_cases::GATHERED_FORM,
    &filler_cases::FILLER_GROUPS,
    &naming_cases::NAMING,
    &name_reading_cases::NAME_READING,
    &reading_cases::READING,
    &writing_cases::WRITING,
    &mending_cases::MENDING,
    &ranking_cases::RANKING,
    &ranking_cases::RANKING_OF_BYTES,
    &label_cases::FRESH_RECORD,
    &label_cases::RECORD_READING,
    &label_cases::IMAGE_READING,
    &label_cases::IMAGE_ORDER,
    &label_writing_cases::RECORD_WRITING,
];

/// And those of the program calls2.
#[rustfmt::skip]
const OF_CALLS2: &[&Kind] = &[
    &unit_reading_cases::UNIT_READING,
    &unit_writing_cases::UNIT_WRITING,
    &unit_mending_cases::UNIT_MENDING,
];

/// The largest kind number that docs/CALLS.md gives out; the next one is unknown.
pub const LAST_KIND: u32 = 22;

/// Every kind, whichever program has it.
pub fn all() -> impl Iterator<Item = &'static Kind> {
    OF_CALLS.iter().chain(OF_CALLS2).copied()
}

pub fn find(number: u32) -> Option<&'static Kind> {
    all().find(|kind| kind.number == number)
}

/// The kinds of a list of numbers with commas between, for a program that has not all of them.
pub fn chosen(list: &str) -> Result<Vec<&'static Kind>, String> {
    let mut kinds: Vec<&'static Kind> = Vec::new();
    for word in list.split(',') {
        let kind = word.parse().ok().and_then(find);
        let kind = kind.ok_or(format!("{word} is no kind's number"))?;
        if kinds.iter().any(|listed| listed.number == kind.number) {
            return Err(format!("the kind {word} is listed twice"));
        }
        kinds.push(kind);
    }
    Ok(kinds)
}

/// The kind of a call made here, which always stands in a table.
pub fn kind_of(call: &Call) -> &'static Kind {
    find(call.kind).expect("a call of a kind outside the tables was made")
}

pub fn no_calls() -> Vec<Call> {
    Vec::new()
}

/// Fills numbers that only kind 19 takes, in one of four calls, so that a program which looks at
/// them is caught.
pub fn with_unused_numbers(mut call: Call, random: &mut Random) -> Call {
    if random.one_in(4) {
        call.y = texts::any_code(random);
        call.z = random.number();
        call.w = random.between(0, 3);
    }
    call
}

/// The same for a kind that takes no number at all and lends nothing: x and a room as well.
pub fn with_all_unused(call: Call, random: &mut Random) -> Call {
    let mut call = with_unused_numbers(call, random);
    if random.one_in(4) {
        call.x = texts::any_code(random);
        call.room = texts::room(random, 3, 9);
    }
    call
}

/// The lent buffer as a call leaves it that writes nothing.
fn untouched(call: &Call, width: Width) -> Vec<u32> {
    vec![width.untouched(); call.room as usize]
}

/// A refusal: the place as value, nothing else, and no lent buffer written to.
pub fn refused(call: &Call, width: Width, refusal: Refusal) -> Answer {
    let lent = untouched(call, width);
    Answer {
        refusal: refusal.number,
        value: refusal.place,
        second: 0,
        third: 0,
        lent,
    }
}

/// An answer by value alone.
pub fn by_value(call: &Call, width: Width, value: u32, second: u32, third: u32) -> Answer {
    Answer {
        refusal: 0,
        value,
        second,
        third,
        lent: untouched(call, width),
    }
}

/// An answer in the lent buffer: it fills the front and the rest is unchanged.
pub fn in_buffer(call: &Call, width: Width, outcome: Result<Vec<u32>, Refusal>) -> Answer {
    match outcome {
        Err(refusal) => refused(call, width, refusal),
        Ok(front) => {
            let mut lent = untouched(call, width);
            lent[..front.len()].copy_from_slice(&front);
            Answer {
                refusal: 0,
                value: front.len() as u32,
                second: 0,
                third: 0,
                lent,
            }
        }
    }
}
