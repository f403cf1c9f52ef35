// What ends the program with no answer: unknown kinds, broken bounds, cut calls; and no input.
// It does not judge good answers beyond those that stand before a stop.

use crate::kinds::{self, kind_of, Kind, LAST_KIND};
use crate::run::{equal_front, Ending, Program};
use crate::wire::{put_answer, put_call, put_number, Call, Shape};
use crate::wire::{CALL_HEADER, MOST_ROOM};
use std::io::Write;

/// Places of na, nb and room among the eight numbers of a call.
const ROOM_PLACE: usize = 5;
const NA_PLACE: usize = 6;
const NB_PLACE: usize = 7;

/// One input and the whole output that it may have.
struct Stop {
    name: String,
    input: Vec<u8>,
    expected: Vec<u8>,
}

/// Good calls around the bytes that stop: those before are answered, those after are not.
#[derive(Clone, Copy)]
enum Around {
    Alone,
    Before,
    BeforeAndAfter,
}

fn call_bytes(call: &Call) -> Vec<u8> {
    let mut bytes = Vec::new();
    put_call(call, &kind_of(call).shape, &mut bytes);
    bytes
}

fn answer_bytes(call: &Call) -> Vec<u8> {
    let kind = kind_of(call);
    let mut bytes = Vec::new();
    put_answer(&(kind.answer)(call), &kind.shape, &mut bytes);
    bytes
}

fn good_call(kind: &Kind) -> Call {
    (kind.stored)().swap_remove(0)
}

/// The stops made so far, for a program that has these kinds.
struct Stops<'kinds> {
    kinds: &'kinds [&'static Kind],
    made: Vec<Stop>,
}

impl Stops<'_> {
    /// The good calls put around a stop: one of each kind that the program has.
    fn good_calls(&self) -> Vec<Call> {
        self.kinds.iter().copied().map(good_call).collect()
    }

    fn add(&mut self, name: String, around: Around, stopping: &[u8]) {
        let mut stop = Stop {
            name,
            input: Vec::new(),
            expected: Vec::new(),
        };
        if !matches!(around, Around::Alone) {
            for call in self.good_calls() {
                stop.input.extend(call_bytes(&call));
                stop.expected.extend(answer_bytes(&call));
            }
        }
        stop.input.extend_from_slice(stopping);
        if matches!(around, Around::BeforeAndAfter) {
            for call in self.good_calls() {
                stop.input.extend(call_bytes(&call));
            }
        }
        self.made.push(stop);
    }
}

/// A call's bytes with one number of its header replaced.
fn with_number(call: &Call, place: usize, number: u32) -> Vec<u8> {
    let mut bytes = call_bytes(call);
    bytes[4 * place..4 * place + 4].copy_from_slice(&number.to_le_bytes());
    bytes
}

/// Unknown kinds, also such as are known ones when only some bytes of the number are looked at.
fn unknown_kinds(stops: &mut Stops) {
    let mut kinds = vec![0, LAST_KIND + 1, 99, 0xFFFF_FFFF];
    for kind in stops.kinds {
        kinds.extend([
            kind.number + 0x100,
            kind.number + 0x1_0000,
            kind.number + 0x8000_0000,
        ]);
        kinds.push(kind.number.swap_bytes());
    }
    for kind in kinds {
        for around in [Around::Alone, Around::Before, Around::BeforeAndAfter] {
            let call = with_number(&good_call(stops.kinds[0]), 0, kind);
            stops.add(format!("unknown kind {kind:X}"), around, &call);
        }
    }
}

/// Good calls of the kinds that the program has not.
fn other_kinds(stops: &mut Stops) {
    for kind in kinds::all() {
        if stops.kinds.iter().any(|known| known.number == kind.number) {
            continue;
        }
        for around in [Around::Alone, Around::Before, Around::BeforeAndAfter] {
            let title = format!("{}, which the program has not", kind.name);
            stops.add(title, around, &call_bytes(&good_call(kind)));
        }
    }
}

/// One over the bound with all elements there, so that only the bound can stop it. Where a kind
/// takes no elements of b, one is over the bound.
fn one_over(kind: &Kind, place: usize, bound: u32) -> Vec<u8> {
    let mut bytes = with_number(&good_call(kind), place, bound + 1);
    if place == ROOM_PLACE {
        return bytes;
    }
    // Four bytes for each, also where an element is one byte: then there are more than enough.
    for _ in 0..=bound {
        put_number(0x41, &mut bytes);
    }
    bytes
}

fn bounds_of(shape: &Shape) -> [(&'static str, usize, u32); 3] {
    [
        ("na", NA_PLACE, shape.most_of_a()),
        ("nb", NB_PLACE, shape.most_of_b()),
        ("room", ROOM_PLACE, MOST_ROOM),
    ]
}

fn broken_bounds(stops: &mut Stops) {
    for kind in stops.kinds {
        for (name, place, bound) in bounds_of(&kind.shape) {
            let title = format!("{} with {name} {}", kind.name, bound + 1);
            let bytes = one_over(kind, place, bound);
            stops.add(title, Around::BeforeAndAfter, &bytes);
            // The last three are small again when multiplied by four in 32 bits, or negative.
            for number in [bound * 2 + 2, 0x4000_0001, 0x8000_0000, 0xFFFF_FFFF] {
                let title = format!("{} with {name} {number:X}", kind.name);
                let bytes = with_number(&good_call(kind), place, number);
                stops.add(title, Around::BeforeAndAfter, &bytes);
            }
        }
        for call in (kind.forbidden)() {
            let title = format!("{} against its own bounds {:X?}", kind.name, call.header());
            stops.add(title, Around::BeforeAndAfter, &call_bytes(&call));
        }
    }
}

/// A good call cut at every byte, in its header and in its elements.
fn cut_calls(stops: &mut Stops) {
    for (index, kind) in stops.kinds.iter().enumerate() {
        let bytes = call_bytes(&good_call(kind));
        for length in 1..bytes.len() {
            let part = if length < CALL_HEADER {
                "header"
            } else {
                "elements"
            };
            let title = format!("{} cut in its {part}, {length} bytes", kind.name);
            // Alone for one kind suffices: before the kind is read all headers are alike.
            if index == 0 {
                stops.add(title.clone(), Around::Alone, &bytes[..length]);
            }
            stops.add(title, Around::Before, &bytes[..length]);
        }
    }
}

/// Long calls without their last byte: also one that would be refused has to be there whole.
fn long_cut_calls(stops: &mut Stops) {
    let with_elements = |kind: &&Kind| !good_call(kind).a.is_empty();
    for kind in stops.kinds.iter().copied().filter(with_elements) {
        for length in [8, 16_384, 16_385, kind.shape.most_of_a()] {
            let bytes = call_bytes(&long_call(kind, length));
            for missing in [1, 4, 5] {
                let title = format!(
                    "{} of {length} elements but for the last {missing} bytes",
                    kind.name
                );
                stops.add(title, Around::Before, &bytes[..bytes.len() - missing]);
            }
        }
    }
}

/// So many elements, of b as many as may be: they stand last, and so are cut.
fn long_call(kind: &Kind, length: u32) -> Call {
    let length_of_b = kind.shape.most_of_b().min(length);
    Call {
        kind: kind.number,
        room: 1,
        a: vec![0x41; length as usize],
        b: vec![0x41; length_of_b as usize],
        ..Call::default()
    }
}

fn all_stops(kinds: &[&'static Kind]) -> Vec<Stop> {
    let made = Vec::new();
    let mut stops = Stops { kinds, made };
    stops.add("no input".to_string(), Around::Alone, &[]);
    // Not a stop but the end of the input: without it the others would show little.
    stops.add("good calls only".to_string(), Around::Before, &[]);
    unknown_kinds(&mut stops);
    other_kinds(&mut stops);
    broken_bounds(&mut stops);
    cut_calls(&mut stops);
    long_cut_calls(&mut stops);
    stops.made
}

/// None where the program answered what it had to and ended. Its status is its own affair,
/// since docs/CALLS.md names none, but a signal is a crash.
fn trouble_with(program: &Program, stop: &Stop) -> Option<String> {
    let most = stop.expected.len();
    let conversation = program.converse(
        |pipe: &mut dyn Write| pipe.write_all(&stop.input),
        |output| output.rest(most),
    );
    match conversation {
        Err(trouble) => Some(trouble),
        Ok((Err(_), _)) => Some("the program did not end".to_string()),
        Ok((Ok(bytes), _)) if bytes != stop.expected => Some(format!(
            "{} bytes of answers expected, {} or more got, equal up to byte {}",
            most,
            bytes.len(),
            equal_front(&stop.expected, &bytes)
        )),
        Ok((_, Ending::Status(_))) => None,
        Ok((_, ending)) => Some(format!("the end was {ending:?}")),
    }
}

/// Tries all stops of a program that has these kinds. Gives their number, or reports on at most
/// five that went wrong.
pub fn try_all(program: &Program, kinds: &[&'static Kind]) -> Result<usize, Vec<String>> {
    let stops = all_stops(kinds);
    let mut reports = Vec::new();
    for stop in &stops {
        if let Some(trouble) = trouble_with(program, stop) {
            reports.push(format!("stop: {}\n  {trouble}", stop.name));
        }
        if reports.len() == 5 {
            break;
        }
    }
    if reports.is_empty() {
        Ok(stops.len())
    } else {
        Err(reports)
    }
}
