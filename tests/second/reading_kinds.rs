// What the kinds that read code units share, bytes or units of 16 bits: answers, calls and rooms.
// It does not know what any of them makes: each brings that along.

use crate::byte_texts::{repeated, with_wall};
use crate::kinds::{in_buffer, refused, with_unused_numbers};
use crate::letters::{check_length, check_room, Refusal, LIMIT};
use crate::random::Random;
use crate::text_kinds::packed;
use crate::texts;
use crate::wire::{elements_of, units_of, Answer, Call, CodeUnit, Width};
use crate::wire::{MOST_ELEMENTS, MOST_ROOM};

/// What a call makes of code units, as elements of its lent buffer.
pub struct Made {
    pub elements: Vec<u32>,
    /// How many ill-formed subparts were read on the way.
    pub ill_formed: u32,
}

/// The scheme of every call that reads code units; `whole` is what it makes of them. It refuses no
/// unit: the checks are 1, of the units given, then 3, of the elements made.
pub fn answer_of_units<Unit>(
    units: &[Unit],
    room: u32,
    whole: fn(&[Unit]) -> Made,
) -> Result<Made, Refusal> {
    check_length(units.len())?;
    let made = whole(units);
    check_room(made.elements.len(), room)?;
    Ok(made)
}

pub struct ReadingKind<Unit: 'static> {
    pub number: u32,
    /// What the elements of the lent buffer are: code points, or code units again.
    pub lent: Width,
    /// What is made of units that are not refused.
    pub whole: fn(&[Unit]) -> Made,
    /// The most elements that are made of one unit.
    pub growth: usize,
    /// How many units a seeded text has for one code point that a text of these would have.
    pub stretch: usize,
    /// The units of a given length that show the most here.
    pub units: fn(&mut Random, usize) -> Vec<Unit>,
    /// Each of these, over and over, is a long text.
    pub repeated: &'static [&'static [Unit]],
}

impl<Unit: CodeUnit> ReadingKind<Unit> {
    pub fn answer(&self, call: &Call) -> Answer {
        match answer_of_units(&units_of(&call.a), call.room, self.whole) {
            Err(refusal) => refused(call, self.lent, refusal),
            Ok(made) => Answer {
                second: made.ill_formed,
                ..in_buffer(call, self.lent, Ok(made.elements))
            },
        }
    }

    pub fn call(&self, units: &[Unit], room: usize) -> Call {
        Call {
            kind: self.number,
            room: texts::bounded_room(room),
            a: elements_of(units),
            ..Call::default()
        }
    }

    pub fn calls(&self, cases: &[(&[Unit], usize)]) -> Vec<Call> {
        let calls = cases.iter().map(|&(units, room)| self.call(units, room));
        calls.collect()
    }

    /// Of overlong units too: a room is mean only beside the length it would need.
    fn needed(&self, units: &[Unit]) -> usize {
        (self.whole)(units).elements.len()
    }

    pub fn with_exact_room(&self, units: &[Unit]) -> Call {
        self.call(units, self.needed(units))
    }

    pub fn with_exact_rooms(&self, texts: &[Vec<Unit>]) -> Vec<Call> {
        let calls = texts.iter().map(|units| self.with_exact_room(units));
        calls.collect()
    }

    /// With room exactly enough, and one short of it.
    pub fn exact_and_short(&self, units: &[Unit]) -> [Call; 2] {
        let needed = self.needed(units);
        [needed, needed.saturating_sub(1)].map(|room| self.call(units, room))
    }

    /// In the rooms around the length needed, and with as much room as any such units could need,
    /// which is always enough; one less than that mostly is too.
    pub fn in_rooms_around(&self, units: &[Unit]) -> Vec<Call> {
        let (needed, most) = (self.needed(units), self.growth * units.len());
        let (short, nearly_most) = (needed.saturating_sub(1), most.saturating_sub(1));
        let mut rooms = vec![0, short, needed, needed + 1, nearly_most, most];
        rooms.sort_unstable();
        rooms.dedup();
        let calls = rooms.into_iter().map(|room| self.call(units, room));
        calls.collect()
    }

    pub fn one_by_one(&self, pieces: &[Vec<Unit>]) -> Vec<Call> {
        let calls = pieces.iter().flat_map(|piece| self.exact_and_short(piece));
        calls.collect()
    }

    /// The pieces in few long texts, so that a comparison of few calls has them all.
    pub fn in_long_texts(&self, pieces: Vec<Vec<Unit>>) -> Vec<Call> {
        let texts = packed(pieces.into_iter().map(with_wall));
        self.with_exact_rooms(&texts)
    }

    pub fn no_units(&self) -> Vec<Call> {
        let rooms = [0, 1, 2, 3, MOST_ROOM as usize];
        rooms.map(|room| self.call(&[], room)).to_vec()
    }

    /// Around the limit and at the wire form's bound: 1 goes before 3, and what is ill-formed
    /// changes nothing in that. The texts may end within a sequence.
    pub fn long(&self) -> Vec<Call> {
        let mut random = Random::new(7);
        let mut calls = Vec::new();
        for length in [LIMIT, LIMIT + 1, LIMIT - 1, MOST_ELEMENTS as usize] {
            for pattern in self.repeated {
                calls.extend(self.in_rooms_around(&repeated(pattern, length)));
            }
            let units = (self.units)(&mut random, length);
            calls.extend(self.in_rooms_around(&units));
            calls.push(self.call(&units, MOST_ROOM as usize));
        }
        calls
    }

    /// Only short lengths are stretched: those around the limit are mean as they are.
    fn length(&self, random: &mut Random) -> usize {
        match texts::length(random) {
            length @ 0..=400 => self.stretch * length,
            length => length,
        }
    }

    /// One seeded call. These kinds take no number at all, so x is filled as well.
    pub fn random_call(&self, random: &mut Random) -> Call {
        let length = self.length(random);
        let units = (self.units)(random, length);
        let most = self.growth * units.len();
        let room = texts::room(random, self.needed(&units), most);
        let mut call = with_unused_numbers(self.call(&units, room as usize), random);
        if random.one_in(4) {
            call.x = texts::any_code(random);
        }
        call
    }
}
