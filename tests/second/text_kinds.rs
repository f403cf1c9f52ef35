// What the kinds that make a text of a text share: their answers, calls, rooms and long texts.
// It does not know what any of them makes: each brings that along.

use crate::byte_texts::repeated;
use crate::kinds::{in_buffer, with_unused_numbers};
use crate::letters::{answer_of_text, LIMIT};
use crate::random::Random;
use crate::texts::{self, TextMaker};
use crate::wire::{Answer, Call, Width, MOST_ELEMENTS, MOST_ROOM};

pub struct TextKind {
    pub number: u32,
    /// What the elements of the lent buffer are: of a text, or of its bytes.
    pub lent: Width,
    /// What is made of a text that is not refused.
    pub whole: fn(&[u32]) -> Vec<u32>,
    /// The most elements that are made of one code point.
    pub growth: usize,
    /// The texts that show the most here.
    pub good_text: TextMaker,
    /// Each of these, over and over, is a long text.
    pub repeated: &'static [&'static [u32]],
}

impl TextKind {
    pub fn answer(&self, call: &Call) -> Answer {
        let outcome = answer_of_text(&call.a, call.room, self.whole);
        in_buffer(call, self.lent, outcome)
    }

    pub fn call(&self, text: &[u32], room: usize) -> Call {
        Call {
            kind: self.number,
            room: texts::bounded_room(room),
            a: text.to_vec(),
            ..Call::default()
        }
    }

    pub fn calls(&self, cases: &[(&[u32], usize)]) -> Vec<Call> {
        let calls = cases.iter().map(|&(text, room)| self.call(text, room));
        calls.collect()
    }

    /// Of a spoilt or overlong text too: a room is mean only beside the length it would need.
    fn needed(&self, text: &[u32]) -> usize {
        (self.whole)(text).len()
    }

    pub fn with_exact_room(&self, text: &[u32]) -> Call {
        self.call(text, self.needed(text))
    }

    /// With room exactly enough, and one short of it.
    pub fn exact_and_short(&self, text: &[u32]) -> [Call; 2] {
        let needed = self.needed(text);
        [needed, needed.saturating_sub(1)].map(|room| self.call(text, room))
    }

    /// In the rooms around the length that the text needs.
    pub fn in_rooms_around(&self, text: &[u32]) -> Vec<Call> {
        let needed = self.needed(text);
        let mut rooms = vec![
            0,
            needed.saturating_sub(1),
            needed,
            needed + 1,
            self.growth * text.len(),
        ];
        rooms.sort_unstable();
        rooms.dedup();
        let calls = rooms.into_iter().map(|room| self.call(text, room));
        calls.collect()
    }

    /// One seeded call. These kinds take no number at all, so x is filled as well.
    pub fn random_call(&self, random: &mut Random) -> Call {
        let text = texts::text(random, self.good_text);
        let most = self.growth * text.len();
        let room = texts::room(random, self.needed(&text), most);
        let mut call = with_unused_numbers(self.call(&text, room as usize), random);
        if random.one_in(4) {
            call.x = texts::any_code(random);
        }
        call
    }

    pub fn no_text(&self) -> Vec<Call> {
        let rooms = [0, 1, 2, 3, MOST_ROOM as usize];
        rooms.map(|room| self.call(&[], room)).to_vec()
    }

    /// Short texts with bad code points in them, with room and without: 2 goes before 3.
    pub fn short_spoilt(&self) -> Vec<Call> {
        let mut random = Random::new(2);
        let mut calls = Vec::new();
        for length in [1, 2, 3, 5, 16, 100] {
            for spoiling in texts::SPOILINGS {
                for _ in 0..2 {
                    let mut text = (self.good_text)(&mut random, length);
                    texts::spoil(&mut random, &mut text, spoiling);
                    let room = random.pick(&[0, 1, self.growth * length, 400]);
                    calls.push(self.call(&text, room));
                }
            }
        }
        calls
    }

    /// Texts around the limit and at the wire form's bound, of one pattern throughout and mixed.
    pub fn long_good(&self) -> Vec<Call> {
        let mut random = Random::new(3);
        let mut calls = Vec::new();
        for length in [LIMIT - 1, LIMIT, LIMIT + 1, MOST_ELEMENTS as usize] {
            for pattern in self.repeated {
                calls.extend(self.in_rooms_around(&repeated(pattern, length)));
            }
            let text = (self.good_text)(&mut random, length);
            calls.extend(self.in_rooms_around(&text));
            calls.push(self.call(&text, MOST_ROOM as usize));
        }
        calls
    }

    /// Over the limit, bad and without room, in all combinations: the checks go 1, 2, 3.
    pub fn long_spoilt(&self) -> Vec<Call> {
        let mut random = Random::new(4);
        let mut calls = Vec::new();
        for length in [LIMIT, LIMIT + 1, MOST_ELEMENTS as usize] {
            for spoiling in texts::SPOILINGS {
                let mut text = (self.good_text)(&mut random, length);
                texts::spoil(&mut random, &mut text, spoiling);
                calls.push(self.call(&text, 0));
                calls.extend(self.exact_and_short(&text));
            }
        }
        calls
    }
}

/// The pieces one after the other, in texts as long as the limit allows; no piece is cut.
pub fn packed<Element>(pieces: impl IntoIterator<Item = Vec<Element>>) -> Vec<Vec<Element>> {
    let mut texts = Vec::new();
    let mut text: Vec<Element> = Vec::new();
    for piece in pieces {
        if text.len() + piece.len() > LIMIT {
            texts.push(std::mem::take(&mut text));
        }
        text.extend(piece);
    }
    texts.push(text);
    texts
}
