// The cases that every kind that reads bytes has.
// It does not know what any of them makes: each brings that along.

use crate::byte_texts::{self, with_wall, MIXED_TEXT, PLACED};
use crate::reading_kinds::ReadingKind;
use crate::text_kinds::packed;
use crate::wire::Call;

pub type ByteKind = ReadingKind<u8>;

impl ByteKind {
    pub fn examples(&self) -> Vec<Call> {
        let mut calls = Vec::new();
        for (bytes, _, _) in byte_texts::EXAMPLES {
            calls.extend(self.in_rooms_around(bytes));
        }
        calls
    }

    /// What every kind that reads bytes has to read. They lean on where a bad sequence ends.
    pub fn edges(&self) -> Vec<Call> {
        let mut calls = self.no_units();
        calls.extend(self.examples());
        calls.extend(self.one_by_one(&byte_texts::tempting_texts()));
        calls.extend(self.in_long_texts(byte_texts::boundary_sequences(3)));
        calls.extend(self.in_long_texts(byte_texts::byte_pairs()));
        calls.extend(self.in_long_texts(byte_texts::every_cut_sequence()));
        calls.extend(self.long());
        calls.extend(self.one_by_one(&byte_texts::damaged_texts(&MIXED_TEXT)));
        calls.extend(self.in_long_texts(byte_texts::boundary_sequences(4)));
        calls.extend(self.one_by_one(&byte_texts::single_bytes()));
        calls.extend(self.with_exact_rooms(&byte_texts::at_each_place(&PLACED)));
        calls.extend(self.one_by_one(&byte_texts::boundary_sequences(2)));
        calls.extend(self.with_exact_rooms(&byte_texts::changed_texts(&MIXED_TEXT)));
        calls
    }

    /// With the short edges once more, since a comparison does not come to the end of them.
    pub fn every(&self) -> Vec<Call> {
        let mut calls = self.one_by_one(&byte_texts::single_bytes());
        calls.extend(self.one_by_one(&byte_texts::byte_pairs()));
        calls.extend(self.one_by_one(&byte_texts::boundary_sequences(3)));
        let divided = byte_texts::boundary_sequences(4).into_iter().map(with_wall);
        calls.extend(self.one_by_one(&packed(divided)));
        calls.extend(self.one_by_one(&packed(byte_texts::every_written())));
        // Cut sequences one after the other, each ended by the next one's lead byte.
        calls.extend(self.one_by_one(&packed(byte_texts::every_cut_sequence())));
        calls.extend(self.one_by_one(&byte_texts::damaged_texts(&MIXED_TEXT)));
        calls.extend(self.one_by_one(&byte_texts::changed_texts(&MIXED_TEXT)));
        calls.extend(self.one_by_one(&byte_texts::at_each_place(&PLACED)));
        calls
    }
}
