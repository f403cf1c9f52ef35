// The cases that every kind that reads units of 16 bits has.
// It does not know what any of them makes: each brings that along.

use crate::byte_texts::{at_each_place, changed_units, damaged_units};
use crate::reading_kinds::ReadingKind;
use crate::text_kinds::packed;
use crate::unit_texts::{self, BOUNDARY_UNITS, MIXED_TEXT, PLACED};
use crate::utf16::written;
use crate::wire::Call;

pub type UnitKind = ReadingKind<u16>;

impl UnitKind {
    pub fn examples(&self) -> Vec<Call> {
        let mut calls = Vec::new();
        for (units, _, _) in unit_texts::EXAMPLES {
            calls.extend(self.in_rooms_around(units));
        }
        calls
    }

    /// What every kind that reads units has to read. They lean on what is a pair.
    pub fn edges(&self) -> Vec<Call> {
        let text = written(&MIXED_TEXT);
        let mut calls = self.no_units();
        calls.extend(self.examples());
        calls.extend(self.one_by_one(&unit_texts::tempting_texts()));
        calls.extend(self.in_long_texts(unit_texts::triples()));
        calls.extend(self.in_long_texts(unit_texts::quadruples()));
        calls.extend(self.in_long_texts(unit_texts::beside_surrogates()));
        calls.extend(self.long());
        calls.extend(self.one_by_one(&unit_texts::boundary_pairs()));
        calls.extend(self.one_by_one(&damaged_units(&text)));
        calls.extend(self.with_exact_rooms(&at_each_place(&PLACED)));
        calls.extend(self.with_exact_rooms(&changed_units(&text, &BOUNDARY_UNITS)));
        calls
    }

    /// With the short edges once more, since a comparison does not come to the end of them.
    pub fn every(&self) -> Vec<Call> {
        let text = written(&MIXED_TEXT);
        let mut calls = self.one_by_one(&unit_texts::single_units());
        calls.extend(self.one_by_one(&unit_texts::boundary_pairs()));
        calls.extend(self.one_by_one(&unit_texts::triples()));
        calls.extend(self.in_long_texts(unit_texts::quadruples()));
        // One after the other with no wall between, so that their ends may pair too.
        calls.extend(self.one_by_one(&packed(unit_texts::quadruples())));
        calls.extend(self.one_by_one(&unit_texts::beside_surrogates()));
        calls.extend(self.one_by_one(&packed(unit_texts::every_written())));
        calls.extend(self.one_by_one(&damaged_units(&text)));
        calls.extend(self.one_by_one(&changed_units(&text, &BOUNDARY_UNITS)));
        calls.extend(self.one_by_one(&at_each_place(&PLACED)));
        calls.extend(self.long());
        calls
    }
}
