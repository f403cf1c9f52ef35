// The definition of mending UTF-16: units are read, joined, and written as units again.
// It has no rule of its own beyond that order; it makes no cases and knows no wire form.

use crate::joining::joined;
use crate::utf16::{read, written};

/// What units are mended to.
#[derive(Clone, Debug, Default, PartialEq, Eq)]
pub struct UnitMending {
    pub units: Vec<u16>,
    /// How many unpaired surrogates were read; joining takes none of them away.
    pub unpaired: u32,
}

pub fn mended(units: &[u16]) -> UnitMending {
    let reading = read(units);
    UnitMending {
        units: written(&joined(&reading.codes)),
        unpaired: reading.ill_formed,
    }
}
