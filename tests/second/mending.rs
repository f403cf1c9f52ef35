// The definition of mending: bytes are read as UTF-8, joined, and written as UTF-8 again.
// It has no rule of its own beyond that order; it makes no cases and knows no wire form.

use crate::joining::joined;
use crate::utf8::{read, written};

/// What bytes are mended to.
#[derive(Clone, Debug, Default, PartialEq, Eq)]
pub struct Mending {
    pub bytes: Vec<u8>,
    /// How many ill-formed subparts were read; joining takes none of them away.
    pub ill_formed: u32,
}

pub fn mended(bytes: &[u8]) -> Mending {
    let reading = read(bytes);
    Mending {
        bytes: written(&joined(&reading.codes)),
        ill_formed: reading.ill_formed,
    }
}
