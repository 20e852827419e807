//! What the library must answer to a program or a dossier: the original's own answer, in the order
//! and with the places and limits of the requirements, each with what it rests on.

pub mod decoding;
pub mod whole;

use crate::tally::Rests;

/// A refusal that is expected.
#[derive(Clone, Copy, Debug, PartialEq, Eq)]
pub struct Verdict {
    pub number: u32,
    pub place: u32,
    pub number_rests: Rests,
    pub place_rests: Rests,
}

impl Verdict {
    /// A refusal that the requirements alone give.
    pub fn document(refused: (u32, u32)) -> Verdict {
        Verdict { number: refused.0, place: refused.1, number_rests: Rests::Document, place_rests: Rests::Document }
    }

    /// Number and place.
    pub fn pair(&self) -> (u32, u32) {
        (self.number, self.place)
    }
}
