//! Why a call was refused, in numbers and in words.

use crate::c::Answer;
use std::fmt;

/// Why a call was refused: document 01's number, and the place that it names.
#[derive(Clone, Copy, Debug, PartialEq, Eq)]
pub struct Refusal {
    pub number: usize,
    pub place: usize,
}

impl fmt::Display for Refusal {
    fn fmt(&self, f: &mut fmt::Formatter<'_>) -> fmt::Result {
        let place = self.place;
        match self.number {
            1 => write!(f, "the manifest breaks rule L{place}"),
            2 => write!(f, "an argument is over its limit"),
            3 => write!(f, "the prefix nests with that of segment {place}"),
            4 => write!(f, "there is no room for the result"),
            5 => write!(f, "no key is in the range"),
            6 => write!(f, "segment {place} of the compactor has data that the writer does not know"),
            7 => write!(f, "kept prefixes nest, from the one at {place} on"),
            15 => write!(f, "a borrow has no final checkpoint"),
            16 => write!(f, "there are too few fresh UUIDs"),
            8 => write!(f, "the own range of tree {place} holds no key"),
            9 => write!(f, "the own range of tree {place} is not within its prefix"),
            10 => write!(f, "the filter names segment {place}, which there is not"),
            11 => write!(f, "the sources have different extractor names"),
            12 if place == 0 => write!(f, "the ranges of two sources overlap"),
            12 => write!(f, "the ranges of two segments overlap, of the sources' prefix {}", place - 1),
            13 => write!(f, "a source has segments, but no extractor"),
            14 => write!(f, "prefixes of the sources nest"),
            18 => write!(f, "no well-formed MessagePack from byte {place} on"),
            19 => write!(f, "not a manifest: the value at byte {place} is wrong"),
            number => write!(f, "refusal {number} at {place}"),
        }
    }
}

impl std::error::Error for Refusal {}

/// The answer, unless it is a refusal.
pub fn good(answer: Answer) -> Result<Answer, Refusal> {
    match answer.number {
        0 => Ok(answer),
        number => Err(Refusal { number, place: answer.first }),
    }
}
