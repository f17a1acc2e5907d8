//! Why something was refused.

use core::error::Error;
use core::fmt::{self, Display, Formatter};

/// The cause of a refusal, one for each number of `docs/NUMBERS.md`. A number, once given,
/// keeps its cause for good; later versions may add some, and so whoever matches on a cause has
/// an arm for the rest, in which nothing is settled.
#[derive(Clone, Copy, Debug, PartialEq, Eq, Hash)]
#[non_exhaustive]
pub enum Cause {
    /// The bytes end in a count or its entries; the place is the section, from 1.
    BytesEnd = 1,
    /// A count differs from the one due, in another section than 4; the place is the section,
    /// from 1.
    CountDiffers = 2,
    /// Bytes after the last section.
    TrailingBytes = 3,
    /// k out of range.
    DimensionOutOfRange = 4,
    /// The rate out of range.
    RateOutOfRange = 5,
    /// The step out of range.
    StepOutOfRange = 6,
    /// k below rate + step, or below the step in a lone fold.
    DimensionTooSmall = 7,
    /// A basis element lies in the span of earlier ones; the place is the first such, from 0.
    BasisDependent = 8,
    /// No query, or over 256.
    QueryCountOutOfRange = 9,
    /// A query index is 2^k or more; the place is the first such query, from 0.
    QueryOutOfRange = 10,
    /// A round check fails; the place is the query, from 0, and the round is there, from 0.
    RoundCheckFails = 11,
    /// Layer r has degree d or more, where d is the number of last coefficients; the place is
    /// that degree. Only a prover refuses so.
    DegreeTooLarge = 12,
    /// A lent list has the wrong length; the place is the list: 1 basis, 2 challenges, 3 word
    /// or encoder coefficients, 4 store, 5 last coefficients, 6 output values, 7 next basis, 8
    /// bytes of a transcript.
    WrongLength = 13,
    /// The input of the program `judge` has over 65,536 bytes, and its sections 1 to 4 pass. No
    /// call of this crate refuses so.
    InputTooLong = 14,
    /// Two queries share a first-layer coset; the place is the first query, from 0, that shares
    /// one with an earlier query.
    CosetShared = 17,
}

impl Cause {
    /// All causes, in the order of their numbers.
    pub const ALL: &'static [Cause] = &[
        Cause::BytesEnd,
        Cause::CountDiffers,
        Cause::TrailingBytes,
        Cause::DimensionOutOfRange,
        Cause::RateOutOfRange,
        Cause::StepOutOfRange,
        Cause::DimensionTooSmall,
        Cause::BasisDependent,
        Cause::QueryCountOutOfRange,
        Cause::QueryOutOfRange,
        Cause::RoundCheckFails,
        Cause::DegreeTooLarge,
        Cause::WrongLength,
        Cause::InputTooLong,
        Cause::CosetShared,
    ];

    /// The cause with this number; 0, which is no refusal, and numbers that are not given have
    /// none.
    pub fn of(number: u64) -> Option<Cause> {
        Cause::ALL.iter().copied().find(|cause| cause.number() == number)
    }

    /// The number of this cause in `docs/NUMBERS.md`.
    pub fn number(self) -> u64 {
        self as u64
    }

    /// The cause in the words of `docs/NUMBERS.md`, where R is the rate and η the step.
    pub fn words(self) -> &'static str {
        match self {
            Cause::BytesEnd => "the bytes end in a count or its entries",
            Cause::CountDiffers => "a count differs from the one due, in another section than 4",
            Cause::TrailingBytes => "bytes after the last section",
            Cause::DimensionOutOfRange => "k out of range",
            Cause::RateOutOfRange => "R out of range",
            Cause::StepOutOfRange => "η out of range",
            Cause::DimensionTooSmall => "k < R + η, or k < η in a lone fold",
            Cause::BasisDependent => "a basis element lies in the span of earlier ones",
            Cause::QueryCountOutOfRange => "no query, or over 256",
            Cause::QueryOutOfRange => "a query index is 2^k or more",
            Cause::RoundCheckFails => "a round check fails",
            Cause::DegreeTooLarge => "layer r has degree d or more",
            Cause::WrongLength => {
                "a lent list has the wrong length: 1 basis, 2 challenges, 3 word or encoder \
                 coefficients, 4 store, 5 last coefficients, 6 output values, 7 next basis, \
                 8 bytes of a transcript"
            }
            Cause::InputTooLong => "the program's input has over 65,536 bytes",
            Cause::CosetShared => "two queries share a first-layer coset",
        }
    }

    /// What a place is called with this cause.
    fn place(self) -> &'static str {
        match self {
            Cause::BytesEnd | Cause::CountDiffers => "section",
            Cause::BasisDependent => "basis place",
            Cause::QueryOutOfRange | Cause::RoundCheckFails | Cause::CosetShared => "query",
            Cause::DegreeTooLarge => "degree",
            Cause::WrongLength => "list",
            _ => "place",
        }
    }
}

/// Number and cause together: `number 3: bytes after the last section`.
impl Display for Cause {
    fn fmt(&self, f: &mut Formatter) -> fmt::Result {
        write!(f, "number {}: {}", self.number(), self.words())
    }
}

impl Error for Cause {}

/// A refusal: its cause, where it was found, and how many entries a judge had read until then.
#[derive(Clone, Copy, Debug, PartialEq, Eq, Hash)]
pub struct Refusal {
    /// Why it was refused.
    pub cause: Cause,
    /// The section, basis place, query, degree or list, as [`Cause`] says, where there is one.
    pub place: Option<u64>,
    /// The round, from 0, where there is one.
    pub round: Option<u64>,
    /// The entries that a judge read: 0 where none were, and for every other operation.
    pub reads: u64,
}

/// Number, cause, place and round: `number 11: a round check fails; query 1, round 0`.
impl Display for Refusal {
    fn fmt(&self, f: &mut Formatter) -> fmt::Result {
        write!(f, "{}", self.cause)?;
        if let Some(place) = self.place {
            write!(f, "; {} {place}", self.cause.place())?;
        }
        if let Some(round) = self.round {
            write!(f, ", round {round}")?;
        }
        Ok(())
    }
}

impl Error for Refusal {}
