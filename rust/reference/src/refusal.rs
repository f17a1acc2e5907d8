//! Refusals that several operations give, and the lists that they name.

use crate::answer::{refused_at, Answer, DEPENDENT_BASIS, WRONG_LENGTH};
use crate::coset::first_dependent;

/// The list of the basis.
pub const LIST_OF_THE_BASIS: u64 = 1;
/// The list of the challenges.
pub const LIST_OF_THE_CHALLENGES: u64 = 2;
/// The list of the word, or of the coefficients to encode.
pub const LIST_OF_THE_GIVEN: u64 = 3;
/// The store, that is the list of layers 1 to r - 1.
pub const LIST_OF_THE_STORE: u64 = 4;
/// The list of the last coefficients.
pub const LIST_OF_THE_LAST: u64 = 5;
/// The list that the values, or the interpolated coefficients, are written to.
pub const LIST_OF_THE_OUTPUT: u64 = 6;
/// The list that the next basis is written to.
pub const LIST_OF_THE_NEXT_BASIS: u64 = 7;
/// The list that the bytes of a transcript are written to.
pub const LIST_OF_THE_BYTES: u64 = 8;

/// Goes on if this holds.
pub fn required(holds: bool, refusal: Answer) -> Result<(), Answer> {
    if holds {
        Ok(())
    } else {
        Err(refusal)
    }
}

pub fn right_length(list: u64, right: bool) -> Result<(), Answer> {
    required(right, refused_at(WRONG_LENGTH, list))
}

pub fn independent(basis: &[u64]) -> Result<(), Answer> {
    match first_dependent(basis) {
        Some(place) => Err(refused_at(DEPENDENT_BASIS, place as u64)),
        None => Ok(()),
    }
}
