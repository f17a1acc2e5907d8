//! Encoding and interpolation over a coset.
//!
//! The plain methods are the definitions alone. Encoding adds up the terms of a polynomial at
//! each point. Interpolation is Lagrange's over any points that differ. Nothing there uses that
//! the points of a coset have a structure: the less a method resembles the library's the more an
//! agreement says. Their work grows with the square of the number of points, so that large cosets
//! are left to a transform, which the tests compare with them.

use crate::answer::{refused, Answer, K_OUT_OF_RANGE};
use crate::coset::points;
use crate::polynomial::{interpolant, value};
use crate::refusal::{independent, required, right_length, LIST_OF_THE_GIVEN, LIST_OF_THE_OUTPUT};
use crate::transform;

/// The largest dimension that is encoded and interpolated over.
pub const LARGEST_K: usize = 20;

/// The largest dimension that the plain methods are taken for.
const LARGEST_PLAIN_K: usize = 12;

/// The values of the polynomial at all points, or the refusal. The length is that of the list
/// lent for the values.
pub fn encode(
    offset: u64,
    basis: &[u64],
    coefficients: &[u64],
    length: usize,
) -> Result<Vec<u64>, Answer> {
    if basis.len() > LARGEST_PLAIN_K {
        return encode_by_transform(offset, basis, coefficients, length);
    }
    may_encode(basis, coefficients.len(), length)?;
    let points = points(offset, basis);
    Ok(points.iter().map(|&x| value(coefficients, x)).collect())
}

/// The same, whatever the dimension is.
pub fn encode_by_transform(
    offset: u64,
    basis: &[u64],
    coefficients: &[u64],
    length: usize,
) -> Result<Vec<u64>, Answer> {
    may_encode(basis, coefficients.len(), length)?;
    Ok(transform::values(offset, basis, coefficients))
}

/// The coefficients of the word's interpolant, or the refusal. The length is that of the list
/// lent for the coefficients.
pub fn interpolate(
    offset: u64,
    basis: &[u64],
    word: &[u64],
    length: usize,
) -> Result<Vec<u64>, Answer> {
    if basis.len() > LARGEST_PLAIN_K {
        return interpolate_by_transform(offset, basis, word, length);
    }
    may_interpolate(basis, word.len(), length)?;
    Ok(interpolant(&points(offset, basis), word))
}

/// The same, whatever the dimension is.
pub fn interpolate_by_transform(
    offset: u64,
    basis: &[u64],
    word: &[u64],
    length: usize,
) -> Result<Vec<u64>, Answer> {
    may_interpolate(basis, word.len(), length)?;
    Ok(transform::coefficients(offset, basis, word))
}

// Refusals. Each function stops at the first cause, in the paper's order.

/// Coefficients left off are zero, so that there may be fewer than points.
pub fn may_encode(basis: &[u64], coefficients: usize, values: usize) -> Result<(), Answer> {
    may_take(basis, |points| coefficients <= points, values)
}

pub fn may_interpolate(basis: &[u64], word: usize, coefficients: usize) -> Result<(), Answer> {
    may_take(basis, |points| word == points, coefficients)
}

/// With whether the list that is given fits so many points, and the length of the other one.
fn may_take(basis: &[u64], fits: impl Fn(usize) -> bool, output: usize) -> Result<(), Answer> {
    required(basis.len() <= LARGEST_K, refused(K_OUT_OF_RANGE))?;
    let points = 1 << basis.len();
    right_length(LIST_OF_THE_GIVEN, fits(points))?;
    right_length(LIST_OF_THE_OUTPUT, output == points)?;
    independent(basis)
}

#[cfg(test)]
mod tests {
    use super::*;
    use crate::answer::refused_at;

    #[test]
    fn cases_e_and_m() {
        for encode in [encode, encode_by_transform] {
            assert_eq!(encode(0, &[1, 2], &[7, 3], 4), Ok(vec![7, 4, 1, 2]));
            assert_eq!(encode(0, &[1, 2, 3], &[7, 3], 8), Err(refused_at(8, 2)));
        }
        for interpolate in [interpolate, interpolate_by_transform] {
            assert_eq!(interpolate(0, &[1, 2], &[7, 4, 1, 2], 4), Ok(vec![7, 3, 0, 0]));
            assert_eq!(interpolate(0, &[1, 2, 3], &[0; 8], 8), Err(refused_at(8, 2)));
        }
    }

    /// The causes come in the order 4, 13 and 8, at the ends of the range.
    #[test]
    fn refusals_of_large_cosets() {
        let basis = |k| (0..k).map(|place| 1 << place).collect::<Vec<u64>>();
        let (largest, above, all) = (basis(20), basis(21), 1 << 20);
        let dependent = [&largest[..19], &[3]].concat();
        for (basis, given, output, refusal) in [
            (&largest, all, all, None),
            (&above, 2 * all, 2 * all, Some(refused(4))),
            (&above, 0, 1, Some(refused(4))),
            (&largest, all + 1, 0, Some(refused_at(13, 3))),
            (&largest, all, all - 1, Some(refused_at(13, 6))),
            (&dependent, all, all + 1, Some(refused_at(13, 6))),
            (&dependent, all, all, Some(refused_at(8, 19))),
        ] {
            assert_eq!(may_encode(basis, given, output).err(), refusal);
            assert_eq!(may_interpolate(basis, given, output).err(), refusal);
        }
        assert_eq!(may_encode(&largest, 0, all), Ok(()));
        assert_eq!(may_interpolate(&largest, all - 1, all), Err(refused_at(13, 3)));
    }
}
