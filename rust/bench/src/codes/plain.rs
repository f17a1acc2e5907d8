//! Plain evaluation and Newton's interpolation.

use crate::arithmetic::{Arithmetic, Windowed};
use crate::coset::{point, prefix_sums, stepped};

/// Horner at each point, the points in sequence.
pub fn encode(offset: u64, basis: &[u64], coefficients: &[u64], values: &mut [u64]) {
    let sums = prefix_sums(Windowed, basis);
    let mut x = offset;
    for (j, value) in values.iter_mut().enumerate() {
        *value = evaluate(Windowed, coefficients, x);
        x = stepped(Windowed, &sums, x, j + 1);
    }
}

/// The value of the polynomial at x, by Horner.
#[inline(always)]
pub fn evaluate(arithmetic: impl Arithmetic, coefficients: &[u64], x: u64) -> u64 {
    let mut value = 0;
    for c in coefficients.iter().rev() {
        value = arithmetic.sum(*c, arithmetic.product(x, value));
    }
    value
}

/// The values become Newton's coefficients, then the polynomial's, from the last point to the
/// first.
pub fn interpolate_in_place(
    arithmetic: impl Arithmetic,
    offset: u64,
    basis: &[u64],
    values: &mut [u64],
) {
    for i in 0..values.len() {
        let z = point(arithmetic, offset, basis, i);
        values[i] = newton_coefficient(arithmetic, offset, basis, &values[..i], z, values[i]);
    }
    for i in (0..values.len()).rev() {
        let x = point(arithmetic, offset, basis, i);
        for j in i + 1..values.len() {
            values[j - 1] = arithmetic.sum(values[j - 1], arithmetic.product(x, values[j]));
        }
    }
}

/// The coefficient that gives Newton's form, of which the known ones come first, the value y at
/// z.
fn newton_coefficient(
    arithmetic: impl Arithmetic,
    offset: u64,
    basis: &[u64],
    known: &[u64],
    z: u64,
    y: u64,
) -> u64 {
    let sums = prefix_sums(arithmetic, basis);
    let (mut value, mut vanishing, mut x) = (0, 1, offset);
    for (j, c) in known.iter().enumerate() {
        value = arithmetic.sum(value, arithmetic.product(vanishing, *c));
        vanishing = arithmetic.product(vanishing, arithmetic.sum(z, x));
        x = stepped(arithmetic, &sums, x, j + 1);
    }
    let inverse = arithmetic.inverse(vanishing);
    arithmetic.product(arithmetic.sum(y, value), inverse)
}
