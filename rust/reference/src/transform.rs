//! The values of a polynomial at all points of a coset, and the polynomial of such values, for
//! cosets that are too large for the plain methods.
//!
//! Let b be the first basis element and q(X) = X^2 + bX. Every polynomial is f0(q) + X f1(q) for
//! two polynomials of half its length: its Taylor expansion at q. The points x and x + b lie next
//! to each other, and q sends both to one point of a coset of one dimension less. So f0 and f1
//! are wanted at the points of that coset, and so on until there is one point left, where each
//! polynomial is its constant. This is the method of Gao and Mateer, who scale b to one first.
//!
//! One list holds all polynomials of a stage. Its rows are the coefficients of one power, or the
//! values at one point, of all of them. Rows 2n and 2n + 1 of an expansion are coefficient n of
//! all f0 and of all f1: taken together, without being moved, they are row n of the next stage.

use crate::coset::point;
use crate::factor::Factor;
use crate::field;

/// The values at all points, in point order. Coefficients left off are zero.
pub fn values(offset: u64, basis: &[u64], coefficients: &[u64]) -> Vec<u64> {
    let stages = stages(offset, basis);
    let mut list = coefficients.to_vec();
    list.resize(1 << basis.len(), 0);
    stages.iter().for_each(|stage| stage.expand(&mut list));
    stages.iter().rev().for_each(|stage| stage.join(&mut list));
    list
}

/// The coefficients of the interpolant: all steps undone, the last one first.
pub fn coefficients(offset: u64, basis: &[u64], word: &[u64]) -> Vec<u64> {
    let stages = stages(offset, basis);
    let mut list = word.to_vec();
    stages.iter().for_each(|stage| stage.part(&mut list));
    stages.iter().rev().for_each(|stage| stage.contract(&mut list));
    list
}

/// A coset of dimension one at least, and how many polynomials there are over it.
struct Stage {
    offset: u64,
    basis: Vec<u64>,
    width: usize,
}

/// The coset itself, and then the images of each under its q.
fn stages(offset: u64, basis: &[u64]) -> Vec<Stage> {
    let mut stages = Vec::new();
    let (mut offset, mut basis, mut width) = (offset, basis.to_vec(), 1);
    while let Some((&first, others)) = basis.split_first() {
        let q = |x| field::product(x, field::sum(x, first));
        let next = (q(offset), others.iter().map(|&element| q(element)).collect());
        stages.push(Stage { offset, basis, width });
        (offset, basis) = next;
        width *= 2;
    }
    stages
}

impl Stage {
    /// Expands all polynomials at q. A block of rows is divided by the power of q that has half
    /// its length; quotient and remainder are the halves of the block, and are divided next.
    fn expand(&self, list: &mut [u64]) {
        for (quarter, power) in self.powers().into_iter().rev() {
            for_each_block(list, quarter, |[_, second, third, fourth]| {
                add_multiple(third, &power, fourth);
                add_multiple(second, &power, third);
            });
        }
    }

    /// Undoes `expand`.
    fn contract(&self, list: &mut [u64]) {
        for (quarter, power) in self.powers() {
            for_each_block(list, quarter, |[_, second, third, fourth]| {
                add_multiple(second, &power, third);
                add_multiple(third, &power, fourth);
            });
        }
    }

    /// The divisors, the shortest one first. Power n of q is X^2n + b^n X^n where n is a power of
    /// two. Each is given by the length of n rows, which is a quarter of the block, and by b^n.
    fn powers(&self) -> Vec<(usize, Factor)> {
        let mut power = self.basis[0];
        let mut powers = Vec::new();
        for doublings in 0..self.basis.len() - 1 {
            powers.push((self.width << doublings, Factor::of(power)));
            power = field::product(power, power);
        }
        powers
    }

    /// Makes the values of f0 and f1 at the image of x and x + b those of f at these two points.
    fn join(&self, list: &mut [u64]) {
        let first = Factor::of(self.basis[0]);
        self.for_each_pair(list, |x, f0, f1| {
            add_multiple(f0, &x, f1);
            for (at_x, f1) in f0.iter().zip(f1) {
                *f1 = field::sum(*at_x, first.times(*f1));
            }
        });
    }

    /// Undoes `join`.
    fn part(&self, list: &mut [u64]) {
        let inverse = Factor::of(field::inverse_of_divisor(self.basis[0]));
        self.for_each_pair(list, |x, at_x, at_other| {
            for (at_x, at_other) in at_x.iter().zip(at_other.iter_mut()) {
                *at_other = inverse.times(field::sum(*at_x, *at_other));
            }
            add_multiple(at_x, &x, at_other);
        });
    }

    /// Takes all pairs of points x and x + b, with x as a factor and the rows of the two.
    fn for_each_pair(&self, list: &mut [u64], take: impl Fn(Factor, &mut [u64], &mut [u64])) {
        for (pair, rows) in (0..).zip(list.chunks_mut(2 * self.width)) {
            let x = Factor::of(point(self.offset, &self.basis, 2 * pair));
            let (one, other) = rows.split_at_mut(self.width);
            take(x, one, other);
        }
    }
}

/// Takes all blocks of four quarters of a length.
fn for_each_block(list: &mut [u64], quarter: usize, take: impl Fn([&mut [u64]; 4])) {
    for block in list.chunks_mut(4 * quarter) {
        let (lower, upper) = block.split_at_mut(2 * quarter);
        let (first, second) = lower.split_at_mut(quarter);
        let (third, fourth) = upper.split_at_mut(quarter);
        take([first, second, third, fourth]);
    }
}

/// Adds the factor times the other numbers to some numbers.
fn add_multiple(numbers: &mut [u64], factor: &Factor, others: &[u64]) {
    for (number, &other) in numbers.iter_mut().zip(others) {
        *number = field::sum(*number, factor.times(other));
    }
}

#[cfg(test)]
mod tests {
    use super::*;
    use crate::compare::cosets::{any_basis, basis, offset};
    use crate::coset::points;
    use crate::polynomial::{horner, interpolant};
    use crate::random::Random;

    /// Each combination of a basis and an offset, with any number of coefficients.
    #[test]
    fn values_are_those_by_horner() {
        let mut random = Random::named("values by a transform");
        for (k, turn) in (0..=9).flat_map(|k| (0..12).map(move |turn| (k, turn))) {
            let basis = basis(&mut random, k, turn);
            let offset = offset(&mut random, &basis, turn);
            let count = [1 << k, random.below((1 << k) + 1), 1, 0][turn / 3];
            let polynomial = random.list(count);
            let due = points(offset, &basis).into_iter().map(|x| horner(&polynomial, x));
            assert!(due.eq(values(offset, &basis, &polynomial)));
        }
    }

    #[test]
    fn coefficients_are_those_of_lagrange() {
        let mut random = Random::named("coefficients by a transform");
        for (k, turn) in (0..=7).flat_map(|k| (0..12).map(move |turn| (k, turn))) {
            let basis = basis(&mut random, k, turn);
            let offset = offset(&mut random, &basis, turn);
            let word = random.list(1 << k);
            let due = interpolant(&points(offset, &basis), &word);
            assert_eq!(coefficients(offset, &basis, &word), due);
        }
    }

    /// The second element becomes zero in the second stage.
    #[test]
    #[should_panic(expected = "a division by zero")]
    fn a_dependent_basis_has_no_coefficients() {
        coefficients(0, &[3, 3], &[1, 2, 3, 4]);
    }

    #[test]
    fn a_large_coset_goes_there_and_back() {
        let mut random = Random::named("a large coset");
        let (basis, offset) = (any_basis(&mut random, 14), random.number());
        let polynomial = random.list(1 << 14);
        let word = values(offset, &basis, &polynomial);
        for index in (0..20).map(|_| random.below(1 << 14)) {
            let x = point(offset, &basis, index as u64);
            assert_eq!(word[index], horner(&polynomial, x));
        }
        assert_eq!(coefficients(offset, &basis, &word), polynomial);
    }
}
