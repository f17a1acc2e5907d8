//! The fold of a word over a coset, from the definitions alone.
//!
//! The polynomial q is the product of X - a over all of a span. The fold takes each coset by
//! itself: Lagrange's interpolant through its points, and then the value of that at the
//! challenge. Nothing here uses that q adds up, or that the points of one coset lie as those of
//! another do: the less a method resembles the library's the more an agreement says.

use crate::answer::{refused, Answer, K_OUT_OF_RANGE, K_TOO_SMALL, STEP_OUT_OF_RANGE};
use crate::coset::{first_dependent, point, points};
use crate::polynomial::{interpolant, value, vanishing};
use crate::refusal::{
    independent, required, right_length, LIST_OF_THE_BASIS, LIST_OF_THE_GIVEN,
    LIST_OF_THE_NEXT_BASIS, LIST_OF_THE_OUTPUT,
};
use std::ops::RangeInclusive;

/// The dimensions that are folded.
pub const DIMENSIONS: RangeInclusive<usize> = 2..=20;

/// The steps that are folded with.
pub const STEPS: RangeInclusive<usize> = 1..=3;

/// What is given to a fold.
#[derive(Clone, Copy, Debug)]
pub struct Fold<'a> {
    pub k: usize,
    pub step: usize,
    pub offset: u64,
    pub basis: &'a [u64],
    pub word: &'a [u64],
    pub challenge: u64,
}

/// What a fold gives.
#[derive(Clone, Debug, PartialEq)]
pub struct Folded {
    pub values: Vec<u64>,
    pub next: Coset,
}

#[derive(Clone, Debug, PartialEq)]
pub struct Coset {
    pub offset: u64,
    pub basis: Vec<u64>,
}

/// The fold and the next coset, or the refusal. The lengths are those of the lists lent for the
/// values and for the next basis.
pub fn fold(given: Fold, values: usize, next_basis: usize) -> Result<Folded, Answer> {
    let next = next_coset(given, values, next_basis)?;
    let values = (0..values).map(|j| entry(given, j)).collect();
    Ok(Folded { values, next })
}

/// Entry j of a fold that is not refused.
pub fn entry(given: Fold, j: usize) -> u64 {
    let indices = j << given.step..(j + 1) << given.step;
    let word = &given.word[indices.clone()];
    let point_at = |index| point(given.offset, given.basis, index as u64);
    let points: Vec<u64> = indices.map(point_at).collect();
    value(&interpolant(&points, word), given.challenge)
}

/// The next coset, or the refusal, with the lengths of `fold`.
pub fn next_coset(given: Fold, values: usize, next_basis: usize) -> Result<Coset, Answer> {
    may_fold(given, values, next_basis)?;
    let next = following(given.step, given.offset, given.basis);
    assert_later_independent(std::slice::from_ref(&next));
    Ok(next)
}

/// The coset that follows one: the images of its offset and of the basis elements behind those
/// that span.
pub fn following(step: usize, offset: u64, basis: &[u64]) -> Coset {
    let (spanning, others) = basis.split_at(step);
    let q = vanishing_on_span(spanning);
    Coset {
        offset: value(&q, offset),
        basis: others.iter().map(|&element| value(&q, element)).collect(),
    }
}

/// The cosets of layers 1, 2 and so on have independent bases wherever that of layer 0 is
/// independent, since q is zero on the span alone. So 16, a later layer's basis is dependent, is
/// retired; but a basis for which that does not hold must not go unseen.
pub fn assert_later_independent(later: &[Coset]) {
    for (layer, Coset { basis, .. }) in (1..).zip(later) {
        let dependent = first_dependent(basis).is_some();
        assert!(!dependent, "the basis of layer {layer} is dependent: {basis:x?}");
    }
}

/// The value at x of the product of X - a over the span.
pub fn image(spanning: &[u64], x: u64) -> u64 {
    value(&vanishing_on_span(spanning), x)
}

/// The polynomial q.
fn vanishing_on_span(spanning: &[u64]) -> Vec<u64> {
    vanishing(&points(0, spanning))
}

// Refusals. Each function stops at the first cause, in the paper's order.

/// All causes.
pub fn may_fold(given: Fold, values: usize, next_basis: usize) -> Result<(), Answer> {
    right_parameters(given.k, given.step)?;
    let left = given.k - given.step;
    right_length(LIST_OF_THE_BASIS, given.basis.len() == given.k)?;
    right_length(LIST_OF_THE_GIVEN, given.word.len() == 1 << given.k)?;
    right_length(LIST_OF_THE_OUTPUT, values == 1 << left)?;
    right_length(LIST_OF_THE_NEXT_BASIS, next_basis == left)?;
    independent(given.basis)
}

fn right_parameters(k: usize, step: usize) -> Result<(), Answer> {
    required(DIMENSIONS.contains(&k), refused(K_OUT_OF_RANGE))?;
    required(STEPS.contains(&step), refused(STEP_OUT_OF_RANGE))?;
    required(k >= step, refused(K_TOO_SMALL))
}

#[cfg(test)]
mod tests {
    use super::*;

    /// The folds of table A are those of its runs, which `protocol` proves.
    #[test]
    fn case_d() {
        assert_eq!(following(1, 8, &[1, 2]), Coset { offset: 0x48, basis: vec![6] });
    }

    /// No basis leads to it, so that it is shown of cosets alone.
    #[test]
    #[should_panic(expected = "the basis of layer 2 is dependent: [5, 1b, 1e]")]
    fn a_dependent_later_basis_does_not_go_unseen() {
        let bases = [vec![6, 0x14], vec![5, 0x1b, 0x1e], vec![0]];
        assert_later_independent(&bases.map(|basis| Coset { offset: 0, basis }));
    }
}
