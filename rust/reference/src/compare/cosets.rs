//! Bases, offsets, words and challenges that calls are made of, and lengths that lists must not
//! have.

use crate::coset::{first_dependent, point};
use crate::field;
use crate::random::Random;
use std::iter::successors;
use std::ops::RangeInclusive;

// Each is of one of a few sorts, in turn.

/// An independent basis of any numbers, of numbers that span all of k bits, or of numbers that
/// only one bit keeps from being dependent.
pub fn basis(random: &mut Random, k: usize, turn: usize) -> Vec<u64> {
    let mut basis = Vec::new();
    while basis.len() < k {
        let any = random.number();
        basis.push(match turn % 3 {
            0 => any,
            1 => any >> (64 - k),
            _ => point(1 << random.below(64), &basis, any),
        });
        if first_dependent(&basis).is_some() {
            basis.pop();
        }
    }
    basis
}

/// An independent basis of any numbers.
pub fn any_basis(random: &mut Random, k: usize) -> Vec<u64> {
    basis(random, k, 0)
}

/// Any offset, none, one in the span, or one of all ones.
pub fn offset(random: &mut Random, basis: &[u64], turn: usize) -> u64 {
    match turn % 4 {
        0 => random.number(),
        1 => 0,
        2 => point(0, basis, random.number()),
        _ => u64::MAX,
    }
}

/// A word of any values, with one value that is not zero, of zeros, or of all ones. What else a
/// word may be is up to the operation.
pub fn word(random: &mut Random, length: usize, sort: usize) -> Vec<u64> {
    match sort {
        0 => random.list(length),
        1 => {
            let mut word = vec![0; length];
            word[random.below(length)] = random.number();
            word
        }
        2 => vec![0; length],
        _ => vec![u64::MAX; length],
    }
}

/// Any challenge, zero, one, all ones, a point, a zero of q, or what one bit keeps from being a
/// point.
pub fn challenge(random: &mut Random, step: usize, offset: u64, basis: &[u64], turn: usize) -> u64 {
    match turn % 7 {
        0 => random.number(),
        1 => 0,
        2 => 1,
        3 => u64::MAX,
        4 => point(offset, basis, random.number()),
        5 => point(0, &basis[..step], random.number()),
        _ => point(offset ^ (1 << random.below(64)), basis, random.number()),
    }
}

// Bases that stand in a special relation to the field. They need not be independent.

/// The element and its multiples by powers of the factor.
pub fn multiples_by_powers(element: u64, factor: u64, k: usize) -> Vec<u64> {
    successors(Some(element), |&last| Some(field::product(last, factor))).take(k).collect()
}

/// Cantor's basis: 1, and then elements for which x^2 + x is the one before. From any element on,
/// 64 such steps lead to zero, and the last before it is 1 for half of the elements.
pub fn cantors(element: u64, k: usize) -> Vec<u64> {
    let step = |&x: &u64| Some(field::sum(field::product(x, x), x));
    let steps: Vec<u64> = successors(Some(element), step).take(64).collect();
    steps.into_iter().rev().take(k).collect()
}

// Wrong lengths.

/// The lengths near the right one, the shortest ones, half and twice the right one, less those
/// that fit.
pub fn wrong_lengths(right: usize, fits: impl Fn(usize) -> bool) -> Vec<usize> {
    let near = right.saturating_sub(4)..=right + 4;
    let all = near.chain([0, 1, 2, right / 2, 2 * right]);
    let mut wrong: Vec<usize> = all.filter(|&length| !fits(length)).collect();
    wrong.sort_unstable();
    wrong.dedup();
    wrong
}

// Dependent bases.

/// Makes the element at a place the sum of some earlier ones: of those whose bit is set.
fn insert_sum(basis: &mut Vec<u64>, place: usize, picked: u64) {
    let sum = point(0, &basis[..place], picked);
    basis.insert(place, sum);
}

/// A basis that is dependent at one place alone: the element there is the sum of the earlier ones
/// whose bit is set.
pub fn dependent(random: &mut Random, k: usize, place: usize, picked: u64) -> Vec<u64> {
    let mut basis = any_basis(random, k - 1);
    insert_sum(&mut basis, place, picked);
    basis
}

/// A basis that is dependent at any one place.
pub fn any_dependent(random: &mut Random, k: usize) -> Vec<u64> {
    let (place, picked) = (random.below(k), random.number());
    dependent(random, k, place, picked)
}

type Dimensions = RangeInclusive<usize>;

/// All of the dimensions, each with all places of its basis.
pub fn all_places(dimensions: Dimensions) -> impl Iterator<Item = (usize, usize)> {
    let places_of = |k| (0..k).map(move |place| (k, place));
    dimensions.flat_map(places_of)
}

/// Makes dependent bases of some dimensions.
pub type Bases = fn(&mut Random, Dimensions) -> Vec<Vec<u64>>;

pub fn with_zero_elements(random: &mut Random, dimensions: Dimensions) -> Vec<Vec<u64>> {
    all_places(dimensions).map(|(k, place)| dependent(random, k, place, 0)).collect()
}

pub fn with_repeated_elements(random: &mut Random, dimensions: Dimensions) -> Vec<Vec<u64>> {
    let mut bases = Vec::new();
    for (k, place) in all_places(dimensions) {
        let earlier = 0..place;
        bases.extend(earlier.map(|earlier| dependent(random, k, place, 1 << earlier)));
    }
    bases
}

/// Sums of two earlier elements or more: of any two next to each other, of all, and of any.
pub fn with_sums_of_elements(random: &mut Random, dimensions: Dimensions) -> Vec<Vec<u64>> {
    let mut bases = Vec::new();
    for (k, place) in all_places(dimensions) {
        for earlier in 1..place {
            let two = 3 << (earlier - 1);
            for picked in [two, u64::MAX, two | random.number()] {
                bases.push(dependent(random, k, place, picked));
            }
        }
    }
    bases
}

pub fn dependent_at_two_places(random: &mut Random, dimensions: Dimensions) -> Vec<Vec<u64>> {
    let mut bases = Vec::new();
    for (k, second) in all_places(dimensions) {
        for first in 0..second {
            let mut basis = any_basis(random, k - 2);
            insert_sum(&mut basis, first, random.number());
            insert_sum(&mut basis, second, random.number());
            bases.push(basis);
        }
    }
    bases
}

// Bases of any length.

/// A basis that is independent for as far as it can be.
pub fn longest_basis(random: &mut Random, k: usize) -> Vec<u64> {
    let mut basis = any_basis(random, k.min(64));
    basis.extend(random.list(k - basis.len()));
    basis
}
