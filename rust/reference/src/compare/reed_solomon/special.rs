//! Bases that stand in a special relation to the field, and polynomials whose lengths are near
//! powers of two.

use super::*;
use crate::compare::cosets::{cantors, multiples_by_powers};
use crate::coset::first_dependent;
use crate::field;
use std::collections::BTreeSet;

// The comparisons, and their names.

pub const BASES: &str = "bases of special forms";
pub const COUNTS: &str = "encode, counts near powers of two";
pub const COUNTS_TRIP: &str = "counts near powers of two, there and back";

/// How many inputs the comparisons take.
pub struct Amounts {
    /// Calls over special bases. There are seven forms.
    pub bases: Turns,
    /// Dimensions, and how often each count.
    pub counts: &'static [(usize, usize)],
}

pub fn comparisons(library: &dyn Library, amounts: &Amounts) -> Vec<Comparison> {
    let mut all = Vec::new();
    for operation in [&ENCODE, &INTERPOLATE] {
        let name = operation.title(BASES);
        all.push(with_transforms(library, name, over_bases(name, operation, &amounts.bases)));
    }
    let [calls, trips] = [COUNTS, COUNTS_TRIP].map(|name| with_counts(name, amounts.counts));
    all.push(with_transforms(library, COUNTS, calls));
    all.push(round_trip(library, COUNTS_TRIP, trips));
    all
}

// Bases. They are of seven forms, which has no common divisor with the number of sorts of offsets
// and of lists.

fn over_bases(name: &str, operation: Op, turns: &Turns) -> Vec<Call> {
    let random = &mut Random::named(name);
    let mut calls = Vec::new();
    for (k, &turns) in turns.iter().enumerate() {
        for turn in 0..turns {
            let basis = special_basis(random, k, turn);
            calls.push(over_basis(operation, random, basis, turn));
        }
    }
    calls
}

/// A form of a basis, which need not be independent for all that is drawn.
type Form = fn(&mut Random, usize) -> Vec<u64>;

const FORMS: [Form; 7] = [
    |_, k| (0..k).map(|place| 1 << place).collect(),
    |_, k| (0..k).rev().map(|place| 1 << place).collect(),
    |random, k| multiples_by_powers(random.number(), random.number(), k),
    // Of an element of the field of 2^16 elements.
    |random, k| multiples_by_powers(random.number(), in_subfield(random.number(), 16), k),
    multiples_in_pairs,
    with_one_multiple,
    |random, k| cantors(random.number(), k),
];

fn special_basis(random: &mut Random, k: usize, turn: usize) -> Vec<u64> {
    loop {
        let basis = FORMS[turn % FORMS.len()](random, k);
        if first_dependent(&basis).is_none() {
            return basis;
        }
    }
}

/// An element and its multiple by one of the field of four elements, for as many as are needed.
fn multiples_in_pairs(random: &mut Random, k: usize) -> Vec<u64> {
    let factor = in_subfield(random.number(), 2);
    let pairs = random.list(k.div_ceil(2)).into_iter();
    let mut basis: Vec<u64> = pairs.flat_map(|b| [b, field::product(b, factor)]).collect();
    basis.truncate(k);
    basis
}

/// Any elements, of which one is a multiple of another: by a small number, by itself or by any.
fn with_one_multiple(random: &mut Random, k: usize) -> Vec<u64> {
    let mut basis = random.list(k);
    let (place, other) = (random.below(k), random.below(k));
    let factors = [2, 3, basis[other], random.number()];
    if place != other {
        basis[place] = field::product(basis[other], factors[random.below(4)]);
    }
    basis
}

/// The element times all its conjugates over the field of 2^bits elements, which lies in there.
fn in_subfield(element: u64, bits: usize) -> u64 {
    let square = |&x: &u64| Some(field::product(x, x));
    let squares = std::iter::successors(Some(element), square).take(64);
    squares.step_by(bits).fold(1, field::product)
}

// Counts.

/// None, one, and the counts next to every power of two that there may be.
fn counts(k: usize) -> BTreeSet<usize> {
    let near = (0..=k).flat_map(|power| [(1 << power) - 1, 1 << power, (1 << power) + 1]);
    near.filter(|count| *count <= 1 << k).collect()
}

fn with_counts(name: &str, amounts: &[(usize, usize)]) -> Vec<Call> {
    let random = &mut Random::named(name);
    let mut calls = Vec::new();
    for &(k, times) in amounts {
        let repeated = counts(k).into_iter().flat_map(|count| vec![count; times]);
        for (turn, count) in repeated.enumerate() {
            let call = over_coset(&ENCODE, random, k as u64, turn);
            let coefficients = random.list(count);
            calls.push(call.with_list(Given, coefficients));
        }
    }
    calls
}

#[cfg(test)]
mod tests {
    use super::*;

    #[test]
    fn elements_of_subfields_are_their_powers() {
        for bits in [2, 16] {
            let element = in_subfield(0x0123_4567_89ab_cdef, bits);
            let power = (0..bits).fold(element, |power, _| field::product(power, power));
            assert_eq!(power, element);
            assert_ne!(field::product(element, element), element);
        }
    }

    #[test]
    fn cantors_basis_goes_down_to_one() {
        let basis = special_basis(&mut Random::named("Cantor"), 20, 6);
        assert_eq!(basis[0], 1);
        let below = |x| field::sum(field::product(x, x), x);
        assert!(basis.windows(2).all(|two| below(two[1]) == two[0]));
    }

    #[test]
    fn counts_are_those_near_powers_of_two() {
        assert!(counts(4).into_iter().eq([0, 1, 2, 3, 4, 5, 7, 8, 9, 15, 16]));
        assert!(counts(0).into_iter().eq([0, 1]));
    }
}
