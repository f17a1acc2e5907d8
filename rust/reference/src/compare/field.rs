//! The comparisons of the field of 2^64 elements.

pub mod answered;
pub mod lists;

use super::lent::FILLS;
use super::{compare, library, Comparison, Fixed, Input, Show, Sides};
use super::{LEFT_AND_RIGHT, PAPER_AND_LIBRARY, REFERENCE_AND_LIBRARY};
use crate::answer::{went_well, Answer, ANSWER_LENGTH, NONE};
use crate::field;
use crate::random::Random;
use answered::{answered, compare_answers};
use std::collections::BTreeSet;

type Operation = Box<dyn Fn(u64, u64) -> u64 + Sync>;
type RawInverse = Box<dyn Fn(u64, &mut [u64]) + Sync>;

/// The functions under test.
pub struct Field {
    sum: Operation,
    product: Operation,
    inverse: Box<dyn Fn(u64) -> u64 + Sync>,
    raw_inverse: RawInverse,
}

impl Field {
    /// Those of the verified library.
    pub fn razgwilh() -> Field {
        Field {
            sum: Box::new(library::sum),
            product: Box::new(library::product),
            inverse: Box::new(library::inverse),
            raw_inverse: Box::new(library::raw_inverse),
        }
    }
}

/// How many random inputs the program of this package compares with the reference. Of the laws
/// there are a tenth, of lists for the answer a hundredth.
pub const FULL: usize = 100_000;

/// Runs all comparisons of this file.
pub fn comparisons(under_test: &Field, amount: usize) -> Vec<Comparison> {
    [
        sums_and_products(under_test, amount),
        inverses(under_test, amount),
        laws(under_test, amount / 10),
        doublings(under_test, amount / 10),
        table_a(under_test),
        lent_lists(under_test, amount / 100),
    ]
    .concat()
}

// The inputs.

/// Values at which a mistake in a carry, a reduction or a width would show: with a single bit,
/// and with ones from below and from above.
fn edge_values() -> BTreeSet<u64> {
    let of_place = |place| [1u64 << place, u64::MAX >> place, u64::MAX << place];
    (0..64).flat_map(of_place).chain([0, 3, 7, 0x1b]).collect()
}

/// The edge values and the elements that have one for an inverse. All ones is among the
/// inverses, which as a raw number also stands for no value.
fn edge_values_and_inverses() -> BTreeSet<u64> {
    let inverses = edge_values().into_iter().map(field::inverse);
    inverses.chain(edge_values()).collect()
}

/// Each value as an input of its own.
fn singly(values: BTreeSet<u64>) -> Vec<[u64; 1]> {
    values.into_iter().map(|value| [value]).collect()
}

fn edge_pairs() -> Vec<[u64; 2]> {
    let values = edge_values();
    let pairs_of = |&a| values.iter().map(move |&b| [a, b]);
    values.iter().flat_map(pairs_of).collect()
}

fn random_lists<const N: usize>(name: &str, amount: usize) -> Vec<[u64; N]> {
    let mut random = Random::named(name);
    (0..amount).map(|_| random.numbers()).collect()
}

/// Compares edge inputs under the first name, and so many random ones under the second.
fn both<const N: usize, A: PartialEq + Show>(
    names: [&'static str; 2],
    edge: Vec<[u64; N]>,
    amount: usize,
    sides: Sides,
    first: impl Fn(&[u64; N]) -> A,
    second: impl Fn(&[u64; N]) -> A,
) -> Vec<Comparison> {
    let random = random_lists(names[1], amount);
    let compared = |(name, inputs)| compare(name, inputs, sides, &first, &second);
    names.into_iter().zip([edge, random]).map(compared).collect()
}

// Against the reference.

fn sums_and_products(Field { sum, product, .. }: &Field, amount: usize) -> Vec<Comparison> {
    let compared = |names, due: fn(u64, u64) -> u64, library: &Operation| {
        let sides = REFERENCE_AND_LIBRARY;
        both(names, edge_pairs(), amount, sides, |&[a, b]| due(a, b), |&[a, b]| library(a, b))
    };
    [
        compared(["sum, edge pairs", "sum, random pairs"], field::sum, sum),
        compared(["product, edge pairs", "product, random pairs"], field::product, product),
    ]
    .concat()
}

fn inverses(Field { product, inverse, .. }: &Field, amount: usize) -> Vec<Comparison> {
    let inverses = ["inverse, edge values", "inverse, random values"];
    let products = [
        "product with the inverse is one, edge values",
        "product with the inverse is one, random values",
    ];
    let edge = || singly(edge_values_and_inverses());
    let due = |&[a]: &[u64; 1]| field::inverse(a);
    // With zero every product is zero.
    let one = |&[a]: &[u64; 1]| u64::from(a != 0);
    let their_product = |&[a]: &[u64; 1]| product(a, inverse(a));
    [
        // Zero apart from the rest, with the value as the paper gives it.
        vec![case("inverse, zero", 0, 0, |&a| inverse(a))],
        both(inverses, edge(), amount, REFERENCE_AND_LIBRARY, due, |&[a]| inverse(a)),
        // This needs no inverse of the reference: both functions are the library's.
        both(products, edge(), amount, PAPER_AND_LIBRARY, one, their_product),
    ]
    .concat()
}

// The laws of a field, with the library on both sides.

fn laws(Field { sum, product, .. }: &Field, amount: usize) -> Vec<Comparison> {
    vec![
        law("a + b = b + a", amount, |[a, b]| [sum(a, b), sum(b, a)]),
        law("(a + b) + c = a + (b + c)", amount, |[a, b, c]| {
            [sum(sum(a, b), c), sum(a, sum(b, c))]
        }),
        law("a b = b a", amount, |[a, b]| [product(a, b), product(b, a)]),
        law("(a b) c = a (b c)", amount, |[a, b, c]| {
            [product(product(a, b), c), product(a, product(b, c))]
        }),
        law("a (b + c) = a b + a c", amount, |[a, b, c]| {
            [product(a, sum(b, c)), sum(product(a, b), product(a, c))]
        }),
    ]
}

fn law<const N: usize>(
    name: &'static str,
    amount: usize,
    sides: impl Fn([u64; N]) -> [u64; 2],
) -> Comparison {
    let inputs = random_lists(name, amount);
    compare(name, inputs, LEFT_AND_RIGHT, |&input| sides(input)[0], |&input| sides(input)[1])
}

// The papers.

/// The reduction constant against NIST SP 800-38B.
fn doublings(Field { product, .. }: &Field, amount: usize) -> Vec<Comparison> {
    let names = ["doubling of SP 800-38B, edge values", "doubling of SP 800-38B, random values"];
    let (doubled, sides) = (|&[a]: &[u64; 1]| field::doubling(a), ["SP 800-38B", "library"]);
    both(names, singly(edge_values()), amount, sides, doubled, |&[a]| product(2, a))
}

fn table_a(Field { product, inverse, .. }: &Field) -> Vec<Comparison> {
    vec![
        case("case A of table A", [1 << 63, 2], 0x1b, |&[a, b]| product(a, b)),
        case("case B of table A", [3, 7], 9, |&[a, b]| product(a, b)),
        case("case C of table A", 2, 0x800000000000000d, |&a| inverse(a)),
    ]
}

fn case<I: Input, A: PartialEq + Show + Copy>(
    name: &'static str,
    input: I,
    due: A,
    library: impl Fn(&I) -> A,
) -> Comparison {
    compare(name, [Fixed(input)], PAPER_AND_LIBRARY, |_| due, |Fixed(input)| library(input))
}

// The list that an answer is written into.

/// The answer due for the inverse of an element: it is never refused.
fn inverse_due(a: u64) -> Answer {
    went_well(field::inverse(a))
}

/// Zero apart from the rest, with the five numbers as the papers give them: number 0, no place,
/// no round, no reads, the value 0.
fn zero_into_five(raw_inverse: &RawInverse) -> Comparison {
    case("inverse into a list of five, zero", 0, [0, NONE, NONE, 0, 0], |&a| {
        let mut answer = [FILLS[0]; ANSWER_LENGTH];
        raw_inverse(a, &mut answer);
        answer
    })
}

/// Each value comes twice, and so with both fills.
fn lent_lists(Field { raw_inverse, .. }: &Field, amount: usize) -> Vec<Comparison> {
    let compared = |name, values: &[u64], lengths: &[usize]| {
        let twice = || values.iter().flat_map(|&a| [a, a]);
        let inputs = lengths.iter().flat_map(|&length| answered(twice(), length));
        compare_answers(name, inputs, |&a| inverse_due(a), |&a, answer| raw_inverse(a, answer))
    };
    let few = [0, 1, 2, 0x1b, 1 << 63, u64::MAX];
    let others: Vec<usize> = (0..=64).filter(|&length| length != ANSWER_LENGTH).collect();
    let five = [ANSWER_LENGTH];
    let edge = "inverse into a list of five, edge values";
    let random = "inverse into a list of five, random values";
    vec![
        zero_into_five(raw_inverse),
        compared("inverse into a list of another length", &few, &others),
        compared(edge, &Vec::from_iter(edge_values_and_inverses()), &five),
        compared(random, &Random::named(random).list(amount), &five),
    ]
}

/// Each comparison is shown to fail for a library that is wrong.
#[cfg(test)]
mod tests;
