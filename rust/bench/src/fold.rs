//! The fold of a word beside the same method in Rust, with the library's product and with
//! carry-less multiply hardware, over the largest coset.

use crate::arithmetic::Arithmetic;
use crate::beside::{checked, compare, Operation};
use crate::coset::{composed_maps, inputs, numbers, point, prefix_sums, step_elements, stepped};
use razgwilh::Fold;

const DIMENSION: usize = 20;
const SIZE: usize = 1 << DIMENSION;
const TURNS: usize = 10;

pub fn report() {
    let mut next = numbers();
    let (offset, basis, word) = inputs(DIMENSION, &mut next);
    let challenge = next();
    println!("\nfold of {SIZE} entries, wanted at most 1.30 of the same method:");
    for step in 1..=3 {
        let given = Fold { k: DIMENSION, step, offset, basis: &basis, word: &word, challenge };
        checked(given);
        let size = 1 << step;
        let products = (3 * (size - 1) - 1) as f64 / size as f64;
        println!("  step {step}, {products:.1} products for each entry read:");
        compare(given, TURNS, "ms", 1e6);
    }
}

impl Operation for Fold<'_> {
    /// The values and the next basis.
    type Room = (Vec<u64>, Vec<u64>);
    /// The next offset.
    type Answer = u64;

    fn room(self) -> Self::Room {
        let dimension = self.k - self.step;
        (vec![0; 1 << dimension], vec![0; dimension])
    }

    fn by_library(self, (values, next_basis): &mut Self::Room) -> u64 {
        razgwilh::fold(self, values, next_basis).expect("nothing to refuse")
    }

    #[inline(always)]
    fn by(self, arithmetic: impl Arithmetic, (values, next_basis): &mut Self::Room) -> u64 {
        let elements = step_elements(arithmetic, self.basis, self.step);
        let elements = &elements[..self.step];
        fill_values(arithmetic, elements, self, values);
        for (image, b) in next_basis.iter_mut().zip(&self.basis[self.step..]) {
            *image = composed_maps(arithmetic, elements, *b);
        }
        composed_maps(arithmetic, elements, self.offset)
    }
}

/// What has to be inverted is inverted once, before the cosets.
#[inline(always)]
pub fn fill_values(arithmetic: impl Arithmetic, elements: &[u64], given: Fold, values: &mut [u64]) {
    let (first, upper) = given.basis.split_at(given.step);
    let inverses = inverses_of(arithmetic, elements);
    let span = span_of(arithmetic, first);
    let span = &span[..1 << given.step];
    let sums = prefix_sums(arithmetic, upper);
    let mut first = given.offset;
    let parts = given.word.chunks_exact(span.len());
    for (j, (value, part)) in values.iter_mut().zip(parts).enumerate() {
        let coset = Coset::read(arithmetic, span, first, part);
        *value = coset.value_at(arithmetic, given.challenge, &inverses[..given.step]);
        first = stepped(arithmetic, &sums, first, j + 1);
    }
}

/// The inverses of at most three elements, inverted at once, and zeros.
pub fn inverses_of(arithmetic: impl Arithmetic, elements: &[u64]) -> [u64; 3] {
    let mut inverses = [0; 3];
    let list = &mut inverses[..elements.len()];
    list.copy_from_slice(elements);
    arithmetic.invert(list);
    inverses
}

/// The span of at most three elements in point order, and zeros.
pub fn span_of(arithmetic: impl Arithmetic, basis: &[u64]) -> [u64; 8] {
    let mut span = [0; 8];
    for (i, sum) in span.iter_mut().enumerate().take(1 << basis.len()) {
        *sum = point(arithmetic, 0, basis, i);
    }
    span
}

/// Two, four or eight points with the word's entries there; behind the count are zeros.
#[derive(Clone, Copy)]
pub struct Coset {
    points: [u64; 8],
    entries: [u64; 8],
    count: usize,
}

impl Coset {
    #[inline(always)]
    pub fn read(arithmetic: impl Arithmetic, span: &[u64], first: u64, part: &[u64]) -> Coset {
        let mut points = [0; 8];
        let mut entries = [0; 8];
        for i in 0..span.len() {
            points[i] = arithmetic.sum(first, span[i]);
            entries[i] = part[i];
        }
        Coset { points, entries, count: span.len() }
    }

    /// The value at the challenge of the polynomial with these entries at these points. The
    /// points are moved by the challenge first: moved points halve to moved points, so that no
    /// halving needs it.
    #[inline(always)]
    pub fn value_at(self, arithmetic: impl Arithmetic, challenge: u64, inverses: &[u64]) -> u64 {
        let (last, others) = inverses.split_last().expect("a step is at least 1");
        let mut coset = self.moved(arithmetic, challenge);
        for inverse in others {
            coset = coset.halved(arithmetic, *inverse);
        }
        coset.line(arithmetic, 0, *last)
    }

    #[inline(always)]
    fn moved(mut self, arithmetic: impl Arithmetic, challenge: u64) -> Coset {
        for point in &mut self.points[..self.count] {
            *point = arithmetic.sum(challenge, *point);
        }
        self
    }

    /// One entry for each two neighbours, at the product of the two.
    #[inline(always)]
    fn halved(self, arithmetic: impl Arithmetic, inverse: u64) -> Coset {
        let half = self.count / 2;
        let mut points = [0; 8];
        let mut entries = [0; 8];
        for i in 0..half {
            points[i] = arithmetic.product(self.points[i * 2], self.points[i * 2 + 1]);
            entries[i] = self.line(arithmetic, i, inverse);
        }
        Coset { points, entries, count: half }
    }

    /// The value at the challenge, or its image, of the line through points 2 i and 2 i + 1.
    #[inline(always)]
    fn line(&self, arithmetic: impl Arithmetic, i: usize, inverse: u64) -> u64 {
        let (u, v) = (self.entries[i * 2], self.entries[i * 2 + 1]);
        let slope = arithmetic.product(arithmetic.sum(u, v), inverse);
        arithmetic.sum(u, arithmetic.product(self.points[i * 2], slope))
    }
}
