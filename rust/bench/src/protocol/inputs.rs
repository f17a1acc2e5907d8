//! Runs to measure with.

use crate::arithmetic::{Arithmetic, Windowed};
use crate::coset::{independent, numbers, prefix_sums, stepped, LayerCoset};
use razgwilh::Run;

pub const RATE: usize = 1;
const QUERIES: usize = 256;

/// A word of low degree, so that a judge accepts it and makes every check, and what is given
/// with it.
pub struct Inputs {
    pub queries: Vec<u64>,
    pub word: Vec<u64>,
    k: usize,
    offset: u64,
    basis: Vec<u64>,
    challenges: Vec<u64>,
}

impl Inputs {
    pub fn new(k: usize) -> Inputs {
        let mut next = numbers();
        let (offset, basis) = (next(), independent(k, &mut next));
        Inputs {
            queries: queries_apart(k, &mut next),
            word: low_degree_word(&LayerCoset::first(offset, &basis), &mut next),
            k,
            offset,
            basis,
            challenges: (0..k).map(|_| next()).collect(),
        }
    }

    pub fn run(&self, step: usize) -> Run<'_> {
        Run {
            k: self.k,
            rate: RATE,
            step,
            offset: self.offset,
            basis: &self.basis,
            challenges: &self.challenges[..(self.k - RATE) / step],
            word: &self.word,
        }
    }
}

/// Indices of which no two share a first-layer coset, with any step that leaves a coset for each.
fn queries_apart(k: usize, next: &mut impl FnMut() -> u64) -> Vec<u64> {
    let step = (k - QUERIES.ilog2() as usize).min(3);
    let mut queries = Vec::with_capacity(QUERIES);
    while queries.len() < QUERIES {
        let query = next() >> (64 - k);
        if queries.iter().all(|earlier| earlier >> step != query >> step) {
            queries.push(query);
        }
    }
    queries
}

/// The values of g(q) + X · h(q) over the coset, where q = X · (X - e), e is the first element
/// of the basis, and g and h have low degree over the next coset.
fn low_degree_word(coset: &LayerCoset, next: &mut impl FnMut() -> u64) -> Vec<u64> {
    let basis = coset.basis();
    if basis.len() == RATE {
        return vec![next(); 1 << RATE];
    }
    let below = coset.next(Windowed, 1);
    let g = low_degree_word(&below, next);
    let h = low_degree_word(&below, next);
    let sums = prefix_sums(Windowed, basis);
    let mut x = coset.offset;
    let mut value = |j: usize| {
        let value = Windowed.sum(g[j / 2], Windowed.product(x, h[j / 2]));
        x = stepped(Windowed, &sums, x, j + 1);
        value
    };
    (0..1 << basis.len()).map(&mut value).collect()
}
