//! The parameters of the protocol, and where the layers of a store lie.
//!
//! All but `may_use` and `layer_of_store` stands for parameters that may be used.

use crate::answer::{
    refused, Answer, K_OUT_OF_RANGE, K_TOO_SMALL, RATE_OUT_OF_RANGE, STEP_OUT_OF_RANGE,
};
use crate::refusal::required;
use std::ops::{Range, RangeInclusive};

const DIMENSIONS: RangeInclusive<u64> = 2..=20;
const RATES: RangeInclusive<u64> = 1..=6;
const STEPS: RangeInclusive<u64> = 1..=3;

#[derive(Clone, Copy, Debug, PartialEq)]
pub struct Parameters {
    pub k: u64,
    pub rate: u64,
    pub step: u64,
}

/// All parameters that may be used, up to a dimension.
pub fn all_up_to(largest_k: u64) -> Vec<Parameters> {
    let mut all = Vec::new();
    for k in *DIMENSIONS.start()..=largest_k {
        for rate in RATES {
            let with_step = |step| Parameters { k, rate, step };
            all.extend(STEPS.map(with_step));
        }
    }
    all.retain(|parameters| parameters.may_use().is_ok());
    all
}

impl Parameters {
    /// The first cause against these parameters, in the paper's order.
    pub fn may_use(&self) -> Result<(), Answer> {
        required(DIMENSIONS.contains(&self.k), refused(K_OUT_OF_RANGE))?;
        required(RATES.contains(&self.rate), refused(RATE_OUT_OF_RANGE))?;
        required(STEPS.contains(&self.step), refused(STEP_OUT_OF_RANGE))?;
        required(self.k >= self.rate + self.step, refused(K_TOO_SMALL))
    }

    /// How many rounds there are: r.
    pub fn rounds(&self) -> u64 {
        (self.k - self.rate) / self.step
    }

    /// How many last coefficients there are: d.
    pub fn last_count(&self) -> usize {
        1 << (self.k - self.rate - self.rounds() * self.step)
    }

    /// The dimension of layer i, up to layer r.
    pub fn dimension(&self, i: u64) -> u64 {
        self.k - i * self.step
    }

    /// How many entries layer i has.
    pub fn layer_length(&self, i: u64) -> usize {
        1 << self.dimension(i)
    }

    // The store.

    /// Where layer i begins in the store: behind layers 1 to i - 1.
    pub fn layer_start(&self, i: u64) -> usize {
        (1..i).map(|earlier| self.layer_length(earlier)).sum()
    }

    /// The length of layers 1 to r - 1 joined.
    pub fn store_length(&self) -> usize {
        self.layer_start(self.rounds())
    }

    /// The part of a store that is layer i. Nothing stands for the empty part, which is given
    /// for bad parameters, another i or a store of another length.
    pub fn layer_of_store(&self, store_length: usize, i: u64) -> Option<Range<usize>> {
        self.may_use().ok()?;
        let layers = 1..self.rounds();
        if !layers.contains(&i) || store_length != self.store_length() {
            return None;
        }
        let start = self.layer_start(i);
        Some(start..start + self.layer_length(i))
    }

    // Queries.

    /// The index of a query in layer i.
    pub fn index(&self, query: u64, i: u64) -> u64 {
        query / (1 << (self.step * i))
    }

    /// Which coset of layer i holds that index, the cosets counted from 0.
    pub fn coset_used(&self, query: u64, i: u64) -> u64 {
        self.index(query, i) / (1 << self.step)
    }
}

#[cfg(test)]
mod tests {
    use super::*;

    /// The paper has at most 256 points and 1, 2 or 4 coefficients, and so that the last layer
    /// has its rate: 2^R points for a coefficient.
    #[test]
    fn the_last_layer_is_small() {
        for parameters in all_up_to(20) {
            let r = parameters.rounds();
            let points = parameters.layer_length(r);
            let d = parameters.last_count();
            assert!(r >= 1 && points <= 256 && [1, 2, 4].contains(&d));
            assert_eq!(points, d << parameters.rate);
            // Another round would not fit.
            assert!(parameters.dimension(r) < parameters.rate + parameters.step);
        }
    }
}
