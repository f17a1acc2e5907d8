//! What encoding and interpolation are given, and both by the library and by its method in Rust.

use crate::arithmetic::Arithmetic;
use crate::beside::Operation;
use crate::coset::{inputs, numbers};
use crate::transform;

/// A coset and an entry for each of its points.
pub struct List {
    pub offset: u64,
    pub basis: Vec<u64>,
    pub entries: Vec<u64>,
}

impl List {
    pub fn new(dimension: usize) -> List {
        let (offset, basis, entries) = inputs(dimension, numbers());
        List { offset, basis, entries }
    }

    pub fn size(&self) -> f64 {
        self.entries.len() as f64
    }

    pub fn encoding(&self) -> Encoding<'_> {
        self.encoding_of(self.entries.len())
    }

    /// That of the first entries, so many.
    pub fn encoding_of(&self, count: usize) -> Encoding<'_> {
        Encoding { list: self, coefficients: &self.entries[..count] }
    }

    pub fn interpolation(&self) -> Interpolation<'_> {
        Interpolation { list: self }
    }
}

#[derive(Clone, Copy)]
pub struct Encoding<'a> {
    pub list: &'a List,
    pub coefficients: &'a [u64],
}

impl Operation for Encoding<'_> {
    /// The values.
    type Room = Vec<u64>;
    type Answer = ();

    fn room(self) -> Vec<u64> {
        vec![0; self.list.entries.len()]
    }

    fn by_library(self, values: &mut Vec<u64>) {
        let List { offset, basis, .. } = self.list;
        razgwilh::encode(*offset, basis, self.coefficients, values).expect("nothing to refuse");
    }

    #[inline(always)]
    fn by(self, arithmetic: impl Arithmetic, values: &mut Vec<u64>) {
        let List { offset, basis, .. } = self.list;
        transform::encode(arithmetic, *offset, basis, self.coefficients, values);
    }
}

#[derive(Clone, Copy)]
pub struct Interpolation<'a> {
    list: &'a List,
}

impl Operation for Interpolation<'_> {
    /// The coefficients.
    type Room = Vec<u64>;
    type Answer = ();

    fn room(self) -> Vec<u64> {
        vec![0; self.list.entries.len()]
    }

    fn by_library(self, coefficients: &mut Vec<u64>) {
        let List { offset, basis, entries } = self.list;
        razgwilh::interpolate(*offset, basis, entries, coefficients).expect("nothing to refuse");
    }

    #[inline(always)]
    fn by(self, arithmetic: impl Arithmetic, coefficients: &mut Vec<u64>) {
        let List { offset, basis, entries } = self.list;
        transform::interpolate(arithmetic, *offset, basis, entries, coefficients);
    }
}
