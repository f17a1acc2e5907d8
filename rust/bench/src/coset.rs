//! Cosets for the methods in Rust: their points in sequence, the coset of the next layer,
//! whether a basis is independent, and some cosets to measure with.

use crate::arithmetic::Arithmetic;

/// Pseudo-random numbers, the same in each run.
pub fn numbers() -> impl FnMut() -> u64 {
    let mut x: u64 = 0x9e37_79b9_7f4a_7c15;
    move || {
        x = x.wrapping_mul(0x5851_f42d_4c95_7f2d).wrapping_add(0x1405_7b7e_f767_814f);
        x ^ x >> 29
    }
}

/// The offset and the basis of a coset, and an entry for each of its points.
pub fn inputs(dimension: usize, mut next: impl FnMut() -> u64) -> (u64, Vec<u64>, Vec<u64>) {
    let basis = independent(dimension, &mut next);
    let list = (0..1 << dimension).map(|_| next()).collect();
    (next(), basis, list)
}

/// An independent basis: its lowest bits keep it so.
pub fn independent(dimension: usize, mut next: impl FnMut() -> u64) -> Vec<u64> {
    (0..dimension).map(|t| next() << dimension | 1 << t).collect()
}

pub fn point(arithmetic: impl Arithmetic, offset: u64, basis: &[u64], j: usize) -> u64 {
    let set = |t: &usize| j >> t & 1 == 1;
    (0..basis.len()).filter(set).fold(offset, |x, t| arithmetic.sum(x, basis[t]))
}

/// The sums of the first one, two, .. elements, and zeros: `stepped` goes from point to point
/// by them.
pub fn prefix_sums(arithmetic: impl Arithmetic, basis: &[u64]) -> [u64; 20] {
    let mut sums = [0; 20];
    let mut sum = 0;
    for (entry, b) in sums.iter_mut().zip(basis) {
        sum = arithmetic.sum(sum, *b);
        *entry = sum;
    }
    sums
}

#[inline(always)]
pub fn stepped(arithmetic: impl Arithmetic, sums: &[u64; 20], point: u64, next: usize) -> u64 {
    let step = sums.get(next.trailing_zeros() as usize).unwrap_or(&0);
    arithmetic.sum(point, *step)
}

/// X · (X - e) for each of the elements, one after the other.
#[inline(always)]
pub fn composed_maps(arithmetic: impl Arithmetic, elements: &[u64], x: u64) -> u64 {
    let mut y = x;
    for e in elements {
        y = arithmetic.product(y, arithmetic.sum(y, *e));
    }
    y
}

/// The elements e of the maps X · (X - e) whose composition is the subspace polynomial, and
/// zeros.
pub fn step_elements(arithmetic: impl Arithmetic, basis: &[u64], step: usize) -> [u64; 3] {
    let mut elements = [0; 3];
    for t in 0..step {
        elements[t] = composed_maps(arithmetic, &elements[..t], basis[t]);
    }
    elements
}

/// The basis of the next coset, and zeros.
pub fn next_basis(arithmetic: impl Arithmetic, basis: &[u64], step: usize) -> [u64; 20] {
    let elements = step_elements(arithmetic, basis, step);
    let mut next = [0; 20];
    for (image, b) in next.iter_mut().zip(&basis[step..]) {
        *image = composed_maps(arithmetic, &elements[..step], *b);
    }
    next
}

/// Whether no element lies in the span of the earlier ones: each row clears its highest bit
/// from the later ones.
pub fn is_independent(arithmetic: impl Arithmetic, basis: &[u64]) -> bool {
    let mut rows = [0; 20];
    let rows = &mut rows[..basis.len()];
    rows.copy_from_slice(basis);
    for place in 0..rows.len() {
        let row = rows[place];
        for later in &mut rows[place + 1..] {
            *later = arithmetic.sum(*later, row).min(*later);
        }
    }
    rows.iter().all(|row| *row != 0)
}

/// The coset of a layer; zeros follow its basis.
#[derive(Clone, Copy)]
pub struct LayerCoset {
    pub offset: u64,
    elements: [u64; 20],
    dimension: usize,
}

impl LayerCoset {
    /// That of layer 0.
    pub fn first(offset: u64, basis: &[u64]) -> LayerCoset {
        let mut elements = [0; 20];
        elements[..basis.len()].copy_from_slice(basis);
        LayerCoset { offset, elements, dimension: basis.len() }
    }

    pub fn basis(&self) -> &[u64] {
        &self.elements[..self.dimension]
    }

    /// That of the next layer. As in the library, the next basis finds the step's elements once
    /// more.
    pub fn next(&self, arithmetic: impl Arithmetic, step: usize) -> LayerCoset {
        let elements = step_elements(arithmetic, self.basis(), step);
        LayerCoset {
            offset: composed_maps(arithmetic, &elements[..step], self.offset),
            elements: next_basis(arithmetic, self.basis(), step),
            dimension: self.dimension - step,
        }
    }
}
