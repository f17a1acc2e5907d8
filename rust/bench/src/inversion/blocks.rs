//! The library's method of inverting a list, in Rust.

use crate::arithmetic::Arithmetic;

/// How many elements share an inverse.
const BLOCK: usize = 64;

/// Each element in its place; zeros are passed over.
#[inline(always)]
pub fn invert(arithmetic: impl Arithmetic, list: &mut [u64]) {
    for block in list.chunks_mut(BLOCK) {
        invert_block(arithmetic, block);
    }
}

/// By the inverse of the product of all: from behind, each element is taken out of it. An element
/// by itself needs no products.
#[inline(always)]
fn invert_block(arithmetic: impl Arithmetic, block: &mut [u64]) {
    if let [x] = block {
        *x = arithmetic.inverse(*x);
        return;
    }
    // The product of those before each.
    let mut before = [0; BLOCK];
    let mut all = 1;
    for (i, x) in block.iter().enumerate().filter(|(_, x)| **x != 0) {
        before[i] = all;
        all = arithmetic.product(all, *x);
    }
    let mut rest = arithmetic.inverse(all);
    for (i, x) in block.iter_mut().enumerate().rev().filter(|(_, x)| **x != 0) {
        let inverse = arithmetic.product(rest, before[i]);
        rest = arithmetic.product(rest, *x);
        *x = inverse;
    }
}
