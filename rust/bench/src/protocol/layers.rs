//! Where the layers of a run lie, and the checks that prover and judge in Rust have in common.

use crate::arithmetic::Arithmetic;
use crate::coset::is_independent;
use razgwilh::Run;

/// The dimension of layer i.
pub fn dimension(run: &Run, i: usize) -> usize {
    run.k - i * run.step
}

/// Where layer i, from 1 on, begins in the store.
pub fn layer_start(run: &Run, i: usize) -> usize {
    (1..i).map(|before| 1 << dimension(run, before)).sum()
}

/// The library's check that makes operations of the field; its others compare a few numbers, but
/// for that of the queries' cosets.
pub fn check_basis(arithmetic: impl Arithmetic, run: &Run) {
    assert!(is_independent(arithmetic, run.basis));
}
