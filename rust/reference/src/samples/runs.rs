//! Runs that are judged and proved, and what is made wrong in them.

use super::bases::basis;
use super::table::{list, number, record_with, Value};
use crate::coset::point;
use crate::fold::Coset;
use crate::parameters::Parameters;
use crate::protocol::Run;
use crate::random::Random;

pub(super) fn record_of(run: &Run) -> Value {
    let members = [
        ("offset", number(run.offset)),
        ("basis", list(&run.basis)),
        ("challenges", list(&run.challenges)),
        ("word", list(&run.word)),
        ("store", list(&run.store)),
        ("last", list(&run.last)),
    ];
    record_with(&run.parameters, members)
}

/// An honest run: the basis begins with so many cheap elements, and the word is that of a
/// polynomial with so many coefficients. These, the offset and the challenges are small: a
/// product of large numbers takes ten times as long.
pub(super) fn drawn(
    random: &mut Random,
    parameters: Parameters,
    cheap: u64,
    coefficients: u64,
) -> Run {
    let first = Coset { offset: small(random), basis: basis(random, cheap, parameters.k) };
    let polynomial = small_list(random, coefficients);
    let challenges = small_list(random, parameters.rounds());
    Run::honest(parameters, first, &polynomial, challenges)
}

/// A number of one byte.
fn small(random: &mut Random) -> u64 {
    random.below(1 << 8) as u64
}

fn small_list(random: &mut Random, count: u64) -> Vec<u64> {
    (0..count).map(|_| small(random)).collect()
}

/// How many coefficients there are below the bound of the word's degree.
pub(super) fn bound(parameters: Parameters) -> u64 {
    1 << (parameters.k - parameters.rate)
}

// Changes.

/// The run after a change.
pub(super) fn changed(run: &Run, change: impl FnOnce(&mut Run)) -> Run {
    let mut changed = run.clone();
    change(&mut changed);
    changed
}

/// The run with parameters for each of the numbers 4 to 7, and two for 4. Some are also cause
/// for a higher number.
pub(super) fn bad_parameters(right: &Run) -> Vec<Run> {
    let bad = [(1, 7, 0), (21, 1, 1), (2, 0, 4), (2, 6, 4), (4, 2, 3)];
    let with = |(k, rate, step)| Run { parameters: Parameters { k, rate, step }, ..right.clone() };
    bad.map(with).to_vec()
}

/// The run with each of its lists in turn too short or too long.
pub(super) fn wrong_lengths(right: &Run) -> Vec<Run> {
    vec![
        changed(right, |run| run.basis.push(7)),
        changed(right, |run| run.challenges.push(7)),
        changed(right, |run| run.word.truncate(7)),
        changed(right, |run| run.store.truncate(3)),
        changed(right, |run| run.last.clear()),
    ]
}

/// The run whose basis has the sum of all earlier elements at a place, and zero at the last
/// place.
pub(super) fn with_sum(right: &Run, place: usize) -> Run {
    changed(right, |run| {
        *run.basis.last_mut().expect("a basis with elements") = 0;
        run.basis[place] = point(0, &run.basis[..place], u64::MAX);
    })
}
