//! Runs that are proved.

use super::runs::{bad_parameters, bound, changed, drawn, record_of, with_sum, wrong_lengths};
use super::table::{list, number, position, Value};
use crate::parameters::Parameters;
use crate::protocol::{prove, Proved, Run};
use crate::random::Random;

pub(super) fn row(run: &Run) -> Value {
    let Proved { answer, store, last } = prove(run);
    Value::Record(vec![
        ("run", record_of(run)),
        ("number", number(answer.number)),
        ("place", position(answer.place)),
        ("store", list(store)),
        ("last", list(last)),
    ])
}

/// A run for a prover, whose lent lists hold numbers in a row. A prover has layer r to
/// interpolate as well, so that all elements are cheap.
fn lent(random: &mut Random, parameters: Parameters, coefficients: u64) -> Run {
    let honest = drawn(random, parameters, parameters.k, coefficients);
    changed(&honest, |run| {
        run.store = (101..).take(run.store.len()).collect();
        run.last = (201..).take(run.last.len()).collect();
    })
}

/// One whose word has a degree below the bound.
fn right(random: &mut Random, k: u64) -> Run {
    let parameters = Parameters { k, rate: 1, step: 1 };
    lent(random, parameters, bound(parameters))
}

/// A word of a low degree. The store is layers 1 and 2.
pub(super) fn well() -> Vec<Run> {
    let random = &mut Random::named("proved, words of low degrees");
    vec![right(random, 4)]
}

/// Layer r has two points. Its degree is 1, and so too high.
pub(super) fn at_high_degree() -> Vec<Run> {
    let random = &mut Random::named("proved, words of high degrees");
    vec![lent(random, Parameters { k: 3, rate: 1, step: 1 }, 5)]
}

/// Bad parameters, wrong lengths and a dependent basis.
pub(super) fn refused() -> Vec<Run> {
    let right = |name| right(&mut Random::named(name), 3);
    [
        bad_parameters(&right("proved, bad parameters")),
        wrong_lengths(&right("proved, wrong lengths")),
        vec![with_sum(&right("proved, dependent bases"), 1)],
    ]
    .concat()
}

#[cfg(test)]
mod tests {
    use super::*;
    use std::collections::BTreeSet;

    #[test]
    fn every_cause_of_a_prover_occurs() {
        let runs = [well(), at_high_degree(), refused()].concat();
        let numbers: BTreeSet<u64> = runs.iter().map(|run| prove(run).answer.number).collect();
        assert!(numbers.into_iter().eq([0, 4, 5, 6, 7, 8, 12, 13]));
    }
}
