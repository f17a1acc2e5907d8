//! Runs that are judged with queries.

use super::runs::{bad_parameters, bound, changed, drawn, record_of, with_sum, wrong_lengths};
use super::table::{list, number, position, Value};
use crate::cases::{of_case_f, of_case_h, of_case_j};
use crate::parameters::Parameters;
use crate::protocol::{judge, Run};
use crate::random::Random;
use crate::transcript::Judging;

pub(super) fn row(Judging { run, queries }: &Judging) -> Value {
    let answer = judge(run, queries);
    Value::Record(vec![
        ("run", record_of(run)),
        ("queries", list(queries)),
        ("number", number(answer.number)),
        ("place", position(answer.place)),
        ("round", position(answer.round)),
        ("reads", number(answer.reads)),
    ])
}

fn judged(run: &Run, queries: &[u64]) -> Judging {
    Judging { run: run.clone(), queries: queries.to_vec() }
}

/// A run of rate 1 that is accepted.
fn right(random: &mut Random, k: u64, step: u64) -> Run {
    let parameters = Parameters { k, rate: 1, step };
    honest(random, parameters, bound(parameters))
}

/// One whose folds are honest, with so many coefficients.
fn honest(random: &mut Random, parameters: Parameters, coefficients: u64) -> Run {
    // All rounds fold by these. A judge divides by no other ones.
    let folded_by = parameters.rounds() * parameters.step;
    drawn(random, parameters, folded_by, coefficients)
}

/// Cases G, H and I, and case J at its exceptional challenge.
pub(super) fn cases_of_table_a() -> Vec<Judging> {
    vec![
        judged(&of_case_f(), &[0, 3]),
        judged(&of_case_h(), &[0, 3]),
        judged(&of_case_h(), &[0]),
        judged(&of_case_j(2), &[0, 3]),
    ]
}

/// Honest runs of two and three rounds.
pub(super) fn accepted() -> Vec<Judging> {
    let random = &mut Random::named("judged, accepted");
    vec![judged(&right(random, 3, 1), &[5, 2]), judged(&right(random, 4, 1), &[13])]
}

/// Those of two rounds, those of three, and one whose word has too high a degree.
pub(super) fn failing() -> [Vec<Judging>; 3] {
    let random = &mut Random::named("judged, failing");
    // The store is layer 1, of four entries.
    let with_entry_1 = changed(&right(random, 3, 1), |run| run.store[1] ^= 1);
    // The store is layer 1, of eight entries, and layer 2, of four.
    let three_rounds = right(random, 4, 1);
    let with_word = changed(&three_rounds, |run| run.word[6] ^= 2);
    let with_layer_2 = changed(&three_rounds, |run| run.store[8 + 2] ^= 8);
    // With as many coefficients as points. All folds are honest, and only the last polynomial
    // shows the degree.
    let of_high_degree = honest(random, Parameters { k: 3, rate: 1, step: 1 }, 8);
    [
        // In the second the lowest query decides, although the other fails in a lower round.
        vec![judged(&with_entry_1, &[6, 3]), judged(&with_entry_1, &[1, 3])],
        // In the first the last coset is not read.
        vec![judged(&with_word, &[7]), judged(&with_layer_2, &[12])],
        vec![judged(&of_high_degree, &[7])],
    ]
}

pub(super) fn refused() -> Vec<Judging> {
    [
        with_bad_parameters(),
        with_wrong_lengths(),
        with_dependent_bases(),
        with_wrong_queries(),
        with_shared_cosets(),
    ]
    .concat()
}

/// There is no query either.
fn with_bad_parameters() -> Vec<Judging> {
    let bad = bad_parameters(&of_case_f());
    bad.iter().map(|run| judged(run, &[])).collect()
}

/// Lists 1 to 5, each alone, and then several causes at once.
fn with_wrong_lengths() -> Vec<Judging> {
    let random = &mut Random::named("judged, wrong lengths");
    let wrong = wrong_lengths(&right(random, 3, 1));
    let with_several = changed(&right(random, 4, 2), |run| {
        run.basis.fill(0);
        run.store.push(0);
        run.last.pop();
    });
    let alone = wrong.iter().map(|run| judged(run, &[0]));
    alone.chain([judged(&with_several, &[16])]).collect()
}

fn with_dependent_bases() -> Vec<Judging> {
    let random = &mut Random::named("judged, dependent bases");
    vec![
        judged(&with_sum(&right(random, 3, 1), 2), &[]),
        judged(&with_sum(&right(random, 4, 3), 1), &[16]),
    ]
}

fn with_wrong_queries() -> Vec<Judging> {
    let random = &mut Random::named("judged, wrong queries");
    let right = right(random, 2, 1);
    let failing = changed(&right, |run| run.last[0] ^= 1);
    vec![
        judged(&failing, &[]),
        judged(&right, &[4; 257]),
        judged(&failing, &[0, 3, 4, 5]),
        // Two share a coset as well, before the one out of range and behind it.
        judged(&right, &[0, 1, 4]),
        judged(&right, &[u64::MAX, 1, 0]),
    ]
}

/// Equal queries, two in one coset with each of the steps, and two pairs, of which the one that is
/// whole first counts. Of each step there are two cosets.
fn with_shared_cosets() -> Vec<Judging> {
    let random = &mut Random::named("judged, shared cosets");
    let [step_1, step_2, step_3] = [(2, 1), (3, 2), (4, 3)].map(|(k, step)| right(random, k, step));
    let failing = changed(&step_1, |run| run.last[0] ^= 1);
    vec![
        judged(&step_1, &[3, 3]),
        judged(&failing, &[1, 2, 0]),
        judged(&failing, &[0, 3, 2, 1]),
        judged(&step_2, &[3, 4, 0]),
        judged(&step_3, &[8, 7, 15]),
    ]
}

#[cfg(test)]
mod tests {
    use super::*;
    use std::collections::BTreeSet;

    #[test]
    fn every_cause_of_a_judge_occurs() {
        let numbers = [accepted(), failing().concat(), refused()].concat().into_iter();
        let numbers = numbers.map(|Judging { run, queries }| judge(&run, &queries).number);
        let due = [0, 4, 5, 6, 7, 8, 9, 10, 11, 13, 17];
        assert!(numbers.collect::<BTreeSet<_>>().into_iter().eq(due));
    }
}
