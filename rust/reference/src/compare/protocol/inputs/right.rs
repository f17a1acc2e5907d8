//! Runs whose word may be of any degree, and runs that are honest.

use super::{known, turns};
use crate::compare::cosets;
use crate::coset::points;
use crate::fold::Coset;
use crate::parameters::{all_up_to, Parameters};
use crate::polynomial::value;
use crate::protocol::{self, Run, QUERY_COUNTS};
use crate::queries::apart;
use crate::random::Random;
use crate::transcript::Judging;

// The basis, the offset, the word and the challenges are each of one of a few sorts, in turn. There
// are 3, 4, 5 and 7 sorts, and as these numbers have no common divisor all combinations come up
// within 420 turns.

/// A run of zeros over any coset and with any challenges.
pub fn coset_and_challenges(random: &mut Random, parameters: Parameters, turn: usize) -> Run {
    let basis = cosets::basis(random, parameters.k as usize, turn);
    let mut run = Run {
        parameters,
        offset: cosets::offset(random, &basis, turn),
        basis,
        challenges: Vec::new(),
        word: vec![0; parameters.layer_length(0)],
        store: vec![0; parameters.store_length()],
        last: vec![0; parameters.last_count()],
    };
    run.challenges = challenges(random, &run, turn);
    run
}

/// One for each round, of another sort than the one before it. What is special about some of them
/// is so in the coset of their layer.
fn challenges(random: &mut Random, run: &Run, turn: usize) -> Vec<u64> {
    let Parameters { step, .. } = run.parameters;
    let folded = protocol::cosets(run).into_iter().take(run.parameters.rounds() as usize);
    let one = |(turn, Coset { offset, basis }): (usize, Coset)| {
        cosets::challenge(random, step as usize, offset, &basis, turn)
    };
    (turn..).zip(folded).map(one).collect()
}

/// A run whose word is a polynomial with any coefficients, so many, the highest of them not zero.
fn of_coefficients(random: &mut Random, parameters: Parameters, count: usize, turn: usize) -> Run {
    let mut run = coset_and_challenges(random, parameters, turn);
    let mut polynomial = random.list(count);
    if let Some(highest) = polynomial.last_mut() {
        *highest |= 1;
    }
    let points = points(run.offset, &run.basis);
    run.word = points.iter().map(|&x| value(&polynomial, x)).collect();
    run
}

/// The most coefficients that a word of a low degree has, or one or two less.
fn low_count(random: &mut Random, parameters: Parameters) -> usize {
    let bound = parameters.layer_length(0) >> parameters.rate;
    bound - random.below(bound.min(3))
}

/// A run whose word has any degree below the bound.
fn of_low_degree(random: &mut Random, parameters: Parameters, turn: usize) -> Run {
    let count = low_count(random, parameters);
    of_coefficients(random, parameters, count, turn)
}

// Runs to prove.

/// Words of one of the common sorts, or of a low degree.
pub fn any_words(random: &mut Random, amounts: &[usize]) -> Vec<Run> {
    let one = |(parameters, turn)| match turn % 5 {
        4 => of_low_degree(random, parameters, turn),
        sort => {
            let run = coset_and_challenges(random, parameters, turn);
            Run { word: cosets::word(random, run.word.len(), sort), ..run }
        }
    };
    turns(amounts).map(one).collect()
}

/// Words of every number of coefficients.
pub fn all_degrees(random: &mut Random, largest_k: u64) -> Vec<Run> {
    let counts = |parameters: Parameters| {
        (0..=parameters.layer_length(0)).map(move |count| (parameters, count))
    };
    let all = all_up_to(largest_k).into_iter().flat_map(counts);
    all.map(|(parameters, count)| of_coefficients(random, parameters, count, count)).collect()
}

/// Words whose number of coefficients is near that of a word whose last layer has one more, and
/// near the least and the most.
pub fn near_bounds(random: &mut Random, amounts: &[usize]) -> Vec<Run> {
    let mut runs = Vec::new();
    for (parameters, turn) in turns(amounts) {
        for count in near_bounds_of(parameters) {
            runs.push(of_coefficients(random, parameters, count, turn));
        }
    }
    runs
}

/// Of the numbers of coefficients that layer r may have, those next to d, the least ones and the
/// most.
fn near_bounds_of(parameters: Parameters) -> Vec<usize> {
    let all = parameters.layer_length(0);
    let (d, points) = (parameters.last_count(), parameters.layer_length(parameters.rounds()));
    let near = |count: usize| {
        let count = count * (all / points);
        [count.saturating_sub(1), count, count + 1, count + 2]
    };
    let of_last_layer = [0, d - 1, d, d + 1, points / 2, points];
    let mut counts: Vec<usize> = of_last_layer.into_iter().flat_map(near).collect();
    counts.retain(|&count| count <= all);
    counts.sort_unstable();
    counts.dedup();
    counts
}

/// One run of each dimension with each step, the rates in turn. The words are of any values.
pub fn large(random: &mut Random, dimensions: &[u64]) -> Vec<Run> {
    let with_steps = |&k: &u64| [1, 2, 3].map(|step| (k, (1 + (k + step) % 6).min(k - step), step));
    let one = |(k, rate, step)| of_any_values(random, Parameters { k, rate, step });
    dimensions.iter().flat_map(with_steps).map(one).collect()
}

fn of_any_values(random: &mut Random, parameters: Parameters) -> Run {
    let run = coset_and_challenges(random, parameters, 0);
    Run { word: random.list(run.word.len()), ..run }
}

/// A word of any values, one of the least degree that is too high, and one that is proved though its
/// degree is too high.
pub fn special(random: &mut Random, parameters: Parameters) -> [Run; 3] {
    let bound = parameters.layer_length(0) >> parameters.rate;
    let high = of_coefficients(random, parameters, bound + 1, 0);
    let exceptional = known::exceptional_of(random, parameters, 0);
    [of_any_values(random, parameters), high, exceptional]
}

/// Words of any degree below the bound.
pub fn to_be_proved(random: &mut Random, amounts: &[usize]) -> Vec<Run> {
    let one = |(parameters, turn)| of_low_degree(random, parameters, turn);
    turns(amounts).map(one).collect()
}

// Runs to judge.

/// A run whose word has any degree below the bound.
pub fn honest(random: &mut Random, parameters: Parameters, turn: usize) -> Run {
    of_low_degree(random, parameters, turn).made_honest()
}

/// With a few queries, and with as many as there may be: one in each first-layer coset of a small
/// run.
pub fn honest_with_queries(random: &mut Random, amounts: &[usize]) -> Vec<Judging> {
    let mut all = Vec::new();
    for (parameters, turn) in turns(amounts) {
        let run = honest(random, parameters, turn);
        let few = 1 + random.below(6);
        let queries = apart(random, parameters, few);
        if turn == 0 {
            let queries = apart(random, parameters, *QUERY_COUNTS.end());
            all.push(Judging { run: run.clone(), queries });
        }
        all.push(Judging { run, queries });
    }
    all
}

/// Runs with honest folds whose words have too high a degree. Only the last round shows it, and not
/// at all points.
pub fn of_high_degrees(random: &mut Random, amounts: &[usize]) -> Vec<Judging> {
    let one = |(parameters, turn): (Parameters, usize)| {
        let all = parameters.layer_length(0);
        let bound = all >> parameters.rate;
        let count = bound + 1 + random.below(all - bound);
        let run = of_coefficients(random, parameters, count, turn).made_honest();
        Judging { run, queries: apart(random, parameters, 4) }
    };
    turns(amounts).map(one).collect()
}

#[cfg(test)]
mod tests {
    use super::*;
    use std::collections::HashSet;

    #[test]
    fn all_turns_hold_all_sorts() {
        let runs = any_words(&mut Random::named("sorts"), &[0, 0, 0, 420]);
        let one_round = runs.iter().filter(|run| run.challenges.len() == 1);
        let sorts: HashSet<(bool, bool, u64)> = one_round
            .map(|run| (run.offset == 0, run.word == [0; 8], run.challenges[0]))
            .filter(|(_, _, challenge)| [0, 1, u64::MAX].contains(challenge))
            .collect();
        assert_eq!(sorts.len(), 2 * 2 * 3);
    }

    #[test]
    fn the_numbers_of_coefficients_are_near_the_bounds() {
        let six = Parameters { k: 6, rate: 2, step: 3 };
        let due = [0, 1, 2, 7, 8, 9, 10, 15, 16, 17, 18, 23, 24, 25, 26, 31, 32, 33, 34, 63, 64];
        assert_eq!(near_bounds_of(six), due);
    }
}
