//! Honest runs with entries, last coefficients or challenges made wrong.

use super::together::insert_beside;
use super::{all_queries, any_count, any_query, known, right, turns};
use crate::parameters::{all_up_to, Parameters};
use crate::protocol::{Run, QUERY_COUNTS};
use crate::queries::{apart, in_each_coset};
use crate::random::Random;
use crate::transcript::Judging;

// What is sent is the word, then the store, then the last coefficients. A place counts through all
// of them.

pub fn places(run: &Run) -> usize {
    run.word.len() + run.store.len() + run.last.len()
}

/// The run with the lowest bit, the highest bit or any bits at a place changed.
pub fn damaged_at(random: &mut Random, mut run: Run, place: usize) -> Run {
    let by = match random.below(3) {
        0 => 1,
        1 => 1 << 63,
        _ => random.number() | 1,
    };
    let mut sent = run.word.iter_mut().chain(&mut run.store).chain(&mut run.last);
    *sent.nth(place).expect("a place of what is sent") ^= by;
    run
}

// Each entry.

/// One run for each of the parameters up to a dimension, with each of its places damaged, one at a
/// time.
fn each(mut random: Random, largest_k: u64) -> impl Iterator<Item = Run> {
    let all = all_up_to(largest_k).into_iter().enumerate();
    all.flat_map(move |(turn, parameters)| {
        let honest = right::honest(&mut random, parameters, turn);
        let damaged = |place| damaged_at(&mut random, honest.clone(), place);
        (0..places(&honest)).map(damaged).collect::<Vec<Run>>()
    })
}

/// Each query alone.
pub fn with_each_query(random: Random, largest_k: u64) -> impl Iterator<Item = Judging> {
    each(random, largest_k).flat_map(|run| {
        let queries = all_queries(run.parameters).into_iter();
        queries.map(move |query| Judging { run: run.clone(), queries: vec![query] })
    })
}

/// A query in each first-layer coset, forwards and, with others, backwards.
pub fn with_all_cosets(mut random: Random, largest_k: u64) -> impl Iterator<Item = Judging> {
    let runs = each(Random::seeded(random.number()), largest_k);
    runs.flat_map(move |run| {
        let forwards = in_each_coset(&mut random, run.parameters);
        let mut backwards = in_each_coset(&mut random, run.parameters);
        backwards.reverse();
        [forwards, backwards].map(|queries| Judging { run: run.clone(), queries })
    })
}

// Some entries.

/// How often a run is damaged.
const TIMES: usize = 8;

/// Any runs with some entries damaged.
pub fn some(random: &mut Random, amounts: &[usize]) -> Vec<Judging> {
    let mut all = Vec::new();
    for (parameters, turn) in turns(amounts) {
        let honest = right::honest(random, parameters, turn);
        all.extend((0..TIMES).map(|_| with_some_damaged(random, honest.clone())));
    }
    all
}

/// The same with two more queries, each in the coset of an earlier one.
pub fn some_in_one_coset(random: &mut Random, amounts: &[usize]) -> Vec<Judging> {
    let mut all = some(random, amounts);
    for Judging { run, queries } in &mut all {
        queries.truncate(QUERY_COUNTS.end() - 2);
        insert_beside(random, run.parameters, queries);
        insert_beside(random, run.parameters, queries);
    }
    all
}

/// The same some times for each of large parameters.
pub fn some_of_large(
    mut random: Random,
    all: &[Parameters],
    times: usize,
) -> impl Iterator<Item = Judging> + '_ {
    all.iter().flat_map(move |&parameters| {
        let honest = known::honest(&mut random, parameters);
        let mut random = Random::seeded(random.number());
        (0..times).map(move |_| with_some_damaged(&mut random, honest.clone()))
    })
}

/// One to three places, some of them met by a query. There are a few queries, or as many as there
/// may be.
pub fn with_some_damaged(random: &mut Random, mut run: Run) -> Judging {
    let Run { parameters, .. } = run;
    let count = any_count(random);
    let mut queries = apart(random, parameters, count);
    for _ in 0..1 + random.below(3) {
        let (layer, index) = any_entry(random, &run);
        run = damaged_at(random, run, start(parameters, layer) + index);
        if random.below(2) == 0 {
            let query = query_that_meets(random, parameters, layer, index);
            put(random, parameters, &mut queries, query);
        }
    }
    Judging { run, queries }
}

/// Puts a query where one of its coset stands, or else at any place: so the others stay apart from
/// it.
fn put(random: &mut Random, parameters: Parameters, queries: &mut [u64], query: u64) {
    let coset = |query| parameters.coset_used(query, 0);
    let place = queries.iter().position(|&other| coset(other) == coset(query));
    queries[place.unwrap_or_else(|| random.below(queries.len()))] = query;
}

/// Any layer and any index of it. The last coefficients stand for layer r.
fn any_entry(random: &mut Random, run: &Run) -> (u64, usize) {
    let r = run.parameters.rounds();
    let layer = random.below(r as usize + 1) as u64;
    let length = if layer == r { run.last.len() } else { run.parameters.layer_length(layer) };
    (layer, random.below(length))
}

/// The place where a layer starts, or the last coefficients do.
pub fn start(parameters: Parameters, layer: u64) -> usize {
    (0..layer).map(|i| parameters.layer_length(i)).sum()
}

/// Any query that has this index in the layer. All queries meet the last coefficients.
fn query_that_meets(random: &mut Random, parameters: Parameters, layer: u64, index: usize) -> u64 {
    let any = any_query(random, parameters);
    if layer == parameters.rounds() {
        return any;
    }
    let bits = parameters.step * layer;
    ((index as u64) << bits) | (any % (1 << bits))
}

// Challenges.

/// Honest runs with one challenge made another one.
pub fn other_challenges(random: &mut Random, amounts: &[usize]) -> Vec<Judging> {
    let mut all = Vec::new();
    for (parameters, turn) in turns(amounts) {
        let honest = right::honest(random, parameters, turn);
        for round in 0..honest.challenges.len() {
            let mut run = honest.clone();
            run.challenges[round] ^= 1 << random.below(64);
            all.push(Judging { run, queries: apart(random, parameters, 3) });
        }
    }
    all
}

#[cfg(test)]
mod tests {
    use super::*;

    #[test]
    fn a_query_meets_its_entry() {
        let random = &mut Random::named("queries that meet");
        for parameters in all_up_to(6) {
            for layer in 0..parameters.rounds() {
                let index = random.below(parameters.layer_length(layer));
                let query = query_that_meets(random, parameters, layer, index);
                assert_eq!(parameters.index(query, layer), index as u64);
            }
        }
    }
}
