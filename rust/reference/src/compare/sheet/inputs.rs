//! The byte strings whose sheets are compared: some of all that are judged, and runs that fail in
//! many checks, with many rounds, and with many queries.

use super::{Amounts, Bytes};
use crate::compare::protocol::inputs::queries::honest_and_failing;
use crate::compare::protocol::inputs::{any_count, any_query, damaged, known, right};
use crate::compare::protocol::with;
use crate::compare::transcript::inputs::{of, SORTS};
use crate::parameters::{all_up_to, Parameters};
use crate::protocol::{Run, QUERY_COUNTS};
use crate::queries::apart;
use crate::random::Random;
use crate::transcript::Judging;
use std::collections::BTreeSet;
use std::iter;

/// The name of a sort, and its byte strings.
pub type Sort = (&'static str, Vec<Bytes>);

pub fn sorts(amounts: &Amounts) -> impl Iterator<Item = Sort> + '_ {
    let judged = SORTS.iter().map(|sort| {
        let inputs = sort.byte_strings(&amounts.judged);
        let every = inputs.len().div_ceil(amounts.most).max(1);
        (sort.0, inputs.into_iter().step_by(every).collect())
    });
    let own = OWN.iter().map(|(name, judgings)| {
        let judgings = judgings(&mut Random::named(name), amounts);
        (*name, of(judgings))
    });
    judged.chain(own)
}

/// The name of a sort that only sheets have, and where its judgings come from.
type Own = (&'static str, fn(&mut Random, &Amounts) -> Vec<Judging>);

const OWN: [Own; 7] = [
    ("one layer or challenge damaged", one_layer_damaged),
    ("many entries damaged", many_damaged),
    ("damage that the last query alone meets", met_by_the_last_alone),
    ("values of every width", |random, _| values_of_every_width(random)),
    ("every number of rounds", every_number_of_rounds),
    ("as many queries as there may be", as_many_queries),
    ("nearly too long for the program", |random, _| near_the_limit(random)),
];

/// The most queries that there may be.
const MOST: usize = *QUERY_COUNTS.end();

// Damaged runs.

/// An honest run for each of the parameters.
fn honest_runs(random: &mut Random, amounts: &Amounts) -> Vec<Run> {
    let all = all_up_to(amounts.damaged).into_iter().enumerate();
    all.map(|(turn, parameters)| right::honest(random, parameters, turn)).collect()
}

fn damaged_at_all(random: &mut Random, run: Run, places: impl IntoIterator<Item = usize>) -> Run {
    places.into_iter().fold(run, |run, place| damaged::damaged_at(random, run, place))
}

fn with_challenge_damaged(random: &mut Random, mut run: Run, round: usize) -> Run {
    run.challenges[round] ^= 1 << random.below(64);
    run
}

/// All entries of a layer, all last coefficients, or one challenge. Only the rounds beside it
/// fail, with all queries.
fn one_layer_damaged(random: &mut Random, amounts: &Amounts) -> Vec<Judging> {
    let mut all = Vec::new();
    for honest in honest_runs(random, amounts) {
        let queries = apart(random, honest.parameters, 4);
        let mut runs = with_each_layer_damaged(random, &honest);
        let rounds = 0..honest.challenges.len();
        runs.extend(rounds.map(|round| with_challenge_damaged(random, honest.clone(), round)));
        all.extend(runs.into_iter().map(|run| Judging { run, queries: queries.clone() }));
    }
    all
}

/// The last coefficients stand for layer r.
fn with_each_layer_damaged(random: &mut Random, honest: &Run) -> Vec<Run> {
    let start = |layer| damaged::start(honest.parameters, layer);
    let r = honest.parameters.rounds();
    let below_r = (0..r).map(|layer| start(layer)..start(layer + 1));
    let all = below_r.chain(iter::once(start(r)..damaged::places(honest)));
    all.map(|places| damaged_at_all(random, honest.clone(), places)).collect()
}

/// One place in four, and one challenge in four, with as many queries as there may be.
fn many_damaged(random: &mut Random, amounts: &Amounts) -> Vec<Judging> {
    let mut all = Vec::new();
    for honest in honest_runs(random, amounts) {
        let queries = apart(random, honest.parameters, MOST);
        let places = one_in_four(random, damaged::places(&honest));
        let rounds = one_in_four(random, honest.challenges.len());
        let run = damaged_at_all(random, honest, places);
        let run =
            rounds.into_iter().fold(run, |run, round| with_challenge_damaged(random, run, round));
        all.push(Judging { run, queries });
    }
    all
}

fn one_in_four(random: &mut Random, count: usize) -> Vec<usize> {
    (0..count).filter(|_| random.below(4) == 0).collect()
}

/// An entry of each layer in turn. All queries before pass in all rounds.
fn met_by_the_last_alone(random: &mut Random, amounts: &Amounts) -> Vec<Judging> {
    let mut all = Vec::new();
    for honest in honest_runs(random, amounts) {
        let parameters = honest.parameters;
        let queries = with_the_last_away(random, parameters);
        let last = queries[queries.len() - 1];
        all.extend((0..parameters.rounds()).map(|layer| {
            let place = place_met(parameters, layer, last);
            let run = damaged::damaged_at(random, honest.clone(), place);
            Judging { run, queries: queries.clone() }
        }));
    }
    all
}

/// The place of the entry at the index that a query has in a layer.
fn place_met(parameters: Parameters, layer: u64, query: u64) -> usize {
    damaged::start(parameters, layer) + parameters.index(query, layer) as usize
}

/// Up to four queries, of which the last shares a coset with no other one, in no layer below r.
fn with_the_last_away(random: &mut Random, parameters: Parameters) -> Vec<u64> {
    let coset = |query| parameters.coset_used(query, parameters.rounds() - 1);
    let last = any_query(random, parameters);
    let mut others = apart(random, parameters, MOST);
    others.retain(|&query| coset(query) != coset(last));
    others.truncate(3);
    others.push(last);
    others
}

// Values.

/// Runs of one value, which every fold gives again, and the same with another value for the last
/// polynomial. The values have each number of digits, and each digit.
fn values_of_every_width(random: &mut Random) -> Vec<Judging> {
    let of_width = |digits: u32| {
        let cut = |value: u64| value >> (64 - 4 * digits);
        [1 << 63, u64::MAX, 0x0123_4567_89ab_cdef, 0xfedc_ba98_7654_3210].map(cut)
    };
    let values: Vec<u64> = [0].into_iter().chain((1..=16).flat_map(of_width)).collect();
    let settings = [[2, 1, 1], [3, 1, 2], [4, 1, 1]].into_iter().cycle();
    let pairs = values.iter().zip(values.iter().rev());
    let one = |((&value, &other), (turn, setting))| {
        let parameters = with(setting);
        let mut run = right::coset_and_challenges(random, parameters, turn);
        run.word.fill(value);
        run.store.fill(value);
        let queries = apart(random, parameters, 2);
        [value, other].map(|last| {
            run.last[0] = last;
            Judging { run: run.clone(), queries: queries.clone() }
        })
    };
    pairs.zip((0..).zip(settings)).flat_map(one).collect()
}

// Many rounds and many queries.

/// Honest runs with each number of rounds for each step, and some entries damaged.
fn every_number_of_rounds(random: &mut Random, amounts: &Amounts) -> Vec<Judging> {
    let both = |parameters: Parameters| {
        let honest = known::honest(random, parameters);
        let count = any_count(random);
        let queries = apart(random, parameters, count);
        let damaged = damaged::with_some_damaged(random, honest.clone());
        [Judging { run: honest, queries }, damaged]
    };
    with_all_rounds(amounts.rounds).into_iter().flat_map(both).collect()
}

/// Those of each step up to its largest dimension.
fn with_all_rounds(largest: [u64; 3]) -> Vec<Parameters> {
    let of_step = |(step, largest): (u64, u64)| {
        let dimensions = (1..).map(move |rounds| 1 + rounds * step);
        let up_to = dimensions.take_while(move |&k| k <= largest);
        up_to.map(move |k| Parameters { k, rate: 1, step })
    };
    (1..).zip(largest).flat_map(of_step).collect()
}

/// Honest, and with an entry of each layer damaged that another query meets.
fn as_many_queries(random: &mut Random, amounts: &Amounts) -> Vec<Judging> {
    let both = |&setting| {
        let honest = known::honest(random, with(setting));
        let parameters = honest.parameters;
        let queries = with_indices_of_every_width(random, parameters);
        let met = (0..parameters.rounds()).zip(queries.iter().rev().step_by(7));
        let places = met.map(|(layer, &query)| place_met(parameters, layer, query));
        let damaged = damaged_at_all(random, honest.clone(), places);
        [honest, damaged].map(|run| Judging { run, queries: queries.clone() })
    };
    amounts.longest.iter().flat_map(both).collect()
}

/// The least and the most with each number of digits, and any others.
fn with_indices_of_every_width(random: &mut Random, parameters: Parameters) -> Vec<u64> {
    let most = parameters.layer_length(0) as u64 - 1;
    let powers = (0..7).map(|digits| 10u64.pow(digits));
    let near_powers = powers.flat_map(|power| [power - 1, power]).chain([most]);
    let mut used = BTreeSet::new();
    let others = apart(random, parameters, MOST);
    let all = near_powers.filter(|&index| index <= most).chain(others);
    all.filter(|&index| used.insert(parameters.coset_used(index, 0))).take(MOST).collect()
}

/// Settings and counts of queries whose transcripts are nearly, exactly, and just not short enough
/// for the program: 65,532 bytes, 65,536 and 65,540. No transcript has 65,537.
const NEAR_THE_LIMIT: [([u64; 3], usize); 3] =
    [([12, 6, 1], 99), ([12, 5, 1], 34), ([12, 6, 1], 100)];

fn near_the_limit(random: &mut Random) -> Vec<Judging> {
    let one = |(setting, count)| {
        let honest = known::honest(random, with(setting));
        let queries = apart(random, honest.parameters, count);
        honest_and_failing(&honest, vec![queries])
    };
    NEAR_THE_LIMIT.into_iter().flat_map(one).collect()
}

#[cfg(test)]
mod tests;
