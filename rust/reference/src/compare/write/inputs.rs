//! The lists that are written, and lists for the bytes that are too short or too long.

use super::{write_call, WRITE};
use crate::compare::call::*;
use crate::compare::cosets;
use crate::compare::lent::FILLS;
use crate::compare::operation::Setting;
use crate::compare::protocol::inputs::right::coset_and_challenges;
use crate::compare::protocol::inputs::{mostly_apart, turns};
use crate::compare::protocol::with;
use crate::parameters::{all_up_to, Parameters};
use crate::protocol::{Run, QUERY_COUNTS};
use crate::queries::apart;
use crate::random::Random;
use crate::transcript::Judging;

// Any lists. The word, the store and the last coefficients are each of one of four sorts, in turn,
// and so is the count of the queries, for as far as so many are apart.

const COUNTS: [usize; 5] = [3, 1, 256, 2, 255];

pub fn any(random: &mut Random, parameters: Parameters, turn: usize) -> Judging {
    let run = coset_and_challenges(random, parameters, turn);
    let mut list = |length, turn| match length {
        0 => Vec::new(),
        _ => cosets::word(random, length, turn % 4),
    };
    let word = list(run.word.len(), turn);
    let store = list(run.store.len(), turn / 2);
    let last = list(run.last.len(), turn / 4);
    let queries = apart(random, parameters, COUNTS[turn % COUNTS.len()]);
    Judging { run: Run { word, store, last, ..run }, queries }
}

pub fn any_lists(random: &mut Random, amounts: &[usize]) -> Vec<Judging> {
    turns(amounts).map(|(parameters, turn)| any(random, parameters, turn)).collect()
}

/// Lists of any numbers, as many queries as there may be, and as many bytes as are due, filled in one
/// way and in the other. The lists differ, since a copy of them would take long.
pub fn large(mut random: Random, settings: &[Setting]) -> impl Iterator<Item = Call> + '_ {
    let with_fills = |&setting: &Setting| FILLS.map(|fill| (setting, fill));
    settings.iter().flat_map(with_fills).map(move |(setting, fill)| {
        let queries = apart(&mut random, with(setting), *QUERY_COUNTS.end());
        WRITE.any(&mut random, setting).with_queries(queries).with_fill(fill)
    })
}

// Lists for the bytes.

/// How far from the length that is due the others are: more than an entry, and two counts.
const NEAR: usize = 9;

/// Counts of queries that are taken, and counts that are not.
const ALL_COUNTS: [usize; 8] = [0, 1, 2, 255, 256, 257, 258, 300];

/// All up to a dimension, and larger settings. The right length too, with which too many queries
/// are refused for their count, and more than there are cosets for sharing one.
pub fn near(
    mut random: Random,
    (largest_k, larger): (u64, &'static [Setting]),
) -> impl Iterator<Item = Call> {
    let larger = larger.iter().copied().map(with);
    let all = all_up_to(largest_k).into_iter().chain(larger).enumerate();
    all.flat_map(move |(turn, parameters)| {
        let mut calls = Vec::new();
        for count in ALL_COUNTS {
            let judging = any(&mut random, parameters, turn);
            let queries = mostly_apart(&mut random, parameters, count);
            let call = write_call(Judging { queries, ..judging });
            let with_length = |length| call.clone().with_length(Bytes, length);
            calls.extend(near_lengths(&call).into_iter().map(with_length));
        }
        calls
    })
}

/// All lengths near the right one, none, twice as many, and those that other counts of queries ask
/// for.
fn near_lengths(call: &Call) -> Vec<usize> {
    let due = call[Bytes].len();
    let mut lengths: Vec<usize> = (due - NEAR..=due + NEAR).chain([0, 1, 4, 2 * due]).collect();
    let for_count = |count| call.clone().with_queries(vec![0; count])[Bytes].len();
    lengths.extend([0, 1, 256, 257].map(for_count));
    lengths.sort_unstable();
    lengths.dedup();
    lengths
}

#[cfg(test)]
mod tests {
    use super::*;
    use crate::answer::{done, refused, refused_at, Answer};
    use crate::compare::operation::{after_safe, Reference};

    /// One length for each count of queries, and a refusal for them with no other.
    #[test]
    fn the_right_length_is_among_those_near_it() {
        let mut met: Vec<(usize, Answer)> = Vec::new();
        for call in near(Random::named("lengths near the right one"), (3, &[[9, 1, 1]])) {
            let due = after_safe(&Reference, &call).answer;
            if due != refused_at(13, 8) {
                met.push((call[Queries].len(), due));
            }
        }
        let due = |cosets: usize, count: usize| match count {
            0 | 257.. => refused(9),
            _ if count > cosets => refused_at(17, cosets as u64),
            _ => done(),
        };
        // k, rate and step are 2, 1, 1, then 3, 1, 1, then 3, 1, 2, then 3, 2, 1 and then 9, 1, 1.
        let of = |cosets| ALL_COUNTS.map(|count| (count, due(cosets, count)));
        assert_eq!(met, [2, 4, 2, 4, 256].map(of).concat());
    }
}
