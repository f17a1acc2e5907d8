//! Honest runs with query lists of all sorts: of every count that is near a bound, and with queries
//! out of range. Those with queries in one coset have a file of their own.

use super::{any_query, mostly_apart, right, turns};
use crate::parameters::Parameters;
use crate::protocol::{Run, QUERY_COUNTS};
use crate::queries::apart;
use crate::random::Random;
use crate::transcript::Judging;

/// Counts that a judge takes, and counts that it does not.
const COUNTS: [usize; 9] = [0, 1, 2, 255, 256, 257, 258, 512, 1_024];

/// Each count, with queries that are apart if so many can be, and with one query over and over; and
/// as many as can be apart.
pub fn of_all_counts(random: &mut Random, amounts: &[usize]) -> Vec<Judging> {
    with_lists(random, amounts, |random, parameters| {
        let of_count = |count| {
            let one = any_query(random, parameters);
            [mostly_apart(random, parameters, count), vec![one; count]]
        };
        let mut lists: Vec<Vec<u64>> = COUNTS.into_iter().flat_map(of_count).collect();
        lists.push(apart(random, parameters, *QUERY_COUNTS.end()));
        lists
    })
}

/// Lists of up to eight queries, and the longest, with one out of range at each of their places, or
/// at the last few.
pub fn out_of_range(random: &mut Random, amounts: &[usize]) -> Vec<Judging> {
    with_lists(random, amounts, |random, parameters| {
        let mut lists = Vec::new();
        for count in (1..=8).chain([*QUERY_COUNTS.end()]) {
            for place in count.saturating_sub(8)..count {
                for query in queries_out_of_range(parameters) {
                    let mut list = mostly_apart(random, parameters, count);
                    list[place] = query;
                    lists.push(list);
                }
            }
        }
        lists
    })
}

/// The least ones, the most, and some whose lowest bits are in range.
pub fn queries_out_of_range(parameters: Parameters) -> [u64; 8] {
    let all = 1 << parameters.k;
    [all, all + 1, 2 * all - 1, 2 * all, 1 << 32, 1 << 63, u64::MAX - 1, u64::MAX]
}

/// Two queries out of range, the first of which is to be named, and as many as are refused for
/// their count, which comes first.
pub fn several_out_of_range(random: &mut Random, amounts: &[usize]) -> Vec<Judging> {
    with_lists(random, amounts, |random, parameters| {
        let outside = queries_out_of_range(parameters);
        let of_count = |count| {
            let mut list = mostly_apart(random, parameters, count);
            for _ in 0..2 {
                list[random.below(count)] = outside[random.below(outside.len())];
            }
            list
        };
        [2, 3, 5, *QUERY_COUNTS.end(), QUERY_COUNTS.end() + 1].map(of_count).to_vec()
    })
}

/// Makes query lists for runs of some parameters.
pub type Lists = fn(&mut Random, Parameters) -> Vec<Vec<u64>>;

/// Honest runs with each of the lists, and the same with a last coefficient made wrong, so that all
/// queries fail.
pub fn with_lists(random: &mut Random, amounts: &[usize], lists: Lists) -> Vec<Judging> {
    let mut all = Vec::new();
    for (parameters, turn) in turns(amounts) {
        let honest = right::honest(random, parameters, turn);
        all.extend(honest_and_failing(&honest, lists(random, parameters)));
    }
    all
}

pub fn honest_and_failing(
    honest: &Run,
    lists: Vec<Vec<u64>>,
) -> impl Iterator<Item = Judging> + use<> {
    let mut failing = honest.clone();
    failing.last[0] ^= 1;
    let runs = [honest.clone(), failing];
    let with_both =
        move |queries: Vec<u64>| runs.clone().map(|run| Judging { run, queries: queries.clone() });
    lists.into_iter().flat_map(with_both)
}
