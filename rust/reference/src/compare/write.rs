//! The comparisons of the writer of transcripts: what it writes, what it refuses, and what a reader
//! and a judge make of what it wrote.

mod again;
mod inputs;
mod table_a;

use super::call::*;
use super::lent::FILLS;
use super::operation::{raw_calls, Library, Operation, Setting};
use super::protocol::inputs::queries::{self, Lists};
use super::protocol::inputs::{right, together, Turns};
use super::protocol::{call_of, run_of, with, OVER_A_RUN};
use super::{library, refused, Comparison};
use crate::parameters::Parameters;
use crate::queries::apart;
use crate::random::Random;
use crate::transcript::{may_write, write, Judging};

/// Any lists that may be judged are written, honest or not.
pub static WRITE: Operation = Operation {
    name: "write",
    given: &[Basis, Challenges, Given, Store, Last, Queries],
    lent: &[Bytes],
    refusal: |call| may_write(&run_of(call), &call[Queries], call[Bytes].len()).err(),
    due: |call, outputs| write(&run_of(call), &call[Queries], outputs.bytes()),
    safe: library::write,
    raw: library::raw_write,
    right: |random, setting, turn| write_call(inputs::any(random, with(setting), turn)),
    special: honest_or_refused_for_queries,
    ..OVER_A_RUN
};

/// With a list 8 that is as long as it must be for these queries.
fn write_call(Judging { run, queries }: Judging) -> Call {
    call_of(&WRITE, run).with_queries(queries)
}

/// An honest run, no query and too many, a query out of range, two queries in one coset, and a list
/// 8 for another query more.
fn honest_or_refused_for_queries(random: &mut Random, setting: Setting) -> Vec<Call> {
    let run = right::honest(random, with(setting), 0);
    let queries = apart(random, run.parameters, 3);
    let honest = write_call(Judging { run, queries });
    let with_queries = |queries| honest.clone().with_queries(queries);
    let for_one_more = with_queries(vec![0; 4]).with_list(Queries, vec![0; 3]);
    let refused = [vec![], vec![0; 257], vec![0, 1 << setting[0]], vec![2, 3]].map(with_queries);
    [&[honest, for_one_more], &refused[..]].concat()
}

// The comparisons.

/// How many inputs the comparisons take.
pub struct Amounts {
    /// Runs of each sort.
    pub turns: Turns,
    /// Runs with each of many query lists.
    pub queries: Turns,
    /// Runs with the longest query lists.
    pub long: &'static [Setting],
    /// The largest dimension with every length of list 8 that is near the one due, and larger
    /// settings.
    pub near: (u64, &'static [Setting]),
    /// Larger settings, with as many queries as there may be.
    pub large: &'static [Setting],
    /// Runs of each sort that are judged, and larger settings.
    pub judged: (Turns, &'static [Setting]),
    pub refused: refused::Amounts,
}

/// The amounts that the program takes.
pub const FULL: Amounts = Amounts {
    turns: [0, 0, 24, 12, 12, 6, 6, 6, 1, 3],
    queries: [0, 0, 2, 2, 1, 1, 0, 1, 0, 0],
    long: &[[9, 2, 1], [10, 1, 2], [11, 3, 3]],
    near: (7, &[[9, 3, 1]]),
    // Lists for a dimension above the range, which are so long that they come here alone.
    large: &[[8, 1, 1], [10, 3, 1], [12, 6, 3], [15, 1, 2], [20, 6, 3], [20, 1, 1], [21, 1, 1]],
    judged: ([0, 0, 24, 12, 6, 4, 2, 2, 1, 0], &[[10, 3, 1], [14, 4, 2], [20, 1, 1]]),
    refused: refused::Amounts {
        out_of_range: &[1, 0, 22, 24, 31, 32, 37, 63, 64, 69, 133, 261, 1 << 63],
        dimensions: &[2, 3, 4, 5, 6, 7],
        too_small: 5,
        several_lists: 4,
        largest_dependent: 10,
        several_causes: 1,
        most_causes: usize::MAX,
        every_sort: (&[2, 3, 4], 12),
    },
};

/// Runs all comparisons of this file and of those under it.
pub fn comparisons(library: &dyn Library, amounts: &Amounts) -> Vec<Comparison> {
    [
        written(library, amounts),
        refused::comparisons(library, &WRITE, &amounts.refused),
        again::comparisons(library, amounts),
        table_a::comparisons(library),
    ]
    .concat()
}

/// The bytes filled in one way and in the other: one that is left shows with one of them, whatever
/// is due.
fn with_either_fill(call: Call) -> impl Iterator<Item = Call> {
    FILLS.into_iter().map(move |fill| call.clone().with_fill(fill))
}

fn written(library: &dyn Library, amounts: &Amounts) -> Vec<Comparison> {
    let Amounts { turns, queries, .. } = amounts;
    let runs = |name, judgings: &dyn Fn(&mut Random) -> Vec<Judging>| {
        let calls = judgings(&mut Random::named(name)).into_iter().map(write_call);
        raw_calls(library, name, calls.flat_map(with_either_fill))
    };
    let lists =
        |name, lists: Lists| runs(name, &|random| queries::with_lists(random, queries, lists));
    let long: Vec<Parameters> = amounts.long.iter().copied().map(with).collect();
    let [near, large] = ["write, list 8 near its length", "write, k 8 to 21"];
    let near_calls = inputs::near(Random::named(near), amounts.near).flat_map(with_either_fill);
    vec![
        runs("write, honest runs", &|random| right::honest_with_queries(random, turns)),
        runs("write, any lists", &|random| inputs::any_lists(random, turns)),
        runs("write, counts of queries", &|random| queries::of_all_counts(random, queries)),
        runs("write, a query out of range", &|random| queries::out_of_range(random, queries)),
        runs("write, several queries out of range", &|random| {
            queries::several_out_of_range(random, queries)
        }),
        lists("write, two queries in one coset", together::one_pair),
        lists("write, several queries in one coset", together::several),
        lists("write, queries near each other", together::near),
        lists("write, queries in one coset and other causes", together::and_other_causes),
        runs("write, long lists of queries", &|random| {
            together::long(Random::seeded(random.number()), &long).collect()
        }),
        raw_calls(library, near, near_calls),
        raw_calls(library, large, inputs::large(Random::named(large), amounts.large)),
    ]
}

#[cfg(test)]
mod tests;
