//! Wrong judges.

use super::together::{LONG, NEAR, OTHER_CAUSES, PAIR, SEVERAL as SEVERAL_SHARED, SHARED};
use super::*;
use crate::answer::{accepted, failed, refused, refused_at};
use std::collections::BTreeSet;

const HONEST: &str = "judge, honest runs";
const DEGREES: &str = "judge, honest folds of too high a degree";
const EACH_ALONE: &str = "judge, each entry damaged, each query alone";
const EACH: &str = "judge, each entry damaged, all cosets";
const SOME: &str = "judge, some entries damaged, k 2 to 9";
const LARGE: &str = "judge, some entries damaged, k 10 to 20";
const CHALLENGES: &str = "judge, another challenge";
const COUNTS: &str = "judge, counts of queries";
const ONE_OUT: &str = "judge, a query out of range";
const SOME_OUT: &str = "judge, several queries out of range";
const SHARED_DAMAGED: &str = "judge, queries in one coset of damaged runs";
const SEVERAL: &str = "judge, several causes";
const OTHER_ANSWER: &str = "judge with an answer list of another length";
const SAFE: &str = "judge, safe calls";
const ACCEPTED: &str = "what is proved is accepted with every query";
const CASES_G_TO_I: &str = "cases G, H and I of table A";
const CASE_K: &str = "case K of table A, judged";
const CASE_L: &str = "case L of table A";
const CASE_O: &str = "case O of table A, judged";
const CASE_P: &str = "case P of table A";

/// All in which something that was sent is damaged.
const DAMAGED: [&str; 5] = [EACH_ALONE, EACH, SOME, LARGE, CHALLENGES];

/// All in which some query fails.
const FAILING: [&str; 10] =
    [DEGREES, EACH_ALONE, EACH, SOME, LARGE, CHALLENGES, COUNTS, NEAR, LONG, SAFE];

/// All in which the folds of several rounds count.
const FOLDED: [&str; 4] = [HONEST, DEGREES, ACCEPTED, SAFE];

/// All in which a query is out of range.
const OUT_OF_RANGE: [&str; 5] = [ONE_OUT, SOME_OUT, OTHER_CAUSES, SEVERAL, SAFE];

const OTHERS: Others = Others {
    right: &[
        HONEST,
        DEGREES,
        EACH_ALONE,
        EACH,
        SOME,
        LARGE,
        CHALLENGES,
        COUNTS,
        ONE_OUT,
        SOME_OUT,
        PAIR,
        SEVERAL_SHARED,
        NEAR,
        OTHER_CAUSES,
        SHARED_DAMAGED,
        LONG,
    ],
    safely: &[CASES_G_TO_I, CASE_K, CASE_L, CASE_P, ACCEPTED],
    dependent: &[],
    unsaid: &[SEVERAL, CASE_O],
};

#[test]
fn the_table_holds() {
    let rows = [
        in_all(),
        checks(),
        stops(),
        queries(),
        shared_cosets(),
        reads(),
        refusals::rows(&JUDGE, HONEST),
        together::rows(&JUDGE, HONEST, &[SHARED_DAMAGED], |call, _| {
            judged(&run_of(call), &call[Queries])
        }),
        shared_rows(&JUDGE, &OTHERS),
    ];
    hold(rows, |library| of_judge(library, &FEW));
}

/// Makes another verdict of the run, the queries and the right verdict, if that has one of these
/// numbers.
fn judge(
    what: &'static str,
    numbers: &'static [u64],
    verdict: impl Fn(&Run, &[u64], Answer) -> Answer + 'static,
) -> Row<Wrong> {
    let behaviour = move |call: &Call, outputs: &mut Outputs| match (JUDGE.due)(call, outputs) {
        right if numbers.contains(&right.number) => verdict(&run_of(call), &call[Queries], right),
        right => right,
    };
    row(what, alike(behaviour).of(&JUDGE))
}

/// The numbers of a run that was judged.
const JUDGED: &[u64] = &[0, 11];

fn in_all() -> Vec<Row<Wrong>> {
    vec![
        judge("all are turned away", ALL, |_, _, _| refused(4))
            .differs(&FAILING)
            .differs(&SHARED)
            .differs(&[SHARED_DAMAGED])
            .differs(&[HONEST, ONE_OUT, SOME_OUT, OTHER_CAUSES, ACCEPTED])
            .differs(&[CASES_G_TO_I, CASE_K, CASE_L, CASE_O, CASE_P])
            .agrees(&[OTHER_ANSWER]),
        judge("nothing is refused before a round", BEFORE_WORK, |_, _, _| accepted(0))
            .differs(&[COUNTS, ONE_OUT, SOME_OUT, OTHER_CAUSES, SEVERAL, SAFE, CASE_O, CASE_P])
            .differs(&SHARED)
            .differs(&[SHARED_DAMAGED])
            .agrees(&[HONEST, EACH, CASE_L]),
        judge("only the constant of the last polynomial counts", JUDGED, |run, queries, _| {
            let mut constant = run.clone();
            constant.last[1..].fill(0);
            protocol::judge(&constant, queries)
        })
        .differs(&[HONEST, SOME, ACCEPTED, SAFE, CASE_O])
        // The least parameters with two last coefficients.
        .smallest(HONEST, "k 4; rate 1; step 2; "),
        judge("the top bit of an entry is lost", JUDGED, |run, queries, _| {
            let word = run.word.iter().map(|entry| entry & (u64::MAX >> 1)).collect();
            protocol::judge(&Run { word, ..run.clone() }, queries)
        })
        .differs(&DAMAGED)
        .differs(&FOLDED)
        .agrees(&[CASES_G_TO_I, CASE_K, CASE_L]),
    ]
}

// Rounds that are checked wrongly.

/// All checks that do not hold, by the place of the query and the round. A check is given the query
/// and the round.
fn failing(run: &Run, queries: &[u64], holds: impl Fn(u64, u64) -> bool) -> Vec<(u64, u64)> {
    let rounds = 0..run.parameters.rounds();
    let with_rounds = |(place, &query)| rounds.clone().map(move |round| (place, query, round));
    let checks = (0..).zip(queries).flat_map(with_rounds);
    let failing = checks.filter(|&(_, query, round)| !holds(query, round));
    failing.map(|(place, _, round)| (place, round)).collect()
}

/// The verdict that fails at a check, or accepts, with the paper's formulas for the reads.
fn failing_at(run: &Run, queries: &[u64], check: Option<(u64, u64)>) -> Answer {
    let r = run.parameters.rounds();
    let entries = |cosets: u64| cosets << run.parameters.step;
    match check {
        Some((query, round)) => failed(query, round, entries(query * r + r.min(round + 2))),
        None => accepted(entries(queries.len() as u64 * r)),
    }
}

fn holds(folding: Folding, run: &Run, query: u64, round: u64) -> bool {
    let layer = |i| {
        let part = run.parameters.layer_of_store(run.store.len(), i);
        part.map_or(&run.word[..], |part| &run.store[part])
    };
    let used = run.parameters.coset_used(query, round) as usize;
    let found = folding.entry(run, round as usize, layer(round), used);
    if !is_last(run, round) {
        return found == layer(round + 1)[used];
    }
    let Coset { offset, basis } = &(folding.cosets)(run)[round as usize + 1];
    found == value(&run.last, point(*offset, basis, used as u64))
}

fn is_last(run: &Run, round: u64) -> bool {
    round + 1 == run.parameters.rounds()
}

/// Judges with other folds, and passes over some rounds.
fn checking(what: &'static str, folding: Folding, passes: fn(&Run, u64) -> bool) -> Row<Wrong> {
    judge(what, JUDGED, move |run, queries, _| {
        let holds = |query, round| passes(run, round) || holds(folding, run, query, round);
        failing_at(run, queries, failing(run, queries, holds).first().copied())
    })
}

fn checks() -> Vec<Row<Wrong>> {
    let folding = |(what, folding)| checking(what, folding, |_, _| false);
    vec![
        folding(("nothing", RIGHT)),
        folding(HALVES).differs(&DAMAGED).differs(&FOLDED).differs(&[CASE_K, CASE_L, CASE_O]),
        folding(FIRST_BASIS)
            .differs(&DAMAGED)
            .differs(&FOLDED)
            .differs(&[CASE_K, CASE_L])
            .smallest(HONEST, "k 3; rate 1; step 1; "),
        folding(PLAIN_POINTS).differs(&DAMAGED).differs(&FOLDED).differs(&[CASE_K, CASE_L, CASE_O]),
        checking("every run is accepted", RIGHT, |_, _| true)
            .differs(&FAILING)
            .differs(&[CASES_G_TO_I, CASE_L])
            .smallest(EACH, "k 2; rate 1; step 1; offset 0; basis: 1, 2; challenges: 0; "),
        checking("only the last round is checked", RIGHT, |run, round| !is_last(run, round))
            .differs(&DAMAGED)
            .differs(&[SAFE, CASE_L])
            .smallest(EACH, "k 3; rate 1; step 1; "),
        checking("the first round is not checked", RIGHT, |_, round| round == 0)
            .differs(&FAILING)
            .differs(&[CASES_G_TO_I, CASE_L]),
        checking("the last round is not checked", RIGHT, is_last)
            .differs(&FAILING)
            .differs(&[CASES_G_TO_I]),
    ]
}

// Where it stops.

/// Stops at another of the checks that fail.
fn stopping(what: &'static str, chosen: fn(&[(u64, u64)]) -> Option<(u64, u64)>) -> Row<Wrong> {
    judge(what, &[11], move |run, queries, _| {
        let failing = failing(run, queries, |query, round| holds(RIGHT, run, query, round));
        failing_at(run, queries, chosen(&failing))
    })
}

fn stops() -> Vec<Row<Wrong>> {
    vec![
        stopping("only the first query is checked", |all| {
            all.iter().copied().find(|&(query, _)| query == 0)
        })
        .differs(&[DEGREES, EACH, SOME, LARGE, CASES_G_TO_I]),
        stopping("it stops at the lowest round of all queries", |all| {
            all.iter().copied().min_by_key(|&(query, round)| (round, query))
        })
        .differs(&[EACH, SOME, LARGE]),
        stopping("it stops at the last query that fails", |all| {
            let (last, _) = *all.last()?;
            all.iter().copied().find(|&(query, _)| query == last)
        })
        .differs(&[DEGREES, EACH, SOME, LARGE, CHALLENGES, COUNTS, NEAR, LONG, SAFE]),
        stopping("it stops at the last round that fails", |all| {
            all.iter().copied().rfind(|&(query, _)| query == all[0].0)
        })
        .differs(&[EACH_ALONE, EACH, SOME, LARGE, SAFE, CASE_L]),
    ]
}

// Queries that are taken wrongly.

fn queries() -> Vec<Row<Wrong>> {
    vec![
        judge("queries beyond the most are not looked at", &[9], |run, queries, _| {
            protocol::judge(run, &queries[..queries.len().min(256)])
        })
        .differs(&[COUNTS, SOME_OUT, OTHER_CAUSES, SEVERAL, CASE_P]),
        judge("no query is accepted", &[9], |_, queries, right| match queries {
            [] => accepted(0),
            _ => right,
        })
        .differs(&[COUNTS, SAFE]),
        judge("the most queries are refused", &[0, 10, 11, 17], |_, queries, right| match queries
            .len()
        {
            256 => refused(9),
            _ => right,
        })
        .differs(&[COUNTS, ONE_OUT, SOME_OUT, SEVERAL_SHARED, CASE_O, CASE_P]),
        judge("only the lowest bits of a query count", &[10], |run, queries, _| {
            let cut = queries.iter().map(|query| query % (1 << run.parameters.k));
            protocol::judge(run, &cut.collect::<Vec<u64>>())
        })
        .differs(&OUT_OF_RANGE)
        .smallest(ONE_OUT, "; queries: 4; answer of length 5"),
        judge("a query out of range is counted from 1", &[10], |_, _, right| {
            refused_at(10, right.place.map_or(0, |place| place + 1))
        })
        .differs(&OUT_OF_RANGE),
        judge("the last query out of range is named", &[10], |run, queries, _| {
            let place = queries.iter().rposition(|query| query >> run.parameters.k != 0);
            refused_at(10, place.expect("a query out of range") as u64)
        })
        .differs(&[SOME_OUT, OTHER_CAUSES]),
        judge("queries before one out of range are judged first", &[10], |run, queries, right| {
            let before = &queries[..right.place.map_or(0, |place| place as usize)];
            match protocol::judge(run, before) {
                failed if failed.number == 11 => failed,
                _ => right,
            }
        })
        .differs(&[ONE_OUT, SOME_OUT, OTHER_CAUSES, SEVERAL]),
    ]
}

// Queries in one coset, beyond what a writer could take wrongly as well.

/// The verdict on queries whatever cosets they share.
fn judged(run: &Run, queries: &[u64]) -> Answer {
    let failing = failing(run, queries, |query, round| holds(RIGHT, run, query, round));
    failing_at(run, queries, failing.first().copied())
}

fn shared_cosets() -> Vec<Row<Wrong>> {
    vec![
        judge("shared cosets are accepted with all their reads", &[17], |run, queries, _| {
            failing_at(run, queries, None)
        })
        .differs(&SHARED)
        .differs(&[SHARED_DAMAGED]),
        judge("rounds come before shared cosets", &[17], |run, queries, right| {
            match judged(run, queries) {
                failed if failed.number == 11 => failed,
                _ => right,
            }
        })
        .differs(&SHARED)
        .differs(&[SHARED_DAMAGED]),
        judge("queries before a shared coset are judged first", &[17], |run, queries, right| {
            let before = &queries[..right.place.map_or(0, |place| place as usize)];
            match judged(run, before) {
                failed if failed.number == 11 => failed,
                _ => right,
            }
        })
        .differs(&SHARED)
        .differs(&[SHARED_DAMAGED]),
        judge("a query in a coset that was met is passed over", &[17], |run, queries, _| {
            let mut met = BTreeSet::new();
            let new = queries.iter().filter(|query| met.insert(**query >> run.parameters.step));
            judged(run, &new.copied().collect::<Vec<u64>>())
        })
        .differs(&SHARED)
        .differs(&[SHARED_DAMAGED]),
    ]
}

// Reads.

fn reads() -> Vec<Row<Wrong>> {
    // What is read if the failing query is counted with so many cosets more than rounds before.
    let counting = |what, more: u64| {
        judge(what, &[11], move |run, _, right| {
            let (query, round) = right.place.zip(right.round).expect("a failing query");
            let cosets = query * run.parameters.rounds() + round + more;
            Answer { reads: cosets << run.parameters.step, ..right }
        })
    };
    vec![
        judge("it answers before reading", &[11], |_, _, right| Answer { reads: 0, ..right })
            .differs(&FAILING)
            .differs(&[CASES_G_TO_I, CASE_L]),
        judge("the reads are invented", JUDGED, |_, _, right| Answer { reads: 4, ..right })
            .differs(&FAILING)
            .differs(&[HONEST, ACCEPTED, CASES_G_TO_I, CASE_O, CASE_P]),
        judge("a failing run has the reads of an accepted one", &[11], |run, queries, right| {
            Answer { reads: failing_at(run, queries, None).reads, ..right }
        })
        .differs(&[DEGREES, EACH, SOME, LARGE, CHALLENGES, COUNTS, NEAR, LONG, SAFE]),
        counting("the coset of the next layer is not counted", 1)
            .differs(&DAMAGED)
            .differs(&[SAFE, CASE_L]),
        counting("the last polynomial is taken for a coset", 2)
            .differs(&FAILING)
            .differs(&[CASES_G_TO_I]),
        judge("a coset is counted once in all queries", &[0], |run, queries, _| {
            let rounds = 0..run.parameters.rounds();
            let coset = |query, i| (i, run.parameters.coset_used(query, i));
            let used = |&query| rounds.clone().map(move |i| coset(query, i));
            let met: BTreeSet<(u64, u64)> = queries.iter().flat_map(used).collect();
            accepted((met.len() as u64) << run.parameters.step)
        })
        .differs(&[HONEST, EACH, SOME, LARGE, CHALLENGES, LONG, SAFE, ACCEPTED, CASE_P]),
        judge("a refusal has reads", &[10], |_, _, right| Answer { reads: 2, ..right })
            .differs(&OUT_OF_RANGE),
    ]
}
