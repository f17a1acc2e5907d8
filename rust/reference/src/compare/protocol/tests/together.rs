//! Judges and writers that are wrong alike about queries in one first-layer coset.

use super::*;
use crate::answer::refused_at;
use crate::compare::wrong::answering;
use crate::protocol::right_queries;

// Each name is the end of that of a comparison of each of them.

pub const PAIR: &str = "two queries in one coset";
pub const SEVERAL: &str = "several queries in one coset";
pub const NEAR: &str = "queries near each other";
pub const OTHER_CAUSES: &str = "queries in one coset and other causes";
pub const LONG: &str = "long lists of queries";
const COUNTS: &str = "counts of queries";
const SAFE: &str = "safe calls";

/// All in which two queries share a coset, and nothing comes before that.
pub const SHARED: [&str; 6] = [PAIR, SEVERAL, NEAR, LONG, COUNTS, SAFE];

/// What an operation does with lists that it does not refuse.
pub type Taking = fn(&Call, &mut Outputs) -> Answer;

type Names = &'static [&'static str];

/// The rows of an operation with a comparison of right calls, and with others in which queries
/// share a coset.
pub fn rows(
    operation: Op,
    right_calls: &'static str,
    also: Names,
    taking: Taking,
) -> Vec<Row<Wrong>> {
    let rows = [finds(right_calls, also, taking), places(also), order()];
    rows.into_iter().flatten().map(|row| row.of(operation)).collect()
}

/// The refusal that is due before any round, for whatever the queries are.
fn refusal(call: &Call) -> Option<Answer> {
    let of_queries = || right_queries(run_of(call).parameters, &call[Queries]).err();
    call.refusal().or_else(of_queries)
}

/// The places whose queries share something with earlier ones.
pub fn again(queries: &[u64], shared: impl Fn(u64) -> u64) -> Vec<usize> {
    let all: Vec<u64> = queries.iter().map(|&query| shared(query)).collect();
    (0..all.len()).filter(|&later| all[..later].contains(&all[later])).collect()
}

// What is found.

/// Looks for shared cosets: the place that it finds, by the parameters and the queries.
pub type Find = fn(Parameters, &[u64]) -> Option<usize>;

fn first(queries: &[u64], shared: impl Fn(u64) -> u64) -> Option<usize> {
    again(queries, shared).first().copied()
}

pub const RIGHT: Find = |p, queries| first(queries, |query| query >> p.step);
pub const NOTHING: Find = |_, _| None;
pub const EQUAL: Find = |_, queries| first(queries, |query| query);
pub const NEIGHBOURS: Find = |p, queries| {
    let coset = |place: usize| queries[place] >> p.step;
    (1..queries.len()).find(|&later| coset(later - 1) == coset(later))
};
pub const WITH_FIRST: Find = |p, queries| {
    let coset = |place: usize| queries[place] >> p.step;
    (1..queries.len()).find(|&later| coset(0) == coset(later))
};
pub const LAYER_1: Find = |p, queries| first(queries, |query| query >> (2 * p.step));
pub const HALVES: Find = |p, queries| first(queries, |query| query % (1 << (p.k - p.step)));
pub const TWO_BITS: Find = |p, queries| first(queries, |query| (query >> p.step) % 4);
pub const STEP_1: Find = |_, queries| first(queries, |query| query >> 1);
pub const STEP_3: Find = |_, queries| first(queries, |query| query >> 3);

/// Looks for shared cosets in another way, and takes the lists in which it finds none.
fn finding(what: &'static str, taking: Taking, find: Find) -> Row<Wrong> {
    let behaviour = move |call: &Call, outputs: &mut Outputs| match refusal(call) {
        Some(refusal) if refusal.number != 17 => refusal,
        _ => match find(run_of(call).parameters, &call[Queries]) {
            Some(place) => refused_at(17, place as u64),
            None => taking(call, outputs),
        },
    };
    row(what, alike(behaviour))
}

fn finds(right_calls: &'static str, also: Names, taking: Taking) -> Vec<Row<Wrong>> {
    let finding = |what, find| finding(what, taking, find);
    // Only long lists have other steps than 1, and more than four cosets, here.
    let alike_if_short = [PAIR, SEVERAL, NEAR, COUNTS];
    vec![
        finding("nothing", RIGHT),
        finding("shared cosets are taken", NOTHING).differs(&SHARED).differs(also),
        finding("only equal queries share a coset", EQUAL)
            .differs(&[PAIR, SEVERAL, NEAR, LONG])
            .among_others(),
        finding("only neighbours in the list are compared", NEIGHBOURS)
            .differs(&[PAIR, SEVERAL, LONG])
            .among_others(),
        finding("only the first query is compared with the others", WITH_FIRST)
            .differs(&[PAIR, SEVERAL, LONG])
            .among_others(),
        finding("the cosets of layer 1 are compared", LAYER_1)
            .differs(&[right_calls, NEAR, LONG])
            .among_others(),
        finding("queries half the length away share a coset", HALVES)
            .differs(&[right_calls, PAIR, SEVERAL, NEAR, LONG])
            .among_others(),
        finding("only the two lowest bits of a coset are compared", TWO_BITS)
            .differs(&[LONG])
            .agrees(&alike_if_short),
        finding("the step is taken for 1", STEP_1).differs(&[LONG]).agrees(&alike_if_short),
        finding("the step is taken for 3", STEP_3)
            .differs(&[right_calls, NEAR, LONG])
            .among_others(),
    ]
}

// What is told.

/// Gives another answer where 17 is due, by the places in question.
fn telling(what: &'static str, other: fn(Answer, &[usize], &Call) -> Answer) -> Row<Wrong> {
    let behaviour = answering(move |call, right| match right.number {
        17 => other(right, &again(&call[Queries], |query| query >> call[Step]), call),
        _ => right,
    });
    row(what, behaviour)
}

fn places(also: Names) -> Vec<Row<Wrong>> {
    let telling = |what, other| telling(what, other).differs(also);
    vec![
        telling("the earlier place is told", |_, all, call| {
            let coset = |query: &u64| query >> call[Step];
            let later = coset(&call[Queries][all[0]]);
            let earlier = call[Queries].iter().position(|query| coset(query) == later);
            refused_at(17, earlier.expect("an earlier place") as u64)
        })
        .differs(&SHARED),
        telling("the last such place is told", |_, all, _| {
            refused_at(17, all[all.len() - 1] as u64)
        })
        .differs(&[SEVERAL, COUNTS]),
        telling("the place is counted from 1", |_, all, _| refused_at(17, all[0] as u64 + 1))
            .differs(&SHARED),
        telling("the query is told", |_, all, call| refused_at(17, call[Queries][all[0]]))
            .differs(&SHARED),
        telling("no place is told", |right, _, _| Answer { place: None, ..right }).differs(&SHARED),
        telling("a round is told", |right, _, _| Answer { round: Some(0), ..right })
            .differs(&SHARED),
        telling("a refusal for a shared coset has reads", |right, _, call| Answer {
            reads: 1 << call[Step],
            ..right
        })
        .differs(&SHARED),
        telling("a shared coset has number 10", |right, _, _| Answer { number: 10, ..right })
            .differs(&SHARED),
    ]
}

// When it is looked for.

/// Refuses for a shared coset where another cause comes before it.
fn before(what: &'static str, number: u64) -> Row<Wrong> {
    let behaviour = answering(move |call, right| {
        let places = again(&call[Queries], |query| query >> call[Step]);
        match places.first() {
            Some(&place) if right.number == number => refused_at(17, place as u64),
            _ => right,
        }
    });
    row(what, behaviour)
}

fn order() -> Vec<Row<Wrong>> {
    vec![
        before("shared cosets come before the count", 9)
            .differs(&[OTHER_CAUSES, COUNTS])
            .agrees(&[PAIR, SEVERAL, NEAR, LONG]),
        before("shared cosets come before queries out of range", 10)
            .differs(&[OTHER_CAUSES, "several causes"])
            .agrees(&[PAIR, SEVERAL, NEAR, LONG, COUNTS]),
        before("shared cosets come before the basis", 8)
            .differs(&["several causes"])
            .agrees(&[PAIR, SEVERAL, NEAR, LONG, COUNTS]),
    ]
}
