//! Writers that refuse wrongly, but for what those of a run refuse alike.

use super::*;
use crate::answer::{refused, refused_at};
use crate::compare::wrong::{always_instead, first_of_all, refusing, right, taking, when_refused};
use crate::protocol::QUERY_COUNTS;
use crate::transcript::written;

pub fn rows() -> Vec<Row<Wrong>> {
    let all = [writing_all_the_same(), lengths(), counts(), queries_out_of_range()];
    all.into_iter().flatten().map(|row| row.of(&WRITE)).collect()
}

/// All in which the queries are refused, and nothing comes before them.
const OF_QUERIES: [&str; 10] = [
    COUNTS,
    ONE_OUT,
    SOME_OUT,
    NEAR,
    SAFE,
    PAIR,
    SEVERAL_SHARED,
    NEAR_EACH_OTHER,
    OTHER_CAUSES,
    LONG,
];

/// All in which a query is out of range, and nothing comes before it.
const OUT_OF_RANGE: [&str; 5] = [ONE_OUT, SOME_OUT, OTHER_CAUSES, SEVERAL, SAFE];

/// All in which nothing is refused.
const TAKEN: [&str; 8] = [HONEST, ANY, LARGE, AGAIN, JUDGED, CASE_G, CASE_H, CASE_K];

// Refusals that do not leave all bytes.

fn writing_all_the_same() -> Vec<Row<Wrong>> {
    let first_section = when_refused(|call, outputs| {
        let section = Section::of(&call.setting());
        copy_what_fits(&written(&[section]), outputs.bytes());
    });
    let before_the_queries = when_refused(|call, outputs| {
        let refusal = call.refusal().map(|refusal| refusal.number);
        if [9, 10, 17].map(Some).contains(&refusal) {
            copy_what_fits(&transcript(&run_of(call), &call[Queries]), outputs.bytes());
        }
    });
    let last_byte = when_refused(|_, outputs| {
        outputs.bytes().iter_mut().rev().take(1).for_each(|last| *last ^= 0x80);
    });
    vec![
        row("a refusal writes the first section", first_section)
            .differs(&OF_QUERIES)
            .differs(&[SEVERAL, LIST_8, "zero in the basis", "k below rate plus step"])
            .agrees(&TAKEN),
        row("a refusal writes the last byte", last_byte)
            .differs(&OF_QUERIES)
            .differs(&[SEVERAL, LIST_8, "zero in the basis", "k below rate plus step"])
            .agrees(&TAKEN),
        row("all is written before the queries are looked at", before_the_queries)
            .differs(&OF_QUERIES)
            .differs(&[SEVERAL]),
    ]
}

// The length of list 8.

/// Takes other lengths: the call and the length that is due decide. Parameters are refused before,
/// and what would be due for them may be long.
fn taking_lengths(
    what: &'static str,
    is_taken: impl Fn(&Call, usize) -> bool + 'static,
) -> Row<Wrong> {
    let instead = always_instead(move |call| {
        if run_of(&call).parameters.may_use().is_err() {
            return call;
        }
        let due = call.due_length(Bytes);
        let is_taken = is_taken(&call, due);
        call.with_length(Bytes, if is_taken { due } else { due + 1 })
    });
    row(what, instead)
}

/// Asks for as many bytes as are due for another count of queries.
fn for_another_count(what: &'static str, other: fn(usize) -> usize) -> Row<Wrong> {
    taking_lengths(what, move |call, _| {
        let count = other(call[Queries].len());
        call[Bytes].len() == call.clone().with_queries(vec![0; count])[Bytes].len()
    })
}

/// Takes some lengths beside the right one: the length and the right one decide.
fn also_taking(what: &'static str, is_taken: fn(usize, usize) -> bool) -> Row<Wrong> {
    taking_lengths(what, move |call, due| {
        let length = call[Bytes].len();
        length == due || is_taken(length, due)
    })
}

fn lengths() -> Vec<Row<Wrong>> {
    vec![
        for_another_count("the queries have no bytes", |_| 0).differs(&WRITTEN).among_others(),
        for_another_count("too many queries need no more bytes than 256", |count| count.min(256))
            .differs(&[COUNTS, NEAR, SOME_OUT, SAFE, SEVERAL])
            .agrees(&TAKEN)
            .agrees(&[ONE_OUT, LIST_8]),
        for_another_count("no query needs the bytes of one", |count| count.max(1))
            .differs(&[COUNTS, NEAR, SAFE])
            .agrees(&TAKEN)
            .agrees(&[ONE_OUT, SOME_OUT, LIST_8]),
        for_another_count("list 8 is as long as for one query more", |count| count + 1)
            .differs(&WRITTEN)
            .differs(&CASES)
            .among_others(),
        also_taking("list 8 may end within its last entry", |length, due| {
            (due - 7..due).contains(&length)
        })
        .differs(&[NEAR, LIST_8])
        .agrees(&TAKEN),
        also_taking("list 8 may be an entry short", |length, due| length + 8 == due)
            .differs(&[NEAR])
            .agrees(&TAKEN),
        also_taking("list 8 may be empty", |length, _| length == 0)
            .differs(&[NEAR, LIST_8])
            .agrees(&TAKEN),
        also_taking("list 8 may be nine bytes longer", |length, due| length == due + 9)
            .differs(&[NEAR]),
    ]
}

// The queries.

fn counts() -> Vec<Row<Wrong>> {
    let most_refused = first_of_all(|call| {
        let is_most = call[Queries].len() == *QUERY_COUNTS.end();
        (is_most && call.refusal().is_none()).then(|| refused(9))
    });
    let before_list_8 = first_of_all(|call| {
        let is_wrong = !QUERY_COUNTS.contains(&call[Queries].len());
        (is_wrong && call.refusal() == Some(refused_at(13, 8))).then(|| refused(9))
    });
    let before_the_basis = first_of_all(|call| {
        let is_wrong = !QUERY_COUNTS.contains(&call[Queries].len());
        let refusal = call.refusal().map(|refusal| refusal.number);
        (is_wrong && refusal == Some(8)).then(|| refused(9))
    });
    vec![
        row("no query is taken", taking(9, |call| call[Queries].is_empty()))
            .differs(&[COUNTS, NEAR, SAFE]),
        row("257 queries are taken", taking(9, |call| call[Queries].len() == 257))
            .differs(&[COUNTS, NEAR, SOME_OUT, SAFE])
            .among_others(),
        row("300 queries are taken", taking(9, |call| call[Queries].len() == 300)).differs(&[NEAR]),
        row("the most queries are refused", most_refused).differs(&[LARGE]),
        row("a wrong count of queries comes before list 8", before_list_8)
            .differs(&[NEAR, SEVERAL])
            .agrees(&TAKEN),
        row("a wrong count of queries comes before the basis", before_the_basis)
            .differs(&[SEVERAL]),
    ]
}

fn queries_out_of_range() -> Vec<Row<Wrong>> {
    let lowest_bits = always_instead(|mut call| {
        if call.refusal().is_some_and(|refusal| refusal.number == 10) {
            let in_range = 1 << call.k();
            call[Queries].iter_mut().for_each(|query| *query %= in_range);
        }
        call
    });
    let from_1 = refusing(10, |_, answer| refused_at(10, answer.place.unwrap_or(0) + 1));
    let last = refusing(10, |call, _| {
        let place = call[Queries].iter().rposition(|query| query >> call.k() > 0);
        refused_at(10, place.expect("a query out of range") as u64)
    });
    let written_first = alike(|call, outputs| match call.refusal() {
        Some(refusal) if refusal.number == 10 => {
            copy_what_fits(&transcript(&run_of(call), &call[Queries]), outputs.bytes());
            done()
        }
        _ => right(call, outputs),
    });
    vec![
        row("a query out of range is written", written_first).differs(&OUT_OF_RANGE),
        row("only the lowest bits of a query count", lowest_bits).differs(&OUT_OF_RANGE),
        row("a query out of range is counted from 1", from_1).differs(&OUT_OF_RANGE),
        row("the last query out of range is named", last).differs(&[SOME_OUT, OTHER_CAUSES]),
    ]
}
