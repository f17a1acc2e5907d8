//! Programs that are wrong about more bytes than they take, and a library that has their limit.

use super::*;
use super::{BAD_FRONT as BAD, GOOD_FRONT as GOOD};
use crate::transcript::judge_too_long;

/// A program with another limit.
fn with_limit(limit: usize) -> Judges {
    with_program(move |bytes| match bytes.len() > limit {
        true => lines(&judge_too_long(bytes)).into_bytes(),
        false => lines(&judge(bytes)).into_bytes(),
    })
}

/// A program that answers too many bytes in another way.
fn answering(other: impl Fn(&[u8]) -> Answer + Sync + 'static) -> Judges {
    with_program(move |bytes| match bytes.len() {
        ..=LARGEST_INPUT => right_program(bytes),
        _ => lines(&other(bytes)).into_bytes(),
    })
}

/// A library that judges so.
fn library(other: fn(&[u8]) -> Answer) -> Judges {
    let raw_judge =
        Box::new(move |bytes: &[u8], answer: &mut [u64]| into_five(answer, || other(bytes)));
    Judges { raw_judge, ..right() }
}

// What is looked at before the limit.

/// The section that an answer to too many bytes is about. The limit comes behind the front.
fn section(answer: Answer) -> u64 {
    match answer.number {
        2 => answer.place.expect("a section"),
        4..=7 => 1,
        8 => 2,
        9 | 10 | 17 => 4,
        _ => 5,
    }
}

/// Goes on to the limit past some refusals.
fn passing(bytes: &[u8], is_passed: impl Fn(Answer) -> bool) -> Answer {
    match judge_too_long(bytes) {
        answer if is_passed(answer) => refused(14),
        answer => answer,
    }
}

fn up_to_section(last: u64, bytes: &[u8]) -> Answer {
    passing(bytes, |answer| section(answer) > last)
}

fn layers_too(bytes: &[u8]) -> Answer {
    match judge(bytes) {
        answer if [0, 3, 11].contains(&answer.number) => refused(14),
        answer => answer,
    }
}

fn only_up_to_100_000(bytes: &[u8]) -> Answer {
    match bytes.len() {
        ..=100_000 => judge_too_long(bytes),
        _ => refused(14),
    }
}

fn placed(bytes: &[u8]) -> Answer {
    match judge_too_long(bytes) {
        answer if answer.number == 14 => refused_at(14, 65_536),
        answer => answer,
    }
}

fn limit_first(bytes: &[u8]) -> Answer {
    match bytes.len() {
        ..=LARGEST_INPUT => judge(bytes),
        _ => refused(14),
    }
}

/// What is wrong, what is answered to too many bytes, and where it shows.
type Wrong = (&'static str, fn(&[u8]) -> Answer, &'static [&'static str]);

const WRONG: [Wrong; 14] = [
    ("the limit comes before the front", limit_first, &[LIMIT, BAD]),
    ("the layers come before the limit", layers_too, &[LIMIT, GOOD]),
    ("section 1 alone comes before the limit", |bytes| up_to_section(1, bytes), &[BAD]),
    ("sections 1 and 2 come before the limit", |bytes| up_to_section(2, bytes), &[BAD]),
    ("sections 1 to 3 come before the limit", |bytes| up_to_section(3, bytes), &[BAD]),
    ("all counts of the front come before its values", readers::counts_first, &[BAD]),
    ("the front has no bytes", |_| judge(&[]), &[LIMIT, GOOD, BAD]),
    ("the front is zeros", |_| judge_too_long(&[0; 2_408]), &[LIMIT, GOOD, BAD]),
    ("the front lacks a byte", |bytes| judge_too_long(&bytes[..2_407]), &[GOOD, BAD]),
    (
        "what is over the limit is not read, and the rest is judged",
        |bytes| judge(&bytes[..LARGEST_INPUT]),
        &[LIMIT, GOOD],
    ),
    ("far more bytes are not looked at", only_up_to_100_000, &[LIMIT, BAD]),
    ("the limit has a place", placed, &[LIMIT, GOOD]),
    (
        "the front has no places",
        |bytes| Answer { place: None, ..judge_too_long(bytes) },
        &[LIMIT, BAD],
    ),
    ("the front has reads", |bytes| changed_at(3, judge_too_long(bytes)), &[LIMIT, GOOD, BAD]),
];

/// Each number with its section, and the smallest input for which it is due.
const AT_THE_FRONT: [([u64; 2], &str); 11] = [
    ([2, 1], "00 (65537 times)"),
    ([4, 1], "03, 00 (65536 times)"),
    ([5, 1], "03, 00 (3 times), 02, 00 (65532 times)"),
    ([6, 1], "03, 00 (3 times), 02, 00 (7 times), 01, 00 (65524 times)"),
    ([7, 1], "03, 00 (3 times), 02, 00 (7 times), 01, 00 (7 times), 02, 00 (65516 times)"),
    ([2, 2], "03, 00 (3 times), 02, 00 (7 times), 01, 00 (7 times), 01, 00 (65516 times)"),
    ([8, 2], "01, 00 (7 times), 03, 00 (65508 times)"),
    ([2, 3], "01, 00 (7 times), 02, 00 (65488 times)"),
    ([9, 4], "01, 00 (7 times), 02, 00 (7 times), 01, 00 (65480 times)"),
    ([10, 4], "02, 00 (7 times), 01, 00 (11 times), 02, 00 (11 times), 04, 00 (65456 times)"),
    ([17, 4], "02, 00 (7 times), 01, 00 (11 times), 02, 00 (65468 times)"),
];

fn named(of: &str, sorts: &[&str]) -> Vec<String> {
    sorts.iter().map(|name| format!("{of}, {name}")).collect()
}

/// Programs that pass one number in one section.
fn passing_each() -> impl Iterator<Item = Row<Judges>> {
    AT_THE_FRONT.into_iter().map(|(cause, smallest)| {
        let is_passed = move |answer: Answer| [answer.number, section(answer)] == cause;
        // No other fault at the front is among the lengths near the limit.
        let sorts = match cause {
            [2 | 4, 1] => &[LIMIT, BAD][..],
            _ => &[BAD],
        };
        let [number, section] = cause;
        let judges = answering(move |bytes| passing(bytes, is_passed));
        row(format!("{number} in section {section} is passed"), judges)
            .differs(&named("program", sorts))
            .smallest(format!("program, {BAD}"), smallest)
    })
}

/// The smallest front that passes: case G with one query, and without its challenge.
const SMALLEST_GOOD: &str = "65537 bytes: 03, 00 (3 times), 02, 00 (7 times), 01, 00 (7 times), \
    01, 00 (7 times), 03, 00 (11 times), 01, 00 (7 times), 02, 00 (7 times), 01, 00 (11 times), \
    01, 00 (65468 times)";

#[test]
fn the_limit_is_that_of_the_program() {
    let limits = [
        ("the limit is one less", LARGEST_INPUT - 1),
        ("the limit is one more", LARGEST_INPUT + 1),
        ("there is no limit", usize::MAX),
    ];
    let limits = limits.map(|(what, limit)| {
        row(what, with_limit(limit)).differs(&named("program", &[LIMIT, GOOD]))
    });
    let wrong = WRONG
        .map(|(what, other, sorts)| row(what, answering(other)).differs(&named("program", sorts)));
    let others = [
        row("the library has the limit", library(judge_of_program))
            .differs(&named("transcript", &[LIMIT, GOOD]))
            .smallest(GOOD, SMALLEST_GOOD),
        row("the library has the limit before the front", library(limit_first))
            .differs(&named("transcript", &OF_LENGTHS))
            .smallest(LIMIT, "65537 bytes: 00 (65537 times)"),
        row("bytes behind are taken", instead_of([3], readers::taking_behind))
            .differs(&[LIMIT, GOOD]),
    ];
    let rows = limits.into_iter().chain(wrong).chain(passing_each()).chain(others);
    let rows: Vec<Row<Judges>> = rows.collect();
    let sorts = SORTS.iter().filter(|sort| OF_LENGTHS.contains(&sort.0));
    let sorts: Vec<(&str, Vec<Bytes>)> =
        sorts.map(|sort| (sort.0, sort.byte_strings(&FEW))).collect();
    hold_table(&right(), &rows, |judges| {
        sorts.iter().flat_map(|(name, inputs)| both(judges, name, inputs)).collect()
    });
}
