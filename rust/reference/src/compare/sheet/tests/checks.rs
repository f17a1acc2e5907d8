//! Sheets with right lines of wrong checks.

use super::*;
use crate::compare::protocol::tests::{Folding, FIRST_BASIS, HALVES, PLAIN_POINTS};
use crate::compare::transcript::tests::readers::sections_of;
use crate::protocol::{checks, Check, Run};
use crate::sheet::lines;
use crate::transcript::{read, written, Judging, Section};

/// A sheet that is made of what a transcript carries, where that may be judged.
pub fn of_judging(text: impl Fn(&Judging) -> Vec<u8> + Clone + Sync + 'static) -> Sheets {
    having(move |bytes| read(bytes).map_or_else(|_| Vec::new(), |judging| text(&judging)))
}

/// The right lines of other checks.
fn checking(other: impl Fn(&Run, &[Check]) -> Vec<Check> + Clone + Sync + 'static) -> Sheets {
    of_judging(move |Judging { run, queries }| lines(&other(run, &checks(run, queries))))
}

/// What is wrong, the change, and where it shows.
type Wrong<C> = (&'static str, C, &'static [&'static str]);

// Which checks there are, and in which order.

type Checks = fn(&[Check]) -> Vec<Check>;

const OTHER_CHECKS: [Wrong<Checks>; 9] = [
    ("the sheet ends at the first that fails", up_to_failing, &[LAYER, MANY]),
    ("a query ends at its first that fails", |all| by_query(all, up_to_failing), &[LAYER, MANY]),
    (
        "the sheet ends behind the first query that fails",
        |all| {
            let failing = all.iter().find(|check| !check.passes());
            let last = failing.map_or(u64::MAX, |check| check.query);
            all.iter().copied().filter(|check| check.query <= last).collect()
        },
        &[LAYER, MANY],
    ),
    ("only what fails has a line", |all| only(all, |check| !check.passes()), &[HONEST, LAYER]),
    ("only what passes has a line", |all| only(all, Check::passes), &[LAYER, MANY]),
    (
        "each query has one line",
        |all| by_query(all, |of_query| of_query[of_query.len() - 1..].to_vec()),
        &[ROUNDS, LAYER, MANY],
    ),
    ("by round, then query", |all| sorted(all, |c| [c.round, c.query]), &[ROUNDS, LAYER, MANY]),
    ("by index", |all| sorted(all, |c| [c.index, c.round]), &[HONEST, LAYER, MANY, QUERIES]),
    (
        "rounds from the last one down",
        |all| sorted(all, |c| [c.query, u64::MAX - c.round]),
        &[ROUNDS, LAYER, MANY],
    ),
];

fn up_to_failing(all: &[Check]) -> Vec<Check> {
    let failing = all.iter().position(|check| !check.passes());
    all[..failing.map_or(all.len(), |place| place + 1)].to_vec()
}

fn by_query(all: &[Check], some: fn(&[Check]) -> Vec<Check>) -> Vec<Check> {
    all.chunk_by(|one, other| one.query == other.query).flat_map(some).collect()
}

fn only(all: &[Check], kept: fn(&Check) -> bool) -> Vec<Check> {
    all.iter().copied().filter(kept).collect()
}

fn sorted(all: &[Check], key: fn(&Check) -> [u64; 2]) -> Vec<Check> {
    let mut all = all.to_vec();
    all.sort_by_key(key);
    all
}

// What a check holds.

type Column = fn(&Run, Check) -> Check;

const OTHER_COLUMNS: [Wrong<Column>; 8] = [
    (
        "the values change places",
        |_, c| Check { computed: c.found, found: c.computed, ..c },
        &[LAYER, MANY, LAST_QUERY, WIDTHS],
    ),
    (
        "the index is that of the layer",
        |run, c| Check { index: run.parameters.index(c.index, c.round), ..c },
        &[ROUNDS, LAYER, MANY, QUERIES],
    ),
    (
        "the index is that of the next layer",
        |run, c| Check { index: run.parameters.index(c.index, c.round + 1), ..c },
        &[ROUNDS, LAYER, MANY, QUERIES, WIDTHS, HONEST],
    ),
    (
        "the index is that of the first in the coset",
        |run, c| Check { index: c.index >> run.parameters.step << run.parameters.step, ..c },
        &[HONEST, LAYER, MANY],
    ),
    ("the query is the index", |_, c| Check { query: c.index, ..c }, &[HONEST, LAYER, MANY]),
    ("the index is the query", |_, c| Check { index: c.query, ..c }, &[HONEST, LAYER, MANY]),
    (
        "values have 32 bits",
        |_, c| Check { computed: c.computed as u32 as u64, found: c.found as u32 as u64, ..c },
        &[HONEST, LAYER, WIDTHS],
    ),
    (
        "only the last round is checked",
        |run, c| match c.round + 1 == run.parameters.rounds() {
            true => c,
            false => Check { found: c.computed, ..c },
        },
        &[LAYER, MANY, LAST_QUERY],
    ),
];

// Where the values come from.

/// The runs that the values computed and the values found come from.
type Runs = [fn(Run) -> Run; 2];

const OTHER_RUNS: [Wrong<Runs>; 9] = [
    ("the word is folded on", [Run::made_honest, same], &[LAYER, MANY]),
    ("what is found is honest", [same, Run::made_honest], &[LAYER, MANY]),
    ("all is honest", [Run::made_honest; 2], &[LAYER, MANY]),
    ("one challenge for all rounds", [with_one_challenge, same], &[ROUNDS, LAYER, MANY]),
    ("no offset", [without_offset, same], &[HONEST, LAYER, MANY]),
    ("points from 0 on", [with_points_from_0, same], &[HONEST, LAYER, MANY]),
    ("the last polynomial at points from 0 on", [same, with_points_from_0], &[LAYER, MANY]),
    ("the constant stands for the last polynomial", [same, with_constant], &[LAYER, MANY]),
    ("the last polynomial the other way round", [same, with_last_reversed], &[LAYER, MANY]),
];

fn same(run: Run) -> Run {
    run
}

fn with_one_challenge(mut run: Run) -> Run {
    let first = run.challenges[0];
    run.challenges.fill(first);
    run
}

fn without_offset(run: Run) -> Run {
    Run { offset: 0, ..run }
}

fn with_points_from_0(run: Run) -> Run {
    let basis = (0..run.parameters.k).map(|place| 1 << place).collect();
    Run { offset: 0, basis, ..run }
}

fn with_constant(mut run: Run) -> Run {
    run.last[1..].fill(0);
    run
}

fn with_last_reversed(mut run: Run) -> Run {
    run.last.reverse();
    run
}

/// The paper's wrong turnings.
const FOLDINGS: [(&str, Folding); 3] = [HALVES, FIRST_BASIS, PLAIN_POINTS];

fn folding(folding: Folding) -> Sheets {
    checking(move |run, all| {
        let with_other = |check: &Check| {
            let Check { index, round, .. } = *check;
            let used = run.parameters.coset_used(index, round) as usize;
            let computed = folding.entry(run, round as usize, run.layer(round), used);
            Check { computed, ..*check }
        };
        all.iter().map(with_other).collect()
    })
}

/// Values of the checks of other runs.
fn with_values_of(runs: Runs) -> Sheets {
    of_judging(move |Judging { run, queries }| {
        let [computed, found] = runs.map(|of| checks(&of(run.clone()), queries));
        let both = computed.iter().zip(&found);
        let all: Vec<Check> = both.map(|(c, other)| Check { found: other.found, ..*c }).collect();
        lines(&all)
    })
}

pub fn rows() -> Vec<Row<Sheets>> {
    let without_lines = named(&[CUT, BEHIND, BASES, OUTSIDE]);
    let wrong = |what: &str, sheets, differ: &[&str]| {
        row(what, sheets).differs(&named(differ)).agrees(&without_lines)
    };
    let others = OTHER_CHECKS
        .map(|(what, other, differ)| wrong(what, checking(move |_, all| other(all)), differ));
    let columns = OTHER_COLUMNS.map(|(what, other, differ)| {
        let each = checking(move |run, all| all.iter().map(|&c| other(run, c)).collect());
        wrong(what, each, differ)
    });
    let runs = OTHER_RUNS.map(|(what, runs, differ)| wrong(what, with_values_of(runs), differ));
    let folds = FOLDINGS.map(|(what, other)| wrong(what, folding(other), &[ROUNDS, LAYER, MANY]));
    others.into_iter().chain(columns).chain(runs).chain(folds).collect()
}

// Lines where there should be none, or none where there should be.

/// Has another sheet where some numbers are due.
fn instead_of(
    numbers: &'static [u64],
    other: impl Fn(&[u8]) -> Vec<u8> + Clone + Sync + 'static,
) -> Sheets {
    having(move |bytes| match numbers.contains(&judge(bytes).number) {
        true => other(bytes),
        false => sheet(bytes),
    })
}

/// The sheet of each query alone, as if nothing were wrong with the list of them. One that is out
/// of range has no lines.
fn of_queries_alone(bytes: &[u8]) -> Vec<u8> {
    let sections = sections_of(bytes);
    let alone = |(place, &query): (usize, &u64)| {
        let mut sections = sections.clone();
        sections[3] = Section::of(&[query]);
        let sheet = String::from_utf8(sheet(&written(&sections))).expect("a text");
        let line = |line: &str| format!("{place:5}{}\n", &line[5..]);
        sheet.lines().map(line).collect::<String>().into_bytes()
    };
    sections[3].entries.iter().enumerate().flat_map(alone).collect()
}

/// The sheet without the bytes behind the last section.
fn without_what_is_behind(bytes: &[u8]) -> Vec<u8> {
    let sections = sections_of(bytes);
    sheet(&written(&sections[..5 + sections[2].entries.len()]))
}

pub fn of_refused() -> Vec<Row<Sheets>> {
    let refused = |number: u64| ![0, 11].contains(&number);
    let a_line = having(|bytes| match judge(bytes).number {
        0 | 11 => sheet(bytes),
        number => format!("refused {number}\n").into_bytes(),
    });
    let nothing = |numbers| instead_of(numbers, |_| Vec::new());
    vec![
        row("what is refused has a line", a_line).differs(&with_numbers(refused)),
        row("only what is accepted has lines", nothing(&[11])).differs(&with_failing()),
        row("only what fails has lines", nothing(&[0]))
            .differs(&with_numbers(|number| number == 0)),
        row("queries in one coset have lines", instead_of(&[17], of_queries_alone))
            .differs(&with_numbers(|number| number == 17)),
        row("queries in range have lines", instead_of(&[10], of_queries_alone))
            .differs(&named(&[OUTSIDE]))
            .agrees(&named(&[HONEST, CUT, BEHIND, LAYER])),
        row("bytes behind do not count", instead_of(&[3], without_what_is_behind))
            .differs(&with_numbers(|number| number == 3)),
    ]
}
