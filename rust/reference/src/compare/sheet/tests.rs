//! Wrong sheets, and the comparisons that they differ in.

mod checks;
mod lists;
mod texts;

use super::*;
use crate::answer::{accepted, failed, refused, Answer};
use crate::compare::protocol::tests::together::PAIR;
use crate::compare::transcript::tests::{
    self as of_judges, BASES, BEHIND, CUT, HONEST, LIMIT, OUTSIDE,
};
use crate::compare::wrong::{hold_table, row, Row};
use crate::transcript::{judge, LARGEST_INPUT};
use std::sync::LazyLock;

/// Few and small, since every wrong sheet is compared with them.
const FEW: Amounts = Amounts {
    judged: transcript::Amounts {
        turns: 2,
        largest_k: 3,
        large: 4..=4,
        largest: &[[5, 1, 1]],
        long: &[[4, 1, 1], [4, 1, 3]],
    },
    most: 20,
    damaged: 5,
    rounds: [5, 5, 4],
    longest: &[[5, 1, 1]],
};

// The reference in the place of the library and of the program, with a mistake.

/// A library and a program that have such sheets. The limit of the program is right.
fn having(sheet: impl Fn(&[u8]) -> Vec<u8> + Clone + Sync + 'static) -> Sheets {
    let [whole, written, printing] = [sheet.clone(), sheet.clone(), sheet];
    Sheets {
        sheet: Box::new(whole),
        sheet_into: Box::new(move |bytes, list| lending::write(&written(bytes), list)),
        program: Box::new(move |bytes| match bytes.len() {
            ..=LARGEST_INPUT => printing(bytes),
            _ => Vec::new(),
        }),
        judges: of_judges::right(),
    }
}

fn right() -> Sheets {
    having(sheet)
}

fn with_program(program: impl Fn(&[u8]) -> Vec<u8> + Sync + 'static) -> Sheets {
    Sheets { program: Box::new(program), ..right() }
}

// Sorts of byte strings.

const LAYER: &str = "one layer or challenge damaged";
const MANY: &str = "many entries damaged";
const LAST_QUERY: &str = "damage that the last query alone meets";
const WIDTHS: &str = "values of every width";
const ROUNDS: &str = "every number of rounds";
const QUERIES: &str = "as many queries as there may be";
const NEAR_LIMIT: &str = "nearly too long for the program";

static ALL: LazyLock<Vec<Sort>> = LazyLock::new(|| inputs::sorts(&FEW).collect());

/// The sorts that wrong sheets are compared with: honest runs, some that are refused, and those
/// that only sheets have.
const WATCHED: [&str; 12] =
    [HONEST, CUT, BEHIND, BASES, OUTSIDE, PAIR, LAYER, MANY, LAST_QUERY, WIDTHS, ROUNDS, QUERIES];

fn watched() -> impl Iterator<Item = &'static Sort> {
    ALL.iter().filter(|(name, _)| WATCHED.contains(name))
}

/// The names of those in which some of the numbers are due.
fn with_numbers(numbers: impl Fn(u64) -> bool) -> Vec<String> {
    let has_some = |inputs: &[Bytes]| inputs.iter().any(|bytes| numbers(judge(bytes).number));
    let sorts = watched().filter(|(_, inputs)| has_some(inputs));
    sorts.map(|(name, _)| format!(", {name}")).collect()
}

/// Those with lines.
fn with_lines() -> Vec<String> {
    with_numbers(|number| [0, 11].contains(&number))
}

/// Those with lines of checks that fail.
fn with_failing() -> Vec<String> {
    with_numbers(|number| number == 11)
}

fn named(names: &[&str]) -> Vec<String> {
    names.iter().map(|name| format!(", {name}")).collect()
}

/// All of them are wrong in the library as they are in the program, which is compared here.
#[test]
fn wrong_sheets_differ_as_they_should() {
    let rows = [texts::rows(), checks::rows(), checks::of_refused()];
    let rows: Vec<Row<Sheets>> = rows.into_iter().flatten().collect();
    hold_table(&right(), &rows, |sheets| {
        watched().map(|(name, inputs)| of_program(sheets, names(name)[1], inputs)).collect()
    });
}

// How much is taken.

fn with_limit(limit: usize) -> Sheets {
    with_program(move |bytes| match bytes.len() > limit {
        true => Vec::new(),
        false => sheet(bytes),
    })
}

#[test]
fn the_limit_is_that_of_the_program() {
    let cut = with_program(|bytes| sheet(&bytes[..bytes.len().min(LARGEST_INPUT)]));
    let line = with_program(|bytes| match bytes.len() {
        ..=LARGEST_INPUT => sheet(bytes),
        _ => b"refused 14 - - 0\n".to_vec(),
    });
    let sheet_into =
        Box::new(|bytes: &[u8], list: &mut [u8]| lending::write(&sheet_of_program(bytes), list));
    let [of_library, of_program] = names(NEAR_LIMIT);
    let [_, any_of_program] = names(LIMIT);
    let rows = [
        row("the limit is one less", with_limit(LARGEST_INPUT - 1))
            .differs(&[of_program, any_of_program]),
        row("the limit is four more", with_limit(LARGEST_INPUT + 4)).differs(&[of_program]),
        row("there is no limit", with_limit(usize::MAX)).differs(&[of_program, any_of_program]),
        row("what is over the limit is not read", cut).differs(&[any_of_program]),
        row("what is too long has a line", line).differs(&[of_program, any_of_program]),
        row("the library has the limit", Sheets { sheet_into, ..right() })
            .differs(&[of_library])
            .smallest(of_library, "65540 bytes: 03"),
    ];
    let rows = rows.map(Row::among_others);
    let amounts = Amounts { most: usize::MAX, ..FEW };
    let sorts = inputs::sorts(&amounts).filter(|sort| [LIMIT, NEAR_LIMIT].contains(&sort.0));
    let sorts: Vec<Sort> = sorts.collect();
    hold_table(&right(), &rows, |sheets| {
        sorts.iter().flat_map(|(name, inputs)| both(sheets, name, inputs)).collect()
    });
}

// All comparisons.

const LONGER: &str = "sheet, longer lists";
const TOO_SHORT: &str = "sheet, lists that are too short";
const SAFE: &str = "sheet, safe calls";
const CASES: &str = "sheet, cases G to L of table A";
const BESIDE: [&str; 2] = ["sheet, beside the verdict", "sheet program, beside the verdict"];

/// Those of the program fail for a wrong program, and those of the library for a wrong library.
/// Neither hides the other.
#[test]
fn every_comparison_fails_for_some_wrong_sheet() {
    let comparisons = |sheets: &Sheets| of_sorts(sheets, ALL.iter().cloned()).comparisons;
    let all = comparisons(&right());
    let names = all.iter().map(|comparison| comparison.name);
    let (of_program, of_library): (Vec<&str>, Vec<&str>) =
        names.partition(|name| name.starts_with("sheet program"));
    let whole = [SAFE, CASES, BESIDE[0]];
    let into_lists: Vec<&str> =
        of_library.into_iter().filter(|name| !whole.contains(name)).collect();
    let a_line = |_: &[u8]| b"a line".to_vec();
    let one_more = |bytes: &[u8], list: &mut [u8]| 1 + lending::write(&sheet(bytes), list);
    let rows = [
        row("a line is printed", with_program(a_line)).differs(&of_program),
        row("the sheet is a line", Sheets { sheet: Box::new(a_line), ..right() }).differs(&whole),
        row("one more is answered", Sheets { sheet_into: Box::new(one_more), ..right() })
            .differs(&into_lists),
    ];
    hold_table(&right(), &rows, comparisons);
}

// Lists and verdicts.

/// With the right sheets in the right lists, wrong ones show where these are looked at alone.
#[test]
fn wrong_lists_and_wrong_verdicts_differ_as_they_should() {
    let inputs: Vec<Bytes> = watched().flat_map(|(_, inputs)| inputs.clone()).collect();
    let rows: Vec<Row<Sheets>> = lists::rows().into_iter().chain(other_verdicts()).collect();
    hold_table(&right(), &rows, |sheets| {
        let [longer, too_short, _] = of_the_library(sheets, inputs.clone());
        let [of_library, of_program] = verdict::comparisons(sheets, &inputs);
        vec![longer, too_short, of_library, of_program]
    });
}

/// What is wrong, and the verdict.
type Verdict = (&'static str, fn(Answer) -> Answer);

const OTHER_VERDICTS: [Verdict; 6] = [
    ("what fails is accepted", |answer| match answer.number {
        11 => accepted(answer.reads),
        _ => answer,
    }),
    ("what passes is refused", |answer| match answer.number {
        0 => failed(0, 0, answer.reads),
        _ => answer,
    }),
    ("the next query is named", |answer| match answer.number {
        11 => Answer { place: answer.place.map(|query| query + 1), ..answer },
        _ => answer,
    }),
    ("the next round is named", |answer| match answer.number {
        11 => Answer { round: answer.round.map(|round| round + 1), ..answer },
        _ => answer,
    }),
    ("what has no lines is accepted", |answer| match answer.number {
        0 | 11 => answer,
        _ => accepted(0),
    }),
    ("what has lines is refused for another cause", |answer| match answer.number {
        0 | 11 => refused(3),
        _ => answer,
    }),
];

fn other_verdicts() -> Vec<Row<Sheets>> {
    let judging = |other: fn(Answer) -> Answer| Sheets {
        judges: of_judges::judging(move |bytes| other(judge(bytes))),
        ..right()
    };
    OTHER_VERDICTS.map(|(what, other)| row(what, judging(other)).differs(&BESIDE)).into()
}
