//! Wrong libraries and wrong programs, and the comparisons that they differ in. No program is
//! started here: a function stands for it.

mod limit;
pub(in crate::compare) mod readers;

use super::inputs::Sort;
use super::*;
use crate::answer::{accepted, refused, refused_at};
use crate::compare::protocol::tests::together::{
    self, Find, LONG, NEAR, OTHER_CAUSES, PAIR, SEVERAL as SEVERAL_SHARED,
};
use crate::compare::wrong::{changed_at, hold_table, into_five, row, write_what_fits, Row};
use crate::transcript::LARGEST_INPUT;
use std::collections::BTreeSet;
use std::sync::LazyLock;

/// Few and small, since every wrong judge is compared with them.
const FEW: Amounts = Amounts {
    turns: 2,
    largest_k: 3,
    large: 4..=4,
    largest: &[[5, 1, 1]],
    long: &[[4, 1, 1], [4, 1, 3]],
};

// The reference in the place of the library and of the program, with a mistake.

/// A library and a program that judge so. The limit of the program is right.
pub fn judging(judge: impl Fn(&[u8]) -> Answer + Clone + Sync + 'static) -> Judges {
    let [by_value, by_list, printing] = [judge.clone(), judge.clone(), judge];
    Judges {
        judge: Box::new(by_value),
        raw_judge: Box::new(move |bytes, answer| into_five(answer, || by_list(bytes))),
        program: Box::new(move |bytes| match bytes.len() {
            ..=LARGEST_INPUT => lines(&printing(bytes)).into_bytes(),
            _ => right_program(bytes),
        }),
    }
}

pub fn right() -> Judges {
    judging(judge)
}

fn right_program(bytes: &[u8]) -> Vec<u8> {
    lines(&judge_of_program(bytes)).into_bytes()
}

/// Judges that give another answer in place of those with some numbers.
fn instead_of(
    numbers: impl IntoIterator<Item = u64>,
    other: impl Fn(&[u8], Answer) -> Answer + Clone + Sync + 'static,
) -> Judges {
    let numbers: Vec<u64> = numbers.into_iter().collect();
    judging(move |bytes| match judge(bytes) {
        answer if numbers.contains(&answer.number) => other(bytes, answer),
        answer => answer,
    })
}

fn with_program(program: impl Fn(&[u8]) -> Vec<u8> + Sync + 'static) -> Judges {
    Judges { program: Box::new(program), ..right() }
}

/// A program that prints the right text after a change.
fn printing(change: impl Fn(&str) -> String + Sync + 'static) -> Judges {
    with_program(move |bytes| change(&lines(&judge_of_program(bytes))).into_bytes())
}

// Sorts of byte strings, and what they are refused for.

pub const HONEST: &str = "honest runs";
const EACH: &str = "each entry damaged, all cosets";
pub const CUT: &str = "cut at every byte";
const CUT_NEAR: &str = "cut near every section";
pub const BEHIND: &str = "bytes behind the last section";
const COUNTS: &str = "another count";
const FLIPPED: &str = "every bit flipped";
const FRONT: &str = "any bytes behind a right front";
const PARAMETERS: &str = "a parameter out of range";
pub const BASES: &str = "a dependent basis";
const QUERIES: &str = "counts of queries";
pub const OUTSIDE: &str = "queries out of range";
const POWERS: &str = "powers of two as queries";
const SEVERAL: &str = "several causes";
const SHARED_DAMAGED: &str = "queries in one coset of damaged runs";
const FAULTS: &str = "queries in one coset and faults behind them";
pub const LIMIT: &str = "lengths near the limit and far longer";
const GOOD_FRONT: &str = "long inputs with a good front";
const BAD_FRONT: &str = "long inputs with a bad front";

/// The sorts in which the length counts.
const OF_LENGTHS: [&str; 3] = [LIMIT, GOOD_FRONT, BAD_FRONT];

/// The numbers that are due among the byte strings of each sort.
const DUE: [(&str, &[u64]); 36] = [
    (HONEST, &[0]),
    ("honest runs of large parameters", &[0]),
    ("honest runs of the largest parameters", &[0]),
    ("honest folds of too high a degree", &[0, 11]),
    ("each entry damaged, each query alone", &[0, 11]),
    (EACH, &[0, 11]),
    ("some entries damaged", &[0, 11]),
    ("some entries of large parameters damaged", &[0, 11]),
    ("another challenge", &[0, 11]),
    (CUT, &[1]),
    (CUT_NEAR, &[1]),
    (BEHIND, &[3]),
    (COUNTS, &[1, 2, 9, 10]),
    ("fewer or more entries", &[0, 2, 9, 17]),
    ("sections out of order", &[1, 2, 3, 4, 8, 10, 17]),
    (FLIPPED, &[0, 1, 2, 4, 5, 6, 7, 8, 9, 10, 11, 17]),
    ("any bytes", &[1, 2]),
    (FRONT, &[1, 2, 3, 4, 5, 6, 8, 9, 10, 11, 17]),
    ("any entries", &[10, 11]),
    (PARAMETERS, &[4, 5, 6]),
    ("all parameters", &[0, 2, 4, 5, 6, 7]),
    (BASES, &[8]),
    (QUERIES, &[0, 9, 11, 17]),
    (OUTSIDE, &[9, 10]),
    (POWERS, &[0, 10]),
    (PAIR, &[17]),
    (SEVERAL_SHARED, &[0, 11, 17]),
    (NEAR, &[0, 11, 17]),
    (OTHER_CAUSES, &[9, 10]),
    (SHARED_DAMAGED, &[17]),
    (LONG, &[0, 11, 17]),
    (FAULTS, &[1, 2, 9, 10, 17]),
    (SEVERAL, &[1, 2, 3, 4, 5, 6, 7, 8, 9, 10, 17]),
    (LIMIT, &[0, 1, 2, 3, 4, 11]),
    (GOOD_FRONT, &[0, 1, 2, 3, 11]),
    (BAD_FRONT, &[2, 4, 5, 6, 7, 8, 9, 10, 17]),
];

/// All of them, but that few runs may all be accepted or all fail. The same byte strings come each
/// time.
#[test]
fn the_numbers_are_due() {
    for (sort, (name, due)) in SORTS.iter().zip(DUE) {
        let inputs = sort.byte_strings(&FEW);
        assert!(sort.0 == name && inputs == sort.byte_strings(&FEW));
        let (due, met) = (due.iter().copied().collect(), numbers_due(&inputs));
        assert!(met.is_subset(&due), "{name}: {met:?}");
        assert!(due.difference(&met).all(|number| [0, 11].contains(number)), "{name}: {met:?}");
    }
}

fn numbers_due(inputs: &[Bytes]) -> BTreeSet<u64> {
    inputs.iter().map(|bytes| judge(bytes).number).collect()
}

/// But for the largest parameters, which would take long here.
#[test]
fn there_are_twenty_thousand_byte_strings() {
    let amounts = Amounts { large: 3..=3, largest: &[], ..FULL };
    let all = SORTS.iter().flat_map(|sort| sort.byte_strings(&amounts));
    let different: BTreeSet<Bytes> = all.collect();
    assert!(different.len() > 20_000, "{}", different.len());
}

/// What wrong judges are compared with: the byte strings of each sort, and the numbers that are
/// due for them. The sorts that cost much are left out, and so is what takes many reads; of many
/// byte strings only some are taken.
static INPUTS: LazyLock<Vec<(&str, Vec<Bytes>, BTreeSet<u64>)>> = LazyLock::new(|| {
    let costs_much = |name| name == FLIPPED || OF_LENGTHS.contains(&name);
    let sorts = SORTS.iter().filter(|sort| !costs_much(sort.0));
    let with_numbers = |sort: &Sort| {
        let mut inputs = sort.byte_strings(&FEW);
        inputs.retain(|bytes| judge(bytes).reads <= MOST_READS);
        let every = inputs.len().div_ceil(MOST_INPUTS);
        let inputs: Vec<Bytes> = inputs.into_iter().step_by(every).collect();
        let numbers = numbers_due(&inputs);
        (sort.0, inputs, numbers)
    };
    sorts.map(with_numbers).collect()
});

/// Far more than a few queries take here.
const MOST_READS: u64 = 100;

const MOST_INPUTS: usize = 700;

/// The sorts in which some of the numbers are due, of the library, of the program, or of both.
fn with_numbers(of: &str, numbers: impl IntoIterator<Item = u64>) -> Vec<String> {
    let numbers: BTreeSet<u64> = numbers.into_iter().collect();
    let sorts = INPUTS.iter().filter(|(_, _, due)| !due.is_disjoint(&numbers));
    sorts.map(|(name, ..)| format!("{of}, {name}")).collect()
}

// Judges that read rightly and answer wrongly.

type Place = fn(Option<u64>) -> Option<u64>;

/// What is wrong, with which numbers, the place in an answer with these, and the smallest input.
const WRONG_PLACES: [(&str, &[u64], Place, &str); 8] = [
    ("sections are counted from 0", &[1, 2], |section| Some(section? - 1), "0 bytes: nothing"),
    ("sections are not named", &[2], |_| None, "4 bytes: 00 (4 times)"),
    ("the offset counts as an element", &[8], |place| Some(place? + 1), "56 bytes: 03"),
    ("the count of queries has a section", &[9], |_| Some(4), "72 bytes: 03"),
    ("bytes behind have a section", &[3], |_| Some(8), "137 bytes: 03"),
    ("queries out of range count from 1", &[10], |query| Some(query? + 1), "104 bytes: 03"),
    ("queries that fail count from 1", &[11], |query| Some(query? + 1), "128 bytes: 03"),
    ("queries in one coset count from 1", &[17], |query| Some(query? + 1), "96 bytes: 03"),
];

fn wrong_answers() -> Vec<Row<Judges>> {
    let mut rows = Vec::new();
    for (what, numbers, place, smallest) in WRONG_PLACES {
        let numbers = || numbers.iter().copied();
        let judges = instead_of(numbers(), move |_, a| Answer { place: place(a.place), ..a });
        let names = with_numbers("", numbers());
        rows.push(row(what, judges).differs(&names).smallest(&names[0], smallest));
    }
    for &number in REFUSED {
        let accepting = instead_of([number], |_, _| accepted(0));
        let names = with_numbers("", [number]);
        rows.push(row(format!("{number} is left out"), accepting).differs(&names));
    }
    for place in 0..5 {
        // What is printed has no value.
        let of = if place == 4 { "transcript" } else { "" };
        let names = with_numbers(of, ALL.iter().copied());
        let changed = judging(move |bytes| changed_at(place, judge(bytes)));
        rows.push(row(format!("number {place} of five is wrong"), changed).differs(&names));
    }
    let taken_for_2 = instead_of([1], |_, answer| Answer { number: 2, ..answer });
    rows.push(row("1 is taken for 2", taken_for_2).differs(&with_numbers("", [1])));
    rows
}

// Programs that are wrong by themselves.

/// All numbers that are due, and those of refusals.
const ALL: &[u64] = &[0, 1, 2, 3, 4, 5, 6, 7, 8, 9, 10, 11, 17];
const REFUSED: &[u64] = ALL.split_at(1).1;

/// The numbers of answers without a round, and those of refusals without reads.
const NO_ROUND: &[u64] = &[0, 1, 2, 3, 4, 5, 6, 7, 8, 9, 10, 17];
const NO_READS: &[u64] = NO_ROUND.split_at(1).1;

/// What is wrong, the text that is printed, and the numbers that it shows with.
const WRONG_TEXTS: [(&str, fn(&str) -> String, &[u64]); 13] = [
    ("no header", |text| text.split_inclusive('\n').skip(1).collect(), ALL),
    ("the header alone", |text| text.split_inclusive('\n').take(1).collect(), ALL),
    ("no end of the last line", |text| text.trim_end().to_string(), ALL),
    ("a blank line behind", |text| format!("{text}\n"), ALL),
    ("returns", |text| text.replace('\n', "\r\n"), ALL),
    ("tabs", |text| text.replace(' ', "\t"), ALL),
    ("all twice", |text| text.repeat(2), ALL),
    ("nothing", |_| String::new(), ALL),
    ("another word for accepted", |text| text.replace("accepted", "accept"), &[0]),
    ("another word for refused", |text| text.replace("refused", "rejected"), REFUSED),
    ("all refused", |text| text.replace("accepted 0", "refused 0"), &[0]),
    ("zero for no place", |text| text.replace('-', "0"), NO_ROUND),
    ("a hyphen for no reads", |text| text.replace(" 0\n", " -\n"), NO_READS),
];

/// All numbers of a text in hexadecimal.
fn hexadecimal(text: &str) -> String {
    let shown = |word: &str| match word.parse::<u64>() {
        Ok(number) => format!("{number:x}"),
        Err(_) => word.to_string(),
    };
    let line = |line: &str| line.split(' ').map(shown).collect::<Vec<String>>().join(" ") + "\n";
    text.lines().map(line).collect()
}

fn wrong_programs() -> Vec<Row<Judges>> {
    let texts = WRONG_TEXTS.into_iter();
    let mut rows: Vec<Row<Judges>> = texts
        .map(|(what, change, numbers)| {
            row(what, printing(change)).differs(&with_numbers("program", numbers.iter().copied()))
        })
        .collect();
    rows.push(
        row("numbers are hexadecimal", printing(hexadecimal))
            .differs(&with_numbers("program", [10, 11, 17]))
            .differs(&[format!("program, {HONEST}")])
            .agrees(&[CUT, BASES]),
    );
    rows
}

#[test]
fn wrong_judges_differ_as_they_should() {
    let rows = [wrong_answers(), readers::rows(), readers::shared_cosets(), wrong_programs()];
    let rows: Vec<Row<Judges>> = rows.into_iter().flatten().collect();
    hold_table(&right(), &rows, |judges| {
        INPUTS.iter().flat_map(|(name, inputs, _)| both(judges, name, inputs)).collect()
    });
}

// All comparisons.

/// Those of the program fail for a wrong program, and those of the library for a wrong library.
/// Neither hides the other.
#[test]
fn every_comparison_fails_for_some_wrong_judge() {
    let all = comparisons(&right(), &FEW).comparisons;
    let names = all.iter().map(|comparison| comparison.name);
    let (library, program): (Vec<&str>, Vec<&str>) =
        names.partition(|name| name.starts_with("transcript"));
    let refusing = Judges {
        raw_judge: Box::new(|_, answer| write_what_fits(refused(18), answer)),
        judge: Box::new(|_| refused(18)),
        ..right()
    };
    let any_length =
        Box::new(|bytes: &[u8], answer: &mut [u64]| write_what_fits(judge(bytes), answer));
    let other_length = "transcript with an answer list of another length";
    let rows = [
        row("nothing is printed", with_program(|_| Vec::new())).differs(&program),
        row("all is refused", refusing).differs(&library),
        row("the length of the answer does not count", Judges { raw_judge: any_length, ..right() })
            .differs(&[other_length])
            .smallest(other_length, "0 bytes: nothing; answer of length 1,"),
    ];
    hold_table(&right(), &rows, |judges| comparisons(judges, &FEW).comparisons);
}
