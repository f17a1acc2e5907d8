//! The comparisons of the judge over the bytes of a transcript and of the program, with the same
//! byte strings.

pub(super) mod bytes;
pub(super) mod inputs;
mod table_a;
pub(super) mod tally;

use super::field::answered::{answered, compare_answers, Answered};
use super::lent::other_answer_lengths;
use super::program::{printed, Printed};
use super::{compare, compare_on_threads, library, Comparison};
use super::{REFERENCE_AND_LIBRARY, REFERENCE_AND_PROGRAM};
use crate::answer::{Answer, ANSWER_LENGTH};
use crate::transcript::{judge, judge_of_program, lines};
use bytes::Bytes;
use inputs::SORTS;
use std::ops::RangeInclusive;
use tally::Tally;

type Judge = Box<dyn Fn(&[u8]) -> Answer + Sync>;

/// The judges under test: those of the library, and the program.
pub struct Judges {
    pub(super) judge: Judge,
    /// Takes the list for the answer too.
    raw_judge: Box<dyn Fn(&[u8], &mut [u64]) + Sync>,
    /// Takes what the program reads and gives what it prints.
    pub(super) program: Box<dyn Fn(&[u8]) -> Vec<u8> + Sync>,
}

impl Judges {
    /// Those of the verified library, and the verified program.
    pub fn razgwilh() -> Judges {
        Judges {
            judge: Box::new(library::judge_transcript),
            // Nothing says that bytes lie at an even place: these do not.
            raw_judge: Box::new(|bytes, answer| {
                let lent = [&[0xa5], bytes].concat();
                library::raw_judge_transcript(&lent[1..], answer)
            }),
            program: Box::new(|bytes| printed("judge", bytes)),
        }
    }
}

/// How much is compared. How many inputs of each sort there are stands with the sorts.
pub struct Amounts {
    /// At most so many of one sort with the same parameters.
    pub turns: usize,
    /// The largest dimension, but for what is large.
    pub largest_k: u64,
    /// Dimensions that come with all rates and steps, once.
    pub large: RangeInclusive<u64>,
    /// Dimensions, rates and steps with which a transcript is too long for the program.
    pub largest: &'static [[u64; 3]],
    /// Those of runs with the longest query lists.
    pub long: &'static [[u64; 3]],
}

/// The amounts that the program of this package takes.
pub const FULL: Amounts = Amounts {
    turns: usize::MAX,
    largest_k: 8,
    large: 8..=12,
    largest: &[
        [13, 2, 1],
        [13, 6, 3],
        [14, 1, 2],
        [14, 4, 1],
        [15, 3, 3],
        [15, 1, 1],
        [16, 1, 1],
        [16, 6, 2],
        [16, 5, 3],
        [20, 6, 3],
    ],
    long: &[[9, 2, 1], [10, 1, 2], [11, 3, 3]],
};

/// The comparisons of this file and of those under it, and a table of the byte strings that were
/// compared.
pub struct Compared {
    pub comparisons: Vec<Comparison>,
    pub table: String,
}

/// Runs all comparisons. No byte string is compared twice, but for those of table A and for what
/// else is asked of the library alone.
pub fn comparisons(judges: &Judges, amounts: &Amounts) -> Compared {
    let mut tally = Tally::default();
    let (mut comparisons, mut some) = (Vec::new(), Vec::new());
    for sort in &SORTS {
        let inputs = tally.only_new(sort.byte_strings(amounts));
        comparisons.extend(both(judges, sort.0, &inputs));
        some.extend(inputs.into_iter().step_by(7));
    }
    comparisons.extend(of_the_library(judges, &some));
    comparisons.extend(table_a::comparisons(judges));
    Compared { comparisons, table: tally.text("transcripts") }
}

/// The names of the comparisons of the library and of the program. There are few, and they live
/// as long as the program.
fn names(what: &str) -> [&'static str; 2] {
    ["transcript", "program"].map(|of| &*format!("{of}, {what}").leak())
}

/// Compares the library, and the program.
fn both(judges: &Judges, what: &str, inputs: &[Bytes]) -> [Comparison; 2] {
    let [library, program] = names(what);
    [
        raw_calls(judges, library, answered(inputs.to_vec(), ANSWER_LENGTH)),
        compare_on_threads(
            program,
            inputs,
            REFERENCE_AND_PROGRAM,
            |bytes| Printed(lines(&judge_of_program(bytes)).into_bytes()),
            |bytes| Printed((judges.program)(bytes)),
        ),
    ]
}

fn raw_calls(
    judges: &Judges,
    name: &'static str,
    inputs: impl Iterator<Item = Answered<Bytes>>,
) -> Comparison {
    let library = |bytes: &Bytes, answer: &mut [u64]| (judges.raw_judge)(bytes, answer);
    compare_answers(name, inputs, |bytes| judge(bytes), library)
}

/// What is asked of the library alone: some byte strings by safe calls, and every sixth of them
/// with each other length of the list for the answer.
fn of_the_library(judges: &Judges, some: &[Bytes]) -> [Comparison; 2] {
    let fewer = || some.iter().step_by(6).cloned();
    let others = other_answer_lengths().flat_map(|length| answered(fewer(), length));
    let (due, safe) = (|bytes: &Bytes| judge(bytes), |bytes: &Bytes| (judges.judge)(bytes));
    [
        raw_calls(judges, "transcript with an answer list of another length", others),
        compare("transcript, safe calls", some.to_vec(), REFERENCE_AND_LIBRARY, due, safe),
    ]
}

/// Each comparison is shown to fail for a library and for a program that is wrong.
#[cfg(test)]
pub(super) mod tests;
