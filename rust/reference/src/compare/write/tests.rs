//! Wrong writers, and the comparisons that they differ in.

mod layouts;
mod refusals;

use super::*;
use crate::answer::done;
use crate::compare::operation::Outputs;
use crate::compare::protocol::tests::refusals as of_a_run;
use crate::compare::protocol::tests::together::{
    self, LONG, NEAR as NEAR_EACH_OTHER, OTHER_CAUSES, PAIR, SEVERAL as SEVERAL_SHARED,
};
use crate::compare::wrong::{
    alike, copy_what_fits, hold_table, right_library, row, shared_rows, Others, Row, Wrong,
};
use crate::protocol::Run;
use crate::transcript::{sections, transcript, Section};

const HONEST: &str = "write, honest runs";
const ANY: &str = "write, any lists";
const COUNTS: &str = "write, counts of queries";
const ONE_OUT: &str = "write, a query out of range";
const SOME_OUT: &str = "write, several queries out of range";
const NEAR: &str = "write, list 8 near its length";
const LARGE: &str = "write, k 8 to 21";
const LIST_8: &str = "write, list 8 of a wrong length";
const SEVERAL: &str = "write, several causes";
const SAFE: &str = "write, safe calls";
const AGAIN: &str = "what is written is read again";
const JUDGED: &str = "what is written is judged as its lists are";
const CASE_G: &str = "case G of table A, written";
const CASE_H: &str = "case H of table A, written";
const CASE_K: &str = "case K of table A, written";

/// All in which something is written, but for cases.
const WRITTEN: [&str; 10] =
    [HONEST, ANY, COUNTS, NEAR, NEAR_EACH_OTHER, LONG, LARGE, SAFE, AGAIN, JUDGED];

const CASES: [&str; 3] = [CASE_G, CASE_H, CASE_K];

const OTHERS: Others = Others {
    right: &[HONEST, ANY, LARGE],
    safely: &CASES,
    dependent: &[],
    unsaid: &[
        COUNTS,
        NEAR,
        ONE_OUT,
        SOME_OUT,
        SEVERAL,
        AGAIN,
        JUDGED,
        PAIR,
        SEVERAL_SHARED,
        NEAR_EACH_OTHER,
        OTHER_CAUSES,
        LONG,
    ],
};

/// Few and small, since every wrong writer is compared with all of them. There are runs of one round
/// to four, and of one last coefficient and two.
const FEW: Amounts = Amounts {
    turns: [0, 0, 4, 2, 2, 0, 0, 0, 0, 0],
    queries: [0, 0, 1, 0, 0, 0, 0, 0, 0, 0],
    long: &[[4, 1, 1], [3, 1, 2], [4, 1, 3]],
    near: (3, &[]),
    large: &[[6, 2, 1], [5, 1, 3], [9, 1, 1]],
    judged: ([0, 0, 2, 1, 1, 0, 0, 0, 0, 0], &[[3, 1, 1]]),
    refused: refused::Amounts {
        out_of_range: &[1, 0, 22, 37, 69, 261],
        dimensions: &[2, 4],
        too_small: 5,
        several_lists: 1,
        largest_dependent: 4,
        several_causes: 2,
        most_causes: 3,
        every_sort: (&[2, 4], 1),
    },
};

#[test]
fn the_table_holds() {
    let rows = [
        layouts::rows(),
        refusals::rows(),
        of_a_run::rows(&WRITE, HONEST),
        together::rows(&WRITE, HONEST, &[NEAR], |call, outputs| {
            copy_what_fits(&transcript(&run_of(call), &call[Queries]), outputs.bytes());
            done()
        }),
        shared_rows(&WRITE, &OTHERS),
    ];
    let rows: Vec<Row<Wrong>> = rows.into_iter().flatten().collect();
    hold_table(&right_library(), &rows, |library| comparisons(library, &FEW));
}

/// Every right setting up to seven, each with all four sorts of a word; the longest transcript; and
/// all lists of a dimension just above the range.
#[test]
fn the_program_takes_all_parameters_up_to_seven_and_the_longest_transcript() {
    assert!(FULL.turns[2..=7].iter().all(|&turns| turns >= 4) && FULL.near.0 >= 7);
    assert!((2..=7).all(|k| FULL.refused.dimensions.contains(&k)));
    assert!(FULL.large.contains(&[20, 1, 1]) && FULL.judged.1.contains(&[20, 1, 1]));
    let longest = inputs::large(Random::named("longest"), &[[20, 1, 1]]).next();
    assert_eq!(longest.map(|call| call[Bytes].len()), Some(16_779_680));
    assert!(FULL.large.iter().any(|&[k, ..]| k == 21));
}

/// Writes other bytes than those due, for as far as they fit.
fn writing(what: &'static str, bytes: impl Fn(&Run, &[u64]) -> Vec<u8> + 'static) -> Row<Wrong> {
    let behaviour = move |call: &Call, outputs: &mut Outputs| {
        let refusal = call.refusal();
        refusal.unwrap_or_else(|| {
            copy_what_fits(&bytes(&run_of(call), &call[Queries]), outputs.bytes());
            done()
        })
    };
    row(what, alike(behaviour).of(&WRITE))
}
