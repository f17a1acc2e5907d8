//! Wrong numbers of rounds, stored entries, last coefficients and bytes.

use super::*;
use crate::answer::went_well;
use crate::compare::protocol::lengths::{
    comparisons, LAST_LENGTH, ROUNDS, STORE_LENGTH, TRANSCRIPT_LENGTH,
};
use crate::compare::wrong::{always_instead, answering};
use crate::transcript::{self, LONGEST_LIST};

#[test]
fn the_table_holds() {
    hold([rows()], |library| comparisons(library, FEW.lengths));
}

fn rows() -> Vec<Row<Wrong>> {
    let mut rows = vec![
        counting("a round more fits", &ROUNDS, |parameters| parameters.rounds() + 1),
        counting("the word is stored", &STORE_LENGTH, |parameters| {
            (parameters.store_length() + parameters.layer_length(0)) as u64
        }),
        counting("there is one last coefficient", &LAST_LENGTH, |_| 1),
    ];
    rows.extend(of_transcripts());
    for operation in [&ROUNDS, &STORE_LENGTH, &LAST_LENGTH, &TRANSCRIPT_LENGTH] {
        for number in [K, Rate, Step] {
            let cut = always_instead(move |mut call| {
                call[number] %= 1 << 32;
                call
            });
            let what = format!("{} is cut to 32 bits", number.name());
            rows.push(row(what, cut.of(operation)).differs(&[operation.name]));
        }
    }
    rows
}

/// Makes another length of the parameters, the count of the queries and the right length, which may
/// be none.
fn of_transcripts() -> Vec<Row<Wrong>> {
    let bytes = |what, length: fn(Parameters, u64, u64) -> u64| {
        let other = answering(move |call, right| {
            let right = right.value.expect("a length");
            went_well(length(parameters_of(call), call[QueryCount], right))
        });
        row(what, other.of(&TRANSCRIPT_LENGTH)).differs(&[TRANSCRIPT_LENGTH.name])
    };
    vec![
        bytes("the offset has no bytes", |_, _, right| right.saturating_sub(8)),
        bytes("the last section has no count", |_, _, right| right.saturating_sub(4)),
        bytes("too many queries have no length", |_, queries, right| match queries {
            ..=256 => right,
            _ => 0,
        }),
        bytes("no query has no length", |_, queries, right| if queries == 0 { 0 } else { right }),
        bytes("at most 256 queries count", |parameters, queries, right| match right {
            0 => 0,
            _ => transcript::length(parameters, queries.min(256)),
        }),
        bytes("the count of the queries is cut to 32 bits", |parameters, queries, right| {
            match parameters.may_use() {
                Ok(()) => transcript::length(parameters, queries % (1 << 32)),
                Err(_) => right,
            }
        }),
        bytes("more queries than a list has are taken", |parameters, queries, right| {
            match parameters.may_use() {
                Ok(()) if queries == LONGEST_LIST + 1 => right + 8 * queries,
                _ => right,
            }
        })
        .smallest(TRANSCRIPT_LENGTH.name, "count of queries 1152921504606846976"),
        bytes("the most queries that a list has are refused", |_, queries, right| match queries {
            LONGEST_LIST => 0,
            _ => right,
        }),
    ]
}

/// Gives another number for parameters that may be used.
fn counting(what: &'static str, operation: Op, number: fn(Parameters) -> u64) -> Row<Wrong> {
    let other = answering(move |call, right| match parameters_of(call) {
        parameters if parameters.may_use().is_ok() => went_well(number(parameters)),
        _ => right,
    });
    row(what, other.of(operation)).differs(&[operation.name])
}
