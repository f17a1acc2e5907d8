//! Wrong lookups.

use super::*;
use crate::answer::{refused, ANSWER_LENGTH};
use crate::compare::protocol::lookup::{answer_as_part, part_as_answer, LAYER};
use crate::compare::wrong::{
    always_instead, answering, changed_at, into_five, raw_alone, right, write_what_fits,
};
use std::ops::Range;

const ALL: &str = "layer, all layers of all stores";
const OTHERS: &str = "layer, other layers";
const STORES: &str = "layer, stores of other lengths";
const PARAMETERS: &str = "layer, bad parameters";
const OTHER_ANSWER: &str = "layer with an answer list of another length";
const SAFE: &str = "layer, safe calls";
const PROVED: &str = "what is proved, layer by layer";
const CASE_K: &str = "case K of table A, layer 1";

/// Takes another number for one.
fn taking(what: &'static str, number: Number, other: fn(u64) -> u64) -> Row<Wrong> {
    let other = move |call: Call| {
        let other = other(call[number]);
        call.with(number, other)
    };
    row(what, always_instead(other).of(&LAYER))
}

/// Takes the store to have another length, made of its own and of that which is due.
fn fitting(what: &'static str, length: fn(usize, usize) -> usize) -> Row<Wrong> {
    let other = move |call: Call| {
        let length = length(call[Store].len(), call.due_length(Store));
        call.with_length(Store, length)
    };
    row(what, always_instead(other).of(&LAYER))
}

/// Gives another part, made of the length of the store and the right part.
fn giving(what: &'static str, part: fn(usize, Range<usize>) -> Range<usize>) -> Row<Wrong> {
    let other = move |call: &Call, right: Answer| {
        part_as_answer(part(call[Store].len(), answer_as_part(right)))
    };
    row(what, answering(other).of(&LAYER))
}

/// Gives another answer by the C convention alone.
fn raw(what: impl Into<String>, other: impl Fn(Answer) -> Answer + 'static) -> Row<Wrong> {
    let behaviour = move |call: &Call, outputs: &mut Outputs, answer: &mut [u64]| {
        into_five(answer, || other(right(call, outputs)))
    };
    row(what, raw_alone(behaviour).of(&LAYER))
}

#[test]
fn the_table_holds() {
    hold([rows()], |library| of_lookup(library, &FEW));
}

fn rows() -> Vec<Row<Wrong>> {
    let any_length =
        raw_alone(|call, outputs, answer| write_what_fits(right(call, outputs), answer));
    let mut rows = vec![
        taking("the layer is one too high", Layer, |i| i.saturating_add(1))
            .differs(&[PROVED, ALL, OTHERS, SAFE, CASE_K])
            .smallest(OTHERS, "k 3; rate 1; step 1; layer 0; "),
        taking("the layer is one too low", Layer, |i| i.saturating_sub(1))
            .differs(&[PROVED, ALL, OTHERS, SAFE, CASE_K]),
        taking("only the lowest bits of the layer count", Layer, |i| i % (1 << 32))
            .differs(&[OTHERS, SAFE]),
        taking("only the lowest bits of the dimension count", K, |k| k % 256)
            .differs(&[PARAMETERS, SAFE]),
        taking("a bad rate is taken for the nearest", Rate, |rate| rate.clamp(1, 6))
            .differs(&[PARAMETERS, SAFE]),
        taking("a bad step is taken for the nearest", Step, |step| step.clamp(1, 3))
            .differs(&[PARAMETERS, SAFE]),
        fitting("the store may be longer", usize::min).differs(&[STORES, SAFE]),
        fitting("the store may be shorter", usize::max).differs(&[STORES, SAFE]),
        giving("all parts are empty", |_, _| 0..0).differs(&[PROVED, ALL, SAFE, CASE_K]),
        giving("the whole store stands for the empty part", |store, part| match part.len() {
            0 => 0..store,
            _ => part,
        })
        .differs(&[PROVED, OTHERS, STORES, PARAMETERS, SAFE]),
        giving("the layers lie from behind", |store, part| match part.len() {
            0 => part,
            _ => store - part.end..store - part.start,
        })
        .differs(&[PROVED, ALL, SAFE]),
        raw("the empty part is refused", |right| match right.value {
            Some(0) => refused(4),
            _ => right,
        })
        .differs(&[OTHERS, STORES, PARAMETERS]),
        row("the length of the answer is not looked at", any_length.of(&LAYER))
            .differs(&[OTHER_ANSWER]),
    ];
    for place in 0..ANSWER_LENGTH {
        let what = format!("number {place} of the answer is wrong");
        let wrong = raw(what, move |right| changed_at(place, right));
        rows.push(wrong.differs(&[ALL, OTHERS, STORES, PARAMETERS]));
    }
    rows
}
