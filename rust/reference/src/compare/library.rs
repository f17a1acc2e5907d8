//! The functions of the verified library as the comparisons call them. Nothing else here knows
//! how it is called.

use super::call::*;
use super::operation::Outputs;
use crate::answer::{accepted, done, went_well, Answer, DEGREE_TOO_HIGH};
use razgwilh::{raw, Cause, Fold, Refusal, Run};

pub use razgwilh::raw::{inverse as raw_inverse, judge_transcript as raw_judge_transcript};
pub use razgwilh::{inverse, invert, product, sheet, sheet_into, sum};

/// The refusal as an answer. A prover's degree is also the value of a raw answer.
fn refusal(refusal: Refusal) -> Answer {
    let Refusal { cause, place, round, reads } = refusal;
    let number = cause.number();
    let value = place.filter(|_| number == DEGREE_TOO_HIGH);
    Answer { number, place, round, reads, value }
}

fn answer_of(result: Result<(), Refusal>) -> Answer {
    result.map_or_else(refusal, |()| done())
}

// Encoding and interpolation.

pub fn encode(call: &Call, outputs: &mut Outputs) -> Answer {
    answer_of(razgwilh::encode(call[Offset], &call[Basis], &call[Given], outputs.first()))
}

pub fn raw_encode(call: &Call, outputs: &mut Outputs, answer: &mut [u64]) {
    raw::encode(call[Offset], &call[Basis], &call[Given], outputs.first(), answer)
}

pub fn interpolate(call: &Call, outputs: &mut Outputs) -> Answer {
    answer_of(razgwilh::interpolate(call[Offset], &call[Basis], &call[Given], outputs.first()))
}

pub fn raw_interpolate(call: &Call, outputs: &mut Outputs, answer: &mut [u64]) {
    raw::interpolate(call[Offset], &call[Basis], &call[Given], outputs.first(), answer)
}

// The fold.

fn fold_of(call: &Call) -> Fold<'_> {
    let [k, _, step] = parameters_of(call);
    Fold {
        k,
        step,
        offset: call[Offset],
        basis: &call[Basis],
        word: &call[Given],
        challenge: call[Challenge],
    }
}

pub fn fold(call: &Call, outputs: &mut Outputs) -> Answer {
    let [values, next_basis] = outputs.lists();
    razgwilh::fold(fold_of(call), values, next_basis).map_or_else(refusal, went_well)
}

pub fn raw_fold(call: &Call, outputs: &mut Outputs, answer: &mut [u64]) {
    let [values, next_basis] = outputs.lists();
    raw::fold(fold_of(call), values, next_basis, answer)
}

// The protocol.

fn run_of(call: &Call) -> Run<'_> {
    let [k, rate, step] = parameters_of(call);
    Run {
        k,
        rate,
        step,
        offset: call[Offset],
        basis: &call[Basis],
        challenges: &call[Challenges],
        word: &call[Given],
    }
}

fn parameters_of(call: &Call) -> [usize; 3] {
    [K, Rate, Step].map(|number| call[number] as usize)
}

pub fn prove(call: &Call, outputs: &mut Outputs) -> Answer {
    let [store, last] = outputs.lists();
    answer_of(razgwilh::prove(run_of(call), store, last))
}

pub fn raw_prove(call: &Call, outputs: &mut Outputs, answer: &mut [u64]) {
    let [store, last] = outputs.lists();
    raw::prove(run_of(call), store, last, answer)
}

pub fn judge(call: &Call, _: &mut Outputs) -> Answer {
    let [queries, store, last] = [Queries, Store, Last].map(|list| &call[list]);
    let verdict = razgwilh::judge(run_of(call), queries, store, last);
    verdict.map_or_else(refusal, |verdict| accepted(verdict.reads))
}

pub fn raw_judge(call: &Call, _: &mut Outputs, answer: &mut [u64]) {
    let [queries, store, last] = [Queries, Store, Last].map(|list| &call[list]);
    raw::judge(run_of(call), queries, store, last, answer)
}

pub fn write(call: &Call, outputs: &mut Outputs) -> Answer {
    let [queries, store, last] = [Queries, Store, Last].map(|list| &call[list]);
    let bytes = outputs.bytes();
    answer_of(razgwilh::write_transcript(run_of(call), queries, store, last, bytes))
}

pub fn raw_write(call: &Call, outputs: &mut Outputs, answer: &mut [u64]) {
    let [queries, store, last] = [Queries, Store, Last].map(|list| &call[list]);
    raw::write_transcript(run_of(call), queries, store, last, outputs.bytes(), answer)
}

/// The part as the answer of a raw call has it: where it begins in the store, and its length.
pub fn layer(call: &Call, _: &mut Outputs) -> Answer {
    let [k, rate, step] = parameters_of(call);
    let store = &call[Store];
    let part = razgwilh::layer(k, rate, step, store, call[Layer] as usize);
    let start = match part.is_empty() {
        true => 0,
        false => (part.as_ptr() as usize - store.as_ptr() as usize) / size_of::<u64>(),
    };
    Answer { place: Some(start as u64), ..went_well(part.len() as u64) }
}

pub fn raw_layer(call: &Call, _: &mut Outputs, answer: &mut [u64]) {
    let [k, rate, step] = parameters_of(call);
    raw::layer(k, rate, step, &call[Store], call[Layer] as usize, answer)
}

pub fn rounds(call: &Call, _: &mut Outputs) -> Answer {
    let [k, rate, step] = parameters_of(call);
    went_well(razgwilh::rounds(k, rate, step) as u64)
}

pub fn store_length(call: &Call, _: &mut Outputs) -> Answer {
    let [k, rate, step] = parameters_of(call);
    went_well(razgwilh::store_length(k, rate, step) as u64)
}

pub fn last_length(call: &Call, _: &mut Outputs) -> Answer {
    let [k, rate, step] = parameters_of(call);
    went_well(razgwilh::last_length(k, rate, step) as u64)
}

pub fn transcript_length(call: &Call, _: &mut Outputs) -> Answer {
    let [k, rate, step] = parameters_of(call);
    let queries = call[QueryCount] as usize;
    went_well(razgwilh::transcript_length(k, rate, step, queries) as u64)
}

// Numbers and transcripts.

/// The number again, if it has a cause.
pub fn number_of_cause(number: u64) -> Option<u64> {
    Cause::of(number).map(Cause::number)
}

pub fn judge_transcript(bytes: &[u8]) -> Answer {
    let verdict = razgwilh::judge_transcript(bytes);
    verdict.map_or_else(refusal, |verdict| accepted(verdict.reads))
}
