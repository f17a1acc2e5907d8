//! The comparisons of the lookup of a layer.

use super::{due_length, parameters_of, OVER_A_RUN};
use crate::answer::{went_well, Answer};
use crate::compare::call::*;
use crate::compare::lent::FILLS;
use crate::compare::operation::{after_safe, raw_calls, safe_calls, Library, Operation};
use crate::compare::refused::with_other_answers;
use crate::compare::{library, Comparison};
use crate::parameters::{all_up_to, Parameters};
use std::ops::Range;

/// It refuses nothing: bad parameters, another layer or a store of another length give the empty
/// part.
pub static LAYER: Operation = Operation {
    name: "layer",
    numbers: &[K, Rate, Step, Layer],
    given: &[Store],
    due: |call, _| {
        let store = call[Store].len();
        let part = parameters_of(call).layer_of_store(store, call[Layer]);
        part_as_answer(part.unwrap_or(0..0))
    },
    safe: library::layer,
    raw: library::raw_layer,
    ..OVER_A_RUN
};

/// Place and value are always there, those of the empty part too, which lies at the start.
pub fn part_as_answer(part: Range<usize>) -> Answer {
    Answer { place: Some(part.start as u64), ..went_well(part.len() as u64) }
}

pub fn answer_as_part(answer: Answer) -> Range<usize> {
    let (start, length) = answer.place.zip(answer.value).expect("a part");
    start as usize..(start + length) as usize
}

// Calls.

pub fn layer_call(parameters: Parameters, store: Vec<u64>, i: u64) -> Call {
    let Parameters { k, rate, step } = parameters;
    let call = Call::of(&LAYER).with_setting([k, rate, step]).with(Layer, i);
    call.with_list(Store, store)
}

/// What the library gives for a layer.
pub fn layer_of_library(library: &dyn Library, call: &Call) -> Vec<u64> {
    call[Store][answer_as_part(after_safe(library, call).answer)].to_vec()
}

/// A lookup in a store of this length. Its numbers all differ, and the fills are taken in turn.
fn lookup(parameters: Parameters, store: usize, i: u64) -> Call {
    let fill = FILLS[((parameters.k ^ i) % 2) as usize];
    Call { fill, ..layer_call(parameters, (fill..).take(store).collect(), i) }
}

/// Some layers of a store that has its length. One by one, since large stores take much room.
fn fitting(
    parameters: Parameters,
    layers: impl Iterator<Item = u64>,
) -> impl Iterator<Item = Call> {
    layers.map(move |i| lookup(parameters, parameters.store_length(), i))
}

fn all_layers(largest_k: u64) -> impl Iterator<Item = Call> {
    all_up_to(largest_k).into_iter().flat_map(|one| fitting(one, 1..one.rounds()))
}

/// The word, the last layer and what is beyond it, and numbers whose lowest bits are those of a
/// layer.
fn other_layers(largest_k: u64) -> Vec<Call> {
    let huge = [1 << 8, 1 << 16, 1 << 32, 1 << 63].map(|high| [high, high + 1, high + 2]).concat();
    let others = [&[0, 64, 65, u64::MAX - 1, u64::MAX], &huge[..]].concat();
    let others = |one: Parameters| fitting(one, (one.rounds()..).take(5).chain(others.clone()));
    all_up_to(largest_k).into_iter().flat_map(others).collect()
}

/// Near the right length, and those at which layers begin and end.
fn other_stores(largest_k: u64) -> Vec<Call> {
    let mut all = Vec::new();
    for parameters in all_up_to(largest_k) {
        let right = parameters.store_length();
        let starts = (1..parameters.rounds()).map(|layer| parameters.layer_start(layer));
        let near = [right + 1, right + 2, 2 * right + 1, right + 1_000];
        let below = [right.saturating_sub(1), right / 2, 0, parameters.layer_length(0)];
        let lengths = starts.chain(near).chain(below);
        for store in lengths.filter(|&length| length != right) {
            all.extend((0..=parameters.rounds()).map(|i| lookup(parameters, store, i)));
        }
    }
    all
}

/// Each out of range by itself, all of them, and dimensions that are too small.
fn bad_parameters() -> Vec<Call> {
    let huge = [64, 256 + 5, (1 << 32) + 5, 1 << 63, u64::MAX];
    let mut all = Vec::new();
    for k in [0, 1, 2, 3, 5, 8, 21, 22].into_iter().chain(huge) {
        for rate in [0, 1, 2, 6, 7, 8].into_iter().chain(huge) {
            for step in [0, 1, 2, 3, 4].into_iter().chain(huge) {
                all.extend(in_likely_stores(Parameters { k, rate, step }));
            }
        }
    }
    all.retain(|call| parameters_of(call).may_use().is_err());
    all
}

/// Stores of a length that a library could take for right: what the formulas give, as they are and
/// for the nearest parameters that may be used. Large stores would take long and show nothing more.
fn in_likely_stores(parameters: Parameters) -> Vec<Call> {
    let Parameters { k, rate, step } = parameters;
    let nearest = Parameters { k: k % 16, rate: rate.clamp(1, 6), step: step.clamp(1, 3) };
    let length = |one| due_length(&layer_call(one, Vec::new(), 0), Store);
    let lengths = [parameters, nearest].map(length).into_iter().filter(|&length| length <= 1 << 10);
    lengths.flat_map(|store| [0, 1, 2].map(|i| lookup(parameters, store, i))).collect()
}

pub fn comparisons(library: &dyn Library, [every, some]: [u64; 2]) -> Vec<Comparison> {
    let others = |largest| [other_layers(largest), other_stores(largest)].concat();
    let few = all_layers(5).chain(others(4)).collect();
    let all = all_layers(every).chain(others(every)).chain(bad_parameters());
    vec![
        raw_calls(library, "layer, all layers of all stores", all_layers(some)),
        raw_calls(library, "layer, other layers", other_layers(every)),
        raw_calls(library, "layer, stores of other lengths", other_stores(every)),
        raw_calls(library, "layer, bad parameters", bad_parameters()),
        raw_calls(library, "layer with an answer list of another length", with_other_answers(few)),
        safe_calls(library, "layer, safe calls", all),
    ]
}
