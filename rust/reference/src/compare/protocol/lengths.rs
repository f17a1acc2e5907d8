//! The comparisons of the numbers that say how long the lists of a run are.

use super::{parameters_of, OVER_A_RUN};
use crate::answer::{went_well, Answer};
use crate::compare::call::*;
use crate::compare::operation::{safe_calls, Behaviour, Library, Op, Operation, Outputs};
use crate::compare::{library, Comparison};
use crate::parameters::Parameters;
use crate::transcript::{self, LONGEST_LIST};

pub static ROUNDS: Operation =
    of_parameters("rounds", |call, _| due(call, Parameters::rounds), library::rounds);

pub static STORE_LENGTH: Operation = of_parameters(
    "store length",
    |call, _| due(call, |parameters| parameters.store_length() as u64),
    library::store_length,
);

pub static LAST_LENGTH: Operation = of_parameters(
    "last length",
    |call, _| due(call, |parameters| parameters.last_count() as u64),
    library::last_length,
);

/// More queries than a list can have are as bad as parameters out of range.
pub static TRANSCRIPT_LENGTH: Operation = Operation {
    numbers: &[K, Rate, Step, QueryCount],
    ..of_parameters("transcript length", transcript_length, library::transcript_length)
};

fn transcript_length(call: &Call, _: &mut Outputs) -> Answer {
    let (parameters, queries) = (parameters_of(call), call[QueryCount]);
    let is_good = parameters.may_use().is_ok() && queries <= LONGEST_LIST;
    went_well(if is_good { transcript::length(parameters, queries) } else { 0 })
}

/// An operation that is given the parameters alone and gives a number.
const fn of_parameters(name: &'static str, due: Behaviour, safe: Behaviour) -> Operation {
    Operation { name, numbers: &[K, Rate, Step], due, safe, ..OVER_A_RUN }
}

/// Zero for bad parameters.
fn due(call: &Call, number: fn(&Parameters) -> u64) -> Answer {
    let parameters = parameters_of(call);
    went_well(parameters.may_use().map_or(0, |()| number(&parameters)))
}

/// Numbers whose lowest bits are those of right parameters, and the largest there are.
const HUGE: [u64; 10] = [
    64 + 3,
    256 + 5,
    (1 << 16) + 9,
    (1 << 32) + 1,
    (1 << 32) + 20,
    1 << 63,
    (1 << 63) + 2,
    (1 << 63) + 20,
    u64::MAX - 1,
    u64::MAX,
];

/// All parameters up to a number, and huge ones for each, some and all of them.
fn inputs(operation: Op, largest: u64) -> impl Iterator<Item = Call> {
    let numbers = move || (0..=largest).chain(HUGE);
    let with_rates = move |k| numbers().map(move |rate| [k, rate]);
    let with_steps = move |[k, rate]: [u64; 2]| numbers().map(move |step| [k, rate, step]);
    let all = numbers().flat_map(with_rates).flat_map(with_steps);
    all.map(move |setting| Call::of(operation).with_setting(setting))
}

/// Few queries, counts next to the bounds, those whose lowest bits are few, and the largest.
const COUNTS: [u64; 12] = [
    0,
    1,
    2,
    255,
    256,
    257,
    1 << 32,
    (1 << 32) + 1,
    LONGEST_LIST,
    LONGEST_LIST + 1,
    1 << 61,
    u64::MAX,
];

fn with_counts(call: Call) -> impl Iterator<Item = Call> {
    COUNTS.into_iter().map(move |count| call.clone().with(QueryCount, count))
}

pub fn comparisons(library: &dyn Library, largest: u64) -> Vec<Comparison> {
    let all = [&ROUNDS, &STORE_LENGTH, &LAST_LENGTH].into_iter();
    let mut all: Vec<Comparison> =
        all.map(|one| safe_calls(library, one.name, inputs(one, largest))).collect();
    let bytes = inputs(&TRANSCRIPT_LENGTH, largest).flat_map(with_counts);
    all.push(safe_calls(library, TRANSCRIPT_LENGTH.name, bytes));
    all
}
