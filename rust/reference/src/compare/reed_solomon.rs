//! The comparisons of encoding and interpolation.

mod damaged;
mod large;
mod special;

use super::call::*;
use super::cosets::{self, basis, offset};
use super::lent::FILLS;
use super::operation::{after_raw, after_safe, case, raw_calls, Library, Op, Operation, Outputs};
use super::{compare, library, refused, Comparison, PAPER_AND_LIBRARY, REFERENCE_AND_LIBRARY};
use crate::answer::{done, raw, refused_at, Answer};
use crate::coset::points;
use crate::random::Random;
use crate::reed_solomon::{self, may_encode, may_interpolate, LARGEST_K};
use std::ops::RangeInclusive;

/// The largest dimension of which many calls are made.
const LARGEST_OF_MANY: usize = 14;

/// How many calls of each dimension.
type Turns = [usize; LARGEST_OF_MANY + 1];

/// What both operations have.
const CODE: Operation = Operation {
    name: "",
    numbers: &[Offset],
    given: &[Basis, Given],
    lent: &[Output],
    dimensions: 0..=LARGEST_K as u64,
    settings: |k| vec![[k, 0, 0]],
    due_length,
    fits: |_, length, due| length == due,
    refusal: |call| may_interpolate(&call[Basis], call[Given].len(), call[Output].len()).err(),
    due: |call, outputs| write_due(reed_solomon::interpolate, call, outputs),
    mended: |_| None,
    safe: library::interpolate,
    raw: library::raw_interpolate,
    right: |random, [k, ..], turn| over_coset(&INTERPOLATE, random, k, turn),
    special: |_, _| Vec::new(),
    k_out_of_range: "k over 20",
    least_k: "",
    several_lists: "lists 3 and 6 of wrong lengths",
};

pub static INTERPOLATE: Operation = Operation { name: "interpolate", ..CODE };

pub static ENCODE: Operation = Operation {
    name: "encode",
    fits: |list, length, due| length == due || (list == Given && length < due),
    refusal: |call| may_encode(&call[Basis], call[Given].len(), call[Output].len()).err(),
    due: |call, outputs| write_due(reed_solomon::encode, call, outputs),
    safe: library::encode,
    raw: library::raw_encode,
    right: |random, [k, ..], turn| over_coset(&ENCODE, random, k, turn),
    ..CODE
};

/// Of a dimension out of range, where no length is right, the lists are short: long ones, of which
/// a few show as much, are made apart.
fn due_length(call: &Call, list: List) -> usize {
    match (list, call.k()) {
        (Basis, k) => k as usize,
        (_, k) if CODE.dimensions.contains(&k) => 1 << k,
        (_, k) => 1 << (k % 16),
    }
}

/// Takes offset, basis, list 3 and the length of list 6.
type Code = fn(u64, &[u64], &[u64], usize) -> Result<Vec<u64>, Answer>;

fn write_due(code: Code, call: &Call, outputs: &mut Outputs) -> Answer {
    match code(call[Offset], &call[Basis], &call[Given], call[Output].len()) {
        Ok(list) => {
            outputs.first().copy_from_slice(&list);
            done()
        }
        Err(refusal) => refusal,
    }
}

/// The reference by its transforms alone, where its plain methods would take long.
struct Transforms;

impl Library for Transforms {
    fn safe(&self, call: &Call, outputs: &mut Outputs) -> Answer {
        let code = match call.operation == &ENCODE {
            true => reed_solomon::encode_by_transform,
            false => reed_solomon::interpolate_by_transform,
        };
        write_due(code, call, outputs)
    }
}

/// Compares calls by the C convention with the transforms of the reference.
fn with_transforms(library: &dyn Library, name: &'static str, calls: Vec<Call>) -> Comparison {
    let due = |call: &Call| after_raw(&Transforms, call);
    compare(name, calls, REFERENCE_AND_LIBRARY, due, |call| after_raw(library, call))
}

/// A right call. The basis, the offset and list 3 are each of one of a few sorts, in turn. There
/// are 3, 4 and 5 sorts, and as these numbers have no common divisor all combinations come up
/// within 60 turns.
fn over_coset(operation: Op, random: &mut Random, k: u64, turn: usize) -> Call {
    let basis = basis(random, k as usize, turn);
    over_basis(operation, random, basis, turn)
}

fn over_basis(operation: Op, random: &mut Random, basis: Vec<u64>, turn: usize) -> Call {
    let offset = offset(random, &basis, turn);
    let points = 1 << basis.len();
    let given = match operation == &ENCODE {
        true => coefficients(random, points, turn),
        false => word(random, offset, &basis, turn),
    };
    Call::of(operation)
        .with(Offset, offset)
        .with_list(Basis, basis)
        .with_list(Given, given)
        .with_length(Output, points)
        .with_fill(FILLS[random.below(2)])
}

/// As many coefficients as there may be, one less, some, one or none.
fn coefficients(random: &mut Random, all: usize, turn: usize) -> Vec<u64> {
    let count = [all, all - 1, random.below(all + 1), 1, 0][turn % 5];
    random.list(count)
}

/// A word of one of the common sorts, or of the points themselves.
fn word(random: &mut Random, offset: u64, basis: &[u64], turn: usize) -> Vec<u64> {
    match turn % 5 {
        4 => points(offset, basis),
        sort => cosets::word(random, 1 << basis.len(), sort),
    }
}

fn right_calls(
    name: &str,
    operation: Op,
    dimensions: RangeInclusive<u64>,
    turns: &Turns,
) -> Vec<Call> {
    let settings = dimensions.map(|k| [k, 0, 0]);
    operation.right_calls(&mut Random::named(name), settings, turns)
}

// The comparisons, and names of theirs.

const TRIP: &str = "interpolate after encode gives the coefficients";
const OTHER_TRIP: &str = "encode after interpolate gives the word";
const E_ENCODE: &str = "case E of table A, encode";
const E_INTERPOLATE: &str = "case E of table A, interpolate";
const M_ENCODE: &str = "case M of table A, encode";
const M_INTERPOLATE: &str = "case M of table A, interpolate";

/// How many inputs the comparisons take.
pub struct Amounts {
    pub encodings: Turns,
    pub interpolations: Turns,
    /// Round trips, in both directions.
    pub round_trips: Turns,
    pub refused: refused::Amounts,
    special: special::Amounts,
    /// Large dimensions, and how many calls of each.
    large: &'static [(u64, usize)],
    damaged: damaged::Amounts,
}

/// The amounts that the program takes. Up to k 12 the work grows with the square of the number of
/// points.
pub const FULL: Amounts = Amounts {
    encodings: [60, 600, 600, 600, 600, 240, 120, 60, 60, 20, 10, 5, 5, 30, 15],
    interpolations: [60, 600, 600, 600, 600, 240, 120, 60, 60, 10, 4, 2, 2, 30, 15],
    round_trips: [60, 120, 120, 120, 120, 60, 60, 20, 20, 5, 2, 1, 1, 10, 5],
    refused: refused::Amounts {
        out_of_range: &[21, 22, 23, 24, 32, 44, 64, 76, 268],
        dimensions: &[0, 1, 2, 3, 4, 5, 6, 7, 8, 9, 10, 11, 12],
        too_small: 0,
        several_lists: 200,
        largest_dependent: 12,
        several_causes: 24,
        most_causes: usize::MAX,
        every_sort: (&[0, 1, 2, 3, 4], 60),
    },
    special: special::Amounts {
        bases: [0, 14, 28, 35, 35, 35, 35, 28, 28, 28, 14, 14, 14, 14, 7],
        counts: &[(9, 4), (13, 2)],
    },
    large: &[(15, 3), (16, 3), (17, 2), (18, 2), (19, 1), (20, 1)],
    damaged: damaged::Amounts { dimensions: 13..=20, lists_above: &[0, 1, 12, 13, 20, 21] },
};

/// Runs all comparisons of this file.
pub fn comparisons(library: &dyn Library, amounts: &Amounts) -> Vec<Comparison> {
    let mut all = Vec::new();
    let operations = [(&ENCODE, &amounts.encodings), (&INTERPOLATE, &amounts.interpolations)];
    for (operation, turns) in operations {
        for (what, dimensions) in [("k 0 to 6", 0..=6), ("k 7 to 14", 7..=14)] {
            let name = operation.title(what);
            all.push(raw_calls(library, name, right_calls(name, operation, dimensions, turns)));
        }
        all.extend(refused::comparisons(library, operation, &amounts.refused));
        all.extend(damaged::comparisons(library, operation, &amounts.damaged));
    }
    all.extend(special::comparisons(library, &amounts.special));
    all.extend(round_trips(library, &amounts.round_trips));
    all.extend(large::comparisons(library, amounts.large));
    all.extend(table_a(library));
    all
}

// There and back, with the library in both directions.

fn round_trips(library: &dyn Library, amounts: &Turns) -> [Comparison; 2] {
    let dimensions = 0..=LARGEST_OF_MANY as u64;
    [(TRIP, &ENCODE), (OTHER_TRIP, &INTERPOLATE)].map(|(name, there)| {
        round_trip(library, name, right_calls(name, there, dimensions.clone(), amounts))
    })
}

fn round_trip(library: &dyn Library, name: &'static str, calls: Vec<Call>) -> Comparison {
    compare(name, calls, PAPER_AND_LIBRARY, trip_due, |call| trip_of_library(library, call))
}

/// Both answers, and the list itself, with zeros for coefficients that were left off. A call that
/// is refused, as smaller ones may be, gives nothing back.
fn trip_due(call: &Call) -> Option<Vec<Vec<u64>>> {
    let answer = raw(&done()).to_vec();
    call.refusal().is_none().then(|| vec![answer.clone(), answer, padded(call)])
}

/// List 3 with zeros for coefficients that were left off.
fn padded(call: &Call) -> Vec<u64> {
    let mut list = call[Given].clone();
    list.resize(call[Output].len(), 0);
    list
}

fn trip_of_library(library: &dyn Library, call: &Call) -> Option<Vec<Vec<u64>>> {
    if call.refusal().is_some() {
        return None;
    }
    let mut there = after_safe(library, call);
    let returning = returning(call, there.outputs.first().to_vec());
    let mut returned = after_safe(library, &returning);
    let answers = [there.answer, returned.answer].map(|answer| raw(&answer).to_vec());
    Some([&answers[..], &returned.outputs.contents()].concat())
}

/// The call that takes back what a call gave.
fn returning(call: &Call, given: Vec<u64>) -> Call {
    let operation = if call.operation == &ENCODE { &INTERPOLATE } else { &ENCODE };
    Call { operation, ..call.clone() }.with_list(Given, given)
}

// Table A.

/// A call in a case of the paper, where the coset is one of offset zero.
fn in_case(operation: Op, basis: &[u64], given: &[u64]) -> Call {
    Call::of(operation)
        .with_list(Basis, basis.to_vec())
        .with_list(Given, given.to_vec())
        .with_length(Output, 1 << basis.len())
}

/// In case M the paper gives the basis alone; the lists are any that fit.
fn table_a(library: &dyn Library) -> Vec<Comparison> {
    let e = |operation, given: &[u64]| in_case(operation, &[1, 2], given);
    let m = |operation| in_case(operation, &[1, 2, 3], &[1, 2, 3, 4, 5, 6, 7, 8]);
    let (word, coefficients) = ([7, 4, 1, 2], [7, 3, 0, 0]);
    let refusal = refused_at(8, 2);
    let case = |name, call, due, list| case(library, name, call, due, &[list]);
    vec![
        case(E_ENCODE, e(&ENCODE, &[7, 3]), done(), Some(&word)),
        case(E_INTERPOLATE, e(&INTERPOLATE, &word), done(), Some(&coefficients)),
        case(M_ENCODE, m(&ENCODE), refusal, None),
        case(M_INTERPOLATE, m(&INTERPOLATE), refusal, None),
    ]
}

/// Each comparison is shown to fail for a library that is wrong.
#[cfg(test)]
mod tests;
