//! Properties that a fold has, with the library alone.

use super::{all_right_calls, Amounts, FOLD};
use super::{AT_POINTS, LOW_DEGREES, ONE_THEN_TWO, SUMS, TWICE, TWO_THEN_ONE};
use crate::answer::{raw, Answer, NONE};
use crate::compare::call::*;
use crate::compare::cosets;
use crate::compare::operation::{after_safe, After, Library, Turns};
use crate::compare::reed_solomon::{ENCODE, INTERPOLATE};
use crate::compare::{compare, Comparison, LEFT_AND_RIGHT, PAPER_AND_LIBRARY};
use crate::coset::{point, points};
use crate::field;
use crate::fold::{self, DIMENSIONS};
use crate::random::Random;

pub fn comparisons(library: &dyn Library, amounts: &Amounts) -> Vec<Comparison> {
    let mut all = in_two(library, &amounts.in_two).to_vec();
    all.push(at_points(library, &amounts.at_points));
    all.push(low_degrees(library, &amounts.low_degrees));
    all.push(sums_of_words(library, &amounts.sums));
    all
}

/// The five numbers of the answer, and what the lent lists hold, whatever was there before.
fn contents(library: &dyn Library, call: &Call) -> Vec<Vec<u64>> {
    let mut after = after_safe(library, call);
    let mut all = vec![raw(&after.answer).to_vec()];
    all.extend(after.outputs.contents());
    all
}

// At a point the fold is the word there.

/// Of a coset with more points than these only some are taken.
const POINTS: u64 = 32;

fn at_points(library: &dyn Library, amounts: &Turns) -> Comparison {
    compare(
        AT_POINTS,
        calls_at_points(&mut Random::named(AT_POINTS), amounts),
        PAPER_AND_LIBRARY,
        |call| index_of_challenge(call).map(|index| call[Given][index]),
        |call| {
            let index = index_of_challenge(call)? >> call[Step];
            Some(after_safe(library, call).outputs.first()[index])
        },
    )
}

/// Right calls, each with the points of its coset for challenges.
fn calls_at_points(random: &mut Random, amounts: &Turns) -> Vec<Call> {
    let mut calls = Vec::new();
    for call in all_right_calls(random, amounts) {
        let all = 1 << call.k();
        for turn in 0..all.min(POINTS) {
            let index = if all > POINTS { random.number() } else { turn };
            let x = point(call[Offset], &call[Basis], index);
            calls.push(call.clone().with(Challenge, x));
        }
    }
    calls
}

/// The index of the point that the challenge is, if it is one and the call is right.
fn index_of_challenge(call: &Call) -> Option<usize> {
    if call.refusal().is_some() {
        return None;
    }
    let points = points(call[Offset], &call[Basis]);
    points.iter().position(|&x| x == call[Challenge])
}

// Degrees.

/// Here list 3 holds the coefficients that the word is encoded from. N × 2^step of them fold to
/// N. Compared are the numbers of three answers, and the coefficients that are to be zero.
fn low_degrees(library: &dyn Library, amounts: &Turns) -> Comparison {
    compare(
        LOW_DEGREES,
        of_low_degrees(&mut Random::named(LOW_DEGREES), amounts),
        PAPER_AND_LIBRARY,
        |call| Some(vec![0; 3 + call[Output].len() - folded_coefficients(call)?]),
        |call| degree_of_library(library, call),
    )
}

/// Right calls but for list 3, which holds coefficients to encode: as many as fold to none, to
/// one, to half of all, to all but one, or to any number below all.
fn of_low_degrees(random: &mut Random, amounts: &Turns) -> Vec<Call> {
    let mut calls = Vec::new();
    for call in all_right_calls(random, amounts) {
        let all = call[Output].len();
        for count in [0, 1, all / 2, all - 1, random.below(all)] {
            let coefficients = random.list(count << call[Step]);
            calls.push(call.clone().with_list(Given, coefficients));
        }
    }
    calls
}

/// Encoding over the coset of a fold.
fn encoding(call: &Call) -> Call {
    let points = call.due_length(Given);
    Call { operation: &ENCODE, ..call.clone() }.with_length(Output, points)
}

/// How many coefficients the fold has. Nothing if the word cannot be encoded and folded, as in
/// smaller calls.
fn folded_coefficients(call: &Call) -> Option<usize> {
    let full = call.clone().with_due_length(Given);
    let may = encoding(call).refusal().is_none() && full.refusal().is_none();
    may.then(|| call[Given].len().div_ceil(1 << call[Step]))
}

fn degree_of_library(library: &dyn Library, call: &Call) -> Option<Vec<u64>> {
    let folded = folded_coefficients(call)?;
    let mut encoded = after_safe(library, &encoding(call));
    let word = encoded.outputs.first().to_vec();
    let mut fold = after_safe(library, &call.clone().with_list(Given, word));
    let [values, next_basis] = fold.outputs.lists();
    let interpolation = Call { operation: &INTERPOLATE, ..call.clone() }
        .with(Offset, fold.answer.value.unwrap_or(0))
        .with_list(Basis, next_basis.to_vec())
        .with_list(Given, values.to_vec());
    let mut interpolated = after_safe(library, &interpolation);
    let answers = [encoded.answer, fold.answer, interpolated.answer];
    let numbers = answers.map(|answer| answer.number);
    Some([&numbers[..], &interpolated.outputs.first()[folded..]].concat())
}

// A fold in two.

/// The fold at x, and the same in two: the first at x, and the second, over the next coset, at
/// the image of x.
fn in_two(library: &dyn Library, amounts: &Turns) -> [Comparison; 3] {
    let ways = [(TWICE, 2, 1), (ONE_THEN_TWO, 3, 1), (TWO_THEN_ONE, 3, 2)];
    ways.map(|(name, step, first)| {
        let settings = (3..=12).map(|k| [k, 0, step]);
        let inputs = FOLD.right_calls(&mut Random::named(name), settings, amounts);
        compare(
            name,
            inputs.into_iter().filter(|call| can_be_in_two(call, first)),
            ["at once", "in two"],
            |call| can_be_in_two(call, first).then(|| contents(library, call)),
            |call| can_be_in_two(call, first).then(|| folded_in_two(library, call, first)),
        )
    })
}

fn can_be_in_two(call: &Call, first: u64) -> bool {
    let in_range = |k: u64| DIMENSIONS.contains(&(k as usize));
    call.refusal().is_none() && call[Step] > first && in_range(call.k() - first)
}

/// The lists are filled with other numbers than those of the fold at once, so that what is not
/// written differs.
fn folded_in_two(library: &dyn Library, call: &Call, first: u64) -> Vec<Vec<u64>> {
    let spanning = &call[Basis][..first as usize];
    let image = fold::image(spanning, call[Challenge]);
    let half_way = call.clone().with(Step, first).with_fill(!call.fill);
    let half_way = half_way.with_due_length(Output).with_due_length(NextBasis);
    let mut after = after_safe(library, &half_way);
    let [word, basis] = after.outputs.lists();
    let rest = call
        .clone()
        .with_setting([call.k() - first, 0, call[Step] - first])
        .with(Offset, after.answer.value.unwrap_or(NONE))
        .with(Challenge, image)
        .with_list(Basis, basis.to_vec())
        .with_list(Given, word.to_vec())
        .with_fill(!call.fill);
    contents(library, &rest)
}

// Sums.

/// The sums of the first word's values and those of another, which may be shorter.
fn sum(one: &[u64], other: &[u64]) -> Vec<u64> {
    let others = other.iter().chain([&0].into_iter().cycle());
    one.iter().zip(others).map(|(&one, &other)| field::sum(one, other)).collect()
}

/// Both sides have all else that a fold gives as well.
fn sums_of_words(library: &dyn Library, amounts: &Turns) -> Comparison {
    compare(
        SUMS,
        two_words(&mut Random::named(SUMS), amounts),
        LEFT_AND_RIGHT,
        |(call, other)| {
            let sum = sum(&call[Given], other);
            after_safe(library, &call.clone().with_list(Given, sum))
        },
        |(call, other)| sum_of_folds(library, call, other),
    )
}

/// Right calls, each with another word.
fn two_words(random: &mut Random, amounts: &Turns) -> Vec<(Call, Vec<u64>)> {
    let mut inputs = Vec::new();
    for call in all_right_calls(random, amounts) {
        let sort = random.below(4);
        let other = cosets::word(random, call[Given].len(), sort);
        inputs.push((call, other));
    }
    inputs
}

/// A refusal, as smaller calls may have, has nothing to add.
fn sum_of_folds(library: &dyn Library, call: &Call, other: &[u64]) -> After<Answer> {
    let mut one = after_safe(library, call);
    if call.refusal().is_none() {
        let other = sum(&vec![0; call[Given].len()], other);
        let mut added = after_safe(library, &call.clone().with_list(Given, other));
        let sum = sum(one.outputs.first(), added.outputs.first());
        one.outputs.first().copy_from_slice(&sum);
    }
    one
}
