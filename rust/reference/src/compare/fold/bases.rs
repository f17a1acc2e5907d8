//! Lone folds over many bases, random and adversarial, and the bases that they leave for the next
//! layer.
//!
//! Number 16, a later layer's basis is dependent, is retired, as no basis leads there. So each
//! basis is refused with 8, or it goes well and leaves an independent basis.

mod forms;

use super::{over_basis, sampled_folds, FOLD};
use crate::compare::call::*;
use crate::compare::operation::{after_safe, raw_calls, Library, Setting, Turns};
use crate::compare::{compare, Comparison, Show, PAPER_AND_LIBRARY};
use crate::coset::first_dependent;
use crate::random::Random;
use forms::{Form, FORMS};

const NEXT_BASES: &str = "fold, a basis of any form and the next one";
const LARGE: &str = "fold, a basis of any form, k 13 to 16, some entries";

/// How many inputs the comparisons take.
pub struct Amounts {
    /// Bases of each form, of each dimension with each step.
    pub bases: Turns,
    /// Larger dimensions, of which each form has a basis and some entries are compared.
    pub large: &'static [u64],
}

/// The amounts that the program takes: over 100,000 different bases.
pub const FULL: Amounts = Amounts {
    bases: [0, 0, 150, 500, 1_000, 300, 100, 50, 20, 4, 2, 1, 1],
    large: &[13, 14, 15, 16],
};

/// Runs all comparisons of this file: one for each form, and two with all of them.
pub fn comparisons(library: &dyn Library, amounts: &Amounts) -> Vec<Comparison> {
    let of_form = |form: &Form| raw_calls(library, form.name, calls(form, &amounts.bases));
    let mut all: Vec<Comparison> = FORMS.iter().map(of_form).collect();
    all.push(next_bases(library, &amounts.bases));
    all.push(sampled_folds(library, LARGE, large_calls(amounts.large)));
    all
}

// Inputs.

/// Bases of a form, each with the step that it is for.
fn bases(random: &mut Random, form: &Form, settings: &[Setting]) -> Vec<(u64, Vec<u64>)> {
    let basis = |&[k, _, step]: &Setting| (step, form.basis(random, k as usize, step as usize));
    settings.iter().map(basis).collect()
}

/// Every setting as often as its dimension has turns.
fn settings(turns: &Turns) -> Vec<Setting> {
    let all = (2..=12).flat_map(FOLD.settings);
    all.flat_map(|setting| vec![setting; turns[setting[0] as usize]]).collect()
}

/// The bases of the comparison of a form, in calls with which nothing else is wrong.
fn calls(form: &Form, turns: &Turns) -> Vec<Call> {
    let random = &mut Random::named(form.name);
    let bases = bases(random, form, &settings(turns));
    let call = |(turn, (step, basis))| over_basis(random, step, basis, turn);
    bases.into_iter().enumerate().map(call).collect()
}

/// A call of each form and dimension, made when it is needed. The steps take turns.
fn large_calls(dimensions: &[u64]) -> impl Iterator<Item = Call> + '_ {
    let mut random = Random::named(LARGE);
    let all = FORMS.iter().flat_map(|form| dimensions.iter().map(move |&k| (form, k)));
    all.enumerate().map(move |(turn, (form, k))| {
        let step = 1 + turn % 3;
        let basis = form.basis(&mut random, k as usize, step);
        over_basis(&mut random, step as u64, basis, turn)
    })
}

// Next bases.

/// What a fold leaves for the next layer.
#[derive(PartialEq)]
enum Next {
    /// Nothing, having refused.
    Nothing,
    Independent,
    /// A basis that is dependent at this place.
    Dependent(usize),
}

impl Show for Next {
    fn show(&self) -> String {
        match self {
            Next::Nothing => "no next basis".to_string(),
            Next::Independent => "an independent next basis".to_string(),
            Next::Dependent(place) => format!("a next basis dependent at place {place}"),
        }
    }
}

/// With the bases of all forms. Nothing is compared but what the paper says without a fold.
fn next_bases(library: &dyn Library, turns: &Turns) -> Comparison {
    compare(
        NEXT_BASES,
        FORMS.iter().flat_map(|form| calls(form, turns)),
        PAPER_AND_LIBRARY,
        |call| match call.refusal() {
            Some(_) => Next::Nothing,
            None => Next::Independent,
        },
        |call| next_of_library(library, call),
    )
}

fn next_of_library(library: &dyn Library, call: &Call) -> Next {
    let mut after = after_safe(library, call);
    if after.answer.number != 0 {
        return Next::Nothing;
    }
    let [_, next_basis] = after.outputs.lists();
    first_dependent(next_basis).map_or(Next::Independent, Next::Dependent)
}

/// Each comparison is shown to fail for a library that is wrong.
#[cfg(test)]
mod tests;
