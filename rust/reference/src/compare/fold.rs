//! The comparisons of the fold.

pub mod bases;
mod properties;

use super::call::*;
use super::cosets::{self, basis, challenge, offset};
use super::lent::FILLS;
use super::operation::{
    after_raw, after_safe, case, raw_calls, Library, Operation, Outputs, Turns,
};
use super::{compare, library, refused, Comparison, Show};
use super::{PAPER_AND_LIBRARY, REFERENCE_AND_LIBRARY};
use crate::answer::{refused_at, went_well, Answer};
use crate::coset::points;
use crate::field;
use crate::fold::{self, Fold, DIMENSIONS, STEPS};
use crate::polynomial::value;
use crate::random::Random;

pub static FOLD: Operation = Operation {
    name: "fold",
    numbers: &[K, Step, Offset, Challenge],
    given: &[Basis, Given],
    lent: &[Output, NextBasis],
    dimensions: *DIMENSIONS.start() as u64..=*DIMENSIONS.end() as u64,
    settings: |k| {
        let highest = if k < *DIMENSIONS.start() as u64 { *STEPS.end() as u64 } else { k.min(3) };
        (1..=highest).map(|step| [k, 0, step]).collect()
    },
    due_length,
    fits: |_, length, due| length == due,
    refusal: |call| next_coset(call).err(),
    due,
    mended: |_| None,
    safe: library::fold,
    raw: library::raw_fold,
    right: |random, [k, _, step], turn| right(random, k, step, turn),
    special: |random, [k, ..]| vec![to_all_ones(random, k)],
    k_out_of_range: "k out of range",
    least_k: "the step",
    several_lists: "several lists of wrong lengths",
};

fn due_length(call: &Call, list: List) -> usize {
    let k = call.k().min(refused::LARGEST_OF_LISTS);
    let left = k.saturating_sub(call[Step]);
    match list {
        Basis => k as usize,
        Given => 1 << k,
        Output => 1 << left,
        _ => left as usize,
    }
}

/// What the reference takes.
fn given(call: &Call) -> Fold<'_> {
    Fold {
        k: call[K] as usize,
        step: call[Step] as usize,
        offset: call[Offset],
        basis: &call[Basis],
        word: &call[Given],
        challenge: call[Challenge],
    }
}

fn next_coset(call: &Call) -> Result<fold::Coset, Answer> {
    let [values, next_basis] = [Output, NextBasis].map(|list| call[list].len());
    fold::next_coset(given(call), values, next_basis)
}

fn due(call: &Call, outputs: &mut Outputs) -> Answer {
    let [values, next_basis] = outputs.lists();
    match fold::fold(given(call), values.len(), next_basis.len()) {
        Ok(folded) => {
            values.copy_from_slice(&folded.values);
            next_basis.copy_from_slice(&folded.next.basis);
            went_well(folded.next.offset)
        }
        Err(refusal) => refusal,
    }
}

// Right calls. The basis, the offset, the word and the challenge are each of one of a few sorts,
// in turn. There are 3, 4, 5 and 7 sorts, and as these numbers have no common divisor all
// combinations come up within 420 turns.

fn right(random: &mut Random, k: u64, step: u64, turn: usize) -> Call {
    let basis = basis(random, k as usize, turn);
    over_basis(random, step, basis, turn)
}

/// Right where the basis is independent.
fn over_basis(random: &mut Random, step: u64, basis: Vec<u64>, turn: usize) -> Call {
    let offset = offset(random, &basis, turn);
    let word = word(random, step, offset, &basis, turn);
    let challenge = challenge(random, step as usize, offset, &basis, turn);
    let fill = FILLS[random.below(2)];
    call_of([basis.len() as u64, step], offset, basis, word, challenge).with_fill(fill)
}

/// A call with lent lists of the right lengths.
fn call_of([k, step]: [u64; 2], offset: u64, basis: Vec<u64>, word: Vec<u64>, x: u64) -> Call {
    Call::of(&FOLD)
        .with_setting([k, 0, step])
        .with(Offset, offset)
        .with(Challenge, x)
        .with_list(Basis, basis)
        .with_list(Given, word)
        .with_due_length(Output)
        .with_due_length(NextBasis)
}

/// A word of one of the common sorts, or of a polynomial that folds to at most four coefficients.
fn word(random: &mut Random, step: u64, offset: u64, basis: &[u64], turn: usize) -> Vec<u64> {
    if turn % 5 < 4 {
        return cosets::word(random, 1 << basis.len(), turn % 5);
    }
    let points = points(offset, basis);
    let count = (1 + random.below(4)) << step;
    let polynomial = random.list(count.min(points.len()));
    points.iter().map(|&x| value(&polynomial, x)).collect()
}

/// A right call with step 1 whose next offset, h (h + b), is all ones, which as a raw number also
/// stands for no value.
fn to_all_ones(random: &mut Random, k: u64) -> Call {
    let mut call = right(random, k, 1, 0);
    let offset = call[Offset];
    let inverse = field::inverse_of_divisor(offset);
    call[Basis][0] = field::sum(offset, field::product(u64::MAX, inverse));
    call
}

/// Right calls with every step and all dimensions that there are turns for.
fn all_right_calls(random: &mut Random, turns: &Turns) -> Vec<Call> {
    FOLD.right_calls(random, (2..=12).flat_map(FOLD.settings), turns)
}

/// One call of each dimension with each step, made when it is needed.
fn large_calls(name: &str, dimensions: &[u64]) -> impl Iterator<Item = Call> {
    let mut random = Random::named(name);
    let settings = FOLD.all_settings(dimensions).into_iter();
    settings.map(move |[k, _, step]| right(&mut random, k, step, 0))
}

// The comparisons, and their names.

const STEP_1: &str = "fold with step 1, k 2 to 6";
const STEP_2: &str = "fold with step 2, k 2 to 6";
const STEP_3: &str = "fold with step 3, k 3 to 6";
const LARGE_1: &str = "fold with step 1, k 7 to 12";
const LARGE_2: &str = "fold with step 2, k 7 to 12";
const LARGE_3: &str = "fold with step 3, k 7 to 12";
const WHOLE: &str = "fold, k 13 to 16";
const SAMPLED: &str = "fold, k 20, some entries";
const ALL_ONES: &str = "fold, the next offset all ones";
const AT_POINTS: &str = "the fold at a point is the word there";
const LOW_DEGREES: &str = "the fold of a low degree has a low degree";
const TWICE: &str = "step 2 is step 1 twice";
const ONE_THEN_TWO: &str = "step 3 is step 1, then step 2";
const TWO_THEN_ONE: &str = "step 3 is step 2, then step 1";
const SUMS: &str = "the fold of u + v is that of u + that of v";
const CASE_D: &str = "case D of table A";
const CASE_F: &str = "case F of table A, the fold";
const CASE_J: &str = "case J of table A, the fold";
const CASE_J_ALL: &str = "case J of table A, 2 alone is exceptional";
const FIRST_OF_K: &str = "case K of table A, the first fold";
const SECOND_OF_K: &str = "case K of table A, the second fold";
const CASE_M: &str = "case M of table A, fold";

/// How many inputs the comparisons take.
pub struct Amounts {
    pub folds: Turns,
    /// Larger dimensions, of which the whole fold is compared.
    pub whole: &'static [u64],
    /// Those of which some entries are.
    pub sampled: &'static [u64],
    /// How many of each dimension, with step 1 alone.
    pub all_ones: Turns,
    pub at_points: Turns,
    pub low_degrees: Turns,
    pub in_two: Turns,
    pub sums: Turns,
    /// How many of the smallest challenges and of random ones in case J.
    pub challenges: usize,
    pub refused: refused::Amounts,
}

/// The amounts that the program takes. All sorts of right calls come up within 420 turns.
pub const FULL: Amounts = Amounts {
    folds: [0, 0, 420, 420, 420, 420, 420, 105, 105, 42, 21, 7, 7],
    whole: &[13, 14, 15, 16],
    sampled: &[20],
    all_ones: [0, 0, 50, 50, 50, 20, 20, 10, 10, 0, 0, 0, 0],
    at_points: [0, 0, 20, 20, 20, 20, 5, 5, 2, 0, 0, 0, 0],
    low_degrees: [0, 0, 84, 84, 84, 42, 42, 21, 21, 0, 0, 0, 0],
    in_two: [0, 0, 0, 210, 210, 210, 105, 42, 21, 12, 12, 0, 0],
    sums: [0, 0, 210, 210, 210, 105, 105, 42, 21, 12, 12, 0, 0],
    challenges: 2_000,
    refused: refused::Amounts {
        out_of_range: &[
            1, 0, 21, 22, 23, 24, 31, 32, 33, 37, 63, 64, 65, 69, 127, 133, 255, 256, 261,
        ],
        dimensions: &[2, 3, 4, 5, 6, 7, 8, 9, 10, 11, 12, 20],
        too_small: 480,
        several_lists: 8,
        largest_dependent: 12,
        several_causes: 12,
        most_causes: usize::MAX,
        every_sort: (&[2, 3, 4, 5], 35),
    },
};

/// Runs all comparisons of this file and of `properties`. Those of `bases` are run apart.
pub fn comparisons(library: &dyn Library, amounts: &Amounts) -> Vec<Comparison> {
    let mut all = Vec::new();
    for (name, step, dimensions) in [
        (STEP_1, 1, 2..=6),
        (STEP_2, 2, 2..=6),
        (STEP_3, 3, 3..=6),
        (LARGE_1, 1, 7..=12),
        (LARGE_2, 2, 7..=12),
        (LARGE_3, 3, 7..=12),
    ] {
        let settings = dimensions.map(|k| [k, 0, step]);
        let inputs = FOLD.right_calls(&mut Random::named(name), settings, &amounts.folds);
        all.push(raw_calls(library, name, inputs));
    }
    all.push(raw_calls(library, WHOLE, large_calls(WHOLE, amounts.whole)));
    all.push(sampled_folds(library, SAMPLED, large_calls(SAMPLED, amounts.sampled)));
    all.push(raw_calls(library, ALL_ONES, all_to_all_ones(&amounts.all_ones)));
    all.extend(properties::comparisons(library, amounts));
    all.extend(refused::comparisons(library, &FOLD, &amounts.refused));
    all.extend(table_a(library));
    all.push(case_j_for_all_challenges(library, amounts.challenges));
    all
}

fn all_to_all_ones(amounts: &Turns) -> Vec<Call> {
    let random = &mut Random::named(ALL_ONES);
    let turns = (0..).zip(amounts).flat_map(|(k, &amount)| vec![k; amount]);
    turns.map(|k| to_all_ones(random, k)).collect()
}

// Some entries of large folds.

/// About so many entries are compared where the reference would take long for all of them.
const SAMPLES: usize = 512;

/// Entries that lie far apart, at indices that are not multiples of a power of two, and the last
/// one.
fn is_sampled(place: usize, length: usize) -> bool {
    place.is_multiple_of(length / SAMPLES + 1) || place + 1 == length
}

/// The reference, which leaves alone what is not sampled.
struct Sampled;

impl Library for Sampled {
    fn safe(&self, call: &Call, outputs: &mut Outputs) -> Answer {
        let next = match next_coset(call) {
            Ok(next) => next,
            Err(refusal) => return refusal,
        };
        let [values, next_basis] = outputs.lists();
        let length = values.len();
        for place in (0..length).filter(|&place| is_sampled(place, length)) {
            values[place] = fold::entry(given(call), place);
        }
        next_basis.copy_from_slice(&next.basis);
        went_well(next.offset)
    }
}

fn sampled_folds(
    library: &dyn Library,
    name: &'static str,
    calls: impl Iterator<Item = Call>,
) -> Comparison {
    compare(
        name,
        calls,
        REFERENCE_AND_LIBRARY,
        |call| after_raw(&Sampled, call),
        |call| {
            let mut after = after_raw(library, call);
            after.outputs.lent[0].keep(|place| is_sampled(place, call[Output].len()));
            after
        },
    )
}

// Table A.

/// A call with step 1 in a case of the paper.
fn in_case(offset: u64, basis: &[u64], word: &[u64], challenge: u64) -> Call {
    let k = basis.len() as u64;
    call_of([k, 1], offset, basis.to_vec(), word.to_vec(), challenge)
}

fn of_case_j(challenge: u64) -> Call {
    in_case(0, &[1, 2], &[0, 0, 0, 1], challenge)
}

/// In case D the paper gives the coset alone; the word has one value, which its fold has at any
/// challenge. In case M it gives the basis alone; all else is anything that fits.
fn table_a(library: &dyn Library) -> Vec<Comparison> {
    let gives = |name, call, values: &[u64], offset, basis: &[u64]| {
        case(library, name, call, went_well(offset), &[Some(values), Some(basis)])
    };
    let d = in_case(8, &[1, 2], &[5; 4], 7);
    let f = in_case(0, &[1, 2], &[7, 4, 1, 2], 4);
    let layer_1 = [2, 4, 0x16, 0x10];
    let first = in_case(0, &[1, 2, 4], &[0, 1, 4, 5, 0x10, 0x11, 0x14, 0x15], 2);
    let second = in_case(0, &[6, 0x14], &layer_1, 3);
    let m = in_case(4, &[1, 2, 3], &[1, 2, 3, 4, 5, 6, 7, 8], 9);
    vec![
        gives(CASE_D, d, &[5, 5], 0x48, &[6]),
        gives(CASE_F, f, &[0xb, 0xb], 0, &[6]),
        gives(CASE_J, of_case_j(2), &[0, 0], 0, &[6]),
        gives(FIRST_OF_K, first, &layer_1, 0, &[6, 0x14]),
        gives(SECOND_OF_K, second, &[1, 1], 0, &[0x168]),
        case(library, CASE_M, m, refused_at(8, 2), &[None, None]),
    ]
}

/// The smallest challenges and random ones, as many of each as the amount says, single bits,
/// those that one bit keeps from being 2, and all ones.
pub(super) fn challenges_of_case_j(random: &mut Random, amount: usize) -> Vec<u64> {
    let smallest = 0..amount as u64;
    let bits = (0..64).flat_map(|place| [1 << place, 2 ^ (1 << place)]);
    let fixed = smallest.chain(bits).chain([u64::MAX]);
    fixed.chain(random.list(amount)).collect()
}

/// Whether a challenge is exceptional.
#[derive(PartialEq)]
pub(super) struct Exceptional(pub(super) bool);

impl Show for Exceptional {
    fn show(&self) -> String {
        let shown = if self.0 { "exceptional" } else { "not exceptional" };
        shown.to_string()
    }
}

/// The word has degree 3, and a challenge is exceptional if the fold has degree below 1, that is
/// one value.
fn case_j_for_all_challenges(library: &dyn Library, amount: usize) -> Comparison {
    compare(
        CASE_J_ALL,
        challenges_of_case_j(&mut Random::named(CASE_J_ALL), amount),
        PAPER_AND_LIBRARY,
        |&challenge| Exceptional(challenge == 2),
        |&challenge| {
            let mut after = after_safe(library, &of_case_j(challenge));
            let values = after.outputs.first();
            Exceptional(values[0] == values[1])
        },
    )
}

/// Each comparison is shown to fail for a library that is wrong.
#[cfg(test)]
mod tests;
