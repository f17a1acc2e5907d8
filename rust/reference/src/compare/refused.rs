//! Calls that are refused, made from the description of an operation: numbers out of range, lists
//! of wrong lengths, dependent bases, and several of these causes; and the comparisons with them,
//! with answer lists of other lengths and of safe calls.

mod plans;

use super::call::*;
use super::cosets::{self, Bases};
use super::lent::other_answer_lengths;
use super::operation::{raw_calls, safe_calls, Library, Op, Operation, Setting};
use super::Comparison;
use crate::random::Random;
use plans::Plan;

pub use plans::LARGEST_OF_LISTS;

#[cfg(test)]
pub use plans::{all_causes, causes_of_setting, range};

/// How many inputs the comparisons take.
pub struct Amounts {
    /// The dimensions out of range.
    pub out_of_range: &'static [u64],
    /// The dimensions of calls with other wrong numbers or with wrong lists.
    pub dimensions: &'static [u64],
    /// How often each setting whose dimension is too small.
    pub too_small: usize,
    /// How often each choice of several wrong lists, at most.
    pub several_lists: usize,
    /// The largest dimension of calls with a dependent basis.
    pub largest_dependent: usize,
    /// How often each choice of several causes, and how many causes at most.
    pub several_causes: usize,
    pub most_causes: usize,
    /// The dimensions of calls of every sort, and how many of them are safe.
    pub every_sort: (&'static [u64], usize),
}

/// Out of range for every operation that is given its dimension.
const HUGE: [u64; 5] = [(1 << 16) + 5, (1 << 32) + 5, (1 << 63) + 5, u64::MAX - 1, u64::MAX];

/// What calls that are refused are compared for.
#[derive(Clone, Copy, PartialEq)]
pub enum Sort {
    /// A dimension out of range, and something else that is wrong.
    Damaged,
    KOut,
    Range(Number),
    TooSmall,
    Length(List),
    SeveralLists,
    /// A dependent basis, by its sort.
    Dependent(usize),
    SeveralCauses,
}

const DEPENDENT: [(&str, Bases); 4] = [
    ("zero in the basis", cosets::with_zero_elements),
    ("a repeated basis element", cosets::with_repeated_elements),
    ("a sum of earlier basis elements", cosets::with_sums_of_elements),
    ("a basis dependent at two places", cosets::dependent_at_two_places),
];

impl Sort {
    pub fn all(operation: &Operation) -> Vec<Sort> {
        let mut all = vec![Sort::Damaged, Sort::KOut];
        all.extend(operation.ranged().into_iter().map(Sort::Range));
        all.extend(operation.takes(Step).then_some(Sort::TooSmall));
        all.extend(operation.lists().into_iter().map(Sort::Length));
        all.push(Sort::SeveralLists);
        all.extend((0..DEPENDENT.len()).map(Sort::Dependent));
        all.push(Sort::SeveralCauses);
        all
    }

    /// The name of the comparison.
    pub fn name(self, operation: &Operation) -> &'static str {
        let what = match self {
            Sort::Damaged => format!("{} and damaged", operation.k_out_of_range),
            Sort::KOut => operation.k_out_of_range.to_string(),
            Sort::Range(number) => format!("{} out of range", number.name()),
            Sort::TooSmall => format!("k below {}", operation.least_k),
            Sort::Length(list) => format!("list {} of a wrong length", list.number()),
            Sort::SeveralLists => operation.several_lists.to_string(),
            Sort::Dependent(sort) => DEPENDENT[sort].0.to_string(),
            Sort::SeveralCauses => "several causes".to_string(),
        };
        operation.title(&what)
    }

    fn plans(self, random: &mut Random, operation: Op, amounts: &Amounts) -> Vec<Plan> {
        let huge = if operation.takes(K) { &HUGE[..] } else { &[] };
        let out = [amounts.out_of_range, huge].concat();
        match self {
            Sort::Damaged => {
                let plans = plans::k_out_of_range(operation, &out).into_iter();
                plans.flat_map(|plan| plans::with_faults(operation, &plan)).collect()
            }
            Sort::KOut => plans::k_out_of_range(operation, &out),
            Sort::Range(number) => plans::out_of_range(operation, number, amounts.dimensions),
            Sort::TooSmall => plans::too_small(random, operation, amounts.too_small),
            Sort::Length(list) => plans::list_wrong(operation, list, amounts.dimensions),
            Sort::SeveralLists => plans::several_lists(random, operation, amounts),
            Sort::Dependent(sort) => {
                plans::dependent(random, operation, DEPENDENT[sort].1, amounts.largest_dependent)
            }
            Sort::SeveralCauses => plans::several_causes(random, operation, amounts),
        }
    }
}

pub fn with_other_answer(operation: &Operation) -> &'static str {
    format!("{} with an answer list of another length", operation.name).leak()
}

/// Runs all comparisons that are made from the description alone.
pub fn comparisons(library: &dyn Library, operation: Op, amounts: &Amounts) -> Vec<Comparison> {
    let mut all: Vec<Comparison> = Vec::new();
    for sort in Sort::all(operation) {
        let name = sort.name(operation);
        let mut random = Random::named(name);
        let mut plans = sort.plans(&mut random, operation, amounts);
        // A library that takes large dimensions would not come to an end with calls in which all
        // else is right. So only the first is tried if it has been seen to take damaged ones.
        if sort == Sort::KOut && !all[0].agrees() {
            plans.truncate(1);
        }
        let calls = plans.into_iter().map(|plan| plan.call(&mut random, operation));
        all.push(raw_calls(library, name, calls));
    }
    let (dimensions, turns) = amounts.every_sort;
    let calls = |name, turns| of_every_sort(&mut Random::named(name), operation, dimensions, turns);
    let name = with_other_answer(operation);
    all.push(raw_calls(library, name, with_other_answers(calls(name, 1))));
    let name = operation.title("safe calls");
    all.push(safe_calls(library, name, calls(name, turns)));
    all
}

// A few calls of every sort.

/// Right calls, those that are special to the operation, and some for each cause of a refusal.
fn some_of_each(random: &mut Random, operation: Op, setting: Setting, turn: usize) -> Vec<Call> {
    let right = Plan::of(setting);
    let mut plans = plans::with_faults(operation, &right);
    plans.push(plans::with_k(operation, operation.dimensions.end() + 1, setting));
    let too_small = plans::too_small_settings(operation).into_iter().take(1);
    plans.extend(too_small.map(|setting| Plan { setting, ..right.clone() }));
    plans.push(right);
    let mut calls = (operation.special)(random, setting);
    calls.push((operation.right)(random, setting, turn));
    calls.extend(plans.into_iter().map(|plan| plan.call(random, operation)));
    calls
}

fn of_every_sort(
    random: &mut Random,
    operation: Op,
    dimensions: &[u64],
    turns: usize,
) -> Vec<Call> {
    let mut calls = Vec::new();
    for setting in operation.all_settings(dimensions) {
        calls.extend((0..turns).flat_map(|turn| some_of_each(random, operation, setting, turn)));
    }
    calls
}

/// Each with answer lists of other lengths.
pub fn with_other_answers(calls: Vec<Call>) -> impl Iterator<Item = Call> {
    calls
        .into_iter()
        .flat_map(|call| other_answer_lengths().map(move |answer| Call { answer, ..call.clone() }))
}

#[cfg(test)]
mod tests {
    use super::*;
    use crate::answer::{done, refused, Answer};
    use crate::compare::fold::FOLD;
    use crate::compare::operation::{after_raw, after_safe, Reference};
    use crate::compare::protocol::{JUDGE, PROVE};
    use crate::compare::reed_solomon::{ENCODE, INTERPOLATE};
    use crate::compare::write::WRITE;
    use crate::compare::wrong::{causes, first_of_all, refusing, right_library, Wrong};
    use crate::coset::first_dependent;
    use std::collections::HashSet;

    const OPERATIONS: [Op; 6] = [&ENCODE, &INTERPOLATE, &FOLD, &PROVE, &JUDGE, &WRITE];

    const FEW: Amounts = Amounts {
        out_of_range: &[1 << 8, 37],
        dimensions: &[2, 3, 4],
        too_small: 5,
        several_lists: 3,
        largest_dependent: 5,
        several_causes: 3,
        most_causes: usize::MAX,
        every_sort: (&[2, 3], 1),
    };

    fn calls(operation: Op, sort: Sort) -> Vec<Call> {
        let random = &mut Random::named("refused");
        let plans = sort.plans(random, operation, &FEW).into_iter();
        plans.map(|plan| plan.call(random, operation)).collect()
    }

    /// The causes are found apart from the reference.
    #[test]
    fn calls_are_refused_for_what_their_comparison_names() {
        for operation in OPERATIONS {
            for sort in Sort::all(operation) {
                for call in calls(operation, sort) {
                    let causes = causes(&call);
                    let due = after_safe(&Reference, &call).answer;
                    assert_eq!(causes.first(), Some(&due));
                    let Answer { number, place, .. } = due;
                    assert!(match sort {
                        Sort::Damaged | Sort::KOut => number == 4,
                        Sort::Range(out) => number == range(out).1,
                        Sort::TooSmall => number == 7,
                        Sort::Length(list) => (number, place) == (13, Some(list.number())),
                        Sort::SeveralLists => number == 13 && causes[1].number == 13,
                        Sort::Dependent(_) => number == 8,
                        Sort::SeveralCauses => causes.len() > 1,
                    });
                }
            }
        }
    }

    /// Else a library that takes large dimensions would never come to an end.
    #[test]
    fn large_dimensions_are_not_tried_once_they_are_taken() {
        let tried = |library: &Wrong| comparisons(library, &ENCODE, &FEW)[1].inputs;
        assert_eq!(tried(&right_library()), FEW.out_of_range.len());
        assert_eq!(tried(&refusing(4, |_, _| done())), 1);
    }

    /// A call that is refused shows it as well, without the work of a right one.
    #[test]
    fn the_highest_dimension_is_in_range() {
        for operation in OPERATIONS {
            let highest = *operation.dimensions.end();
            let plan = Plan::of((operation.settings)(highest)[0]).without_lists(operation);
            let call = plan.call(&mut Random::named("highest"), operation);
            let wrong = first_of_all(move |call| (call.k() == highest).then(|| refused(4)));
            assert!(after_raw(&right_library(), &call) == after_raw(&Reference, &call));
            assert!(after_raw(&wrong, &call) != after_raw(&Reference, &call));
        }
    }

    /// A sum of earlier elements has two of them at least.
    #[test]
    fn dependent_bases_are_so_at_all_places() {
        for (sort, lowest) in [(0, 0), (1, 1), (2, 2), (3, 0)] {
            let mut met = HashSet::new();
            for call in calls(&ENCODE, Sort::Dependent(sort)) {
                met.insert((call[Basis].len(), first_dependent(&call[Basis])));
            }
            let all = cosets::all_places(1..=5).filter(|&(k, place)| match sort {
                3 => place + 1 < k,
                _ => place >= lowest,
            });
            assert!(all.map(|(k, place)| (k, Some(place))).all(|place| met.contains(&place)));
        }
    }
}
