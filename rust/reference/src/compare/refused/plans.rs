//! How refused calls are made. A plan is made into a call when its turn comes, since many calls
//! take much room.

use super::Amounts;
use crate::answer::{refused, refused_at, Answer};
use crate::compare::call::*;
use crate::compare::cosets::{any_dependent, wrong_lengths, Bases};
use crate::compare::operation::{Op, Operation, Setting, ANY_QUERIES};
use crate::protocol::QUERY_COUNTS;
use crate::random::Random;
use std::ops::RangeInclusive;

/// What is wrong with a call that has any numbers otherwise.
#[derive(Clone)]
pub struct Plan {
    pub setting: Setting,
    /// The setting whose lists the call has.
    pub lists_for: Setting,
    /// The lists that have another length.
    pub lengths: Vec<(List, usize)>,
    pub basis: Elements,
    /// Other queries than some in range.
    pub queries: Option<Vec<u64>>,
}

#[derive(Clone)]
pub enum Elements {
    Independent,
    WithZero,
    WithRepetition,
    Given(Vec<u64>),
}

impl Plan {
    /// Nothing is wrong with it.
    pub fn of(setting: Setting) -> Plan {
        let (lengths, basis) = (Vec::new(), Elements::Independent);
        Plan { setting, lists_for: setting, lengths, basis, queries: None }
    }

    fn with_length(mut self, list: List, length: usize) -> Plan {
        self.lengths.push((list, length));
        self
    }

    /// With one number too many in a list.
    fn with_longer(self, operation: Op, list: List) -> Plan {
        let due = self.due_length(operation, list);
        self.with_length(list, due + 1)
    }

    /// The length that a list has unless it is given another one.
    fn due_length(&self, operation: Op, list: List) -> usize {
        let basis = if operation.takes(K) { 0 } else { self.lists_for[0] as usize };
        let queries = self.queries.as_ref().map_or(ANY_QUERIES, Vec::len);
        let blank = Call::of(operation).with_setting(self.lists_for);
        blank.with_length(Basis, basis).with_length(Queries, queries).due_length(list)
    }

    pub fn without_lists(self, operation: &Operation) -> Plan {
        operation.lists().into_iter().fold(self, |plan, list| plan.with_length(list, 0))
    }

    pub fn call(self, random: &mut Random, operation: Op) -> Call {
        let mut call = operation.any(random, self.lists_for);
        if let Some(queries) = self.queries {
            call = call.with_queries(queries);
        }
        call = call.with_setting(self.setting);
        for (list, length) in self.lengths {
            call = call.with_any(random, list, length);
        }
        match (self.basis, &mut call[Basis][..]) {
            (Elements::WithZero, [first, ..]) => *first = 0,
            (Elements::WithRepetition, [first, .., last]) => *last = *first,
            (Elements::Given(basis), _) => call[Basis] = basis,
            _ => (),
        }
        call
    }
}

// Ranges.

const RATES: RangeInclusive<u64> = 1..=6;
const STEPS: RangeInclusive<u64> = 1..=3;

/// The range of a rate or a step, and the number that one out of it is refused with.
pub fn range(number: Number) -> (RangeInclusive<u64>, u64) {
    match number {
        Rate => (RATES, 5),
        _ => (STEPS, 6),
    }
}

/// The numbers of the causes that a setting is refused for, in the paper's order.
pub fn causes_of_setting(operation: &Operation, setting: Setting) -> Vec<u64> {
    let [k, rate, step] = setting;
    let mut causes = Vec::new();
    causes.extend((!operation.dimensions.contains(&k)).then_some(4));
    for number in operation.ranged() {
        let (range, cause) = range(number);
        causes.extend((!range.contains(&setting[number as usize])).then_some(cause));
    }
    causes.extend((operation.takes(Step) && k < rate.saturating_add(step)).then_some(7));
    causes
}

// Dimensions out of range.

/// The longest basis of a dimension out of range.
const LONGEST_BASIS: u64 = 300;

/// One setting of a dimension with each step.
fn one_with_each_step(operation: Op, k: u64) -> Vec<Setting> {
    let mut all = (operation.settings)(k);
    let turn = k as usize % all.len().max(1);
    all.rotate_left(turn);
    all.sort_by_key(|[.., step]| *step);
    all.dedup_by_key(|[.., step]| *step);
    all
}

/// Settings whose lists a library could take for right: those of the dimension itself, or of what
/// is left where only the lowest bits of a dimension count.
fn taken_for(operation: Op, k: u64) -> Vec<Setting> {
    let nearest = match k {
        0..=LARGEST_OF_LISTS => k,
        22..=0xffff => k % 16,
        _ => k % 8,
    };
    match &one_with_each_step(operation, nearest)[..] {
        [] => one_with_each_step(operation, *operation.dimensions.start()),
        settings => settings.to_vec(),
    }
}

/// The largest dimension that lists are made for.
pub const LARGEST_OF_LISTS: u64 = 21;

/// With lists that could be taken for right. The basis is also as long as the dimension out of
/// range, if that is not too long.
pub fn k_out_of_range(operation: Op, dimensions: &[u64]) -> Vec<Plan> {
    let mut plans = Vec::new();
    for &k in dimensions {
        for lists_for in taken_for(operation, k) {
            let plan = with_k(operation, k, lists_for);
            if operation.takes(K) && k <= LONGEST_BASIS {
                plans.push(plan.clone().with_length(Basis, k as usize));
            }
            plans.push(plan);
        }
    }
    plans
}

/// Right but for the dimension.
pub fn with_k(operation: Op, k: u64, lists_for: Setting) -> Plan {
    let [_, rate, step] = lists_for;
    let plan = Plan { lists_for, ..Plan::of([k, rate, step]) };
    match operation.takes(K) {
        true => plan,
        false => plan.with_length(Basis, k as usize),
    }
}

/// The plan with something else that is wrong, of each sort.
pub fn with_faults(operation: Op, plan: &Plan) -> Vec<Plan> {
    let with_zero = Plan { basis: Elements::WithZero, ..plan.clone() };
    let mut plans = vec![
        Plan { basis: Elements::WithRepetition, ..plan.clone() },
        with_zero.clone().without_lists(operation),
        with_zero,
        plan.clone().without_lists(operation),
    ];
    let lists = operation.lists().into_iter();
    plans.extend(lists.map(|list| plan.clone().with_longer(operation, list)));
    for number in operation.ranged() {
        for value in [0, range(number).0.end() + 1] {
            let mut plan = plan.clone();
            plan.setting[number as usize] = value;
            plans.push(plan);
        }
    }
    plans
}

// Other numbers out of range.

/// With lists as every right setting asks for them, and as the wrong one does. The wrong ones are
/// near the range, or have the lowest bits of a right one.
pub fn out_of_range(operation: &Operation, number: Number, dimensions: &[u64]) -> Vec<Plan> {
    let highest = *range(number).0.end();
    let near = [0].into_iter().chain(highest + 1..=highest + 5);
    let bits = [63, 64, 64 + 1, 256 + 2, (1 << 16) + 3, (1 << 32) + 1, 1 << 63];
    let wrong: Vec<u64> = near.chain(bits).chain([u64::MAX - 1, u64::MAX]).collect();
    let mut plans = Vec::new();
    for right in operation.all_settings(dimensions) {
        for &value in &wrong {
            let mut setting = right;
            setting[number as usize] = value;
            plans.push(Plan::of(setting));
            plans.push(Plan { lists_for: right, ..Plan::of(setting) });
        }
    }
    plans
}

/// All settings in range whose dimension is too small for the rate and the step.
pub fn too_small_settings(operation: &Operation) -> Vec<Setting> {
    let rates = if operation.takes(Rate) { RATES } else { 0..=0 };
    let mut all = Vec::new();
    for k in 2..=8 {
        for rate in rates.clone() {
            all.extend(STEPS.map(|step| [k, rate, step]));
        }
    }
    all.retain(|&setting| causes_of_setting(operation, setting) == [7]);
    all
}

/// With lists as the formulas give them, with lists of a right setting, without lists, with a
/// zero in the basis, and with lists of any lengths near the right ones.
pub fn too_small(random: &mut Random, operation: Op, times: usize) -> Vec<Plan> {
    let mut plans = Vec::new();
    for setting in too_small_settings(operation) {
        let plan = Plan::of(setting);
        let right = (operation.settings)(setting[0])[0];
        for turn in 0..times {
            plans.push(match turn % 5 {
                0 => plan.clone(),
                1 => Plan { lists_for: right, ..plan.clone() },
                2 => plan.clone().without_lists(operation),
                3 => Plan { basis: Elements::WithZero, ..plan.clone() },
                _ => operation.lists().into_iter().fold(plan.clone(), |plan, list| {
                    let length = plan.due_length(operation, list) + random.below(4);
                    plan.with_length(list, length.saturating_sub(2))
                }),
            });
        }
    }
    plans
}

// Wrong lengths.

/// How much longer than right a list is that is much too long.
const MUCH_LONGER: usize = 1_000;

fn lengths_out_of_range(operation: Op, setting: Setting, list: List) -> Vec<usize> {
    let due = Plan::of(setting).due_length(operation, list);
    let mut lengths = wrong_lengths(due, |length| (operation.fits)(list, length, due));
    lengths.push(due + MUCH_LONGER);
    lengths
}

pub fn list_wrong(operation: Op, list: List, dimensions: &[u64]) -> Vec<Plan> {
    let mut plans = Vec::new();
    for setting in operation.all_settings(dimensions) {
        let lengths = lengths_out_of_range(operation, setting, list).into_iter();
        plans.extend(lengths.map(|length| Plan::of(setting).with_length(list, length)));
    }
    plans
}

/// Larger calls would take long and show nothing more.
const LARGEST_WITH_SEVERAL: u64 = 12;

/// All choices of two lists or more, each with all wrong lengths or with some of them.
pub fn several_lists(random: &mut Random, operation: Op, amounts: &Amounts) -> Vec<Plan> {
    let mut plans = Vec::new();
    let mut settings = operation.all_settings(amounts.dimensions);
    settings.retain(|[k, ..]| *k <= LARGEST_WITH_SEVERAL);
    for setting in settings {
        for chosen in choices(&operation.lists()) {
            let lengths_of = |&list: &List| lengths_out_of_range(operation, setting, list);
            let lengths: Vec<Vec<usize>> = chosen.iter().map(lengths_of).collect();
            let all: usize = lengths.iter().map(Vec::len).product();
            for turn in 0..all.min(amounts.several_lists) {
                let mut pick = if all <= amounts.several_lists { turn } else { random.below(all) };
                let mut plan = Plan::of(setting);
                for (&list, lengths) in chosen.iter().zip(&lengths) {
                    plan = plan.with_length(list, lengths[pick % lengths.len()]);
                    pick /= lengths.len();
                }
                plans.push(plan);
            }
        }
    }
    plans
}

/// All choices of two or more.
fn choices<T: Copy>(all: &[T]) -> Vec<Vec<T>> {
    let chosen = |choice: u32| {
        let places = (0..all.len()).filter(move |place| (choice >> place) & 1 == 1);
        places.map(|place| all[place]).collect()
    };
    let several = (0..1u32 << all.len()).filter(|choice| choice.count_ones() >= 2);
    several.map(chosen).collect()
}

// Dependent bases.

pub fn dependent(random: &mut Random, operation: Op, bases: Bases, largest: usize) -> Vec<Plan> {
    let smallest = (*operation.dimensions.start() as usize).max(1);
    let mut plans = Vec::new();
    for basis in bases(random, smallest..=largest) {
        let with = |setting| Plan { basis: Elements::Given(basis.clone()), ..Plan::of(setting) };
        plans.extend(one_with_each_step(operation, basis.len() as u64).into_iter().map(with));
    }
    plans
}

// More than one cause.

/// All causes that a call can be refused for before any work, in the paper's order, without the
/// places that are not lists.
pub fn all_causes(operation: Op) -> Vec<Answer> {
    let mut all = vec![refused(4)];
    all.extend(operation.ranged().into_iter().map(|number| refused(range(number).1)));
    all.extend(operation.takes(Step).then(|| refused(7)));
    all.extend(operation.lists().into_iter().map(|list| refused_at(13, list.number())));
    all.push(refused(8));
    if operation.given.contains(&Queries) {
        all.extend([9, 10, 17].map(refused));
    }
    all
}

/// All choices of two causes or more, up to the most, each some times.
pub fn several_causes(random: &mut Random, operation: Op, amounts: &Amounts) -> Vec<Plan> {
    let mut chosen = choices(&all_causes(operation));
    chosen.retain(|chosen| chosen.len() <= amounts.most_causes);
    let mut plans = Vec::new();
    for chosen in chosen {
        let times = 0..amounts.several_causes;
        plans.extend(times.map(|_| with_causes(random, operation, &chosen)));
    }
    plans
}

fn with_causes(random: &mut Random, operation: Op, chosen: &[Answer]) -> Plan {
    let is_chosen = |number: u64| chosen.iter().any(|cause| cause.number == number);
    let mut plan = Plan::of(setting_with(random, operation, is_chosen));
    let longer_basis = chosen.contains(&refused_at(13, Basis.number()));
    let k = plan.setting[0] as usize + usize::from(longer_basis);
    if is_chosen(8) {
        plan.basis = Elements::Given(any_dependent(random, k));
    }
    if [9, 10, 17].into_iter().any(is_chosen) {
        plan.queries = Some(queries_with(random, plan.setting, is_chosen));
    }
    let wrong = |list: &List| chosen.contains(&refused_at(13, list.number()));
    let wrong = operation.lists().into_iter().filter(wrong);
    wrong.fold(plan, |plan, list| plan.with_longer(operation, list))
}

/// Queries that have the chosen causes of their own. Too many of them are always out of range or
/// in one coset as well, so that there are none if neither is chosen.
fn queries_with(
    random: &mut Random,
    [k, _, step]: Setting,
    is_chosen: impl Fn(u64) -> bool,
) -> Vec<u64> {
    let [is_count, is_outside, is_shared] = [9, 10, 17].map(is_chosen);
    let count = match is_count {
        true if !is_outside && !is_shared => return Vec::new(),
        true => QUERY_COUNTS.end() + 1,
        false => ANY_QUERIES,
    };
    let mut queries: Vec<u64> = (0..count as u64).map(|coset| coset << step).collect();
    if is_shared && is_count && !is_outside {
        queries.iter_mut().for_each(|query| *query %= 1 << k);
    }
    if is_shared {
        let earlier = random.below(queries.len());
        let beside = queries[earlier] ^ random.below(1 << step) as u64;
        queries.insert(earlier + 1 + random.below(queries.len() - earlier), beside);
    }
    if is_outside {
        let outside = u64::MAX - random.below(1 << k) as u64;
        queries.insert(random.below(queries.len() + 1), outside);
    }
    queries
}

/// Any setting that has the chosen causes. One whose dimension is out of range may be too small
/// as well: large ones would make large lists. There is a basis that can be dependent for each.
fn setting_with(random: &mut Random, operation: Op, is_chosen: impl Fn(u64) -> bool) -> Setting {
    loop {
        let mut setting = [dimension_with(random, operation, is_chosen(4)), 0, 0];
        for number in operation.ranged() {
            setting[number as usize] = random.below(*range(number).0.end() as usize + 4) as u64;
        }
        let causes = causes_of_setting(operation, setting);
        let as_chosen = |&number: &u64| causes.contains(&number) == is_chosen(number);
        if [4, 5, 6].iter().all(as_chosen) && (is_chosen(4) || as_chosen(&7)) {
            return setting;
        }
    }
}

/// Any dimension that is not too large. Where it is the length of the basis, none but one that is
/// too large is out of range.
fn dimension_with(random: &mut Random, operation: Op, is_out: bool) -> u64 {
    match operation.takes(K) {
        false if is_out => operation.dimensions.end() + 1,
        false => 1 + random.below(LARGEST_WITH_SEVERAL as usize) as u64,
        true => 1 + random.below(8) as u64,
    }
}
