//! Rows that all operations share: the mistakes that every one could make, made from its
//! description.

use super::*;
use crate::answer::refused;
use crate::compare::refused::{all_causes, causes_of_setting, range, with_other_answer, Sort};
use crate::coset::point;
use crate::protocol::QUERY_COUNTS;

/// The comparisons of an operation that are not made from its description.
pub struct Others {
    /// Those of right calls by the C convention.
    pub right: &'static [&'static str],
    /// Those of safe calls that are not refused, in which the whole answer counts.
    pub safely: &'static [&'static str],
    /// Those of safe calls with a dependent basis.
    pub dependent: &'static [&'static str],
    /// Those of calls that are refused for other causes among others: what they show of a mistake
    /// is left open.
    pub unsaid: &'static [&'static str],
}

/// The comparisons that are made from the description of an operation.
struct Names {
    operation: Op,
    lists: Vec<&'static str>,
    bases: Vec<&'static str>,
    /// Those of calls by the C convention that are refused and answered.
    refused: Vec<&'static str>,
    damaged: &'static str,
    k_out: &'static str,
    several_lists: &'static str,
    several: &'static str,
    other_answer: &'static str,
    safe: &'static str,
}

impl Names {
    fn of(operation: Op) -> Names {
        let name = |sort: Sort| sort.name(operation);
        let lists = operation.lists().into_iter();
        Names {
            operation,
            lists: lists.map(|list| name(Sort::Length(list))).collect(),
            bases: (0..4).map(|sort| name(Sort::Dependent(sort))).collect(),
            refused: Sort::all(operation).into_iter().map(name).collect(),
            damaged: name(Sort::Damaged),
            k_out: name(Sort::KOut),
            several_lists: name(Sort::SeveralLists),
            several: name(Sort::SeveralCauses),
            other_answer: with_other_answer(operation),
            safe: operation.title("safe calls"),
        }
    }
}

/// The mistakes that every operation could make.
pub fn shared_rows(operation: Op, others: &Others) -> Vec<Row<Wrong>> {
    let names = &Names::of(operation);
    let all = [
        wrong_writing(names, others),
        wrong_answers(names, others),
        wrong_lists(names),
        wrong_order(names),
        wrong_bases(names, others),
        wrong_dimensions(names),
        wrong_ranges(names),
    ];
    let unsaid = others.unsaid;
    all.into_iter().flatten().map(|row| Row { unsaid, ..row.of(operation) }).collect()
}

fn wrong_writing(names: &Names, others: &Others) -> Vec<Row<Wrong>> {
    let refused = [&names.refused[..], &[names.safe], others.dependent].concat();
    let nothing = Wrong { raw: Rc::new(|_, _, _| ()), ..alike(|_, _| refused_at(0, 0)) };
    let mut rows = vec![row("nothing is done", nothing)
        .differs(&[&refused[..], others.right, others.safely].concat())
        .agrees(&[names.other_answer])];
    if !names.operation.lent.is_empty() {
        let clearing = when_refused(|_, outputs| outputs.clear());
        rows.push(row("a refusal clears the lists", clearing).differs(&refused));
    }
    for (place, list) in names.operation.lent.iter().enumerate() {
        let first_number = when_refused(move |_, outputs| outputs.change_first(place));
        // Of dimensions out of range only the first is left, which may leave the list empty.
        let mut shown = refused.clone();
        shown.retain(|name| *name != names.k_out);
        let what = format!("a refusal writes to {}", list.name());
        rows.push(row(what, first_number).differs(&shown).agrees(others.right));
    }
    rows
}

fn wrong_answers(names: &Names, others: &Others) -> Vec<Row<Wrong>> {
    let not_looking =
        raw_alone(|call, outputs, answer| write_what_fits(right(call, outputs), answer));
    let longer = raw_alone(|call, outputs, answer| {
        if let Some(five) = answer.get_mut(..ANSWER_LENGTH) {
            Reference.raw(call, outputs, five)
        }
    });
    let without_an_answer = raw_alone(|call, outputs, answer| {
        let due = right(call, outputs);
        into_five(answer, || due);
    });
    let value_wrong = answering(|_, answer| changed_at(4, answer));
    let only_safe = Wrong { safe: value_wrong.safe, ..right_library() };
    let safely = [others.safely, others.dependent, &[names.safe]].concat();
    let other = &[names.other_answer];
    let mut rows = vec![
        row("the length of the answer is not looked at", not_looking).differs(other),
        row("a longer answer is written to", longer)
            .differs(other)
            .smallest(names.other_answer, "answer of length 6,"),
        row("only a safe call is wrong", only_safe).differs(&safely),
    ];
    if !names.operation.lent.is_empty() {
        rows.push(row("the lists are written without an answer", without_an_answer).differs(other));
    }
    let raw = [&names.refused[..], others.right].concat();
    for place in 0..ANSWER_LENGTH {
        let leaving = raw_alone(move |call, outputs, answer| {
            let left = answer.get(place).copied();
            Reference.raw(call, outputs, answer);
            if let Some(left) = left {
                answer[place] = left;
            }
        });
        let changing = answering(move |_, answer| changed_at(place, answer));
        let number = format!("number {place} of the answer");
        rows.push(row(format!("{number} is not written"), leaving).differs(&raw));
        let all = [&raw[..], &safely].concat();
        rows.push(row(format!("{number} is wrong"), changing).differs(&all).agrees(other));
    }
    rows
}

fn wrong_lists(names: &Names) -> Vec<Row<Wrong>> {
    let lists = names.operation.lists();
    let (last, before) = (lists[lists.len() - 1], lists[lists.len() - 2]);
    let from_0 = refusing(13, |_, answer| refused_at(13, answer.place.unwrap_or(1) - 1));
    let mistaken = refusing(13, move |_, answer| match answer.place == Some(last.number()) {
        true => refused_at(13, before.number()),
        false => answer,
    });
    let all = [&names.lists[..], &[names.several_lists, names.several, names.safe]].concat();
    let last_alone = [names.lists[lists.len() - 1], names.several, names.safe];
    let mut rows = vec![
        row("a list is counted from 0", from_0).differs(&all),
        row("the list is not named", refusing(13, |_, _| refused(13))).differs(&all),
        row("the last list is taken for the one before it", mistaken).differs(&last_alone),
    ];
    for (list, &name) in lists.into_iter().zip(&names.lists) {
        let cut = always_instead(move |mut call| {
            let due = call.due_length(list);
            call[list].truncate(due);
            call
        });
        // Where several lists are wrong the last is never the lowest.
        let several = if list == last { names.several } else { names.several_lists };
        let what = format!("a longer {} is taken", list.name());
        rows.push(row(what, cut).differs(&[name, several, names.several, names.safe]));
    }
    rows
}

/// The refusals of all causes that a call has before any work, in the paper's order. Where no
/// length is right lists should have the nearest there is.
pub fn causes(call: &Call) -> Vec<Answer> {
    let operation = call.operation;
    let causes = causes_of_setting(operation, call.setting());
    let mut all: Vec<Answer> = causes.into_iter().map(refused).collect();
    let wrong = operation.lists().into_iter().filter(|&list| !call.fits(list));
    all.extend(wrong.map(|list| refused_at(13, list.number())));
    all.extend(dependent(&call[Basis]));
    if operation.given.contains(&Queries) {
        let queries = &call[Queries];
        all.extend((!QUERY_COUNTS.contains(&queries.len())).then(|| refused(9)));
        let place = queries.iter().position(|query| call.k() < 64 && query >> call.k() > 0);
        all.extend(place.map(|place| refused_at(10, place as u64)));
        let coset = |place: usize| queries[place].checked_shr(call[Step] as u32);
        let is_again = |&later: &usize| (0..later).any(|place| coset(place) == coset(later));
        let place = (0..queries.len()).find(is_again);
        all.extend(place.map(|place| refused_at(17, place as u64)));
    }
    all
}

fn wrong_order(names: &Names) -> Vec<Row<Wrong>> {
    let is = |one: &Answer, cause: &Answer| {
        one.number == cause.number && (one.number != 13 || one.place == cause.place)
    };
    let mut rows = Vec::new();
    for pair in all_causes(names.operation).windows(2) {
        let [first, second] = [pair[0], pair[1]];
        let swapped = first_of_all(move |call| match causes(call)[..] {
            [one, other, ..] if is(&one, &first) && is(&other, &second) => Some(other),
            _ => None,
        });
        let both_lists = first.number == 13 && second.number == 13;
        let shown = if both_lists { names.several_lists } else { names.several };
        let what = format!("cause {} comes before cause {}", second.number, first.number);
        rows.push(
            row(what, swapped)
                .differs(&[names.several, shown])
                .agrees(&[&names.bases[..], &names.lists].concat()),
        );
    }
    let before = |later: u64, earlier: u64| {
        first_of_all(move |call| {
            let refusal = call.refusal()?;
            let mut others = causes(call).into_iter().filter(|cause| cause.number == later);
            others.next().filter(|_| refusal.number == earlier)
        })
    };
    for (what, wrong, shown) in [
        ("the basis comes before the lists", before(8, 13), names.several),
        ("the basis comes before the dimension", before(8, 4), names.damaged),
        ("the lists come before the dimension", before(13, 4), names.damaged),
    ] {
        rows.push(row(what, wrong).differs(&[names.several, shown]).agrees(&names.bases));
    }
    rows
}

/// The places of the elements that are sums of so many earlier ones at most; zero is that of none.
fn sums_of(most: u32, basis: &[u64]) -> impl Iterator<Item = usize> + '_ {
    let is_sum = move |&place: &usize| {
        let mut picks = (0..1u64 << place).filter(|pick| pick.count_ones() <= most);
        picks.any(|pick| point(0, &basis[..place], pick) == basis[place])
    };
    (0..basis.len()).filter(is_sum)
}

/// A test of a basis: the first place that it finds dependent.
type BasisTest = fn(&[u64]) -> Option<usize>;

fn but_the_last(basis: &[u64]) -> Option<usize> {
    first_dependent(&basis[..basis.len() - 1])
}

fn but_the_first(basis: &[u64]) -> Option<usize> {
    first_dependent(&basis[1..]).map(|place| place + 1)
}

fn wrong_bases(names: &Names, others: &Others) -> Vec<Row<Wrong>> {
    let testing = |test: BasisTest| {
        refusing(8, move |call, _| {
            test(&call[Basis]).map_or(done(), |place| refused_at(8, place as u64))
        })
    };
    let last_dependent = testing(|basis| sums_of(u32::MAX, basis).last());
    let only_zero = testing(|basis| sums_of(0, basis).next());
    let zero_and_repeated = testing(|basis| sums_of(1, basis).next());
    let sums_of_two = testing(|basis| sums_of(2, basis).next());
    let from_1 = refusing(8, |_, answer| refused_at(8, answer.place.unwrap_or(0) + 1));
    // Bases that a single bit keeps from being dependent show it.
    let lower_half = first_of_all(|call| {
        let cause = dependent(&lower_halves(&call[Basis]));
        cause.filter(|_| !is_refused(call))
    });
    let bases = &names.bases[..];
    let [zero, repeated, sums, two_places] = [0, 1, 2, 3].map(|sort| bases[sort]);
    let safely = [&[names.safe], others.dependent].concat();
    vec![
        row("the place is counted from 1", from_1).differs(&[bases, &safely].concat()),
        row("the last dependent place is given", last_dependent).differs(&[two_places]),
        row("the last element is not tested", testing(but_the_last))
            .differs(&[&bases[..3], &safely].concat()),
        row("the first element is not tested", testing(but_the_first))
            .differs(&[zero, repeated, sums])
            .among_others(),
        row("only zero is found dependent", only_zero).differs(&[repeated, sums]).agrees(&[zero]),
        row("only zero and repeated elements are found dependent", zero_and_repeated)
            .differs(&[&[sums], others.dependent].concat())
            .agrees(&[zero, repeated]),
        row("only sums of two are found dependent", sums_of_two)
            .differs(&[sums])
            .agrees(&[&[zero, repeated], others.dependent].concat()),
        row("only the lower half of an element is tested", lower_half)
            .differs(&others.right[..1])
            .agrees(bases)
            .smallest(others.right[0], "100000000"),
    ]
}

fn wrong_dimensions(names: &Names) -> Vec<Row<Wrong>> {
    let Names { operation, damaged, k_out, several, safe, .. } = *names;
    let (lowest, highest) = (*operation.dimensions.start(), *operation.dimensions.end());
    let refusing_lowest = first_of_all(move |call| (call.k() == lowest).then(|| refused(4)));
    let near = highest + 1..=highest + 2;
    let taking_near = taking(4, move |call| near.contains(&call.k()));
    let as_place = refusing(4, |call, _| refused_at(4, call.k()));
    let mut rows = vec![
        row("the lowest dimension is refused", refusing_lowest)
            .differs(&[&names.lists[..], &[safe]].concat())
            .among_others(),
        row("dimensions just above the highest are taken", taking_near)
            .differs(&[damaged, safe])
            .agrees(&names.lists),
        row("the dimension out of range is given as a place", as_place)
            .differs(&[damaged, k_out, several, safe]),
    ];
    // Of a dimension that is the length of the basis the lower bits leave a basis in which damage
    // may not show.
    let (bits, shown) = match operation.takes(K) {
        true => (&[5, 6, 8, 32][..], k_out),
        false => (&[5, 6, 8][..], damaged),
    };
    for &bits in bits {
        let cut = taking(4, move |call| {
            let k = call.k() % (1 << bits);
            let mut cut = call.clone().with(K, k);
            if !call.operation.takes(K) {
                cut[Basis].truncate(k as usize);
            }
            !is_refused(&cut)
        });
        rows.push(row(format!("the dimension is cut to {bits} bits"), cut).differs(&[shown]));
    }
    rows
}

fn wrong_ranges(names: &Names) -> Vec<Row<Wrong>> {
    let mut rows = Vec::new();
    for number in names.operation.ranged() {
        let name = Sort::Range(number).name(names.operation);
        let (range, cause) = range(number);
        let near = &[name, names.several, names.safe][..];
        let far = &[name][..];
        let end = range.end();
        for (value, shown) in [(0, near), (end + 1, near), (end + 5, far), (u64::MAX, far)] {
            let what = format!("{} {value} is taken", number.name());
            let taking = taking(cause, move |call| call[number] == value);
            rows.push(row(what, taking).differs(shown));
        }
        for bits in [6, 8, 16, 32] {
            let cut = always_instead(move |mut call| {
                call[number] %= 1 << bits;
                call
            });
            let what = format!("the {} is cut to {bits} bits", number.name());
            rows.push(row(what, cut).differs(&[name]));
        }
    }
    if names.operation.takes(Step) {
        let too_small = Sort::TooSmall.name(names.operation);
        for other in [refused(6), refused_at(13, 6)] {
            let what = format!("a dimension that is too small has number {}", other.number);
            let renamed = refusing(7, move |_, _| other);
            rows.push(row(what, renamed).differs(&[too_small, names.several, names.safe]));
        }
    }
    rows
}
