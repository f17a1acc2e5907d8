//! Provers, judges and writers that are wrong alike in what they refuse.

use super::*;
use crate::answer::{done, refused};
use crate::compare::wrong::{causes, first_of_all, refusing};

// Each name is the end of that of a comparison of each of them.

const K_OUT: &str = "k out of range";
const K_OUT_AND_DAMAGED: &str = "k out of range and damaged";
const TOO_SMALL: &str = "k below rate plus step";
const SEVERAL_LISTS: &str = "several lists of wrong lengths";
const SEVERAL: &str = "several causes";
const SAFE: &str = "safe calls";
const BASES: [&str; 4] = [
    "zero in the basis",
    "a repeated basis element",
    "a sum of earlier basis elements",
    "a basis dependent at two places",
];

/// The rows of an operation with a comparison of right calls.
pub fn rows(operation: Op, right_calls: &'static str) -> Vec<Row<Wrong>> {
    let highest_list = refusing(13, |call, _| {
        let mut causes = causes(call).into_iter();
        causes.rfind(|cause| cause.number == 13).expect("a wrong list")
    });
    let taking_1 = refusing(4, |call, right| match call.k() {
        1 => done(),
        _ => right,
    });
    let mut rows = vec![
        row("the highest list is named", highest_list).differs(&[SEVERAL_LISTS, SEVERAL, SAFE]),
        row("no basis is found dependent", refusing(8, |_, _| done()))
            .differs(&BASES)
            .differs(&[SAFE])
            .agrees(&[TOO_SMALL, SEVERAL_LISTS]),
        row("a dimension of 1 is taken", taking_1).differs(&[K_OUT_AND_DAMAGED, K_OUT, SEVERAL]),
        row("a dimension that is too small is taken", refusing(7, |_, _| done()))
            .differs(&[TOO_SMALL, SEVERAL, SAFE]),
        in_range("a step of 3 is refused", |[_, _, step]| step == 3).differs(&[right_calls]),
        in_range("a dimension of rate plus step is refused", |[k, rate, step]| k == rate + step)
            .differs(&[right_calls]),
    ];
    for list in [Challenges, Given, Store, Last] {
        let name = format!("list {} of a wrong length", list.number());
        rows.push(
            row(format!("a shorter {} is taken", list.name()), taking_shorter(list))
                .differs(&[&name])
                .agrees(&["list 1 of a wrong length", "zero in the basis", K_OUT]),
        );
    }
    rows.into_iter().map(|row| row.of(operation)).collect()
}

/// Refuses a right setting.
fn in_range(what: &'static str, wrong: fn(Setting) -> bool) -> Row<Wrong> {
    let refusing = first_of_all(move |call| {
        let is_wrong = call.refusal().is_none() && wrong(call.setting());
        is_wrong.then(|| refused(4))
    });
    row(what, refusing).agrees(&BASES)
}

/// Takes a list that is too short, but for an empty one, as if it had the right length.
fn taking_shorter(list: List) -> Wrong {
    refusing(13, move |call, right| {
        let due = call.due_length(list);
        if !(1..due).contains(&call[list].len()) {
            return right;
        }
        let filled = call.clone().with_length(list, due);
        filled.refusal().unwrap_or(done())
    })
}
