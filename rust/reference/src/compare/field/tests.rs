//! Wrong libraries, and the comparisons that they differ in.

use super::*;
use crate::answer::done;
use crate::compare::wrong::{changed_at, hold_table, into_five, row, write_what_fits, Row};

/// Few enough to run without optimisation.
const FEW: usize = 500;

// The reference in the place of the library, with one function wrong.

fn right() -> Field {
    Field {
        sum: Box::new(field::sum),
        product: Box::new(field::product),
        inverse: Box::new(field::inverse),
        raw_inverse: Box::new(|a, answer| into_five(answer, || inverse_due(a))),
    }
}

type Operation = fn(u64, u64) -> u64;

fn wrong_sum(what: &str, sum: Operation, differ: &[&[&str]]) -> Row<Field> {
    wrong(format!("sum: {what}"), Field { sum: Box::new(sum), ..right() }, differ)
}

fn wrong_product(what: &str, product: Operation, differ: &[&[&str]]) -> Row<Field> {
    let library = Field { product: Box::new(product), ..right() };
    wrong(format!("product: {what}"), library, differ).differs(PRODUCT)
}

fn inverting(inverse: fn(u64) -> u64) -> Field {
    Field { inverse: Box::new(inverse), ..right() }
}

fn writing(raw_inverse: impl Fn(u64, &mut [u64]) + Sync + 'static) -> Field {
    Field { raw_inverse: Box::new(raw_inverse), ..right() }
}

fn wrong(what: impl Into<String>, library: Field, differ: &[&[&str]]) -> Row<Field> {
    row(what, library).differs(&differ.concat())
}

// Comparisons that a mistake shows in.

const SUM: &[&str] = &["sum, edge pairs", "sum, random pairs"];
const PRODUCT: &[&str] = &["product, edge pairs", "product, random pairs"];
const INVERSE: &[&str] = &["inverse, edge values", "inverse, random values"];
const ONE: &[&str] = &["inverse is one, edge values", "inverse is one, random values"];
const SUM_LAWS: &[&str] = &["a + b = b + a", "(a + b) + c = a + (b + c)"];
const COMMUTES: &[&str] = &["a b = b a"];
const ASSOCIATES: &[&str] = &["(a b) c = a (b c)"];
const DISTRIBUTES: &[&str] = &["a (b + c) = a b + a c"];
const DOUBLING: &[&str] = &["SP 800-38B, edge values", "SP 800-38B, random values"];
const CASE_A: &[&str] = &["case A of table A"];
const CASES: &[&str] = &["case A of table A", "case B of table A"];
const CASE_C: &[&str] = &["case C of table A"];
const ZERO: &[&str] = &["inverse, zero"];
const ZERO_INTO_FIVE: &[&str] = &["list of five, zero"];
const OTHERS: &[&str] = &["list of another length"];
const FIVE: &[&str] = &["list of five, edge values", "list of five, random values"];

fn wrong_sums() -> Vec<Row<Field>> {
    let wrong_for_one = |a, b| a ^ b ^ u64::from([a, b] == [u64::MAX, 1 << 63]);
    vec![
        wrong_sum("carries", u64::wrapping_add, &[SUM, DISTRIBUTES]),
        wrong_sum("depends on the order", u64::wrapping_sub, &[SUM, SUM_LAWS, DISTRIBUTES]),
        wrong_sum("is wrong for one edge pair", wrong_for_one, &[&SUM[..1]]),
    ]
}

/// The product reduced by t^64 and the lower terms given.
fn product_reduced_by(lower_terms: u64, a: u64, b: u64) -> u64 {
    (0..64).rev().fold(0, |result, place| {
        let top = result >> 63;
        (result << 1) ^ (top * lower_terms) ^ (((b >> place) & 1) * a)
    })
}

fn square(a: u64) -> u64 {
    field::product(a, a)
}

fn wrong_products() -> Vec<Row<Field>> {
    use field::product;
    let all = [ONE, DOUBLING, ASSOCIATES, CASES];
    let few = [DOUBLING, ASSOCIATES];
    let reduced: Operation = |a, b| product_reduced_by(0x1d, a, b);
    let cut: Operation = |a, b| product(a & (u64::MAX >> 1), b);
    vec![
        // The laws of a ring still hold, so they stay silent.
        wrong_product("another constant", reduced, &[ONE, DOUBLING, CASE_A])
            .smallest(PRODUCT[0], "2, 8000000000000000")
            .smallest(DOUBLING[0], "8000000000000000")
            .smallest(DOUBLING[1], "8000000000000000"),
        wrong_product("an argument cut", cut, &[ONE, COMMUTES, ASSOCIATES, CASE_A])
            .smallest(PRODUCT[0], "8000000000000000, 1")
            .smallest(PRODUCT[1], "8000000000000000, 1"),
        wrong_product("no bit 0", |a, b| product(a, b) & !1, &all).smallest(PRODUCT[0], "1, 1"),
        wrong_product("no bit 31", |a, b| product(a, b) & !(1 << 31), &few)
            .smallest(PRODUCT[0], "1, 80000000"),
        wrong_product("no bit 32", |a, b| product(a, b) & !(1 << 32), &few)
            .smallest(PRODUCT[0], "1, 100000000"),
        wrong_product("no bit 63", |a, b| product(a, b) & !(1 << 63), &few)
            .smallest(PRODUCT[0], "1, 8000000000000000"),
        wrong_product("carries", u64::wrapping_mul, &[ONE, DOUBLING, DISTRIBUTES, CASES]),
        wrong_product("a factor squared", |a, b| product(a, square(b)), &all).differs(COMMUTES),
        // It commutes and distributes.
        wrong_product("the square", |a, b| square(product(a, b)), &[DOUBLING, ASSOCIATES, CASES]),
        wrong_product("one more", |a, b| product(a, b) ^ 1, &all).differs(DISTRIBUTES),
    ]
}

fn wrong_inverses() -> Vec<Row<Field>> {
    // As a raw number all ones may be a value or stand for none.
    let no_all_ones = |a| match field::inverse(a) {
        u64::MAX => 0,
        x => x,
    };
    let one_for_zero = |a| if a == 0 { 1 } else { field::inverse(a) };
    let all_ones_for_zero = |a| if a == 0 { u64::MAX } else { field::inverse(a) };
    vec![
        // Zero and one are their own inverses.
        wrong("is its argument", inverting(|a| a), &[INVERSE, ONE, CASE_C]),
        wrong("is always zero", inverting(|_| 0), &[INVERSE, ONE, CASE_C]),
        wrong("all ones is zero", inverting(no_all_ones), &[&INVERSE[..1], &ONE[..1]])
            .smallest(INVERSE[0], field::inverse(u64::MAX).show()),
        wrong("is one for 0", inverting(one_for_zero), &[ZERO, &INVERSE[..1]])
            .smallest(INVERSE[0], "0"),
        wrong("is all ones for 0", inverting(all_ones_for_zero), &[ZERO, &INVERSE[..1]])
            .smallest(INVERSE[0], "0"),
        wrong("one more", inverting(|a| field::inverse(a) ^ 1), &[ZERO, INVERSE, ONE, CASE_C]),
    ]
}

/// Only the answers of five numbers are wrong, for zero alone or for all.
fn wrong_answers() -> Vec<Row<Field>> {
    let for_zero = |what: &str, other: Answer| {
        let library = writing(move |a, answer| {
            into_five(answer, || if a == 0 { other } else { inverse_due(a) })
        });
        wrong(format!("for 0, {what}"), library, &[ZERO_INTO_FIVE, &FIVE[..1]])
            .smallest(FIVE[0], "0; answer of length 5, ")
    };
    let mut rows = vec![
        // As it was before there was an inverse of zero.
        for_zero("refused with 15", Answer { number: 15, ..done() }),
        for_zero("15 with the value", Answer { number: 15, ..went_well(0) }),
        for_zero("no value", done()),
        for_zero("one", went_well(1)),
    ];
    for place in 0..5 {
        let what = format!("number {place} is wrong");
        let always = move |a| changed_at(place, inverse_due(a));
        let library = writing(move |a, answer| into_five(answer, || always(a)));
        rows.extend([for_zero(&what, always(0)), wrong(what, library, &[ZERO_INTO_FIVE, FIVE])]);
    }
    rows
}

fn wrong_lists() -> Vec<Row<Field>> {
    let written_if = |may_be: fn(usize) -> bool| {
        writing(move |a, answer| {
            if may_be(answer.len()) {
                write_what_fits(inverse_due(a), answer);
            }
        })
    };
    let zeros = writing(|_, answer| answer.fill(0));
    let mut rows = vec![
        wrong("a longer list is written to", written_if(|length| length >= 5), &[OTHERS])
            .smallest(OTHERS[0], "0; answer of length 6, "),
        wrong("a shorter list is written to", written_if(|length| length <= 5), &[OTHERS])
            .smallest(OTHERS[0], "0; answer of length 1, "),
        wrong("zeros everywhere", zeros, &[OTHERS, ZERO_INTO_FIVE, FIVE]),
        wrong("nothing is ever written", writing(|_, _| ()), &[ZERO_INTO_FIVE, FIVE]),
    ];
    for place in 0..5 {
        let leaving = writing(move |a, answer| {
            let before = answer.get(place).copied();
            into_five(answer, || inverse_due(a));
            before.into_iter().for_each(|left| answer[place] = left);
        });
        let what = format!("number {place} is left unwritten");
        rows.push(wrong(what, leaving, &[ZERO_INTO_FIVE, FIVE]));
    }
    rows
}

#[test]
fn wrong_libraries_differ_as_they_should() {
    let rows = [wrong_sums(), wrong_products(), wrong_inverses(), wrong_answers(), wrong_lists()];
    let rows: Vec<Row<Field>> = rows.into_iter().flatten().collect();
    hold_table(&right(), &rows, |library| comparisons(library, FEW));
}
