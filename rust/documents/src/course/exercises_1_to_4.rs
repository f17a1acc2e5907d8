//! Exercises 1 to 4: the field, cosets, encoding, and folds by hand.

use super::cases::Case;
use super::document::Place::{Answer, Exercise};
use super::document::{ensure, Held};
use super::field::{line_for_basis, reduced, reduction};
use super::programs::cause;
use super::text::{hex, list, polynomial};
use super::Course;
use crate::coset::Coset;
use razgwilh::{inverse, product, sum};

pub fn check(course: &Course) -> Held {
    products(course)?;
    cosets(course)?;
    basis(course)?;
    encoding(course)?;
    coefficients(course)
}

fn products(course: &Course) -> Held {
    let (top, third) = (1 << 63 | 1, inverse(3));
    let [first, second, last] = [(5, 6), (top, 3), (0x14, 0x12)].map(|(a, b)| product(a, b));
    says!(course, Exercise(1);
        "1. Compute 5 × 6, {top:x} × 3 and 14 × 12. Show that {third:x} is the inverse of 3."
    )?;
    let [p_top, p_3, p_second] = [top, 3, second].map(|element| polynomial(element.into()));
    let unreduced = polynomial((u128::from(top) << 1) ^ u128::from(top));
    let (shifted, double) = (third << 1, product(third, 2));
    let (constant, one) = (sum(shifted, double), sum(third, double));
    says!(course, Answer(1);
        "1. {first:x}; {second:x}, since ({p_top})({p_3}) = {unreduced} = {p_second}; {last:x}."
        "3 × {third:x} is that number plus its double: {third:x} + ({shifted:x} + {constant:x}) =
         {third:x} + {double:x} = {one:x}."
    )
}

fn cosets(course: &Course) -> Held {
    let (coset, case_m) = (Coset::of(0x10, &[1, 2, 4]), Coset::of(0, &[1, 2, 3]));
    let (offset, basis, dependent) = (coset.offset, list(&coset.basis), list(&case_m.basis));
    says!(course, Exercise(2);
        "2. Offset {offset:x}, basis {basis}. List the points. Give the next offset and basis with
         η 1 and with η 2. Which place of the basis {dependent} is refused (case M)?"
    )?;
    let refusal = case_m.points().err().ok_or("case M is taken")?.to_string();
    let words = cause(8);
    ensure(refusal == format!("number 8: {words}; basis place 2"), refusal)?;
    let (points, by_1, by_2) = (list(&coset.points()?), coset.next(1)?, coset.next(2)?);
    says!(course, Answer(2);
        "2. {points}. η 1: {by_1}. η 2: {by_2}. Place 2, with number 8 ({words}): 3 = 1 + 2."
    )
}

fn basis(course: &Course) -> Held {
    let basis = [0xb4, 0x6b, 0xd9, 0x3e, 0x8d, 0xe1];
    let (all, rows, line) = (list(&basis), reduced(&basis), line_for_basis(course, &basis)?);
    says!(course, Exercise(2); "Test the basis {all} by hand as in section 4, then by program:")?;
    let earlier = [0, 1, 3].map(|t| basis[t]);
    ensure(earlier.into_iter().fold(0, sum) == basis[5], "the last element is another sum")?;
    let rests: Vec<u64> = rows.iter().map(|(_, rest)| *rest).collect();
    let (element, reduction, named) = (basis[5], reduction(basis[5], &rows[5].0), line.named());
    let (rests, earlier) = (list(&rests), earlier.map(hex).join(" + "));
    says!(course, Answer(2);
        "The rests are {rests}: place 5, {named}. {reduction}, so {element:x} = {earlier}. A
         transcript with k 6 and this basis gets {line}."
    )
}

fn encoding(course: &Course) -> Held {
    let coset = Coset::of(8, &[1, 2]);
    says!(course, Exercise(3); "3. Encode the coefficients 1, 2, 3 over {coset}.")?;
    let word = coset.encode(&[1, 2, 3])?;
    let (square, back) = (product(8, 8), list(&coset.interpolate(&word)?));
    let (linear, quadratic, word) = (product(2, 8), product(3, square), list(&word));
    says!(course, Answer(3);
        "3. {word}; for the first, 1 + 2×8 + 3×{square:x} = 1 + {linear:x} + {quadratic:x}. Back:
         {back}."
    )
}

fn coefficients(course: &Course) -> Held {
    let (case, coset) = (course.case_g(), Coset::of(8, &[1, 2]));
    let (word, x) = (list(&case.word), case.challenges[0]);
    says!(course, Exercise(4);
        "4. Case F at challenge 5 and at challenge 2. Then the word {word} over {coset} at challenge
         {x:x}."
    )?;
    let last = |case: Case| -> Held<u64> { Ok(case.proved()?.last()[0]) };
    let at = |x| last(Case { challenges: vec![x], ..case.clone() });
    let (at_5, at_2, over_8) = (at(5)?, at(2)?, last(Case { coset, ..case.clone() })?);
    says!(course, Answer(4); "4. {at_5:x}; {at_2:x}, the entry at point 2; {over_8:x}.")
}
