//! Sections 3 and 4: the field, cosets and bases.

use super::cases::Sections;
use super::document::{ensure, Held, Place::Section};
use super::programs::{cause, Line};
use super::text::{hex, list, polynomial};
use super::Course;
use crate::coset::Coset;
use razgwilh::{inverse, product, sum};

pub fn check(course: &Course) -> Held {
    field(course)?;
    products(course)?;
    cosets(course)?;
    dependent_basis(course)
}

/// Cases A to C, and the constant that they come from.
fn field(course: &Course) -> Held {
    let (top, t) = (1 << 63, 2);
    let (reduced, nine, half) = (product(top, t), product(3, 7), inverse(t));
    let modulus = polynomial(1 << 64 | u128::from(reduced));
    let (doubled_7, doubled_half) = (polynomial(7 << 1), polynomial(u128::from(half) << 1));
    let one = product(half, t);
    let [p_top, p_t, p_reduced, p_3, p_7, p_9, p_half] =
        [top, t, reduced, 3, 7, nine, half].map(|element| polynomial(element.into()));
    let rows = [
        row!["A", "{top:x} × {t:x} = {reduced:x}", "{p_top} · {p_t} = t^64 = {p_reduced}"],
        row!["B", "3 × 7 = {nine:x}", "({p_3})({p_7}) = {doubled_7} + {p_7} = {p_9}"],
        row![
            "C",
            "the inverse of {t:x} is {half:x}",
            "({p_half}) · {p_t} = {doubled_half} = {one:x}"
        ],
    ];
    course.document.rows_are(Section(3), "case | product | by polynomials", &rows)?;
    says!(course, Section(3);
        "reduced by {modulus}: wherever t^64 arises, {p_reduced} = {reduced:x} takes its place."
        "if bit 63 was set, add {reduced:x}."
    )
}

/// The power 2^64 - 2, that is 2 + 4 + .. + 2^63.
fn power(a: u64) -> u64 {
    let squares = (1..64).scan(a, |square, _| {
        *square = product(*square, *square);
        Some(*square)
    });
    squares.fold(1, product)
}

fn products(course: &Course) -> Held {
    for a in [0, 1, 2, 3, course.exercise_15.coset.offset] {
        ensure(power(a) == inverse(a), format!("the inverse of {a:x} is another power"))?;
    }
    let factors = [(2, 3), (2, 6), (3, 3), (3, 4), (3, 6), (4, 5), (7, 0x14), (8, 9), (0x14, 0x12)];
    let products = factors.map(|(a, b)| format!("{a:x}×{b:x} = {:x}", product(a, b))).join(" ");
    says!(course, Section(3);
        "The inverse of a is a to the power 2^64 - 2; that of zero is zero"
        "Products used below: {products}"
    )
}

/// Points, and case D.
fn cosets(course: &Course) -> Held {
    let coset = Coset::of(8, &[1, 2]);
    let (points, next) = (coset.points()?, coset.next(1)?);
    let (offset, element, second) = (next.offset, next.basis[0], next.points()?[1]);
    let (front, back, points) = (list(&points[..2]), list(&points[2..]), list(&points));
    says!(course, Section(4);
        "Offset 8, basis 1, 2 has the points {points}."
        "Case D, {coset}, η 1, so q(X) = X × (X + 1):
         next offset q(8) = 8 × 9 = {offset:x}
         next basis q(2) = 2 × 3 = {element:x}
         points {front} go to {offset:x}; {back} go to {offset:x} + {element:x} = {second:x}"
    )
}

/// The rests of a basis, with the rows that were added to each element.
pub fn reduced(basis: &[u64]) -> Vec<(Vec<u64>, u64)> {
    let mut rows: Vec<u64> = Vec::new();
    let reduce = |element: &u64| {
        let (mut rest, mut added) = (*element, Vec::new());
        let alike = |a: u64, b: u64| a != 0 && a.leading_zeros() == b.leading_zeros();
        while let Some(row) = rows.iter().find(|row| alike(rest, **row)) {
            added.push(*row);
            rest = sum(rest, *row);
        }
        rows.push(rest);
        (added, rest)
    };
    basis.iter().map(reduce).collect()
}

/// `71 + 5b = 2a, 2a + 36 = 1c`
pub fn reduction(element: u64, added: &[u64]) -> String {
    let mut rest = element;
    let step = |row: &u64| {
        let before = rest;
        rest = sum(rest, *row);
        format!("{before:x} + {row:x} = {rest:x}")
    };
    added.iter().map(step).collect::<Vec<_>>().join(", ")
}

/// The line for a transcript with this basis, which ends behind it.
pub fn line_for_basis(course: &Course, basis: &[u64]) -> Held<Line> {
    let parameters = vec![basis.len() as u64, 1, 1];
    course.judge(&Sections(vec![parameters, [&[0], basis].concat()]))
}

fn dependent_basis(course: &Course) -> Held {
    let basis = [0x5b, 0x36, 0x71, 0x2e, 0x43];
    let table_row = |(t, (added, rest)): (usize, (Vec<u64>, u64))| {
        let (element, sums) = (basis[t], reduction(basis[t], &added));
        let sums = if added.is_empty() { "none" } else { &sums };
        let place = match rest {
            0 => format!("none: place {t}"),
            _ => format!("at bit {}", rest.ilog2()),
        };
        row!["b_{t} = {element:x}", "{sums}", "{rest:x}", "{place}"]
    };
    let rows: Vec<_> = reduced(&basis).into_iter().enumerate().map(table_row).collect();
    course.document.rows_are(Section(4), "element | rows added | rest | row", &rows)?;
    let earlier = [0, 1, 3].map(|t| basis[t]);
    ensure(earlier.into_iter().fold(0, sum) == basis[4], "the last element is another sum")?;
    let (all, last, earlier) = (list(&basis), basis[4], earlier.map(hex).join(" + "));
    let (line, words) = (line_for_basis(course, &basis)?.with_cause(), cause(8));
    says!(course, Section(4);
        "the element is a sum of earlier ones: number 8 ({words}), with the element's place."
        "The basis {all} looks independent:"
        "Indeed {last:x} = {earlier}. A transcript with k 5 and this basis gets {line}, place 4."
    )
}
