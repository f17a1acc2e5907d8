//! Sections 5 and 6: evaluation, interpolation and the fold of one coset.

use super::cases::{fold_pairs, Steps};
use super::document::{ensure, Held, Place::Section};
use super::pair::Pair;
use super::text::list;
use super::Course;
use crate::coset::Coset;
use razgwilh::{inverse, product, sum};

pub fn check(course: &Course) -> Held {
    evaluation(course)?;
    interpolation(course)?;
    fold(course)?;
    steps(course)?;
    example_of_steps(course)
}

/// Case E.
fn evaluation(course: &Course) -> Held {
    let coset = Coset::of(0, &[1, 2]);
    let word = coset.encode(&[7, 3])?;
    let [term_2, term_3] = [2, 3].map(|p| product(3, p));
    let ([a, b, c, d], count) = ([word[0], word[1], word[2], word[3]], word.len());
    let (line, slope) = (Pair::of(&[0, 1], &word, 2).value(), sum(a, b));
    let (back, word) = (list(&coset.interpolate(&word)?), list(&word));
    says!(course, Section(5);
        "Case E, {coset}, P(X) = 7 + 3 × X:
         P(0) = {a:x} P(1) = 7 + 3 = {b:x} P(2) = 7 + 3×2 = 7 + {term_2:x} = {c:x}
         P(3) = 7 + 3×3 = 7 + {term_3:x} = {d:x}"
        "The word is {word}. Back: exactly one polynomial of degree below {count} has these"
        "has the slope (7 + 4) / (0 + 1) = {slope:x} and the constant {a:x}; at 2 and 3 it is
         {line:x} and {d:x}, so it is the interpolant. Its coefficients are {back}."
    )
}

/// The interpolant of the word 0, 0, 0, 1.
fn interpolation(course: &Course) -> Held {
    let coefficients = Coset::of(0, &[1, 2]).interpolate(&[0, 0, 0, 1])?;
    ensure(coefficients[1..] == [3, 2, 6].map(inverse), "they are not 1/3, 1/2 and 1/6")?;
    let (divisor, coefficients) = (product(product(1, 2), 3), list(&coefficients));
    let (square, linear) = (sum(1, 2), product(1, 2));
    says!(course, Section(5);
        "here 1 × 2 × 3 = {divisor:x}. For the word 0, 0, 0, 1 that gives X × (X + 1) × (X + 2) /
         {divisor:x} = (X^3 + {square:x}×X^2 + {linear:x}×X) / {divisor:x}. The coefficients are
         {coefficients}, which are 0, 1/3, 1/2 and 1/6. The degree is 3."
    )
}

/// Case F.
fn fold(course: &Course) -> Held {
    let (case, x) = (course.case_g(), course.case_g().challenges[0]);
    let table_row = |(j, pair): (usize, Pair)| {
        let (first, second) = (2 * j, 2 * j + 1);
        let (points, entries) = (list(&pair.points), list(&pair.entries));
        let (slope, value) = (pair.slope_text(), pair.long_text());
        row!["{j}", "{first}, {second}", "{points}", "{entries}", "{slope}", "{value}"]
    };
    let points = case.coset.points()?;
    let rows: Vec<_> = Pair::all(&points, &case.word, x).enumerate().map(table_row).collect();
    let header =
        format!("coset | indices | points | entries | slope (u + v) / b_0 | value at {x:x}");
    course.document.rows_are(Section(6), &header, &rows)?;

    let (next, layer) = case.coset.fold(&case.word, 1, x)?;
    let (offset, element, points) = (next.offset, next.basis[0], list(&next.points()?));
    let (parameters, coset, word) = (case.parameters(), &case.coset, list(&case.word));
    let (r, d, last) = (case.run().rounds(), case.run().last_length(), case.proved()?.last()[0]);
    let layer = list(&layer);
    says!(course, Section(6);
        "{parameters}, {coset}, word {word}, challenge {x:x}."
        "Layer 1 is {layer}, over the next coset: offset q(0) = {offset:x}, basis q(2) =
         {element:x}, points {points}. r = (k - R)/η = (2 - 1)/1 = {r}: there is one round"
        "d = 2^(k-R-rη) = 2^0 = {d} coefficient. The interpolant through ({offset:x}, {last:x})
         and ({element:x}, {last:x}) is the constant {last:x}: coefficient {last:x}."
    )
}

/// The table of folds with step 1 is what `Steps` does, and that is the library's fold.
fn steps(course: &Course) -> Held {
    let (case, x) = (&course.exercise_15, course.exercise_15.challenges[0]);
    for step in 1..=3 {
        let folded = Steps::RIGHT.fold(&case.coset, &case.word, step, x)?;
        let right = folded == case.coset.fold(&case.word, step, x)?.1;
        ensure(right, format!("{step} folds with step 1 are no fold with step {step}"))?;
    }
    let rows = [
        row!["first", "h", "b_0, b_1, b_2, ..", "x"],
        row![
            "second",
            "h' = h × (h + b_0)",
            "b'_t = b_t × (b_t + b_0) for t = 1, 2, ..",
            "x' = x × (x + b_0)"
        ],
        row![
            "third",
            "h' × (h' + b'_1)",
            "b'_t × (b'_t + b'_1) for t = 2, 3, ..",
            "x' × (x' + b'_1)"
        ],
    ];
    let header = "fold with step 1 | offset | basis | challenge";
    course.document.rows_are(Section(6), header, &rows)
}

/// Two folds with step 1 over offset 8, and what two mistakes give.
fn example_of_steps(course: &Course) -> Held {
    let (coset, x) = (Coset::of(8, &[1, 2]), 4);
    let (word, points, next) = (coset.encode(&[0, 0, 1])?, coset.points()?, coset.next(1)?);
    let (inner, inner_x) = (fold_pairs(&points, &word, x), product(x, sum(x, coset.basis[0])));
    let (inner_points, offset, element) = (next.points()?, next.offset, next.basis[0]);
    let cells = |points: &[u64], entries: &[u64], challenge| {
        let pair = Pair::of(points, entries, challenge);
        let (points, entries, value) = (list(&pair.points), list(&pair.entries), pair.value_text());
        row!["{points}", "{entries}", "{value}"]
    };
    let first = row!["first", "8", "1, 2", "{x:x}"];
    let second = row!["second", "8 × 9 = {offset:x}", "2 × 3 = {element:x}", "4 × 5 = {inner_x:x}"];
    let rows = [
        [first.clone(), cells(&points, &word, x)].concat(),
        [first, cells(&points[2..], &word[2..], x)].concat(),
        [second, cells(&inner_points, &inner, inner_x)].concat(),
    ];
    let header = "fold | offset | basis | challenge | points | entries | value";
    course.document.rows_are(Section(6), header, &rows)?;

    let value = Steps::RIGHT.fold(&coset, &word, 2, x)?[0];
    let dropped = Pair::of(&[0, element], &inner, inner_x).value_text();
    let kept = Pair::of(&inner_points, &inner, x).value_text();
    let word = list(&word);
    says!(course, Section(6);
        "Example: η 2, {coset}, word {word}, which is P(X) = X^2, challenge {x:x}. The result must
         be P(4) = 4 × 4 = {value:x}."
        "With the inner offset 0 in place of {offset:x} the last value would be {dropped}; with
         the challenge {x:x} in place of {inner_x:x} it would be {kept}."
    )
}
