//! Exercises 5 to 9: whole runs, a damaged entry, and exceptional challenges.

use super::cases::Case;
use super::document::Place::{Answer, Exercise};
use super::document::{ensure, Held};
use super::pair::Pair;
use super::text::{decimals, list};
use super::Course;
use crate::coset::Coset;
use razgwilh::{product, sum};

pub fn check(course: &Course) -> Held {
    case_k(course)?;
    other_cosets(course)?;
    step_2(course)?;
    step_2_by_hand(course)?;
    points_kept(course)?;
    damaged(course)?;
    exceptional(course)?;
    passing(course)
}

fn case_k(course: &Course) -> Held {
    let (case, case_k) = (&course.exercise_5, &course.case_k);
    let alike = (&case.word, case.parameters()) == (&case_k.word, case_k.parameters());
    ensure(alike, "exercise 5 is not case K")?;
    let (challenges, queries) = (list(&case.challenges), decimals(&case.queries));
    says!(course, Exercise(5);
        "5. Case K at challenges {challenges} (`examples/exercise_05.assignment`). Give layer 1, the
         coefficient and the line of `judge` for the queries {queries}."
    )?;
    let sent = case.proved()?;
    let (layer, last) = (list(sent.layer(1)), sent.last()[0]);
    let line = course.judge(&sent)?.with_cause();
    says!(course, Answer(5); "5. Layer 1 is {layer}, coefficient {last:x}. {line}.")
}

fn other_cosets(course: &Course) -> Held {
    let (a, b) = (course.exercise_6(&[1, 2, 4])?, course.exercise_6(&[2, 1, 4])?);
    let (parameters, challenges) = (a.parameters(), list(&a.challenges));
    let (coset_a, coset_b) = (&a.coset, &b.coset);
    says!(course, Exercise(6);
        "6. P(X) = X^2, {parameters}, challenges {challenges}: (a) {coset_a}; (b) {coset_b}. Give
         word, the points of layer 1, layer 1 and the coefficient."
    )?;
    let answer = |case: &Case| -> Held<String> {
        let (sent, points) = (case.proved()?, list(&case.coset.next(1)?.points()?));
        let (word, layer, last) = (list(&case.word), list(sent.layer(1)), sent.last()[0]);
        Ok(format!("Word {word}; points {points}; layer 1 is {layer}; coefficient {last:x}."))
    };
    let (a, b) = (answer(&a)?, answer(&b)?);
    says!(course, Answer(6); "6. (a) {a} (b) {b}")
}

fn step_2(course: &Course) -> Held {
    let (case, x) = (&course.exercise_7, course.exercise_7.challenges[0]);
    ensure(case.word == case.coset.encode(&[0, 0, 0, 0, 1])?, "exercise 7 is not X^4")?;
    let (parameters, coset, queries) = (case.parameters(), &case.coset, decimals(&case.queries));
    says!(course, Exercise(7);
        "7. P(X) = X^4, {parameters}, {coset}, challenge {x:x} (`examples/exercise_07.assignment`).
         Give r, d, the points of layer 1, layer 1, the coefficients, and for the queries
         {queries}, which visit every first-layer coset, the line"
    )?;
    let (sent, (next, layer)) = (case.proved()?, case.coset.fold(&case.word, 2, x)?);
    let (r, d, points) = (case.run().rounds(), case.run().last_length(), list(&next.points()?));
    let (layer, last, size) = (list(&layer), list(sent.last()), sent.bytes().len());
    let line = course.judge(&sent)?.with_cause();
    says!(course, Answer(7);
        "7. r {r}, d {d}; points {points}; layer 1 is {layer}; coefficients {last}. {line}; {size}
         bytes."
    )
}

/// Entry 0 of exercise 7 by two folds with step 1.
fn step_2_by_hand(course: &Course) -> Held {
    let (case, x) = (&course.exercise_7, course.exercise_7.challenges[0]);
    let (inner, layer) = case.coset.fold(&case.word, 1, x)?;
    let next_x = product(x, sum(x, case.coset.basis[0]));
    let pair = Pair::of(&inner.points()?, &layer, next_x);
    let ([p, q], [u, v]) = (pair.points, pair.entries);
    let (slope, rise, value) = (pair.slope(), pair.rise(), pair.value());
    says!(course, Answer(7);
        "Entry 0 by two folds with step 1: cosets 0, 1 and 2, 3 fold at {x:x} to {u:x} and {v:x}, at
         points {p:x} and {q:x}; the challenge becomes {x:x} × 5 = {next_x:x}; {u:x} + ({u:x} +
         {v:x})/{q:x} × {next_x:x} = {u:x} + {slope:x} × {next_x:x} = {u:x} + {rise:x} =
         {value:x}."
    )
}

/// Layer 1 of exercise 7, interpolated as if its points were 0, 1, 2, 3.
fn points_kept(course: &Course) -> Held {
    let (case, mut sent) = (&course.exercise_7, course.exercise_7.proved()?);
    let layer = case.coset.fold(&case.word, 2, case.challenges[0])?.1;
    let kept = &Coset::of(0, &[1, 2]).interpolate(&layer)?[..2];
    *sent.section(6) = kept.to_vec();
    let (line, kept) = (course.judge(&sent)?.with_cause(), list(kept));
    says!(course, Answer(7);
        "Interpolating layer 1 at 0, 1, 2, 3 by mistake gives {kept} as first coefficients and the
         line {line}, query 1, round 0."
    )
}

fn damaged(course: &Course) -> Held {
    let mut sent = course.exercise_7.proved()?;
    sent.section(5)[9] = 0;
    let (all, line) = (decimals(sent.section(4)), course.judge(&sent)?);
    let (index, some) = (sent.section(4).remove(2), decimals(sent.section(4)));
    says!(course, Exercise(8);
        "8. Exercise 7 with entry 9 of the word made 0, coefficients unchanged. Give the line for
         the queries {all} and for the queries {some}."
    )?;
    let (reads, line) = (line.reads, line.with_cause());
    let passed = course.judge(&sent)?.with_cause();
    says!(course, Answer(8);
        "8. {line}, query 2, round 0, {reads} reads. Without the query at index {index}, {passed}."
    )
}

/// Case G with this word and challenge, and queries that visit both cosets.
fn over_both(course: &Course, word: &[u64], x: u64) -> Case {
    let (word, challenges) = (word.to_vec(), vec![x]);
    Case { word, challenges, ..course.case_g().at(&[0, 2]) }
}

fn exceptional(course: &Course) -> Held {
    let words = [([0, 0, 1, 0], 3, 0), ([7, 4, 1, 3], 2, 1)];
    // The two cosets fold to lines in the challenge, which meet in one point at most.
    for (word, x, value) in words {
        let sent = over_both(course, &word, x).proved()?;
        let elsewhere = over_both(course, &word, x ^ 1).proved();
        let passes = course.judge(&sent)?.number == 0 && sent.last() == [value];
        ensure(passes && elsewhere.is_err(), format!("{} is not exceptional", list(&word)))?;
    }
    let ([first, second], coset) = (words.map(|(word, ..)| list(&word)), course.case_g().coset);
    says!(course, Exercise(9);
        "9. Over {coset}, R 1, η 1: find the exceptional challenge of the word {first} and of case
         H's word {second}."
    )?;
    says!(course, Answer(9);
        "9. 3, where the fold 0, x + 3 is 0, 0. 2, where 7 + 3x and 1 + 2(x + 2) are both 1; with
         coefficient 1 every query passes."
    )
}

/// A word of too high a degree that passes at challenge 4.
fn passing(course: &Course) -> Held {
    let (word, x) = ([7, 4, 0xb, 0xb], 4);
    let case = over_both(course, &word, x);
    let (sent, coefficients) = (case.proved()?, case.coset.interpolate(&word)?);
    let (last, line) = (sent.last()[0], course.judge(&sent)?.with_cause());
    let degree = coefficients.iter().rposition(|c| *c != 0).unwrap_or(0);
    let (word, queries) = (list(&word), decimals(&case.queries));
    says!(course, Exercise(9);
        "Find a word of degree 2 or more that passes every query at challenge {x:x} with coefficient
         {last:x}."
    )?;
    says!(course, Answer(9);
        "One such word is {word}: coset 0 folds to {last:x} at {x:x}, coset 1 at every challenge.
         Its degree is {degree}; the queries {queries} visit both cosets and print {line}."
    )
}
