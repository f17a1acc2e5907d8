//! Exercise 15: values of every layer, and the prover that drops the inner offset.

use super::cases::{Case, Steps};
use super::document::Place::{Answer, Exercise};
use super::document::{ensure, Held};
use super::faults::every_line_fails;
use super::rounds::visited;
use super::text::{decimals, hex, list, thousands};
use super::Course;
use crate::coset::Coset;
use razgwilh::{product, sum};

pub fn check(course: &Course) -> Held {
    handed_out(course)?;
    asked(course)?;
    layers(course)?;
    judged(course)?;
    offset_dropped(course)?;
    shown_by_no_other(course)?;
    visits(course)?;
    dependent_basis(course)
}

/// What the exercise prints is what the assignment has.
fn handed_out(course: &Course) -> Held {
    let case = &course.exercise_15;
    let coefficients: Vec<u64> = (1..=2048).collect();
    let given = case.coset.encode(&coefficients)? == case.word;
    ensure(given, "the coefficients are not 1, 2, 3, .., 2048")?;
    let long = |elements: &[u64]| {
        elements.iter().map(|element| format!("{element:016x}")).collect::<Vec<_>>().join(" ")
    };
    let (parameters, bound) = (case.parameters(), 1 << (case.k() - case.rate));
    let (offset, basis) = (long(&[case.coset.offset]), long(&case.coset.basis));
    let (challenges, queries) = (long(&case.challenges), decimals(&case.queries).replace(',', ""));
    let (ninth, last) = (coefficients[9], coefficients[2047]);
    says!(course, Exercise(15);
        "15. The prover on numbers without pattern: {parameters}
         (`examples/exercise_15.assignment`). Coefficient i of P is i + 1, for i from 0 to 2047:
         coefficient 9 is {ninth:x}, coefficient 2047 is {last:x}, and the degree is the highest
         below 2^(k-R) = {bound}."
        "offset {offset} basis {basis} challenges {challenges} queries {queries} (in decimal)"
    )
}

/// The numbers in the questions.
fn asked(course: &Course) -> Held {
    let digits = 3 * course.exercise_15.queries.len();
    says!(course, Exercise(15);
        "the hexadecimal digits of π behind the point, 16 at a time, and the ten queries are the
         {digits} digits that follow, three at a time:"
        "of layer 1 the offset, b_0 to b_2, entries 0 to 3, the last entry and the sum of all;"
        "and give its value at 2. (b) A prover folds with η = 3 as three folds with step 1 (section
         6), but takes offset 0 in the second and in the third. Give entry 0 of layer 1 and the line
         that it gets. Why do exercises 5 to 7 not show this fault?"
    )
}

/// The value at 2 of the polynomial with these coefficients.
fn at_2(coefficients: &[u64]) -> u64 {
    coefficients.iter().rev().fold(0, |value, coefficient| sum(product(value, 2), *coefficient))
}

fn total(entries: &[u64]) -> u64 {
    entries.iter().copied().fold(0, sum)
}

/// What the table has of a layer, from above.
fn column(coset: &Coset, layer: &[u64]) -> Vec<u64> {
    let front = [&[coset.offset], &coset.basis[..3], &layer[..4]].concat();
    [front, vec![layer[layer.len() - 1], total(layer), at_2(layer)]].concat()
}

fn layers(course: &Course) -> Held {
    let (case, sent) = (&course.exercise_15, course.exercise_15.proved()?);
    let (coset_1, coset_2) = (case.coset.next(3)?, case.coset.next(3)?.next(3)?);
    let word = column(&case.coset, sent.layer(0));
    let (layer_1, layer_2) = (column(&coset_1, sent.layer(1)), column(&coset_2, sent.layer(2)));
    let names = [
        "offset",
        "b_0",
        "b_1",
        "b_2",
        "entry 0",
        "entry 1",
        "entry 2",
        "entry 3",
        "last entry",
        "sum of all entries",
        "value at 2",
    ];
    let table_row = |(i, name): (usize, &str)| {
        let [a, b, c] = [&word, &layer_1, &layer_2].map(|column| hex(column[i]));
        row!["{name}", "{a}", "{b}", "{c}"]
    };
    let rows: Vec<_> = names.into_iter().enumerate().map(table_row).collect();
    course.document.rows_are(Answer(15), "value | word | layer 1 | layer 2", &rows)?;
    let (last, count, sum) = (list(sent.last()), sent.layer(1).len(), total(sent.layer(1)));
    says!(course, Answer(15);
        "The coefficients are {last}. The sum of the {count} entries of layer 1 is {sum:x}, as it is
         in every layer of n entries whose degree is below n - 1: it shows less than the value at 2,
         and nothing about the order."
    )
}

fn judged(course: &Course) -> Held {
    let (case, sent) = (&course.exercise_15, course.exercise_15.proved()?);
    let (r, d, queries) = (case.run().rounds(), case.run().last_length(), case.queries.len());
    let (line, size) = (course.judge(&sent)?, thousands(sent.bytes().len()));
    let (reads, line) = (line.reads, line.with_cause());
    says!(course, Answer(15);
        "15. (a) r {r}, d {d}; {size} bytes; {line}, {queries} × {r} × 8 = {reads} reads."
    )
}

fn offset_dropped(course: &Course) -> Held {
    let (case, steps) = (&course.exercise_15, Steps::OFFSET_DROPPED);
    let sent = case.sent_by(steps)?;
    let sums = [total(sent.layer(1)), total(sent.layer(2))];
    ensure(sums == [0, 0], "the sums of the wrong layers are not 0")?;
    let coset = case.coset.next(3)?.next(3)?;
    let layer_r = steps.fold(&coset, sent.layer(2), 3, case.challenges[2])?;
    let low = coset.next(3)?.encode(sent.last())? == layer_r;
    ensure(low, "the wrong layer r has too high a degree for its coefficients")?;
    let (entry, line) = (sent.layer(1)[0], course.judge(&sent)?);
    let (reads, line) = (line.reads, line.with_cause());
    says!(course, Answer(15);
        "(b) Entry 0 of layer 1 is {entry:x}, and the line is {line}, query 0, round 0, 2 × 8 =
         {reads} reads."
        "So the layers still have low degree, the sums are 0, and a prover that tests the degree of
         layer r sees nothing."
    )
}

/// In exercises 5 to 7 the wrong prover sends what a right one does.
fn shown_by_no_other(course: &Course) -> Held {
    let (six_a, six_b) = (course.exercise_6(&[1, 2, 4])?, course.exercise_6(&[2, 1, 4])?);
    for case in [&course.exercise_5, &six_a, &six_b, &course.exercise_7] {
        let alike = case.sent_by(Steps::OFFSET_DROPPED)? == case.proved()?;
        ensure(alike, "the wrong prover is seen in an exercise before this")?;
    }
    says!(course, Answer(15);
        "In exercises 5 and 6 η is 1 and there is no inner fold; in exercise 7 the offset is 0, and
         so is the inner one. There this prover sends the right bytes."
    )
}

/// The run with 256 queries from this index on: its size and its line.
fn with_256_queries(course: &Course, queries: &[u64]) -> Held<(String, String)> {
    let case = course.exercise_15.at(queries);
    every_line_fails(course, &case.sent_by(Steps::OFFSET_DROPPED)?)?;
    let sent = case.proved()?;
    let line = course.judge(&sent)?;
    let (reads, named) = (thousands(line.reads as usize), line.named());
    let said = format!("{line} each, {named}, 256 × 3 × 8 = {reads} reads.");
    Ok((thousands(sent.bytes().len()), said))
}

fn visits(course: &Course) -> Held {
    let (case, own): (&Case, _) = (&course.exercise_15, visited(&course.exercise_15.queries, 3));
    let (cosets, own) = (case.first_layer_cosets(), decimals(&own));
    let all: Vec<u64> = (0..cosets as u64).map(|coset| coset << case.step).collect();
    let (front, back) = all.split_at(256);
    let (size, said) = with_256_queries(course, front)?;
    let alike = with_256_queries(course, back)? == (size.clone(), said.clone());
    ensure(alike, "the two transcripts get different lines")?;
    let (end, start, next, last) = (front[255], back[0], back[1], back[255]);
    says!(course, Answer(15);
        "(c) 2^(12-3) = {cosets}, and the queries visit ten: {own}. One list has at most 256
         queries, so no transcript visits all. Two do, one with the queries 0, 8, .., {end} and one
         with {start}, {next}, .., {last}: {size} bytes and {said}"
    )
}

fn dependent_basis(course: &Course) -> Held {
    let (basis, mut sent) = (&course.exercise_15.coset.basis, course.exercise_15.proved()?);
    let element = [2, 5, 9].map(|t: usize| basis[t]).into_iter().fold(0, sum);
    sent.section(2)[12] = element;
    let line = course.judge(&sent)?.with_cause();
    says!(course, Exercise(15); "(d) b_11 is made {element:x}.")?;
    says!(course, Answer(15); "(d) {line}, place 11. {element:x} is b_2 + b_5 + b_9.")
}
