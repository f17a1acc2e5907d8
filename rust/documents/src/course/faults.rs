//! Section 11: the four faults that are explained, each made and judged.

use super::cases::{fold_pairs, Case, Sections};
use super::document::{ensure, Held, Place::Section};
use super::programs::Line;
use super::text::list;
use super::Course;
use crate::coset::Coset;

pub fn check(course: &Course) -> Held {
    paired_with_half(course)?;
    paired_in_case_f(course)?;
    basis_of_layer_0(course)?;
    last_round_alone(course)?;
    points_kept(course)?;
    points_kept_with_two_coefficients(course)
}

/// The line that every query of case K, or of a case with as many points, gets alone.
fn line_for_all(course: &Course, sent: &Sections) -> Held<Line> {
    let line = |index| {
        let mut sent = sent.clone();
        *sent.section(4) = vec![index];
        course.judge(&sent)
    };
    let lines: Vec<Line> = (0..8).map(line).collect::<Held<_>>()?;
    ensure(lines.iter().all(|line| *line == lines[0]), "the queries get several lines")?;
    Ok(lines[0].clone())
}

/// The sheet says `no` for every query in every round, as section 17 has it of some faults.
pub fn every_line_fails(course: &Course, sent: &Sections) -> Held {
    let sheet = course.programs.sheet(&sent.bytes())?;
    ensure(sheet.lines().all(|line| line.ends_with("no")), "the sheet has a line that says ok")
}

/// Each entry next to the one half the length behind it.
fn shuffled(list: &[u64]) -> Vec<u64> {
    let (front, back) = list.split_at(list.len() / 2);
    front.iter().zip(back).flat_map(|(a, b)| [*a, *b]).collect()
}

fn fold_shuffled(coset: &Coset, word: &[u64], challenge: u64) -> Held<Vec<u64>> {
    Ok(fold_pairs(&shuffled(&coset.points()?), &shuffled(word), challenge))
}

/// Fault 1.
fn paired_with_half(course: &Course) -> Held {
    let case = course.case_k_visited();
    let sent = case.sent(|i, coset, word| fold_shuffled(coset, word, case.challenges[i]))?;
    every_line_fails(course, &sent)?;
    let line = line_for_all(course, &sent)?;
    let points = shuffled(&case.coset.points()?);
    let pairs = points.chunks(2).map(list).collect::<Vec<_>>().join(" and ");
    let [wrong, right] = [list(sent.layer(1)), list(case.proved()?.layer(1))];
    says!(course, Section(11);
        "Case K: the lines through points {pairs} give layer 1 as {wrong} instead of {right}. Every
         query prints {line}, round 0."
    )
}

fn paired_in_case_f(course: &Course) -> Held {
    let (case, last) = (course.case_g(), course.case_g().proved()?.last()[0]);
    let layer = fold_shuffled(&case.coset, &case.word, case.challenges[0])?;
    ensure(layer == [last; 2], "case F shows fault 1")?;
    says!(course, Section(11);
        "its word has degree 1, and the line through any two of its points gives {last:x}."
    )
}

/// Case K, or another, with round 1 folded over these points, and the layer that this gives.
fn folded_over(case: &Case, points: &[u64]) -> Held<(Sections, Vec<u64>)> {
    let mut sent = case.proved()?;
    let layer = fold_pairs(points, sent.layer(1), case.challenges[1]);
    *sent.section(7) = vec![layer[0]];
    Ok((sent, layer))
}

/// Points of the first two elements of the basis, from this offset.
fn points_over(case: &Case, offset: u64) -> Held<Vec<u64>> {
    Ok(Coset::of(offset, &case.coset.basis[..2]).points()?)
}

/// Fault 2.
fn basis_of_layer_0(course: &Course) -> Held {
    let (case, points) = (&course.case_k, points_over(&course.case_k, 0)?);
    let (sent, layer) = folded_over(case, &points)?;
    let (line, first, coefficient) = (line_for_all(course, &sent)?, case.coset.basis[0], layer[0]);
    let (points, layer, right) = (list(&points), list(&layer), case.proved()?.last()[0]);
    says!(course, Section(11);
        "with b_0 = {first:x} and points {points} it folds to {layer} instead of {right:x},
         {right:x}. This is not constant"
        "With coefficient {coefficient:x} sent, every query prints {line}, round 1."
    )
}

/// Fault 3: the sheet has `no` in no round but the first.
fn last_round_alone(course: &Course) -> Held {
    let mut sent = course.case_k_visited().proved()?;
    sent.section(5)[7] = 0x14;
    let sheet = course.programs.sheet(&sent.bytes())?;
    let wrong: Vec<_> = sheet.lines().filter(|line| line.ends_with("no")).collect();
    let [line] = wrong[..] else { return Err(format!("fault 3: {wrong:?}").into()) };
    let fields: Vec<_> = line.split_whitespace().collect();
    let [_, "6", "0", computed, found, _] = fields[..] else { return Err(line.into()) };
    let [computed, found] = [computed, found].map(|value| value.trim_start_matches('0'));
    let mut line_at = |index| {
        *sent.section(4) = vec![index];
        course.judge(&sent)
    };
    let line = line_at(6)?;
    ensure(line == line_at(7)?, "fault 3 has two lines")?;
    says!(course, Section(11);
        "Case K with entry 7 of the word made 14, layer 1 and coefficient unchanged: round 1 still
         finds 1 for every query, so such a judge accepts. `judge` prints {line} for index 6 and
         for index 7, where round 0 computes {computed} and finds {found}."
    )
}

/// Fault 4, beside fault 2 over offset 8.
fn points_kept(course: &Course) -> Held {
    let case = course.exercise_6(&[1, 2, 4])?;
    let (h, offset) = (case.coset.offset, case.coset.next(1)?.offset);
    let (sent, fault_2) = folded_over(&case, &points_over(&case, offset)?)?;
    let line = line_for_all(course, &sent)?;
    let (sent, fault_4) = folded_over(&case, &points_over(&case, 0)?)?;
    ensure(line == line_for_all(course, &sent)?, "faults 2 and 4 have two lines")?;
    let (fault_2, fault_4, right) = (list(&fault_2), list(&fault_4), case.proved()?.last()[0]);
    says!(course, Section(11);
        "With offset {h:x} the two differ (exercise 6): layer 2 is {fault_2} by fault 2 with the
         right offset {offset:x}, is {fault_4} by fault 4, and should be {right:x}, {right:x}. Both
         print {line}."
    )
}

fn points_kept_with_two_coefficients(course: &Course) -> Held {
    let case = &course.exercise_7;
    let layer = case.coset.fold(&case.word, case.step, case.challenges[0])?.1;
    let kept = Coset::of(0, &[1, 2]).interpolate(&layer)?;
    ensure(kept[0] == case.proved()?.last()[0], "fault 4 gives another coefficient 0")?;
    let d = case.run().last_length();
    says!(course, Section(11);
        "With d = {d} the fault can pass the first query (exercise 7): coefficients found at points
         0, 1, 2, 3 are right at point 0."
    )
}
