//! Sections 9 and 10: damaged entries, and the exceptional challenge.

use super::cases::{Case, Sections};
use super::document::{ensure, Held, Place::Section};
use super::pair::Pair;
use super::programs::{cause, Line};
use super::text::list;
use super::Course;

pub fn check(course: &Course) -> Held {
    case_h(course)?;
    case_l(course)?;
    readers(course)?;
    case_j(course)?;
    exceptional(course)
}

/// Case G with entry 3 of the word made 3.
fn damaged_g(course: &Course, queries: &[u64]) -> Held<Sections> {
    let mut sent = course.case_g().at(queries).proved()?;
    sent.section(5)[3] = 3;
    Ok(sent)
}

/// Cases H and I.
fn case_h(course: &Course) -> Held {
    let (case, sent) = (course.case_g(), damaged_g(course, &[0, 3])?);
    let pair = Pair::of(&case.coset.points()?[2..], &sent.layer(0)[2..], case.challenges[0]);
    let (slope, value, found) = (pair.slope_text(), pair.long_text(), sent.last()[0]);
    let (line, word) = (course.judge(&sent)?.with_cause(), list(sent.layer(0)));
    let line_i = course.judge(&damaged_g(course, &[0])?)?;
    let named_i = line_i.named();
    says!(course, Section(9);
        "Case H is case G with entry 3 of the word made 3: {word}. Queries 0 and 3. Query 0 (index
         0) reads coset 0 and computes {found:x}, as before. Query 1 (index 3) reads coset 1: slope
         {slope}, value {value}, hexadecimal. The value found is {found:x}. The line is {line},
         query 1, round 0, 4 reads."
        "Case I is the same word with query 0 alone: {line_i}, {named_i}."
    )
}

/// The line of each index of case K, with one entry of a section made 3.
fn lines_with_damage(course: &Course, section: usize) -> Held<Vec<Line>> {
    let line = |index| {
        let mut sent = course.case_k.at(&[index]).proved()?;
        sent.section(section)[0] = 3;
        course.judge(&sent)
    };
    (0..8).map(line).collect()
}

fn case_l(course: &Course) -> Held {
    let (sent, right) = (course.case_l(&[0])?, course.case_k.proved()?);
    let (points, x) = (course.case_k.coset.next(1)?.points()?, course.case_k.challenges[1]);
    let (fold, folded) = (Pair::of(&points, sent.layer(1), x).value(), list(&sent.layer(1)[..2]));
    let [was, damaged, next] = [right.layer(1)[0], sent.layer(1)[0], sent.layer(1)[1]];
    let last = right.last()[0];
    let whys = [
        format!("round 0 computes {was:x} and finds {damaged:x}"),
        format!(
            "round 0 computes and finds {next:x}; round 1 folds {folded} to {fold:x} and finds \
             {last:x}"
        ),
        "entry 0 of layer 1 lies in no coset that they read".into(),
    ];
    let lines = lines_with_damage(course, 6)?;
    let mut rows = Vec::new();
    for ((name, indices), why) in
        [("0, 1", 0..2), ("2, 3", 2..4), ("4 to 7", 4..8)].into_iter().zip(whys)
    {
        let line = &lines[indices.start];
        let alike = lines[indices].iter().all(|other| other == line);
        ensure(alike, format!("case L has several lines for the indices {name}"))?;
        let cell = line.cell();
        rows.push(row!["{name}", "{line}", "{cell}; {why}"]);
    }
    course.document.rows_are(Section(9), "index | line | why", &rows)?;
    says!(course, Section(9); "Case L is case K with entry 0 of layer 1 made 3.")
}

/// How many single queries see a damaged entry of the word, and one of layer 1.
fn readers(course: &Course) -> Held {
    let refused = |section| -> Held<usize> {
        let lines = lines_with_damage(course, section)?;
        Ok(lines.iter().filter(|line| line.number != 0).count())
    };
    let (of_word, of_layer) = (refused(5)?, refused(6)?);
    says!(course, Section(9);
        "An entry of the word is read by the queries at {of_word} of the 8 indices, an entry of
         layer 1 by those at {of_layer}."
    )
}

fn the_case_j(course: &Course, challenge: u64) -> Case {
    let (word, challenges) = (vec![0, 0, 0, 1], vec![challenge]);
    Case { word, challenges, ..course.case_g().at(&[0, 2]) }
}

/// Case J, and its fold at some challenges.
fn case_j(course: &Course) -> Held {
    let case = the_case_j(course, 4);
    for x in [0, 1, 2, 3, 4, course.exercise_15.challenges[0]] {
        let layer = case.coset.fold(&case.word, 1, x)?.1;
        ensure(layer == [0, x ^ 2], format!("case J folds otherwise at {x:x}"))?;
    }
    let coefficients = case.coset.interpolate(&case.word)?;
    let degree = coefficients.iter().rposition(|c| *c != 0).unwrap_or(0);
    let (parameters, coset, word) = (case.parameters(), &case.coset, list(&case.word));
    says!(course, Section(10);
        "{parameters}, {coset}, word {word}. Its degree is {degree}, not below 2. Coset 0 folds to
         0 at every challenge x. Coset 1 has points 2, 3, entries 0, 1 and slope 1, and folds to
         x + 2."
        "2 is the one challenge at which this word folds to a low degree: its exceptional set is
         2 alone. The fold at a point of the coset is the entry there, so at 2 the damaged entry at
         point 3 does not count."
    )
}

/// Case J at a challenge that is not exceptional, and at the one that is.
fn exceptional(course: &Course) -> Held {
    let (case, words) = (the_case_j(course, 4), cause(12));
    let (next, layer) = case.coset.fold(&case.word, 1, 4)?;
    ensure(next.interpolate(&layer)? == [0, 1], "the interpolant of layer 1 is not X")?;
    let refusal = case.proved().err().ok_or("case J is proved at 4")?.to_string();
    ensure(refusal == format!("number 12: {words}; degree 1"), refusal)?;
    let (layer, points) = (list(&layer), list(&next.points()?));

    let case = the_case_j(course, 2);
    let (sent, zeros) = (case.proved()?, list(&case.coset.fold(&case.word, 1, 2)?.1));
    let (line, last) = (course.judge(&sent)?.with_cause(), sent.last()[0]);
    says!(course, Section(10);
        "Challenge 4: layer 1 is {layer} at points {points}. Its interpolant is X, of degree 1. The
         prover refuses: number 12 ({words}), degree 1."
        "Challenge 2: layer 1 is {zeros}. The coefficient is {last:x}. Sent with queries 0, 2 it
         gives {line}, both cosets visited."
    )
}
