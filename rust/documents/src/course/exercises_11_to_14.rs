//! Exercises 11 to 14: judging, writing and marking.

use super::cases::{Case, Sections};
use super::document::Place::{Answer, Exercise};
use super::document::{ensure, Held};
use super::programs::cause;
use super::rounds::visited;
use super::text::{decimals, thousands};
use super::Course;
use crate::coset::Coset;
use razgwilh::rounds;

pub fn check(course: &Course) -> Held {
    reads(course)?;
    assignment(course)?;
    without_the_offset(course)?;
    shared_cosets(course)?;
    sheet(course)?;
    one_line(course)?;
    largest_sheet(course)
}

fn reads(course: &Course) -> Held {
    says!(course, Exercise(11);
        "11. Case L with the queries 7, 2, in this order. Give the line. How many reads has an
         accepted run with k 20, R 6, η 3 and 256 queries?"
    )?;
    let line = course.judge(&course.case_l(&[7, 2])?)?;
    let (reads, line, r) = (line.reads, line.with_cause(), rounds(20, 6, 3));
    let most = thousands(256 * r * 8);
    says!(course, Answer(11);
        "11. {line}, query 1, round 1, 1×2×2 + 2×2 = {reads} reads. k 20, R 6, η 3: r = {r},
         256 × {r} × 8 = {most} reads."
    )
}

/// The answer to exercise 12 has the lines of the shipped assignment.
fn assignment(course: &Course) -> Held {
    let file = course.read("examples/exercise_07.assignment")?;
    let lines = file.lines().map(|line| line.split('#').next().unwrap_or(line).trim());
    let lines = lines.filter(|line| !line.is_empty()).map(|line| format!("`{line}`"));
    let lines = lines.collect::<Vec<_>>().join(", ");
    let queries = decimals(&course.exercise_7.queries);
    says!(course, Exercise(12);
        "12. Write exercise 7 with the queries {queries} as an assignment (section 16)"
        "leave the offset out of section 2, and make its count 4."
    )?;
    says!(course, Answer(12);
        "12. {lines}, each in a line of its own; that is `examples/exercise_07.assignment`."
    )
}

/// The first byte in which two differ, from 1, as `cmp` counts.
fn first_difference(a: &[u8], b: &[u8]) -> Held<usize> {
    let place = a.iter().zip(b).position(|(a, b)| a != b);
    Ok(place.ok_or("the bytes are alike")? + 1)
}

fn without_the_offset(course: &Course) -> Held {
    let (right, mut sent) = (course.exercise_7.proved()?.bytes(), course.exercise_7.proved()?);
    sent.section(2).remove(0);
    let (byte, line) = (first_difference(&right, &sent.bytes())?, course.judge(&sent)?);
    let mut bytes = sent.bytes();
    let (count, due) = (bytes[byte - 1], right[byte - 1]);
    bytes[byte - 1] = due;
    let (next_byte, next_line) =
        (first_difference(&right, &bytes)?, course.programs.judge(&bytes)?);
    // Five entries of 8 bytes are read from there on, and behind them a count.
    let next_count = bytes[next_byte - 1 + 8 * 5..][..4].iter().fold(0, |count, byte| count | byte);
    let line = line.with_cause();
    says!(course, Answer(12);
        "Without the offset it names byte {byte}, counted from 1: there the count of section 2 is
         {count} and not {due}. `judge` prints {line}. With the count left at {due}, `cmp` names
         byte {next_byte} and `judge` prints {next_line}: the first 8 bytes of section 3 are taken
         for the last basis element, and the count behind them is {next_count} and not 1."
    )
}

/// A word of degree below 8, at these queries, valid or not.
fn honest_run(step: usize, queries: &[u64]) -> Held<(Case, Sections)> {
    let coset = Coset::of(0, &[1, 2, 4, 8]);
    let word = coset.encode(&[1, 2, 3, 4, 5, 6, 7, 8])?;
    let challenges = vec![5; rounds(4, 1, step)];
    let case = Case { rate: 1, step, coset, challenges, queries: vec![0], word };
    let mut sent = case.proved()?;
    *sent.section(4) = queries.to_vec();
    Ok((case, sent))
}

fn shared_cosets(course: &Course) -> Held {
    let queries = [3, 8, 12, 1, 15];
    let mut answers = Vec::new();
    for step in 1..=3 {
        let (case, sent) = honest_run(step, &queries)?;
        let cosets = decimals(&visited(&queries, step));
        answers.push((cosets, course.judge(&sent)?, case.first_layer_cosets()));
    }
    let [(cosets_1, line_1, most_1), (cosets_2, line_2, most_2), (cosets_3, line_3, most_3)] =
        &answers[..]
    else {
        return Err("three steps have three answers".into());
    };
    let (reads, line_1, queries) = (line_1.reads, line_1.with_cause(), decimals(&queries));
    let (named, cosets, words) =
        (line_2.named(), course.exercise_15.first_layer_cosets(), cause(9));
    says!(course, Exercise(13);
        "13. An honest run of a word of degree below 8, with k 4, R 1 and the queries {queries}, in
         this order. Give the cosets that they visit and the line, with η 1, with η 2 and with η 3."
        "and how many with k 12 and η 3?"
    )?;
    says!(course, Answer(13);
        "13. η 1: cosets {cosets_1}, all different; {line_1}, 5 × 3 × 2 = {reads} reads. η 2: cosets
         {cosets_2}; {line_2}. η 3: cosets {cosets_3}; {line_3}. Both are {named}. At most {most_1},
         {most_2} and {most_3} queries. With k 12 and η 3 there are {cosets} first-layer cosets, and
         256 queries are the most: number 9 ({words})."
    )
}

/// Case L from the bytes of case K, and its sheet.
fn sheet(course: &Course) -> Held {
    let (right, sent) = (course.case_k_visited().proved()?, course.case_l(&[0, 2, 4, 6])?);
    let start = first_difference(&right.bytes(), &sent.bytes())? - 1;
    let end = start + 7;
    says!(course, Exercise(14);
        "14. Case L with the queries 0, 2, 4, 6. (a) Write its marking sheet by hand (section 17)"
        "entry 0 of layer 1 is its bytes {start} to {end}, counted from 0."
    )?;
    let (line, sheet) = (course.judge(&sent)?.with_cause(), course.programs.sheet(&sent.bytes())?);
    says!(course, Answer(14);
        "14. (a) {line}, query 0, round 0, where the first `no` stands. The sheet: {sheet}"
    )
}

/// Query, index and round of the lines that say `no` where one entry of case K is damaged.
fn damaged_lines(course: &Course, section: usize, place: usize) -> Held<Vec<String>> {
    let mut sent = course.case_k_visited().proved()?;
    sent.section(section)[place] ^= 1;
    let sheet = course.programs.sheet(&sent.bytes())?;
    let wrong = sheet.lines().filter(|line| line.ends_with("no"));
    Ok(wrong.map(|line| line[..18].split_whitespace().collect::<Vec<_>>().join(" ")).collect())
}

/// Which entries leave one `no`, for query 2, which is at index 4, in round 0.
fn one_line(course: &Course) -> Held {
    let mut found = Vec::new();
    for (section, place) in (0..8).map(|place| (5, place)).chain((0..4).map(|place| (6, place))) {
        if damaged_lines(course, section, place)? == ["2 4 0"] {
            found.push((section, place));
        }
    }
    ensure(found == [(5, 4), (5, 5)], format!("other entries leave one line: {found:?}"))?;
    let lines = damaged_lines(course, 6, 2)?;
    ensure(lines == ["2 4 0", "2 4 1", "3 6 1"], format!("entry 2 of layer 1: {lines:?}"))?;
    says!(course, Exercise(14);
        "says `no` in a single line, query 2 in round 0. Which entries can it be, and why none of
         layer 1?"
    )?;
    says!(course, Answer(14);
        "(b) Entry 4 or entry 5 of the word: query 2, at index 4, alone reads them, in round 0.
         Entry 2 of layer 1 is found in that round too, but with it damaged round 1 of the queries
         2 and 3 says `no`, since both fold it; other entries of layer 1 are not in that line."
    )
}

fn largest_sheet(course: &Course) -> Held {
    let sheet = course.programs.sheet(&course.shipped("largest")?)?;
    let (r, lines, size) = (rounds(12, 5, 1), sheet.lines().count(), thousands(sheet.len()));
    says!(course, Answer(14);
        "(c) r = (12 - 5)/1 = {r}, 34 × {r} = {lines} lines, {lines} × 56 = {size} bytes."
    )
}
