//! Section 11: each fault of the table is made, and gets the line that stands beside it.

use super::cases::{Case, Sections, Steps};
use super::document::{Held, Place::Section};
use super::text::{decimals, list};
use super::Course;

/// What a fault sends, and why that gets its line, where the cause does not say it all.
type Sent = (Vec<u8>, String);

/// A fault, by the name that it has in the table.
type Fault = (&'static str, fn(&Course) -> Held<Sent>);

const FAULTS: [Fault; 14] = [
    ("text in place of bytes: `3 1 1 0 1 2 4 ..`", text),
    ("entries in big-endian order", big_endian),
    ("counts in 8 bytes", wide_counts),
    ("offset after the basis", offset_last),
    ("offset after the basis, exercise 6 (a)", offset_last_but_not_zero),
    ("challenges and queries swapped", swapped),
    ("layers 1 to r-1 in one section, exercise 15", layers_joined),
    ("layer r sent too, before the coefficients", layer_r_sent),
    ("coefficients not sent", no_coefficients),
    ("challenges used in reverse order", challenges_reversed),
    ("challenge not carried on between the folds with step 1, exercise 7", challenge_kept),
    ("coefficients reversed, exercise 7", coefficients_reversed),
    ("inner offset 0 in the folds with step 1, exercise 15", offset_dropped),
    ("word over offset 0, all else over offset 8, exercise 6 (a)", other_word),
];

pub fn check(course: &Course) -> Held {
    let mut rows = Vec::new();
    for (fault, make) in FAULTS {
        let (bytes, why) = make(course)?;
        let line = course.programs.judge(&bytes)?;
        let cause = line.cell();
        let why = if why.is_empty() { why } else { format!("; {why}") };
        rows.push(row!["{fault}", "{line}", "{cause}{why}"]);
    }
    course.document.rows_are(Section(11), "fault | line | number and cause", &rows)?;
    let queries = decimals(&course.case_k_visited().queries);
    says!(course, Section(11);
        "The case is K with the queries {queries} where the row names no exercise; exercise 6 (a)
         has these queries too, exercises 7 and 15 have their own."
    )
}

fn case_k(course: &Course) -> Held<Sections> {
    course.case_k_visited().proved()
}

fn text(course: &Course) -> Held<Sent> {
    let numbers: Vec<String> = case_k(course)?.0.concat().iter().map(u64::to_string).collect();
    let text = numbers.join(" ");
    let why = format!("the count is read from the characters `{}`", &text[..4]);
    Ok((text.into_bytes(), why))
}

/// The first entry of section 1, which is a number and zeros behind it.
fn k_is_read(bytes: &[u8]) -> String {
    let entry = bytes[4..12].iter().rev().fold(0, |entry, byte| entry << 8 | u64::from(*byte));
    let zeros = entry.trailing_zeros();
    format!("k is read as {} × 2^{zeros}", entry >> zeros)
}

fn big_endian(course: &Course) -> Held<Sent> {
    let count = |count| (count as u32).to_le_bytes();
    let bytes = case_k(course)?.bytes_with(count, u64::to_be_bytes);
    let why = k_is_read(&bytes);
    Ok((bytes, why))
}

fn wide_counts(course: &Course) -> Held<Sent> {
    let count = |count| (count as u64).to_le_bytes();
    let bytes = case_k(course)?.bytes_with(count, u64::to_le_bytes);
    let why = k_is_read(&bytes);
    Ok((bytes, why))
}

fn offset_last(course: &Course) -> Held<Sent> {
    let mut sent = case_k(course)?;
    sent.section(2).rotate_left(1);
    let why = format!("the basis is read as {}", list(&sent.section(2)[1..]));
    Ok((sent.bytes(), why))
}

fn offset_last_but_not_zero(course: &Course) -> Held<Sent> {
    let mut sent = course.exercise_6(&[1, 2, 4])?.proved()?;
    sent.section(2).rotate_left(1);
    let (basis, offset) = (list(&sent.section(2)[1..]), sent.section(2)[0]);
    Ok((sent.bytes(), format!("the basis is read as {basis}, the offset as {offset:x}")))
}

fn swapped(course: &Course) -> Held<Sent> {
    let mut sent = case_k(course)?;
    let (r, count) = (sent.section(3).len(), sent.section(4).len());
    sent.0.swap(2, 3);
    Ok((sent.bytes(), format!("it is {count}, and r is {r}")))
}

fn layers_joined(course: &Course) -> Held<Sent> {
    let mut sent = course.exercise_15.proved()?;
    let layer_2 = sent.0.remove(6);
    let due = sent.layer(1).len();
    sent.section(6).extend(layer_2);
    let count = sent.layer(1).len();
    Ok((sent.bytes(), format!("it is {count}, and layer 1 has {due} entries")))
}

/// Layer 2 of case K is its last coefficient at each of two points.
fn layer_r_sent(course: &Course) -> Held<Sent> {
    let mut sent = case_k(course)?;
    let (d, layer) = (sent.last().len(), vec![sent.last()[0]; 2]);
    let why = format!("it is {}, and d is {d}", layer.len());
    sent.0.insert(6, layer);
    Ok((sent.bytes(), why))
}

fn no_coefficients(course: &Course) -> Held<Sent> {
    let mut sent = case_k(course)?;
    sent.0.pop();
    Ok((sent.bytes(), String::new()))
}

fn challenges_reversed(course: &Course) -> Held<Sent> {
    let case = course.case_k_visited();
    let reversed: Vec<u64> = case.challenges.iter().rev().copied().collect();
    let why = format!("layer 1 is that of challenge {:x}", reversed[0]);
    let mut sent = Case { challenges: reversed, ..case.clone() }.proved()?;
    *sent.section(3) = case.challenges;
    Ok((sent.bytes(), why))
}

fn challenge_kept(course: &Course) -> Held<Sent> {
    let (right, sent) =
        (course.exercise_7.proved()?, course.exercise_7.sent_by(Steps::CHALLENGE_KEPT)?);
    let why = format!("coefficient 0 is {:x} and not {:x}", sent.last()[0], right.last()[0]);
    Ok((sent.bytes(), why))
}

fn coefficients_reversed(course: &Course) -> Held<Sent> {
    let mut sent = course.exercise_7.proved()?;
    sent.section(6).reverse();
    Ok((sent.bytes(), "with d = 1 it does not show".into()))
}

fn offset_dropped(course: &Course) -> Held<Sent> {
    let sent = course.exercise_15.sent_by(Steps::OFFSET_DROPPED)?;
    Ok((sent.bytes(), "over offset 0 it does not show".into()))
}

fn other_word(course: &Course) -> Held<Sent> {
    let word = course.case_k.word.clone();
    let sent = Case { word, ..course.exercise_6(&[1, 2, 4])? }.proved()?;
    let why = "section 5 is wrong, and the marker compares it (section 15)";
    Ok((sent.bytes(), why.into()))
}
