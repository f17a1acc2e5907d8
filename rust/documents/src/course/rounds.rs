//! Sections 7 and 8: the rounds of case K, and what the judge checks and reads.

use super::cases::Sections;
use super::document::{ensure, Held, Place::Section};
use super::pair::Pair;
use super::programs::Line;
use super::text::{decimals, list};
use super::Course;
use crate::coset::Coset;
use razgwilh::{last_length, rounds, sum};

pub fn check(course: &Course) -> Held {
    ranges(course)?;
    case_k(course)?;
    round_0(course)?;
    round_1(course)?;
    query_5(course)?;
    visits(course)?;
    shared_cosets(course)
}

/// All parameters in range, and some that are not.
pub fn all_parameters() -> impl Iterator<Item = (usize, usize, usize)> {
    (0..25).flat_map(|k| (0..9).flat_map(move |rate| (0..6).map(move |step| (k, rate, step))))
}

/// The parameters that have rounds are those in range.
fn ranges(course: &Course) -> Held {
    let (mut lengths, mut points) = (Vec::new(), 0);
    for (k, rate, step) in all_parameters() {
        let in_range = (2..=20).contains(&k)
            && (1..=6).contains(&rate)
            && (1..=3).contains(&step)
            && k >= rate + step;
        let r = rounds(k, rate, step);
        ensure(in_range == (r > 0), format!("k {k}, R {rate}, η {step} has {r} rounds"))?;
        if in_range {
            lengths.push(last_length(k, rate, step));
            points = points.max(1 << (k - r * step));
        }
    }
    lengths.sort_unstable();
    lengths.dedup();
    let [a, b, c] = lengths[..] else { return Err("d has other values than three".into()) };
    says!(course, Section(7);
        "Ranges: k 2 to 20, R 1 to 6, η 1 to 3, k ≥ R + η; so d is {a}, {b} or {c} and layer r has
         at most {points} points."
    )
}

fn case_k(course: &Course) -> Held {
    let case = &course.case_k;
    let (parameters, coset, challenges) = (case.parameters(), &case.coset, list(&case.challenges));
    ensure(case.word == coset.encode(&[0, 0, 1])?, "case K is not X^2")?;
    let (word, r, d) = (list(&case.word), case.run().rounds(), case.run().last_length());
    let (index, last) = (case.queries[0], coset.next(1)?.next(1)?);
    let (first, second) = (index >> 1, index >> 2);
    let point = last.points()?[second as usize];
    says!(course, Section(7);
        "Case K: {parameters}, {coset}, challenges {challenges}, word {word}, which is P(X) = X^2.
         r = {r}, d = {d}."
        "the path of a query at index {index} is marked: coset {first} of layer 0, coset {second} of
         layer 1, point {point:x} of layer 2]"
    )
}

/// The table of a round has these pairs; those from `long` on are shown with a sum more.
fn table_is(course: &Course, coset: &Coset, word: &[u64], x: u64, long: usize) -> Held {
    let table_row = |(j, pair): (usize, Pair)| {
        let (points, entries) = (list(&pair.points), list(&pair.entries));
        let (slope, value, sum) = (pair.slope_text(), pair.value_text(), pair.long_text());
        let value = if j < long { value } else { sum };
        row!["{j}", "{points}", "{entries}", "{slope}", "{value}"]
    };
    let points = coset.points()?;
    let rows: Vec<_> = Pair::all(&points, word, x).enumerate().map(table_row).collect();
    let header = format!("coset | points | entries | slope | value at {x:x}");
    course.document.rows_are(Section(7), &header, &rows)
}

fn round_0(course: &Course) -> Held {
    let (case, x) = (&course.case_k, course.case_k.challenges[0]);
    table_is(course, &case.coset, &case.word, x, case.word.len())?;
    let (next, layer) = case.coset.fold(&case.word, 1, x)?;
    let (first, layer, points) = (case.coset.basis[0], list(&layer), list(&next.points()?));
    let (offset, b_0, b_1) = (next.offset, next.basis[0], next.basis[1]);
    says!(course, Section(7);
        "Round 0, challenge {x:x}, b_0 = {first:x}:"
        "Layer 1 is {layer}. Its coset: q(X) = X × (X + {first:x}), offset q(0) = {offset:x}, basis
         q(2) = {b_0:x}, q(4) = 4 × 5 = {b_1:x}, points {points}."
    )
}

fn round_1(course: &Course) -> Held {
    let (case, x_0, x) = (&course.case_k, course.case_k.challenges[0], course.case_k.challenges[1]);
    let (coset, layer) = case.coset.fold(&case.word, 1, x_0)?;
    table_is(course, &coset, &layer, x, 1)?;
    let (next, layer) = coset.fold(&layer, 1, x)?;
    let (first, layer, points) = (coset.basis[0], list(&layer), list(&next.points()?));
    let (offset, b_0, factor) = (next.offset, next.basis[0], sum(0x14, first));
    let (last, value) = (case.proved()?.last()[0], sum(x, x_0));
    says!(course, Section(7);
        "Round 1, challenge {x:x}, b_0 = {first:x}, the first basis element of layer 1:"
        "Layer 2 is {layer}. Its coset: q(X) = X × (X + {first:x}), offset {offset:x}, basis
         q(14) = 14 × {factor:x} = {b_0:x}, points {points}. The interpolant is the constant
         {last:x}: coefficient {last:x}."
        "so layer 1 at its point y is y + {x_0:x}, and that line's value at {x:x} is {x:x} +
         {x_0:x} = {value:x}."
    )
}

/// What the judge reads of a transcript to which it gives this line, by the formulas of section 8.
pub fn reads(sent: &Sections, line: &Line) -> u64 {
    let [k, rate, step] = sent.0[0][..] else { return 0 };
    let (r, coset) = (rounds(k as usize, rate as usize, step as usize) as u64, 1 << step);
    match (line.number, line.place, line.round) {
        (0, ..) => sent.0[3].len() as u64 * r * coset,
        (11, Some(t), Some(i)) => t * r * coset + r.min(i + 2) * coset,
        _ => 0,
    }
}

/// The checks of query 5, and the formulas that every line of judge is compared with.
fn query_5(course: &Course) -> Held {
    let (case, sent) = (&course.case_k, course.case_k.proved()?);
    let (index, last) = (case.queries[0] as usize, sent.last()[0]);
    let (mut coset, mut rows) = (case.coset.clone(), Vec::new());
    for round in 0..2 {
        let (start, x) = (index >> (round + 1) << 1, case.challenges[round]);
        let pair = Pair::of(&coset.points()?[start..], &sent.layer(round)[start..], x);
        coset = coset.next(1)?;
        let (end, place, point) = (start + 1, start / 2, coset.points()?[start / 2]);
        let found = match round {
            0 => format!("layer 1, entry {place}: {:x}", sent.layer(1)[place]),
            _ => format!("polynomial {last:x} at point {point:x}: {last:x}"),
        };
        let (points, entries, value) = (list(&pair.points), list(&pair.entries), pair.value());
        rows.push(row![
            "{round}",
            "layer {round}",
            "{start}, {end}",
            "{points}",
            "{entries}",
            "{x:x}",
            "{value:x}",
            "{found}",
            "2",
        ]);
    }
    let header = "round | coset of | indices | points | entries | challenge | value computed | \
                  value found | reads";
    course.document.rows_are(Section(8), header, &rows)?;
    let (line, entry) = (course.judge(&sent)?.with_cause(), index >> 1);
    says!(course, Section(8);
        "Case K, query {index}:"
        "The line is {line}, 4 reads."
        "entry {entry} of layer 1 is found in round 0 and lies in the coset of round 1, and is
         counted once."
        "Accepted: queries × r × 2^η."
        "round i: t × r × 2^η + min(i+2, r) × 2^η, since"
        "Every other refusal: 0 reads."
    )
}

/// The first-layer cosets of a list of queries.
pub fn visited(queries: &[u64], step: usize) -> Vec<u64> {
    queries.iter().map(|index| index >> step).collect()
}

fn visits(course: &Course) -> Held {
    let case = course.case_k_visited();
    for fifth in 0..8 {
        let mut sent = case.proved()?;
        sent.section(4).push(fifth);
        let line = course.judge(&sent)?;
        ensure((line.number, line.place) == (17, Some(4)), format!("five queries get {line}"))?;
    }
    let line = course.judge(&case.proved()?)?;
    let (queries, reads, line) = (decimals(&case.queries), line.reads, line.with_cause());
    let (index, coset) = (course.case_k.queries[0], visited(&course.case_k.queries, 1)[0]);
    says!(course, Section(8);
        "index {index} visits coset {coset} of four. Case K with queries {queries} visits all four
         and prints {line}, 4 × 2 × 2 = {reads} reads."
        "a list has at most as many queries, and at most 256; five are too many for case K."
    )
}

fn shared_cosets(course: &Course) -> Held {
    let (queries, mut sent) = ([7, 0, 5, 2, 1, 4], course.case_k.proved()?);
    *sent.section(4) = queries.to_vec();
    let line = course.judge(&sent)?;
    let (named, queries, cosets) = (line.named(), decimals(&queries), visited(&queries, 1));
    let cosets = decimals(&cosets);
    says!(course, Section(8);
        "with {named} at the first query that shares one with an earlier query."
        "Case K with the queries {queries} has the cosets {cosets}. The 0 comes again at query 4,
         the 2 only at query 5: the line is {line}."
    )
}
