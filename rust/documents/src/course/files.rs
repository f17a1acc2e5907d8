//! Section 2: the shipped files.

use super::document::{ensure, Held, Place::Section, ANY};
use super::text::thousands;
use super::Course;
use razgwilh::rounds;
use std::collections::BTreeSet;
use std::fs;

pub fn check(course: &Course) -> Held {
    three_cases(course)?;
    transcripts(course)?;
    large_transcripts(course)?;
    assignments(course)
}

/// Cases G, H and I, before any theory.
fn three_cases(course: &Course) -> Held {
    let mut rows = Vec::new();
    for (name, why) in [("G", ""), ("H", ", at query 1, round 0"), ("I", "; entry 3 was not read")]
    {
        let line = course.programs.judge(&course.shipped(&name.to_lowercase())?)?;
        let cause = line.cell();
        rows.push(row!["{name}", "{ANY}", "{line}", "{cause}{why}"]);
    }
    let header = "case | what the transcript holds | line | what it says";
    course.document.rows_are(Section(2), header, &rows)?;
    let sheet = course.programs.sheet(&course.shipped("h")?)?;
    let fields: Vec<&str> = sheet.lines().last().unwrap_or_default().split_whitespace().collect();
    let [query, _, round, computed, found, "no"] = fields[..] else { return Err(sheet.into()) };
    let [computed, found] = [computed, found].map(|value| value.trim_start_matches('0'));
    says!(course, Section(2);
        "query {query} in round {round} computes {computed} and finds {found}."
    )
}

/// The names of the shipped files with this ending.
fn names(course: &Course, ending: &str) -> Held<BTreeSet<String>> {
    let mut names = BTreeSet::new();
    for entry in fs::read_dir(course.root.join("examples"))? {
        let name = entry?.file_name().to_string_lossy().into_owned();
        names.extend(name.strip_suffix(ending).map(str::to_string));
    }
    Ok(names)
}

/// The table has a row for each shipped transcript, and no other.
fn transcripts(course: &Course) -> Held {
    let tables = course.document.tables(Section(2), "name | holds")?;
    let mut named = BTreeSet::new();
    for row in tables.iter().flatten() {
        named.extend(row[0].split('`').skip(1).step_by(2).map(str::to_string));
        if row[0].contains("`number_01` to `number_11`") {
            named.extend((1..=11).map(|number| format!("number_{number:02}")));
        }
    }
    let shipped = names(course, ".transcript")?;
    let alone: Vec<&String> = shipped.symmetric_difference(&named).collect();
    ensure(alone.is_empty(), format!("a file without a row, or a row without: {alone:?}"))?;
    course.document.count(named.len());
    Ok(())
}

/// `k 12, R 5, η 1` of a transcript, and the number of its queries.
fn shape(bytes: &[u8]) -> (String, u16) {
    let [k, rate, step] = [4, 12, 20].map(|place| usize::from(bytes[place]));
    let queries = 28 + (4 + 8 * (1 + k)) + (4 + 8 * rounds(k, rate, step));
    let count = u16::from_le_bytes([bytes[queries], bytes[queries + 1]]);
    (format!("k {k}, R {rate}, η {step}"), count)
}

fn large_transcripts(course: &Course) -> Held {
    let (largest, long) = (course.shipped("largest")?, course.shipped("long_with_k_21")?);
    let good = course.shipped("long_with_a_good_front")?;
    ensure(long.len() == good.len(), "the long transcripts have two lengths")?;
    let ((parameters, queries), size) = (shape(&largest), thousands(largest.len()));
    let (_, many) = shape(&course.shipped("p_256_queries")?);
    let (long_size, long) = (thousands(long.len()), course.programs.judge(&long)?.cell());
    let good = course.programs.judge(&good)?.cell();
    says!(course, Section(2);
        "case P: {many} queries in {many} first-layer cosets"
        "{parameters} with {queries} queries, exactly {size} bytes"
        "{long_size} bytes, case K's sections 1 to 4 with k made 21, and zeros ({long})"
        "the same with k as it is ({good})"
    )
}

/// Each shipped assignment is named, and begins with a comment that says what it is and its use.
fn assignments(course: &Course) -> Held {
    for name in names(course, ".assignment")? {
        let file = format!("examples/{name}.assignment");
        let (what, out) = match name.strip_prefix("exercise_") {
            Some(number) => (format!("Exercise {}", number.trim_start_matches('0')), number),
            None => (format!("Case {}", name.to_uppercase()), &name[..]),
        };
        let due = format!("# {what} as an assignment: razgwilh write {file} {out}.transcript\n");
        ensure(course.read(&file)?.starts_with(&due), format!("{file} does not begin with {due}"))?;
        says!(course, Section(2); "`{file}`")?;
    }
    Ok(())
}
