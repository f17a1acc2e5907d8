//! Section 12: the bytes of case G.

use super::cases::{Case, Sections};
use super::document::{ensure, Held, Place::Section};
use super::programs::cause;
use super::rounds::all_parameters;
use super::text::{hex, thousands};
use super::Course;
use razgwilh::transcript_length;

/// How many bytes the programs `judge` and `sheet` take.
pub const LONGEST: usize = 65_536;

pub fn check(course: &Course) -> Held {
    table(course)?;
    largest_k(course)
}

/// What the count and the entries of each section of case G mean.
fn meanings(case: &Case, sent: &Sections) -> [(String, Vec<String>); 6] {
    let named = |name: &str, values: &[u64]| -> Vec<String> {
        let entry = |(i, value): (usize, &u64)| name.replace('#', &i.to_string()) + &hex(*value);
        values.iter().enumerate().map(entry).collect()
    };
    let (k, rate, step, queries) = (case.k(), case.rate, case.step, case.queries.len());
    let (due, length, r, d) = (k + 1, 1 << k, case.run().rounds(), case.run().last_length());
    let coset = [named("offset ", &[case.coset.offset]), named("b_# = ", &case.coset.basis)];
    [
        ("section 1: count 3".into(), row!["k = {k}", "R = {rate}", "η = {step}"]),
        (format!("section 2: count k + 1 = {due}"), coset.concat()),
        (format!("section 3: count r = {r}"), named("challenge # is ", &case.challenges)),
        (
            format!("section 4: count {queries}, as many as there are queries"),
            named("query #: index ", &case.queries),
        ),
        (format!("section 5, layer 0: count 2^k = {length}"), named("entry # is ", &case.word)),
        (format!("section 6 = 5 + r: count d = {d}"), named("coefficient # is ", sent.last())),
    ]
}

/// The table is that of the shipped transcript.
fn table(course: &Course) -> Held {
    let (case, bytes) = (course.case_g(), course.shipped("g")?);
    let sent = case.proved()?;
    ensure(sent.bytes() == bytes, "examples/g.transcript is not case G")?;
    let (mut rows, mut offset) = (Vec::new(), 0);
    let mut push = |width: usize, meaning: &str| {
        let shown = bytes[offset..offset + width].iter().map(|byte| format!("{byte:02x}"));
        let shown = shown.collect::<Vec<_>>().join(" ");
        rows.push(row!["{offset}", "{shown}", "{meaning}"]);
        offset += width;
    };
    for (count, entries) in meanings(&case, &sent) {
        push(4, &count);
        entries.iter().for_each(|entry| push(8, entry));
    }
    course.document.rows_are(Section(12), "offset | bytes | meaning", &rows)?;
    let size = bytes.len();
    says!(course, Section(12);
        "the count in 4 bytes, entries in 8, little-endian."
        "Case G is case F with queries 0 and 3: {size} bytes."
    )
}

/// The largest k of a transcript that the programs take.
fn largest_k(course: &Course) -> Held {
    let fits = |(k, rate, step): &(usize, usize, usize)| {
        (1..=LONGEST).contains(&transcript_length(*k, *rate, *step, 1))
    };
    let k = all_parameters().filter(fits).map(|(k, ..)| k).max().unwrap_or(0);
    let (longest, words) = (thousands(LONGEST), cause(14));
    says!(course, Section(12);
        "`judge` takes up to {longest} bytes, so k is at most {k} in a file; of a longer one it
         checks sections 1 to 4, and where they pass it says 14 ({words}) and looks no further."
    )
}
