//! Exercise 10: each change of case G's transcript is made, and judged.

use super::cases::Sections;
use super::document::Held;
use super::document::Place::{Answer, Exercise};
use super::Course;

/// A change of the table, made to the sections of case G, and the bytes then.
type Change = (&'static str, fn(Sections) -> Vec<u8>);

/// The length of a file of which `judge` looks at sections 1 to 4 alone.
const LONG: usize = 70_000;

const CHANGES: [Change; 17] = [
    ("empty file", |_| Vec::new()),
    ("last byte left out (135 bytes)", |sent| sent.bytes()[..135].to_vec()),
    ("section 2 without the offset, count 2", |sent| without(sent, 2, 0)),
    ("layer 1, that is b, b, sent as section 6", |sent| {
        let last = sent.last()[0];
        with(sent, 6, vec![last; 2])
    }),
    ("count of section 1 in big-endian order", |sent| {
        [&3u32.to_be_bytes(), &sent.bytes()[4..]].concat()
    }),
    ("a line feed added at the end", |sent| [&sent.bytes()[..], b"\n"].concat()),
    ("zeros added at the end, up to 70,000 bytes", |sent| lengthened(sent.bytes())),
    ("k made 21", |sent| made(sent, 1, 0, 21)),
    ("k made 21, and zeros added at the end, up to 70,000 bytes", |sent| {
        lengthened(made(sent, 1, 0, 21))
    }),
    ("R made 0", |sent| made(sent, 1, 1, 0)),
    ("η made 4", |sent| made(sent, 1, 2, 4)),
    ("R made 2", |sent| made(sent, 1, 1, 2)),
    ("b_1 made 1", |sent| made(sent, 2, 2, 1)),
    ("section 4 with count 0 and no entry", |sent| with(sent, 4, Vec::new())),
    ("query 1 made index 4", |sent| made(sent, 4, 1, 4)),
    ("query 1 made index 1", |sent| made(sent, 4, 1, 1)),
    ("challenge 0 made 5", |sent| made(sent, 3, 0, 5)),
];

fn made(mut sent: Sections, section: usize, place: usize, value: u64) -> Vec<u8> {
    sent.section(section)[place] = value;
    sent.bytes()
}

fn with(mut sent: Sections, section: usize, entries: Vec<u64>) -> Vec<u8> {
    *sent.section(section) = entries;
    sent.bytes()
}

fn without(mut sent: Sections, section: usize, place: usize) -> Vec<u8> {
    sent.section(section).remove(place);
    sent.bytes()
}

fn lengthened(mut bytes: Vec<u8>) -> Vec<u8> {
    bytes.resize(LONG, 0);
    bytes
}

pub fn check(course: &Course) -> Held {
    let mut rows = Vec::new();
    for (change, make) in CHANGES {
        let line = course.programs.judge(&make(course.case_g().proved()?))?;
        let cause = line.cell();
        rows.push(row!["{change}", "{line}", "{cause}"]);
    }
    course.document.rows_are(Answer(10), "change | line | cause", &rows)?;
    says!(course, Exercise(10); "10. The marker names a change of case G's transcript")?;
    says!(course, Answer(10); "10. The lines, with their causes:")
}
