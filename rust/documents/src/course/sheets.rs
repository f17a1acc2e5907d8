//! Section 17: the marking sheet.

use super::document::{ensure, Held, Place::Section, ANY};
use super::pair::Pair;
use super::rounds::all_parameters;
use super::text::{decimals, list, thousands};
use super::transcript::LONGEST;
use super::Course;
use razgwilh::{rounds, transcript_length};

/// The fields of a line, with their widths.
const FIELDS: [(&str, usize); 6] = [
    ("query", 5),
    ("index", 8),
    ("round", 3),
    ("value computed", 16),
    ("value found", 16),
    ("mark", 2),
];

pub fn check(course: &Course) -> Held {
    fields(course)?;
    by_hand(course)?;
    damaged(course)?;
    lengths(course)?;
    exit_statuses(course)
}

/// Where each field of a line stands.
fn fields(course: &Course) -> Held {
    let sheet = course.programs.sheet(&course.case_k.proved()?.bytes())?;
    let line = format!("{:>5} {:>8} {:>3} {:016x} {:016x} ok\n", 0, 5, 1, 1, 1);
    ensure(sheet.ends_with(&line), format!("the sheet of case K is {sheet}"))?;
    let (mut rows, mut start) = (Vec::new(), 1);
    for (name, width) in FIELDS {
        let between = if width == 2 { ", " } else { " to " };
        let end = start + width - 1;
        rows.push(row!["{start}{between}{end}", "{name}", "{ANY}"]);
        start = end + 2;
    }
    course.document.rows_are(Section(17), "characters | field | what it is", &rows)?;
    let width = line.len() - 1;
    says!(course, Section(17); "A line has {width} characters and a line feed.")
}

/// The last line of case K.
fn by_hand(course: &Course) -> Held {
    let (case, sent, index) = (&course.case_k, course.case_k.proved()?, course.case_k.queries[0]);
    let (coset, x) = (case.coset.next(1)?, case.challenges[1]);
    let (half, quarter) = (index / 2, index / 4);
    let pair = Pair::of(&coset.points()?[2..], &sent.layer(1)[2..], x);
    let (points, entries) = (list(&pair.points), list(&pair.entries));
    let (slope, value, last) = (pair.slope_text(), pair.value_text(), sent.last()[0]);
    let point = coset.next(1)?.points()?[quarter as usize];
    let challenges = list(&case.challenges);
    says!(course, Section(17);
        "Take the second line of case K, where η is 1 and the challenges are {challenges}:"
        "1. Query 0 at index {index}, round 1. The index in layer 1 is {index}/2 = {half}, rounded
         down; its coset has the indices 2, 3.
         2. Points {points} and entries {entries} (section 7). The slope is {slope}, and the value
         at challenge {x:x} is {value}. That is the value computed.
         3. Round 1 is the last. The index in layer 2 is {index}/4 = {quarter}, rounded down, the
         point there {point:x}, and the last polynomial, the constant {last:x}, has the value
         {last:x} there."
    )
}

/// Case L.
fn damaged(course: &Course) -> Held {
    let (right, sent, x) =
        (course.case_k.proved()?, course.case_l(&[0])?, course.case_k.challenges[1]);
    let pair = Pair::of(&course.case_k.coset.next(1)?.points()?, sent.layer(1), x);
    let ([p, q], [u, v], was, value) = (pair.points, pair.entries, right.layer(1)[0], pair.value());
    says!(course, Section(17);
        "In case L one entry is damaged, entry 0 of layer 1, which was {was:x}. Round 0 finds it.
         Round 1 folds it as it was sent: {u:x} + ({u:x} + {v:x}) / {q:x} × ({x:x} + {p:x}) =
         {value:x}."
    )
}

/// The most lines that a sheet has, of a file that `sheet` takes and of any file.
fn lengths(course: &Course) -> Held {
    let case = course.case_k_visited();
    let lines = course.programs.sheet(&case.proved()?.bytes())?.lines().count();
    let (mut taken, mut any) = (0, 0);
    for (k, rate, step) in all_parameters().filter(|(k, rate, step)| rounds(*k, *rate, *step) > 0) {
        let (r, most) = (rounds(k, rate, step), 256.min(1 << (k - step)));
        let fits = |queries: &usize| transcript_length(k, rate, step, *queries) <= LONGEST;
        taken = taken.max(r * (1..=most).rev().find(fits).unwrap_or(0));
        any = any.max(r * most);
    }
    let (taken_rounds, any_rounds, queries) = (taken / 256, any / 256, decimals(&case.queries));
    let (taken, any) = (thousands(taken), thousands(any));
    says!(course, Section(17);
        "There are queries × r lines, {lines} for case K with the queries {queries}, and at most
         256 × {taken_rounds} = {taken} from `sheet`, 256 × {any_rounds} = {any} from `razgwilh
         sheet`."
    )
}

fn exit_statuses(course: &Course) -> Held {
    let commands = [
        "sheet examples/g.transcript",
        "sheet examples/h.transcript",
        "sheet examples/none.transcript",
    ];
    course.programs.end_in_turn(":", commands)?;
    let rows = [0, 1, 2].map(|status| row!["{status}", "{ANY}"]);
    course.document.rows_are(Section(17), "exit status of `razgwilh sheet` | when", &rows)
}
