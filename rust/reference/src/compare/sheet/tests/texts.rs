//! Sheets with the right checks in wrong lines.

use super::checks::of_judging;
use super::*;
use crate::protocol::{checks, Check};
use crate::transcript::{lines as verdict_lines, Judging};

// The right columns.

fn decimals(check: &Check) -> String {
    let Check { query, index, round, .. } = check;
    format!("{query:5} {index:8} {round:3}")
}

fn values(check: &Check) -> String {
    let Check { computed, found, .. } = check;
    format!("{computed:016x} {found:016x}")
}

fn mark(check: &Check) -> &'static str {
    if check.passes() {
        "ok"
    } else {
        "no"
    }
}

fn line(check: &Check) -> String {
    format!("{} {} {}\n", decimals(check), values(check), mark(check))
}

/// How a check is written.
type Form = fn(&Check) -> String;

/// What every line shows.
const IN_EVERY_LINE: [(&str, Form); 19] = [
    ("decimals have zeros before them", |c| {
        format!("{:05} {:08} {:03} {} {}\n", c.query, c.index, c.round, values(c), mark(c))
    }),
    ("decimals have spaces behind them", |c| {
        format!("{:<5} {:<8} {:<3} {} {}\n", c.query, c.index, c.round, values(c), mark(c))
    }),
    ("decimals have nothing before them", |c| {
        format!("{} {} {} {} {}\n", c.query, c.index, c.round, values(c), mark(c))
    }),
    ("a query has four places", |c| line(c)[1..].to_string()),
    ("an index has seven places", |c| {
        format!("{:5} {:7} {:3} {} {}\n", c.query, c.index, c.round, values(c), mark(c))
    }),
    ("a round has two places", |c| {
        format!("{:5} {:8} {:2} {} {}\n", c.query, c.index, c.round, values(c), mark(c))
    }),
    ("queries count from 1", |c| line(&Check { query: c.query + 1, ..*c })),
    ("rounds count from 1", |c| line(&Check { round: c.round + 1, ..*c })),
    ("values have a prefix", |c| {
        format!("{} {:#018x} {:#018x} {}\n", decimals(c), c.computed, c.found, mark(c))
    }),
    ("values are decimal", |c| {
        format!("{} {:20} {:20} {}\n", decimals(c), c.computed, c.found, mark(c))
    }),
    ("no value found", |c| format!("{} {:016x} {}\n", decimals(c), c.computed, mark(c))),
    ("no mark", |c| format!("{} {}\n", decimals(c), values(c))),
    ("the mark comes first", |c| format!("{} {} {}\n", mark(c), decimals(c), values(c))),
    ("marks are in capitals", |c| line(c).replace("ok", "OK").replace("no", "NO")),
    ("the other mark", |c| {
        let other = if c.passes() { "no" } else { "ok" };
        format!("{} {} {other}\n", decimals(c), values(c))
    }),
    ("returns", |c| line(c).replace('\n', "\r\n")),
    ("no line feeds", |c| line(c).replace('\n', "")),
    ("tabs", |c| line(c).replace(' ', "\t")),
    ("a space before the line feed", |c| line(c).replace('\n', " \n")),
];

/// What some lines show, and sorts that have such lines.
const IN_SOME_LINES: [(&str, Form, &[&str]); 8] = [
    (
        "values have spaces before them",
        |c| format!("{} {:16x} {:16x} {}\n", decimals(c), c.computed, c.found, mark(c)),
        &[WIDTHS, HONEST],
    ),
    (
        "values have nothing before them",
        |c| format!("{} {:x} {:x} {}\n", decimals(c), c.computed, c.found, mark(c)),
        &[WIDTHS, HONEST],
    ),
    (
        "values are in capitals",
        |c| format!("{} {:016X} {:016X} {}\n", decimals(c), c.computed, c.found, mark(c)),
        &[WIDTHS, HONEST, MANY],
    ),
    (
        "indices are hexadecimal",
        |c| format!("{:5} {:8x} {:3} {} {}\n", c.query, c.index, c.round, values(c), mark(c)),
        &[QUERIES, MANY, LAYER],
    ),
    (
        "queries are hexadecimal",
        |c| format!("{:5x} {:8} {:3} {} {}\n", c.query, c.index, c.round, values(c), mark(c)),
        &[QUERIES, MANY],
    ),
    ("every mark is ok", |c| format!("{} {} ok\n", decimals(c), values(c)), &[LAYER, MANY, WIDTHS]),
    ("every mark is no", |c| format!("{} {} no\n", decimals(c), values(c)), &[LAYER, HONEST]),
    (
        "values are equal where their lower halves are",
        |c| match (c.computed ^ c.found) as u32 {
            0 => format!("{} {} ok\n", decimals(c), values(c)),
            _ => line(c),
        },
        &[LAYER, WIDTHS],
    ),
];

/// What is wrong, and the text in place of the right one of these bytes.
type Change = (&'static str, fn(&[u8], &str) -> String);

/// With lines and without.
const WHOLE: [Change; 4] = [
    ("a header", |_, text| format!("query index round computed found mark\n{text}")),
    ("a blank line behind", |_, text| format!("{text}\n")),
    ("the verdict before it", |bytes, text| verdict_lines(&judge(bytes)) + text),
    ("the number of lines behind it", |_, text| format!("{text}{}\n", text.lines().count())),
];

/// With lines alone.
const WITH_LINES: [Change; 4] = [
    ("nothing", |_, _| String::new()),
    ("no end of the last line", |_, text| text.trim_end().to_string()),
    ("all twice", |_, text| text.repeat(2)),
    ("the first line is left out", |_, text| text.split_inclusive('\n').skip(1).collect()),
];

pub fn rows() -> Vec<Row<Sheets>> {
    let formed = |form: Form| {
        of_judging(move |Judging { run, queries }| {
            checks(run, queries).iter().map(form).collect::<String>().into_bytes()
        })
    };
    let changed = |change: fn(&[u8], &str) -> String| {
        having(move |bytes| {
            let text = String::from_utf8(sheet(bytes)).expect("a text");
            change(bytes, &text).into_bytes()
        })
    };
    let every = IN_EVERY_LINE.map(|(what, form)| row(what, formed(form)).differs(&with_lines()));
    let some = IN_SOME_LINES.map(|(what, form, differ)| {
        row(what, formed(form)).differs(&named(differ)).agrees(&named(&[CUT, BEHIND, BASES]))
    });
    let whole = WHOLE.map(|(what, change)| {
        let all = with_numbers(|_| true);
        row(what, changed(change)).differs(&all)
    });
    let with_lines =
        WITH_LINES.map(|(what, change)| row(what, changed(change)).differs(&with_lines()));
    every.into_iter().chain(some).chain(whole).chain(with_lines).collect()
}
