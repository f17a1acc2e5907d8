//! A sheet beside the verdict on the same bytes: there are lines where the verdict is to accept or
//! names a round check, and the check that it names is the first that fails.

use super::{Bytes, Sheets};
use crate::answer::ROUND_CHECK_FAILS;
use crate::compare::lists::show_list;
use crate::compare::{compare, compare_on_threads, Comparison, Show, Sides};
use crate::protocol::places_of_checks;
use crate::sheet::LINE_LENGTH;
use crate::transcript::{read, Judging};

const VERDICT_AND_SHEET: Sides = ["verdict", "sheet"];

pub fn comparisons(sheets: &Sheets, inputs: &[Bytes]) -> [Comparison; 2] {
    let Sheets { sheet, program, judges, .. } = sheets;
    [
        compare(
            "sheet, beside the verdict",
            inputs.to_vec(),
            VERDICT_AND_SHEET,
            |bytes| {
                let answer = (judges.judge)(bytes);
                Some(of_verdict(bytes, answer.number, [answer.place, answer.round]))
            },
            |bytes| of_sheet(&sheet(bytes)),
        ),
        compare_on_threads(
            "sheet program, beside the verdict",
            inputs,
            VERDICT_AND_SHEET,
            |bytes| {
                let [number, place, round] = numbers_of(&(judges.program)(bytes));
                Some(of_verdict(bytes, number.unwrap_or(u64::MAX), [place, round]))
            },
            |bytes| of_sheet(&program(bytes)),
        ),
    ]
}

/// A query and a round.
type Place = [u64; 2];

/// What a verdict and a sheet both tell.
#[derive(PartialEq)]
struct Told {
    has_lines: bool,
    /// The query, its index and the round of each check.
    checks: Vec<[u64; 3]>,
    /// The first check whose mark says that it fails, and the first whose values differ.
    failing: [Option<Place>; 2],
}

impl Show for Told {
    fn show(&self) -> String {
        let Told { has_lines, checks, failing } = self;
        let lines = if *has_lines { "lines" } else { "no lines" };
        let checks = show_list(checks.iter().map(|check| format!("{check:?}")));
        format!("{lines}, failing at {failing:?}, checks: {checks}")
    }
}

/// Of bytes that cannot be read there are no checks to tell, whatever the verdict is.
fn of_verdict(bytes: &[u8], number: u64, place: [Option<u64>; 2]) -> Told {
    let has_lines = [0, ROUND_CHECK_FAILS].contains(&number);
    let checks = match (has_lines, read(bytes)) {
        (true, Ok(Judging { run, queries })) => places_of_checks(run.parameters, &queries),
        _ => Vec::new(),
    };
    let failing = match (number, place) {
        (ROUND_CHECK_FAILS, [Some(query), Some(round)]) => Some([query, round]),
        _ => None,
    };
    Told { has_lines, checks, failing: [failing; 2] }
}

/// Number, place and round of what the judging program prints, as far as they are there.
fn numbers_of(text: &[u8]) -> [Option<u64>; 3] {
    let text = String::from_utf8_lossy(text);
    let line = text.lines().nth(1).unwrap_or_default();
    let mut words = line.split(' ').skip(1);
    [(); 3].map(|()| words.next()?.parse().ok())
}

/// Nothing, if these are not lines of the right widths.
fn of_sheet(sheet: &[u8]) -> Option<Told> {
    let lines: Option<Vec<Line>> = sheet.chunks(LINE_LENGTH).map(Line::of).collect();
    let lines = lines?;
    let first = |fails: fn(&Line) -> bool| {
        let found = lines.iter().find(|line| fails(line));
        found.map(|line| [line.check[0], line.check[2]])
    };
    let failing = [first(|line| line.mark == "no"), first(|line| line.values[0] != line.values[1])];
    let checks = lines.iter().map(|line| line.check).collect();
    Some(Told { has_lines: !lines.is_empty(), checks, failing })
}

/// The columns of a line.
struct Line<'a> {
    check: [u64; 3],
    values: [&'a str; 2],
    mark: &'a str,
}

impl Line<'_> {
    fn of(line: &[u8]) -> Option<Line<'_>> {
        let text = std::str::from_utf8(line).ok()?.strip_suffix('\n')?;
        let number = |start, end| text.get(start..end)?.trim_start().parse().ok();
        let check = [number(0, 5)?, number(6, 14)?, number(15, 18)?];
        let values = [text.get(19..35)?, text.get(36..52)?];
        let mark = text.get(53..55)?;
        (line.len() == LINE_LENGTH).then_some(Line { check, values, mark })
    }
}
