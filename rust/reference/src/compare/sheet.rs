//! The comparisons of the marking sheet: what the library writes, what the program prints, and how
//! both go with the verdicts on the same bytes.

mod inputs;
mod lending;
mod verdict;

use super::program::{printed, Printed};
use super::transcript::bytes::Bytes;
use super::transcript::tally::Tally;
use super::transcript::{self, Compared, Judges};
use super::{compare, compare_on_threads, library, Comparison, Fixed, Sides};
use super::{PAPER_AND_LIBRARY, PAPER_AND_PROGRAM, REFERENCE_AND_LIBRARY, REFERENCE_AND_PROGRAM};
use crate::cases;
use crate::compare::operation::Setting;
use crate::sheet::{sheet, sheet_of_program, LINE_LENGTH};
use crate::transcript::transcript;
use inputs::Sort;

type Sheet = Box<dyn Fn(&[u8]) -> Vec<u8> + Sync>;
type SheetInto = Box<dyn Fn(&[u8], &mut [u8]) -> u64 + Sync>;

/// What is under test: the sheet of the library, the program, and the judges beside them.
pub struct Sheets {
    /// Gives the whole sheet.
    sheet: Sheet,
    /// Takes the list that it is written to as well, and gives its length.
    sheet_into: SheetInto,
    /// Takes what the program reads and gives what it prints.
    program: Sheet,
    judges: Judges,
}

impl Sheets {
    /// Those of the verified library, and the verified programs.
    pub fn razgwilh() -> Sheets {
        Sheets {
            sheet: Box::new(library::sheet),
            // Nothing says that bytes lie at an even place: these do not.
            sheet_into: Box::new(|bytes, list| {
                let lent = [&[0xa5], bytes].concat();
                library::sheet_into(&lent[1..], list)
            }),
            program: Box::new(|bytes| printed("sheet", bytes)),
            judges: Judges::razgwilh(),
        }
    }
}

/// How much is compared.
pub struct Amounts {
    /// Of the byte strings that are judged as well.
    pub judged: transcript::Amounts,
    /// At most so many of these of one sort.
    pub most: usize,
    /// The largest dimension of all runs that are damaged.
    pub damaged: u64,
    /// The largest dimension of runs with every number of rounds, for each step.
    pub rounds: [u64; 3],
    /// Settings with as many queries as there may be.
    pub longest: &'static [Setting],
}

/// The amounts that the program of this package takes. The first of the longest settings has as
/// many rounds as the program can print, and the second has as many as there may be.
pub const FULL: Amounts = Amounts {
    judged: transcript::Amounts {
        turns: 4,
        largest_k: 5,
        large: 9..=11,
        largest: &[[13, 2, 1], [14, 1, 2], [15, 3, 3], [16, 6, 3]],
        long: transcript::FULL.long,
    },
    most: 200,
    damaged: 7,
    rounds: [19, 13, 13],
    longest: &[[11, 1, 1], [20, 1, 1]],
};

/// Runs all comparisons.
pub fn comparisons(sheets: &Sheets, amounts: &Amounts) -> Compared {
    of_sorts(sheets, inputs::sorts(amounts))
}

/// No byte string is compared twice, but for those of table A, beside the verdict on it, and for
/// what else is asked of the library about some of them.
fn of_sorts(sheets: &Sheets, sorts: impl Iterator<Item = Sort>) -> Compared {
    let mut tally = Tally::default();
    let (mut comparisons, mut all) = (Vec::new(), Vec::new());
    for (name, inputs) in sorts {
        let inputs = tally.only_new(inputs);
        comparisons.extend(both(sheets, name, &inputs));
        all.extend(inputs);
    }
    comparisons.extend(verdict::comparisons(sheets, &all));
    comparisons.extend(of_the_library(sheets, all.into_iter().step_by(2).collect()));
    comparisons.extend(table_a(sheets));
    Compared { comparisons, table: tally.text("sheets") }
}

/// The names of the comparisons of the library and of the program. There are few, and they live
/// as long as the program.
fn names(what: &str) -> [&'static str; 2] {
    ["sheet", "sheet program"].map(|of| &*format!("{of}, {what}").leak())
}

/// Compares the library, with lists that are as long as the sheet, and the program.
fn both(sheets: &Sheets, what: &str, inputs: &[Bytes]) -> [Comparison; 2] {
    let [library, program] = names(what);
    let of_library = lending::compared(sheets, library, lending::longer(inputs, &[0]));
    [of_library, of_program(sheets, program, inputs)]
}

fn of_program(sheets: &Sheets, name: &'static str, inputs: &[Bytes]) -> Comparison {
    compare_on_threads(
        name,
        inputs,
        REFERENCE_AND_PROGRAM,
        |bytes| Printed(sheet_of_program(bytes)),
        |bytes| Printed((sheets.program)(bytes)),
    )
}

/// How much longer than the sheet a list is that the sheet fits into. The rest of it is left.
const MORE: [isize; 5] = [1, 8, 55, 56, 1_000];

/// How much it is for one that the sheet does not fit into. All of it is left.
const LESS: [isize; 6] = [-1, -2, -55, -56, -57, -LONGEST_SHEET];

/// As many lines as there may be: 256 queries in 19 rounds.
const LONGEST_SHEET: isize = 256 * 19 * LINE_LENGTH as isize;

/// What is asked of the library alone about some of the byte strings.
fn of_the_library(sheets: &Sheets, some: Vec<Bytes>) -> [Comparison; 3] {
    let lists =
        |name, longer: &[isize]| lending::compared(sheets, name, lending::longer(&some, longer));
    [
        lists("sheet, longer lists", &MORE),
        lists("sheet, lists that are too short", &LESS),
        compare(
            "sheet, safe calls",
            some.clone(),
            REFERENCE_AND_LIBRARY,
            |bytes| Printed(sheet(bytes)),
            |bytes| Printed((sheets.sheet)(bytes)),
        ),
    ]
}

// Table A.

fn table_a(sheets: &Sheets) -> [Comparison; 2] {
    let [library, program] = names("cases G to L of table A");
    [
        case(library, PAPER_AND_LIBRARY, &sheets.sheet),
        case(program, PAPER_AND_PROGRAM, &sheets.program),
    ]
}

fn case(name: &'static str, sides: Sides, given: &Sheet) -> Comparison {
    let cases = cases::sheets();
    let bytes = cases.iter().map(|(run, queries, _)| transcript(run, queries));
    let cases: Vec<(Bytes, &str)> = bytes.zip(cases.iter().map(|case| case.2)).collect();
    let due = |Fixed(bytes): &Fixed<Bytes>| {
        let case = cases.iter().find(|case| case.0 == *bytes);
        let (_, text) = case.expect("a case of these bytes");
        Printed(text.as_bytes().to_vec())
    };
    let inputs = cases.iter().map(|case| Fixed(case.0.clone()));
    compare(name, inputs, sides, due, |Fixed(bytes)| Printed(given(bytes)))
}

/// Each comparison is shown to fail for a library and for a program that is wrong.
#[cfg(test)]
mod tests;
