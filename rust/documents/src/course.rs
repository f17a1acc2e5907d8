//! The course, docs/COURSE.md: what it prints is compared with what the library computes, with
//! what the programs print and with the shipped files.

/// The document says these phrases at this place, in which names in braces stand for what was
/// computed.
macro_rules! says {
    ($course:expr, $place:expr; $($phrase:literal)+) => {
        [$(format!($phrase)),+].iter().try_for_each(|phrase| $course.document.says($place, phrase))
    };
}

/// A row of a table, its cells with names in braces too.
macro_rules! row {
    ($($cell:literal),+ $(,)?) => {
        vec![$(format!($cell)),+]
    };
}

mod cases;
mod document;
mod exercise_10;
mod exercise_15;
mod exercises_11_to_14;
mod exercises_1_to_4;
mod exercises_5_to_9;
mod fault_table;
mod faults;
mod field;
mod files;
mod folding;
mod judging;
mod marking;
mod pair;
mod plan;
mod programs;
mod rounds;
mod sheets;
mod text;
mod transcript;

use crate::coset::Coset;
use crate::{markdown, Checked};
use cases::{Case, Sections};
use document::{ensure, Document, Held};
use programs::{Line, Programs};
use std::fs;
use std::path::{Path, PathBuf};

/// A part of the check, and what its failure begins with.
type Part = (&'static str, fn(&Course) -> Held);

const PARTS: [Part; 18] = [
    ("plan", plan::check),
    ("files", files::check),
    ("sections 3 and 4", field::check),
    ("sections 5 and 6", folding::check),
    ("sections 7 and 8", rounds::check),
    ("sections 9 and 10", judging::check),
    ("section 11", faults::check),
    ("table of section 11", fault_table::check),
    ("section 12", transcript::check),
    ("exercises 1 to 4", exercises_1_to_4::check),
    ("exercises 5 to 9", exercises_5_to_9::check),
    ("exercise 10", exercise_10::check),
    ("exercises 11 to 14", exercises_11_to_14::check),
    ("exercise 15", exercise_15::check),
    ("sections 15 and 16", marking::check),
    ("section 17", sheets::check),
    ("numbers and causes", plan::check_causes),
    ("exercises and answers", plan::check_all_held),
];

pub fn check(root: &Path) -> Checked {
    let course = Course::of(root).map_err(|wrong| wrong.to_string())?;
    let failed =
        |(part, check): &Part| check(&course).err().map(|wrong| format!("{part}: {wrong}"));
    let failures: Vec<String> = PARTS.iter().filter_map(failed).collect();
    match failures.is_empty() {
        true => Ok(format!("{} phrases and cells of tables as computed", course.document.held())),
        false => Err(failures.join("\n    ")),
    }
}

/// The document, and what it is compared with.
pub struct Course {
    root: PathBuf,
    document: Document,
    programs: Programs,
    case_k: Case,
    exercise_5: Case,
    exercise_7: Case,
    exercise_15: Case,
}

impl Course {
    fn of(root: &Path) -> Held<Course> {
        let case = |name: &str| {
            Case::of_assignment(&markdown::read(root, &format!("examples/{name}.assignment"))?)
        };
        Ok(Course {
            root: root.into(),
            document: Document::of(&markdown::read(root, "docs/COURSE.md")?),
            programs: Programs::of(root),
            case_k: case("k")?,
            exercise_5: case("exercise_05")?,
            exercise_7: case("exercise_07")?,
            exercise_15: case("exercise_15")?,
        })
    }

    /// The line of judge, whose reads are those that section 8 says.
    fn judge(&self, sections: &Sections) -> Held<Line> {
        let line = self.programs.judge(&sections.bytes())?;
        let due = rounds::reads(sections, &line);
        ensure(line.reads == due, format!("{line} has other reads than {due}"))?;
        Ok(line)
    }

    /// The text of a file of the repository.
    fn read(&self, name: &str) -> Held<String> {
        Ok(markdown::read(&self.root, name)?)
    }

    /// The bytes of `examples/NAME.transcript`.
    fn shipped(&self, name: &str) -> Held<Vec<u8>> {
        let name = format!("examples/{name}.transcript");
        Ok(fs::read(self.root.join(&name)).map_err(|error| format!("{name}: {error}"))?)
    }

    /// Case G: case F with the queries 0 and 3.
    fn case_g(&self) -> Case {
        Case {
            rate: 1,
            step: 1,
            coset: Coset::of(0, &[1, 2]),
            challenges: vec![4],
            queries: vec![0, 3],
            word: vec![7, 4, 1, 2],
        }
    }

    /// Case K with the queries that visit every first-layer coset.
    fn case_k_visited(&self) -> Case {
        self.case_k.at(&[0, 2, 4, 6])
    }

    /// Exercise 6, which is case K over another coset, with the queries that visit all.
    fn exercise_6(&self, basis: &[u64]) -> Held<Case> {
        let coset = Coset::of(8, basis);
        Ok(Case { word: coset.encode(&[0, 0, 1])?, coset, ..self.case_k_visited() })
    }

    /// Case L: case K with entry 0 of layer 1 made 3.
    fn case_l(&self, queries: &[u64]) -> Held<Sections> {
        let mut sent = self.case_k.at(queries).proved()?;
        sent.section(6)[0] = 3;
        Ok(sent)
    }
}
