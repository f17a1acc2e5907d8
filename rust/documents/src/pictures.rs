//! The pictures of the documents. Each file of docs/pictures but the figures of growth is made from
//! other files of the repository, and has to be what is made of them.

mod folding;
mod growth;
mod run;
mod sections;
mod svg;

use crate::assignment::Assignment;
use crate::Checked;
use growth::Growth;
use run::Folding;
use sections::Transcript;
use std::fs;
use std::path::Path;

const FOLDER: &str = "docs/pictures";
const ASSIGNMENT: &str = "examples/k.assignment";
const TRANSCRIPT: &str = "examples/k.transcript";
const FIGURES: &str = "docs/pictures/growth.tsv";
/// The case that both files are.
const CASE: &str = "K";

/// The files as they are drawn anew, by their names.
type Drawn = Vec<(&'static str, String)>;

/// The pictures that a document has as a text, indented.
const SHOWN: [(&str, &str); 1] = [("docs/COURSE.md", "folding.txt")];

/// The files are as they are drawn anew, and so are they where a document shows them.
pub fn check(root: &Path) -> Checked {
    let drawn = drawn(root)?;
    for (name, due) in &drawn {
        let path = format!("{FOLDER}/{name}");
        let there = String::from_utf8_lossy(&read(root, &path)?).into_owned();
        if there != *due {
            let line = 1 + there.lines().zip(due.lines()).take_while(|(a, b)| a == b).count();
            return Err(format!("{path}: line {line} is not as drawn (documents draw)"));
        }
    }
    for (document, shown) in SHOWN {
        let text = String::from_utf8_lossy(&read(root, document)?).into_owned();
        let due = drawn.iter().find(|(name, _)| *name == shown).map_or("", |(_, text)| text);
        if due.is_empty() || !text.contains(&indented(due)) {
            return Err(format!("{document} does not show {FOLDER}/{shown}"));
        }
    }
    let names: Vec<&str> = drawn.iter().map(|(name, _)| *name).collect();
    Ok(format!("{} are as drawn anew", names.join(", ")))
}

fn indented(text: &str) -> String {
    text.lines().map(|line| format!("    {line}\n")).collect()
}

/// Writes the files.
pub fn draw(root: &Path) -> Result<(), String> {
    for (name, content) in drawn(root)? {
        let path = format!("{FOLDER}/{name}");
        fs::write(root.join(&path), content).map_err(|error| format!("{path}: {error}"))?;
    }
    Ok(())
}

fn drawn(root: &Path) -> Result<Drawn, String> {
    let folding = of_file(root, ASSIGNMENT, |text| {
        Folding::of(CASE, &Assignment::read(&String::from_utf8_lossy(text))?)
    })?;
    let transcript = of_file(root, TRANSCRIPT, |bytes| Transcript::read(CASE, bytes))?;
    let growth = of_file(root, FIGURES, |text| Growth::read(&String::from_utf8_lossy(text)))?;
    Ok(vec![
        ("folding.svg", written("folding.svg", folding::drawing(&folding))?),
        ("folding.txt", folding::text(&folding)),
        ("sections.svg", written("sections.svg", sections::drawing(&transcript))?),
        ("sections.txt", sections::text(&transcript)),
        ("growth.svg", written("growth.svg", growth::drawing(&growth))?),
    ])
}

/// What a file holds, or what is wrong with it and its name.
fn of_file<T>(
    root: &Path,
    path: &str,
    taken: impl Fn(&[u8]) -> Result<T, String>,
) -> Result<T, String> {
    taken(&read(root, path)?).map_err(|wrong| format!("{path}: {wrong}"))
}

fn read(root: &Path, path: &str) -> Result<Vec<u8>, String> {
    fs::read(root.join(path)).map_err(|error| format!("{path}: {error}"))
}

fn written(name: &str, picture: svg::Picture) -> Result<String, String> {
    picture.written().map_err(|wrong| format!("{FOLDER}/{name}: {wrong}"))
}

/// Elements are hexadecimal, as everywhere in the course.
fn element(value: u64) -> String {
    format!("{value:x}")
}

/// With a comma between.
fn listed<T>(values: &[T], shown: impl Fn(&T) -> String) -> String {
    values.iter().map(shown).collect::<Vec<_>>().join(", ")
}

/// A noun with an s unless there is one.
fn counted(count: usize, noun: &str) -> String {
    format!("{count} {noun}{}", if count == 1 { "" } else { "s" })
}
