//! What every document keeps to: the width of its lines, words that strangers know, links that
//! lead somewhere, files and names that are there, and causes beside their own number.

use crate::markdown::{self, Document, Part};
use crate::Checked;
use razgwilh::Cause;
use std::collections::HashSet;
use std::fs;
use std::path::{Path, PathBuf};

/// Prose and code end before this column; rows of tables may be longer.
const WIDTH: usize = 100;

/// Words that only those who wrote the library would know; in quotation marks they are explained.
const UNEXPLAINED: [&str; 6] = ["buyer", "demand 1", "demand 2", "demand 3", "Demand 3", "Table A"];

/// Words in the names of files that stand for others, as in `crates/NAME/src`.
const PLACEHOLDERS: [&str; 4] = ["NAME", "CRATE", "LABEL", "NN"];

/// The folders at the root that documents name files of.
const FOLDERS: [&str; 7] = ["crates/", "docs/", "examples/", "include/", "rust/", "tests/", ".ci/"];

pub fn check(root: &Path) -> Checked {
    let documents = markdown::documents(root)?;
    let mut wrong = Vec::new();
    let known = known_words(root)?;
    let (mut links, mut files, mut causes, mut names) = (0, 0, 0, 0);
    for document in &documents {
        let told = wrong.len();
        check_lines(document, &mut wrong);
        links += check_links(root, document, &mut wrong);
        files += check_files(root, document, &mut wrong);
        causes += check_causes(document, &mut wrong);
        names += check_names(&known, document, &mut wrong);
        for line in &mut wrong[told..] {
            *line = format!("{}: {line}", document.name);
        }
    }
    if !wrong.is_empty() {
        return Err(wrong.join("\n    "));
    }
    let count = documents.len();
    Ok(format!("{count} documents, {links} links, {files} files, {names} names, {causes} causes"))
}

fn check_lines(document: &Document, wrong: &mut Vec<String>) {
    for (i, line) in document.lines.iter().enumerate() {
        let width = line.text.chars().count();
        if width >= WIDTH && line.part != Part::Table {
            wrong.push(format!("line {} has {width} columns", i + 1));
        }
        if line.text.ends_with(char::is_whitespace) {
            wrong.push(format!("line {} ends with white space", i + 1));
        }
    }
    let words = document.words();
    if words.matches('`').count() % 2 == 1 {
        wrong.push("a backtick without another".to_owned());
    }
    let unexplained = |word: &&&str| words.replace(&format!("\"{word}\""), "").contains(**word);
    for word in UNEXPLAINED.iter().filter(unexplained) {
        wrong.push(format!("\"{word}\" is no stranger's word"));
    }
}

/// Each `](TARGET)` is a file, or a heading of this document.
fn check_links(root: &Path, document: &Document, wrong: &mut Vec<String>) -> usize {
    let words = document.words();
    let folder = Path::new(&document.name).parent().unwrap_or(Path::new(""));
    let targets: Vec<&str> = words
        .split("](")
        .skip(1)
        .filter_map(|rest| rest.split_once(')'))
        .map(|(to, _)| to)
        .collect();
    for target in &targets {
        let there = match target.strip_prefix('#') {
            Some(heading) => headings(document).any(|known| known == heading),
            None => root.join(folder).join(target).exists(),
        };
        if !there {
            wrong.push(format!("a link leads to {target}, which is not there"));
        }
    }
    targets.len()
}

/// The headings, as links name them.
fn headings(document: &Document) -> impl Iterator<Item = String> + '_ {
    let lines = document.lines.iter().filter(|line| line.part == Part::Prose);
    lines.filter(|line| line.text.starts_with('#')).map(|line| {
        let heading = line.text.trim_start_matches('#').trim().to_lowercase();
        let kept = heading.chars().filter(|c| c.is_alphanumeric() || " -_".contains(*c));
        kept.map(|c| if c == ' ' { '-' } else { c }).collect()
    })
}

/// Each name between backticks that begins with a folder of the root or with a crate is there.
/// Release notes may name what is gone, as decisions that are superseded may.
fn check_files(root: &Path, document: &Document, wrong: &mut Vec<String>) -> usize {
    if tells_of_the_past(document) {
        return 0;
    }
    let words = document.words();
    let quoted = words.split('`').skip(1).step_by(2);
    let plain = |name: &&str| name.chars().all(|c| c.is_ascii_alphanumeric() || "/._-".contains(c));
    let in_crate = |name: &str| {
        name.split_once('/').is_some_and(|(first, _)| root.join("crates").join(first).is_dir())
    };
    let files = quoted.filter(|name| FOLDERS.iter().any(|f| name.starts_with(f)) || in_crate(name));
    let placeholder = |name: &str| name.split(['/', '.', '_']).any(|w| PLACEHOLDERS.contains(&w));
    let files: Vec<&str> = files.filter(plain).filter(|name| !placeholder(name)).collect();
    for name in files.iter().filter(|name| !there(root, name)) {
        wrong.push(format!("`{name}` is not there"));
    }
    files.len()
}

/// What a build makes, or a file or folder, whose ending may be left off, as in `examples/largest`;
/// in a crate also an edit, as in `field/sum_is_not_or`.
fn there(root: &Path, name: &str) -> bool {
    let endings = ["", ".antt", ".transcript"];
    let mut names: Vec<String> = endings.iter().map(|ending| format!("{name}{ending}")).collect();
    names.extend(endings.iter().map(|ending| format!("crates/{name}{ending}")));
    names.extend(
        name.split_once('/').map(|(own, edit)| format!("crates/{own}/must-fail/{edit}.edit")),
    );
    name.starts_with("rust/target/") || names.iter().any(|name| root.join(name).exists())
}

/// Release notes, decisions and looks back may name what is gone.
fn tells_of_the_past(document: &Document) -> bool {
    let names = ["RELEASE_NOTES.md", "DECISIONS.md", "PORT.md", "DESIGN-PASS.md", "LOOK-BACK.md"];
    names.contains(&document.name.trim_start_matches("docs/"))
}

/// Each name between backticks, as `Element::sum`, `Subspaces.zero` or `rz_fold`, is made of words
/// that stand in code, definitions, tests or the names of files.
fn check_names(known: &HashSet<String>, document: &Document, wrong: &mut Vec<String>) -> usize {
    if tells_of_the_past(document) {
        return 0;
    }
    let words = document.words();
    let quoted = words.split('`').skip(1).step_by(2);
    let names = quoted.filter(|name| name.chars().all(|c| is_in_word(c) || ":.".contains(c)));
    let names: Vec<&str> = names.filter(|name| name.contains(char::is_alphabetic)).collect();
    for name in &names {
        // A word that ends with a stroke is the front of others, as `c_`.
        let whole = |word: &str| !word.is_empty() && !word.ends_with(['_', '-']);
        let unknown = |word: &&str| whole(word) && !known.contains(*word);
        if let Some(word) = name.split([':', '.']).find(unknown) {
            wrong.push(format!("`{name}`: nothing is called {word}"));
        }
    }
    names.len()
}

fn is_in_word(c: char) -> bool {
    c.is_ascii_alphanumeric() || "_-".contains(c)
}

/// The words of all files that are no documents, and of the names of all files.
fn known_words(root: &Path) -> Result<HashSet<String>, String> {
    let mut known = HashSet::new();
    let mut open: Vec<PathBuf> = FOLDERS.iter().map(|folder| root.join(folder)).collect();
    let scripts = ["test", "library", "programs", "install"];
    open.extend(["crates.txt", "README.md"].iter().chain(&scripts).map(|name| root.join(name)));
    while let Some(path) = open.pop() {
        let name = path.file_name().unwrap_or_default().to_string_lossy().into_owned();
        known.extend(name.split('.').map(str::to_owned));
        if path.is_dir() {
            let entries = fs::read_dir(&path).map_err(|e| format!("{}: {e}", path.display()))?;
            let made = |path: &PathBuf| path.ends_with("target") || path.ends_with("out");
            open.extend(entries.flatten().map(|e| e.path()).filter(|path| !made(path)));
        } else if !name.ends_with(".md") {
            let text = String::from_utf8_lossy(&fs::read(&path).unwrap_or_default()).into_owned();
            let words = text.split(|c| !is_in_word(c)).filter(|word| !word.is_empty());
            known.extend(words.map(str::to_owned));
        }
    }
    Ok(known)
}

/// The cause that no number has any more and that no other sentence says.
const RETIRED: (u64, &str) = (16, "a later layer's basis is dependent");

/// Wherever a document says a cause, its number stands near before it or, in parentheses, right
/// behind it: "number 11, a round check fails", "bytes after the last section (3)". And where it
/// says "number 11 (..", the cause of 11 follows.
fn check_causes(document: &Document, wrong: &mut Vec<String>) -> usize {
    let words = document.words();
    let causes = Cause::ALL.iter().map(|cause| (cause.number(), cause.words()));
    let mut count = 0;
    for (number, text) in causes.chain([RETIRED]) {
        let number = number.to_string();
        for (at, _) in words.match_indices(text).filter(|(at, _)| !words[..*at].ends_with("no ")) {
            count += 1;
            let (before, behind) = (last(&words[..at], NEAR), &words[at + text.len()..]);
            let numbered = before.split(|c: char| !c.is_ascii_digit()).any(|word| word == number);
            if !numbered && !behind.starts_with(&format!(" ({number})")) {
                wrong.push(format!("a cause without its number: ..{before}{text}"));
            }
        }
        // Of the lists that the cause of 13 goes on with, a document may say none.
        let cause = text.split(':').next().unwrap_or(text);
        for (at, opened) in words.match_indices(&format!("number {number} (")) {
            if !words[at + opened.len()..].starts_with(cause) {
                wrong.push(format!("\"{opened}\" without its cause: {cause}"));
            }
        }
    }
    count
}

/// How many characters may stand between a number and its cause.
const NEAR: usize = 48;

/// The last so many characters of a text.
fn last(text: &str, count: usize) -> &str {
    text.char_indices().rev().nth(count - 1).map_or(text, |(i, _)| &text[i..])
}

#[cfg(test)]
mod tests {
    use super::*;

    fn wrong_causes(text: &str) -> usize {
        let mut wrong = Vec::new();
        check_causes(&Document::new("", text), &mut wrong);
        wrong.len()
    }

    #[test]
    fn a_cause_has_its_number_near() {
        let right = [
            "11 (a round\ncheck fails)",
            "| 4 | k out of range |",
            "bytes after the last section (3)",
            "no two queries share a first-layer coset",
        ];
        let wrong = ["a round check fails", "14: k out of range (5)", "number 12 (é"];
        assert!(right.iter().all(|text| wrong_causes(text) == 0));
        assert!(wrong.iter().all(|text| wrong_causes(text) == 1));
    }

    #[test]
    fn lines_links_and_words() {
        let mut wrong = Vec::new();
        let wide = format!("| {} |\n{}\n", "x".repeat(120), "y".repeat(WIDTH));
        check_lines(&Document::new("", &wide), &mut wrong);
        assert_eq!(wrong, ["line 2 has 100 columns"]);
        let document = Document::new("", "# A b\n[a](#a-b) [b](#b) \"Table A\" demand\n3");
        check_lines(&document, &mut wrong);
        assert_eq!(check_links(Path::new(""), &document, &mut wrong), 2);
        let due = ["\"demand 3\" is no stranger's word", "a link leads to #b, which is not there"];
        assert_eq!(wrong[1..], due);
    }
}
