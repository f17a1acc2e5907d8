//! What the documents count: crates, wrong programs, versions.

use crate::markdown::{self, read};
use crate::Checked;
use std::collections::{BTreeMap, BTreeSet};
use std::fs;
use std::path::Path;

pub fn check(root: &Path) -> Checked {
    let crates = crates(root)?;
    let mut due = counted(root, &crates)?;
    due.extend(largest());
    due.extend(crates.keys().map(|name| ("docs/ARCHITECTURE.md", format!("`{name}`"))));
    for (name, phrase) in &due {
        let document = markdown::Document::new(name, &read(root, name)?);
        if !document.words().contains(phrase) {
            return Err(format!("{name} does not say \"{phrase}\""));
        }
    }
    Ok(format!("{} crates, counts and sizes in their places", due.len()))
}

type Phrases = Vec<(&'static str, String)>;

/// What the repository has, and what it is built with.
fn counted(root: &Path, crates: &Crates) -> Result<Phrases, String> {
    let (all, edits) = (crates.len(), edits(root, crates));
    let programs = below(crates, &["judge", "sheet"]).len();
    let version = |package: &str| {
        let manifest = read(root, &format!("rust/{package}/Cargo.toml"))?;
        setting(&manifest, "rust-version").map(str::to_owned)
    };
    let (rust, rust_alone) = (version("reference")?, version("tool")?);
    Ok(vec![
        ("README.md", format!("proves the {programs} crates that the two programs are made of")),
        ("README.md", format!("proves all {all} crates, tries {edits} wrong programs")),
        ("README.md", format!("{} passed, 0 failed", all + edits)),
        (
            "README.md",
            format!("Rust {rust} or newer (`cargo`; for the library alone {rust_alone})"),
        ),
        ("docs/TRUST.md", format!("Every function of the {all} crates")),
        ("docs/TRUST.md", format!("{edits} edits, each a wrong program")),
    ])
}

/// The largest of what there is: k 20, R 1, η 1, 256 queries.
fn largest() -> Phrases {
    let (k, queries) = (20, 256);
    let rounds = razgwilh::rounds(k, 1, 1);
    let bytes = grouped(razgwilh::transcript_length(k, 1, 1, queries) + 1);
    let front = grouped(16 + 8 * (4 + k + rounds + queries));
    let sheet = grouped(56 * queries * rounds);
    let judgings = grouped((1 << (k - 1)) / queries);
    vec![
        ("docs/NUMBERS.md", format!("the first {bytes} bytes of a file get the verdict")),
        ("docs/NUMBERS.md", format!("sections 1 to 4 end within {front} bytes")),
        ("docs/CALLERS.md", format!("256 × {rounds} lines, {sheet} bytes")),
        ("docs/TRUST.md", format!("at k {k} and η 1 it takes {judgings} judgings")),
        ("docs/TRUST.md", format!("at most 256 × {rounds} round checks")),
    ]
}

/// With a comma before each three digits.
fn grouped(number: usize) -> String {
    match number {
        0..1000 => number.to_string(),
        _ => format!("{},{:03}", grouped(number / 1000), number % 1000),
    }
}

/// Each with those that it names.
type Crates = BTreeMap<String, Vec<String>>;

/// The crates of crates.txt: `NAME: ..`, or `NAME staticlib: ..`.
fn crates(root: &Path) -> Result<Crates, String> {
    let list = read(root, "crates.txt")?;
    let lines = list.lines().map(|line| line.split('#').next().unwrap_or(""));
    let named = lines.filter_map(|line| line.split_once(':'));
    Ok(named
        .map(|(name, uses)| {
            let name = name.split_whitespace().next().unwrap_or("");
            (name.to_owned(), uses.split_whitespace().map(str::to_owned).collect())
        })
        .collect())
}

/// These crates and all that they lead to, but for the kit's.
fn below<'a>(crates: &'a Crates, names: &[&'a str]) -> BTreeSet<&'a str> {
    let mut found = BTreeSet::new();
    let mut open = names.to_vec();
    while let Some(name) = open.pop() {
        let Some(uses) = crates.get(name) else { continue };
        if found.insert(name) {
            open.extend(uses.iter().map(String::as_str));
        }
    }
    found
}

fn edits(root: &Path, crates: &Crates) -> usize {
    let folders = crates.keys().map(|name| root.join("crates").join(name).join("must-fail"));
    let entries = folders.filter_map(|folder| fs::read_dir(folder).ok()).flatten().flatten();
    entries.filter(|entry| entry.path().extension().is_some_and(|e| e == "edit")).count()
}

/// The value of `NAME = "VALUE"`.
fn setting<'a>(text: &'a str, name: &str) -> Result<&'a str, String> {
    let line = text.lines().find_map(|line| line.strip_prefix(name)?.strip_prefix(" = \""));
    line.and_then(|rest| rest.strip_suffix('"')).ok_or(format!("no {name}"))
}
