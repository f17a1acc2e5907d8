//! The documents, as far as the checks look at them: lines, and the blocks of code between fences.

use std::fs;
use std::path::Path;

pub struct Document {
    /// Its path below the repository's root.
    pub name: String,
    pub lines: Vec<Line>,
}

pub struct Line {
    pub text: String,
    pub part: Part,
}

#[derive(Clone, Copy, PartialEq)]
pub enum Part {
    Prose,
    Table,
    /// Code, or a fence around it.
    Code,
}

/// What stands between two fences.
pub struct Block {
    /// The word behind the first fence.
    pub language: String,
    /// Of the first fence, from 1.
    pub line: usize,
    pub text: String,
    /// Nothing but empty lines stands between this block and the one before.
    pub follows: bool,
}

impl Document {
    pub fn new(name: &str, text: &str) -> Document {
        let mut inside = false;
        let lines = text.lines().map(|text| {
            let fence = text.trim_start().starts_with("```");
            let part = match text.trim_start() {
                _ if fence || inside => Part::Code,
                start if start.starts_with('|') => Part::Table,
                _ => Part::Prose,
            };
            inside ^= fence;
            Line { text: text.to_owned(), part }
        });
        Document { name: name.to_owned(), lines: lines.collect() }
    }

    /// All of it, each stretch of white space as one space.
    pub fn words(&self) -> String {
        let words: Vec<&str> = self.lines.iter().flat_map(|l| l.text.split_whitespace()).collect();
        words.join(" ")
    }

    pub fn blocks(&self) -> Vec<Block> {
        let mut blocks: Vec<Block> = Vec::new();
        let (mut open, mut follows) = (false, false);
        for (i, line) in self.lines.iter().enumerate() {
            match (line.text.trim_start().strip_prefix("```"), blocks.last_mut()) {
                (Some(_), Some(_)) if open => (open, follows) = (false, true),
                (Some(language), _) => {
                    let language = language.to_owned();
                    blocks.push(Block { language, line: i + 1, text: String::new(), follows });
                    open = true;
                }
                (None, Some(block)) if open => block.text += &format!("{}\n", line.text),
                (None, _) => follows &= line.text.trim().is_empty(),
            }
        }
        blocks
    }
}

/// Every document of the repository: those at its root and those in docs/.
pub fn documents(root: &Path) -> Result<Vec<Document>, String> {
    let mut names = Vec::new();
    for folder in ["", "docs/"] {
        let entries =
            fs::read_dir(root.join(folder)).map_err(|error| format!("{folder}: {error}"))?;
        let found = entries.flatten().filter_map(|entry| entry.file_name().into_string().ok());
        names.extend(
            found.filter(|name| name.ends_with(".md")).map(|name| format!("{folder}{name}")),
        );
    }
    names.sort();
    names.iter().map(|name| Ok(Document::new(name, &read(root, name)?))).collect()
}

pub fn read(root: &Path, name: &str) -> Result<String, String> {
    fs::read_to_string(root.join(name)).map_err(|error| format!("{name}: {error}"))
}

#[cfg(test)]
mod tests {
    use super::*;

    #[test]
    fn blocks_are_found_with_what_follows() {
        let document =
            Document::new("", "a\n```sh\nx\ny\n```\n\n```text\n| z\n```\nb\n```c\n```\n| c\n");
        let blocks = document.blocks();
        let found: Vec<_> =
            blocks.iter().map(|b| (&b.language[..], &b.text[..], b.follows)).collect();
        assert_eq!(found, [("sh", "x\ny\n", false), ("text", "| z\n", true), ("c", "", false)]);
        assert!(document.lines[7].part == Part::Code && document.lines[12].part == Part::Table);
    }
}
