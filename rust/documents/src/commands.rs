//! The commands that documents show, run in a folder of their own: what they print is what the
//! document has below them.

use crate::markdown::{self, Block};
use crate::Checked;
use std::fs;
use std::os::unix::fs::{symlink, PermissionsExt};
use std::path::{Path, PathBuf};
use std::process::Command;

/// Stands in for `./library`, whose work is done where documents are checked: the static library is
/// there, or it fails.
const LIBRARY: &str = "#!/bin/sh\n[ -f target/staticlib/librazgwilh.a ]\n";

/// Stands in for `./programs`, as the other does for `./library`.
const PROGRAMS: &str = "#!/bin/sh\n[ -x target/bin/judge ] && [ -x target/bin/sheet ]\n";

/// The gate itself is shown and not run.
const GATE: &str = "./test";

/// The languages of blocks.
const LANGUAGES: [&str; 4] = ["sh", "text", "c", "rust,no_run"];

pub fn check(root: &Path) -> Checked {
    let (mut run, mut compared) = (0, 0);
    for document in markdown::documents(root)? {
        let blocks = document.blocks();
        let folder = Folder::new(root)?;
        for (i, block) in blocks.iter().enumerate() {
            let place = |wrong: String| format!("{}, line {}: {wrong}", document.name, block.line);
            fits(block, i.checked_sub(1).map(|i| &blocks[i])).map_err(place)?;
            let gate = block.text.split_whitespace().any(|word| word == GATE);
            if block.language == "sh" && !gate {
                let due = blocks.get(i + 1).filter(|next| next.language == "text");
                folder.run(&block.text, due).map_err(place)?;
                run += 1;
                compared += usize::from(due.is_some());
            }
            folder.keep(block).map_err(place)?;
        }
    }
    match compared {
        0 => Err("no output is compared".into()),
        _ => Ok(format!("{run} blocks of commands run, of {compared} the output compared")),
    }
}

/// Output stands right behind its commands, so that none is left out for another fence.
fn fits(block: &Block, before: Option<&Block>) -> Result<(), String> {
    if !LANGUAGES.contains(&&block.language[..]) {
        return Err(format!("a block of {:?}, which is none of {LANGUAGES:?}", block.language));
    }
    let behind_commands = block.follows && before.is_some_and(|before| before.language == "sh");
    match block.language == "text" && !behind_commands {
        true => Err("output that follows no commands".into()),
        false => Ok(()),
    }
}

/// What is due, where two points in the first line stand for lines that are not shown.
fn compare(printed: &str, due: &Block) -> Result<(), String> {
    let shown = due.text.strip_prefix("..\n").unwrap_or(&due.text);
    if shown == printed {
        return Ok(());
    }
    Err(format!("the commands print\n{printed}and not\n{shown}"))
}

/// A folder in which all of the repository is seen, and which takes what the commands write.
struct Folder(PathBuf);

impl Folder {
    fn new(root: &Path) -> Result<Folder, String> {
        let path = std::env::temp_dir().join(format!("documents.{}", std::process::id()));
        Folder::filled(root, path).map_err(|error| format!("a folder for commands: {error}"))
    }

    fn filled(root: &Path, path: PathBuf) -> std::io::Result<Folder> {
        fs::create_dir(&path)?;
        let folder = Folder(path);
        for entry in fs::canonicalize(root)?.read_dir()?.flatten() {
            symlink(entry.path(), folder.0.join(entry.file_name()))?;
        }
        for (name, script) in [("library", LIBRARY), ("programs", PROGRAMS)] {
            fs::remove_file(folder.0.join(name))?;
            fs::write(folder.0.join(name), script)?;
            fs::set_permissions(folder.0.join(name), fs::Permissions::from_mode(0o755))?;
        }
        Ok(folder)
    }

    /// A program that a document shows, under the name that its first line gives it: `/* k.c: ..`.
    fn keep(&self, block: &Block) -> Result<(), String> {
        let first = block.text.lines().next().unwrap_or("");
        let name = first.strip_prefix("/* ").or(first.strip_prefix("// "));
        let Some((name, _)) = name.and_then(|rest| rest.split_once(':')) else {
            return Ok(());
        };
        let path = self.0.join(name);
        let made = path.parent().map_or(Ok(()), fs::create_dir_all);
        made.and_then(|()| fs::write(&path, &block.text))
            .map_err(|error| format!("{name}: {error}"))
    }

    /// Where output is due, the commands print it, whatever their status; else they succeed.
    fn run(&self, commands: &str, due: Option<&Block>) -> Result<(), String> {
        let output = Command::new("sh")
            .args(["-c", commands])
            .current_dir(&self.0)
            .output()
            .map_err(|error| format!("sh: {error}"))?;
        match due {
            Some(due) => compare(&String::from_utf8_lossy(&output.stdout), due),
            None if output.status.success() => Ok(()),
            None => Err(format!("{}: {}", output.status, String::from_utf8_lossy(&output.stderr))),
        }
    }
}

impl Drop for Folder {
    fn drop(&mut self) {
        let _ = fs::remove_dir_all(&self.0);
    }
}
