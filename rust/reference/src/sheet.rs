//! The marking sheet: a line for each round check of a transcript, also for those behind one that
//! fails.

use crate::protocol::{checks, Check};
use crate::transcript::{read, Judging, LARGEST_INPUT};

/// How many bytes a line has, its line feed among them.
pub const LINE_LENGTH: usize = 56;

/// The sheet of a transcript, which may have as many bytes as it likes. One that is refused for
/// another cause than a round check has no lines.
pub fn sheet(bytes: &[u8]) -> Vec<u8> {
    match read(bytes) {
        Ok(Judging { run, queries }) => lines(&checks(&run, &queries)),
        Err(_) => Vec::new(),
    }
}

/// What the program prints: nothing for more bytes than the judging one takes, whatever they hold.
pub fn sheet_of_program(bytes: &[u8]) -> Vec<u8> {
    match bytes.len() {
        ..=LARGEST_INPUT => sheet(bytes),
        _ => Vec::new(),
    }
}

/// The lines of these checks, in their order.
pub fn lines(checks: &[Check]) -> Vec<u8> {
    checks.iter().map(line).collect::<String>().into_bytes()
}

fn line(check: &Check) -> String {
    let Check { query, index, round, computed, found } = check;
    let mark = if check.passes() { "ok" } else { "no" };
    format!("{query:5} {index:8} {round:3} {computed:016x} {found:016x} {mark}\n")
}

#[cfg(test)]
mod tests;
