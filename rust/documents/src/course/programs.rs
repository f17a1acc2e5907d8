//! The built programs, run on transcripts.

use super::document::{ensure, Held};
use razgwilh::Cause;
use std::fmt::{self, Display, Formatter};
use std::io::Write;
use std::path::{Path, PathBuf};
use std::process::{Command, Output, Stdio};
use std::thread;

pub struct Programs {
    root: PathBuf,
}

impl Programs {
    pub fn of(root: &Path) -> Programs {
        Programs { root: root.into() }
    }

    /// The line that judge prints below its header.
    pub fn judge(&self, bytes: &[u8]) -> Held<Line> {
        let said = self.run("target/bin/judge", bytes)?;
        match said.lines().collect::<Vec<_>>()[..] {
            ["answer number place round reads", line] => Line::of(line),
            _ => Err(format!("judge prints {said:?}").into()),
        }
    }

    pub fn sheet(&self, bytes: &[u8]) -> Held<String> {
        self.run("target/bin/sheet", bytes)
    }

    fn run(&self, program: &str, bytes: &[u8]) -> Held<String> {
        let mut command = Command::new(self.root.join(program));
        let begun = command.stdin(Stdio::piped()).stdout(Stdio::piped()).spawn();
        let mut child = begun.map_err(|error| format!("{program}: {error}"))?;
        let mut input = child.stdin.take().ok_or("a program without standard input")?;
        let output = thread::scope(|scope| {
            // A program may end before it has read all; then nobody wants the rest.
            scope.spawn(move || input.write_all(bytes).ok());
            child.wait_with_output()
        });
        Ok(String::from_utf8(output?.stdout)?)
    }

    /// The tool with these arguments, as the shell takes them, in the repository's folder. Its
    /// standard input comes from the command before it.
    pub fn tool(&self, before: &str, arguments: &str) -> Held<Output> {
        let command = format!("{before} | rust/target/release/razgwilh {arguments}");
        Ok(Command::new("sh").current_dir(&self.root).args(["-c", &command]).output()?)
    }

    /// The tool ends with exit status 0, 1 and 2 where it has these arguments.
    pub fn end_in_turn(&self, before: &str, commands: [&str; 3]) -> Held {
        for (due, arguments) in (0..).zip(commands) {
            let status = self.tool(before, arguments)?.status;
            let ended = status.code() == Some(due);
            ensure(ended, format!("razgwilh {arguments}: {status}, not {due}"))?;
        }
        Ok(())
    }
}

/// A line of judge.
#[derive(Clone, PartialEq, Eq)]
pub struct Line {
    text: String,
    pub number: u64,
    pub place: Option<u64>,
    pub round: Option<u64>,
    pub reads: u64,
}

impl Line {
    fn of(text: &str) -> Held<Line> {
        let [_, number, place, round, reads] = text.split(' ').collect::<Vec<_>>()[..] else {
            return Err(format!("judge prints the line {text}").into());
        };
        let (number, reads) = (number.parse()?, reads.parse()?);
        let (place, round) = (place.parse().ok(), round.parse().ok());
        Ok(Line { text: text.into(), number, place, round, reads })
    }

    /// `` `refused 11 1 0 4`: number 11 (a round check fails) ``
    pub fn with_cause(&self) -> String {
        format!("{self}: {}", self.named())
    }

    /// `number 11 (a round check fails)`
    pub fn named(&self) -> String {
        format!("number {} ({})", self.number, cause(self.number))
    }

    /// `11: a round check fails`
    pub fn cell(&self) -> String {
        format!("{}: {}", self.number, cause(self.number))
    }
}

/// As the course quotes it: `` `refused 11 1 0 4` ``.
impl Display for Line {
    fn fmt(&self, f: &mut Formatter) -> fmt::Result {
        write!(f, "`{}`", self.text)
    }
}

/// The cause of a number in words.
pub fn cause(number: u64) -> &'static str {
    match number {
        0 => "accepted",
        _ => Cause::of(number).map_or("no cause", Cause::words),
    }
}
