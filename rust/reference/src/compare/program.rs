//! The programs, as functions from what they read to what they print.

use super::Show;
use std::io::{ErrorKind, Write};
use std::path::Path;
use std::process::{Child, ChildStdin, Command, Stdio};
use std::thread;

/// Where the programs lie from the folder of this package.
const FOLDER: &str = "../../target/bin";

/// What a program prints if it reads these bytes. One that fails, or that a signal ends, has
/// printed nothing that counts: a text without lines may be due.
pub fn printed(program: &str, bytes: &[u8]) -> Vec<u8> {
    let mut child = started(program);
    let input = child.stdin.take().expect("a pipe to the program");
    // Neither side can wait for the other: all is written while all is read.
    let output = thread::scope(|scope| {
        scope.spawn(|| write(input, bytes));
        child.wait_with_output()
    });
    let output = output.expect("the end of the program");
    match output.status.success() {
        true => output.stdout,
        false => output.status.to_string().into_bytes(),
    }
}

fn started(program: &str) -> Child {
    let folder = Path::new(env!("CARGO_MANIFEST_DIR")).join(FOLDER);
    let child = Command::new(folder.join(program))
        .stdin(Stdio::piped())
        .stdout(Stdio::piped())
        .stderr(Stdio::null())
        .spawn();
    child.unwrap_or_else(|error| panic!("target/bin/{program} does not start: {error}"))
}

/// The program need not read all that it is given: it may stop where there is too much.
fn write(mut input: ChildStdin, bytes: &[u8]) {
    match input.write_all(bytes) {
        Err(error) if error.kind() != ErrorKind::BrokenPipe => {
            panic!("the program cannot be written to: {error}")
        }
        _ => (),
    }
}

/// What a program printed.
#[derive(PartialEq)]
pub struct Printed(pub Vec<u8>);

/// How much of it is shown: of a verdict far more than there should be, of a sheet a few lines.
const SHOWN: usize = 200;

impl Show for Printed {
    fn show(&self) -> String {
        let (shown, hidden) = self.0.split_at(self.0.len().min(SHOWN));
        let shown = format!("\"{}\"", shown.escape_ascii());
        match hidden.len() {
            0 => shown,
            more => format!("{shown} and {more} more bytes"),
        }
    }
}

#[cfg(test)]
mod tests {
    use super::*;

    #[test]
    fn what_is_printed_is_shown() {
        assert_eq!(Printed(b"no\tlines\n".to_vec()).show(), r#""no\tlines\n""#);
        let long = Printed(vec![b'a'; 1_000]).show();
        assert_eq!(long, format!("\"{}\" and 800 more bytes", "a".repeat(200)));
    }
}
