//! The lines of verdicts, in the form of the program `judge`, with the file's name last.

use razgwilh::{Accepted, Refusal};
use std::ffi::OsStr;
use std::fmt::Write;

pub const HEADER: &str = "answer number place round reads file";

pub type Verdict = Result<Accepted, Refusal>;

/// The line of a verdict on a file, without its end.
pub fn line(verdict: &Verdict, file: &OsStr) -> String {
    let name = shown(file);
    match verdict {
        Ok(Accepted { reads }) => format!("accepted 0 - - {reads} {name}"),
        Err(Refusal { cause, place, round, reads }) => {
            let (place, round) = (position(*place), position(*round));
            format!("refused {} {place} {round} {reads} {name}", cause.number())
        }
    }
}

fn position(position: Option<u64>) -> String {
    position.map_or("-".to_string(), |number| number.to_string())
}

/// A name on one line, whatever it holds: a backslash, a character that does not print and a
/// byte that is not UTF-8 are escaped. Different names are shown differently.
pub fn shown(name: &OsStr) -> String {
    let mut shown = String::new();
    for chunk in name.as_encoded_bytes().utf8_chunks() {
        for character in chunk.valid().chars() {
            match character {
                '\'' | '"' => shown.push(character),
                _ => shown.extend(character.escape_debug()),
            }
        }
        for byte in chunk.invalid() {
            write!(shown, "\\x{byte:02x}").expect("a string takes everything");
        }
    }
    shown
}

#[cfg(test)]
mod tests {
    use super::*;
    use std::os::unix::ffi::OsStrExt;

    #[test]
    fn names_cannot_make_a_line() {
        let shown = |bytes: &[u8]| super::shown(OsStr::from_bytes(bytes));
        assert_eq!(shown(b"a\naccepted 0 - - 4 b"), r"a\naccepted 0 - - 4 b");
        assert_eq!(
            shown("\r\u{1b}[2K\u{202e}\u{2028}\u{85}".as_bytes()),
            r"\r\u{1b}[2K\u{202e}\u{2028}\u{85}"
        );
        assert_eq!(shown(b"\xffa\xc3"), r"\xffa\xc3");
        assert_eq!(shown(br"a\nb"), r"a\\nb");
        assert_eq!(shown("it's \"gut\" größer".as_bytes()), "it's \"gut\" größer");
    }
}
