//! Assignments of the course, in the form that docs/COURSE.md describes, from any bytes. What
//! their numbers are good for is the library's to say.

use crate::lines::shown;
use std::ffi::OsStr;
use std::fmt::{self, Display, Formatter};
use std::os::unix::ffi::OsStrExt;

/// How many bytes an assignment has at most. A word of 2^20 numbers has fewer, however they are
/// written, where one white space stands behind each.
pub const LONGEST: usize = 1 << 25;

/// How many numbers a name has at most: those of the largest word.
const MOST_NUMBERS: usize = 1 << 20;

pub struct Assignment {
    pub k: usize,
    pub rate: usize,
    pub step: usize,
    pub offset: u64,
    pub basis: Vec<u64>,
    pub challenges: Vec<u64>,
    pub queries: Vec<u64>,
    pub given: Given,
    lines: Vec<(Name, usize)>,
}

/// The word, or the coefficients of the polynomial whose values it has.
pub enum Given {
    Coefficients(Vec<u64>),
    Word(Vec<u64>),
}

/// The names of an assignment, each there once; of the last two only one.
#[derive(Clone, Copy, Debug, PartialEq, Eq)]
pub enum Name {
    K,
    Rate,
    Step,
    Offset,
    Basis,
    Challenges,
    Queries,
    Coefficients,
    Word,
}

use Name::*;

impl Name {
    const ALL: [Name; 9] = [K, Rate, Step, Offset, Basis, Challenges, Queries, Coefficients, Word];

    fn of(token: &[u8]) -> Option<Name> {
        Name::ALL.into_iter().find(|name| name.text().as_bytes() == token)
    }

    fn text(self) -> &'static str {
        match self {
            K => "k",
            Rate => "R",
            Step => "eta",
            Offset => "offset",
            Basis => "basis",
            Challenges => "challenges",
            Queries => "queries",
            Coefficients => "coefficients",
            Word => "word",
        }
    }

    /// Whether no assignment has both.
    fn excludes(self, other: Name) -> bool {
        let gives_word = |name| matches!(name, Coefficients | Word);
        self == other || gives_word(self) && gives_word(other)
    }
}

impl Display for Name {
    fn fmt(&self, f: &mut Formatter) -> fmt::Result {
        f.write_str(self.text())
    }
}

/// What is wrong with an assignment, and in which line, where one is to blame.
#[derive(Debug)]
pub struct Mistake {
    line: Option<usize>,
    what: String,
}

impl Display for Mistake {
    fn fmt(&self, f: &mut Formatter) -> fmt::Result {
        if let Some(line) = self.line {
            write!(f, "line {line}: ")?;
        }
        f.write_str(&self.what)
    }
}

/// A name, its line, from 1, and its numbers.
struct Item {
    name: Name,
    line: usize,
    numbers: Vec<u64>,
}

impl Assignment {
    pub fn read(bytes: &[u8]) -> Result<Assignment, Mistake> {
        if bytes.len() > LONGEST {
            return Err(Mistake { line: None, what: format!("over {LONGEST} bytes") });
        }
        let mut items = Vec::new();
        for (place, bytes) in bytes.split(|byte| *byte == b'\n').enumerate() {
            let line = place + 1;
            take_line(&mut items, line, bytes)
                .map_err(|what| Mistake { line: Some(line), what })?;
        }
        Assignment::of(items)
    }

    fn of(mut items: Vec<Item>) -> Result<Assignment, Mistake> {
        Ok(Assignment {
            lines: items.iter().map(|item| (item.name, item.line)).collect(),
            k: one(&mut items, K)? as usize,
            rate: one(&mut items, Rate)? as usize,
            step: one(&mut items, Step)? as usize,
            offset: one(&mut items, Offset)?,
            basis: list(&mut items, Basis)?,
            challenges: list(&mut items, Challenges)?,
            queries: list(&mut items, Queries)?,
            given: match list(&mut items, Coefficients) {
                Ok(coefficients) => Given::Coefficients(coefficients),
                Err(_) => Given::Word(list(&mut items, Word)?),
            },
        })
    }

    /// The line of a name; of `Coefficients` and `Word`, that of the one that is there.
    pub fn line(&self, name: Name) -> Option<usize> {
        self.lines.iter().find(|(other, _)| other.excludes(name)).map(|(_, line)| *line)
    }
}

/// A line: a name and numbers, or numbers of the name above, or neither; then a comment or none.
fn take_line(items: &mut Vec<Item>, line: usize, bytes: &[u8]) -> Result<(), String> {
    let bytes = bytes.strip_suffix(b"\r").unwrap_or(bytes);
    let front = bytes.split(|byte| *byte == b'#').next().unwrap_or(bytes);
    let tokens = front.split(|byte| b" \t".contains(byte)).filter(|token| !token.is_empty());
    let mut tokens = tokens.peekable();
    if let Some(token) = tokens.next_if(|token| !token[0].is_ascii_digit()) {
        let name = Name::of(token).ok_or_else(|| format!("no such name: {}", excerpt(token)))?;
        begin(items, name, line)?;
    }
    tokens.try_for_each(|token| take_number(items, token))
}

fn begin(items: &mut Vec<Item>, name: Name, line: usize) -> Result<(), String> {
    if let Some(other) = items.iter().find(|item| item.name.excludes(name)) {
        return Err(format!("{name} beside {} of line {}", other.name, other.line));
    }
    items.push(Item { name, line, numbers: Vec::new() });
    Ok(())
}

fn take_number(items: &mut [Item], token: &[u8]) -> Result<(), String> {
    let number = number(token)?;
    let item = items.last_mut().ok_or("a number before any name")?;
    if item.numbers.len() == MOST_NUMBERS {
        return Err(format!("over {MOST_NUMBERS} numbers of {}", item.name));
    }
    item.numbers.push(number);
    Ok(())
}

fn number(token: &[u8]) -> Result<u64, String> {
    let (digits, base, plain) = match token {
        [b'0', b'x', digits @ ..] => (digits, 16, (1..=16).contains(&digits.len())),
        // With zeros in front it would be octal elsewhere.
        digits => (digits, 10, digits == b"0" || !digits.starts_with(b"0")),
    };
    let digits = str_of(digits, base).filter(|_| plain).ok_or_else(|| {
        let form = "decimal without zeros in front, or 0x and 1 to 16 hexadecimal digits";
        format!("no number: {}; numbers are {form}", excerpt(token))
    })?;
    u64::from_str_radix(digits, base).map_err(|_| format!("not below 2^64: {}", excerpt(token)))
}

/// The digits as text, where they are digits and nothing else.
fn str_of(digits: &[u8], base: u32) -> Option<&str> {
    let text = std::str::from_utf8(digits).ok()?;
    text.chars().all(|digit| digit.is_digit(base)).then_some(text)
}

/// A token as a message has it: on one line, whatever it holds, and not all of a long one.
fn excerpt(token: &[u8]) -> String {
    const ROOM: usize = 40;
    match token.get(..ROOM) {
        Some(front) => format!("{}..", shown(OsStr::from_bytes(front))),
        None => shown(OsStr::from_bytes(token)),
    }
}

fn one(items: &mut Vec<Item>, name: Name) -> Result<u64, Mistake> {
    let line = items.iter().find(|item| item.name == name).map(|item| item.line);
    match list(items, name)?[..] {
        [number] => Ok(number),
        ref numbers => {
            let what = format!("{name} has {} numbers, and takes one", numbers.len());
            Err(Mistake { line, what })
        }
    }
}

fn list(items: &mut Vec<Item>, name: Name) -> Result<Vec<u64>, Mistake> {
    match items.iter().position(|item| item.name == name) {
        Some(place) => Ok(items.swap_remove(place).numbers),
        None if name == Word => {
            Err(Mistake { line: None, what: format!("no {Coefficients} and no {Word}") })
        }
        None => Err(Mistake { line: None, what: format!("no {name}") }),
    }
}

#[cfg(test)]
mod tests {
    use super::*;

    const CASE_K: &str = include_str!("../../../examples/k.assignment");

    fn mistake(bytes: &[u8]) -> String {
        Assignment::read(bytes).err().expect("a mistake").to_string()
    }

    #[test]
    fn every_byte_may_be_any_other() {
        for place in 0..CASE_K.len() {
            for byte in 0..=u8::MAX {
                let mut bytes = CASE_K.as_bytes().to_vec();
                bytes[place] = byte;
                if let Err(mistake) = Assignment::read(&bytes) {
                    let said = mistake.to_string();
                    assert!(said.chars().all(|c| !c.is_control()), "{said}");
                    assert!(mistake.line.is_some() || said.starts_with("no "), "{said}");
                }
            }
        }
    }

    #[test]
    fn numbers_are_read_as_they_are_meant() {
        let numbers: [(&[u8], u64); 6] = [
            (b"0", 0),
            (b"0x0", 0),
            (b"18446744073709551615", u64::MAX),
            (b"0xffffFFFFffffFFFF", u64::MAX),
            (b"0x000000000000000B", 11),
            (b"10", 10),
        ];
        for (token, due) in numbers {
            assert_eq!(number(token), Ok(due));
        }
        for token in ["-1", "+1", "1_0", "1.0", "\u{661}", "0x+1", "0X1", "ff", "00", "0b1"] {
            let wrong = number(token.as_bytes());
            assert!(wrong.is_err_and(|what| what.starts_with("no number: ")), "{token}");
        }
        assert!(number(b"\xff").is_err());
    }

    #[test]
    fn a_long_token_is_not_shown_whole() {
        let said = mistake(&[b'x'; 1000]);
        assert_eq!(said, format!("line 1: no such name: {}..", "x".repeat(40)));
    }

    /// Each number as long as it can be, on a line that ends in two bytes.
    #[test]
    fn the_largest_word_has_room() {
        let longest = u64::MAX.to_string().len() + "\r\n".len();
        assert!(MOST_NUMBERS * longest + CASE_K.len() < LONGEST);
        let numbers = "0 ".repeat(MOST_NUMBERS);
        let assignment = CASE_K.replace("coefficients", &format!("word {numbers}"));
        assert_eq!(mistake(assignment.as_bytes()), "line 9: over 1048576 numbers of word");
        let assignment = CASE_K.replace("coefficients 0 0 1 ", &format!("word {numbers}"));
        assert!(Assignment::read(assignment.as_bytes()).is_ok());
    }
}
