//! docs/COURSE.md, cut into places, and what must stand there.

use std::cell::{Cell, RefCell};
use std::error::Error;
use std::fmt::{self, Display, Formatter};

/// What holds, or what is wrong.
pub type Held<T = ()> = Result<T, Box<dyn Error>>;

/// Holds, or is wrong for this reason.
pub fn ensure(holds: bool, otherwise: impl Into<Box<dyn Error>>) -> Held {
    match holds {
        true => Ok(()),
        false => Err(otherwise.into()),
    }
}

/// A cell of a table that may hold anything.
pub const ANY: &str = "*";

/// How much of the text behind a number is shown.
const EXCERPT: usize = 40;

/// Where something stands. Sections 13 and 14 are cut into exercises and answers.
#[derive(Clone, Copy, Debug, PartialEq, Eq)]
pub enum Place {
    Front,
    Section(usize),
    Exercise(usize),
    Answer(usize),
}

impl Display for Place {
    fn fmt(&self, f: &mut Formatter) -> fmt::Result {
        match self {
            Place::Front => f.write_str("the front"),
            Place::Section(number) => write!(f, "section {number}"),
            Place::Exercise(number) => write!(f, "exercise {number}"),
            Place::Answer(number) => write!(f, "answer {number}"),
        }
    }
}

impl Place {
    /// The place of a line, which may be the first of another one than that of the line before.
    fn of(self, line: &str) -> Place {
        let numbered = |line: &str| line.split_once(". ")?.0.parse().ok();
        if let Some(number) = line.strip_prefix("## ").and_then(numbered) {
            return Place::Section(number);
        }
        match (self, numbered(line)) {
            (Place::Section(13) | Place::Exercise(_), Some(number)) => Place::Exercise(number),
            (Place::Section(14) | Place::Answer(_), Some(number)) => Place::Answer(number),
            _ => self,
        }
    }
}

/// A place, its lines, and the same as one line with single spaces.
pub struct Part {
    pub place: Place,
    pub lines: Vec<String>,
    pub text: String,
    /// Which bytes of the text are held by a check.
    held: RefCell<Vec<bool>>,
}

pub struct Document {
    pub parts: Vec<Part>,
    held: Cell<usize>,
}

pub type Table = Vec<Vec<String>>;

impl Document {
    pub fn of(text: &str) -> Document {
        let mut lines: Vec<(Place, Vec<String>)> = vec![(Place::Front, Vec::new())];
        for line in text.lines() {
            let last = lines.last_mut().expect("the front is there");
            let place = last.0.of(line);
            match place == last.0 {
                true => last.1.push(line.into()),
                false => lines.push((place, vec![line.into()])),
            }
        }
        let parts = lines.into_iter().map(|(place, lines)| Part::of(place, lines)).collect();
        Document { parts, held: Cell::new(0) }
    }

    pub fn part(&self, place: Place) -> Held<&Part> {
        let found = self.parts.iter().find(|part| part.place == place);
        found.ok_or_else(|| format!("there is no {place}").into())
    }

    /// The phrase stands there, once, so that a digit of it that is changed is seen.
    pub fn says(&self, place: Place, phrase: &str) -> Held {
        let phrase = spaced(phrase);
        let part = self.part(place)?;
        match part.places_of(&phrase)[..] {
            [start] => {
                part.hold(start, phrase.len());
                self.count(1);
                Ok(())
            }
            [] => Err(format!("{place} does not say: {phrase}").into()),
            ref places => Err(format!("{place} says {} times: {phrase}", places.len()).into()),
        }
    }

    /// The tables there with this header, each as its rows.
    pub fn tables(&self, place: Place, header: &str) -> Held<Vec<Table>> {
        let found: Vec<_> = self.part(place)?.tables();
        let with_header = |table: &Table| table[0].join(" | ") == header;
        Ok(found.into_iter().filter(with_header).map(|table| table[2..].to_vec()).collect())
    }

    /// The one table there with this header has these rows and no others.
    pub fn rows_are(&self, place: Place, header: &str, due: &[Vec<String>]) -> Held {
        let tables = self.tables(place, header)?;
        let [table] = &tables[..] else {
            return Err(format!("{place} has {} tables: {header}", tables.len()).into());
        };
        self.part(place)?.hold_all(&format!("| {header} |"));
        table.iter().zip(due).try_for_each(|(row, due)| self.row_is(place, row, due))?;
        let (rows, due) = (table.len(), due.len());
        ensure(rows == due, format!("{place} has {rows} rows, not {due}, in: {header}"))
    }

    fn row_is(&self, place: Place, row: &[String], due: &[String]) -> Held {
        let alike = |(cell, due): (&String, &String)| due == ANY || cell == due;
        let holds = row.len() == due.len() && row.iter().zip(due).all(alike);
        let shown = row.join(" | ");
        ensure(holds, format!("{place} has the row: {shown}; due: {}", due.join(" | ")))?;
        self.part(place)?.hold_all(&format!("| {shown} |"));
        self.count(due.iter().filter(|cell| *cell != ANY).count());
        Ok(())
    }

    /// How many phrases and cells of tables were found as they are due.
    pub fn held(&self) -> usize {
        self.held.get()
    }

    pub fn count(&self, more: usize) {
        self.held.set(self.held.get() + more);
    }
}

impl Part {
    fn of(place: Place, lines: Vec<String>) -> Part {
        let text = spaced(&lines.join(" "));
        let held = RefCell::new(vec![false; text.len()]);
        Part { place, lines, text, held }
    }

    /// Where the phrase begins, as whole words: `1 is 4` does not stand in `11 is 4a`.
    fn places_of(&self, phrase: &str) -> Vec<usize> {
        let parts_words = |before: Option<char>, after: Option<char>| {
            let in_word = |side: Option<char>| side.is_some_and(char::is_alphanumeric);
            !(in_word(before) && in_word(after))
        };
        let whole = |start: &usize| {
            let (before, rest) = self.text.split_at(*start);
            let after = &rest[phrase.len()..];
            parts_words(before.chars().next_back(), phrase.chars().next())
                && parts_words(phrase.chars().next_back(), after.chars().next())
        };
        self.text.match_indices(phrase).map(|(start, _)| start).filter(whole).collect()
    }

    fn hold(&self, start: usize, length: usize) {
        self.held.borrow_mut()[start..start + length].fill(true);
    }

    /// The phrase is held wherever it stands.
    pub fn hold_all(&self, phrase: &str) {
        let phrase = spaced(phrase);
        for start in self.places_of(&phrase) {
            self.hold(start, phrase.len());
        }
    }

    /// The first number that no check has found, with the text behind it.
    pub fn unheld(&self) -> Option<&str> {
        let held = self.held.borrow();
        let free = |(start, c): &(usize, char)| c.is_ascii_digit() && !held[*start];
        let (start, _) = self.text.char_indices().find(free)?;
        let end = self.text[start..].char_indices().nth(EXCERPT).map(|(end, _)| start + end);
        Some(&self.text[start..end.unwrap_or(self.text.len())])
    }

    /// Header, rule and rows of each table, as cells.
    fn tables(&self) -> Vec<Table> {
        let mut tables = vec![Table::new()];
        for line in &self.lines {
            match line.trim().strip_prefix("| ").or(line.trim().strip_prefix('|')) {
                Some(row) => tables.last_mut().expect("one is there").push(cells(row)),
                None => tables.push(Table::new()),
            }
        }
        tables.retain(|table| table.len() > 2);
        tables
    }
}

fn cells(row: &str) -> Vec<String> {
    let row = row.strip_suffix('|').unwrap_or(row);
    row.split('|').map(|cell| cell.trim().into()).collect()
}

/// The text with one space for each row of white space.
pub fn spaced(text: &str) -> String {
    text.split_whitespace().collect::<Vec<_>>().join(" ")
}

#[cfg(test)]
mod tests {
    use super::*;

    const TEXT: &str = "## 7. S\nLayer 1 is\n4a. It is 4.\n\n| a | b |\n|---|---|\n| 1 | x |\n\
                        ## 14. A\n3. It is 4.\n10. b\n";

    #[test]
    fn a_phrase_stands_once_at_its_place() {
        let document = Document::of(TEXT);
        assert!(document.says(Place::Section(7), "Layer 1 is  4a.").is_ok());
        assert!(document.says(Place::Section(7), "is 4").is_ok());
        assert!(document.says(Place::Section(7), "Layer 1 is 4").is_err());
        assert!(document.says(Place::Section(7), "is").is_err());
        assert!(document.says(Place::Answer(3), "It is 4.").is_ok());
        assert_eq!(document.part(Place::Answer(3)).unwrap().unheld(), Some("3. It is 4."));
    }

    #[test]
    fn a_table_has_all_rows_that_are_due() {
        let document = Document::of(TEXT);
        let rows_are =
            |rows: &[Vec<String>]| document.rows_are(Place::Section(7), "a | b", rows).is_ok();
        let [right, wrong] = [["1", ANY], ["2", ANY]].map(|row| row.map(String::from).to_vec());
        assert!(
            !rows_are(&[]) && !rows_are(&[wrong]) && !rows_are(&[right.clone(), right.clone()])
        );
        assert!(rows_are(&[right]));
    }
}
