//! The sections of a transcript with their bytes.

mod drawing;
mod parameters;
mod text;

pub use drawing::drawing;
pub use text::text;

use parameters::Parameters;

/// How a section is written.
const FORM: &str = "count in 4 bytes, entries in 8, little-endian";

pub struct Transcript {
    /// The case's letter.
    case: String,
    sections: Vec<Section>,
}

struct Section {
    /// From 1.
    number: usize,
    /// Where its first byte stands.
    start: usize,
    /// What it holds, and the count due as a formula.
    holds: String,
    due: String,
    count: Item,
    entries: Vec<Item>,
}

/// A count or an entry: where its first byte stands, its bytes, and what they mean.
struct Item {
    start: usize,
    bytes: String,
    meaning: String,
}

impl Transcript {
    /// Splits it by its own counts, which have to be those due.
    pub fn read(case: &str, bytes: &[u8]) -> Result<Transcript, String> {
        let parts = split(bytes)?;
        let parameters = Parameters::of(&parts)?;
        let mut sections: Vec<Section> = Vec::new();
        for part in parts {
            let start = sections.last().map_or(0, Section::end);
            sections.push(Section::of(&parameters, sections.len() + 1, start, part)?);
        }
        Ok(Transcript { case: case.into(), sections })
    }

    /// How many bytes it has.
    fn length(&self) -> usize {
        self.sections.last().map_or(0, Section::end)
    }

    fn title(&self) -> String {
        let (case, length, sections) = (&self.case, self.length(), self.sections.len());
        format!("The transcript of case {case}: {length} bytes in {sections} sections")
    }
}

impl Section {
    fn of(
        parameters: &Parameters,
        number: usize,
        start: usize,
        part: Part,
    ) -> Result<Section, String> {
        let Part { count, entries } = part;
        let due = parameters.due(number, entries.len())?;
        let item = |(place, entry): (usize, &[u8; 8])| Item {
            start: start + 4 + 8 * place,
            bytes: hexadecimal(entry),
            meaning: parameters.meaning(number, place, u64::from_le_bytes(*entry)),
        };
        let meaning = format!("count {}", entries.len());
        Ok(Section {
            number,
            start,
            holds: parameters.holds(number),
            due,
            count: Item { start, bytes: hexadecimal(&count), meaning },
            entries: entries.iter().enumerate().map(item).collect(),
        })
    }

    /// The place after its last byte.
    fn end(&self) -> usize {
        self.start + 4 + 8 * self.entries.len()
    }

    fn name(&self) -> String {
        format!("section {}", self.number)
    }

    fn range(&self) -> String {
        format!("bytes {} to {}", self.start, self.end() - 1)
    }

    fn count_due(&self) -> String {
        format!("count due {}", self.due)
    }
}

/// The bytes of a section.
struct Part {
    count: [u8; 4],
    entries: Vec<[u8; 8]>,
}

fn split(bytes: &[u8]) -> Result<Vec<Part>, String> {
    let mut parts = Vec::new();
    let mut rest = bytes;
    while !rest.is_empty() {
        let Some((part, others)) = first_part(rest) else {
            return Err(format!("the bytes end in section {}", parts.len() + 1));
        };
        parts.push(part);
        rest = others;
    }
    Ok(parts)
}

fn first_part(bytes: &[u8]) -> Option<(Part, &[u8])> {
    let (count, mut rest) = bytes.split_first_chunk()?;
    let mut entries = Vec::new();
    for _ in 0..u32::from_le_bytes(*count) {
        let (entry, others) = rest.split_first_chunk()?;
        entries.push(*entry);
        rest = others;
    }
    Some((Part { count: *count, entries }, rest))
}

fn hexadecimal(bytes: &[u8]) -> String {
    bytes.iter().map(|byte| format!("{byte:02x}")).collect::<Vec<_>>().join(" ")
}

#[cfg(test)]
mod tests {
    use super::*;

    fn written(sections: &[&[u64]]) -> Vec<u8> {
        let section = |entries: &&[u64]| {
            let entry_bytes = entries.iter().flat_map(|entry| entry.to_le_bytes());
            (entries.len() as u32).to_le_bytes().into_iter().chain(entry_bytes).collect::<Vec<_>>()
        };
        sections.iter().flat_map(section).collect()
    }

    /// Case G, byte by byte as in docs/COURSE.md, section 12.
    fn case_g() -> Vec<u8> {
        written(&[&[2, 1, 1], &[0, 1, 2], &[4], &[0, 3], &[7, 4, 1, 2], &[0xb]])
    }

    fn drawn(bytes: &[u8]) -> Result<[String; 2], String> {
        let transcript = Transcript::read("G", bytes)?;
        Ok([text(&transcript), drawing(&transcript).written()?])
    }

    #[test]
    fn every_byte_is_seen_in_both_forms() {
        let bytes = case_g();
        let given = drawn(&bytes).unwrap();
        for place in 0..bytes.len() {
            let mut other = bytes.clone();
            other[place] ^= 1;
            if let Ok(other) = drawn(&other) {
                assert!(other[0] != given[0] && other[1] != given[1], "byte {place}");
            }
        }
    }

    #[test]
    fn bytes_that_end_early_or_late_are_refused() {
        let bytes = case_g();
        for length in 0..bytes.len() {
            assert!(Transcript::read("G", &bytes[..length]).is_err(), "{length} bytes");
        }
        assert!(Transcript::read("G", &[&bytes[..], &[0; 4]].concat()).is_err());
    }

    #[test]
    fn of_a_long_section_the_picture_has_the_first_entries() {
        let bytes = written(&[&[4, 1, 3], &[0, 1, 2, 4, 8], &[4], &[0], &[0xa; 16], &[0xb]]);
        let [text, picture] = drawn(&bytes).unwrap();
        assert!(text.contains("entry 15 is a") && !text.contains("more"));
        assert!(picture.contains("entry 6 is a") && picture.contains("and 9 more entries"));
    }
}
