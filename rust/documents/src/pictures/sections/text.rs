//! The sections as lines of text: a line for each, and below it its count and its entries.

use super::{Item, Transcript, FORM};

pub fn text(transcript: &Transcript) -> String {
    let mut lines = format!("{}\neach section: {FORM}\n", transcript.title());
    for section in &transcript.sections {
        let (name, range) = (section.name(), section.range());
        lines += &format!("\n{name}, {range}: {}; {}\n", section.holds, section.count_due());
        lines += &line(&section.count);
        lines.extend(section.entries.iter().map(line));
    }
    lines
}

fn line(item: &Item) -> String {
    format!("{:>6}  {:<23}  {}\n", item.start, item.bytes, item.meaning)
}
