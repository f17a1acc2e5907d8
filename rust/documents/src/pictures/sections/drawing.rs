//! The sections as a picture: a strip with all bytes to scale, and below it a box for each section.

use super::{Item, Section, Transcript, FORM};
use crate::pictures::svg::{
    text_width, widest, Anchor::*, Font, Picture, BAND, BOLD, MARGIN, MONO, NOTE, PLAIN, THIN,
    WHITE,
};

const BYTES: Font = Font { size: 12.0, ..MONO };
const MEANING: Font = Font { size: 12.0, ..PLAIN };
const PLACE: Font = Font { size: 11.0, ..NOTE };
const ITEM: f64 = 40.0;
const STRIP: f64 = 28.0;
const LINE: f64 = 17.0;
/// What is left free within a box, and between boxes.
const PAD: f64 = 9.0;
const BETWEEN: f64 = 6.0;
const IN_A_LINE: usize = 4;
/// Of a section with more entries only the first ones are shown.
const MOST: usize = 8;

pub fn drawing(transcript: &Transcript) -> Picture {
    let mut sheet = Sheet::of(transcript);
    sheet.picture.heading(&format!("Each section: {FORM}. Nothing follows the last."));
    sheet.strip();
    for section in &transcript.sections {
        sheet.section(section);
    }
    sheet.notes();
    sheet.picture
}

struct Sheet<'a> {
    transcript: &'a Transcript,
    picture: Picture,
    /// The widths of what is said of a section, of its count, and of an entry.
    names: f64,
    count: f64,
    entry: f64,
}

impl<'a> Sheet<'a> {
    fn of(transcript: &'a Transcript) -> Sheet<'a> {
        let sections = &transcript.sections;
        let widest_item =
            |items: &mut dyn Iterator<Item = &Item>| items.map(item_width).fold(0.0, f64::max);
        Sheet {
            transcript,
            picture: Picture::new(&transcript.title(), &description(transcript)),
            names: widest(PLAIN, sections.iter().flat_map(said).collect::<Vec<_>>().iter()),
            count: widest_item(&mut sections.iter().map(|section| &section.count)),
            entry: widest_item(&mut sections.iter().flat_map(|section| &section.entries)),
        }
    }

    /// The sections by their numbers, with the offsets of their first bytes below.
    fn strip(&mut self) {
        let top = self.picture.bottom() + 16.0;
        let below = top + STRIP + 14.0;
        for section in &self.transcript.sections {
            let (from, to) = (self.x(section.start), self.x(section.end()));
            self.picture.rectangle((from, top), (to - from, STRIP), WHITE, THIN);
            let count = self.x(section.start + 4) - from;
            self.picture.rectangle((from, top), (count, STRIP), BAND, THIN);
            let middle = ((from + count + to) / 2.0, top + 19.0);
            self.picture.text(middle, Middle, BOLD, &section.number.to_string());
            self.picture.text((from, below), Start, PLACE, &section.start.to_string());
        }
        let length = self.transcript.length();
        self.picture.text((self.x(length), below), End, PLACE, &length.to_string());
    }

    fn section(&mut self, section: &Section) {
        let top = self.picture.bottom() + 8.0;
        let lines = section.entries.len().min(MOST).div_ceil(IN_A_LINE).max(1) as f64;
        let items = lines * (ITEM + BETWEEN) - BETWEEN;
        let height = 2.0 * PAD + items.max(4.0 * LINE);
        self.picture.rectangle((MARGIN, top), (self.width(), height), WHITE, THIN);
        for (line, words) in said(section).iter().enumerate() {
            let font = if line == 0 { BOLD } else { PLAIN };
            let y = top + PAD + LINE * line as f64 + 12.0;
            self.picture.text((MARGIN + PAD, y), Start, font, words);
        }
        self.items(section, top + (height - items) / 2.0);
    }

    /// The count, and the entries beside it.
    fn items(&mut self, section: &Section, top: f64) {
        let left = MARGIN + 2.0 * PAD + self.names;
        self.item(&section.count, (left, top), self.count, BAND);
        let (first, width) = (left + self.count + BETWEEN, self.entry);
        let more = section.entries.len() > MOST;
        let shown = if more { MOST - 1 } else { section.entries.len() };
        let corner = |place: usize| {
            let (column, line) = ((place % IN_A_LINE) as f64, (place / IN_A_LINE) as f64);
            (first + column * (width + BETWEEN), top + line * (ITEM + BETWEEN))
        };
        for (place, entry) in section.entries[..shown].iter().enumerate() {
            self.item(entry, corner(place), width, WHITE);
        }
        if more {
            let ((x, y), others) = (corner(shown), section.entries.len() - shown);
            self.picture.text((x, y + 25.0), Start, NOTE, &format!("and {others} more entries"));
        }
    }

    fn item(&mut self, item: &Item, (x, y): (f64, f64), width: f64, fill: &str) {
        self.picture.rectangle((x, y), (width, ITEM), fill, THIN);
        self.picture.text((x + 5.0, y + 15.0), Start, PLACE, &item.start.to_string());
        self.picture.text((x + width - 6.0, y + 15.0), End, MEANING, &item.meaning);
        self.picture.text((x + width / 2.0, y + 32.0), Middle, BYTES, &item.bytes);
    }

    fn notes(&mut self) {
        let top = self.picture.bottom() + 24.0;
        let notes = [
            "Shaded: the count of a section. At the upper left of a count or an entry: the offset \
             of its first byte.",
            "r = (k-R)/η rounded down, d = 2^(k-R-rη).",
            "Layer i, for i from 0 to r-1, is section 5 + i, with count 2^(k-iη). Layer r is no \
             section: it is sent as d coefficients.",
            "Bytes and elements are hexadecimal, all else is decimal.",
        ];
        for (line, words) in notes.iter().enumerate() {
            self.picture.text((MARGIN, top + LINE * line as f64), Start, NOTE, words);
        }
    }

    /// Where a byte stands in the strip.
    fn x(&self, place: usize) -> f64 {
        MARGIN + self.width() * place as f64 / self.transcript.length() as f64
    }

    fn width(&self) -> f64 {
        let entries = IN_A_LINE as f64 * (self.entry + BETWEEN);
        self.names + self.count + entries + 3.0 * PAD
    }
}

/// What stands beside the items of a section.
fn said(section: &Section) -> [String; 4] {
    [section.name(), section.holds.clone(), section.count_due(), section.range()]
}

fn item_width(item: &Item) -> f64 {
    let above = text_width(PLACE, &item.start.to_string()) + text_width(MEANING, &item.meaning);
    (above + 18.0).max(text_width(BYTES, &item.bytes) + 12.0)
}

fn description(transcript: &Transcript) -> String {
    let section = |section: &Section| {
        let Section { number, holds, .. } = section;
        format!(" Section {number}, {}: {holds}; {}.", section.range(), section.count_due())
    };
    let sections: String = transcript.sections.iter().map(section).collect();
    format!("Each section: {FORM}.{sections}")
}
