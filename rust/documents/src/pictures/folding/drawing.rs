//! The folding as a picture: a thick line is the path of the query, and what it reads is shaded.

use super::{basis, cosets, fold, offset, rows, sent};
use crate::pictures::run::Folding;
use crate::pictures::svg::{
    widest, Anchor::*, Font, Picture, BOLD, MARGIN, MARK, MONO, NOTE, PLAIN, SHADE, THICK, THIN,
    WHITE,
};
use crate::pictures::{counted, element, listed};

const CELL: Font = Font { size: 14.0, ..MONO };
const READ: Font = Font { bold: true, ..CELL };
const ROW: f64 = 24.0;
const HEIGHT: f64 = 3.0 * ROW;
/// From the lower end of a layer to the brackets of its cosets, and to the next layer.
const BRACKET: f64 = 16.0;
const GAP: f64 = 84.0;
/// The upper end of layer 0.
const TOP: f64 = 128.0;
/// Where the names of rows end.
const NAMES_END: f64 = 140.0;

pub fn drawing(run: &Folding) -> Picture {
    let mut sheet = Sheet::of(run);
    sheet.picture.heading(&parameters(run));
    for layer in 0..=run.rounds() {
        sheet.layer(layer);
        if layer < run.rounds() {
            sheet.round(layer);
        }
    }
    sheet.path();
    sheet.legend();
    sheet.picture
}

struct Sheet<'a> {
    run: &'a Folding,
    picture: Picture,
    /// Half of the way from one index of layer 0 to the next.
    half: f64,
}

impl<'a> Sheet<'a> {
    fn of(run: &'a Folding) -> Sheet<'a> {
        let needed = |layer| (cell_width(run, layer) + 14.0) / (2 << (run.step * layer)) as f64;
        let half = (0..=run.rounds()).map(needed).fold(0.0, f64::max);
        Sheet { run, picture: Picture::new(&title(run), &description(run)), half }
    }

    fn layer(&mut self, layer: usize) {
        let (run, top) = (self.run, self.top(layer));
        self.picture.text((MARGIN, top + 17.0), Start, BOLD, &format!("layer {layer}"));
        for index in 0..run.layers[layer].values.len() {
            self.cell(layer, index);
        }
        for (row, (name, cells)) in rows(run, layer).iter().enumerate() {
            let y = top + ROW * row as f64 + 17.0;
            self.picture.text((NAMES_END, y), End, NOTE, name);
            for (index, words) in cells.iter().enumerate() {
                let font = if row == 2 && run.reads(layer, index) { READ } else { CELL };
                self.picture.text((self.x(layer, index), y), Middle, font, words);
            }
        }
        let mut notes = vec![offset(run, layer), basis(run, layer)];
        notes.extend((layer == run.rounds()).then(|| sent(run)));
        for (row, words) in notes.iter().enumerate() {
            let y = top + ROW * row as f64 + 17.0;
            self.picture.text((self.notes(), y), Start, PLAIN, words);
        }
    }

    /// The box of an index, its point and its entry.
    fn cell(&mut self, layer: usize, index: usize) {
        let width = cell_width(self.run, layer);
        let corner = (self.x(layer, index) - width / 2.0, self.top(layer));
        let fill = if self.run.reads(layer, index) { SHADE } else { WHITE };
        self.picture.rectangle(corner, (width, HEIGHT), fill, THIN);
        let line = corner.1 + ROW;
        self.picture.line(&[(corner.0, line), (corner.0 + width, line)], THIN);
    }

    /// The cosets as brackets, each with an arrow to what it folds to.
    fn round(&mut self, round: usize) {
        let (run, bottom) = (self.run, self.top(round) + HEIGHT);
        let bracket = bottom + BRACKET;
        for coset in 0..cosets(run, round) {
            let members = coset << run.step..(coset + 1) << run.step;
            let xs: Vec<f64> = members.map(|index| self.x(round, index)).collect();
            for x in &xs {
                self.picture.line(&[(*x, bottom), (*x, bracket)], THIN);
            }
            self.picture.line(&[(xs[0], bracket), (xs[xs.len() - 1], bracket)], THIN);
            let x = self.x(round + 1, coset);
            self.picture.arrow(&[(x, bracket), (x, self.top(round + 1))], THIN);
            let font = if coset == run.visited(round + 1) { BOLD } else { PLAIN };
            self.picture.text((x + 10.0, bracket + 22.0), Start, font, &format!("coset {coset}"));
        }
        let y = bracket + 22.0;
        self.picture.text((MARGIN, y), Start, BOLD, &format!("round {round}"));
        self.picture.text((self.notes(), y), Start, PLAIN, &fold(run, round));
    }

    /// From the query's index in layer 0 to the one in the last layer, with a frame around each.
    fn path(&mut self) {
        let run = self.run;
        let (x, top) = (self.x(0, run.query), self.top(0));
        let words = format!("query at index {}", run.query);
        let font = Font { fill: MARK, ..BOLD };
        self.picture.text((x, top - 32.0), Middle, font, &words);
        self.picture.arrow(&[(x, top - 26.0), (x, top)], THICK);
        for layer in 0..=run.rounds() {
            let (x, top) = (self.x(layer, run.visited(layer)), self.top(layer));
            let width = cell_width(run, layer);
            self.picture.rectangle((x - width / 2.0, top), (width, HEIGHT), "none", THICK);
            if layer < run.rounds() {
                let (bottom, bracket) = (top + HEIGHT, top + HEIGHT + BRACKET);
                let next = self.x(layer + 1, run.visited(layer + 1));
                let points =
                    [(x, bottom), (x, bracket), (next, bracket), (next, self.top(layer + 1))];
                self.picture.arrow(&points, THICK);
            }
        }
    }

    fn legend(&mut self) {
        let (run, top) = (self.run, self.picture.bottom() + 30.0);
        self.picture.line(&[(MARGIN, top - 5.0), (MARGIN + 34.0, top - 5.0)], THICK);
        let indices: Vec<usize> = (0..=run.rounds()).map(|layer| run.visited(layer)).collect();
        let path = format!(
            "the path of the query: index {}, each the one before divided by 2^η = {}, rounded \
             down",
            listed(&indices, usize::to_string),
            1 << run.step
        );
        self.picture.text((MARGIN + 46.0, top), Start, PLAIN, &path);
        self.picture.rectangle((MARGIN, top + 10.0), (34.0, 16.0), SHADE, THIN);
        let read = format!(
            "shaded, with the entry in bold: what the judge reads for it, one coset in each \
             round, {} entries in all",
            run.reads
        );
        self.picture.text((MARGIN + 46.0, top + 23.0), Start, PLAIN, &read);
        let numbers = "Indices are decimal; points, entries, offsets, bases, challenges and \
                       coefficients are hexadecimal.";
        self.picture.text((MARGIN, top + 47.0), Start, NOTE, numbers);
    }

    fn top(&self, layer: usize) -> f64 {
        TOP + (HEIGHT + GAP) * layer as f64
    }

    /// The middle of an index's box.
    fn x(&self, layer: usize, index: usize) -> f64 {
        NAMES_END + 8.0 + self.half * (1 + self.run.halves(layer, index)) as f64
    }

    /// Where the notes to the right begin.
    fn notes(&self) -> f64 {
        self.x(0, self.run.layers[0].values.len() - 1) + self.half + 20.0
    }
}

fn cell_width(run: &Folding, layer: usize) -> f64 {
    let rows = rows(run, layer);
    let texts = rows.iter().flat_map(|(_, cells)| cells);
    (widest(READ, texts) + 18.0).max(46.0)
}

fn title(run: &Folding) -> String {
    format!("Case {}: how indices, cosets and layers fold", run.case)
}

fn parameters(run: &Folding) -> String {
    format!(
        "k {}, R {}, η {}: r = {}, d = {}; challenges {}",
        run.k,
        run.rate,
        run.step,
        counted(run.rounds(), "round"),
        counted(run.last.len(), "last coefficient"),
        listed(&run.challenges, |x| element(*x))
    )
}

fn description(run: &Folding) -> String {
    let layers: String = (0..=run.rounds()).map(|layer| layer_in_words(run, layer)).collect();
    let rounds: String = (0..run.rounds()).map(|round| round_in_words(run, round)).collect();
    format!("{layers}The query has index {} in layer 0.{rounds}", run.query)
}

fn layer_in_words(run: &Folding, layer: usize) -> String {
    let (offset, basis) = (offset(run, layer), basis(run, layer));
    let values = listed(&run.layers[layer].values, |value| element(*value));
    let words = if layer == run.rounds() {
        format!("values {values}, {}", sent(run))
    } else {
        format!("entries {values}")
    };
    format!("Layer {layer}: {offset}; {basis}; {words}. ")
}

fn round_in_words(run: &Folding, round: usize) -> String {
    let (coset, next) = (run.visited(round + 1), round + 1);
    let (first, behind) = (coset << run.step, (coset + 1) << run.step);
    format!(
        " Round {round}: indices {first} to {} of layer {round} are coset {coset}, whose {} is \
         index {coset} of layer {next}.",
        behind - 1,
        fold(run, round)
    )
}
