//! The folding as lines of text: brackets mark the path of the query.

use super::{basis, cosets, fold, offset, rows, sent};
use crate::pictures::listed;
use crate::pictures::run::Folding;

/// Where the names of rows begin, and where they end.
const NAMES: usize = 9;
const NAMES_END: usize = 14;

pub fn text(run: &Folding) -> String {
    let page = Page::of(run);
    let mut lines = String::new();
    for layer in 0..=run.rounds() {
        lines += &page.layer(layer);
        if layer < run.rounds() {
            lines += &page.round(layer);
        }
    }
    lines + "Indices are decimal, all else is hexadecimal; brackets mark the path of the query.\n"
}

struct Page<'a> {
    run: &'a Folding,
    /// Half of the columns from one index of layer 0 to the next.
    half: usize,
}

impl<'a> Page<'a> {
    /// Of two neighbours in a row, each with brackets, two columns are left between.
    fn of(run: &'a Folding) -> Page<'a> {
        let needed = |layer| {
            let rows = rows(run, layer);
            let widest = rows.iter().flat_map(|(_, cells)| cells).map(String::len).max();
            (widest.unwrap_or(0) + 4).div_ceil(2 << (run.step * layer))
        };
        let half = (0..=run.rounds()).map(needed).fold(3, usize::max);
        Page { run, half }
    }

    fn layer(&self, layer: usize) -> String {
        let run = self.run;
        let [(index, mut indices), (point, points), (value, values)] = rows(run, layer);
        let visited = &mut indices[run.visited(layer)];
        *visited = marked(true, visited);
        let coset = format!("{}, {}", offset(run, layer), basis(run, layer));
        let sent = if layer == run.rounds() { sent(run) } else { String::new() };
        [
            self.line(&format!("layer {layer}"), index, (layer, &indices), &coset),
            self.line("", point, (layer, &points), ""),
            self.line("", value, (layer, &values), &sent),
        ]
        .concat()
    }

    /// The brackets of the cosets, and what they fold to, which stands below their middles.
    fn round(&self, round: usize) -> String {
        let run = self.run;
        let numbers: Vec<usize> = (0..cosets(run, round)).collect();
        let visits = |coset: &usize| *coset == run.visited(round + 1);
        let brackets: Vec<String> = numbers.iter().map(|_| self.bracket(round)).collect();
        let strokes: Vec<String> = numbers.iter().map(|c| marked(visits(c), "|")).collect();
        let listed = listed(&numbers, |coset| marked(visits(coset), &coset.to_string()));
        [
            self.line("", "", (round + 1, &brackets), &format!("cosets {listed}")),
            self.line(&format!("round {round}"), "", (round + 1, &strokes), &fold(run, round)),
        ]
        .concat()
    }

    /// With a joint at each index of a coset and at its middle.
    fn bracket(&self, layer: usize) -> String {
        let first = self.column(layer, 0);
        let joints: Vec<usize> =
            (0..1 << self.run.step).map(|index| self.column(layer, index) - first).collect();
        let width = joints[joints.len() - 1];
        let joint = |column| joints.contains(&column) || column == width / 2;
        (0..=width).map(|column| if joint(column) { '+' } else { '-' }).collect()
    }

    fn line(&self, label: &str, name: &str, cells: (usize, &[String]), note: &str) -> String {
        let mut line = format!("{label:<NAMES$}{name:<0$}", NAMES_END - NAMES);
        for (index, cell) in cells.1.iter().enumerate() {
            let start = self.column(cells.0, index) - cell.len() / 2;
            line = format!("{line:<start$}{cell}");
        }
        let notes = self.column(0, self.run.layers[0].values.len() - 1) + self.half + 1;
        let line = format!("{line:<notes$}{note}");
        format!("{}\n", line.trim_end())
    }

    /// The column in the middle of the texts of an index.
    fn column(&self, layer: usize, index: usize) -> usize {
        NAMES_END + 2 + self.half * (1 + self.run.halves(layer, index))
    }
}

fn marked(on_path: bool, text: &str) -> String {
    if on_path {
        format!("[{text}]")
    } else {
        text.into()
    }
}
