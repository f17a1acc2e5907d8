//! The figures as a plot with a logarithmic axis of time.

use super::{Growth, Row, COLUMNS};
use crate::pictures::svg::{
    Anchor::*, Font, Picture, Point, Stroke, BOLD, GREY, INK, MARGIN, MARK, MONO, NONE, NOTE, PALE,
    PLAIN,
};

const TITLE: &str = "How long prove and judge take as the word grows";
const WORDS: &str = "R 1, η 1; the judges have 16 queries; each time is the least of many turns.";
const COMMANDS: [&str; 2] = [
    "figures: cd rust && cargo run --release --offline -p bench -- growth > \
     ../docs/pictures/growth.tsv",
    "picture: cd rust && cargo run --release --offline -p documents -- draw",
];

const LEFT: f64 = MARGIN + 62.0;
const TOP: f64 = MARGIN + 84.0;
const WIDTH: f64 = 560.0;
const HEIGHT: f64 = 420.0;
/// From the ends of the axis of k to its first and last.
const BESIDE: f64 = 20.0;
const COMMAND: Font = Font { size: 11.0, fill: GREY, ..MONO };
const LINE: f64 = 17.0;
/// How far apart the names of two lines stand.
const APART: f64 = 40.0;

/// How a column of times is drawn. Colour, line and mark each tell it from the others.
struct Series {
    name: &'static str,
    stroke: Stroke,
    mark: fn(&mut Picture, Point, &'static str),
}

const BLUE: &str = "#1f4e9c";

const SERIES: [Series; COLUMNS] = [
    Series {
        name: "prove",
        stroke: Stroke { colour: BLUE, width: 2.5, dashes: "" },
        mark: |picture, at, colour| picture.circle(at, 4.5, colour),
    },
    Series {
        name: "judge over lists",
        stroke: Stroke { colour: MARK, width: 1.6, dashes: "" },
        mark: |picture, (x, y), colour| {
            picture.rectangle((x - 3.0, y - 3.0), (6.0, 6.0), colour, NONE)
        },
    },
    Series {
        name: "judge over a transcript's bytes",
        stroke: Stroke { colour: INK, width: 1.6, dashes: "6 4" },
        mark: diamond,
    },
];

/// Open, so that the mark of a point at the same place is seen within.
fn diamond(picture: &mut Picture, (x, y): Point, colour: &'static str) {
    let corners = [(x, y - 8.0), (x + 8.0, y), (x, y + 8.0), (x - 8.0, y)];
    picture.polygon(&corners, "none", Stroke { colour, width: 1.4, dashes: "" });
}

pub fn drawing(growth: &Growth) -> Picture {
    let rows = growth.drawn();
    let mut plot = Plot::of(&rows);
    plot.picture.heading(WORDS);
    plot.axes();
    for column in (0..COLUMNS).rev() {
        plot.line(column);
    }
    plot.names();
    plot.caption(growth);
    plot.picture
}

struct Plot<'a> {
    rows: &'a [&'a Row],
    picture: Picture,
    /// The powers of ten, in microseconds, at the lower and the upper end.
    decades: (i32, i32),
}

impl<'a> Plot<'a> {
    fn of(rows: &'a [&'a Row]) -> Plot<'a> {
        let times = || rows.iter().flat_map(|row| row.times);
        let lower = times().fold(f64::INFINITY, f64::min).log10().floor() as i32;
        let upper = times().fold(0.0, f64::max).log10().ceil() as i32;
        let picture = Picture::new(TITLE, &description(rows));
        Plot { rows, picture, decades: (lower, upper.max(lower + 1)) }
    }

    fn axes(&mut self) {
        let (right, bottom) = (LEFT + WIDTH, TOP + HEIGHT);
        for power in self.decades.0..=self.decades.1 {
            let y = self.y(10f64.powi(power));
            self.picture.line(&[(LEFT, y), (right, y)], grid(1.4));
            self.picture.text((LEFT - 8.0, y + 4.5), End, PLAIN, &decade(power));
            for part in [2.0, 5.0].iter().filter(|_| power < self.decades.1) {
                let y = self.y(part * 10f64.powi(power));
                self.picture.line(&[(LEFT, y), (right, y)], grid(0.6));
            }
        }
        for row in self.rows {
            let x = self.x(row.k);
            self.picture.line(&[(x, TOP), (x, bottom)], grid(0.6));
            self.picture.text((x, bottom + 18.0), Middle, PLAIN, &row.k.to_string());
        }
        let ends = [(LEFT, TOP), (LEFT, bottom), (right, bottom)];
        self.picture.line(&ends, Stroke { colour: INK, width: 1.4, dashes: "" });
        let middle = (LEFT + WIDTH / 2.0, bottom + 40.0);
        self.picture.text(middle, Middle, BOLD, "k (the word has 2^k entries)");
        self.picture.text((MARGIN, TOP - 16.0), Start, BOLD, "time (logarithmic)");
    }

    fn line(&mut self, column: usize) {
        let Series { stroke, mark, .. } = &SERIES[column];
        let points: Vec<Point> =
            self.rows.iter().map(|row| (self.x(row.k), self.y(row.times[column]))).collect();
        self.picture.line(&points, *stroke);
        for point in points {
            mark(&mut self.picture, point, stroke.colour);
        }
    }

    /// The names of the lines beside their ends, each with the first time and the last.
    fn names(&mut self) {
        let (first, last) = (self.rows[0], self.rows[self.rows.len() - 1]);
        let x = LEFT + WIDTH + 14.0;
        let ends = last.times.map(|time| self.y(time));
        for (column, y) in moved_apart(ends).into_iter().enumerate() {
            let Series { name, stroke, mark } = &SERIES[column];
            self.picture.line(&[(x, y), (x + 32.0, y)], *stroke);
            mark(&mut self.picture, (x + 16.0, y), stroke.colour);
            let (from, to) = (shown(first.times[column]), shown(last.times[column]));
            let words = format!("{from} at k {}, {to} at k {}", first.k, last.k);
            self.picture.text((x + 42.0, y), Start, BOLD, name);
            self.picture.text((x + 42.0, y + 16.0), Start, NOTE, &words);
        }
    }

    fn caption(&mut self, growth: &Growth) {
        let mut y = self.picture.bottom() + 28.0;
        let (prove, judges) = (growth.ratios(0..1), growth.ratios(1..COLUMNS));
        if !prove.is_empty() {
            let words = format!(
                "At η {} prove takes {} of these times, and the judges {}.",
                growth.other_steps(),
                range(&prove),
                range(&judges)
            );
            self.picture.text((MARGIN, y), Start, PLAIN, &words);
            y += LINE + 4.0;
        }
        for words in COMMANDS {
            self.picture.text((MARGIN, y), Start, COMMAND, words);
            y += LINE;
        }
    }

    fn x(&self, k: usize) -> f64 {
        let (first, last) = (self.rows[0].k, self.rows[self.rows.len() - 1].k);
        let share = (k - first) as f64 / (last - first) as f64;
        LEFT + BESIDE + (WIDTH - 2.0 * BESIDE) * share
    }

    fn y(&self, time: f64) -> f64 {
        let (lower, upper) = (self.decades.0 as f64, self.decades.1 as f64);
        TOP + HEIGHT * (upper - time.log10()) / (upper - lower)
    }
}

fn grid(width: f64) -> Stroke {
    Stroke { colour: PALE, width, dashes: "" }
}

/// Moves each of two neighbours by half of what is missing between them.
fn moved_apart(ys: [f64; COLUMNS]) -> [f64; COLUMNS] {
    let mut order: Vec<usize> = (0..COLUMNS).collect();
    order.sort_by(|a, b| ys[*a].total_cmp(&ys[*b]));
    let mut moved = ys;
    for pair in order.windows(2) {
        let missing = (APART - (moved[pair[1]] - moved[pair[0]])).max(0.0);
        moved[pair[0]] -= missing / 2.0;
        moved[pair[1]] += missing / 2.0;
    }
    moved
}

/// A power of ten, in microseconds.
fn decade(power: i32) -> String {
    let (unit, thousands) = match power {
        ..0 => ("ns", -1),
        0..3 => ("µs", 0),
        3..6 => ("ms", 1),
        _ => ("s", 2),
    };
    format!("{} {unit}", 10f64.powi(power - 3 * thousands))
}

/// A time of so many microseconds.
fn shown(time: f64) -> String {
    match time {
        ..1e3 => format!("{time:.1} µs"),
        ..1e6 => format!("{:.1} ms", time / 1e3),
        _ => format!("{:.1} s", time / 1e6),
    }
}

fn range(ratios: &[f64]) -> String {
    let least = ratios.iter().copied().fold(f64::INFINITY, f64::min);
    let most = ratios.iter().copied().fold(0.0, f64::max);
    format!("{least:.2} to {most:.2}")
}

fn description(rows: &[&Row]) -> String {
    let row = |row: &&Row| {
        let [prove, lists, bytes] = row.times.map(shown);
        format!(" k {}: prove {prove}, judge over lists {lists}, over bytes {bytes}.", row.k)
    };
    let rows: String = rows.iter().map(row).collect();
    format!("Time over k, the time on a logarithmic axis. R 1, η 1, 16 queries.{rows}")
}
