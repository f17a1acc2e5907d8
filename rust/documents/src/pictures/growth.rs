//! How long prover and judge take as the word grows, from the figures that `bench growth` printed.

mod drawing;

pub use drawing::drawing;

use std::collections::BTreeSet;
use std::ops::Range;

/// The first line of the figures.
const HEADER: &str = "k\tη\tprove, µs\tjudge over lists with 16 queries, µs\tjudge over a \
                      transcript's bytes with 16 queries, µs";

/// How many columns of times there are.
const COLUMNS: usize = 3;

pub struct Growth {
    rows: Vec<Row>,
}

/// The times are in microseconds.
struct Row {
    k: usize,
    step: usize,
    times: [f64; COLUMNS],
}

impl Growth {
    pub fn read(text: &str) -> Result<Growth, String> {
        let mut lines = text.lines();
        if lines.next() != Some(HEADER) {
            return Err("line 1 has other columns".into());
        }
        let row = |(place, line)| {
            Row::read(line).ok_or_else(|| format!("line {} is no row of figures", place + 2))
        };
        let growth = Growth { rows: lines.enumerate().map(row).collect::<Result<_, _>>()? };
        let rising = |pair: &[&Row]| pair[0].k < pair[1].k;
        let drawn = growth.drawn();
        if drawn.len() < 2 || !drawn.windows(2).all(rising) {
            return Err("a plot takes rows with η 1 and rising k".into());
        }
        Ok(growth)
    }

    /// The rows that the plot shows: those with step 1. Lines for the other steps would lie upon
    /// its lines.
    fn drawn(&self) -> Vec<&Row> {
        self.rows.iter().filter(|row| row.step == 1).collect()
    }

    /// With a word between.
    fn other_steps(&self) -> String {
        let steps: BTreeSet<usize> = self.rows.iter().map(|row| row.step).collect();
        let others = steps.into_iter().filter(|step| *step != 1).map(|step| step.to_string());
        others.collect::<Vec<_>>().join(" and ")
    }

    /// The times of the columns with other steps over those with step 1.
    fn ratios(&self, columns: Range<usize>) -> Vec<f64> {
        let drawn = self.drawn();
        let others = self.rows.iter().filter(|row| row.step != 1);
        let pairs = others.filter_map(|row| Some((row, drawn.iter().find(|one| one.k == row.k)?)));
        pairs.flat_map(|(row, one)| columns.clone().map(|n| row.times[n] / one.times[n])).collect()
    }
}

impl Row {
    fn read(line: &str) -> Option<Row> {
        let (k, others) = line.split_once('\t')?;
        let (step, others) = others.split_once('\t')?;
        let times: Option<Vec<f64>> = others.split('\t').map(time).collect();
        Some(Row { k: k.parse().ok()?, step: step.parse().ok()?, times: times?.try_into().ok()? })
    }
}

/// A logarithmic axis has no place for others.
fn time(text: &str) -> Option<f64> {
    text.parse().ok().filter(|time: &f64| time.is_finite() && *time > 0.0)
}

#[cfg(test)]
mod tests {
    use super::*;

    const ROWS: &str = "10\t1\t58.4\t15.0\t14.7\n11\t1\t105.3\t16.7\t16.4\n11\t2\t108\t18.6\t18.5";

    fn drawn(rows: &str) -> Result<String, String> {
        drawing(&Growth::read(&format!("{HEADER}\n{rows}\n"))?).written()
    }

    #[test]
    fn every_figure_is_seen() {
        let given = drawn(ROWS).unwrap();
        for (figure, other) in [("58.4", "68.4"), ("16.7", "17.7"), ("14.7", "13.7"), ("108", "99")]
        {
            assert_ne!(drawn(&ROWS.replace(figure, other)).unwrap(), given, "{figure}");
        }
    }

    #[test]
    fn what_is_no_figure_is_refused() {
        for (figure, other) in [("58.4", "0"), ("58.4", "-1"), ("58.4", "inf"), ("58.4\t", "")] {
            assert!(drawn(&ROWS.replace(figure, other)).is_err(), "{other}");
        }
        assert!(Growth::read(ROWS).is_err());
        assert!(drawn("10\t1\t58.4\t15.0\t14.7").is_err());
        assert!(drawn("11\t1\t58.4\t15.0\t14.7\n10\t1\t58.4\t15.0\t14.7").is_err());
    }
}
