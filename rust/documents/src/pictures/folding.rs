//! How the indices, cosets and layers of a run fold, and the path of its query through them.

mod drawing;
mod text;

pub use drawing::drawing;
pub use text::text;

use super::run::Folding;
use super::{element, listed};

/// The rows of a layer, by their names: index, point, and entry; those of the last layer are not
/// sent.
fn rows(run: &Folding, layer: usize) -> [(&'static str, Vec<String>); 3] {
    let shown = |values: &[u64]| values.iter().map(|value| element(*value)).collect::<Vec<_>>();
    let indices = (0..run.layers[layer].values.len()).map(|index| index.to_string()).collect();
    let last = if layer == run.rounds() { "value" } else { "entry" };
    [
        ("index", indices),
        ("point", shown(&run.layers[layer].points)),
        (last, shown(&run.layers[layer].values)),
    ]
}

fn offset(run: &Folding, layer: usize) -> String {
    format!("offset {}", element(run.layers[layer].coset.offset))
}

fn basis(run: &Folding, layer: usize) -> String {
    format!("basis {}", listed(&run.layers[layer].coset.basis, |b| element(*b)))
}

fn fold(run: &Folding, round: usize) -> String {
    format!("fold at challenge {}", element(run.challenges[round]))
}

fn sent(run: &Folding) -> String {
    let plural = if run.last.len() == 1 { "" } else { "s" };
    format!("sent as the coefficient{plural} {}", listed(&run.last, |c| element(*c)))
}

/// How many cosets a layer has.
fn cosets(run: &Folding, layer: usize) -> usize {
    run.layers[layer].values.len() >> run.step
}

#[cfg(test)]
mod tests {
    use super::*;
    use crate::assignment::Assignment;

    fn case_k() -> Assignment {
        Assignment {
            k: 3,
            rate: 1,
            step: 1,
            offset: 0,
            basis: vec![1, 2, 4],
            challenges: vec![2, 3],
            queries: vec![5],
            coefficients: vec![0, 0, 1],
        }
    }

    fn drawn(assignment: &Assignment) -> [String; 2] {
        let run = Folding::of("K", assignment).unwrap();
        [text(&run), drawing(&run).written().unwrap()]
    }

    #[test]
    fn every_number_is_seen_in_both_forms() {
        let given = drawn(&case_k());
        let others = [
            Assignment { offset: 8, ..case_k() },
            Assignment { basis: vec![1, 2, 8], ..case_k() },
            Assignment { challenges: vec![2, 4], ..case_k() },
            Assignment { queries: vec![4], ..case_k() },
            Assignment { coefficients: vec![0, 0, 2], ..case_k() },
        ];
        for other in others.iter().map(drawn) {
            assert!(other[0] != given[0] && other[1] != given[1]);
        }
    }

    /// Texts that overlap or leave the picture would be refused.
    #[test]
    fn other_runs_are_drawn() {
        let wide = 0xfedc_ba98_7654_3210;
        let runs = [(2, 1, 1, 1), (4, 1, 2, 1), (5, 2, 1, 3), (5, 1, 3, 1), (6, 1, 2, 2)];
        for (k, rate, step, rounds) in runs {
            for query in [0, (1 << k) - 1] {
                let given = Assignment {
                    k,
                    rate,
                    step,
                    offset: wide,
                    basis: (0..k).map(|t| wide ^ 1 << t | 1).collect(),
                    challenges: vec![wide; rounds],
                    queries: vec![query],
                    coefficients: vec![wide, 1],
                };
                drawn(&given);
            }
        }
    }

    #[test]
    fn the_text_of_case_k_has_at_most_90_columns() {
        let [text, _] = drawn(&case_k());
        assert_eq!(text.lines().map(str::len).max(), Some(90));
    }

    #[test]
    fn a_word_of_high_degree_is_refused() {
        let given = Assignment { coefficients: vec![0, 0, 0, 0, 1], ..case_k() };
        assert!(Folding::of("K", &given).is_err());
    }
}
