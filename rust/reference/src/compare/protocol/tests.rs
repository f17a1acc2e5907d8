//! Wrong libraries, and the comparisons that they differ in.
//!
//! Each is wrong in one operation and the reference in the others, so it is compared in that
//! operation alone.

mod judges;
mod lengths;
mod lookups;
mod provers;
pub(in crate::compare) mod refusals;
pub(in crate::compare) mod together;

use super::*;
use crate::compare::operation::Reference;
use crate::compare::wrong::{
    alike, hold_table, right_library, row, shared_rows, Others, Row, Wrong,
};
use crate::coset::point;
use crate::fold::Coset;
use crate::polynomial::{interpolant, value};
use std::collections::HashSet;

/// Few and small, since every wrong library is compared with all of them.
const FEW: Amounts = Amounts {
    turns: [0, 0, 4, 2, 2, 0, 0, 0, 0, 0],
    all_degrees: 4,
    near_bounds: [0, 0, 1, 1, 1, 0, 0, 0, 0, 0],
    whole: &[5],
    known: &[[6, 2, 1], [5, 1, 2]],
    each_damaged: [3, 3],
    large_damaged: (&[[6, 2, 1]], 24),
    queries: [0, 0, 1, 0, 0, 0, 0, 0, 0, 0],
    long: &[[4, 1, 1], [3, 1, 2], [4, 1, 3]],
    lookups: [5, 6],
    lengths: 8,
    challenges: 10,
    refused: refused::Amounts {
        out_of_range: &[1, 0, 22, 37, 69, 261],
        dimensions: &[2, 3, 4],
        too_small: 5,
        several_lists: 1,
        largest_dependent: 4,
        several_causes: 1,
        most_causes: 4,
        every_sort: (&[2, 3, 4], 1),
    },
};

/// Holds a table that has several parts.
fn hold<const PARTS: usize>(
    rows: [Vec<Row<Wrong>>; PARTS],
    comparisons: impl Fn(&dyn Library) -> Vec<Comparison>,
) {
    let rows: Vec<Row<Wrong>> = rows.into_iter().flatten().collect();
    hold_table(&right_library(), &rows, |library| comparisons(library));
}

#[test]
fn no_two_comparisons_have_one_name() {
    let all = comparisons(&Reference, &FEW);
    let names: HashSet<&str> = all.iter().map(|comparison| comparison.name).collect();
    assert_eq!(names.len(), all.len());
}

/// The program takes all rates and all dimensions up to nine.
#[test]
fn all_parameters_up_to_nine_are_taken() {
    assert!(FULL.turns[2..].iter().all(|&turns| turns > 0));
}

/// All numbers that a prover or a judge may answer with, and those of refusals before the work.
const ALL: &[u64] = &[0, 4, 5, 6, 7, 8, 9, 10, 11, 12, 13, 17];
const BEFORE_WORK: &[u64] = &[4, 5, 6, 7, 8, 9, 10, 13, 17];

// Folds over cosets and of entries that may be wrong.

/// How layers are folded: over the cosets of layers 0 to r, and which entries together.
#[derive(Clone, Copy)]
pub struct Folding {
    cosets: fn(&Run) -> Vec<Coset>,
    /// Those half the length away, as in multiplicative FRI, and not neighbours.
    halves: bool,
}

const RIGHT: Folding = Folding { cosets: protocol::cosets, halves: false };

pub const HALVES: (&str, Folding) =
    ("entries are paired with those half the length away", Folding { halves: true, ..RIGHT });

pub const FIRST_BASIS: (&str, Folding) =
    ("round 1 folds over the basis of layer 0", Folding { cosets: with_first_basis, ..RIGHT });

pub const PLAIN_POINTS: (&str, Folding) =
    ("later layers have the points 0, 1, 2 and so on", Folding { cosets: with_plain, ..RIGHT });

fn with_first_basis(run: &Run) -> Vec<Coset> {
    let mut cosets = protocol::cosets(run);
    let length = cosets[1].basis.len();
    cosets[1].basis.copy_from_slice(&run.basis[..length]);
    cosets
}

fn with_plain(run: &Run) -> Vec<Coset> {
    let mut cosets = protocol::cosets(run);
    for coset in &mut cosets[1..] {
        let places = 0..coset.basis.len();
        *coset = Coset { offset: 0, basis: places.map(|place| 1 << place).collect() };
    }
    cosets
}

impl Folding {
    /// Entry j of the fold of a layer in a round.
    pub fn entry(self, run: &Run, round: usize, layer: &[u64], j: usize) -> u64 {
        let step = run.parameters.step;
        let Coset { offset, basis } = &(self.cosets)(run)[round];
        let index = |entry: usize| match self.halves {
            true => j + entry * (layer.len() >> step),
            false => (j << step) + entry,
        };
        let indices = (0..1 << step).map(index);
        let points: Vec<u64> =
            indices.clone().map(|index| point(*offset, basis, index as u64)).collect();
        let entries: Vec<u64> = indices.map(|index| layer[index]).collect();
        value(&interpolant(&points, &entries), run.challenges[round])
    }
}
