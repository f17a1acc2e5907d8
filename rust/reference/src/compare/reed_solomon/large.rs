//! Calls of large dimensions. What an operation gives is compared as a whole with what the
//! transform of the reference gives, at some points by Horner's rule, and after the library has
//! taken it back.

use super::*;
use crate::compare::operation::After;
use crate::compare::{Input, Show};
use crate::coset::point;
use crate::polynomial::horner;

/// What the names of the comparisons end in.
pub const BOTH_WAYS: &str = "k 15 to 20, at points by Horner, and back";

/// At how many points Horner's rule is used.
const POINTS: usize = 20;

pub fn comparisons(library: &dyn Library, amounts: &[(u64, usize)]) -> Vec<Comparison> {
    let compared = [&ENCODE, &INTERPOLATE].into_iter().map(|operation| {
        let name = operation.title(BOTH_WAYS);
        let found = |large: &Large| large.of(library);
        compare(name, all(operation, amounts), REFERENCE_AND_LIBRARY, Large::due, found)
    });
    compared.collect()
}

fn all(operation: Op, amounts: &[(u64, usize)]) -> Vec<Large> {
    let of = |&(k, turns)| (0..turns).map(move |turn| Large { operation, k, turn });
    amounts.iter().flat_map(of).collect()
}

/// What a right call is made from each time that it is made, since it takes much room.
#[derive(Clone)]
struct Large {
    operation: Op,
    k: u64,
    turn: usize,
}

/// What a call gave, and then the answer of the way back, the list that came back, and the values
/// at some points.
type Seen = (After<Answer>, Vec<Vec<u64>>);

impl Large {
    fn call(&self) -> Call {
        over_coset(self.operation, &mut Random::named(&self.show()), self.k, self.turn)
    }

    /// The indices of the points to look at: the first, the last, those beside the middle, and
    /// any others.
    fn picked(&self) -> Vec<usize> {
        let (points, middle) = (1 << self.k, (1 << self.k) / 2);
        let mut random = Random::named(&format!("{} at points", self.show()));
        let others = (4..POINTS).map(|_| random.below(points));
        [0, points - 1, middle, middle.saturating_sub(1)].into_iter().chain(others).collect()
    }

    /// The values of the polynomial by Horner's rule.
    fn by_horner(&self, call: &Call, polynomial: &[u64]) -> Vec<u64> {
        let point = |index| point(call[Offset], &call[Basis], index as u64);
        self.picked().into_iter().map(|index| horner(polynomial, point(index))).collect()
    }

    /// The values that a word has.
    fn in_word(&self, word: &[u64]) -> Vec<u64> {
        self.picked().into_iter().map(|index| word[index]).collect()
    }

    fn due(&self) -> Seen {
        let call = self.call();
        let values = match self.operation == &ENCODE {
            true => self.by_horner(&call, &call[Given]),
            false => self.in_word(&call[Given]),
        };
        let there = after_safe(&Transforms, &call);
        (there, vec![raw(&done()).to_vec(), padded(&call), values])
    }

    fn of(&self, library: &dyn Library) -> Seen {
        let call = self.call();
        let mut there = after_safe(library, &call);
        let given = there.outputs.first().to_vec();
        let values = match self.operation == &ENCODE {
            true => self.in_word(&given),
            false => self.by_horner(&call, &given),
        };
        let mut returned = after_safe(library, &returning(&call, given));
        let back = returned.outputs.first().to_vec();
        (there, vec![raw(&returned.answer).to_vec(), back, values])
    }
}

impl Show for Large {
    fn show(&self) -> String {
        let Large { operation, k, turn } = self;
        format!("{} at k {k}, turn {turn}", operation.name)
    }
}

impl Input for Large {
    type Size = (u64, usize);

    fn size(&self) -> (u64, usize) {
        (self.k, self.turn)
    }

    /// The lowest dimensions come first, so that little time is spent on high ones.
    fn simpler(&self) -> Vec<Large> {
        (0..self.k).map(|k| Large { k, ..self.clone() }).collect()
    }
}
