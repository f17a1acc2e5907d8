//! Calls that are lent no list but the one for the answer.

use crate::answer::{raw, Answer, ANSWER_LENGTH};
use crate::compare::lent::{Lent, FILLS};
use crate::compare::{compare, Comparison, Input, Show, REFERENCE_AND_LIBRARY};

/// An input, and the list that is lent for its answer.
#[derive(Clone)]
pub struct Answered<I> {
    input: I,
    length: usize,
    fill: u64,
}

/// Each input with a list of this length, filled in one way and in the other in turn.
pub fn answered<I>(
    inputs: impl IntoIterator<Item = I>,
    length: usize,
) -> impl Iterator<Item = Answered<I>> {
    let fills = FILLS.into_iter().cycle();
    inputs.into_iter().zip(fills).map(move |(input, fill)| Answered { input, length, fill })
}

impl<I: Show> Show for Answered<I> {
    fn show(&self) -> String {
        let Answered { input, length, fill } = self;
        format!("{}; answer of length {length}, filled from {fill:x}", input.show())
    }
}

/// The length stays, since a comparison may be about it.
impl<I: Input> Input for Answered<I> {
    type Size = (usize, I::Size, u64);

    fn size(&self) -> Self::Size {
        (self.length, self.input.size(), self.fill)
    }

    fn simpler(&self) -> Vec<Answered<I>> {
        let Answered { length, fill, .. } = *self;
        let simpler = self.input.simpler().into_iter();
        simpler.map(|input| Answered { input, length, fill }).collect()
    }
}

impl<I> Answered<I> {
    /// Lends the list, has it written to, and gives it with the numbers around it.
    fn after(&self, write: impl Fn(&I, &mut [u64])) -> Lent {
        let mut answer = Lent::filled(self.length, self.fill);
        write(&self.input, answer.list());
        answer
    }
}

/// Compares what is in the list afterwards. One of five holds what is due; one of another length
/// is left alone.
pub fn compare_answers<I: Input>(
    name: &'static str,
    inputs: impl IntoIterator<Item = Answered<I>>,
    due: impl Fn(&I) -> Answer,
    write: impl Fn(&I, &mut [u64]),
) -> Comparison {
    let write_due = |input: &I, answer: &mut [u64]| {
        if answer.len() == ANSWER_LENGTH {
            answer.copy_from_slice(&raw(&due(input)));
        }
    };
    let sides = REFERENCE_AND_LIBRARY;
    compare(name, inputs, sides, |call| call.after(&write_due), |call| call.after(&write))
}
