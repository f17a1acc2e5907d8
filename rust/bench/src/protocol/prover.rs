//! The prover beside the same method in Rust.

use super::inputs::{Inputs, RATE};
use super::layers::{check_basis, dimension, layer_start};
use crate::arithmetic::{counted, Arithmetic};
use crate::beside::{checked, compare, Operation};
use crate::codes::interpolate_in_place;
use crate::coset::{step_elements, LayerCoset};
use crate::fold::fill_values;
use razgwilh::{Cause, Fold, Refusal, Run};

const TURNS: usize = 10;

pub fn report(inputs: &Inputs) {
    println!(
        "\nprove of {} entries with rate {RATE}, wanted at most 1.30 of the same method and 6 products an entry:",
        inputs.word.len()
    );
    for step in 1..=3 {
        let run = inputs.run(step);
        assert_eq!(checked(run), Ok(()), "a word of low degree is proved");
        print_counts(run);
        compare(run, TURNS, "ms", 1e6);
    }
}

fn print_counts(run: Run) {
    let counts = counted(|arithmetic| run.by(arithmetic, &mut run.room()));
    let each = |count: u64| count as f64 / run.word.len() as f64;
    println!(
        "  step {}, {:.2} products for each entry of the word, {:.2} operations with {:.2} sums \
         and {} inverses in all:",
        run.step,
        each(counts.products),
        each(counts.all()),
        each(counts.sums),
        counts.inverses
    );
}

/// The store and the last coefficients, by the library.
pub fn proved(run: Run) -> (Vec<u64>, Vec<u64>) {
    let mut proved = run.room();
    run.by_library(&mut proved).expect("a word of low degree is proved");
    proved
}

/// The library's method: layer after layer, and the last one's coefficients in the place of its
/// values.
impl Operation for Run<'_> {
    /// The store and the last coefficients.
    type Room = (Vec<u64>, Vec<u64>);
    type Answer = Result<(), Refusal>;

    fn room(self) -> Self::Room {
        (vec![0; self.store_length()], vec![0; self.last_length()])
    }

    fn by_library(self, (store, last): &mut Self::Room) -> Self::Answer {
        razgwilh::prove(self, store, last)
    }

    #[inline(always)]
    fn by(self, arithmetic: impl Arithmetic, (store, last): &mut Self::Room) -> Self::Answer {
        check_basis(arithmetic, &self);
        let mut room = [0; 256];
        let room = &mut room[..1 << dimension(&self, self.challenges.len())];
        let coset = fold_layers(arithmetic, &self, store, room);
        interpolate_in_place(arithmetic, coset.offset, coset.basis(), room);
        let (first, others) = room.split_at(last.len());
        if let Some(place) = others.iter().rposition(|c| *c != 0) {
            let degree = Some((first.len() + place) as u64);
            let cause = Cause::DegreeTooLarge;
            return Err(Refusal { cause, place: degree, round: None, reads: 0 });
        }
        last.copy_from_slice(first);
        Ok(())
    }
}

/// Layers 1 to r - 1 into the store and layer r into the room, for which the store has no
/// place; gives the coset of layer r.
#[inline(always)]
fn fold_layers(
    arithmetic: impl Arithmetic,
    run: &Run,
    store: &mut [u64],
    room: &mut [u64],
) -> LayerCoset {
    let mut coset = LayerCoset::first(run.offset, run.basis);
    for (i, challenge) in run.challenges.iter().enumerate() {
        let (front, behind) = store.split_at_mut(layer_start(run, i + 1));
        let given = Fold {
            k: coset.basis().len(),
            step: run.step,
            offset: coset.offset,
            basis: coset.basis(),
            word: match i {
                0 => run.word,
                _ => &front[layer_start(run, i)..],
            },
            challenge: *challenge,
        };
        let next = match behind {
            [] => &mut *room,
            _ => &mut behind[..1 << dimension(run, i + 1)],
        };
        let elements = step_elements(arithmetic, coset.basis(), run.step);
        fill_values(arithmetic, &elements[..run.step], given, next);
        coset = coset.next(arithmetic, run.step);
    }
    coset
}
