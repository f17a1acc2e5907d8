//! Runs whose layers are known without folding, from the last one back.
//!
//! Over each coset of the fold a layer is a polynomial of degree below 2^step in the difference
//! from the challenge. Its constant is the entry of the next layer, and so the fold at the
//! challenge is the next layer, whatever the other coefficients are.

use super::right::coset_and_challenges;
use super::turns;
use crate::coset::{point, points};
use crate::field;
use crate::fold::Coset;
use crate::parameters::Parameters;
use crate::polynomial::value;
use crate::protocol::{cosets, Run};
use crate::random::Random;

/// What the other coefficients are.
#[derive(Clone, Copy)]
pub enum Others {
    /// The same multiples of the constant over all cosets. So the layer has the highest degree that
    /// leads to that of the next one.
    Multiples,
    /// Any, and so the layer may be any that has this fold. If the degree of the next layer is low
    /// the challenge is exceptional.
    Any,
}

/// A run with the honest store and the honest last coefficients, whose last layer has this degree.
pub fn known(
    random: &mut Random,
    parameters: Parameters,
    degree: usize,
    others: Others,
    turn: usize,
) -> Run {
    let run = coset_and_challenges(random, parameters, turn);
    let mut polynomial = random.list(degree + 1);
    polynomial[degree] |= 1;
    let mut layers = layers(random, &run, &polynomial, others);
    layers.pop();
    polynomial.resize(parameters.last_count(), 0);
    Run { word: layers.remove(0), store: layers.concat(), last: polynomial, ..run }
}

/// Layers 0 to r over the cosets of a run, the last one with the values of a polynomial.
fn layers(random: &mut Random, run: &Run, polynomial: &[u64], others: Others) -> Vec<Vec<u64>> {
    let cosets = cosets(run);
    let Coset { offset, basis } = &cosets[run.challenges.len()];
    let points = points(*offset, basis);
    let mut backwards: Vec<Vec<u64>> = vec![points.iter().map(|&x| value(polynomial, x)).collect()];
    for (coset, &challenge) in cosets.iter().zip(&run.challenges).rev() {
        let next = &backwards[backwards.len() - 1];
        backwards.push(unfolded(random, run.parameters.step, coset, challenge, next, others));
    }
    backwards.reverse();
    backwards
}

/// A layer whose fold at the challenge is the next layer.
fn unfolded(
    random: &mut Random,
    step: u64,
    coset: &Coset,
    challenge: u64,
    next: &[u64],
    others: Others,
) -> Vec<u64> {
    let mut factors = random.list((1 << step) - 1);
    *factors.last_mut().expect("two entries or more") |= 1;
    let mut layer = Vec::new();
    for &constant in next {
        let others = match others {
            Others::Multiples => factors.iter().map(|&f| field::product(constant, f)).collect(),
            Others::Any => random.list(factors.len()),
        };
        let coefficients = [vec![constant], others].concat();
        for _ in 0..1 << step {
            let x = point(coset.offset, &coset.basis, layer.len() as u64);
            layer.push(value(&coefficients, field::sum(x, challenge)));
        }
    }
    layer
}

/// Words of too high a degree that are proved all the same: all challenges are exceptional.
pub fn exceptional(random: &mut Random, amounts: &[usize]) -> Vec<Run> {
    turns(amounts).map(|(parameters, turn)| exceptional_of(random, parameters, turn)).collect()
}

pub fn exceptional_of(random: &mut Random, parameters: Parameters, turn: usize) -> Run {
    known(random, parameters, parameters.last_count() - 1, Others::Any, turn)
}

/// An honest run that may be too large for the reference to fold, of the highest degree there is.
pub fn honest(random: &mut Random, parameters: Parameters) -> Run {
    known(random, parameters, parameters.last_count() - 1, Others::Multiples, 0)
}

#[cfg(test)]
mod tests {
    use super::*;
    use crate::parameters::all_up_to;
    use crate::polynomial::interpolant;

    /// With multiples the highest below the bound, and with any coefficients one above it.
    #[test]
    fn the_degrees_of_the_words() {
        let random = &mut Random::named("degrees of known words");
        let degree = |run: &Run| {
            let polynomial = interpolant(&points(run.offset, &run.basis), &run.word);
            polynomial.iter().rposition(|&coefficient| coefficient != 0)
        };
        for parameters in all_up_to(6) {
            let bound = parameters.layer_length(0) >> parameters.rate;
            assert_eq!(degree(&honest(random, parameters)), Some(bound - 1));
            assert!(degree(&exceptional_of(random, parameters, 0)) >= Some(bound));
        }
    }
}
