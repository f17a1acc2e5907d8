//! Proving and judging over lists, from the definitions alone.
//!
//! The prover folds layer after layer. The judge takes query after query and round after round
//! as the paper tells them, and notes each coset that it meets. Reads are what it noted: the
//! paper's formulas for them are tested, not used.

use crate::answer::{
    accepted, done, failed, refused, refused_at, Answer, COSET_SHARED, DEGREE_TOO_HIGH,
    QUERY_OUT_OF_RANGE, WRONG_QUERY_COUNT,
};
use crate::coset::{point, points};
use crate::fold::{self, assert_later_independent, following, Coset, Fold};
use crate::parameters::Parameters;
use crate::polynomial::{interpolant, value};
use crate::refusal::{
    independent, required, right_length, LIST_OF_THE_BASIS, LIST_OF_THE_CHALLENGES,
    LIST_OF_THE_GIVEN, LIST_OF_THE_LAST, LIST_OF_THE_STORE,
};
use std::collections::BTreeSet;
use std::ops::RangeInclusive;

/// How many queries a judge takes.
pub const QUERY_COUNTS: RangeInclusive<usize> = 1..=256;

/// What is judged, but for the queries. To a prover the store and the last coefficients are
/// lists lent for writing.
#[derive(Clone)]
pub struct Run {
    pub parameters: Parameters,
    pub offset: u64,
    pub basis: Vec<u64>,
    pub challenges: Vec<u64>,
    pub word: Vec<u64>,
    pub store: Vec<u64>,
    pub last: Vec<u64>,
}

impl Run {
    /// The honest run whose word has the values of a polynomial over a coset.
    pub fn honest(
        parameters: Parameters,
        Coset { offset, basis }: Coset,
        polynomial: &[u64],
        challenges: Vec<u64>,
    ) -> Run {
        let word = points(offset, &basis).iter().map(|&x| value(polynomial, x)).collect();
        let (store, last) = (Vec::new(), Vec::new());
        Run { parameters, offset, basis, challenges, word, store, last }.made_honest()
    }

    /// The run with the honest store and the honest last coefficients in place of its own.
    pub fn made_honest(self) -> Run {
        Run { store: joined(&honest_layers(&self)), last: honest_last(&self), ..self }
    }

    /// The coset of layer 0.
    pub fn coset(&self) -> Coset {
        Coset { offset: self.offset, basis: self.basis.clone() }
    }

    /// Layer i, below r, as it was sent, where the store has the right length.
    pub fn layer(&self, i: u64) -> &[u64] {
        if i == 0 {
            return &self.word;
        }
        let part = self.parameters.layer_of_store(self.store.len(), i);
        &self.store[part.expect("a layer of the store")]
    }
}

// Layers. All of these take parameters that may be used, and a basis, challenges and a word of
// the right lengths, most of them as a run.

/// The cosets of layers 0 to r.
pub fn cosets(run: &Run) -> Vec<Coset> {
    cosets_from(run.parameters, &run.coset())
}

/// The cosets of layers 0 to r, from that of layer 0.
pub fn cosets_from(parameters: Parameters, first: &Coset) -> Vec<Coset> {
    let step = parameters.step as usize;
    let mut all = vec![first.clone()];
    for i in 0..parameters.rounds() as usize {
        all.push(following(step, all[i].offset, &all[i].basis));
    }
    all
}

/// A layer over its coset, as it is folded at a challenge.
fn given<'a>(step: u64, coset: &'a Coset, layer: &'a [u64], challenge: u64) -> Fold<'a> {
    Fold {
        k: coset.basis.len(),
        step: step as usize,
        offset: coset.offset,
        basis: &coset.basis,
        word: layer,
        challenge,
    }
}

/// The honest layers, 0 to r.
pub fn honest_layers(run: &Run) -> Vec<Vec<u64>> {
    let step = run.parameters.step;
    let mut layer = run.word.clone();
    let mut all = vec![layer.clone()];
    for (coset, &challenge) in cosets(run).iter().zip(&run.challenges) {
        let given = given(step, coset, &layer, challenge);
        let indices = 0..layer.len() >> step;
        layer = indices.map(|index| fold::entry(given, index)).collect();
        all.push(layer.clone());
    }
    all
}

/// The first d coefficients of the honest layer r.
pub fn honest_last(run: &Run) -> Vec<u64> {
    let polynomial = last_interpolant(run, &honest_layers(run));
    polynomial[..run.parameters.last_count()].to_vec()
}

/// What the store holds of layers 0 to r.
fn joined(layers: &[Vec<u64>]) -> Vec<u64> {
    layers[1..layers.len() - 1].concat()
}

/// The interpolant of the last of the layers.
fn last_interpolant(run: &Run, layers: &[Vec<u64>]) -> Vec<u64> {
    let r = run.parameters.rounds() as usize;
    let Coset { offset, basis } = &cosets(run)[r];
    interpolant(&points(*offset, basis), &layers[r])
}

// The prover.

/// What a prover answers, and what the lists lent to it hold afterwards.
#[derive(Debug, PartialEq)]
pub struct Proved {
    pub answer: Answer,
    pub store: Vec<u64>,
    pub last: Vec<u64>,
}

/// Writes the honest store and the honest last coefficients. These are left as they were if the
/// degree of layer r is too high, and both lists if there is any other cause.
pub fn prove(run: &Run) -> Proved {
    let mut proved = Proved { answer: done(), store: run.store.clone(), last: run.last.clone() };
    if let Err(refusal) = may_take(run) {
        proved.answer = refusal;
        return proved;
    }
    let layers = honest_layers(run);
    proved.store = joined(&layers);
    let polynomial = last_interpolant(run, &layers);
    let d = run.parameters.last_count();
    match polynomial.iter().rposition(|&coefficient| coefficient != 0) {
        // The degree stands where other refusals have their place.
        Some(degree) if degree >= d => proved.answer = refused_at(DEGREE_TOO_HIGH, degree as u64),
        _ => proved.last = polynomial[..d].to_vec(),
    }
    proved
}

// The judge.

/// Accepts, or refuses for the first cause.
pub fn judge(run: &Run, queries: &[u64]) -> Answer {
    match may_judge(run, queries) {
        Ok(()) => verdict(run, queries),
        Err(refusal) => refusal,
    }
}

/// Checks all rounds of all queries, up to the first check that fails.
fn verdict(run: &Run, queries: &[u64]) -> Answer {
    let sent = Sent::of(run);
    let mut reads = 0;
    for (place, &query) in (0..).zip(queries) {
        let mut met = BTreeSet::new();
        for round in 0..run.parameters.rounds() {
            met.extend(cosets_met(run.parameters, query, round));
            if !sent.check(place, query, round).passes() {
                return failed(place, round, reads + entries(run.parameters, &met));
            }
        }
        reads += entries(run.parameters, &met);
    }
    accepted(reads)
}

/// A round check. The query is its place in the list of queries, and the index is the query itself.
#[derive(Clone, Copy, Debug, PartialEq)]
pub struct Check {
    pub query: u64,
    pub index: u64,
    pub round: u64,
    /// The fold of the coset that the query uses in the round.
    pub computed: u64,
    /// What that fold must equal.
    pub found: u64,
}

impl Check {
    pub fn passes(&self) -> bool {
        self.computed == self.found
    }
}

/// All round checks of a run that may be judged, also those behind one that fails.
pub fn checks(run: &Run, queries: &[u64]) -> Vec<Check> {
    let sent = Sent::of(run);
    let all = places_of_checks(run.parameters, queries).into_iter();
    all.map(|[place, index, round]| sent.check(place, index, round)).collect()
}

/// The query, its index and the round of each: lowest query first, then lowest round.
pub fn places_of_checks(parameters: Parameters, queries: &[u64]) -> Vec<[u64; 3]> {
    let rounds = 0..parameters.rounds();
    let of_query = |(place, &index)| rounds.clone().map(move |round| [place, index, round]);
    (0..).zip(queries).flat_map(of_query).collect()
}

/// A coset of a layer below r, by the layer and the place among its cosets.
type Met = (u64, u64);

/// The cosets that a round check meets: the one that it folds, and the one that holds the entry
/// of the next layer. The last polynomial has no cosets.
fn cosets_met(parameters: Parameters, query: u64, round: u64) -> Vec<Met> {
    let layers = (round..parameters.rounds()).take(2);
    let met = |layer| (layer, parameters.coset_used(query, layer));
    layers.map(met).collect()
}

/// How many entries these cosets have.
fn entries(parameters: Parameters, met: &BTreeSet<Met>) -> u64 {
    (met.len() as u64) << parameters.step
}

/// A run that may be judged, with the cosets of its layers 0 to r.
struct Sent<'a> {
    run: &'a Run,
    cosets: Vec<Coset>,
}

impl Sent<'_> {
    fn of(run: &Run) -> Sent<'_> {
        Sent { run, cosets: cosets(run) }
    }

    fn check(&self, place: u64, index: u64, round: u64) -> Check {
        let (computed, found) = (self.fold(index, round), self.due(index, round));
        Check { query: place, index, round, computed, found }
    }

    /// The fold of the coset that a query uses in a round.
    fn fold(&self, query: u64, round: u64) -> u64 {
        let Run { parameters, challenges, .. } = self.run;
        let coset = &self.cosets[round as usize];
        let layer = self.run.layer(round);
        let given = given(parameters.step, coset, layer, challenges[round as usize]);
        fold::entry(given, parameters.coset_used(query, round) as usize)
    }

    /// What that fold must equal: the entry of the next layer, or the value of the last
    /// polynomial at the point of layer r.
    fn due(&self, query: u64, round: u64) -> u64 {
        let next = round + 1;
        let index = self.run.parameters.index(query, next);
        if next < self.run.parameters.rounds() {
            return self.run.layer(next)[index as usize];
        }
        let Coset { offset, basis } = &self.cosets[next as usize];
        value(&self.run.last, point(*offset, basis, index))
    }
}

// Refusals. Each function stops at the first cause, in the paper's order.

/// All causes that a prover and a judge share.
pub fn may_take(run: &Run) -> Result<(), Answer> {
    right_lists(run)?;
    right_basis(run.parameters, &run.coset())
}

/// All causes but a round check.
pub fn may_judge(run: &Run, queries: &[u64]) -> Result<(), Answer> {
    may_take(run)?;
    right_queries(run.parameters, queries)
}

/// Bad parameters and lists of wrong lengths.
pub fn right_lists(run: &Run) -> Result<(), Answer> {
    let parameters = run.parameters;
    parameters.may_use()?;
    let due = [
        (LIST_OF_THE_BASIS, &run.basis, parameters.k as usize),
        (LIST_OF_THE_CHALLENGES, &run.challenges, parameters.rounds() as usize),
        (LIST_OF_THE_GIVEN, &run.word, parameters.layer_length(0)),
        (LIST_OF_THE_STORE, &run.store, parameters.store_length()),
        (LIST_OF_THE_LAST, &run.last, parameters.last_count()),
    ];
    for (number, list, length) in due {
        right_length(number, list.len() == length)?;
    }
    Ok(())
}

/// The basis of layer 0, where it has the right length. Those of later layers are then right.
pub fn right_basis(parameters: Parameters, first: &Coset) -> Result<(), Answer> {
    independent(&first.basis)?;
    assert_later_independent(&cosets_from(parameters, first)[1..]);
    Ok(())
}

pub fn right_queries(parameters: Parameters, queries: &[u64]) -> Result<(), Answer> {
    right_query_count(queries.len())?;
    right_indices(parameters, queries)
}

pub fn right_query_count(count: usize) -> Result<(), Answer> {
    required(QUERY_COUNTS.contains(&count), refused(WRONG_QUERY_COUNT))
}

/// All that is asked of the queries but their count.
pub fn right_indices(parameters: Parameters, queries: &[u64]) -> Result<(), Answer> {
    queries_in_range(parameters, queries)?;
    queries_apart(parameters, queries)
}

fn queries_in_range(parameters: Parameters, queries: &[u64]) -> Result<(), Answer> {
    let outside = |&query: &u64| query >= 1 << parameters.k;
    match queries.iter().position(outside) {
        Some(place) => Err(refused_at(QUERY_OUT_OF_RANGE, place as u64)),
        None => Ok(()),
    }
}

/// No query uses a coset of layer 0 that an earlier one has used.
fn queries_apart(parameters: Parameters, queries: &[u64]) -> Result<(), Answer> {
    let mut used = BTreeSet::new();
    let again = |&query: &u64| !used.insert(parameters.coset_used(query, 0));
    match queries.iter().position(again) {
        Some(place) => Err(refused_at(COSET_SHARED, place as u64)),
        None => Ok(()),
    }
}

#[cfg(test)]
mod tests;
