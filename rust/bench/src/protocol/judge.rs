//! The judge beside the same method in Rust.

use super::apart::check_apart;
use super::inputs::{Inputs, RATE};
use super::layers::{check_basis, layer_start};
use super::prover::proved;
use crate::arithmetic::{counted, Arithmetic, Counts, OneByOne};
use crate::beside::{checked, compare, work, Operation};
use crate::clock::least;
use crate::codes::evaluate;
use crate::coset::{composed_maps, point, step_elements, LayerCoset};
use crate::fold::{inverses_of, span_of, Coset};
use razgwilh::{Accepted, Cause, Refusal, Run};

pub const TURNS: usize = 200;

/// What was sent, and the queries.
#[derive(Clone, Copy)]
pub struct Proof<'a> {
    pub run: Run<'a>,
    pub queries: &'a [u64],
    pub store: &'a [u64],
    pub last: &'a [u64],
}

pub fn report(inputs: &Inputs) {
    let (entries, queries) = (inputs.word.len(), inputs.queries.len());
    println!("\njudge of {entries} entries with rate {RATE} at {queries} queries:");
    for step in 1..=3 {
        let run = inputs.run(step);
        let (store, last) = proved(run);
        let proof = Proof { run, queries: &inputs.queries, store: &store, last: &last };
        check(proof);
        print_counts(proof);
        compare(proof, TURNS, "µs", 1e3);
        print_share_of_the_set_up(proof);
    }
}

/// How long the library takes for what it does once a judging, its checks and the set-up of the
/// layers: what it takes with one query, less what each of a few more adds.
fn print_share_of_the_set_up(proof: Proof) {
    const MORE: usize = 32;
    let with = |count| Proof { queries: &proof.queries[..count], ..proof };
    let all = proof.queries.len();
    let mut works =
        [1, 1 + MORE, all].map(|count| work(with(count), ("judge", Operation::by_library)));
    let times = least(&mut works, TURNS);
    let once = times[0] - (times[1] - times[0]) / MORE as f64;
    println!(
        "    set-up and checks of the library {:.1} µs: {:.2} of a judging with one query, {:.3} \
         with {all}",
        once / 1e3,
        once / times[0],
        once / times[2]
    );
}

/// The answers to what was proved, and to a store with another entry where the last query finds
/// one.
fn check(proof: Proof) {
    assert!(checked(proof).is_ok(), "what was proved is accepted");
    let mut damaged = proof.store.to_vec();
    damaged[proof.queries[proof.queries.len() - 1] as usize >> proof.run.step] ^= 1;
    let refusal = checked(Proof { store: &damaged, ..proof }).expect_err("a damaged entry");
    assert_eq!(refusal.cause, Cause::RoundCheckFails);
}

fn print_counts(proof: Proof) {
    let run = proof.run;
    let once = counted(|arithmetic| {
        check_basis(arithmetic, &run);
        set_up(arithmetic, &run)
    });
    let queried = counted(|arithmetic| {
        for query in proof.queries {
            let visit = Visit::first(arithmetic, &run, *query as usize);
            evaluate(arithmetic, proof.last, visit.point);
        }
    });
    print_round_counts(proof, &once, &queried);
    print_set_up_counts(&run);
    let each = |count: u64| count as f64 / proof.queries.len() as f64;
    let Counts { sums, products, inverses, .. } = once;
    println!(
        "    once a query {:.1} sums and {:.1} products, once in all {sums} sums, {products} \
         products and {inverses} inverses:",
        each(queried.sums),
        each(queried.products)
    );
}

/// What the set-up gains by inverting the elements of a step at once.
fn print_set_up_counts(run: &Run) {
    let at_once = counted(|arithmetic| set_up(arithmetic, run)).with_inverses();
    let one_by_one = counted(|arithmetic| set_up(OneByOne(arithmetic), run)).with_inverses();
    println!(
        "    set-up {} inverses, with theirs {} products and {} squarings; one by one {}, {} and \
         {};",
        at_once.inverses,
        at_once.products,
        at_once.squares,
        one_by_one.inverses,
        one_by_one.products,
        one_by_one.squares
    );
}

/// What is left of all operations, without those made once and once a query. The paper's figure
/// takes the points of a coset as given; here a sum each, and one for the first, lists them.
fn print_round_counts(proof: Proof, once: &Counts, queried: &Counts) {
    let step = proof.run.step;
    let listed = (1 << step) + 1;
    let all = counted(|arithmetic| proof.by(arithmetic, &mut ()));
    let checks = proof.queries.len() * proof.run.challenges.len();
    let each = |of: fn(&Counts) -> u64| (of(&all) - of(once) - of(queried)) as f64 / checks as f64;
    println!(
        "  step {step}, {:.1} operations for each query and round beside {listed} sums for its \
         points, wanted at most {}:",
        each(Counts::all) - listed as f64,
        4 * (1 << step) + 6 * step + 1
    );
    let [sums, products] = [each(|counts| counts.sums), each(|counts| counts.products)];
    println!("    {:.1} sums and {products:.1} products;", sums - listed as f64);
}

/// The library's method: what a round has for all queries is found once, then query after query
/// is checked.
impl Operation for Proof<'_> {
    type Room = ();
    type Answer = Result<Accepted, Refusal>;

    fn room(self) {}

    fn by_library(self, (): &mut ()) -> Self::Answer {
        razgwilh::judge(self.run, self.queries, self.store, self.last)
    }

    #[inline(always)]
    fn by(self, arithmetic: impl Arithmetic, (): &mut ()) -> Self::Answer {
        check_basis(arithmetic, &self.run);
        check_apart(self.queries, self.run.step)?;
        let rounds = set_up(arithmetic, &self.run);
        let mut cosets = 0;
        for (query, index) in self.queries.iter().enumerate() {
            if let Some(round) = failing_round(arithmetic, &self, &rounds, *index as usize) {
                cosets += rounds.len().min(round + 2);
                let reads = (cosets << self.run.step) as u64;
                let (place, round) = (Some(query as u64), Some(round as u64));
                return Err(Refusal { cause: Cause::RoundCheckFails, place, round, reads });
            }
            cosets += rounds.len();
        }
        Ok(Accepted { reads: (cosets << self.run.step) as u64 })
    }
}

/// The first round whose check fails for the query.
#[inline(always)]
fn failing_round(
    arithmetic: impl Arithmetic,
    proof: &Proof,
    rounds: &[Round],
    query: usize,
) -> Option<usize> {
    ended_round(arithmetic, proof, rounds, query, |_, computed, found| computed == found)
}

/// Hands round, value computed and value found of the query to `goes_on`, round by round, until
/// that is false; gives the round in which it was.
#[inline(always)]
pub fn ended_round(
    arithmetic: impl Arithmetic,
    proof: &Proof,
    rounds: &[Round],
    query: usize,
    mut goes_on: impl FnMut(usize, u64, u64) -> bool,
) -> Option<usize> {
    let step = proof.run.step;
    let mut visit = Visit::first(arithmetic, &proof.run, query);
    let mut layer = proof.run.word;
    for (i, round) in rounds.iter().enumerate() {
        let next = visit.next(arithmetic, round, step);
        let computed = round.folded(arithmetic, step, visit, layer);
        layer = &proof.store[round.next..];
        let found = if i + 1 < rounds.len() {
            layer[next.index]
        } else {
            evaluate(arithmetic, proof.last, next.point)
        };
        if !goes_on(i, computed, found) {
            return Some(i);
        }
        visit = next;
    }
    None
}

/// What a round has of its layer for all queries, and where the next layer begins in the store.
pub struct Round {
    elements: [u64; 3],
    inverses: [u64; 3],
    span: [u64; 8],
    challenge: u64,
    next: usize,
}

pub fn set_up(arithmetic: impl Arithmetic, run: &Run) -> Vec<Round> {
    let step = run.step;
    let mut coset = LayerCoset::first(0, run.basis);
    let mut rounds = Vec::with_capacity(run.challenges.len());
    for (i, challenge) in run.challenges.iter().enumerate() {
        let elements = step_elements(arithmetic, coset.basis(), step);
        rounds.push(Round {
            elements,
            inverses: inverses_of(arithmetic, &elements[..step]),
            span: span_of(arithmetic, &coset.basis()[..step]),
            challenge: *challenge,
            next: layer_start(run, i + 1),
        });
        coset = coset.next(arithmetic, step);
    }
    rounds
}

impl Round {
    /// The fold of the layer's coset that holds the visit, whose first point is the visit's
    /// plus an entry of the span.
    #[inline(always)]
    fn folded(&self, arithmetic: impl Arithmetic, step: usize, visit: Visit, layer: &[u64]) -> u64 {
        let size = 1 << step;
        let first = arithmetic.sum(visit.point, self.span[visit.index % size]);
        let part = &layer[visit.index / size * size..][..size];
        Coset::read(arithmetic, &self.span[..size], first, part).value_at(
            arithmetic,
            self.challenge,
            &self.inverses[..step],
        )
    }
}

/// A query's index in a layer, and the point there.
#[derive(Clone, Copy)]
struct Visit {
    index: usize,
    point: u64,
}

impl Visit {
    /// In layer 0.
    fn first(arithmetic: impl Arithmetic, run: &Run, index: usize) -> Visit {
        Visit { index, point: point(arithmetic, run.offset, run.basis, index) }
    }

    /// In the next layer.
    #[inline(always)]
    fn next(self, arithmetic: impl Arithmetic, round: &Round, step: usize) -> Visit {
        Visit {
            index: self.index >> step,
            point: composed_maps(arithmetic, &round.elements[..step], self.point),
        }
    }
}
