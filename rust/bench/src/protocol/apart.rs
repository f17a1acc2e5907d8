//! The check that no two queries share a first-layer coset, and its share of a judging.

use super::inputs::Inputs;
use super::judge::{Proof, TURNS};
use super::prover::proved;
use crate::beside::{checked, work, Operation};
use crate::clock::{least, print_table, Work};
use razgwilh::{Cause, Refusal};
use std::hint::black_box;

/// The library's method: each query's coset is compared with that of every earlier one.
pub fn check_apart(queries: &[u64], step: usize) -> Result<(), Refusal> {
    for (place, query) in queries.iter().enumerate() {
        if visits(step, &queries[..place], query >> step) {
            return Err(refusal(Cause::CosetShared, place));
        }
    }
    Ok(())
}

/// Whether one of the queries visits the coset. Inlined, it is compiled to slower code.
#[inline(never)]
fn visits(step: usize, queries: &[u64], coset: u64) -> bool {
    queries.iter().any(|query| query >> step == coset)
}

fn refusal(cause: Cause, place: usize) -> Refusal {
    Refusal { cause, place: Some(place as u64), round: None, reads: 0 }
}

pub fn report(inputs: &Inputs) {
    let (entries, queries) = (inputs.word.len(), inputs.queries.len());
    println!(
        "\ncheck that no two of {queries} queries share a first-layer coset, {} comparisons, in \
         the judge of {entries} entries;\nthe library's time for it is that of a judging refused \
         at the last query by {},\nless that of one refused there by {}, which comes just before:",
        queries * (queries - 1) / 2,
        Cause::CosetShared,
        Cause::QueryOutOfRange
    );
    for step in 1..=3 {
        let run = inputs.run(step);
        let (store, last) = proved(run);
        print_share(Proof { run, queries: &inputs.queries, store: &store, last: &last });
    }
}

/// The refusals differ in this check alone: the one is found by the last comparison, the other
/// before the first.
fn print_share(proof: Proof) {
    let [others @ .., neighbour, _] = proof.queries else { panic!("two queries at least") };
    let ended_by = |last: u64| [others, &[*neighbour, last]].concat();
    let (shared, outside) = (ended_by(neighbour ^ 1), ended_by(1 << proof.run.k));
    let shared = Proof { queries: &shared, ..proof };
    let outside = Proof { queries: &outside, ..proof };
    let place = proof.queries.len() - 1;
    assert_eq!(checked(shared), Err(refusal(Cause::CosetShared, place)));
    assert_eq!(outside.by_library(&mut ()), Err(refusal(Cause::QueryOutOfRange, place)));
    let by_rust = || check_apart(black_box(proof.queries), proof.run.step).is_ok().into();
    let mut works = [
        work(proof, ("accepted", Operation::by_library)),
        work(shared, ("refused by the check", Operation::by_library)),
        work(outside, ("refused before the check", Operation::by_library)),
        Work { name: "the check alone", run: Box::new(by_rust) },
    ];
    let times = least(&mut works, TURNS);
    let (check, by_rust) = (times[1] - times[2], times[3]);
    let share = 100.0 * check / times[0];
    println!("  step {}, {share:.1} % of a judging that accepts:", proof.run.step);
    print_table(&[("the library", check), ("the same method in Rust", by_rust)], "µs", 1e3);
}
