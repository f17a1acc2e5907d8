//! The prover and the judge beside the same methods in Rust, and how both grow with the coset.

mod apart;
mod inputs;
mod judge;
mod layers;
mod prover;
mod sheet;
mod transcript;

use crate::beside::{work, Operation};
use crate::clock::{least, Work};
use inputs::Inputs;
use judge::Proof;

const GROWTH_STEP: usize = 2;

pub fn report() {
    let growing: Vec<Inputs> = (10..=20).step_by(2).map(Inputs::new).collect();
    if let Some(largest) = growing.last() {
        prover::report(largest);
        judge::report(largest);
        apart::report(largest);
        transcript::report(largest);
        sheet::report(largest);
    }
    report_growth(&growing);
}

/// The library's times, a column for each coset.
fn report_growth(growing: &[Inputs]) {
    let runs = || growing.iter().map(|inputs| inputs.run(GROWTH_STEP));
    let dimensions: Vec<usize> = runs().map(|run| run.k).collect();
    println!("\ngrowth with k = {dimensions:?} at step {GROWTH_STEP}, in µs:");
    let provers = runs().map(|run| work(run, ("prove", Operation::by_library)));
    print_times("prove", provers.collect(), 20);
    let proved: Vec<_> = runs().map(prover::proved).collect();
    let judges = growing.iter().zip(&proved).map(|(inputs, (store, last))| {
        let (run, queries) = (inputs.run(GROWTH_STEP), &inputs.queries[..]);
        work(Proof { run, queries, store, last }, ("judge", Operation::by_library))
    });
    print_times("judge", judges.collect(), judge::TURNS);
}

fn print_times(title: &str, mut works: Vec<Work>, turns: usize) {
    print!("    {title:<10}");
    for time in least(&mut works, turns) {
        print!("{:>9.1}", time / 1e3);
    }
    println!();
}
