//! How long the proved library takes, as ratios to Rust in the same run; with the argument
//! `growth`, the table of figures that docs/pictures/growth.svg is drawn from. It tests nothing.

mod arithmetic;
mod beside;
mod clock;
mod codes;
mod coset;
mod field;
mod fold;
mod growth;
mod inversion;
mod multiplier;
mod protocol;
mod transform;

use std::process::ExitCode;

fn main() -> ExitCode {
    let arguments: Vec<String> = std::env::args().skip(1).collect();
    match arguments.iter().map(String::as_str).collect::<Vec<_>>()[..] {
        [] => report(),
        ["growth"] => growth::report(),
        _ => {
            eprintln!("usage: bench [growth]");
            return ExitCode::from(2);
        }
    }
    ExitCode::SUCCESS
}

fn report() {
    println!(
        "the least of many turns taken in rotation, and the library's time over each; both sides \
         built for release"
    );
    field::report();
    inversion::report();
    codes::report();
    fold::report();
    protocol::report();
}
