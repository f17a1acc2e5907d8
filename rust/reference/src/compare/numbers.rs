//! The numbers that have a cause. One that is retired has none.

use super::{compare, library, Comparison, REFERENCE_AND_LIBRARY};
use crate::answer::{has_cause, NONE};

/// The function under test.
pub struct Numbers {
    /// The number again, if it has a cause.
    number_of_cause: Box<dyn Fn(u64) -> Option<u64> + Sync>,
}

impl Numbers {
    /// That of the verified library.
    pub fn razgwilh() -> Numbers {
        Numbers { number_of_cause: Box::new(library::number_of_cause) }
    }
}

/// Runs the comparison of this file: with numbers that are small, or not but for a few bits.
pub fn comparisons(Numbers { number_of_cause }: &Numbers) -> Vec<Comparison> {
    let small = 0..=256;
    let cut = [8, 16, 32, 63].into_iter().flat_map(|place| (0..32).map(move |a| a | 1 << place));
    let inputs = small.chain(cut).chain([NONE]);
    let due = |&number: &u64| has_cause(number).then_some(number);
    let name = "numbers that have a cause";
    let library = |&number: &u64| number_of_cause(number);
    vec![compare(name, inputs, REFERENCE_AND_LIBRARY, due, library)]
}

#[cfg(test)]
mod tests {
    use super::*;
    use crate::compare::wrong::{hold_table, row, Row};

    fn knowing(number_of_cause: fn(u64) -> Option<u64>) -> Numbers {
        Numbers { number_of_cause: Box::new(number_of_cause) }
    }

    fn right(number: u64) -> Option<u64> {
        has_cause(number).then_some(number)
    }

    fn wrong(what: &str, wrong: fn(u64) -> Option<u64>, smallest: &str) -> Row<Numbers> {
        let name = "numbers that have a cause";
        row(what, knowing(wrong)).differs(&[name]).smallest(name, smallest)
    }

    #[test]
    fn wrong_libraries_differ_as_they_should() {
        let rows = [
            wrong("15 has a cause", |n| right(if n == 15 { 14 } else { n }).map(|_| n), "f"),
            wrong("16 has a cause", |n| right(if n == 16 { 14 } else { n }).map(|_| n), "10"),
            wrong("16 has the cause of 17", |n| right(n + u64::from(n == 16)), "10"),
            wrong("17 is retired too", |n| right(n).filter(|_| n != 17), "11"),
            wrong("0 has a cause", |n| right(n.max(1)).map(|_| n), "0"),
            wrong("18 has a cause", |n| right(n - u64::from(n == 18)), "12"),
            wrong("cut to 32 bits", |n| right(u64::from(n as u32)), "100000001"),
        ];
        hold_table(&knowing(right), &rows, comparisons);
    }
}
