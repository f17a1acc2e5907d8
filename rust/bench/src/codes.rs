//! Encoding and interpolation beside the same method in Rust, with the library's product and with
//! carry-less multiply hardware; what the method takes, and how it grows with the coset.

mod lists;
mod plain;

pub use plain::{evaluate, interpolate_in_place};

use crate::arithmetic::{counted, Untabled, Windowed};
use crate::beside::{checked, compare, work, Operation};
use crate::clock::{least, table};
use lists::{Encoding, List};

const LARGEST: usize = 20;

pub fn report() {
    check();
    println!(
        "\nencoding and interpolation, wanted at most 1.30 of the same method, for each entry:"
    );
    for dimension in [12, 16, LARGEST] {
        let list = List::new(dimension);
        println!("  encoding of {} entries:", list.entries.len());
        compare(list.encoding(), turns(dimension), "ns", list.size());
        println!("  interpolation of {} entries:", list.entries.len());
        compare(list.interpolation(), turns(dimension), "ns", list.size());
    }
    report_plain(&List::new(12));
    report_tables(&List::new(16));
    report_products(&List::new(LARGEST));
    report_growth();
    report_shorter(&List::new(18));
}

/// About as long for each coset; the largest ones take longer, so that there are enough.
fn turns(dimension: usize) -> usize {
    8.max((1 << 21) >> dimension)
}

/// All sides answer the same: for each of the small cosets, from fewer coefficients too.
fn check() {
    for dimension in 0..=14 {
        let list = List::new(dimension);
        let size = list.entries.len();
        for count in [0, 1, size / 8, size / 4, size / 2, size / 2 + 1] {
            checked(list.encoding_of(count.min(size)));
        }
    }
    for dimension in (0..=14).chain([LARGEST]) {
        let list = List::new(dimension);
        checked(list.encoding());
        checked(list.interpolation());
    }
}

fn report_plain(list: &List) {
    println!(
        "\nencoding of {} entries, wanted at least 150 times as fast as by Horner at each point:",
        list.entries.len()
    );
    let by_horner = |encoding: Encoding, values: &mut Vec<u64>| {
        let List { offset, basis, .. } = encoding.list;
        plain::encode(*offset, basis, encoding.coefficients, values);
    };
    let (mut expected, mut values) = (list.encoding().room(), list.encoding().room());
    list.encoding().by_library(&mut expected);
    by_horner(list.encoding(), &mut values);
    assert!(values == expected, "Horner and the library differ");
    let library = work(list.encoding(), ("the library", Operation::by_library));
    let plain = work(list.encoding(), ("Horner in Rust", by_horner));
    let times = least(&mut [library, plain], 8);
    println!(
        "    {:.2} ms by the library, {:.1} ms by Horner in Rust: {:.0} times as fast",
        times[0] / 1e6,
        times[1] / 1e6,
        times[1] / times[0]
    );
}

fn report_tables(list: &List) {
    println!(
        "\ntables in Rust, {} entries, wanted at most 0.70 of the windowed product throughout, \
         for each entry:",
        list.entries.len()
    );
    let turns = turns(list.basis.len());
    println!("  encoding:");
    beside_untabled(list.encoding(), turns, list.size());
    println!("  interpolation:");
    beside_untabled(list.interpolation(), turns, list.size());
}

fn beside_untabled<O: Operation>(operation: O, turns: usize, size: f64) {
    let tabled = work(operation, ("tables", |operation, room| operation.by(Windowed, room)));
    let untabled =
        work(operation, ("the windowed product", |operation, room| operation.by(Untabled, room)));
    table([tabled, untabled], turns, "ns", size);
}

fn report_products(list: &List) {
    println!("\nproducts for each of {} entries, wanted at most 36:", list.entries.len());
    print_counts("encoding", list.encoding(), list.size());
    print_counts("interpolation", list.interpolation(), list.size());
}

fn print_counts(title: &str, operation: impl Operation, size: f64) {
    let counts = counted(|arithmetic| operation.by(arithmetic, &mut operation.room()));
    println!(
        "    {title:<14}{:.2} products, {:.2} sums, {:.2} tables filled; {} inverses in all",
        counts.products as f64 / size,
        counts.sums as f64 / size,
        counts.tables as f64 / size,
        counts.inverses
    );
}

/// The library's times, a column for each coset.
fn report_growth() {
    let dimensions: Vec<usize> = (10..=LARGEST).step_by(2).collect();
    println!(
        "\ngrowth with k = {dimensions:?}, in ns for each entry, interpolation wanted at most \
         1.10 of encoding:"
    );
    let times: Vec<[f64; 2]> = dimensions.iter().map(|k| both_times(*k)).collect();
    print_row("encoding", 1, times.iter().map(|time| time[0]));
    print_row("interpolation", 1, times.iter().map(|time| time[1]));
    print_row("its ratio", 2, times.iter().map(|time| time[1] / time[0]));
}

fn print_row(title: &str, places: usize, numbers: impl Iterator<Item = f64>) {
    print!("    {title:<14}");
    for number in numbers {
        print!("{number:>9.places$}");
    }
    println!();
}

/// Of encoding and interpolation, for each entry.
fn both_times(dimension: usize) -> [f64; 2] {
    let list = List::new(dimension);
    let encoding = work(list.encoding(), ("encoding", Operation::by_library));
    let interpolation = work(list.interpolation(), ("interpolation", Operation::by_library));
    let times = least(&mut [encoding, interpolation], turns(dimension));
    [times[0] / list.size(), times[1] / list.size()]
}

fn report_shorter(list: &List) {
    let size = list.entries.len();
    println!("\nencoding to {size} entries, expected 0.42 to 0.67 of the full cost:");
    let counts = [size, size / 2, size / 4, size / 8];
    let mut works =
        counts.map(|count| work(list.encoding_of(count), ("the library", Operation::by_library)));
    let times = least(&mut works, turns(list.basis.len()));
    for (count, time) in counts.iter().zip(&times) {
        println!("    {count:>7} coefficients {:>7.1} ms {:>6.2}", time / 1e6, time / times[0]);
    }
}
