//! Times several pieces of work in rotation, so that a busy machine slows all of them alike.

use std::hint::black_box;
use std::time::Instant;

pub struct Work<'a> {
    pub name: &'a str,
    pub run: Box<dyn FnMut() -> u64 + 'a>,
}

/// The least time of each piece of work over so many turns, in nanoseconds.
pub fn least(works: &mut [Work], turns: usize) -> Vec<f64> {
    let mut best = vec![f64::INFINITY; works.len()];
    for _ in 0..turns {
        for (work, least) in works.iter_mut().zip(best.iter_mut()) {
            let start = Instant::now();
            black_box((work.run)());
            *least = least.min(start.elapsed().as_secs_f64() * 1e9);
        }
    }
    best
}

/// Prints a line for each piece of work: its least time in the unit, which is so many
/// nanoseconds, and the first one's time over its own.
pub fn table<'a>(
    works: impl IntoIterator<Item = Work<'a>>,
    turns: usize,
    unit: &str,
    nanoseconds: f64,
) {
    let mut works: Vec<Work> = works.into_iter().collect();
    let times = least(&mut works, turns);
    let names = works.iter().map(|work| work.name);
    print_table(&names.zip(times).collect::<Vec<_>>(), unit, nanoseconds);
}

/// Prints those lines for times that are known.
pub fn print_table(times: &[(&str, f64)], unit: &str, nanoseconds: f64) {
    for (name, time) in times {
        let (shown, ratio) = (time / nanoseconds, times[0].1 / time);
        println!("    {name:<38}{shown:>7.1} {unit} {ratio:>6.2}");
    }
}
