//! What all comparisons share: running one, making the input of a difference smaller, and the
//! report.
//!
//! A part of the library adds a file here with its own inputs and comparisons.

pub mod field;
pub mod fold;
pub mod numbers;
pub mod protocol;
pub mod reed_solomon;
pub mod sheet;
pub mod transcript;
pub mod write;

mod call;
pub(crate) mod cosets;
mod lent;
mod library;
mod lists;
pub mod operation;
mod program;
mod refused;
#[cfg(test)]
mod wrong;

use crate::answer::Answer;
use lists::{show_elements, simpler_lists};
use std::cell::Cell;
use std::thread;

/// Something that a report can show; numbers are shown in hexadecimal.
pub trait Show {
    fn show(&self) -> String;
}

/// An input of a comparison. The smaller it is the easier a difference is to understand.
pub trait Input: Clone + Show {
    type Size: Ord;

    fn size(&self) -> Self::Size;

    /// Inputs to try in place of this one. Those that are not of a smaller size are passed over.
    fn simpler(&self) -> Vec<Self>;
}

/// What the two sides of a comparison are called in the report.
pub type Sides = [&'static str; 2];

pub const REFERENCE_AND_LIBRARY: Sides = ["reference", "library"];
pub const REFERENCE_AND_PROGRAM: Sides = ["reference", "program"];
pub const PAPER_AND_LIBRARY: Sides = ["paper", "library"];
pub const PAPER_AND_PROGRAM: Sides = ["paper", "program"];
pub const LEFT_AND_RIGHT: Sides = ["left side", "right side"];

/// A comparison that was run.
#[derive(Clone, Debug)]
pub struct Comparison {
    pub name: &'static str,
    /// How many inputs were compared.
    pub inputs: usize,
    pub difference: Option<Difference>,
}

/// The smallest input found on which the two sides differ, as it is shown.
#[derive(Clone, Debug)]
pub struct Difference {
    /// How many of the inputs differ.
    pub inputs: usize,
    pub smallest: String,
    pub sides: Sides,
    pub answers: [String; 2],
}

impl Comparison {
    /// A comparison without inputs says nothing, so it does not agree.
    pub fn agrees(&self) -> bool {
        self.inputs > 0 && self.difference.is_none()
    }
}

/// Compares the two sides on all inputs. Both sides must be right for every input that `simpler`
/// can reach, since a difference is made smaller.
pub fn compare<I: Input, A: PartialEq + Show>(
    name: &'static str,
    inputs: impl IntoIterator<Item = I>,
    sides: Sides,
    first: impl Fn(&I) -> A,
    second: impl Fn(&I) -> A,
) -> Comparison {
    let asked = inputs.into_iter().map(|input| {
        let differs = first(&input) != second(&input);
        (input, differs)
    });
    comparison(name, asked, sides, &first, &second)
}

/// The same for a side that waits for something else: the inputs are shared among a few threads.
pub fn compare_on_threads<I: Input + Sync, A: PartialEq + Show>(
    name: &'static str,
    inputs: &[I],
    sides: Sides,
    first: impl Fn(&I) -> A + Sync,
    second: impl Fn(&I) -> A + Sync,
) -> Comparison {
    let differ = on_threads(inputs, |input| first(input) != second(input));
    let asked = inputs.iter().cloned().zip(differ);
    comparison(name, asked, sides, &first, &second)
}

/// More than a small machine has, since the threads wait much.
const THREADS: usize = 4;

/// Asks about each input. The answers are in the order of the inputs.
fn on_threads<I: Sync, A: Send>(inputs: &[I], ask: impl Fn(&I) -> A + Sync) -> Vec<A> {
    let share = inputs.len().div_ceil(THREADS).max(1);
    let ask_all = |share: &[I]| -> Vec<A> { share.iter().map(&ask).collect() };
    thread::scope(|scope| {
        let start = |share| scope.spawn(move || ask_all(share));
        let threads: Vec<_> = inputs.chunks(share).map(start).collect();
        let answers = threads.into_iter().map(|thread| thread.join());
        answers.flat_map(|share| share.expect("answers")).collect()
    })
}

/// The comparison of inputs of which it is known whether the two sides differ.
fn comparison<I: Input, A: Show + PartialEq>(
    name: &'static str,
    asked: impl Iterator<Item = (I, bool)>,
    sides: Sides,
    first: impl Fn(&I) -> A,
    second: impl Fn(&I) -> A,
) -> Comparison {
    let mut compared = 0;
    let mut differing = 0;
    let mut smallest: Option<I> = None;
    for (input, differs) in asked {
        compared += 1;
        if differs {
            differing += 1;
            smallest = Some(match smallest {
                Some(other) if other.size() <= input.size() => other,
                _ => input,
            });
        }
    }
    let difference = smallest.map(|mut input| {
        if SHRINKS.get() {
            input = shrink(input, |input| first(input) != second(input));
        }
        Difference {
            inputs: differing,
            smallest: input.show(),
            sides,
            answers: [first(&input).show(), second(&input).show()],
        }
    });
    Comparison { name, inputs: compared, difference }
}

thread_local! {
    /// Whether inputs are made smaller, which takes far longer than to find that they differ. A
    /// wrong library of which nothing is said but where it differs does without.
    static SHRINKS: Cell<bool> = const { Cell::new(true) };
}

/// Goes to a simpler input for as long as one differs as well, the smallest of them first. It
/// ends because the size falls in each step.
fn shrink<I: Input>(input: I, differs: impl Fn(&I) -> bool) -> I {
    let mut smallest = input;
    loop {
        let (size, mut simpler) = (smallest.size(), smallest.simpler());
        simpler.retain(|simpler| simpler.size() < size);
        simpler.sort_by_cached_key(I::size);
        match simpler.into_iter().find(&differs) {
            Some(input) => smallest = input,
            None => return smallest,
        }
    }
}

/// The text to print, and whether all comparisons agree.
pub struct Report {
    pub text: String,
    pub agrees: bool,
}

/// A line for each comparison, then tables of what was compared, then the result.
pub fn report(comparisons: &[Comparison], tables: &str) -> Report {
    let mut text: String = comparisons.iter().map(lines).collect();
    text += tables;
    let all = comparisons.len();
    let agreeing = comparisons.iter().filter(|one| one.agrees()).count();
    let agrees = all > 0 && agreeing == all;
    if agrees {
        text += &format!("reference: {all} comparisons agree\n");
    } else {
        text += &format!("reference: {} of {all} comparisons do not agree\n", all - agreeing);
    }
    Report { text, agrees }
}

/// The line of a comparison, and below it what a difference looks like.
fn lines(comparison: &Comparison) -> String {
    let Comparison { name, inputs, .. } = comparison;
    let Some(difference) = &comparison.difference else {
        return format!("{name}: {inputs} inputs\n");
    };
    let Difference { inputs: differing, smallest, sides: [first, second], answers: [one, other] } =
        difference;
    format!(
        "{name}: {inputs} inputs, {differing} of them DIFFER\n  \
         smallest input: {smallest}\n  {first}: {one}\n  {second}: {other}\n"
    )
}

/// An input that the paper fixes; nothing else stands for it.
#[derive(Clone)]
pub struct Fixed<I>(pub I);

impl<I: Show> Show for Fixed<I> {
    fn show(&self) -> String {
        self.0.show()
    }
}

impl<I: Input> Input for Fixed<I> {
    type Size = I::Size;

    fn size(&self) -> I::Size {
        self.0.size()
    }

    fn simpler(&self) -> Vec<Self> {
        Vec::new()
    }
}

impl Show for u64 {
    fn show(&self) -> String {
        format!("{self:x}")
    }
}

impl Show for u8 {
    fn show(&self) -> String {
        format!("{self:02x}")
    }
}

/// Numbers with few bits are small, and among them the lesser ones.
impl Input for u64 {
    type Size = (u32, u64);

    fn size(&self) -> (u32, u64) {
        (self.count_ones(), *self)
    }

    fn simpler(&self) -> Vec<u64> {
        let cleared = (0..64).map(|place| self & !(1 << place));
        let shifted = (1..64).map(|places| self >> places);
        cleared.chain(shifted).collect()
    }
}

impl<const N: usize> Show for [u64; N] {
    fn show(&self) -> String {
        self.map(|number| number.show()).join(", ")
    }
}

impl<const N: usize> Input for [u64; N] {
    type Size = (u32, [u64; N]);

    fn size(&self) -> (u32, [u64; N]) {
        (self.iter().map(|number| number.count_ones()).sum(), *self)
    }

    fn simpler(&self) -> Vec<[u64; N]> {
        let mut all = Vec::new();
        for place in 0..N {
            for number in self[place].simpler() {
                let mut simpler = *self;
                simpler[place] = number;
                all.push(simpler);
            }
        }
        all
    }
}

impl Show for Vec<u64> {
    fn show(&self) -> String {
        show_elements(self)
    }
}

impl Input for Vec<u64> {
    type Size = (usize, u32, Vec<u64>);

    fn size(&self) -> Self::Size {
        (self.len(), self.iter().map(|number| number.count_ones()).sum(), self.clone())
    }

    fn simpler(&self) -> Vec<Vec<u64>> {
        simpler_lists(self, true)
    }
}

impl Show for Vec<Vec<u64>> {
    fn show(&self) -> String {
        let shown: Vec<String> = self.iter().map(Show::show).collect();
        shown.join("; ")
    }
}

impl<A: Show, B: Show> Show for (A, B) {
    fn show(&self) -> String {
        format!("{}; with {}", self.0.show(), self.1.show())
    }
}

impl<A: Input, B: Input> Input for (A, B) {
    type Size = (A::Size, B::Size);

    fn size(&self) -> Self::Size {
        (self.0.size(), self.1.size())
    }

    fn simpler(&self) -> Vec<(A, B)> {
        let (one, other) = self;
        let ones = one.simpler().into_iter().map(|one| (one, other.clone()));
        let others = other.simpler().into_iter().map(|other| (one.clone(), other));
        ones.chain(others).collect()
    }
}

impl<A: Show> Show for Option<A> {
    fn show(&self) -> String {
        self.as_ref().map_or_else(|| "none".to_string(), A::show)
    }
}

impl Show for Answer {
    fn show(&self) -> String {
        format!(
            "number {:x}, place {}, round {}, reads {:x}, value {}",
            self.number,
            self.place.show(),
            self.round.show(),
            self.reads,
            self.value.show()
        )
    }
}

#[cfg(test)]
mod tests {
    use super::*;

    fn compare_numbers(inputs: Vec<u64>, second: fn(&u64) -> u64) -> Comparison {
        compare("test", inputs, REFERENCE_AND_LIBRARY, |a| *a, second)
    }

    #[test]
    fn equal_sides_agree_if_there_are_inputs() {
        let right = report(&[compare_numbers(vec![1, 2, 3], |a| *a)], "a table\n");
        assert_eq!(right.text, "test: 3 inputs\na table\nreference: 1 comparisons agree\n");
        let nothing = compare_numbers(Vec::new(), |a| *a);
        assert!(right.agrees && !report(&[nothing], "").agrees && !report(&[], "").agrees);
    }

    #[test]
    fn a_difference_among_many_is_reported_in_hexadecimal() {
        let right = compare_numbers(vec![1], |a| *a);
        let wrong = compare_numbers(vec![0, 0xf7, 0x1f], |a| a & !0x10);
        let report = report(&[right.clone(), wrong, right], "");
        assert!(!report.agrees);
        assert_eq!(
            report.text,
            "test: 1 inputs\ntest: 3 inputs, 2 of them DIFFER\n  smallest input: 10\n  \
             reference: 10\n  library: 0\ntest: 1 inputs\n\
             reference: 1 of 3 comparisons do not agree\n"
        );
    }

    #[test]
    fn the_smallest_input_is_shown() {
        // Without anything simpler the inputs themselves are all there is.
        let inputs = [0xff, 0x300, 0x60, 0x7].map(Fixed);
        let fixed = compare("test", inputs, REFERENCE_AND_LIBRARY, |Fixed(a)| *a, |_| 1u64);
        assert_eq!(fixed.difference.unwrap().smallest, "60");
        let of_pair = |&[a, b]: &[u64; 2]| a & 6 & (b >> 3);
        let inputs = [[u64::MAX, u64::MAX]];
        let pair = compare("test", inputs, REFERENCE_AND_LIBRARY, |_| 0u64, of_pair);
        assert_eq!(pair.difference.unwrap().smallest, "2, 10");
    }

    /// As many as one thread takes or fewer, and more.
    #[test]
    fn threads_find_the_same_differences() {
        for count in 0..4 * THREADS as u64 {
            let inputs: Vec<u64> = (0..count).collect();
            let second = |a: &u64| a & !4;
            let one_by_one = compare_numbers(inputs.clone(), second);
            let sides = REFERENCE_AND_LIBRARY;
            let shared = compare_on_threads("test", &inputs, sides, |a| *a, second);
            let text = |comparison| report(&[comparison], "").text;
            assert_eq!(text(shared), text(one_by_one));
            assert!(inputs.iter().map(second).eq(on_threads(&inputs, second)));
        }
    }
}
