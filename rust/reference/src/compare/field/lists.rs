//! The comparisons of lists that are inverted in their own buffer. What is due is found element
//! by element. A list is quickly inverted in blocks with one inverse for each, which a zero must
//! not spoil; so zeros stand at every place, and at and around the edges of blocks of 64.

mod part;
mod zeros;

use super::{edge_values_and_inverses, Operation};
use crate::compare::{compare, library, Comparison, Sides};
use crate::compare::{PAPER_AND_LIBRARY, REFERENCE_AND_LIBRARY};
use crate::field;
use crate::random::Random;
use part::Part;
use std::ops::{Range, RangeInclusive};
use zeros::Zeros;

/// Inverts a part of a buffer.
type Invert = Box<dyn Fn(&mut [u64], Range<usize>) + Sync>;

/// The functions under test.
pub struct Lists {
    product: Operation,
    invert: Invert,
}

impl Lists {
    /// Those of the verified library. It is lent the part alone.
    pub fn razgwilh() -> Lists {
        Lists {
            product: Box::new(library::product),
            invert: Box::new(|buffer, part| library::invert(&mut buffer[part])),
        }
    }
}

/// What lengths the lists have.
pub struct Amounts {
    lengths: &'static [RangeInclusive<usize>],
    /// With something else at each place in turn.
    each_place: &'static [RangeInclusive<usize>],
    long: &'static [usize],
}

/// What the program of this package compares.
pub const FULL: Amounts = Amounts {
    lengths: &[0..=200],
    each_place: &[0..=66, 128..=129],
    long: &[1_000, 4_096, 4_097, 65_536, 100_003],
};

/// Runs all comparisons of this file.
pub fn comparisons(under_test: &Lists, amounts: &Amounts) -> Vec<Comparison> {
    [
        with_zeros(under_test, amounts),
        with_few_values(under_test, amounts),
        long(under_test, amounts),
        laws(under_test, amounts),
        parts(under_test, amounts),
    ]
    .concat()
}

fn all(lengths: &[RangeInclusive<usize>]) -> impl Iterator<Item = usize> + '_ {
    lengths.iter().cloned().flatten()
}

/// Compares the buffer afterwards with the one that is due.
fn compare_lists(
    name: &'static str,
    inputs: impl IntoIterator<Item = Part>,
    Lists { invert, .. }: &Lists,
) -> Comparison {
    compare(name, inputs, REFERENCE_AND_LIBRARY, Part::due, |part| part.after(invert))
}

// Lists of any elements with zeros among them.

fn with_zeros(under_test: &Lists, amounts: &Amounts) -> Vec<Comparison> {
    let compared = |name, lengths, zeros: Zeros| {
        let mut random = Random::named(name);
        let of_length = |length| zeros::lists(&mut random, length, zeros);
        compare_lists(name, all(lengths).flat_map(of_length).map(Part::whole), under_test)
    };
    let Amounts { lengths, each_place, .. } = amounts;
    vec![
        compared("invert, lengths 0 to 200, no zero", lengths, zeros::nowhere),
        compared("invert, lengths 0 to 200, zeros alone", lengths, zeros::everywhere),
        compared("invert, lengths 0 to 200, zeros at random places", lengths, zeros::at_random),
        compared("invert, lengths 0 to 200, zeros at block edges", lengths, zeros::at_edges),
        compared("invert, lengths 0 to 200, stretches of zeros", lengths, zeros::in_stretches),
        compared("invert, a zero at each place", each_place, zeros::at_each),
        compared("invert, zeros but for each place", each_place, zeros::but_at_each),
    ]
}

// Lists of elements that are not just any.

fn with_few_values(under_test: &Lists, amounts: &Amounts) -> Vec<Comparison> {
    let compared = |name, lists: fn(&mut Random, usize) -> Vec<Vec<u64>>| {
        let mut random = Random::named(name);
        let of_length = |length| lists(&mut random, length);
        let inputs = all(amounts.lengths).flat_map(of_length).map(Part::whole);
        compare_lists(name, inputs, under_test)
    };
    vec![
        compared("invert, lengths 0 to 200, repeated elements", repeated),
        compared("invert, lengths 0 to 200, edge values", edge_lists),
    ]
}

/// Lists that repeat a few elements: one that is its own inverse, others, an element and its
/// inverse, whose product is one, and all of a block.
fn repeated(random: &mut Random, length: usize) -> Vec<Vec<u64>> {
    let [a, b] = random.numbers();
    let block = random.list(64);
    let few: [&[u64]; 8] = [
        &[1],
        &[a],
        &[u64::MAX],
        &[a, b],
        &[a, a, b, b],
        &[a, field::inverse(a)],
        &[a, 0, a],
        &block,
    ];
    few.map(|few| few.iter().copied().cycle().take(length).collect()).into()
}

/// Edge values and the elements that have one for an inverse, in order from the first, which is
/// zero, and from any of them on.
fn edge_lists(random: &mut Random, length: usize) -> Vec<Vec<u64>> {
    let values = Vec::from_iter(edge_values_and_inverses());
    let from = |first| values.iter().copied().cycle().skip(first).take(length).collect();
    vec![from(0), from(random.below(values.len()))]
}

// Long lists.

fn long(under_test: &Lists, amounts: &Amounts) -> Vec<Comparison> {
    let name = "invert, long lists";
    vec![compare_lists(name, without_and_with_zeros(name, amounts.long.to_vec()), under_test)]
}

/// Lists of any elements without zeros and with some, made when they are needed.
fn without_and_with_zeros(name: &str, lengths: Vec<usize>) -> impl Iterator<Item = Part> {
    let mut random = Random::named(name);
    let of_length = move |length| zeros::lists(&mut random, length, zeros::none_or_some);
    lengths.into_iter().flat_map(of_length).map(Part::whole)
}

// Laws, which need no inverse of the reference.

const LIST_AND_TWICE: Sides = ["list", "inverted twice"];

fn laws(Lists { product, invert }: &Lists, amounts: &Amounts) -> Vec<Comparison> {
    let list = |part: &Part| part.list.clone();
    let twice = |part: &Part| Part::whole(part.after(invert)).after(invert);
    // With zero every product is zero.
    let ones = |part: &Part| part.list.iter().map(|&a| u64::from(a != 0)).collect();
    let products = |part: &Part| -> Vec<u64> {
        let inverses = part.after(invert);
        part.list.iter().zip(inverses).map(|(&a, x)| product(a, x)).collect()
    };
    let again = "inverting a list twice gives it again";
    let one = "product with the inverse in a list is one";
    let lists = |name| without_and_with_zeros(name, all(amounts.lengths).collect());
    let long = without_and_with_zeros("long lists for products", amounts.long.to_vec());
    vec![
        compare(again, lists(again), LIST_AND_TWICE, list, twice),
        compare(one, lists(one).chain(long), PAPER_AND_LIBRARY, ones, products),
    ]
}

// Parts of a longer list.

/// How many elements stand before or behind a part: as many as a block has, and about as many.
const AROUND: [usize; 6] = [0, 1, 7, 63, 64, 130];

/// Each length comes with each number of elements before it and with each behind it. Which two of
/// them meet changes from length to length.
fn parts(under_test: &Lists, amounts: &Amounts) -> Vec<Comparison> {
    let name = "invert, a part of a longer list";
    let random = &mut Random::named(name);
    let mut inputs = Vec::new();
    for length in all(amounts.lengths) {
        for (turn, before) in AROUND.into_iter().enumerate() {
            let behind = AROUND[(turn + length) % AROUND.len()];
            inputs.push(part_between(random, length, [before, behind]));
        }
    }
    vec![compare_lists(name, inputs, under_test)]
}

/// Zeros are as likely around the list as in it.
fn part_between(random: &mut Random, length: usize, [before, behind]: [usize; 2]) -> Part {
    let mut list = |length| zeros::any_list(random, length);
    Part { before: list(before), list: list(length), behind: list(behind) }
}

/// Each comparison is shown to fail for a library that is wrong.
#[cfg(test)]
mod tests;
