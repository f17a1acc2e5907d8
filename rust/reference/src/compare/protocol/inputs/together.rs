//! Query lists in which some share a first-layer coset, or only nearly do.

use super::queries::{honest_and_failing, queries_out_of_range};
use super::right::coset_and_challenges;
use super::{any_queries, any_query, mostly_apart};
use crate::parameters::Parameters;
use crate::protocol::QUERY_COUNTS;
use crate::queries::{apart, in_each_coset, most_apart};
use crate::random::Random;
use crate::transcript::Judging;

/// The most queries that there may be.
const MOST: usize = *QUERY_COUNTS.end();

/// How many queries a first-layer coset has.
fn entries(parameters: Parameters) -> u64 {
    1 << parameters.step
}

/// Any query in the coset of this one.
fn any_beside(random: &mut Random, parameters: Parameters, query: u64) -> u64 {
    query ^ random.below(entries(parameters) as usize) as u64
}

/// Inserts a query in the coset of an earlier one.
pub fn insert_beside(random: &mut Random, parameters: Parameters, queries: &mut Vec<u64>) {
    let earlier = random.below(queries.len());
    let later = earlier + 1 + random.below(queries.len() - earlier);
    queries.insert(later, any_beside(random, parameters, queries[earlier]));
}

// One pair.

/// At all places of short lists, the same query again and another one of its coset; two queries at
/// every distance in their coset; and at the edges of the longest list.
pub fn one_pair(random: &mut Random, parameters: Parameters) -> Vec<Vec<u64>> {
    let one = any_query(random, parameters);
    let mut lists: Vec<Vec<u64>> =
        (0..entries(parameters)).map(|distance| vec![one, one ^ distance]).collect();
    for count in 2..=5.min(most_apart(parameters) + 1) {
        for later in 1..count {
            let at = |earlier| pairs_at(random, parameters, count, [earlier, later]);
            lists.extend((0..later).flat_map(at));
        }
    }
    lists.extend(in_the_longest(random, parameters));
    lists
}

/// Lists of so many queries that are apart but for those at two places: these are equal, or else
/// they differ.
fn pairs_at(
    random: &mut Random,
    parameters: Parameters,
    count: usize,
    [earlier, later]: [usize; 2],
) -> [Vec<u64>; 2] {
    let distance = 1 + random.below(entries(parameters) as usize - 1) as u64;
    [0, distance].map(|distance| {
        let mut list = apart(random, parameters, count - 1);
        list.insert(later, list[earlier] ^ distance);
        list
    })
}

/// The pair at the first places, at the last ones, at the first and the last, and at any.
fn in_the_longest(random: &mut Random, parameters: Parameters) -> Vec<Vec<u64>> {
    let count = MOST.min(most_apart(parameters) + 1);
    let last = count - 1;
    let later = 1 + random.below(last);
    let any = [random.below(later), later];
    let places = [[0, 1], [last - 1, last], [0, last], any];
    places.into_iter().flat_map(|places| pairs_at(random, parameters, count, places)).collect()
}

// More than one pair.

/// A letter stands for a coset.
const PATTERNS: [&str; 16] = [
    "aaa", "aaab", "aaba", "abaa", "baaa", "aabb", "abab", "abba", "aaaa", "aabbcc", "abcabc",
    "abccba", "abcc", "abcbca", "aabcb", "abbbc",
];

/// Two pairs and more, three in one coset and more, as many queries as come, all of them in their
/// order or by their places in their cosets, and more of them than there are cosets.
pub fn several(random: &mut Random, parameters: Parameters) -> Vec<Vec<u64>> {
    let mut lists: Vec<Vec<u64>> =
        PATTERNS.iter().filter_map(|pattern| of_pattern(random, parameters, pattern)).collect();
    let counts = [3, 4, 6, 8, 12, 16, 40, MOST - 1, MOST];
    lists.extend(counts.map(|count| any_queries(random, parameters, count)));
    lists.push((0..parameters.layer_length(0) as u64).take(MOST).collect());
    let one_each = in_each_coset(random, parameters);
    let others = one_each.iter().map(|query| query ^ 1);
    lists.push(one_each.iter().copied().chain(others).take(MOST).collect());
    let one_more = (most_apart(parameters) + 1).min(MOST);
    lists.push(mostly_apart(random, parameters, one_more));
    lists
}

/// If there are as many cosets as it has letters.
fn of_pattern(random: &mut Random, parameters: Parameters, pattern: &str) -> Option<Vec<u64>> {
    let cosets = apart(random, parameters, 3);
    let query = |letter: u8| {
        let &first = cosets.get(usize::from(letter - b'a'))?;
        Some(any_beside(random, parameters, first))
    };
    pattern.bytes().map(query).collect()
}

// Queries that are near each other.

/// Neighbours, in one coset or in two; those that differ in one bit; and those that are apart in
/// layer 0 and share a coset of a later layer, which is right.
pub fn near(random: &mut Random, parameters: Parameters) -> Vec<Vec<u64>> {
    let one = any_query(random, parameters);
    let all = parameters.layer_length(0) as u64;
    let first = if all <= 16 { 0 } else { random.below(all as usize - 16) as u64 };
    let neighbours = (first..all - 1).take(16).flat_map(|i| [vec![i, i + 1], vec![i + 1, i]]);
    let in_one_bit = (0..parameters.k).map(|bit| vec![one, one ^ (1 << bit)]);
    let bits = parameters.step..parameters.k;
    let in_one_bit_each = [one].into_iter().chain(bits.map(|bit| one ^ (1 << bit))).collect();
    let in_later_cosets = (1..parameters.rounds()).flat_map(|layer| {
        let bits = parameters.step * (layer + 1);
        let first = one >> bits << bits;
        let apart = (first..first + (1 << bits)).step_by(entries(parameters) as usize);
        [vec![first, first + (1 << bits) - 1], apart.take(MOST).collect()]
    });
    let lists = neighbours.chain(in_one_bit).chain([in_one_bit_each]);
    lists.chain(in_later_cosets).collect()
}

// With other causes.

/// A pair with a query out of range before, between and behind it; such queries that come again or
/// that only their numbers put into one coset; and each of these among too many queries.
pub fn and_other_causes(random: &mut Random, parameters: Parameters) -> Vec<Vec<u64>> {
    let mut lists = Vec::new();
    for outside in queries_out_of_range(parameters) {
        let one = any_query(random, parameters);
        let other = any_beside(random, parameters, one);
        let in_range = outside % (1 << parameters.k);
        lists.extend([
            vec![outside, one, other],
            vec![one, outside, other],
            vec![one, other, outside],
            vec![outside, outside],
            vec![one, outside, outside ^ 1],
            vec![in_range, outside],
        ]);
    }
    let too_many = |list: &Vec<u64>| {
        let more = mostly_apart(random, parameters, MOST + 1);
        [&list[..], &more].concat()[..MOST + 1].to_vec()
    };
    let too_many: Vec<Vec<u64>> = lists.iter().step_by(5).map(too_many).collect();
    lists.extend(too_many);
    lists
}

// Long lists.

/// Runs of zeros with as many queries as there may be, apart or with a pair, and with queries that
/// are near each other.
pub fn long(mut random: Random, all: &[Parameters]) -> impl Iterator<Item = Judging> + '_ {
    all.iter().enumerate().flat_map(move |(turn, &parameters)| {
        let random = &mut random;
        let mut in_order = in_each_coset(random, parameters);
        in_order.truncate(MOST);
        let mut lists = vec![apart(random, parameters, MOST), in_order];
        lists.extend(in_the_longest(random, parameters));
        lists.extend((0..parameters.k).map(|bit| vec![0, 1 << bit]));
        honest_and_failing(&coset_and_challenges(random, parameters, turn), lists)
    })
}
