//! Where zeros stand in lists of one length.

use crate::random::Random;
use std::collections::BTreeSet;

/// The places of the zeros in each of a few lists of one length.
pub type Zeros = fn(&mut Random, usize) -> Vec<Vec<usize>>;

/// The lists of one length with these zeros; the other elements are any.
pub fn lists(random: &mut Random, length: usize, zeros: Zeros) -> Vec<Vec<u64>> {
    let places = zeros(random, length);
    places.into_iter().map(|places| with_zeros(random.list(length), &places)).collect()
}

fn with_zeros(mut list: Vec<u64>, places: &[usize]) -> Vec<u64> {
    places.iter().for_each(|&place| list[place] = 0);
    list
}

/// A list in which about a quarter are zeros.
pub fn any_list(random: &mut Random, length: usize) -> Vec<u64> {
    let places = one_in(random, 4, length);
    with_zeros(random.list(length), &places)
}

pub fn nowhere(_: &mut Random, _: usize) -> Vec<Vec<usize>> {
    vec![Vec::new()]
}

pub fn everywhere(_: &mut Random, length: usize) -> Vec<Vec<usize>> {
    vec![(0..length).collect()]
}

/// About half, an eighth and a fortieth of the places.
pub fn at_random(random: &mut Random, length: usize) -> Vec<Vec<usize>> {
    [2, 8, 40].map(|count| one_in(random, count, length)).into()
}

/// About one in so many places.
fn one_in(random: &mut Random, count: usize, length: usize) -> Vec<usize> {
    (0..length).filter(|_| random.below(count) == 0).collect()
}

/// Each place at an edge, all of them, and all others.
pub fn at_edges(_: &mut Random, length: usize) -> Vec<Vec<usize>> {
    let edges = edges(length);
    let others = (0..length).filter(|place| !edges.contains(place)).collect();
    let single = edges.iter().map(|&place| vec![place]);
    single.chain([edges.iter().copied().collect(), others]).collect()
}

/// The first and the last two places, and those next to where a block of 64 ends.
fn edges(length: usize) -> BTreeSet<usize> {
    let ends = (0..=length).step_by(64).chain([length]);
    let around = |end: usize| end.saturating_sub(2)..end + 2;
    ends.flat_map(around).filter(|&place| place < length).collect()
}

/// As many as one block and as two have, from the edges on.
pub fn in_stretches(_: &mut Random, length: usize) -> Vec<Vec<usize>> {
    let from = |first| [64, 128].map(|count| (first..length).take(count).collect());
    edges(length).into_iter().flat_map(from).collect()
}

pub fn at_each(_: &mut Random, length: usize) -> Vec<Vec<usize>> {
    (0..length).map(|place| vec![place]).collect()
}

pub fn but_at_each(_: &mut Random, length: usize) -> Vec<Vec<usize>> {
    let but_at = |place| (0..length).filter(|&other| other != place).collect();
    (0..length).map(but_at).collect()
}

/// None, and about an eighth of the places.
pub fn none_or_some(random: &mut Random, length: usize) -> Vec<Vec<usize>> {
    vec![Vec::new(), one_in(random, 8, length)]
}

#[cfg(test)]
mod tests {
    use super::*;

    #[test]
    fn edges_are_those_of_blocks_and_of_the_list() {
        let list = |length| Vec::from_iter(edges(length));
        assert_eq!([0, 1, 3].map(list), [vec![], vec![0], vec![0, 1, 2]]);
        assert_eq!(list(64), [0, 1, 62, 63]);
        assert_eq!(list(130), [0, 1, 62, 63, 64, 65, 126, 127, 128, 129]);
        assert_eq!(list(140), [0, 1, 62, 63, 64, 65, 126, 127, 128, 129, 138, 139]);
    }

    #[test]
    fn a_stretch_is_a_block() {
        let random = &mut Random::named("a stretch");
        for block in [0..64, 64..128, 128..192] {
            assert!(in_stretches(random, 200).contains(&block.collect()));
        }
    }

    #[test]
    fn other_elements_are_not_zero() {
        let random = &mut Random::named("other elements");
        let lists = lists(random, 130, at_edges);
        let places = |list: &Vec<u64>| Vec::from_iter((0..130).filter(|&place| list[place] == 0));
        assert!(lists.iter().map(places).eq(at_edges(random, 130)));
    }
}
