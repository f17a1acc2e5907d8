//! Cosets: their points, and whether a basis is independent.

use crate::field;

/// All points of a coset, in point order.
pub fn points(offset: u64, basis: &[u64]) -> Vec<u64> {
    (0..1 << basis.len()).map(|j| point(offset, basis, j)).collect()
}

/// The offset plus the basis elements whose bit is set in the index.
pub fn point(offset: u64, basis: &[u64], index: u64) -> u64 {
    let picked = |&place: &usize| (index >> place) & 1 == 1;
    let places = (0..basis.len()).filter(picked);
    places.fold(offset, |point, place| field::sum(point, basis[place]))
}

/// The first place whose element lies in the span of earlier ones, by elimination.
pub fn first_dependent(basis: &[u64]) -> Option<usize> {
    // At a bit: an element of the span whose highest bit is that one.
    let mut leading = [0; u64::BITS as usize];
    basis.iter().position(|&element| {
        let rest = reduced(element, &leading);
        if rest != 0 {
            leading[highest_bit(rest)] = rest;
        }
        rest == 0
    })
}

/// The element without what the span of the leading ones can take away.
fn reduced(element: u64, leading: &[u64]) -> u64 {
    let mut rest = element;
    while rest != 0 && leading[highest_bit(rest)] != 0 {
        rest = field::sum(rest, leading[highest_bit(rest)]);
    }
    rest
}

/// The place of the highest bit of a number that is not zero.
fn highest_bit(number: u64) -> usize {
    number.ilog2() as usize
}

#[cfg(test)]
mod tests {
    use super::*;

    /// The first place whose element is the sum of some earlier ones, by trying all sums.
    fn first_dependent_by_trying(basis: &[u64]) -> Option<usize> {
        let dependent = |&place: &usize| points(0, &basis[..place]).contains(&basis[place]);
        (0..basis.len()).find(dependent)
    }

    #[test]
    fn elimination_finds_what_trying_finds() {
        for code in 0..1 << 12 {
            let basis = [0, 3, 6, 9].map(|shift| (code >> shift) & 7);
            assert_eq!(first_dependent(&basis), first_dependent_by_trying(&basis));
        }
    }
}
