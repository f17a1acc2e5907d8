//! The library's method of encoding and interpolation, the additive transform in the place of the
//! list, in Rust: the same recursions and the same passes over the list.

use crate::arithmetic::Arithmetic;
use crate::coset::{composed_maps, is_independent};

/// From coefficients, of which those left off are zero, to the values at the points.
pub fn encode(
    arithmetic: impl Arithmetic,
    offset: u64,
    basis: &[u64],
    coefficients: &[u64],
    values: &mut [u64],
) {
    assert!(is_independent(arithmetic, basis));
    let (first, others) = values.split_at_mut(coefficients.len());
    first.copy_from_slice(coefficients);
    others.fill(0);
    let used = coefficients.len().next_power_of_two().trailing_zeros() as usize;
    let maps = Maps::of(arithmetic, basis);
    convert(arithmetic, used, &maps, &mut values[..1 << used]);
    split(arithmetic, used, basis.len(), offset, &maps, values);
}

/// From the values at the points to the coefficients.
pub fn interpolate(
    arithmetic: impl Arithmetic,
    offset: u64,
    basis: &[u64],
    word: &[u64],
    coefficients: &mut [u64],
) {
    assert!(is_independent(arithmetic, basis));
    coefficients.copy_from_slice(word);
    let maps = Maps::of(arithmetic, basis);
    join(arithmetic, basis.len(), offset, &maps, coefficients);
    convert_back(arithmetic, basis.len(), &maps, coefficients);
}

/// The basis with the elements e of the maps X · (X - e) whose compositions are the subspace
/// polynomials, and their inverses; zeros follow both.
pub struct Maps<'a> {
    basis: &'a [u64],
    elements: [u64; 20],
    inverses: [u64; 20],
}

impl Maps<'_> {
    /// All elements are inverted at once.
    pub fn of(arithmetic: impl Arithmetic, basis: &[u64]) -> Maps<'_> {
        let mut elements = [0; 20];
        for t in 0..basis.len() {
            elements[t] = composed_maps(arithmetic, &elements[..t], basis[t]);
        }
        let mut inverses = elements;
        arithmetic.invert(&mut inverses[..basis.len()]);
        Maps { basis, elements, inverses }
    }

    /// z_n at x.
    #[inline(always)]
    fn multiplier(&self, arithmetic: impl Arithmetic, n: usize, x: u64) -> u64 {
        let image = composed_maps(arithmetic, &self.elements[..n], x);
        arithmetic.product(image, self.inverses[n])
    }
}

/// From the products of the z_j to values. Entries from 2^used on are zero: above that dimension
/// nothing is multiplied.
fn split(
    arithmetic: impl Arithmetic,
    used: usize,
    n: usize,
    offset: u64,
    maps: &Maps,
    slice: &mut [u64],
) {
    if n == 0 {
        return;
    }
    let last = n - 1;
    arithmetic.compiled(|| step(arithmetic, used, last, offset, maps, slice));
    let (first, second) = slice.split_at_mut(slice.len() / 2);
    let moved = arithmetic.sum(offset, maps.basis[last]);
    split(arithmetic, used, last, offset, maps, first);
    split(arithmetic, used, last, moved, maps, second);
}

#[inline(always)]
fn step(
    arithmetic: impl Arithmetic,
    used: usize,
    n: usize,
    offset: u64,
    maps: &Maps,
    slice: &mut [u64],
) {
    if n < used {
        add_multiples(arithmetic, maps.multiplier(arithmetic, n, offset), slice);
    }
    add_first(arithmetic, slice);
}

/// From values to the products of the z_j.
fn join(arithmetic: impl Arithmetic, n: usize, offset: u64, maps: &Maps, slice: &mut [u64]) {
    if n == 0 {
        return;
    }
    let last = n - 1;
    let (first, second) = slice.split_at_mut(slice.len() / 2);
    let moved = arithmetic.sum(offset, maps.basis[last]);
    join(arithmetic, last, offset, maps, first);
    join(arithmetic, last, moved, maps, second);
    arithmetic.compiled(|| {
        let c = maps.multiplier(arithmetic, last, offset);
        add_first(arithmetic, slice);
        add_multiples(arithmetic, c, slice);
    });
}

/// From the powers of X to the products of the z_j, one level after the other.
fn convert(arithmetic: impl Arithmetic, levels: usize, maps: &Maps, slice: &mut [u64]) {
    for j in 0..levels {
        let r = ratio(arithmetic, &maps.elements, &maps.inverses, j);
        arithmetic.compiled(|| scale_runs(arithmetic, j, r, slice));
        regroup(arithmetic, levels - j, slice);
    }
}

fn convert_back(arithmetic: impl Arithmetic, levels: usize, maps: &Maps, slice: &mut [u64]) {
    for j in (0..levels).rev() {
        regroup_back(arithmetic, levels - j, slice);
        let r = ratio(arithmetic, &maps.inverses, &maps.elements, j);
        arithmetic.compiled(|| scale_runs(arithmetic, j, r, slice));
    }
}

/// e_j / e_(j-1)^2, or e_0.
fn ratio(arithmetic: impl Arithmetic, elements: &[u64], inverses: &[u64], j: usize) -> u64 {
    if j == 0 {
        return elements[0];
    }
    let d = inverses[j - 1];
    arithmetic.product(elements[j], arithmetic.product(d, d))
}

/// Run i of 2^lower entries times r^i.
#[inline(always)]
fn scale_runs(arithmetic: impl Arithmetic, lower: usize, r: u64, slice: &mut [u64]) {
    let mut power = 1;
    for part in slice.chunks_exact_mut(1 << lower) {
        scale(arithmetic, power, part);
        power = arithmetic.product(power, r);
    }
}

/// In the slice of 2^upper runs and in all its halves of four runs or more.
fn regroup(arithmetic: impl Arithmetic, upper: usize, slice: &mut [u64]) {
    if upper < 2 {
        return;
    }
    let (quarter, half) = (slice.len() / 4, slice.len() / 2);
    add_second(arithmetic, &mut slice[half..]);
    add_second(arithmetic, &mut slice[quarter..quarter + half]);
    regroup(arithmetic, upper - 1, &mut slice[..half]);
    regroup(arithmetic, upper - 1, &mut slice[half..]);
}

fn regroup_back(arithmetic: impl Arithmetic, upper: usize, slice: &mut [u64]) {
    if upper < 2 {
        return;
    }
    let (quarter, half) = (slice.len() / 4, slice.len() / 2);
    regroup_back(arithmetic, upper - 1, &mut slice[..half]);
    regroup_back(arithmetic, upper - 1, &mut slice[half..]);
    add_second(arithmetic, &mut slice[quarter..quarter + half]);
    add_second(arithmetic, &mut slice[half..]);
}

/// Each entry of the first half plus the one of the second half.
#[inline(always)]
fn add_second(arithmetic: impl Arithmetic, slice: &mut [u64]) {
    add_to_first(arithmetic, |b| b, slice);
}

/// Each entry of the first half plus c times the one of the second half. A table pays from the
/// third product on.
#[inline(always)]
fn add_multiples(arithmetic: impl Arithmetic, c: u64, slice: &mut [u64]) {
    if slice.len() < 6 {
        add_to_first(arithmetic, |b| arithmetic.product(c, b), slice);
    } else {
        add_to_first(arithmetic, arithmetic.products_by(c), slice);
    }
}

#[inline(always)]
fn add_to_first(arithmetic: impl Arithmetic, image: impl Fn(u64) -> u64, slice: &mut [u64]) {
    let (first, second) = slice.split_at_mut(slice.len() / 2);
    for (a, b) in first.iter_mut().zip(second) {
        *a = arithmetic.sum(*a, image(*b));
    }
}

/// Each entry of the second half plus the one of the first half.
#[inline(always)]
fn add_first(arithmetic: impl Arithmetic, slice: &mut [u64]) {
    let (first, second) = slice.split_at_mut(slice.len() / 2);
    for (a, b) in first.iter().zip(second) {
        *b = arithmetic.sum(*b, *a);
    }
}

/// Every entry times c.
#[inline(always)]
fn scale(arithmetic: impl Arithmetic, c: u64, part: &mut [u64]) {
    if part.len() < 3 {
        part.iter_mut().for_each(|entry| *entry = arithmetic.product(c, *entry));
    } else {
        let times = arithmetic.products_by(c);
        part.iter_mut().for_each(|entry| *entry = times(*entry));
    }
}
