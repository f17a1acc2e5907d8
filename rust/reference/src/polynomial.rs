//! Polynomials over the field: values, and Lagrange's interpolant over any points that differ.
//! A polynomial is the list of its coefficients, constant first.

use crate::factor::Factor;
use crate::field;

/// The value of a polynomial at a point. Neighbours are joined by the point, then neighbours
/// among these by its square, and so on. So a coefficient is multiplied by power 2^b of the
/// point for every bit b that is set in its index, which makes the power of that index.
pub fn value(polynomial: &[u64], point: u64) -> u64 {
    let mut terms = polynomial.to_vec();
    let mut power = point;
    while terms.len() > 1 {
        let factor = Factor::of(power);
        let pairs = terms.chunks(2);
        terms = pairs.map(|pair| joined(pair, &factor)).collect();
        power = factor.times(power);
    }
    terms.first().copied().unwrap_or(0)
}

/// The same by Horner's rule: from the top coefficient down, times the point and plus the next.
pub fn horner(polynomial: &[u64], point: u64) -> u64 {
    let factor = Factor::of(point);
    let down = polynomial.iter().rev();
    down.fold(0, |value, &coefficient| field::sum(factor.times(value), coefficient))
}

/// The first term plus the factor times the second, if there is one.
fn joined(pair: &[u64], factor: &Factor) -> u64 {
    let second = pair.get(1).map_or(0, |&term| factor.times(term));
    field::sum(pair[0], second)
}

/// Lagrange's interpolant: the sum over all points of the polynomial that vanishes at the other
/// points, scaled to the word's value at this one. It has no zero there, as the points differ.
pub fn interpolant(points: &[u64], word: &[u64]) -> Vec<u64> {
    let vanishing = vanishing(points);
    let mut sum = vec![0; points.len()];
    for (&point, &due) in points.iter().zip(word) {
        let others = divided(&vanishing, point);
        let found = field::inverse_of_divisor(value(&others, point));
        let scale = Factor::of(field::product(due, found));
        for (total, &coefficient) in sum.iter_mut().zip(&others) {
            *total = field::sum(*total, scale.times(coefficient));
        }
    }
    sum
}

/// The product of X - a over the points a.
pub fn vanishing(points: &[u64]) -> Vec<u64> {
    let mut product = vec![1];
    for &point in points {
        let factor = Factor::of(point);
        let by_x = [&[0], &product[..]].concat();
        product.push(0);
        for (coefficient, above) in product.iter_mut().zip(by_x) {
            *coefficient = field::sum(above, factor.times(*coefficient));
        }
    }
    product
}

/// The quotient by X - a of a polynomial that vanishes at the point a, from the top coefficient
/// down.
fn divided(polynomial: &[u64], point: u64) -> Vec<u64> {
    let factor = Factor::of(point);
    let mut quotient = vec![0; polynomial.len() - 1];
    let mut last = 0;
    for power in (0..quotient.len()).rev() {
        last = field::sum(polynomial[power + 1], factor.times(last));
        quotient[power] = last;
    }
    quotient
}

#[cfg(test)]
mod tests {
    use super::*;
    use crate::random::Random;

    /// The sum of the terms, each with a power made of as many products.
    fn sum_of_terms(polynomial: &[u64], point: u64) -> u64 {
        let power = |index| (0..index).fold(1, |power, _| field::product(power, point));
        let term = |(index, &coefficient)| field::product(coefficient, power(index));
        let terms = polynomial.iter().enumerate().map(term);
        terms.fold(0, field::sum)
    }

    #[test]
    fn a_value_is_the_sum_of_the_terms() {
        let mut random = Random::named("a value is the sum of the terms");
        for length in 0..20 {
            let polynomial = random.list(length);
            for point in [0, 1, 2, random.number()] {
                let due = sum_of_terms(&polynomial, point);
                assert_eq!([value(&polynomial, point), horner(&polynomial, point)], [due; 2]);
            }
        }
    }

    /// The points need not form a coset.
    #[test]
    fn an_interpolant_has_the_values() {
        let mut random = Random::named("an interpolant has the values");
        for length in 0..20 {
            let (points, word) = (random.list(length), random.list(length));
            let polynomial = interpolant(&points, &word);
            assert_eq!(polynomial.len(), length);
            for (&point, due) in points.iter().zip(word) {
                assert_eq!(sum_of_terms(&polynomial, point), due);
            }
        }
    }

    #[test]
    #[should_panic(expected = "a division by zero")]
    fn equal_points_have_no_interpolant() {
        interpolant(&[2, 5, 2], &[1, 1, 1]);
    }
}
