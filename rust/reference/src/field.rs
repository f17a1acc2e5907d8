//! The field of 2^64 elements, in the plainest way that the definition allows.
//!
//! An element is a 64-bit number whose bit i is the coefficient of t^i. Everything here is
//! schoolbook work on polynomials over the field of two elements: no table, no window, no
//! powering. Speed does not matter, and the less a method resembles the library's the more an
//! agreement says.

/// t^64 + t^4 + t^3 + t + 1, the polynomial that products are reduced by.
const MODULUS: u128 = (1 << 64) | (1 << 4) | (1 << 3) | (1 << 1) | 1;

/// R_64 of NIST SP 800-38B: 59 zero bits followed by 11011. It is written out apart from
/// `MODULUS` so that the two can disagree.
const R_64: u64 = 0b11011;

/// The sum of two elements: coefficients are added modulo two.
pub fn sum(a: u64, b: u64) -> u64 {
    a ^ b
}

/// The product of two elements: the remainder of the polynomial product.
pub fn product(a: u64, b: u64) -> u64 {
    let (_, remainder) = divide(multiply(a.into(), b.into()), MODULUS);
    element(remainder)
}

/// The inverse of an element by the extended Euclidean algorithm, and zero for zero.
pub fn inverse(a: u64) -> u64 {
    if a == 0 {
        return 0;
    }
    // Each remainder is its factor times `a`, up to a multiple of the modulus.
    let (mut last, mut next) = (MODULUS, u128::from(a));
    let (mut last_factor, mut next_factor) = (0, 1);
    while next != 0 {
        let (quotient, remainder) = divide(last, next);
        let factor = last_factor ^ multiply(quotient, next_factor);
        (last, next) = (next, remainder);
        (last_factor, next_factor) = (next_factor, factor);
    }
    // The modulus is irreducible, so nothing but one divides it and `a`.
    assert_eq!(last, 1, "the modulus and {a:x} have a common divisor");
    element(last_factor)
}

/// The inverse of an element that is divided by: that there is an inverse of zero must not hide
/// a division by zero.
pub fn inverse_of_divisor(a: u64) -> u64 {
    assert_ne!(a, 0, "a division by zero");
    inverse(a)
}

/// The doubling of NIST SP 800-38B's subkeys for a block of 64 bits.
pub fn doubling(l: u64) -> u64 {
    let most_significant_bit = l >> 63;
    if most_significant_bit == 0 {
        l << 1
    } else {
        (l << 1) ^ R_64
    }
}

/// The product of two polynomials whose degrees add up to at most 127.
fn multiply(a: u128, b: u128) -> u128 {
    let mut result = 0;
    for place in 0..bits(b) {
        if (b >> place) & 1 == 1 {
            result ^= a << place;
        }
    }
    result
}

/// Quotient and remainder of long division, from the top coefficient down.
fn divide(dividend: u128, divisor: u128) -> (u128, u128) {
    let width = bits(divisor);
    let mut quotient = 0;
    let mut remainder = dividend;
    let mut top = bits(dividend);
    while top >= width {
        if (remainder >> (top - 1)) & 1 == 1 {
            remainder ^= divisor << (top - width);
            quotient |= 1 << (top - width);
        }
        top -= 1;
    }
    (quotient, remainder)
}

/// How many bits a polynomial takes: its degree plus one, or 0 for zero.
fn bits(a: u128) -> u32 {
    128 - a.leading_zeros()
}

/// A polynomial of degree below 64 as an element.
fn element(a: u128) -> u64 {
    u64::try_from(a).expect("a polynomial of degree below 64")
}

#[cfg(test)]
mod tests {
    use super::*;

    #[test]
    fn table_a() {
        assert_eq!(product(0x8000000000000000, 2), 0x1b);
        assert_eq!(product(3, 7), 9);
        assert_eq!(inverse(2), 0x800000000000000d);
    }

    #[test]
    fn zero_is_its_own_inverse() {
        assert_eq!([0, 1].map(inverse), [0, 1]);
    }

    #[test]
    #[should_panic(expected = "a division by zero")]
    fn nothing_is_divided_by_zero() {
        inverse_of_divisor(0);
    }

    /// CIPH_K(0), K1 and K2 of the three-key TDEA example of SP 800-38B.
    #[test]
    fn doubling_gives_the_subkeys_of_the_example() {
        assert_eq!(doubling(0xc8cc74e98a7329a2), 0x9198e9d314e6535f);
        assert_eq!(doubling(0x9198e9d314e6535f), 0x2331d3a629cca6a5);
    }
}
