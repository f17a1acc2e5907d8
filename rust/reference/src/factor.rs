//! A product that is fast enough for many numbers with one factor.

use crate::field;

/// A factor of many products: its multiples by every number of four bits, at each of the
/// sixteen places that four bits of the other factor can have.
pub struct Factor {
    multiples: [[u64; 16]; 16],
}

impl Factor {
    pub fn of(element: u64) -> Factor {
        let mut multiples = [[0; 16]; 16];
        // The element times t to the power of the bit at hand.
        let mut shifted = element;
        for by_four_bits in &mut multiples {
            for bit in 0..4 {
                let highest = 1 << bit;
                for lower in 0..highest {
                    by_four_bits[highest + lower] = field::sum(by_four_bits[lower], shifted);
                }
                shifted = field::doubling(shifted);
            }
        }
        Factor { multiples }
    }

    pub fn times(&self, other: u64) -> u64 {
        let mut product = 0;
        for (place, by_four_bits) in self.multiples.iter().enumerate() {
            let four_bits = (other >> (4 * place)) & 15;
            product = field::sum(product, by_four_bits[four_bits as usize]);
        }
        product
    }
}

#[cfg(test)]
mod tests {
    use super::*;
    use crate::random::Random;

    /// Single bits, all ones and any numbers, each with each.
    #[test]
    fn a_product_is_that_of_the_field() {
        let mut numbers: Vec<u64> = (0..64).map(|place| 1 << place).collect();
        numbers.extend([0, u64::MAX]);
        numbers.extend(Random::named("factors").list(64));
        for &element in &numbers {
            let factor = Factor::of(element);
            for &other in &numbers {
                assert_eq!(factor.times(other), field::product(element, other));
            }
        }
    }
}
