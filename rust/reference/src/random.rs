//! A small seeded generator (SplitMix64), so that every run compares the same inputs and a
//! difference can be found again.

/// The seed of all comparisons.
const SEED: u64 = 0x5eed_0f2b_7e15_1628;

/// The state of a generator.
pub struct Random {
    state: u64,
}

impl Random {
    /// The generator for the comparison of this name. Each comparison has its own, so that
    /// adding one does not change the inputs of the others.
    pub fn named(name: &str) -> Random {
        let mut state = SEED;
        for byte in name.bytes() {
            state = Random::seeded(state ^ u64::from(byte)).number();
        }
        Random::seeded(state)
    }

    /// The generator that starts from this number.
    pub fn seeded(state: u64) -> Random {
        Random { state }
    }

    /// The next number.
    pub fn number(&mut self) -> u64 {
        self.state = self.state.wrapping_add(0x9e3779b97f4a7c15);
        let mut z = self.state;
        z = (z ^ (z >> 30)).wrapping_mul(0xbf58476d1ce4e5b9);
        z = (z ^ (z >> 27)).wrapping_mul(0x94d049bb133111eb);
        z ^ (z >> 31)
    }

    /// The next few numbers.
    pub fn numbers<const N: usize>(&mut self) -> [u64; N] {
        std::array::from_fn(|_| self.number())
    }

    /// The next numbers, as a list of this length.
    pub fn list(&mut self, length: usize) -> Vec<u64> {
        (0..length).map(|_| self.number()).collect()
    }

    /// A number below the bound, which is small, so that the remainder is even enough.
    pub fn below(&mut self, bound: usize) -> usize {
        (self.number() % bound as u64) as usize
    }
}

#[cfg(test)]
mod tests {
    use super::*;

    /// The numbers commonly printed for this generator.
    #[test]
    fn known_numbers() {
        let mut random = Random::seeded(1234567);
        assert_eq!(random.number(), 6457827717110365317);
        assert_eq!(random.number(), 3203168211198807973);
        assert_eq!(random.number(), 9817491932198370423);
    }
}
