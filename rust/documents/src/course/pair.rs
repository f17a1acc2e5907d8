//! Two neighbours of a layer, and the fold of them with step 1 by hand.

use razgwilh::{inverse, product, sum};

/// Two points with their entries, and the challenge at which the line through them is taken.
pub struct Pair {
    pub points: [u64; 2],
    pub entries: [u64; 2],
    pub challenge: u64,
}

impl Pair {
    /// The first two of these points, with the first two of these entries.
    pub fn of(points: &[u64], entries: &[u64], challenge: u64) -> Pair {
        Pair { points: [points[0], points[1]], entries: [entries[0], entries[1]], challenge }
    }

    /// The pairs of a layer.
    pub fn all<'a>(
        points: &'a [u64],
        entries: &'a [u64],
        challenge: u64,
    ) -> impl Iterator<Item = Pair> + 'a {
        let pairs = points.chunks(2).zip(entries.chunks(2));
        pairs.map(move |(points, entries)| Pair::of(points, entries, challenge))
    }

    fn width(&self) -> u64 {
        sum(self.points[0], self.points[1])
    }

    pub fn slope(&self) -> u64 {
        product(sum(self.entries[0], self.entries[1]), inverse(self.width()))
    }

    /// What is added to the first entry.
    pub fn rise(&self) -> u64 {
        product(self.slope(), sum(self.challenge, self.points[0]))
    }

    pub fn value(&self) -> u64 {
        sum(self.entries[0], self.rise())
    }

    /// `(7 + 4) / 1 = 3`
    pub fn slope_text(&self) -> String {
        let [u, v] = self.entries;
        format!("({u:x} + {v:x}) / {:x} = {:x}", self.width(), self.slope())
    }

    /// `7 + 3 × (4 + 0) = b`
    pub fn value_text(&self) -> String {
        format!("{} = {:x}", self.terms(), self.value())
    }

    /// `7 + 3 × (4 + 0) = 7 + c = b`
    pub fn long_text(&self) -> String {
        let (u, rise) = (self.entries[0], self.rise());
        format!("{} = {u:x} + {rise:x} = {:x}", self.terms(), self.value())
    }

    fn terms(&self) -> String {
        let (u, p) = (self.entries[0], self.points[0]);
        format!("{u:x} + {:x} × ({:x} + {p:x})", self.slope(), self.challenge)
    }
}
