//! Lists as parts of a buffer.

use crate::compare::lists::{show_elements, simpler_lists};
use crate::compare::{Input, Show};
use crate::field;
use std::ops::Range;

/// A list that is inverted, and what stands around it in the same buffer.
#[derive(Clone)]
pub struct Part {
    pub before: Vec<u64>,
    pub list: Vec<u64>,
    pub behind: Vec<u64>,
}

impl Part {
    /// The list is the whole buffer.
    pub fn whole(list: Vec<u64>) -> Part {
        Part { before: Vec::new(), list, behind: Vec::new() }
    }

    /// The buffer after the list in it was inverted.
    pub fn after(&self, invert: impl Fn(&mut [u64], Range<usize>)) -> Vec<u64> {
        let mut buffer = [&self.before[..], &self.list, &self.behind].concat();
        let start = self.before.len();
        invert(&mut buffer, start..start + self.list.len());
        buffer
    }

    /// The buffer that is due: each element of the list inverted by itself, all else left.
    pub fn due(&self) -> Vec<u64> {
        let inverses = Vec::from_iter(self.list.iter().map(|&a| field::inverse(a)));
        [&self.before[..], &inverses, &self.behind].concat()
    }
}

/// What is around the list is shown only if there is something.
impl Show for Part {
    fn show(&self) -> String {
        let parts = [&self.before, &self.list, &self.behind];
        let [before, list, behind] = parts.map(|part| show_elements(part));
        match self.before.is_empty() && self.behind.is_empty() {
            true => list,
            false => format!("{list}, before it {before}, behind it {behind}"),
        }
    }
}

impl Input for Part {
    type Size = (<Vec<u64> as Input>::Size, usize);

    fn size(&self) -> Self::Size {
        (self.list.size(), self.before.len() + self.behind.len())
    }

    fn simpler(&self) -> Vec<Part> {
        let lists = simpler(&self.list).into_iter().map(|list| Part { list, ..self.clone() });
        let before = shorter(&self.before).map(|before| Part { before, ..self.clone() });
        let behind = shorter(&self.behind).map(|behind| Part { behind, ..self.clone() });
        lists.chain(before).chain(behind).collect()
    }
}

/// No element, and a single one.
fn shorter(around: &[u64]) -> [Vec<u64>; 2] {
    [Vec::new(), around.iter().take(1).copied().collect()]
}

/// Lists up to this length are made smaller in many ways.
const SHORT: usize = 256;

fn simpler(list: &[u64]) -> Vec<Vec<u64>> {
    match list.len() <= SHORT {
        true => simpler_lists(list, true),
        false => halves(list),
    }
}

/// The two halves, and the lists with zeros for half of the elements that are not zero.
fn halves(list: &[u64]) -> Vec<Vec<u64>> {
    let (first, second) = list.split_at(list.len() / 2);
    let places: Vec<usize> = (0..list.len()).filter(|&place| list[place] != 0).collect();
    let middle = places.get(places.len() / 2).copied().unwrap_or(0);
    let cleared = [0..middle, middle..list.len()].map(|part| {
        let mut list = list.to_vec();
        list[part].fill(0);
        list
    });
    [first.to_vec(), second.to_vec()].into_iter().chain(cleared).collect()
}
