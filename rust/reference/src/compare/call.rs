//! A call of an operation over lists, how it is shown, and how it is made smaller.

use super::lists::{fitted, is_small, left_out, simpler_bases, simpler_lists, simpler_numbers};
use super::operation::Operation;
use super::{Input, Show};
use crate::answer::{Answer, ANSWER_LENGTH};
use crate::compare::lent::FILLS;
use std::collections::BTreeSet;
use std::ops::{Index, IndexMut, Range};

pub use List::*;
pub use Number::*;

/// A number that is given to an operation.
#[derive(Clone, Copy, Debug, PartialEq, Eq)]
pub enum Number {
    K,
    Rate,
    Step,
    Offset,
    Challenge,
    Layer,
    /// How many queries there are, where they are not given themselves.
    QueryCount,
}

/// How many numbers and lists there are.
const NUMBERS: usize = 7;
const LISTS: usize = 9;

impl Number {
    const NAMES: [&'static str; NUMBERS] =
        ["k", "rate", "step", "offset", "challenge", "layer", "count of queries"];

    pub fn name(self) -> &'static str {
        Number::NAMES[self as usize]
    }

    /// Elements are shown in hexadecimal.
    fn show(self, number: u64) -> String {
        let name = self.name();
        match self {
            Offset | Challenge => format!("{name} {number:x}"),
            _ => format!("{name} {number}"),
        }
    }
}

/// A list that is given to an operation or lent to it for writing, in the order of their numbers.
/// The queries have no number: no length of theirs is a wrong length.
#[derive(Clone, Copy, Debug, PartialEq, Eq, PartialOrd, Ord)]
pub enum List {
    Basis,
    Challenges,
    /// The word, or the coefficients to encode.
    Given,
    Store,
    Last,
    Output,
    NextBasis,
    /// The only list of bytes. It is always lent for writing.
    Bytes,
    Queries,
}

impl List {
    const NAMES: [&'static str; LISTS] =
        ["basis", "challenges", "list 3", "store", "last", "list 6", "list 7", "list 8", "queries"];

    /// The number that a refusal names the list by.
    pub fn number(self) -> u64 {
        self as u64 + 1
    }

    pub fn name(self) -> &'static str {
        List::NAMES[self as usize]
    }
}

/// What is given to an operation. Of a list that is lent for writing only the length counts.
#[derive(Clone)]
pub struct Call {
    pub operation: &'static Operation,
    pub numbers: [u64; NUMBERS],
    pub lists: [Vec<u64>; LISTS],
    /// The length of the list for the answer.
    pub answer: usize,
    /// What the lists that are written to are filled from.
    pub fill: u64,
}

impl Index<Number> for Call {
    type Output = u64;

    fn index(&self, number: Number) -> &u64 {
        &self.numbers[number as usize]
    }
}

impl IndexMut<Number> for Call {
    fn index_mut(&mut self, number: Number) -> &mut u64 {
        &mut self.numbers[number as usize]
    }
}

impl Index<List> for Call {
    type Output = Vec<u64>;

    fn index(&self, list: List) -> &Vec<u64> {
        &self.lists[list as usize]
    }
}

impl IndexMut<List> for Call {
    fn index_mut(&mut self, list: List) -> &mut Vec<u64> {
        &mut self.lists[list as usize]
    }
}

impl Call {
    /// With zeros for numbers, and without lists.
    pub fn of(operation: &'static Operation) -> Call {
        Call {
            operation,
            numbers: Default::default(),
            lists: Default::default(),
            answer: ANSWER_LENGTH,
            fill: FILLS[0],
        }
    }

    pub fn with(mut self, number: Number, value: u64) -> Call {
        self[number] = value;
        self
    }

    pub fn with_list(mut self, list: List, numbers: Vec<u64>) -> Call {
        self[list] = numbers;
        self
    }

    /// With zeros in a list, as one that is lent for writing has them.
    pub fn with_length(self, list: List, length: usize) -> Call {
        self.with_list(list, vec![0; length])
    }

    /// With these queries, and as many bytes to write to as are then due.
    pub fn with_queries(self, queries: Vec<u64>) -> Call {
        let call = self.with_list(Queries, queries);
        match call.operation.lent.contains(&Bytes) {
            true => call.with_due_length(Bytes),
            false => call,
        }
    }

    /// With zeros in as many places as are due.
    pub fn with_due_length(self, list: List) -> Call {
        let due = self.due_length(list);
        self.with_length(list, due)
    }

    pub fn with_fill(self, fill: u64) -> Call {
        Call { fill, ..self }
    }

    /// The dimension. Operations that are not given it take the length of the basis for it.
    pub fn k(&self) -> u64 {
        if self.operation.takes(K) {
            self[K]
        } else {
            self[Basis].len() as u64
        }
    }

    /// The refusal that is due before the work begins.
    pub fn refusal(&self) -> Option<Answer> {
        (self.operation.refusal)(self)
    }

    pub fn due_length(&self, list: List) -> usize {
        (self.operation.due_length)(self, list)
    }

    /// Whether a list has a length that is right for these numbers.
    pub fn fits(&self, list: List) -> bool {
        (self.operation.fits)(list, self[list].len(), self.due_length(list))
    }

    /// The call without any list, but for a basis that the dimension is taken from.
    pub fn without_lists(mut self) -> Call {
        for list in self.operation.lists().into_iter().chain([Queries]) {
            self[list].clear();
        }
        self
    }

    fn length_of_lists(&self) -> usize {
        self.lists.iter().map(Vec::len).sum()
    }
}

impl Show for Call {
    fn show(&self) -> String {
        let operation = self.operation;
        let numbers = operation.numbers.iter().map(|&number| number.show(self[number]));
        let given = |&list: &List| format!("{}: {}", list.name(), self[list].show());
        let lent = |&list: &List| format!("{} of length {}", list.name(), self[list].len());
        let lists = operation.given.iter().map(given).chain(operation.lent.iter().map(lent));
        let shown: Vec<String> = numbers.chain(lists).collect();
        let Call { answer, fill, .. } = self;
        format!("{}; answer of length {answer}, filled from {fill:x}", shown.join("; "))
    }
}

// Making a call smaller.

impl Input for Call {
    type Size = ([u64; 3], usize, u32, [u64; NUMBERS], [Vec<u64>; LISTS]);

    /// Low parameters are small, then short lists, and among them those with few bits.
    fn size(&self) -> Self::Size {
        let others = &self.numbers[Offset as usize..];
        let numbers = others.iter().chain(self.lists.iter().flatten());
        (
            self.setting(),
            self.length_of_lists(),
            numbers.map(|number| number.count_ones()).sum(),
            self.numbers,
            self.lists.clone(),
        )
    }

    /// The length of the answer stays, since a comparison may be about it.
    fn simpler(&self) -> Vec<Call> {
        let mut all = self.with_lower_parameters();
        all.push(self.clone().without_lists());
        all.push(self.with_zeros());
        for list in self.operation.all_lists() {
            all.extend(self.with_simpler_list(list));
        }
        let others = [Offset, Challenge, Layer, QueryCount].into_iter();
        for number in others.filter(|&number| self.operation.takes(number)) {
            let simpler = simpler_numbers(self[number], self.is_small()).into_iter();
            all.extend(simpler.map(|value| self.clone().with(number, value)));
        }
        all
    }
}

impl Call {
    pub fn is_small(&self) -> bool {
        is_small(self.k() as usize)
    }

    /// Whether the dimension is above the range.
    fn is_above(&self) -> bool {
        self.k() > *self.operation.dimensions.end()
    }

    /// A run of zeros is honest, whatever the challenges are.
    fn with_zeros(&self) -> Call {
        let mut call = self.clone();
        for list in [Given, Store, Last] {
            call[list].fill(0);
        }
        call
    }

    /// Lists are as much too long or too short as they were. Small calls are mended as well, for
    /// a difference that only calls show which nothing is wrong with.
    ///
    /// A call above the range must have lost its lists first: long ones would make much work, and
    /// right ones in range even more.
    fn with_lower_parameters(&self) -> Vec<Call> {
        let empty = self.clone().without_lists();
        if self.is_above() && empty.length_of_lists() < self.length_of_lists() {
            return Vec::new();
        }
        let mut all = self.with_lower_dimensions();
        for number in [Rate, Step] {
            let lower = lower_than(self[number]).into_iter();
            all.extend(lower.map(|value| self.fitted_to(self.clone().with(number, value))));
        }
        let small = all.iter().filter(|call| call.is_small());
        let mended: Vec<Call> = small.filter_map(self.operation.mended).collect();
        all.extend(mended);
        all
    }

    /// With half of the basis, and with all of it but one element.
    fn with_lower_dimensions(&self) -> Vec<Call> {
        let (k, largest) = (self.k(), *self.operation.dimensions.end());
        if k > largest && self.operation.takes(K) {
            return [largest + 1, k / 2, k - 1].map(|k| self.clone().with(K, k)).to_vec();
        }
        left_out(k as usize).into_iter().flat_map(|places| self.without(places)).collect()
    }

    /// The calls without these basis elements, for as far as there are any. Queries in range stay
    /// so. A list 3 that fits also stays as it was for as far as it can, since it may be shorter.
    fn without(&self, places: Range<usize>) -> [Call; 2] {
        let k = self.k() - places.len() as u64;
        let mut call = self.clone().with_setting([k, self[Rate], self[Step]]);
        let kept = (0..self[Basis].len()).filter(|place| !places.contains(place));
        call[Basis] = kept.map(|place| self[Basis][place]).collect();
        for query in call[Queries].iter_mut().filter(|query| **query >> self.k() == 0) {
            *query &= (1 << k) - 1;
        }
        // Above the range no length is right to go by.
        let fitted = if self.is_above() { call } else { self.fitted_to(call) };
        let mut kept = fitted.clone();
        if self.fits(Given) {
            kept[Given] = self[Given].clone();
            kept[Given].truncate(fitted.due_length(Given));
        }
        [fitted, kept]
    }

    /// The other call with all lists but the basis fitting its numbers as they do those of this
    /// one.
    fn fitted_to(&self, mut other: Call) -> Call {
        let lists = self.operation.lists();
        for list in lists.into_iter().filter(|&list| list != Basis) {
            let due = other.due_length(list);
            let length = fitted(self[list].len(), self.due_length(list), due);
            other[list].resize(length, 0);
        }
        other
    }

    /// Of a list that is lent only the length counts. Of a large call only large changes are
    /// worth the cost.
    fn with_simpler_list(&self, list: List) -> Vec<Call> {
        let small = self.is_small();
        let numbers = &self[list];
        let shorter = |length: usize| numbers[..length].to_vec();
        let halved = [0, numbers.len() / 2, numbers.len().saturating_sub(1)];
        let mut simpler = match list {
            _ if self.operation.lent.contains(&list) => halved.map(shorter).to_vec(),
            Basis => simpler_bases(numbers, small),
            _ => simpler_lists(numbers, small),
        };
        if list == Basis && self.operation.takes(K) {
            simpler.extend(halved.map(shorter));
        }
        let with = |numbers| match list {
            // How many bytes are due goes by the queries.
            Queries => self.fitted_to(self.clone().with_list(list, numbers)),
            _ => self.clone().with_list(list, numbers),
        };
        let mut calls: Vec<Call> = simpler.into_iter().map(with).collect();
        if small && list == Given {
            let mended: Vec<Call> = calls.iter().filter_map(self.operation.mended).collect();
            calls.extend(mended);
        }
        calls
    }
}

/// The lowest rates or steps, and those near this one.
fn lower_than(number: u64) -> BTreeSet<u64> {
    let near = [number / 2, number.saturating_sub(1)];
    let all = (0..=4).chain(near);
    all.filter(|lower| *lower < number).collect()
}

#[cfg(test)]
mod tests {
    use super::*;
    use crate::compare::fold::FOLD;
    use crate::compare::reed_solomon::ENCODE;
    use crate::random::Random;

    fn any(operation: &'static Operation, setting: [u64; 3]) -> Call {
        operation.any(&mut Random::named("calls"), setting).with_fill(0x100)
    }

    #[test]
    fn a_call_is_shown_in_full() {
        let call = any(&FOLD, [2, 0, 1]).with(Offset, 0x1b).with(Challenge, 0xc);
        let call = call.with_list(Basis, vec![1, 2]).with_list(Given, vec![7, 4, 1, 2]);
        assert_eq!(
            call.show(),
            "k 2; step 1; offset 1b; challenge c; basis: 1, 2; list 3: 7, 4, 1, 2; \
             list 6 of length 2; list 7 of length 1; answer of length 5, filled from 100"
        );
    }

    #[test]
    fn lists_fit_other_numbers_as_before() {
        let call = any(&FOLD, [5, 0, 2]).with_length(Output, 9);
        let lengths = |call: &Call| FOLD.lists().iter().map(|&list| call[list].len()).collect();
        let [fewer, _] = call.without(1..3);
        let lower = call.fitted_to(call.clone().with(Step, 1));
        let lengths: [Vec<usize>; 2] = [lengths(&fewer), lengths(&lower)];
        assert_eq!(lengths, [[3, 8, 3, 1], [5, 32, 17, 4]]);
    }

    /// Else a trial would not be worth its cost.
    #[test]
    fn a_large_call_has_few_that_are_simpler() {
        assert!(any(&FOLD, [12, 0, 3]).simpler().len() < 40);
        assert!(any(&ENCODE, [12, 0, 0]).simpler().len() < 40);
    }

    #[test]
    fn a_call_above_the_range_keeps_its_dimension_until_its_lists_are_empty() {
        for above in [any(&FOLD, [21, 0, 1]), any(&ENCODE, [21, 0, 0])] {
            let is_lower = |call: &Call| call.k() < above.k();
            assert!(!above.simpler().iter().any(is_lower));
            assert!(above.clone().without_lists().simpler().iter().any(is_lower));
        }
    }

    #[test]
    fn the_smallest_call_has_none_that_is_simpler() {
        for operation in [&FOLD, &ENCODE] {
            let smallest = Call::of(operation);
            let size = smallest.size();
            assert!(smallest.simpler().iter().all(|call| call.size() >= size));
        }
    }
}
