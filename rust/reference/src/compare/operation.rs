//! An operation over lists, described once: what it is given, which lengths are right, and what
//! is due. All comparisons of its calls are made from this.

use super::call::*;
use super::cosets::longest_basis;
use super::lent::{Lent, APART, FILLS};
use super::{compare, library, Comparison, Fixed, Show};
use super::{PAPER_AND_LIBRARY, REFERENCE_AND_LIBRARY};
use crate::answer::{raw, Answer, ANSWER_LENGTH};
use crate::random::Random;
use crate::transcript;
use std::ops::RangeInclusive;

/// Dimension, rate and step; zero for those that an operation does not take.
pub type Setting = [u64; 3];

/// How many queries a call has, unless they are given: no more lie apart with every setting.
pub const ANY_QUERIES: usize = 2;

/// How many calls of each dimension, from 0 to 12.
pub type Turns = [usize; 13];

/// Writes to the lent lists and answers.
pub type Behaviour = fn(&Call, &mut Outputs) -> Answer;

/// Writes the answer to its list as well.
pub type RawBehaviour = fn(&Call, &mut Outputs, &mut [u64]);

pub struct Operation {
    /// As the names of its comparisons have it.
    pub name: &'static str,
    /// In the order of the paper.
    pub numbers: &'static [Number],
    pub given: &'static [List],
    /// The lists lent for writing.
    pub lent: &'static [List],
    /// The dimensions in range.
    pub dimensions: RangeInclusive<u64>,
    /// All right settings of a dimension.
    pub settings: fn(u64) -> Vec<Setting>,
    /// The length that a list must have. Where there is none, the numbers being bad, it is that
    /// of the nearest there is.
    pub due_length: fn(&Call, List) -> usize,
    /// Whether a list may have the first length where the second is due.
    pub fits: fn(List, usize, usize) -> bool,
    /// The refusal that is due before the work begins.
    pub refusal: fn(&Call) -> Option<Answer>,
    /// Writes what is due, and gives the answer that is due.
    pub due: Behaviour,
    /// The call with other lists that make nothing wrong with it, if there are such lists and
    /// they do not go without saying.
    pub mended: fn(&Call) -> Option<Call>,
    /// The functions of the verified library.
    pub safe: Behaviour,
    pub raw: RawBehaviour,
    /// A right call with a setting. Its parts are of a few sorts each, in turn.
    pub right: fn(&mut Random, Setting, usize) -> Call,
    /// More calls with a setting that a few of every sort should hold.
    pub special: fn(&mut Random, Setting) -> Vec<Call>,
    /// What the names of comparisons have for a dimension out of range, for what a dimension must
    /// not be below, and for several lists of wrong lengths.
    pub k_out_of_range: &'static str,
    pub least_k: &'static str,
    pub several_lists: &'static str,
}

/// Operations are descriptions that do not change.
pub type Op = &'static Operation;

impl PartialEq for Operation {
    fn eq(&self, other: &Operation) -> bool {
        self.name == other.name
    }
}

impl Operation {
    pub fn takes(&self, number: Number) -> bool {
        self.numbers.contains(&number)
    }

    /// All lists, in the order of their numbers.
    pub fn all_lists(&self) -> Vec<List> {
        let mut lists = [self.given, self.lent].concat();
        lists.sort_unstable();
        lists
    }

    /// The lists whose length may be wrong.
    pub fn lists(&self) -> Vec<List> {
        let mut lists = self.all_lists();
        let carries_k = |list| list == Basis && !self.takes(K);
        lists.retain(|&list| list != Queries && !carries_k(list));
        lists
    }

    /// The numbers that have a range of their own, whatever the dimension is.
    pub fn ranged(&self) -> Vec<Number> {
        let numbers = [Rate, Step].into_iter();
        numbers.filter(|&number| self.takes(number)).collect()
    }

    /// All right settings of some dimensions.
    pub fn all_settings(&self, dimensions: &[u64]) -> Vec<Setting> {
        dimensions.iter().flat_map(|&k| (self.settings)(k)).collect()
    }

    /// The name of a comparison. Names are few, and live as long as the program.
    pub fn title(&self, what: &str) -> &'static str {
        format!("{}, {what}", self.name).leak()
    }

    /// Right calls with these settings, of each as many as its dimension has turns.
    pub fn right_calls(
        &self,
        random: &mut Random,
        settings: impl Iterator<Item = Setting>,
        turns: &[usize],
    ) -> Vec<Call> {
        let mut calls = Vec::new();
        for setting in settings {
            let turns = 0..turns[setting[0] as usize];
            calls.extend(turns.map(|turn| (self.right)(random, setting, turn)));
        }
        calls
    }

    // Calls with any numbers.

    /// With a basis that is independent if it can be, and lists of the lengths that the setting
    /// asks for.
    pub fn any(&'static self, random: &mut Random, setting: Setting) -> Call {
        let k = match self.takes(K) {
            true => Call::of(self).with_setting(setting).due_length(Basis),
            false => setting[0] as usize,
        };
        let basis = longest_basis(random, k);
        let mut call = Call::of(self).with_setting(setting).with_list(Basis, basis);
        for number in [Offset, Challenge] {
            call[number] = if self.takes(number) { random.number() } else { 0 };
        }
        let has_length = |list: &List| ![Basis, Queries].contains(list);
        for &list in self.given.iter().filter(|&list| has_length(list)) {
            let due = call.due_length(list);
            call = call.with_any(random, list, due);
        }
        if self.given.contains(&Queries) {
            call[Queries] = self.any_queries(random, call.k());
        }
        for &list in self.lent {
            call = call.with_due_length(list);
        }
        call.with_fill(FILLS[random.below(2)])
    }

    /// In the two halves of the word, and so in two cosets wherever there are two.
    fn any_queries(&self, random: &mut Random, k: u64) -> Vec<u64> {
        let in_range = 1 << k.min(*self.dimensions.end());
        let one = random.below(in_range) as u64;
        let queries: [u64; ANY_QUERIES] = [one, one ^ (in_range as u64 >> 1)];
        queries.to_vec()
    }
}

impl Call {
    /// The lists are not made to fit.
    pub fn with_setting(mut self, [k, rate, step]: Setting) -> Call {
        for (number, value) in [(K, k), (Rate, rate), (Step, step)] {
            if self.operation.takes(number) {
                self[number] = value;
            }
        }
        self
    }

    pub fn setting(&self) -> Setting {
        [self.k(), self[Rate], self[Step]]
    }

    /// With a list of another length: of any numbers, of independent ones, or lent.
    pub fn with_any(self, random: &mut Random, list: List, length: usize) -> Call {
        let numbers = match list {
            Basis => longest_basis(random, length),
            _ if self.operation.lent.contains(&list) => vec![0; length],
            _ => random.list(length),
        };
        self.with_list(list, numbers)
    }
}

// What is under test.

/// A library that can be asked to make any call.
pub trait Library {
    fn safe(&self, call: &Call, outputs: &mut Outputs) -> Answer;

    /// By the C convention: an answer list of another length than five leaves all lists alone.
    fn raw(&self, call: &Call, outputs: &mut Outputs, answer: &mut [u64]) {
        into_five(answer, || self.safe(call, outputs))
    }

    /// The judge over the bytes of a transcript: that of the reference, where only calls are
    /// under test.
    fn judge_transcript(&self, bytes: &[u8]) -> Answer {
        transcript::judge(bytes)
    }
}

/// Makes the call and writes its answer if there are five numbers for it.
pub fn into_five(answer: &mut [u64], call: impl FnOnce() -> Answer) {
    if answer.len() == ANSWER_LENGTH {
        answer.copy_from_slice(&raw(&call()));
    }
}

/// The verified library.
pub struct Razgwilh;

impl Library for Razgwilh {
    fn safe(&self, call: &Call, outputs: &mut Outputs) -> Answer {
        (call.operation.safe)(call, outputs)
    }

    fn raw(&self, call: &Call, outputs: &mut Outputs, answer: &mut [u64]) {
        (call.operation.raw)(call, outputs, answer)
    }

    fn judge_transcript(&self, bytes: &[u8]) -> Answer {
        library::judge_transcript(bytes)
    }
}

/// The reference in the place of the library.
pub struct Reference;

impl Library for Reference {
    fn safe(&self, call: &Call, outputs: &mut Outputs) -> Answer {
        (call.operation.due)(call, outputs)
    }
}

// What the lists hold after a call.

/// The lists lent for writing, with the numbers around them, in the order of the operation, or
/// the list of bytes, with the bytes around it.
#[derive(PartialEq)]
pub struct Outputs {
    names: &'static [List],
    pub lent: Vec<Lent>,
    pub bytes: Option<Lent<u8>>,
}

impl Outputs {
    fn of(call: &Call) -> Outputs {
        let names = call.operation.lent;
        if names == [Bytes] {
            let bytes = Some(Lent::filled(call[Bytes].len(), call.fill));
            return Outputs { names, lent: Vec::new(), bytes };
        }
        let fills = (0..).map(|place| call.fill + place * APART);
        let lent = names.iter().zip(fills);
        let lent = lent.map(|(&list, fill)| Lent::filled(call[list].len(), fill)).collect();
        Outputs { names, lent, bytes: None }
    }

    /// The bytes of an operation that is lent such a list.
    pub fn bytes(&mut self) -> &mut [u8] {
        self.bytes.as_mut().expect("a list of bytes").list()
    }

    /// All lists at once, of which there are N.
    pub fn lists<const N: usize>(&mut self) -> [&mut [u64]; N] {
        let lists: Vec<&mut [u64]> = self.lent.iter_mut().map(Lent::list).collect();
        lists.try_into().expect("as many lists as the operation has")
    }

    /// The only list, or the first one.
    pub fn first(&mut self) -> &mut [u64] {
        self.lent[0].list()
    }

    /// What the lists hold, whatever was there before.
    pub fn contents(&mut self) -> Vec<Vec<u64>> {
        self.lent.iter_mut().map(|lent| lent.list().to_vec()).collect()
    }
}

/// An answer, as a list of numbers or as a value, and the lists that were written to.
#[derive(PartialEq)]
pub struct After<A> {
    pub answer: A,
    pub outputs: Outputs,
}

impl<A: Show> Show for After<A> {
    fn show(&self) -> String {
        let Outputs { names, lent, bytes } = &self.outputs;
        let lists = lent.iter().map(Show::show).chain(bytes.iter().map(Show::show));
        let lists = names.iter().zip(lists);
        let shown = lists.map(|(list, shown)| format!("; {}: {shown}", list.name()));
        format!("answer: {}{}", self.answer.show(), shown.collect::<String>())
    }
}

/// Lends the lists, has them written to, and gives all of them.
pub fn after(call: &Call, write: impl FnOnce(&mut Outputs) -> Answer) -> After<Answer> {
    let mut outputs = Outputs::of(call);
    let answer = write(&mut outputs);
    After { answer, outputs }
}

pub fn after_safe(library: &dyn Library, call: &Call) -> After<Answer> {
    after(call, |outputs| library.safe(call, outputs))
}

pub fn after_raw(library: &dyn Library, call: &Call) -> After<Lent> {
    let mut outputs = Outputs::of(call);
    let fill = call.fill + call.operation.lent.len() as u64 * APART;
    let mut answer = Lent::filled(call.answer, fill);
    library.raw(call, &mut outputs, answer.list());
    After { answer, outputs }
}

// Comparisons.

/// Compares calls by the C convention with the reference.
pub fn raw_calls(
    library: &dyn Library,
    name: &'static str,
    inputs: impl IntoIterator<Item = Call>,
) -> Comparison {
    let due = |call: &Call| after_raw(&Reference, call);
    compare(name, inputs, REFERENCE_AND_LIBRARY, due, |call| after_raw(library, call))
}

/// Compares safe calls with the reference.
pub fn safe_calls(
    library: &dyn Library,
    name: &'static str,
    inputs: impl IntoIterator<Item = Call>,
) -> Comparison {
    let due = |call: &Call| after_safe(&Reference, call);
    compare(name, inputs, REFERENCE_AND_LIBRARY, due, |call| after_safe(library, call))
}

/// Compares the safe call of a case with what the paper has for it: an answer, and for each lent
/// list what it holds, if it is written to.
pub fn case(
    library: &dyn Library,
    name: &'static str,
    call: Call,
    due: Answer,
    lists: &[Option<&[u64]>],
) -> Comparison {
    let write = |outputs: &mut Outputs| {
        for (lent, due) in outputs.lent.iter_mut().zip(lists) {
            if let Some(due) = due {
                lent.list().copy_from_slice(due);
            }
        }
        due
    };
    compare(
        name,
        [Fixed(call)],
        PAPER_AND_LIBRARY,
        |Fixed(call)| after(call, write),
        |Fixed(call)| after_safe(library, call),
    )
}

#[cfg(test)]
mod tests {
    use super::*;
    use crate::answer::NONE;
    use crate::compare::fold::FOLD;
    use crate::compare::write::WRITE;

    /// A safe function cannot write beside its list, so this stands where the library is called.
    #[test]
    fn a_number_beside_a_list_shows() {
        let call = FOLD.any(&mut Random::named("beside"), [3, 0, 1]);
        let due = after_raw(&Reference, &call);
        for list in 0..2 {
            for (place, number) in [(-1, NONE), (0, 0)] {
                let mut after = after_raw(&Reference, &call);
                assert!(after == due);
                let lent = &mut after.outputs.lent[list];
                let edge = if place < 0 { lent.list.start - 1 } else { lent.list.end };
                lent.numbers[edge] = number;
                assert!(after != due);
            }
        }
    }

    /// As many as would be written with one section too many.
    #[test]
    fn a_byte_beside_a_list_of_bytes_shows() {
        let call = WRITE.any(&mut Random::named("beside bytes"), [3, 1, 1]);
        let due = after_raw(&Reference, &call);
        let behind = call[Bytes].len() as isize;
        for place in (-40..0).chain(behind..behind + 40) {
            let mut after = after_raw(&Reference, &call);
            assert!(after == due);
            let lent = after.outputs.bytes.as_mut().expect("a list of bytes");
            let place = lent.list.start.checked_add_signed(place).expect("a place that is watched");
            lent.numbers[place] ^= 1;
            assert!(after != due);
        }
    }
}
