//! Wrong libraries: tables of what is wrong and of the comparisons that must differ.

mod shared;

pub use super::operation::into_five;
pub use shared::{causes, shared_rows, Others};

use super::call::*;
use super::operation::{after_safe, Library, Op, Outputs, Reference};
use super::{Comparison, SHRINKS};
use crate::answer::{done, raw, refused_at, Answer, ANSWER_LENGTH};
use crate::coset::first_dependent;
use std::collections::HashSet;
use std::rc::Rc;

// A table.

/// A wrong library, and what it shows in. A name stands for all comparisons whose names end in
/// it.
pub struct Row<L> {
    what: String,
    library: L,
    differ: Vec<String>,
    /// Those that must agree; all others, if this is not said.
    agree: Option<Vec<String>>,
    /// Those of which nothing is said unless they must differ.
    unsaid: &'static [&'static str],
    /// Comparisons, and what the smallest input that is shown for them must hold.
    smallest: Vec<(String, String)>,
}

pub fn row<L>(what: impl Into<String>, library: L) -> Row<L> {
    let (differ, smallest) = (Vec::new(), Vec::new());
    Row { what: what.into(), library, differ, agree: None, unsaid: &[], smallest }
}

impl<L> Row<L> {
    /// All of these differ, and nothing else does.
    pub fn differs<S: AsRef<str>>(mut self, names: &[S]) -> Row<L> {
        self.differ.extend(names.iter().map(|name| name.as_ref().to_string()));
        self
    }

    /// With all that `differs` says, these agree, and of the others nothing is said.
    pub fn agrees<S: AsRef<str>>(mut self, names: &[S]) -> Row<L> {
        let names = names.iter().map(|name| name.as_ref().to_string());
        self.agree.get_or_insert_default().extend(names);
        self
    }

    /// Of the comparisons that `differs` does not name nothing is said.
    pub fn among_others(self) -> Row<L> {
        self.agrees::<&str>(&[])
    }

    pub fn smallest(mut self, name: impl Into<String>, holds: impl Into<String>) -> Row<L> {
        self.smallest.push((name.into(), holds.into()));
        self
    }

    /// What is not as the row says.
    fn faults(&self, comparisons: &[Comparison]) -> Vec<String> {
        let mut faults = Vec::new();
        for comparison in comparisons {
            let is_in = |names: &[String]| names.iter().any(|end| comparison.name.ends_with(end));
            let must_differ = is_in(&self.differ);
            let is_unsaid = self.unsaid.iter().any(|end| comparison.name.ends_with(end));
            let must_agree = match &self.agree {
                Some(agree) => is_in(agree),
                None => !must_differ && !is_unsaid,
            };
            match comparison.agrees() {
                true if must_differ => faults.push(format!("{} agrees", comparison.name)),
                false if must_agree => faults.push(format!("{} differs", comparison.name)),
                _ => (),
            }
        }
        for (name, holds) in &self.smallest {
            let shown = smallest(comparisons, name);
            if !shown.contains(holds) {
                faults.push(format!("{name} shows {shown}"));
            }
        }
        for end in self.differ.iter().chain(self.agree.iter().flatten()) {
            if !comparisons.iter().any(|comparison| comparison.name.ends_with(end)) {
                faults.push(format!("there is no {end}"));
            }
        }
        faults.into_iter().map(|fault| format!("{}: {fault}", self.what)).collect()
    }
}

/// The names of the comparisons that do not agree.
pub fn differing(comparisons: &[Comparison]) -> Vec<&'static str> {
    let wrong = comparisons.iter().filter(|comparison| !comparison.agrees());
    wrong.map(|comparison| comparison.name).collect()
}

/// The smallest input of the comparison of this name, if it differs.
fn smallest(comparisons: &[Comparison], name: &str) -> String {
    let mut named = comparisons.iter().filter(|one| one.name.ends_with(name));
    let difference = named.next().and_then(|comparison| comparison.difference.as_ref());
    difference.map_or("nothing".to_string(), |difference| difference.smallest.clone())
}

/// Holds that the right library agrees with the reference, that each row is as it says, that
/// every comparison differs for some row, and that no two comparisons have one name.
pub fn hold_table<L>(right: &L, rows: &[Row<L>], comparisons: impl Fn(&L) -> Vec<Comparison>) {
    let all = comparisons(right);
    assert_eq!(differing(&all), [""; 0]);
    let mut never: HashSet<&str> = all.iter().map(|comparison| comparison.name).collect();
    assert_eq!(never.len(), all.len());
    let mut faults = Vec::new();
    for row in rows {
        SHRINKS.set(!row.smallest.is_empty());
        let comparisons = comparisons(&row.library);
        SHRINKS.set(true);
        faults.extend(row.faults(&comparisons));
        for name in differing(&comparisons) {
            never.remove(name);
        }
    }
    assert!(faults.is_empty(), "{}", faults.join("\n"));
    assert!(never.is_empty(), "no wrong library shows in {never:?}");
}

// Libraries with one mistake.

/// The reference with another behaviour, of all operations or of one.
pub struct Wrong {
    operation: Option<Op>,
    safe: Rc<dyn Fn(&Call, &mut Outputs) -> Answer>,
    raw: Rc<dyn Fn(&Call, &mut Outputs, &mut [u64])>,
}

impl Library for Wrong {
    fn safe(&self, call: &Call, outputs: &mut Outputs) -> Answer {
        match self.operation {
            Some(operation) if operation != call.operation => Reference.safe(call, outputs),
            _ => (self.safe)(call, outputs),
        }
    }

    fn raw(&self, call: &Call, outputs: &mut Outputs, answer: &mut [u64]) {
        match self.operation {
            Some(operation) if operation != call.operation => Reference.raw(call, outputs, answer),
            _ => (self.raw)(call, outputs, answer),
        }
    }
}

impl Wrong {
    /// Only this operation is wrong.
    pub fn of(self, operation: Op) -> Wrong {
        Wrong { operation: Some(operation), ..self }
    }
}

impl Row<Wrong> {
    /// Only this operation is wrong, unless the row has another one.
    pub fn of(mut self, operation: Op) -> Row<Wrong> {
        self.library.operation.get_or_insert(operation);
        self
    }
}

/// The reference as one of these.
pub fn right_library() -> Wrong {
    alike(right)
}

/// Both the safe call and that by the C convention behave like this.
pub fn alike(behaviour: impl Fn(&Call, &mut Outputs) -> Answer + 'static) -> Wrong {
    let safe = Rc::new(behaviour);
    let behaviour = safe.clone();
    let raw = Rc::new(move |call: &Call, outputs: &mut Outputs, answer: &mut [u64]| {
        into_five(answer, || behaviour(call, outputs))
    });
    Wrong { operation: None, safe, raw }
}

/// Only the call by the C convention is wrong.
pub fn raw_alone(behaviour: impl Fn(&Call, &mut Outputs, &mut [u64]) + 'static) -> Wrong {
    Wrong { raw: Rc::new(behaviour), ..right_library() }
}

pub fn right(call: &Call, outputs: &mut Outputs) -> Answer {
    Reference.safe(call, outputs)
}

pub fn is_refused(call: &Call) -> bool {
    call.refusal().is_some()
}

/// Does what is right for the call with something changed, unless it is to be refused.
pub fn changing(change: impl Fn(&mut Call) + 'static) -> Wrong {
    always_instead(move |mut call| {
        if !is_refused(&call) {
            change(&mut call);
        }
        call
    })
}

/// Does what is right for another call, whose lent lists may be shorter, whether or not this one
/// is to be refused.
pub fn always_instead(other: impl Fn(Call) -> Call + 'static) -> Wrong {
    alike(move |call, outputs| {
        let mut done = after_safe(&Reference, &other(call.clone()));
        outputs.take(&mut done.outputs);
        done.answer
    })
}

impl Outputs {
    /// Writes zeros to all lists.
    fn clear(&mut self) {
        self.lent.iter_mut().for_each(|lent| lent.list().fill(0));
        self.bytes.iter_mut().for_each(|lent| lent.list().fill(0));
    }

    /// Changes the first number, or byte, of a list that is not empty.
    fn change_first(&mut self, list: usize) {
        match &mut self.bytes {
            Some(lent) => lent.list().iter_mut().take(1).for_each(|first| *first ^= 1),
            None => self.lent[list].list().iter_mut().take(1).for_each(|first| *first ^= 1),
        }
    }

    /// Takes what was written to the lists of another call, for as far as it fits.
    fn take(&mut self, other: &mut Outputs) {
        for (lent, written) in self.lent.iter_mut().zip(&mut other.lent) {
            copy_what_fits(written.list(), lent.list());
        }
        for (lent, written) in self.bytes.iter_mut().zip(&mut other.bytes) {
            copy_what_fits(written.list(), lent.list());
        }
    }
}

/// Copies to a list that may be shorter, or longer.
pub fn copy_what_fits<N: Copy>(due: &[N], list: &mut [N]) {
    let length = due.len().min(list.len());
    list[..length].copy_from_slice(&due[..length]);
}

/// Takes the points 0, 1, 2 and so on for those of the coset.
pub fn with_points_from_0() -> Wrong {
    changing(|call| {
        call[Offset] = 0;
        call[Basis] = (0..call.k()).map(|place| 1 << place).collect();
    })
}

/// Does what is right, and then something to the lists if that went well.
pub fn and_then(change: impl Fn(&Call, &mut Outputs) + 'static) -> Wrong {
    alike(move |call, outputs| {
        let answer = right(call, outputs);
        if answer.number == 0 {
            change(call, outputs);
        }
        answer
    })
}

/// Does something to the lists of a call that is to be refused.
pub fn when_refused(change: impl Fn(&Call, &mut Outputs) + 'static) -> Wrong {
    alike(move |call, outputs| {
        if is_refused(call) {
            change(call, outputs);
        }
        right(call, outputs)
    })
}

/// Leaves the numbers of a lent list as they were that are not to be kept: a place, the number
/// there and the length decide.
pub fn not_writing(list: usize, kept: fn(usize, u64, usize) -> bool) -> Wrong {
    alike(move |call, outputs| {
        let before = outputs.contents();
        let answer = right(call, outputs);
        let numbers = outputs.lent[list].list();
        for (place, before) in before[list].iter().enumerate() {
            if !kept(place, numbers[place], numbers.len()) {
                numbers[place] = *before;
            }
        }
        answer
    })
}

/// Gives another answer, having done what is right.
pub fn answering(other: impl Fn(&Call, Answer) -> Answer + 'static) -> Wrong {
    alike(move |call, outputs| other(call, right(call, outputs)))
}

/// Gives another answer for the refusals of one number.
pub fn refusing(number: u64, other: impl Fn(&Call, Answer) -> Answer + 'static) -> Wrong {
    answering(move |call, answer| match answer.number == number && is_refused(call) {
        true => other(call, answer),
        false => answer,
    })
}

/// Takes some of the calls that are to be refused with a number.
pub fn taking(number: u64, is_taken: impl Fn(&Call) -> bool + 'static) -> Wrong {
    refusing(number, move |call, answer| if is_taken(call) { done() } else { answer })
}

/// Refuses for a cause before the reference looks for any.
pub fn first_of_all(cause: impl Fn(&Call) -> Option<Answer> + 'static) -> Wrong {
    alike(move |call, outputs| cause(call).unwrap_or_else(|| right(call, outputs)))
}

// Answers.

/// Writes an answer to a list of any length.
pub fn write_what_fits(due: Answer, answer: &mut [u64]) {
    copy_what_fits(&raw(&due), answer);
}

/// Changes one of the five numbers of an answer.
pub fn changed_at(place: usize, mut answer: Answer) -> Answer {
    match place {
        0 => answer.number ^= 1,
        1 => answer.place = Some(answer.place.map_or(0, |place| place ^ 1)),
        2 => answer.round = Some(0),
        3 => answer.reads += 1,
        _ => answer.value = Some(answer.value.map_or(0, |value| value ^ 1)),
    }
    answer
}

/// How a lone fold gave 16, a later layer's basis is dependent, which is retired: nothing in the
/// reference refuses with it.
pub fn with_16() -> Answer {
    Answer { number: 16, round: Some(0), ..done() }
}

// Dependent bases.

/// The refusal of a dependent basis.
pub fn dependent(basis: &[u64]) -> Option<Answer> {
    first_dependent(basis).map(|place| refused_at(8, place as u64))
}

/// Each element without its upper half.
pub fn lower_halves(basis: &[u64]) -> Vec<u64> {
    basis.iter().map(|b| b & (u64::MAX >> 32)).collect()
}
