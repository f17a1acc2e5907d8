//! The same calls by the C convention, one for each function of `include/razgwilh.h` that
//! answers in a lent list; for those who test or wrap the interface itself.
//!
//! The last argument is the list that the five numbers of the answer are written to. Where it
//! has another length than [`ANSWER_LENGTH`], nothing at all is written or done, and a list
//! that was zeroed before then reads as accepted: [`Answer::of`] lends the right one, preset to
//! a number that no cause has.

use crate::{Cause, Fold, Refusal, Run};

/// How many numbers an answer has.
pub const ANSWER_LENGTH: usize = 5;

/// Stands for a place, a round or a value that there is none of. No cause has it for its
/// number.
pub const NONE: u64 = u64::MAX;

/// The five numbers of an answer, as the library wrote them. It must be used:
///
/// ```compile_fail
/// #![deny(unused_must_use)]
/// razgwilh::raw::Answer::of(|answer| razgwilh::raw::judge_transcript(&[], answer));
/// ```
#[derive(Clone, Copy, Debug, PartialEq, Eq)]
#[must_use]
pub struct Answer {
    /// 0 when it went well, else the number of the cause.
    pub number: u64,
    /// The section (numbers 1, 2), basis place (8), query (10, 11, 17), degree (12) or list
    /// (13), else [`NONE`]; for the layer lookup, where the layer begins.
    pub place: u64,
    /// The round, with number 11, else [`NONE`].
    pub round: u64,
    /// How many entries a judge read: 0 where none were, and for every other function.
    pub reads: u64,
    /// What the function gives, where it gives something and `number` is 0; for a prover, the
    /// degree on number 12; else [`NONE`], which as an element is a value like any other.
    pub value: u64,
}

impl Answer {
    /// Makes a call that is lent a list of five numbers, and reads them. All are [`NONE`]
    /// before, so that a call that writes nothing has a number that no cause has.
    pub fn of(call: impl FnOnce(&mut [u64])) -> Answer {
        let mut numbers = [NONE; ANSWER_LENGTH];
        call(&mut numbers);
        let [number, place, round, reads, value] = numbers;
        Answer { number, place, round, reads, value }
    }

    /// The answer where its number is 0, else the refusal.
    ///
    /// # Panics
    ///
    /// Where no cause has the number: nothing was written, or a library of another version was
    /// linked, and what it meant is not known.
    pub fn result(self) -> Result<Answer, Refusal> {
        if self.number == 0 {
            return Ok(self);
        }
        let Some(cause) = Cause::of(self.number) else {
            panic!("the library answered with number {}, which has no cause here", self.number);
        };
        let given = |number: u64| (number != NONE).then_some(number);
        let [place, round] = [self.place, self.round].map(given);
        Err(Refusal { cause, place, round, reads: self.reads })
    }
}

/// The five numbers of [`crate::inverse`].
pub fn inverse(a: u64, answer: &mut [u64]) {
    // SAFETY: the pointer and the length are those of one exclusive slice.
    unsafe { rz_inverse(a, answer.as_mut_ptr(), answer.len()) }
}

/// The five numbers of [`crate::encode`].
pub fn encode(
    offset: u64,
    basis: &[u64],
    coefficients: &[u64],
    values: &mut [u64],
    answer: &mut [u64],
) {
    // SAFETY: each pointer and length are one slice's; what is exclusive overlaps no other.
    unsafe {
        rz_encode(
            offset,
            basis.as_ptr(),
            basis.len(),
            coefficients.as_ptr(),
            coefficients.len(),
            values.as_mut_ptr(),
            values.len(),
            answer.as_mut_ptr(),
            answer.len(),
        )
    }
}

/// The five numbers of [`crate::interpolate`].
pub fn interpolate(
    offset: u64,
    basis: &[u64],
    word: &[u64],
    coefficients: &mut [u64],
    answer: &mut [u64],
) {
    // SAFETY: each pointer and length are one slice's; what is exclusive overlaps no other.
    unsafe {
        rz_interpolate(
            offset,
            basis.as_ptr(),
            basis.len(),
            word.as_ptr(),
            word.len(),
            coefficients.as_mut_ptr(),
            coefficients.len(),
            answer.as_mut_ptr(),
            answer.len(),
        )
    }
}

/// The five numbers of [`crate::fold`]; the value is the next offset.
pub fn fold(given: Fold, values: &mut [u64], next_basis: &mut [u64], answer: &mut [u64]) {
    // SAFETY: each pointer and length are one slice's; what is exclusive overlaps no other.
    unsafe {
        rz_fold(
            given.k,
            given.step,
            given.offset,
            given.basis.as_ptr(),
            given.basis.len(),
            given.word.as_ptr(),
            given.word.len(),
            given.challenge,
            values.as_mut_ptr(),
            values.len(),
            next_basis.as_mut_ptr(),
            next_basis.len(),
            answer.as_mut_ptr(),
            answer.len(),
        )
    }
}

/// The five numbers of [`crate::prove`].
pub fn prove(run: Run, store: &mut [u64], last: &mut [u64], answer: &mut [u64]) {
    // SAFETY: each pointer and length are one slice's; what is exclusive overlaps no other.
    unsafe {
        rz_prove(
            run.k,
            run.rate,
            run.step,
            run.offset,
            run.basis.as_ptr(),
            run.basis.len(),
            run.challenges.as_ptr(),
            run.challenges.len(),
            run.word.as_ptr(),
            run.word.len(),
            store.as_mut_ptr(),
            store.len(),
            last.as_mut_ptr(),
            last.len(),
            answer.as_mut_ptr(),
            answer.len(),
        )
    }
}

/// The five numbers of [`crate::layer`]: the place is where the layer begins and the value is
/// its length.
pub fn layer(k: usize, rate: usize, step: usize, store: &[u64], i: usize, answer: &mut [u64]) {
    // SAFETY: each pointer and length are one slice's; what is exclusive overlaps no other.
    unsafe {
        rz_layer(k, rate, step, store.as_ptr(), store.len(), i, answer.as_mut_ptr(), answer.len())
    }
}

/// The five numbers of [`crate::judge`].
pub fn judge(run: Run, queries: &[u64], store: &[u64], last: &[u64], answer: &mut [u64]) {
    // SAFETY: each pointer and length are one slice's; what is exclusive overlaps no other.
    unsafe {
        rz_judge(
            run.k,
            run.rate,
            run.step,
            run.offset,
            run.basis.as_ptr(),
            run.basis.len(),
            run.challenges.as_ptr(),
            run.challenges.len(),
            queries.as_ptr(),
            queries.len(),
            run.word.as_ptr(),
            run.word.len(),
            store.as_ptr(),
            store.len(),
            last.as_ptr(),
            last.len(),
            answer.as_mut_ptr(),
            answer.len(),
        )
    }
}

/// The five numbers of [`crate::write_transcript`].
pub fn write_transcript(
    run: Run,
    queries: &[u64],
    store: &[u64],
    last: &[u64],
    bytes: &mut [u8],
    answer: &mut [u64],
) {
    // SAFETY: each pointer and length are one slice's; what is exclusive overlaps no other.
    unsafe {
        rz_write_transcript(
            run.k,
            run.rate,
            run.step,
            run.offset,
            run.basis.as_ptr(),
            run.basis.len(),
            run.challenges.as_ptr(),
            run.challenges.len(),
            queries.as_ptr(),
            queries.len(),
            run.word.as_ptr(),
            run.word.len(),
            store.as_ptr(),
            store.len(),
            last.as_ptr(),
            last.len(),
            bytes.as_mut_ptr(),
            bytes.len(),
            answer.as_mut_ptr(),
            answer.len(),
        )
    }
}

/// The five numbers of [`crate::judge_transcript`].
pub fn judge_transcript(bytes: &[u8], answer: &mut [u64]) {
    // SAFETY: each pointer and length are one slice's; what is exclusive overlaps no other.
    unsafe { rz_judge_transcript(bytes.as_ptr(), bytes.len(), answer.as_mut_ptr(), answer.len()) }
}

// Nothing checks these declarations against the library, so they stand once, here, in the order
// of `include/razgwilh.h`.
extern "C" {
    pub(crate) fn rz_sum(a: u64, b: u64) -> u64;
    pub(crate) fn rz_product(a: u64, b: u64) -> u64;
    pub(crate) fn rz_rounds(k: usize, rate: usize, step: usize) -> usize;
    pub(crate) fn rz_store_length(k: usize, rate: usize, step: usize) -> usize;
    pub(crate) fn rz_last_length(k: usize, rate: usize, step: usize) -> usize;
    pub(crate) fn rz_transcript_length(k: usize, rate: usize, step: usize, queries: usize) -> u64;
    fn rz_inverse(a: u64, answer: *mut u64, answer_length: usize);
    pub(crate) fn rz_invert(list: *mut u64, length: usize);
    fn rz_encode(
        offset: u64,
        basis: *const u64,
        basis_length: usize,
        coefficients: *const u64,
        coefficients_length: usize,
        values: *mut u64,
        values_length: usize,
        answer: *mut u64,
        answer_length: usize,
    );
    fn rz_interpolate(
        offset: u64,
        basis: *const u64,
        basis_length: usize,
        word: *const u64,
        word_length: usize,
        coefficients: *mut u64,
        coefficients_length: usize,
        answer: *mut u64,
        answer_length: usize,
    );
    fn rz_fold(
        k: usize,
        step: usize,
        offset: u64,
        basis: *const u64,
        basis_length: usize,
        word: *const u64,
        word_length: usize,
        challenge: u64,
        values: *mut u64,
        values_length: usize,
        next_basis: *mut u64,
        next_basis_length: usize,
        answer: *mut u64,
        answer_length: usize,
    );
    fn rz_prove(
        k: usize,
        rate: usize,
        step: usize,
        offset: u64,
        basis: *const u64,
        basis_length: usize,
        challenges: *const u64,
        challenges_length: usize,
        word: *const u64,
        word_length: usize,
        store: *mut u64,
        store_length: usize,
        last: *mut u64,
        last_length: usize,
        answer: *mut u64,
        answer_length: usize,
    );
    fn rz_layer(
        k: usize,
        rate: usize,
        step: usize,
        store: *const u64,
        store_length: usize,
        i: usize,
        answer: *mut u64,
        answer_length: usize,
    );
    fn rz_judge(
        k: usize,
        rate: usize,
        step: usize,
        offset: u64,
        basis: *const u64,
        basis_length: usize,
        challenges: *const u64,
        challenges_length: usize,
        queries: *const u64,
        queries_length: usize,
        word: *const u64,
        word_length: usize,
        store: *const u64,
        store_length: usize,
        last: *const u64,
        last_length: usize,
        answer: *mut u64,
        answer_length: usize,
    );
    fn rz_write_transcript(
        k: usize,
        rate: usize,
        step: usize,
        offset: u64,
        basis: *const u64,
        basis_length: usize,
        challenges: *const u64,
        challenges_length: usize,
        queries: *const u64,
        queries_length: usize,
        word: *const u64,
        word_length: usize,
        store: *const u64,
        store_length: usize,
        last: *const u64,
        last_length: usize,
        bytes: *mut u8,
        bytes_length: usize,
        answer: *mut u64,
        answer_length: usize,
    );
    fn rz_judge_transcript(
        bytes: *const u8,
        bytes_length: usize,
        answer: *mut u64,
        answer_length: usize,
    );
    pub(crate) fn rz_sheet(
        bytes: *const u8,
        bytes_length: usize,
        out: *mut u8,
        out_length: usize,
    ) -> u64;
}
