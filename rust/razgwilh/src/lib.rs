//! Safe calls of Razgwilh's proved library: FRI over cosets of the field of 2^64 elements.
//!
//! An element is a 64-bit number: bit i is the coefficient of t^i, and elements multiply modulo
//! t^64 + t^4 + t^3 + t + 1. A coset has an offset, any element, and a basis of k independent
//! elements; its point j is the offset plus the sum of the basis elements b_t for which bit t of j
//! is set. A word lists 2^k values in point order. A polynomial is the list of its coefficients,
//! constant first.
//!
//! There is arithmetic ([`sum`], [`product`], [`inverse`], and [`invert`] for a whole list),
//! [`encode`] and [`interpolate`], a lone [`fold`], the lengths of a run's lists
//! ([`Run::store_length`] and others), the prover ([`prove`]), the [`layer`] of a store, the writer
//! of transcripts ([`write_transcript`]), the judge, over lists ([`judge`]) and over the bytes of a
//! transcript ([`judge_transcript`]), and the marking sheet of a transcript ([`sheet`],
//! [`sheet_into`]). `include/razgwilh.h` describes each function in full, with the order of its
//! refusals and, called from C, the stack that it takes; [`raw`] has those that answer in a lent
//! list by the C convention. Only [`sheet`] needs an allocator: it is left out without the feature
//! `alloc`.
//!
//! Whatever a caller passes, a refusal is an `Err` with its [`Cause`], whose number
//! `docs/NUMBERS.md` lists. Only number 0 reads as done or accepted: the five numbers of an
//! answer are preset to one that no cause has, so that a call that wrote nothing is seen, and a
//! number that no cause has, as from a library of another version, is a panic that names it.
//!
//! The library is linked statically. While this crate is built, `RAZGWILH_LIB_DIR` may name, by
//! an absolute path, a folder with `librazgwilh.a`; without it, `./library` has to have made the
//! repository's.
//!
//! # Example
//!
//! Eight values over the coset of all numbers below 8 are proved and judged. Then the same is
//! written as a transcript, and judged: sections in a fixed order, each after its count, the
//! count in 4 bytes and each entry in 8, little-endian.
//!
//! ```
//! use razgwilh::{judge, judge_transcript, prove, write_transcript, Accepted, Cause, Run};
//!
//! let run = Run {
//!     k: 3,
//!     rate: 1,
//!     step: 1,
//!     offset: 0,
//!     basis: &[1, 2, 4],
//!     challenges: &[2, 3],
//!     word: &[0, 1, 4, 5, 0x10, 0x11, 0x14, 0x15],
//! };
//!
//! // In two rounds there is one layer to store, of four entries, and one last coefficient.
//! let mut store = vec![0; run.store_length()];
//! let mut last = vec![0; run.last_length()];
//! prove(run, &mut store, &mut last)?;
//! assert_eq!(store, [2, 4, 0x16, 0x10]);
//! assert_eq!(last, [1]);
//!
//! // A query reads two entries of each layer.
//! let verdict = judge(run, &[5], &store, &last);
//! assert_eq!(verdict, Ok(Accepted { reads: 4 }));
//!
//! let mut bytes = vec![0; run.transcript_length(1)];
//! write_transcript(run, &[5], &store, &last, &mut bytes)?;
//! assert_eq!(judge_transcript(&bytes), verdict);
//!
//! // Parameters; offset and basis; challenges; queries; layers 0 and 1; last coefficients.
//! let sections: [&[u64]; 7] =
//!     [&[3, 1, 1], &[0, 1, 2, 4], run.challenges, &[5], run.word, &store, &last];
//! let mut due = Vec::new();
//! for section in sections {
//!     due.extend((section.len() as u32).to_le_bytes());
//!     due.extend(section.iter().flat_map(|entry| entry.to_le_bytes()));
//! }
//! assert_eq!(bytes, due);
//!
//! // Without its last byte it ends in the entries of section 7.
//! let refusal = judge_transcript(&bytes[..bytes.len() - 1]).unwrap_err();
//! assert_eq!(refusal.cause, Cause::BytesEnd);
//! let shown = "number 1: the bytes end in a count or its entries; section 7";
//! assert_eq!(refusal.to_string(), shown);
//! # Ok::<(), razgwilh::Refusal>(())
//! ```

#![no_std]
#![warn(missing_docs)]

#[cfg(feature = "alloc")]
extern crate alloc;

pub mod raw;
mod refusal;

pub use refusal::{Cause, Refusal};

#[cfg(feature = "alloc")]
use alloc::{vec, vec::Vec};
use raw::Answer;

/// The program of README.md is compiled with the examples of this crate.
#[cfg(doctest)]
#[doc = include_str!("../../../README.md")]
struct Readme;

/// The sum of two elements: the exclusive or.
pub fn sum(a: u64, b: u64) -> u64 {
    // SAFETY: numbers in, a number out.
    unsafe { raw::rz_sum(a, b) }
}

/// The product of two elements.
pub fn product(a: u64, b: u64) -> u64 {
    // SAFETY: numbers in, a number out.
    unsafe { raw::rz_product(a, b) }
}

/// The inverse of `a`, and zero for zero.
///
/// # Panics
///
/// Where the linked library refuses zero, as versions before 0.7 do if they can be linked.
pub fn inverse(a: u64) -> u64 {
    let answer = Answer::of(|answer| raw::inverse(a, answer));
    answer.result().unwrap_or_else(|refusal| panic!("the inverse of {a}: {refusal}")).value
}

/// Inverts each element of the list, in its place; zeros stay zero. Any length is taken. In a long
/// list an element takes a tenth of the time of an inverse by itself.
///
/// ```
/// let mut list = [2, 0, 1, 0x8000_0000_0000_000d];
/// razgwilh::invert(&mut list);
/// assert_eq!(list, [0x8000_0000_0000_000d, 0, 1, 2]);
/// ```
pub fn invert(list: &mut [u64]) {
    // SAFETY: the pointer and the length are those of one exclusive slice.
    unsafe { raw::rz_invert(list.as_mut_ptr(), list.len()) }
}

/// Encodes: `values` gets the polynomial's value at each point of the coset, in point order. A
/// refusal, number 4, 13 or 8, leaves `values` as it was.
pub fn encode(
    offset: u64,
    basis: &[u64],
    coefficients: &[u64],
    values: &mut [u64],
) -> Result<(), Refusal> {
    done(|answer| raw::encode(offset, basis, coefficients, values, answer))
}

/// Interpolates: `coefficients` gets those of the one polynomial of degree below 2^k that has
/// the word's values, constant first. A refusal, number 4, 13 or 8, leaves `coefficients` as it
/// was.
pub fn interpolate(
    offset: u64,
    basis: &[u64],
    word: &[u64],
    coefficients: &mut [u64],
) -> Result<(), Refusal> {
    done(|answer| raw::interpolate(offset, basis, word, coefficients, answer))
}

/// What is given to a fold.
#[derive(Clone, Copy, Debug)]
pub struct Fold<'a> {
    /// The dimension of the coset, 2 to 20.
    pub k: usize,
    /// 1 to 3: the fold takes 2^step entries to one.
    pub step: usize,
    /// The offset of the coset.
    pub offset: u64,
    /// The k basis elements of the coset.
    pub basis: &'a [u64],
    /// The 2^k values in point order.
    pub word: &'a [u64],
    /// What the fold is taken at: any element.
    pub challenge: u64,
}

/// Folds: `values` gets the fold of the word at the challenge, `next_basis` the basis of the
/// next coset, and that coset's offset is returned. A refusal, number 4, 6, 7, 13 or 8,
/// leaves both lists as they were.
pub fn fold(given: Fold, values: &mut [u64], next_basis: &mut [u64]) -> Result<u64, Refusal> {
    let done = Answer::of(|answer| raw::fold(given, values, next_basis, answer)).result()?;
    Ok(done.value)
}

/// What the prover, the judge and the writer of transcripts are all given.
#[derive(Clone, Copy, Debug)]
pub struct Run<'a> {
    /// The dimension of the word's coset, 2 to 20, and at least rate + step.
    pub k: usize,
    /// 1 to 6: the word should have degree below 2^(k - rate).
    pub rate: usize,
    /// 1 to 3: a round takes 2^step entries to one.
    pub step: usize,
    /// The offset of the word's coset.
    pub offset: u64,
    /// The k basis elements of the word's coset.
    pub basis: &'a [u64],
    /// One for each of the r = (k - rate) / step rounds, rounded down.
    pub challenges: &'a [u64],
    /// Layer 0: the 2^k values in point order.
    pub word: &'a [u64],
}

impl Run<'_> {
    /// How many rounds there are, and so challenges: as [`rounds`].
    pub fn rounds(&self) -> usize {
        rounds(self.k, self.rate, self.step)
    }

    /// How many entries the store has: as [`store_length`].
    pub fn store_length(&self) -> usize {
        store_length(self.k, self.rate, self.step)
    }

    /// How many last coefficients there are: as [`last_length`].
    pub fn last_length(&self) -> usize {
        last_length(self.k, self.rate, self.step)
    }

    /// How many bytes the transcript with so many queries has: as [`transcript_length`].
    pub fn transcript_length(&self, queries: usize) -> usize {
        transcript_length(self.k, self.rate, self.step, queries)
    }
}

/// The rounds of a run, r = (k - rate) / step rounded down; 0 for parameters out of range.
pub fn rounds(k: usize, rate: usize, step: usize) -> usize {
    // SAFETY: numbers in, a number out.
    unsafe { raw::rz_rounds(k, rate, step) }
}

/// The entries of a run's store, that is of layers 1 to r - 1 together; 0 where r is 1, and for
/// parameters out of range.
pub fn store_length(k: usize, rate: usize, step: usize) -> usize {
    // SAFETY: numbers in, a number out.
    unsafe { raw::rz_store_length(k, rate, step) }
}

/// The last coefficients of a run, d = 2^(k - rate - r * step); 0 for parameters out of range.
pub fn last_length(k: usize, rate: usize, step: usize) -> usize {
    // SAFETY: numbers in, a number out.
    unsafe { raw::rz_last_length(k, rate, step) }
}

/// The bytes of a run's transcript with so many queries, whatever their number is:
/// 4 * (5 + r) for the counts, and 8 for each entry, that is 3 parameters, offset and basis
/// (1 + k), r challenges, the queries, the word (2^k), the store and d last coefficients. 0 for
/// parameters out of range, and for 2^60 queries or more, which no list has.
pub fn transcript_length(k: usize, rate: usize, step: usize, queries: usize) -> usize {
    // SAFETY: numbers in, a number out. The library is for x86-64, where `usize` has 64 bits.
    unsafe { raw::rz_transcript_length(k, rate, step, queries) as usize }
}

/// Proves: `store` gets layers 1 to r - 1, joined, and `last` the last coefficients. Number 12
/// has the degree of layer r for its place; the store then has its layers, and `last` is as it
/// was. Any other refusal, number 4, 5, 6, 7, 13 or 8, leaves both lists as they were.
pub fn prove(run: Run, store: &mut [u64], last: &mut [u64]) -> Result<(), Refusal> {
    done(|answer| raw::prove(run, store, last, answer))
}

/// Layer `i` of a store, for `i` from 1 to r - 1, as a part of it. Bad parameters, another `i`
/// or a store of another length give the empty part.
pub fn layer(k: usize, rate: usize, step: usize, store: &[u64], i: usize) -> &[u64] {
    let part = Answer::of(|answer| raw::layer(k, rate, step, store, i, answer))
        .result()
        .expect("the lookup refuses nothing");
    &store[part.place as usize..][..part.value as usize]
}

/// What a judge says that refuses nothing. What that means, and what it does not, is said in
/// `docs/NUMBERS.md` under number 0.
#[derive(Clone, Copy, Debug, PartialEq, Eq, Hash)]
#[must_use]
pub struct Accepted {
    /// How many entries the judge read.
    pub reads: u64,
}

/// Judges what was sent, the word, the store and the last coefficients, at the queries. A
/// refusal has number 4, 5, 6, 7, 13, 8, 9, 10, 17 or 11.
pub fn judge(run: Run, queries: &[u64], store: &[u64], last: &[u64]) -> Result<Accepted, Refusal> {
    accepted(|answer| raw::judge(run, queries, store, last, answer))
}

/// Writes the transcript of these lists, honest or not, into `bytes`, which has exactly
/// [`Run::transcript_length`] bytes for as many queries: what [`judge_transcript`] says of it is
/// what [`judge`] says of the lists. A refusal, number 4, 5, 6, 7, 13, 8, 9, 10 or 17, leaves
/// every byte as it was; list 8 of number 13 is `bytes`.
pub fn write_transcript(
    run: Run,
    queries: &[u64],
    store: &[u64],
    last: &[u64],
    bytes: &mut [u8],
) -> Result<(), Refusal> {
    done(|answer| raw::write_transcript(run, queries, store, last, bytes, answer))
}

/// Judges the bytes of a transcript, of any length. A refusal has one of the numbers 1 to 11
/// or 17, of which 1 and 2 have the section for their place.
pub fn judge_transcript(bytes: &[u8]) -> Result<Accepted, Refusal> {
    accepted(|answer| raw::judge_transcript(bytes, answer))
}

/// The bytes of the largest sheet: 256 queries, 19 rounds (k 20, rate 1, step 1), 56 bytes a line.
pub const LARGEST_SHEET: usize = 256 * 19 * 56;

/// The marking sheet of a transcript, of any length: a line of 55 bytes and a line feed for every
/// query and every round, by query, then round, also those after the first check that fails. Its
/// fields are query, index, round, value computed, value found, and `ok` where the two values are
/// equal, else `no`. It is empty where [`judge_transcript`] refuses with another number than 11 (a
/// round check fails); else every line is `ok` exactly where that accepts.
#[cfg(feature = "alloc")]
pub fn sheet(bytes: &[u8]) -> Vec<u8> {
    // One call: to ask for the length first would have all sections of the transcript read twice.
    let mut room = vec![0; LARGEST_SHEET];
    let length = sheet_into(bytes, &mut room);
    room[..length as usize].to_vec()
}

/// Makes the front of `out` the [`sheet`] of the transcript where `out` is long enough for it, and
/// leaves the rest as it was, else all of `out`. Gives the length of the sheet in either case, so
/// that it can be asked for with an empty `out`; no round is computed then.
#[must_use]
pub fn sheet_into(bytes: &[u8], out: &mut [u8]) -> u64 {
    // SAFETY: each pointer and length are one slice's; what is exclusive overlaps no other.
    unsafe { raw::rz_sheet(bytes.as_ptr(), bytes.len(), out.as_mut_ptr(), out.len()) }
}

fn done(call: impl FnOnce(&mut [u64])) -> Result<(), Refusal> {
    Answer::of(call).result().map(|_| ())
}

fn accepted(call: impl FnOnce(&mut [u64])) -> Result<Accepted, Refusal> {
    Answer::of(call).result().map(|answer| Accepted { reads: answer.reads })
}
