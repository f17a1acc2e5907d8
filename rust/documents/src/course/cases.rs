//! The runs of the course, computed by the library, and the transcripts that are sent.

use super::document::{ensure, Held};
use super::pair::Pair;
use super::text::list;
use crate::assignment::Assignment;
use crate::coset::Coset;
use razgwilh::{product, sum, Run};
use std::fmt::{self, Display, Formatter};
use std::slice;

/// `offset 0, basis 1, 2`
impl Display for Coset {
    fn fmt(&self, f: &mut Formatter) -> fmt::Result {
        write!(f, "offset {:x}, basis {}", self.offset, list(&self.basis))
    }
}

/// The fold with step 1 of a word over these points, whatever they are.
pub fn fold_pairs(points: &[u64], word: &[u64], challenge: u64) -> Vec<u64> {
    Pair::all(points, word, challenge).map(|pair| pair.value()).collect()
}

/// A fold with any step by folds with step 1, as section 6 has it, or with a fault in it.
#[derive(Clone, Copy)]
pub struct Steps {
    inner_offset_kept: bool,
    challenge_carried: bool,
}

impl Steps {
    pub const RIGHT: Steps = Steps { inner_offset_kept: true, challenge_carried: true };
    pub const OFFSET_DROPPED: Steps = Steps { inner_offset_kept: false, ..Steps::RIGHT };
    pub const CHALLENGE_KEPT: Steps = Steps { challenge_carried: false, ..Steps::RIGHT };

    pub fn fold(self, coset: &Coset, word: &[u64], step: usize, x: u64) -> Held<Vec<u64>> {
        let (mut coset, mut word, mut x) = (coset.clone(), word.to_vec(), x);
        for _ in 0..step {
            word = fold_pairs(&coset.points()?, &word, x);
            let first = coset.basis.remove(0);
            let q = |a| product(a, sum(a, first));
            coset.basis.iter_mut().for_each(|element| *element = q(*element));
            coset.offset = if self.inner_offset_kept { q(coset.offset) } else { 0 };
            x = if self.challenge_carried { q(x) } else { x };
        }
        Ok(word)
    }
}

/// What is handed out, with the word in place of the coefficients.
#[derive(Clone)]
pub struct Case {
    pub rate: usize,
    pub step: usize,
    pub coset: Coset,
    pub challenges: Vec<u64>,
    pub queries: Vec<u64>,
    pub word: Vec<u64>,
}

impl Case {
    /// The case of an assignment in the form of section 16, with coefficients.
    pub fn of_assignment(text: &str) -> Held<Case> {
        let given = Assignment::read(text)?;
        let coset = Coset { offset: given.offset, basis: given.basis };
        let case = Case {
            rate: given.rate,
            step: given.step,
            word: coset.encode(&given.coefficients)?,
            coset,
            challenges: given.challenges,
            queries: given.queries,
        };
        ensure(given.k == case.k(), "k is not the length of the basis")?;
        Ok(case)
    }

    pub fn k(&self) -> usize {
        self.coset.basis.len()
    }

    pub fn run(&self) -> Run<'_> {
        Run {
            k: self.k(),
            rate: self.rate,
            step: self.step,
            offset: self.coset.offset,
            basis: &self.coset.basis,
            challenges: &self.challenges,
            word: &self.word,
        }
    }

    /// The same with these queries, which are valid.
    pub fn at(&self, queries: &[u64]) -> Case {
        Case { queries: queries.to_vec(), ..self.clone() }
    }

    /// `k 3, R 1, η 1`
    pub fn parameters(&self) -> String {
        format!("k {}, R {}, η {}", self.k(), self.rate, self.step)
    }

    pub fn first_layer_cosets(&self) -> usize {
        1 << (self.k() - self.step)
    }

    /// What a right prover sends. The library's writer gives the same bytes.
    pub fn proved(&self) -> Held<Sections> {
        let run = self.run();
        let (mut store, mut last) = (vec![0; run.store_length()], vec![0; run.last_length()]);
        razgwilh::prove(run, &mut store, &mut last)?;
        let layer = |i| razgwilh::layer(run.k, run.rate, run.step, &store, i).to_vec();
        let sections = self.sections((1..run.rounds()).map(layer).collect(), last.clone());
        let mut bytes = vec![0; run.transcript_length(self.queries.len())];
        razgwilh::write_transcript(run, &self.queries, &store, &last, &mut bytes)?;
        ensure(bytes == sections.bytes(), "the library's writer has other bytes")?;
        Ok(sections)
    }

    /// What a prover sends that makes the fold of each round in its own way, over the right
    /// cosets, and interpolates layer r.
    pub fn sent(&self, fold: impl Fn(usize, &Coset, &[u64]) -> Held<Vec<u64>>) -> Held<Sections> {
        let (mut coset, mut layers) = (self.coset.clone(), vec![self.word.clone()]);
        for round in 0..self.run().rounds() {
            layers.push(fold(round, &coset, &layers[round])?);
            coset = coset.next(self.step)?;
        }
        let last = coset.interpolate(&layers.pop().expect("layer r"))?;
        Ok(self.sections(layers.split_off(1), last[..self.run().last_length()].to_vec()))
    }

    pub fn sent_by(&self, steps: Steps) -> Held<Sections> {
        self.sent(|i, coset, word| steps.fold(coset, word, self.step, self.challenges[i]))
    }

    fn sections(&self, layers: Vec<Vec<u64>>, last: Vec<u64>) -> Sections {
        let parameters = [self.k(), self.rate, self.step].map(|number| number as u64).to_vec();
        let coset = [&[self.coset.offset], &self.coset.basis[..]].concat();
        let front = [parameters, coset, self.challenges.clone(), self.queries.clone()];
        Sections([&front[..], slice::from_ref(&self.word), &layers, &[last]].concat())
    }
}

/// A transcript as its sections.
#[derive(Clone, PartialEq)]
pub struct Sections(pub Vec<Vec<u64>>);

impl Sections {
    /// Section `number`, from 1.
    pub fn section(&mut self, number: usize) -> &mut Vec<u64> {
        &mut self.0[number - 1]
    }

    pub fn layer(&self, i: usize) -> &[u64] {
        &self.0[4 + i]
    }

    pub fn last(&self) -> &[u64] {
        self.0.last().expect("a transcript has sections")
    }

    pub fn bytes(&self) -> Vec<u8> {
        self.bytes_with(|count| (count as u32).to_le_bytes(), u64::to_le_bytes)
    }

    /// The bytes, with counts and entries written in these forms.
    pub fn bytes_with<const N: usize, const M: usize>(
        &self,
        count: impl Fn(usize) -> [u8; N],
        entry: impl Fn(u64) -> [u8; M],
    ) -> Vec<u8> {
        let mut bytes = Vec::new();
        for section in &self.0 {
            bytes.extend(count(section.len()));
            bytes.extend(section.iter().flat_map(|value| entry(*value)));
        }
        bytes
    }
}
