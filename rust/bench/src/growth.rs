//! How prover and judge of the library grow with the word, as a table of figures: columns between
//! tabs, a line for each step and each k.

use crate::beside::{work, Operation};
use crate::clock::{least, Work};
use crate::coset::{independent, numbers};
use razgwilh::{encode, judge, judge_transcript, prove, write_transcript, Run};
use std::hint::black_box;
use std::ops::RangeInclusive;

const DIMENSIONS: RangeInclusive<usize> = 10..=20;
const STEPS: RangeInclusive<usize> = 1..=3;
const RATE: usize = 1;
const QUERIES: usize = 16;
const PROVE_TURNS: usize = 40;
const JUDGE_TURNS: usize = 400;

pub fn report() {
    println!(
        "k\tη\tprove, µs\tjudge over lists with {QUERIES} queries, µs\tjudge over a transcript's \
         bytes with {QUERIES} queries, µs"
    );
    let words: Vec<Word> = DIMENSIONS.map(Word::new).collect();
    for step in STEPS {
        let proofs: Vec<Proof> = words.iter().map(|word| Proof::new(word, step)).collect();
        let columns = [
            times(proofs.iter().map(Proof::proving), PROVE_TURNS),
            times(proofs.iter().map(Proof::judging), JUDGE_TURNS),
            times(proofs.iter().map(Proof::judging_bytes), JUDGE_TURNS),
        ];
        for (row, proof) in proofs.iter().enumerate() {
            let [proved, judged, judged_bytes] = columns.each_ref().map(|column| column[row]);
            let k = proof.run.k;
            println!("{k}\t{step}\t{proved:.1}\t{judged:.1}\t{judged_bytes:.1}");
        }
    }
}

/// The least time of each piece of work, in microseconds. All k take their turns in rotation, so
/// that what else the machine does bends no line of the plot.
fn times<'a>(works: impl Iterator<Item = Work<'a>>, turns: usize) -> Vec<f64> {
    let mut works: Vec<Work> = works.collect();
    least(&mut works, turns).into_iter().map(|time| time / 1e3).collect()
}

/// A word of low degree, so that the judge makes every check, and what is given with it.
struct Word {
    offset: u64,
    basis: Vec<u64>,
    challenges: Vec<u64>,
    queries: Vec<u64>,
    entries: Vec<u64>,
}

impl Word {
    fn new(k: usize) -> Word {
        let mut next = numbers();
        let (offset, basis) = (next(), independent(k, &mut next));
        let coefficients: Vec<u64> = (0..1 << (k - RATE)).map(|_| next()).collect();
        let mut entries = vec![0; 1 << k];
        encode(offset, &basis, &coefficients, &mut entries).expect("an independent basis");
        let challenges = (0..k).map(|_| next()).collect();
        Word { offset, basis, challenges, queries: queries(k, next), entries }
    }

    fn run(&self, step: usize) -> Run<'_> {
        let k = self.basis.len();
        Run {
            k,
            rate: RATE,
            step,
            offset: self.offset,
            basis: &self.basis,
            challenges: &self.challenges[..(k - RATE) / step],
            word: &self.entries,
        }
    }
}

/// One in each of as many equal parts of the word, so that no two share a first-layer coset.
fn queries(k: usize, mut next: impl FnMut() -> u64) -> Vec<u64> {
    let part = k - QUERIES.ilog2() as usize;
    (0..QUERIES as u64).map(|query| query << part | next() >> (64 - part)).collect()
}

/// What was proved of a word, as lists and as a transcript.
struct Proof<'a> {
    run: Run<'a>,
    queries: &'a [u64],
    store: Vec<u64>,
    last: Vec<u64>,
    bytes: Vec<u8>,
}

impl<'a> Proof<'a> {
    /// Both judges accept it.
    fn new(word: &'a Word, step: usize) -> Proof<'a> {
        let (run, queries) = (word.run(step), &word.queries[..]);
        let (mut store, mut last) = run.room();
        prove(run, &mut store, &mut last).expect("a word of low degree is proved");
        let mut bytes = vec![0; run.transcript_length(queries.len())];
        write_transcript(run, queries, &store, &last, &mut bytes).expect("nothing to refuse");
        let accepted = judge(run, queries, &store, &last).expect("what was proved is accepted");
        assert_eq!(judge_transcript(&bytes), Ok(accepted));
        Proof { run, queries, store, last, bytes }
    }

    fn proving(&self) -> Work<'_> {
        work(self.run, ("prove", Operation::by_library))
    }

    fn judging(&self) -> Work<'_> {
        let Proof { run, queries, store, last, .. } = self;
        let judge = || judge(black_box(*run), queries, store, last).is_ok().into();
        Work { name: "judge over lists", run: Box::new(judge) }
    }

    fn judging_bytes(&self) -> Work<'_> {
        let judge = || judge_transcript(black_box(&self.bytes)).is_ok().into();
        Work { name: "judge over bytes", run: Box::new(judge) }
    }
}
