//! The judge over the bytes of a transcript beside the judge over the same lists; the writing of
//! those bytes beside the same method in Rust and beside a copy.

use super::apart::check_apart;
use super::inputs::{Inputs, RATE};
use super::judge::{Proof, TURNS};
use super::layers::{check_basis, dimension, layer_start};
use super::prover::proved;
use crate::arithmetic::{Arithmetic, Windowed};
use crate::beside::{work, Operation};
use crate::clock::{table, Work};
use razgwilh::{judge_transcript, write_transcript, Refusal};
use std::hint::black_box;

/// With few queries the sections weigh most, which only the judge over bytes walks through.
const QUERIES: [usize; 3] = [1, 16, 256];

pub fn report(inputs: &Inputs) {
    println!(
        "\njudge of {} entries with rate {RATE} over the bytes of a transcript, wanted at most \
         1.15 of the judge over lists:",
        inputs.word.len()
    );
    with_proofs(inputs, |proof| {
        for count in QUERIES {
            compare_judges(Proof { queries: &proof.queries[..count], ..proof });
        }
    });
    println!(
        "\nwriting the transcript of {} entries with rate {RATE} and {} queries, wanted at most \
         1.30 of the same method:",
        inputs.word.len(),
        inputs.queries.len()
    );
    with_proofs(inputs, |proof| compare_writers(Transcript(proof)));
}

/// Lends what is proved with each step.
pub fn with_proofs(inputs: &Inputs, compare: impl Fn(Proof)) {
    for step in 1..=3 {
        let run = inputs.run(step);
        let (store, last) = proved(run);
        compare(Proof { run, queries: &inputs.queries, store: &store, last: &last });
    }
}

fn compare_judges(proof: Proof) {
    let bytes = Transcript(proof).written();
    let accepted = proof.by_library(&mut ()).expect("what was proved is accepted");
    assert_eq!(judge_transcript(&bytes), Ok(accepted));
    println!("  step {}, queries {}:", proof.run.step, proof.queries.len());
    let over_lists = work(proof, ("the library over lists", Operation::by_library));
    table([judging("the library over bytes", &bytes), over_lists], TURNS, "µs", 1e3);
}

/// The library's judge over these bytes.
pub fn judging<'a>(name: &'a str, bytes: &'a [u8]) -> Work<'a> {
    let run = || black_box(judge_transcript(black_box(bytes))).is_ok().into();
    Work { name, run: Box::new(run) }
}

fn compare_writers(transcript: Transcript) {
    let (bytes, mut by_rust) = (transcript.written(), transcript.room());
    transcript.by(Windowed, &mut by_rust).expect("nothing to refuse");
    assert!(by_rust == bytes, "the two differ");
    println!("  step {}, {} bytes:", transcript.0.run.step, bytes.len());
    let mut room = transcript.room();
    let copy = || {
        room.copy_from_slice(black_box(&bytes));
        black_box(&room).len() as u64
    };
    let works = [
        work(transcript, ("the library", Operation::by_library)),
        work(transcript, ("the same method in Rust", |given, room| given.by(Windowed, room))),
        Work { name: "a copy of as many bytes", run: Box::new(copy) },
    ];
    table(works, TURNS, "ms", 1e6);
}

/// What a transcript is written of.
#[derive(Clone, Copy)]
pub struct Transcript<'a>(pub Proof<'a>);

impl Transcript<'_> {
    pub fn written(self) -> Vec<u8> {
        let mut bytes = self.room();
        self.by_library(&mut bytes).expect("nothing to refuse");
        bytes
    }
}

/// The library's method: the checks, then section after section, entry by entry. Of the checks
/// only that of the basis and that the queries lie apart are made; the others compare some three
/// hundred numbers.
impl Operation for Transcript<'_> {
    type Room = Vec<u8>;
    type Answer = Result<(), Refusal>;

    fn room(self) -> Vec<u8> {
        vec![0; self.0.run.transcript_length(self.0.queries.len())]
    }

    fn by_library(self, bytes: &mut Vec<u8>) -> Self::Answer {
        let Proof { run, queries, store, last } = self.0;
        write_transcript(run, queries, store, last, bytes)
    }

    fn by(self, arithmetic: impl Arithmetic, bytes: &mut Vec<u8>) -> Self::Answer {
        check_basis(arithmetic, &self.0.run);
        check_apart(self.0.queries, self.0.run.step)?;
        write(&self.0, bytes);
        Ok(())
    }
}

/// Fills in the transcript: parameters, offset and basis, challenges, queries, layers, last
/// coefficients.
fn write(proof: &Proof, bytes: &mut [u8]) {
    let Proof { run, queries, store, last } = proof;
    let mut coset = [run.offset; 21];
    coset[1..=run.k].copy_from_slice(run.basis);
    let mut room = put(bytes, &[run.k, run.rate, run.step].map(|number| number as u64));
    for section in [&coset[..=run.k], run.challenges, queries, run.word] {
        room = put(room, section);
    }
    for i in 1..run.challenges.len() {
        room = put(room, &store[layer_start(run, i)..][..1 << dimension(run, i)]);
    }
    let room = put(room, last);
    assert!(room.is_empty());
}

/// Puts a section into the front of the room, and gives what is left of it.
fn put<'a>(room: &'a mut [u8], section: &[u64]) -> &'a mut [u8] {
    let (count, room) = room.split_at_mut(4);
    count.copy_from_slice(&(section.len() as u32).to_le_bytes());
    let (entries, room) = room.split_at_mut(8 * section.len());
    for (bytes, entry) in entries.chunks_exact_mut(8).zip(section) {
        bytes.copy_from_slice(&entry.to_le_bytes());
    }
    room
}
