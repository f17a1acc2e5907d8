//! The marking sheet of a transcript beside the same method in Rust, and beside the judge over the
//! same bytes.

use super::apart::check_apart;
use super::inputs::{Inputs, RATE};
use super::judge::{ended_round, set_up, Proof, TURNS};
use super::layers::check_basis;
use super::transcript::{judging, with_proofs, Transcript};
use crate::arithmetic::Arithmetic;
use crate::beside::{checked, works, Operation};
use crate::clock::table;
use razgwilh::{sheet_into, Refusal};

const LINE: usize = 56;
/// A digit is looked up: by a comparison, as in the library, it takes longer here.
const DIGITS: &[u8; 16] = b"0123456789abcdef";

pub fn report(inputs: &Inputs) {
    println!(
        "\nmarking sheet of {} entries with rate {RATE} at {} queries over the bytes of a \
         transcript, beside the judge over the same bytes:",
        inputs.word.len(),
        inputs.queries.len()
    );
    with_proofs(inputs, |proof| compare(proof, &Transcript(proof).written()));
}

fn compare(proof: Proof, bytes: &[u8]) {
    let sheet = Sheet { proof, bytes };
    assert_eq!(checked(sheet), Ok(sheet.room().len() as u64));
    println!("  step {}, {} lines:", proof.run.step, sheet.lines());
    table(works(sheet).chain([judging("the library's judge", bytes)]), TURNS, "µs", 1e3);
}

/// What a sheet is made of: the bytes of a transcript, for the library, and the lists in them.
#[derive(Clone, Copy)]
struct Sheet<'a> {
    proof: Proof<'a>,
    bytes: &'a [u8],
}

impl Sheet<'_> {
    fn lines(self) -> usize {
        self.proof.queries.len() * self.proof.run.challenges.len()
    }
}

/// The library's method: what a round has for all queries, its inverses too, is found once, then
/// line after line is written. The sections are not walked through: they are some twenty counts.
impl Operation for Sheet<'_> {
    type Room = Vec<u8>;
    type Answer = Result<u64, Refusal>;

    fn room(self) -> Vec<u8> {
        vec![0; LINE * self.lines()]
    }

    fn by_library(self, out: &mut Vec<u8>) -> Self::Answer {
        Ok(sheet_into(self.bytes, out))
    }

    #[inline(always)]
    fn by(self, arithmetic: impl Arithmetic, out: &mut Vec<u8>) -> Self::Answer {
        let proof = &self.proof;
        check_basis(arithmetic, &proof.run);
        check_apart(proof.queries, proof.run.step)?;
        let rounds = set_up(arithmetic, &proof.run);
        let by_query = out.chunks_exact_mut(LINE * rounds.len());
        for (query, (index, lines)) in proof.queries.iter().zip(by_query).enumerate() {
            ended_round(arithmetic, proof, &rounds, *index as usize, |round, computed, found| {
                let line = &mut lines[LINE * round..][..LINE];
                put_line(line, [query as u64, *index, round as u64], computed, found);
                true
            });
        }
        Ok(out.len() as u64)
    }
}

fn put_line(line: &mut [u8], [query, index, round]: [u64; 3], computed: u64, found: u64) {
    put_decimal(&mut line[..6], query);
    put_decimal(&mut line[6..15], index);
    put_decimal(&mut line[15..19], round);
    put_value(&mut line[19..36], computed);
    put_value(&mut line[36..53], found);
    line[53..].copy_from_slice(if computed == found { b"ok\n" } else { b"no\n" });
}

/// A decimal number with spaces on its left, and a space.
fn put_decimal(field: &mut [u8], number: u64) {
    let width = field.len() - 1;
    let (spaces, digits) = field[..width].split_at_mut(width - places(number));
    spaces.fill(b' ');
    put_digits::<10>(digits, number);
    field[width] = b' ';
}

/// A value in 16 hexadecimal digits, and a space.
fn put_value(field: &mut [u8], value: u64) {
    put_digits::<16>(&mut field[..16], value);
    field[16] = b' ';
}

/// How many decimal digits a number has.
fn places(number: u64) -> usize {
    let (mut count, mut rest) = (1, number);
    while rest >= 10 {
        rest /= 10;
        count += 1;
    }
    count
}

/// The last digits, as many as there is room for, from the right.
fn put_digits<const BASE: u64>(field: &mut [u8], mut number: u64) {
    for byte in field.iter_mut().rev() {
        *byte = DIGITS[(number % BASE) as usize];
        number /= BASE;
    }
}
