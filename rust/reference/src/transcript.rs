//! Transcripts, from the definitions alone: how the lists of a judging are written as bytes, what
//! a writer of them refuses, how they are read and judged, and what the program prints.
//!
//! Reading takes byte after byte and never goes back or ahead: no place of a section is
//! computed. What it gives is lists, and the judge over lists decides about them.

use crate::answer::{
    done, refused, refused_at, Answer, BYTES_END, BYTES_FOLLOW, INPUT_TOO_LONG, WRONG_COUNT,
};
use crate::fold::Coset;
use crate::parameters::Parameters;
use crate::protocol::{
    self, right_basis, right_indices, right_lists, right_queries, right_query_count, Run,
};
use crate::refusal::{required, right_length, LIST_OF_THE_BYTES};
use std::slice::Iter;

// Writing, right transcripts and others.

/// A section. Its count may be another one than that of its entries.
#[derive(Clone, Debug, PartialEq)]
pub struct Section {
    pub count: u32,
    pub entries: Vec<u64>,
}

impl Section {
    /// These entries, after their count.
    pub fn of(entries: &[u64]) -> Section {
        Section { count: entries.len() as u32, entries: entries.to_vec() }
    }

    fn bytes(&self) -> impl Iterator<Item = u8> + '_ {
        let entries = self.entries.iter().flat_map(|entry| entry.to_le_bytes());
        self.count.to_le_bytes().into_iter().chain(entries)
    }
}

/// The sections of a run that has parameters that may be used, and a store of the right length.
pub fn sections(run: &Run, queries: &[u64]) -> Vec<Section> {
    let Parameters { k, rate, step } = run.parameters;
    let offset_and_basis = [&[run.offset], &run.basis[..]].concat();
    let first = [&[k, rate, step], &offset_and_basis[..], &run.challenges, queries];
    let layers = (0..run.parameters.rounds()).map(|i| run.layer(i));
    let all = first.into_iter().chain(layers).chain([&run.last[..]]);
    all.map(Section::of).collect()
}

pub fn written(sections: &[Section]) -> Vec<u8> {
    sections.iter().flat_map(Section::bytes).collect()
}

/// The transcript of such a run.
pub fn transcript(run: &Run, queries: &[u64]) -> Vec<u8> {
    written(&sections(run, queries))
}

// The writer.

/// No list of numbers has more of them: what it takes is counted in 63 bits.
pub const LONGEST_LIST: u64 = (1 << 60) - 1;

/// How many bytes the transcript of a run has, with parameters that may be used and any number of
/// queries that a list can have.
pub fn length(parameters: Parameters, queries: u64) -> u64 {
    let first = [3, 1 + parameters.k, parameters.rounds(), queries];
    let layers = (0..parameters.rounds()).map(|i| parameters.layer_length(i) as u64);
    let counts = first.into_iter().chain(layers).chain([parameters.last_count() as u64]);
    counts.map(|count| 4 + 8 * count).sum()
}

/// Writes the transcript, whether or not a judge would accept it. A refusal leaves all bytes as
/// they were.
pub fn write(run: &Run, queries: &[u64], bytes: &mut [u8]) -> Answer {
    match may_write(run, queries, bytes.len()) {
        Ok(()) => {
            bytes.copy_from_slice(&transcript(run, queries));
            done()
        }
        Err(refusal) => refusal,
    }
}

/// All causes, in the paper's order. The list of the bytes is the last of the lists, and how long
/// it must be goes by the queries as they are given, even if they are too many.
pub fn may_write(run: &Run, queries: &[u64], bytes: usize) -> Result<(), Answer> {
    right_lists(run)?;
    let due = length(run.parameters, queries.len() as u64);
    right_length(LIST_OF_THE_BYTES, bytes as u64 == due)?;
    right_basis(run.parameters, &run.coset())?;
    right_queries(run.parameters, queries)
}

// The judge.

/// Accepts, or refuses for the first cause. The bytes may be as many as they like.
pub fn judge(bytes: &[u8]) -> Answer {
    match read(bytes) {
        Ok(Judging { run, queries }) => protocol::judge(&run, &queries),
        Err(refusal) => refusal,
    }
}

// Reading. Each function stops at the first cause, in the paper's order.

/// What a transcript carries.
#[derive(Clone)]
pub struct Judging {
    pub run: Run,
    pub queries: Vec<u64>,
}

/// What the bytes carry, or the first cause but a round check.
pub fn read(bytes: &[u8]) -> Result<Judging, Answer> {
    let reader = &mut Reader::of(bytes);
    let Front { parameters, coset: Coset { offset, basis }, challenges, queries } = front(reader)?;
    let mut layer = |i| reader.section_of(parameters.layer_length(i) as u64);
    let word = layer(0)?;
    let mut store = Vec::new();
    for i in 1..parameters.rounds() {
        store.extend(layer(i)?);
    }
    let last = reader.section_of(parameters.last_count() as u64)?;
    required(reader.bytes.next().is_none(), refused(BYTES_FOLLOW))?;
    let run = Run { parameters, offset, basis, challenges, word, store, last };
    Ok(Judging { run, queries })
}

/// What sections 1 to 4 carry.
struct Front {
    parameters: Parameters,
    coset: Coset,
    challenges: Vec<u64>,
    queries: Vec<u64>,
}

fn front(reader: &mut Reader) -> Result<Front, Answer> {
    let parameters = parameters(reader)?;
    let coset = coset(reader, parameters)?;
    let challenges = reader.section_of(parameters.rounds())?;
    let queries = queries(reader, parameters)?;
    Ok(Front { parameters, coset, challenges, queries })
}

fn parameters(reader: &mut Reader) -> Result<Parameters, Answer> {
    let [k, rate, step] = reader.section_of(3)?[..] else {
        unreachable!("a section of three has three entries");
    };
    let parameters = Parameters { k, rate, step };
    parameters.may_use()?;
    Ok(parameters)
}

/// The offset stands before the basis.
fn coset(reader: &mut Reader, parameters: Parameters) -> Result<Coset, Answer> {
    let mut basis = reader.section_of(1 + parameters.k)?;
    let coset = Coset { offset: basis.remove(0), basis };
    right_basis(parameters, &coset)?;
    Ok(coset)
}

fn queries(reader: &mut Reader, parameters: Parameters) -> Result<Vec<u64>, Answer> {
    let queries = reader.section(|_, count| right_query_count(count as usize))?;
    right_indices(parameters, &queries)?;
    Ok(queries)
}

/// The bytes that have not been taken yet, and the section that they are in.
struct Reader<'a> {
    bytes: Iter<'a, u8>,
    section: u64,
}

impl Reader<'_> {
    fn of(bytes: &[u8]) -> Reader<'_> {
        Reader { bytes: bytes.iter(), section: 0 }
    }

    /// The entries of the next section, if its number and its count may be.
    fn section(
        &mut self,
        may_be: impl FnOnce(u64, u64) -> Result<(), Answer>,
    ) -> Result<Vec<u64>, Answer> {
        self.section += 1;
        let count = self.number(4)?;
        may_be(self.section, count)?;
        (0..count).map(|_| self.number(8)).collect()
    }

    /// The entries of the next section, if there are as many as are due.
    fn section_of(&mut self, due: u64) -> Result<Vec<u64>, Answer> {
        self.section(|section, count| required(count == due, refused_at(WRONG_COUNT, section)))
    }

    /// The number in the next so many bytes, the lowest of them first.
    fn number(&mut self, bytes: u32) -> Result<u64, Answer> {
        (0..bytes).try_fold(0, |number, place| {
            let &byte = self.bytes.next().ok_or(refused_at(BYTES_END, self.section))?;
            Ok(number | u64::from(byte) << (8 * place))
        })
    }
}

// The program.

/// The most bytes that the program takes.
pub const LARGEST_INPUT: usize = 65_536;

/// What the program answers.
pub fn judge_of_program(bytes: &[u8]) -> Answer {
    match bytes.len() {
        ..=LARGEST_INPUT => judge(bytes),
        _ => judge_too_long(bytes),
    }
}

/// What it answers to more bytes than it takes: sections 1 to 4 come before the length, and what
/// is behind them does not count.
pub fn judge_too_long(bytes: &[u8]) -> Answer {
    match front(&mut Reader::of(bytes)) {
        Ok(_) => refused(INPUT_TOO_LONG),
        Err(refusal) => refusal,
    }
}

/// What the program prints for an answer: a header and a line.
pub fn lines(answer: &Answer) -> String {
    let word = match answer.number {
        0 => "accepted",
        _ => "refused",
    };
    let Answer { number, reads, .. } = answer;
    let [place, round] = [answer.place, answer.round].map(decimal_or_hyphen);
    format!("answer number place round reads\n{word} {number} {place} {round} {reads}\n")
}

fn decimal_or_hyphen(number: Option<u64>) -> String {
    number.map_or("-".to_string(), |number| number.to_string())
}

#[cfg(test)]
mod tests;
