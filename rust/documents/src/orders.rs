//! The orders of checks in the table of operations (docs/CALLERS.md) and in that of sections
//! (docs/NUMBERS.md), found anew: an input with every fault gets the first number, and as the
//! faults are mended one after the other, the others follow.

use crate::markdown::{self, Document, Part};
use crate::Checked;
use razgwilh::{encode, fold, interpolate, judge, judge_transcript, prove, write_transcript};
use razgwilh::{Fold, Refusal, Run};
use std::path::Path;

/// The numbers of an operation's refusals, in the order in which they are mended.
type Order = Result<Vec<u64>, String>;

pub fn check(root: &Path) -> Checked {
    let operations = [
        ("encode, interpolate", coding_order(encode)?),
        ("encode, interpolate", coding_order(interpolate)?),
        ("fold (a lone fold)", fold_order()?),
        ("prove", run_order(Call::prove)?),
        ("judge over lists", run_order(Call::judge)?),
        ("write a transcript", run_order(Call::write)?),
    ];
    let table = Table::read(root, "docs/CALLERS.md", "| operation | numbers |")?;
    for (name, found) in &operations {
        table.compare(name, 2, found)?;
    }
    let sections = section_orders()?;
    let table = Table::read(root, "docs/NUMBERS.md", "| section | entries | count due |")?;
    for Section { name, count, order } in &sections {
        table.compare(name, 4, order)?;
        if table.cell(name, 3)? != *count {
            return Err(format!("of section {name} another count is due: {count}"));
        }
    }
    Ok(format!("{} operations, {} sections", operations.len(), sections.len()))
}

/// The rows of the table whose header begins so, each by its first cell.
struct Table(Vec<Vec<String>>);

impl Table {
    fn read(root: &Path, name: &str, header: &str) -> Result<Table, String> {
        let document = Document::new(name, &markdown::read(root, name)?);
        let lines = document.lines.iter().skip_while(|line| !line.text.starts_with(header));
        let table = lines.take_while(|line| line.part == Part::Table);
        let cells = |text: &str| text.split('|').map(|cell| cell.trim().to_owned()).collect();
        Ok(Table(table.map(|line| cells(&line.text)).collect()))
    }

    /// A cell of the row that begins with a name, counted from 1, which is the name.
    fn cell(&self, name: &str, column: usize) -> Result<&str, String> {
        let row = self.0.iter().find(|row| row.get(1).is_some_and(|cell| cell == name));
        row.and_then(|row| row.get(column)).map(String::as_str).ok_or(format!("no row \"{name}\""))
    }

    /// The cell has the numbers found.
    fn compare(&self, name: &str, column: usize, found: &[u64]) -> Result<(), String> {
        let first = |item: &str| item.split_whitespace().next().and_then(|word| word.parse().ok());
        let due: Vec<u64> = self.cell(name, column)?.split(',').filter_map(first).collect();
        match due == found {
            true => Ok(()),
            false => Err(format!("the row \"{name}\" has {due:?}, found is {found:?}")),
        }
    }
}

/// The numbers of refusals, each once where it comes again at once.
fn order(answers: impl Iterator<Item = Result<(), Refusal>>) -> Vec<u64> {
    let mut numbers: Vec<u64> = answers.map(|answer| number(&answer)).collect();
    numbers.dedup();
    numbers
}

fn number(answer: &Result<(), Refusal>) -> u64 {
    answer.as_ref().err().map_or(0, |refusal| refusal.cause.number())
}

/// Without the 0 at its end: all faults are mended there, and none before.
fn mended(mut numbers: Vec<u64>) -> Order {
    match numbers.pop() {
        Some(0) if !numbers.contains(&0) => Ok(numbers),
        _ => Err(format!("{numbers:?} do not end with the last fault")),
    }
}

const BASIS: [u64; 3] = [1, 2, 4];
const DEPENDENT: [u64; 3] = [1, 2, 3];
/// Case K: X^2 at the points 0 to 7, its layer 1 and its last coefficient.
const WORD: [u64; 8] = [0, 1, 4, 5, 0x10, 0x11, 0x14, 0x15];
const STORE: [u64; 4] = [2, 4, 0x16, 0x10];
const LAST: [u64; 1] = [1];
const CHALLENGES: [u64; 2] = [2, 3];

type Coding = fn(u64, &[u64], &[u64], &mut [u64]) -> Result<(), Refusal>;

fn coding_order(coding: Coding) -> Order {
    let long: Vec<u64> = vec![0; 21];
    let calls: [(&[u64], usize); 4] = [(&long, 7), (&DEPENDENT, 7), (&DEPENDENT, 8), (&BASIS, 8)];
    let answers = calls.iter().map(|(basis, room)| coding(0, basis, &WORD, &mut vec![0; *room]));
    mended(order(answers))
}

fn fold_order() -> Order {
    let calls: [(usize, usize, &[u64], usize); 6] = [
        (21, 4, &DEPENDENT, 5),
        (2, 4, &DEPENDENT, 5),
        (2, 3, &DEPENDENT, 5),
        (3, 1, &DEPENDENT, 5),
        (3, 1, &DEPENDENT, 4),
        (3, 1, &BASIS, 4),
    ];
    let answers = calls.iter().map(|&(k, step, basis, room)| {
        let given = Fold { k, step, offset: 0, basis, word: &WORD, challenge: 2 };
        fold(given, &mut vec![0; room], &mut [0; 2]).map(drop)
    });
    mended(order(answers))
}

/// A call of prover, judge or writer.
struct Call {
    k: usize,
    rate: usize,
    step: usize,
    basis: Vec<u64>,
    word: Vec<u64>,
    queries: Vec<u64>,
    last: Vec<u64>,
}

impl Call {
    fn run(&self) -> Run<'_> {
        let (basis, word) = (&self.basis[..], &self.word[..]);
        let (k, rate, step) = (self.k, self.rate, self.step);
        Run { k, rate, step, offset: 0, basis, challenges: &CHALLENGES, word }
    }

    fn prove(&self) -> Result<(), Refusal> {
        prove(self.run(), &mut STORE.to_vec(), &mut self.last.to_vec())
    }

    fn judge(&self) -> Result<(), Refusal> {
        judge(self.run(), &self.queries, &STORE, &self.last).map(drop)
    }

    fn write(&self) -> Result<(), Refusal> {
        let mut bytes = vec![0; self.run().transcript_length(self.queries.len())];
        write_transcript(self.run(), &self.queries, &STORE, &self.last, &mut bytes)
    }
}

fn run_order(operation: fn(&Call) -> Result<(), Refusal>) -> Order {
    let mends: [fn(&mut Call); 12] = [
        |_| (),
        |call| call.k = 3,
        |call| call.rate = 3,
        |call| call.step = 1,
        |call| call.rate = 1,
        |call| call.basis = DEPENDENT.to_vec(),
        |call| call.basis = BASIS.to_vec(),
        |call| call.word = WORD.to_vec(),
        |call| call.queries = vec![8, 0, 1],
        |call| call.queries = vec![0, 1],
        |call| call.queries = vec![0],
        |call| call.last = LAST.to_vec(),
    ];
    let word = vec![1, 0, 0, 0, 0, 0, 0, 0];
    let (basis, queries, last) = (vec![1], vec![], vec![7]);
    let mut call = Call { k: 21, rate: 7, step: 4, basis, word, queries, last };
    let answers = mends.iter().map(|mend| {
        mend(&mut call);
        operation(&call)
    });
    mended(order(answers))
}

/// A section of case K: the name of its row, the count due there, and its refusals.
struct Section {
    name: &'static str,
    count: &'static str,
    order: Vec<u64>,
}

/// Each input ends behind the section: its own faults come before what is missing.
fn section_orders() -> Result<Vec<Section>, String> {
    let sections = [
        ("1", "3", vec![3, 1, 1], bad_parameters()),
        ("2", "k+1", vec![0, 1, 2, 4], vec![vec![0, 1, 2, 3]]),
        ("3", "r", CHALLENGES.to_vec(), vec![]),
        ("4", "1 to 256", vec![5], vec![vec![8, 0, 1], vec![0, 1]]),
        ("5 to 4+r", "2^(k-iη) for layer i", WORD.to_vec(), vec![]),
        ("5 to 4+r", "2^(k-iη) for layer i", STORE.to_vec(), vec![]),
        ("5+r", "d = 2^(k-R-rη)", LAST.to_vec(), vec![]),
    ];
    let mut front = Vec::new();
    let mut found = Vec::new();
    for (name, count, good, bad) in sections {
        let with = |bytes: &[u8]| judge_transcript(&[&front, bytes].concat()).map(drop);
        let (whole, wrong_count) = (section(&good), if name == "4" { 0 } else { 77u32 });
        let cut = &whole[..whole.len() - 1];
        let damaged = [with(&whole[..3]), with(&wrong_count.to_le_bytes()), with(cut)];
        let answers = damaged.into_iter().chain(bad.iter().map(|entries| with(&section(entries))));
        let order: Vec<u64> = answers.map(|answer| number(&answer)).collect();
        front.extend(whole);
        found.push(Section { name, count, order });
    }
    let (mut long, mut damaged) = (front.clone(), front.clone());
    long.push(0);
    damaged[200 + 4] = 7; // the last coefficient
    let ends = [long, damaged, front].map(|bytes| number(&judge_transcript(&bytes).map(drop)));
    match ends {
        [3, 11, 0] => Ok(found),
        _ => Err(format!("behind the sections come {ends:?}, not 3 and 11")),
    }
}

/// k, R and η out of range, one after the other mended, and at last k below R + η.
fn bad_parameters() -> Vec<Vec<u64>> {
    vec![vec![21, 7, 4], vec![3, 7, 4], vec![3, 3, 4], vec![3, 3, 1]]
}

fn section(entries: &[u64]) -> Vec<u8> {
    let mut bytes = (entries.len() as u32).to_le_bytes().to_vec();
    bytes.extend(entries.iter().flat_map(|entry| entry.to_le_bytes()));
    bytes
}
