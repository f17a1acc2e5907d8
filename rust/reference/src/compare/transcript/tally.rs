//! How many byte strings there were, and how many of each number.

use super::Bytes;
use crate::answer::{has_cause, COSET_SHARED};
use crate::transcript::{judge, judge_of_program};
use std::collections::{BTreeMap, HashSet};

/// How often each number was due.
type Counts = BTreeMap<u64, usize>;

/// All byte strings so far, and how often each number was due from the library and from the
/// program.
#[derive(Default)]
pub struct Tally {
    met: HashSet<Bytes>,
    due: [Counts; 2],
}

impl Tally {
    /// Those that have not come before. Each of them counts from now on.
    pub fn only_new(&mut self, mut inputs: Vec<Bytes>) -> Vec<Bytes> {
        inputs.retain(|input| self.met.insert(input.clone()));
        let [library, program] = &mut self.due;
        for bytes in &inputs {
            *library.entry(judge(bytes).number).or_default() += 1;
            *program.entry(judge_of_program(bytes).number).or_default() += 1;
        }
        inputs
    }

    /// What the byte strings were given for stands before them.
    pub fn text(&self, what: &str) -> String {
        let [library, program] = &self.due;
        let count = self.met.len();
        let title = format!("{what}: {count} byte strings, no two of them equal\n");
        let numbers = line("number", |number| number as usize);
        let of = |name, counts: &Counts| line(name, |n| counts.get(&n).copied().unwrap_or(0));
        [title, numbers, of("library", library), of("program", program)].concat()
    }
}

/// A cell for 0, accepted, and for each number that has a cause.
fn line(name: &str, cell: impl Fn(u64) -> usize) -> String {
    let numbers = (0..=COSET_SHARED).filter(|&number| number == 0 || has_cause(number));
    let cells: String = numbers.map(|number| format!("{:6}", cell(number))).collect();
    format!("  {name:7}{cells}\n")
}

#[cfg(test)]
mod tests {
    use super::*;
    use crate::cases::of_case_k;
    use crate::transcript::transcript;

    #[test]
    fn each_byte_string_counts_once() {
        let mut tally = Tally::default();
        let all = |all: &[&[u8]]| all.iter().map(|bytes| bytes.to_vec()).collect();
        assert_eq!(tally.only_new(all(&[b"", b"abcd", b""])), [&b""[..], b"abcd"]);
        let long = [&transcript(&of_case_k(), &[5])[..], &[0; 65_537]].concat();
        assert_eq!(tally.only_new(all(&[b"abcd", b"abcde", &long])), [&b"abcde"[..], &long]);
        let zeros = |count| "     0".repeat(count);
        let due = [
            "transcripts: 4 byte strings, no two of them equal",
            "  number      0     1     2     3     4     5     6     7     8     9    10    11    \
             12    13    14    17",
            &format!("  library     0     1     2     1{}", zeros(12)),
            &format!("  program     0     1     2{}     1{}", zeros(11), zeros(1)),
            "",
        ];
        assert_eq!(tally.text("transcripts"), due.join("\n"));
    }
}
