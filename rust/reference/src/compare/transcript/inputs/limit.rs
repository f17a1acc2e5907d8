//! Byte strings about as long as the longest that the program takes, and far longer ones.

use super::{any_bytes, changed, Amounts, Bytes, PARAMETERS, QUERIES, WORD};
use crate::cases::of_case_k;
use crate::compare::protocol::inputs::known;
use crate::parameters::Parameters;
use crate::queries::apart;
use crate::random::Random;
use crate::transcript::{sections, transcript, Section, LARGEST_INPUT};

/// Parameters and a number of queries that make a transcript exactly as long as the program takes
/// it.
pub const FITTING: (Parameters, usize) = (Parameters { k: 12, rate: 5, step: 1 }, 34);

/// How much longer or shorter than the longest.
const NEAR: [isize; 7] = [-8, -4, -1, 0, 1, 2, 8];

/// A megabyte, and more than that.
const FAR: [usize; 3] = [100_000, 1 << 20, (1 << 20) + 4];

/// Long ones as they are, these and short ones made as long as each of the near lengths, and
/// short ones made far longer.
pub fn near_the_limit(random: &mut Random, _: &Amounts) -> Vec<Bytes> {
    let long = long(random);
    let short = [transcript(&of_case_k(), &[5]), Vec::new(), any_bytes(random, FAR[2])];
    let near = NEAR.map(|more| LARGEST_INPUT.strict_add_signed(more));
    let made_near =
        long.iter().chain(&short).flat_map(|bytes| near.map(|length| made(bytes, length)));
    let made_far = short.iter().flat_map(|bytes| FAR.map(|length| made(bytes, length)));
    long.iter().cloned().chain(made_near).chain(made_far).collect()
}

/// Cut, or with zeros behind.
pub fn made(bytes: &[u8], length: usize) -> Bytes {
    let mut bytes = bytes.to_vec();
    bytes.resize(length, 0);
    bytes
}

/// Honest with one query less than just fits, with as many and with one more, and refused for what
/// is at the front, in the middle, and at the end.
fn long(random: &mut Random) -> Vec<Bytes> {
    let (parameters, count) = FITTING;
    let run = known::honest(random, parameters);
    let queries = apart(random, parameters, count + 1);
    let fitting = sections(&run, &queries[1..]);
    let last = fitting.len() - 1;
    let place = random.below(run.word.len());
    let changes: [&dyn Fn(&mut Vec<Section>); 8] = [
        &|_| (),
        &|all| all[QUERIES] = Section::of(&queries[2..]),
        &|all| all[QUERIES] = Section::of(&queries),
        &|all| all[PARAMETERS].count = 4,
        &|all| all[PARAMETERS].entries[0] = 21,
        &|all| all[WORD].entries[place] ^= 1,
        &|all| all[last].count = 2,
        &|all| all[last].entries[0] ^= 1,
    ];
    changes.map(|change| changed(&fitting, change)).to_vec()
}
