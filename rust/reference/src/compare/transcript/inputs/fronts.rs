//! Byte strings of more bytes than the program takes, and of nearly as many, with every sort of
//! front: of sections 1 to 4, which come before the length.

use super::limit::{made, FITTING};
use super::{any_bytes, causes, changed, with_each, Amounts, Bytes};
use super::{CHALLENGES, COSET, PARAMETERS, QUERIES, WORD};
use crate::cases::of_case_f;
use crate::compare::protocol::inputs::known;
use crate::compare::protocol::inputs::right::coset_and_challenges;
use crate::coset::point;
use crate::parameters::Parameters;
use crate::protocol::QUERY_COUNTS;
use crate::queries::apart;
use crate::random::Random;
use crate::transcript::{sections, Section, LARGEST_INPUT};

/// The fewest bytes that are too many.
const TOO_MANY: usize = LARGEST_INPUT + 1;

const LENGTHS: [usize; 5] = [LARGEST_INPUT - 1, LARGEST_INPUT, TOO_MANY, 70_000, 1_000_000];

// Right transcripts.

/// With 256 queries, no front is longer.
const LONGEST: Parameters = Parameters { k: 20, rate: 1, step: 1 };

/// Each is the largest.
const LARGEST: Parameters = Parameters { k: 20, rate: 6, step: 3 };

/// The dimension is just enough, and there is a query in each coset.
const TIGHT: (Parameters, usize) = (Parameters { k: 9, rate: 6, step: 3 }, 64);

/// One of the least parameters, one as long as the program takes it, and one of each above, or the
/// first of them.
fn transcripts(random: &mut Random, amounts: &Amounts) -> Vec<Vec<Section>> {
    let least = sections(&of_case_f(), &[0, 3]);
    let [longest, largest] = [LONGEST, LARGEST].map(|parameters| of_zeros(random, parameters));
    let [tight, fitting] = [TIGHT, FITTING].map(|(parameters, count)| {
        let run = known::honest(random, parameters);
        sections(&run, &apart(random, parameters, count))
    });
    let mut all = vec![least, longest, fitting, tight, largest];
    all.truncate(amounts.turns);
    all
}

/// A run of zeros with as many queries as there may be, up to the count of its word: what follows
/// would be far longer than all that is compared.
fn of_zeros(random: &mut Random, parameters: Parameters) -> Vec<Section> {
    let run = coset_and_challenges(random, parameters, 0);
    let mut all = sections(&run, &apart(random, parameters, *QUERY_COUNTS.end()));
    all.truncate(WORD + 1);
    all[WORD].entries.clear();
    all
}

// Lengths.

/// Each with some lengths, and with one of all lengths in turn. What is behind goes by the list.
fn at_lengths(random: &mut Random, lists: &[Vec<Bytes>], always: &[usize]) -> Vec<Bytes> {
    let mut all = Vec::new();
    for (place, list) in lists.iter().enumerate() {
        // Each list begins with another length, so that what five of them have gets all lengths.
        for (turn, bytes) in (place..).zip(list) {
            let lengths = always.iter().chain([&LENGTHS[turn % LENGTHS.len()]]);
            all.extend(lengths.map(|&length| filled(random, bytes, length, place)));
        }
    }
    all
}

/// Cut, or with zeros, ones or any bytes behind.
fn filled(random: &mut Random, bytes: &[u8], length: usize, turn: usize) -> Bytes {
    let more = length.saturating_sub(bytes.len());
    let behind = match turn % 3 {
        0 => vec![0; more],
        1 => vec![0xff; more],
        _ => any_bytes(random, more),
    };
    made(&[bytes, &behind].concat(), length)
}

// Fronts that pass.

/// With one query alone or with all; and what follows is right, is not there, or is wrong in its
/// first count, in its last one, or in its last entries.
const GOOD: [fn(&mut Vec<Section>); 7] = [
    |all| all[QUERIES] = Section::of(&all[QUERIES].entries[..1]),
    |_| (),
    |all| all.truncate(WORD),
    |all| all[WORD].count -= 1,
    |all| all[WORD].count += 1,
    |all| last(all).count += 1,
    |all| last(all).entries.iter_mut().for_each(|entry| *entry ^= 1),
];

fn last(all: &mut [Section]) -> &mut Section {
    all.last_mut().expect("sections")
}

pub fn good(random: &mut Random, amounts: &Amounts) -> Vec<Bytes> {
    let with_all = |all: Vec<Section>| GOOD.map(|change| changed(&all, change)).to_vec();
    let lists: Vec<Vec<Bytes>> = transcripts(random, amounts).into_iter().map(with_all).collect();
    at_lengths(random, &lists, &[LARGEST_INPUT, TOO_MANY])
}

// Fronts that are refused.

/// Each cause at its edges, in each of the transcripts, and causes at the front with others.
pub fn bad(random: &mut Random, amounts: &Amounts) -> Vec<Bytes> {
    let mut transcripts = transcripts(random, amounts);
    // With zeros behind it, this front is the simplest that a difference can be shown with.
    transcripts[0].truncate(WORD);
    let with_all = |all: Vec<Section>| {
        BAD.iter().flat_map(|(_, place, others)| with_each(&all, *place, others)).collect()
    };
    let mut lists: Vec<Vec<Bytes>> = transcripts.into_iter().map(with_all).collect();
    lists.push(causes::two_from_the_front(random));
    at_lengths(random, &lists, &[TOO_MANY])
}

/// A number, the place of the section that is at fault, and what that is made of the sections.
type Bad = (u64, usize, fn(&[Section]) -> Vec<Section>);

const BAD: [Bad; 11] = [
    (2, PARAMETERS, |all| miscounted(&all[PARAMETERS])),
    (4, PARAMETERS, |all| out_of_range(&all[PARAMETERS], 0, [1, 21])),
    (5, PARAMETERS, |all| out_of_range(&all[PARAMETERS], 1, [0, 7])),
    (6, PARAMETERS, |all| out_of_range(&all[PARAMETERS], 2, [0, 4])),
    (7, PARAMETERS, |_| ONE_LESS.map(|parameters| Section::of(&parameters)).to_vec()),
    (2, COSET, |all| miscounted(&all[COSET])),
    (8, COSET, |all| dependent(&all[COSET])),
    (2, CHALLENGES, |all| miscounted(&all[CHALLENGES])),
    (9, QUERIES, |all| with_counts(&all[QUERIES], [0, 257, 1 << 16, u32::MAX])),
    (10, QUERIES, |all| outside(&all[QUERIES], all[PARAMETERS].entries[0])),
    (17, QUERIES, |all| in_one_coset(&all[QUERIES], all[PARAMETERS].entries[2])),
];

/// Dimensions of one less than rate and step.
const ONE_LESS: [[u64; 3]; 4] = [[2, 1, 2], [2, 2, 1], [6, 6, 1], [8, 6, 3]];

fn with_counts(section: &Section, counts: [u32; 4]) -> Vec<Section> {
    counts.map(|count| Section { count, ..section.clone() }).to_vec()
}

/// By one entry, by so many that 32 bits do not hold their bytes, and by as many as can be.
fn miscounted(section: &Section) -> Vec<Section> {
    let count = section.count;
    with_counts(section, [count - 1, count + 1, count + (1 << 29), u32::MAX])
}

/// Entries at some places.
type Entries<'a> = &'a [(usize, u64)];

/// The section with each of these.
fn with_entries(section: &Section, all: &[Entries]) -> Vec<Section> {
    let one = |others: &Entries| {
        let mut section = section.clone();
        others.iter().for_each(|&(place, entry)| section.entries[place] = entry);
        section
    };
    all.iter().map(one).collect()
}

/// Numbers whose lower 32 bits, or all bits but the highest, are those of a small one.
fn right_in_part(small: u64) -> [u64; 2] {
    [(1 << 32) + small, (1 << 63) + small]
}

/// Next to the range, in part right, and far outside.
fn out_of_range(section: &Section, which: usize, next: [u64; 2]) -> Vec<Section> {
    let in_part = right_in_part(section.entries[which]);
    let numbers = [next, in_part, [1 << 32, u64::MAX]].concat();
    numbers.iter().flat_map(|&number| with_entries(section, &[&[(which, number)]])).collect()
}

/// The first element zero, the second like the first, the last one the sum of all others or zero,
/// and two of these. The offset stands before them.
fn dependent(section: &Section) -> Vec<Section> {
    let (entries, last) = (&section.entries, section.entries.len() - 1);
    let sum = point(0, &entries[1..last], u64::MAX);
    with_entries(
        section,
        &[&[(1, 0)], &[(2, entries[1])], &[(last, sum)], &[(last, 0)], &[(1, 0), (last, 0)]],
    )
}

/// The first or the last query next to the range, the last one in part right, and both far outside.
fn outside(section: &Section, k: u64) -> Vec<Section> {
    let last = section.entries.len() - 1;
    let [in_32_bits, in_63_bits] = right_in_part(section.entries[last]);
    with_entries(
        section,
        &[
            &[(0, 1 << k)],
            &[(last, 1 << k)],
            &[(last, in_32_bits)],
            &[(last, in_63_bits)],
            &[(0, u64::MAX), (last, u64::MAX)],
        ],
    )
}

/// The first query again at the second place; it and the one farthest from it in its coset at the
/// last place; one next to the query before at the last place; and two that share their coset.
fn in_one_coset(section: &Section, step: u64) -> Vec<Section> {
    let (entries, last) = (&section.entries, section.entries.len() - 1);
    with_entries(
        section,
        &[
            &[(1, entries[0])],
            &[(last, entries[0])],
            &[(last, entries[0] ^ ((1 << step) - 1))],
            &[(last, entries[last - 1] ^ 1)],
            &[(1, entries[0] ^ 1), (last, entries[0])],
        ],
    )
}

#[cfg(test)]
mod tests {
    use super::*;
    use crate::compare::transcript::FULL;
    use crate::transcript::{judge, judge_of_program, judge_too_long};
    use std::collections::BTreeSet;

    /// The number of a cause, and its section where the number does not tell it.
    type Cause = (u64, Option<u64>);

    fn causes() -> [Cause; 11] {
        BAD.map(|(number, place, _)| (number, (number == 2).then_some(place as u64 + 1)))
    }

    fn all(inputs: fn(&mut Random, &Amounts) -> Vec<Bytes>) -> Vec<Bytes> {
        inputs(&mut Random::named("fronts"), &FULL)
    }

    #[test]
    fn each_front_is_refused_for_its_cause() {
        for sections in transcripts(&mut Random::named("bad fronts"), &FULL) {
            for ((_, place, others), (number, section)) in BAD.iter().zip(causes()) {
                for bytes in with_each(&sections, *place, others) {
                    let answer = judge(&bytes);
                    assert_eq!(answer.number, number);
                    assert!(section.is_none() || answer.place == section);
                }
            }
        }
    }

    /// The first and the last basis element, and the first and the last of 256 queries.
    #[test]
    fn the_edges_are_in_the_longest_front() {
        let longest = &transcripts(&mut Random::named("edges of fronts"), &FULL)[1];
        for (number, due) in [(8, &[0, 1, 19][..]), (10, &[0, 255]), (17, &[1, 255])] {
            let (_, place, others) = BAD.iter().find(|bad| bad.0 == number).expect("a cause");
            let bytes = with_each(longest, *place, others).into_iter();
            let met: BTreeSet<u64> = bytes.filter_map(|bytes| judge(&bytes).place).collect();
            assert!(met.iter().eq(due));
        }
    }

    #[test]
    fn each_cause_is_there_at_each_length() {
        let met = all(bad).into_iter().map(|bytes| {
            let answer = judge_of_program(&bytes);
            let section = answer.place.filter(|_| answer.number == 2);
            (bytes.len(), (answer.number, section))
        });
        let due = LENGTHS.into_iter().flat_map(|length| causes().map(|cause| (length, cause)));
        assert_eq!(met.collect::<BTreeSet<_>>(), due.collect::<BTreeSet<_>>());
    }

    /// Among them is the longest front of all, which ends there.
    #[test]
    fn nothing_behind_2408_bytes_counts() {
        let longest = &transcripts(&mut Random::named("the longest front"), &FULL)[1];
        assert_eq!(changed(longest, |all| all.truncate(WORD)).len(), 2_408);
        let (good, bad) = (all(good), all(bad));
        for bytes in good.iter().chain(&bad).filter(|bytes| bytes.len() > LARGEST_INPUT) {
            assert_eq!(judge_too_long(&bytes[..2_408]), judge_of_program(bytes));
        }
        assert!(good.iter().all(|bytes| judge_too_long(bytes).number == 14));
    }
}
