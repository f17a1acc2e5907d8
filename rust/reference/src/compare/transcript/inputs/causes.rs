//! Transcripts with several causes to refuse them.

use super::{
    honest_sections, other_counts, out_of_range, share_a_coset, Amounts, Bytes, CHALLENGES, COSET,
    LARGEST, PARAMETERS, QUERIES, WORD,
};
use crate::compare::cosets::any_dependent;
use crate::parameters::all_up_to;
use crate::random::Random;
use crate::transcript::{written, Section};
use std::ops::Range;

/// The number of a cause, and how the sections of an honest transcript get it.
type Cause = (u64, fn(&mut Random, &mut Vec<Section>));

/// In the order in which a judge looks for them: section by section, in each its count and then
/// its values.
const CAUSES: [Cause; 15] = [
    (2, |random, all| miscount(random, &mut all[PARAMETERS])),
    (4, |random, all| take_out_of_range(random, all, 0)),
    (5, |random, all| take_out_of_range(random, all, 1)),
    (6, |random, all| take_out_of_range(random, all, 2)),
    // A rate and a step in range that no dimension here is enough for.
    (7, |_, all| all[PARAMETERS].entries[1..].copy_from_slice(&LARGEST[1..])),
    (2, |random, all| miscount(random, &mut all[COSET])),
    (8, |random, all| {
        let basis = &mut all[COSET].entries[1..];
        basis.copy_from_slice(&any_dependent(random, basis.len()));
    }),
    (2, |random, all| miscount(random, &mut all[CHALLENGES])),
    (9, |random, all| all[QUERIES].count = [0, 257, 1 << 31][random.below(3)]),
    (10, |random, all| {
        let queries = &mut all[QUERIES].entries;
        let place = random.below(queries.len());
        queries[place] |= 1 << (LARGEST_K + random.below(59) as u64);
    }),
    (17, |random, all| share_a_coset(random, all)),
    (2, |random, all| {
        let layer = random.below(all[CHALLENGES].entries.len());
        miscount(random, &mut all[WORD + layer]);
    }),
    (2, |random, all| miscount(random, last(all))),
    (3, |random, all| {
        let length = random.below(3);
        all.push(Section { count: random.number() as u32, entries: random.list(length) });
    }),
    (11, |_, all| last(all).entries[0] ^= 1),
];

/// So many of them, from the first on, are in sections 1 to 4.
const AT_THE_FRONT: u32 = 11;

/// The largest dimension.
const LARGEST_K: u64 = 5;

/// The section of the last coefficients.
fn last(all: &mut [Section]) -> &mut Section {
    let rounds = all[CHALLENGES].entries.len();
    &mut all[WORD + rounds]
}

fn miscount(random: &mut Random, section: &mut Section) {
    let others = other_counts(section);
    *section = others[random.below(others.len())].clone();
}

fn take_out_of_range(random: &mut Random, all: &mut [Section], which: usize) {
    let number = &mut all[PARAMETERS].entries[which];
    let wrong = out_of_range(which, *number);
    *number = wrong[random.below(wrong.len())];
}

/// A bit stands for each cause.
const CHOICES: Range<u32> = 0..1 << CAUSES.len();

fn of_two() -> impl Iterator<Item = u32> {
    CHOICES.filter(|choice| choice.count_ones() == 2)
}

/// All choices of two causes, and any choices, some times each, and the same cut.
pub fn several(random: &mut Random, amounts: &Amounts) -> Vec<Bytes> {
    let [times, drawn] = [3, 600].map(|times| amounts.turns.min(times));
    let mut all: Vec<u32> = of_two().flat_map(|choice| vec![choice; times]).collect();
    all.extend((0..drawn).map(|_| random.below(CHOICES.len()) as u32));
    let whole = all.into_iter().map(|choice| with_causes(random, choice));
    let whole: Vec<Bytes> = whole.collect();
    let cut = whole.iter().map(|bytes| bytes[..random.below(bytes.len())].to_vec());
    let cut: Vec<Bytes> = cut.collect();
    [whole, cut].concat()
}

/// All choices of two causes with one in sections 1 to 4.
pub fn two_from_the_front(random: &mut Random) -> Vec<Bytes> {
    let choices = of_two().filter(|choice| choice.trailing_zeros() < AT_THE_FRONT);
    choices.map(|choice| with_causes(random, choice)).collect()
}

/// The last of the causes come first, so that none takes back what is looked for before it.
fn with_causes(random: &mut Random, choice: u32) -> Bytes {
    let all = all_up_to(LARGEST_K);
    let (parameters, turn) = (all[random.below(all.len())], random.below(420));
    let mut sections = honest_sections(random, parameters, turn);
    for (place, (_, make)) in CAUSES.iter().enumerate().rev() {
        if (choice >> place) & 1 == 1 {
            make(random, &mut sections);
        }
    }
    written(&sections)
}

#[cfg(test)]
mod tests {
    use super::*;
    use crate::transcript::judge;

    #[test]
    fn the_first_of_the_causes_is_due() {
        let random = &mut Random::named("several causes");
        let single = CHOICES.filter(|choice| choice.count_ones() == 1);
        for choice in single.chain(of_two()).chain(CHOICES.skip(1).step_by(97)) {
            let (number, _) = CAUSES[choice.trailing_zeros() as usize];
            assert_eq!(judge(&with_causes(random, choice)).number, number, "{choice:b}");
        }
    }
}
