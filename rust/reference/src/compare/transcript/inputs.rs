//! The byte strings that are compared: transcripts of what is judged over lists, what is made of
//! the sections of honest transcripts, and any bytes.

mod causes;
mod fronts;
mod limit;

use super::{Amounts, Bytes};
use crate::cases::{of_case_f, of_case_k};
use crate::compare::cosets::{self, Bases};
use crate::compare::protocol::inputs::queries::{self, Lists};
use crate::compare::protocol::inputs::{any_count, damaged, known, right, together};
use crate::parameters::{all_up_to, Parameters};
use crate::queries::apart;
use crate::random::Random;
use crate::transcript::{sections, transcript, written, Judging, Section};
use Source::{EachSection, Honest, Made, OneSection, Others, Queries, Turns, UpTo};

/// Byte strings of one sort, which are given to the library and to the program: their name, and
/// where they come from.
pub struct Sort(pub &'static str, Source);

enum Source {
    /// What is judged over lists, so many times for the dimensions from 2 to 7, with all the rates
    /// and steps that each takes.
    Turns([usize; 6], &'static [fn(&mut Random, &[usize]) -> Vec<Judging>]),
    /// What is judged over lists, up to a dimension.
    UpTo(u64, fn(Random, u64) -> Vec<Judging>),
    /// Runs with each of many query lists, so many times for the dimensions from 2 to 7.
    Queries([usize; 6], Lists),
    /// An honest transcript of each of these parameters.
    Honest(fn(&Amounts) -> Vec<Parameters>),
    /// What is made of an honest transcript, for all parameters up to a dimension.
    Made(u64, fn(&mut Random, &[Section]) -> Vec<Bytes>),
    /// Such a transcript with each section made each of others.
    EachSection(u64, fn(&Section) -> Vec<Section>),
    /// The same of the section at one place.
    OneSection(u64, usize, fn(&Section) -> Vec<Section>),
    Others(fn(&mut Random, &Amounts) -> Vec<Bytes>),
}

pub const SORTS: [Sort; 36] = [
    Sort("honest runs", Turns([84, 42, 21, 12, 7, 5], &[right::honest_with_queries])),
    Sort("honest runs of large parameters", Honest(Amounts::large)),
    Sort("honest runs of the largest parameters", Honest(Amounts::largest)),
    Sort(
        "honest folds of too high a degree",
        Turns([42, 21, 12, 7, 4, 2], &[right::of_high_degrees]),
    ),
    Sort(
        "each entry damaged, each query alone",
        UpTo(4, |random, k| damaged::with_each_query(random, k).collect()),
    ),
    Sort(
        "each entry damaged, all cosets",
        UpTo(5, |random, k| damaged::with_all_cosets(random, k).collect()),
    ),
    Sort("some entries damaged", Turns([12, 12, 7, 4, 2, 1], &[damaged::some])),
    Sort("some entries of large parameters damaged", Others(some_of_large)),
    Sort("another challenge", Turns([42, 21, 12, 7, 4, 2], &[damaged::other_challenges])),
    Sort("cut at every byte", Made(4, cut_at_every_byte)),
    Sort("cut near every section", Made(6, cut_near_every_section)),
    Sort("bytes behind the last section", Made(4, with_bytes_behind)),
    Sort("another count", EachSection(4, other_counts)),
    Sort("fewer or more entries", EachSection(4, other_entries)),
    Sort("sections out of order", Made(4, with_sections_out_of_order)),
    Sort("every bit flipped", Others(with_a_bit_flipped)),
    Sort("any bytes", Others(any)),
    Sort("any bytes behind a right front", Made(4, any_behind_a_front)),
    Sort("any entries", Made(4, any_entries)),
    Sort("a parameter out of range", OneSection(4, PARAMETERS, parameters_out_of_range)),
    Sort("all parameters", OneSection(2, PARAMETERS, all_parameters)),
    Sort("a dependent basis", Others(with_a_dependent_basis)),
    Sort("counts of queries", Turns([1, 1, 1, 0, 0, 0], &[queries::of_all_counts])),
    Sort(
        "queries out of range",
        Turns([1, 1, 0, 0, 0, 0], &[queries::out_of_range, queries::several_out_of_range]),
    ),
    Sort("powers of two as queries", OneSection(4, QUERIES, powers_of_two_as_queries)),
    Sort("two queries in one coset", Queries([1, 0, 1, 0, 0, 0], together::one_pair)),
    Sort("several queries in one coset", Queries([1, 0, 1, 0, 0, 0], together::several)),
    Sort("queries near each other", Queries([1, 1, 1, 0, 0, 0], together::near)),
    Sort(
        "queries in one coset and other causes",
        Queries([1, 0, 1, 0, 0, 0], together::and_other_causes),
    ),
    Sort(
        "queries in one coset of damaged runs",
        Turns([1, 1, 1, 0, 0, 0], &[damaged::some_in_one_coset]),
    ),
    Sort("long lists of queries", Others(long_lists)),
    Sort("queries in one coset and faults behind them", Made(3, in_one_coset_with_faults)),
    Sort("several causes", Others(causes::several)),
    Sort("lengths near the limit and far longer", Others(limit::near_the_limit)),
    Sort("long inputs with a good front", Others(fronts::good)),
    Sort("long inputs with a bad front", Others(fronts::bad)),
];

impl Sort {
    pub fn byte_strings(&self, amounts: &Amounts) -> Vec<Bytes> {
        let random = &mut Random::named(self.0);
        let up_to = |k: u64| k.min(amounts.largest_k);
        match self.1 {
            Turns(turns, sources) => {
                let turns = amounts.turns_of(turns);
                of(sources.iter().flat_map(|judgings| judgings(random, &turns)))
            }
            UpTo(k, judgings) => of(judgings(another(random), up_to(k))),
            Queries(turns, lists) => {
                of(queries::with_lists(random, &amounts.turns_of(turns), lists))
            }
            Honest(parameters) => honest(random, &parameters(amounts)),
            Made(k, make) => of_each(random, up_to(k), make),
            EachSection(k, others) => of_each(random, up_to(k), |_, sections| {
                (0..sections.len()).flat_map(|place| with_others(sections, place, others)).collect()
            }),
            OneSection(k, place, others) => {
                of_each(random, up_to(k), |_, sections| with_others(sections, place, others))
            }
            Others(inputs) => inputs(random, amounts),
        }
    }
}

impl Amounts {
    /// The turns of each dimension, from 0 on.
    fn turns_of(&self, from_2_on: [usize; 6]) -> Vec<usize> {
        let mut turns = [&[0, 0], &from_2_on[..]].concat();
        turns.truncate(self.largest_k as usize + 1);
        turns.iter().map(|&turns| turns.min(self.turns)).collect()
    }

    fn large(&self) -> Vec<Parameters> {
        let mut all = all_up_to(*self.large.end());
        all.retain(|parameters| self.large.contains(&parameters.k));
        all
    }

    fn largest(&self) -> Vec<Parameters> {
        with_settings(self.largest)
    }
}

fn with_settings(settings: &[[u64; 3]]) -> Vec<Parameters> {
    settings.iter().map(|&[k, rate, step]| Parameters { k, rate, step }).collect()
}

/// The transcripts.
pub fn of(judgings: impl IntoIterator<Item = Judging>) -> Vec<Bytes> {
    judgings.into_iter().map(|Judging { run, queries }| transcript(&run, &queries)).collect()
}

/// A generator for inputs that keep theirs.
fn another(random: &mut Random) -> Random {
    Random::seeded(random.number())
}

/// An honest transcript of each, with a few queries or as many as there may be.
fn honest(random: &mut Random, all: &[Parameters]) -> Vec<Bytes> {
    let one = |&parameters: &Parameters| {
        let run = known::honest(random, parameters);
        let count = any_count(random);
        transcript(&run, &apart(random, parameters, count))
    };
    all.iter().map(one).collect()
}

fn some_of_large(random: &mut Random, amounts: &Amounts) -> Vec<Bytes> {
    let parameters = [amounts.large(), amounts.largest()].concat();
    of(damaged::some_of_large(another(random), &parameters, 1))
}

fn long_lists(random: &mut Random, amounts: &Amounts) -> Vec<Bytes> {
    of(together::long(another(random), &with_settings(amounts.long)))
}

// Places of the sections, in a list of them.

const PARAMETERS: usize = 0;
const COSET: usize = 1;
const CHALLENGES: usize = 2;
const QUERIES: usize = 3;
const WORD: usize = 4;

// What is made of the sections of an honest transcript.

/// The sections of an honest run with three queries, or with two where no three are apart. Its
/// basis, offset and challenges are of another sort in each turn.
fn honest_sections(random: &mut Random, parameters: Parameters, turn: usize) -> Vec<Section> {
    let run = right::honest(random, parameters, turn);
    sections(&run, &apart(random, parameters, 3))
}

/// What is made of one for all parameters up to a dimension.
fn of_each(
    random: &mut Random,
    largest_k: u64,
    make: impl Fn(&mut Random, &[Section]) -> Vec<Bytes>,
) -> Vec<Bytes> {
    let all = all_up_to(largest_k).into_iter().enumerate();
    let one = |(turn, parameters)| {
        let sections = honest_sections(random, parameters, turn);
        make(random, &sections)
    };
    all.flat_map(one).collect()
}

/// The transcript after a change.
fn changed(sections: &[Section], change: impl FnOnce(&mut Vec<Section>)) -> Bytes {
    let mut changed = sections.to_vec();
    change(&mut changed);
    written(&changed)
}

fn cut_at_every_byte(_: &mut Random, sections: &[Section]) -> Vec<Bytes> {
    let bytes = written(sections);
    (0..bytes.len()).map(|length| bytes[..length].to_vec()).collect()
}

/// Cut in every count, next to it, and near the ends of the entries behind it.
fn cut_near_every_section(_: &mut Random, sections: &[Section]) -> Vec<Bytes> {
    let bytes = written(sections);
    let starts = (0..sections.len()).map(|place| written(&sections[..place]).len());
    let near = starts.flat_map(|start| start.saturating_sub(9)..=start + 13);
    near.filter(|&length| length < bytes.len()).map(|length| bytes[..length].to_vec()).collect()
}

/// Zeros, ones and any bytes, the whole or its last section once more, and an empty section.
fn with_bytes_behind(random: &mut Random, sections: &[Section]) -> Vec<Bytes> {
    let bytes = written(sections);
    let last = written(&sections[sections.len() - 1..]);
    let mut behind = vec![bytes.clone(), last, written(&[Section::of(&[])])];
    for length in (1..=16).chain([24, 100, 1_000]) {
        behind.extend([vec![0; length], vec![0xff; length], any_bytes(random, length)]);
    }
    behind.into_iter().map(|behind| [&bytes[..], &behind].concat()).collect()
}

/// A section left out, one that is there twice, and two next to each other the other way round.
fn with_sections_out_of_order(_: &mut Random, sections: &[Section]) -> Vec<Bytes> {
    let mut all = Vec::new();
    for (place, section) in sections.iter().enumerate() {
        all.push(changed(sections, |all| drop(all.remove(place))));
        all.push(changed(sections, |all| all.insert(place, section.clone())));
        if place > 0 {
            all.push(changed(sections, |all| all.swap(place - 1, place)));
        }
    }
    all
}

/// The right counts, and any entries in one section and in all behind it.
fn any_entries(random: &mut Random, sections: &[Section]) -> Vec<Bytes> {
    let mut from = |first| {
        changed(sections, |all| {
            for section in &mut all[first..] {
                section.entries = random.list(section.entries.len());
            }
        })
    };
    (1..sections.len()).map(&mut from).collect()
}

/// The beginning of a transcript, at every number and in some, and then other bytes: a few of
/// them, or as many as were cut.
fn any_behind_a_front(random: &mut Random, sections: &[Section]) -> Vec<Bytes> {
    let bytes = written(sections);
    let mut all = Vec::new();
    for place in (0..bytes.len()).step_by(4) {
        let front = &bytes[..place + random.below(2) * random.below(4)];
        let (few, left) = (1 + random.below(40), bytes.len() - front.len());
        let others = [any_bytes(random, few), any_bytes(random, left), mostly_zeros(random, left)];
        all.extend(others.map(|behind| [front, &behind].concat()));
    }
    all
}

/// Two queries in one coset, and what follows cut, with another count, or with bytes behind it. The
/// section of the queries is cut and counted wrongly as well.
fn in_one_coset_with_faults(random: &mut Random, sections: &[Section]) -> Vec<Bytes> {
    let mut shared = sections.to_vec();
    share_a_coset(random, &mut shared);
    let mut all = cut_near_every_section(random, &shared);
    all.retain(|bytes| bytes.len() + 12 > written(&shared[..WORD]).len());
    let places = QUERIES..shared.len();
    all.extend(places.flat_map(|place| with_others(&shared, place, other_counts)));
    all.extend(with_bytes_behind(random, &shared).into_iter().step_by(9));
    all
}

/// Puts a query into the coset of an earlier one.
fn share_a_coset(random: &mut Random, sections: &mut [Section]) {
    let entries = 1 << sections[PARAMETERS].entries[2];
    let queries = &mut sections[QUERIES].entries;
    let later = 1 + random.below(queries.len() - 1);
    queries[later] = queries[random.below(later)] ^ random.below(entries) as u64;
}

// What a section is made.

fn with_others(
    sections: &[Section],
    place: usize,
    others: fn(&Section) -> Vec<Section>,
) -> Vec<Bytes> {
    with_each(sections, place, |all| others(&all[place]))
}

/// With each of these, which are made of all sections, at a place.
fn with_each(
    sections: &[Section],
    place: usize,
    others: impl Fn(&[Section]) -> Vec<Section>,
) -> Vec<Bytes> {
    let with = |other| changed(sections, |all| all[place] = other);
    others(sections).into_iter().map(with).collect()
}

/// With the entries left as they were. The counts are near, far too many, and such that only some
/// of their bits are right. Where 32 bits hold the number of bytes, 2^29 more entries are none.
fn other_counts(section: &Section) -> Vec<Section> {
    let count = section.count;
    let near = [0, 1, 2, 3, 4, count.wrapping_sub(1), count + 1, 2 * count];
    let with_bit = [8, 16, 24, 28, 29, 30, 31].map(|bit| count + (1 << bit));
    let far = [8, 16, 24, 29, 31].map(|bit| 1 << bit);
    let most = [255, 257, u32::MAX - 1, u32::MAX, count.swap_bytes()];
    let all = [&near[..], &with_bit, &far, &most].concat().into_iter();
    let others = all.filter(|&other| other != count);
    others.map(|count| Section { count, ..section.clone() }).collect()
}

/// Fewer or more of them, with their count.
fn other_entries(section: &Section) -> Vec<Section> {
    let entries = &section.entries[..];
    let twice = [entries, &vec![2; entries.len()]].concat();
    [&[], &entries[1..], &[entries, &[1]].concat(), &twice].map(Section::of).to_vec()
}

/// The largest dimension, rate and step.
const LARGEST: [u64; 3] = [20, 6, 3];

fn parameters_out_of_range(section: &Section) -> Vec<Section> {
    let made = |which: usize| {
        out_of_range(which, section.entries[which]).into_iter().map(move |number| {
            let mut other = section.clone();
            other.entries[which] = number;
            other
        })
    };
    (0..3).flat_map(made).collect()
}

/// Zero, the least above the range, the most, and some that have a right one in some of their
/// bits.
fn out_of_range(which: usize, right: u64) -> Vec<u64> {
    let with_bit = [5, 6, 7, 8, 16, 31, 32, 33, 48, 62, 63].map(|bit| right + (1 << bit));
    let moved = [8, 16, 32, 56].map(|bits| right << bits);
    let edges = [0, LARGEST[which] + 1, LARGEST[which] + 2, 255, 256, 1 << 32, 1 << 63];
    let most = [u64::MAX >> 32, u64::MAX >> 1, u64::MAX - 1, u64::MAX];
    [&with_bit[..], &moved, &edges, &most].concat()
}

/// All in range, and those next to the ranges. What follows is right for its own ones alone.
fn all_parameters(_: &Section) -> Vec<Section> {
    let [all_k, all_rates, all_steps] = LARGEST.map(|largest| 0..=largest + 1);
    let mut all = Vec::new();
    for k in all_k {
        for rate in all_rates.clone() {
            all.extend(all_steps.clone().map(|step| Section::of(&[k, rate, step])));
        }
    }
    all
}

/// Each alone.
fn powers_of_two_as_queries(_: &Section) -> Vec<Section> {
    (0..u64::BITS).map(|bit| Section::of(&[1 << bit])).collect()
}

/// Zeros, repeated elements and sums of earlier ones, at every place, and two of these.
fn with_a_dependent_basis(random: &mut Random, amounts: &Amounts) -> Vec<Bytes> {
    let sorts: [Bases; 4] = [
        cosets::with_zero_elements,
        cosets::with_repeated_elements,
        cosets::with_sums_of_elements,
        cosets::dependent_at_two_places,
    ];
    let dimensions = 2..=amounts.largest_k as usize;
    let bases = sorts.map(|bases| bases(random, dimensions.clone())).concat();
    let over = |basis: Vec<u64>| {
        let mut parameters = all_up_to(basis.len() as u64);
        parameters.retain(|parameters| parameters.k == basis.len() as u64);
        let chosen = parameters[random.below(parameters.len())];
        let sections = honest_sections(random, chosen, 0);
        changed(&sections, |all| all[COSET].entries[1..].copy_from_slice(&basis))
    };
    bases.into_iter().map(over).collect()
}

// Bits and bytes.

/// Every single bit, of cases G and K of table A and of runs of other parameters.
fn with_a_bit_flipped(random: &mut Random, amounts: &Amounts) -> Vec<Bytes> {
    let mut all = vec![transcript(&of_case_f(), &[0, 3]), transcript(&of_case_k(), &[5])];
    for (turn, [k, rate, step]) in [[3, 1, 2], [4, 1, 2], [4, 1, 3]].into_iter().enumerate() {
        if k <= amounts.largest_k {
            let parameters = Parameters { k, rate, step };
            all.push(written(&honest_sections(random, parameters, turn + 1)));
        }
    }
    all.into_iter().flat_map(each_bit_flipped).collect()
}

fn each_bit_flipped(bytes: Bytes) -> impl Iterator<Item = Bytes> {
    (0..8 * bytes.len()).map(move |bit| {
        let mut flipped = bytes.clone();
        flipped[bit / 8] ^= 1 << (bit % 8);
        flipped
    })
}

fn any_bytes(random: &mut Random, length: usize) -> Bytes {
    (0..length).map(|_| random.number() as u8).collect()
}

/// Bytes that more often look like counts and small entries.
fn mostly_zeros(random: &mut Random, length: usize) -> Bytes {
    let byte = |_| match random.below(8) {
        0 => random.below(5) as u8,
        _ => 0,
    };
    (0..length).map(byte).collect()
}

/// Of every length up to one, and of some longer ones.
fn any(random: &mut Random, amounts: &Amounts) -> Vec<Bytes> {
    let lengths = (0..=amounts.turns.min(300)).chain([512, 1_000, 4_096, 10_000]);
    let of_length =
        |length| [any_bytes(random, length), mostly_zeros(random, length), vec![0; length]];
    lengths.flat_map(of_length).collect()
}
