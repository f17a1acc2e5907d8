//! Judges that read wrongly. The right judge is given the bytes as a wrong reader takes them, or is
//! passed over for some numbers.

use super::*;
use crate::answer::failed;
use crate::parameters::Parameters;
use crate::transcript::{judge_too_long, written, Section};

/// What is answered in place of a refusal.
type Other = fn(&[u8], Answer) -> Answer;

/// The sections that are there as a whole, by what their counts are taken for, and the bytes
/// behind them.
fn split(bytes: &[u8], taken: impl Fn(u32) -> u32) -> (Vec<Section>, &[u8]) {
    let (mut sections, mut rest) = (Vec::new(), bytes);
    while let Some((count, behind)) = rest.split_first_chunk() {
        let count = taken(u32::from_le_bytes(*count));
        let Some((entries, behind)) = behind.split_at_checked(8 * count as usize) else {
            break;
        };
        let (entries, _) = entries.as_chunks();
        let entries = entries.iter().map(|entry| u64::from_le_bytes(*entry)).collect();
        sections.push(Section { count, entries });
        rest = behind;
    }
    (sections, rest)
}

pub fn sections_of(bytes: &[u8]) -> Vec<Section> {
    split(bytes, |count| count).0
}

/// The right verdict on other sections.
fn judged_with(bytes: &[u8], change: impl Fn(&mut Vec<Section>)) -> Answer {
    let (mut sections, rest) = split(bytes, |count| count);
    change(&mut sections);
    judge(&[&written(&sections), rest].concat())
}

/// The right verdict on the transcript without the bytes behind it.
pub fn taking_behind(bytes: &[u8], _: Answer) -> Answer {
    let sections = sections_of(bytes);
    judge(&written(&sections[..5 + sections[2].entries.len()]))
}

/// Only so many bits of a count are read.
fn cut_counts(bits: u32) -> Judges {
    judging(move |bytes| {
        let (sections, rest) = split(bytes, |count| count & (u32::MAX >> (u32::BITS - bits)));
        judge(&[&written(&sections), rest].concat())
    })
}

/// Only so many bits of the entries of some sections are read.
fn cut_entries(places: RangeInclusive<usize>, bits: u32) -> Judges {
    judging(move |bytes| {
        judged_with(bytes, |sections| {
            let cut = sections.iter_mut().enumerate().filter(|(place, _)| places.contains(place));
            let entries = cut.flat_map(|(_, section)| &mut section.entries);
            entries.for_each(|entry| *entry &= u64::MAX >> (u64::BITS - bits));
        })
    })
}

/// With the highest byte first not even the first count is right.
fn highest_first(bytes: &[u8]) -> Answer {
    let mut taken = bytes.to_vec();
    let (count, entries) = taken.split_at_mut(bytes.len().min(4));
    count.reverse();
    entries.chunks_mut(8).take(3).for_each(|entry| entry.reverse());
    judge(&taken)
}

fn entries_before_count(bytes: &[u8], refusal: Answer) -> Answer {
    let section = refusal.place.unwrap_or(4);
    match sections_of(bytes).len() as u64 {
        whole if whole < section => refused_at(1, section),
        _ => refusal,
    }
}

/// The refusal of other bytes before any round, or the one at hand.
fn first_of(other: Answer, at_hand: Answer) -> Answer {
    match other.number {
        0 | 11 => at_hand,
        _ => other,
    }
}

fn values_at_the_end(bytes: &[u8], refusal: Answer) -> Answer {
    let with_right_values = judged_with(bytes, |sections| {
        let basis = sections[1].entries[1..].iter_mut();
        basis.zip(0..).for_each(|(element, bit)| *element = 1 << bit);
        sections.iter_mut().skip(3).take(1).for_each(|queries| *queries = Section::of(&[0]));
    });
    first_of(with_right_values, refusal)
}

/// The answer to too many bytes if the counts of sections 1 to 4 come before all their values.
pub fn counts_first(bytes: &[u8]) -> Answer {
    let refusal = judge_too_long(bytes);
    if ![8, 10, 17].contains(&refusal.number) {
        return refusal;
    }
    match values_at_the_end(bytes, refusal) {
        first if comes_before(first) => first,
        _ => refusal,
    }
}

fn query_count_at_the_end(bytes: &[u8], refusal: Answer) -> Answer {
    match sections_of(bytes).len() {
        ..4 => refused_at(1, 4),
        _ => first_of(judged_with(bytes, |all| all[3] = Section::of(&[0])), refusal),
    }
}

fn rounds_before_the_end(bytes: &[u8], refusal: Answer) -> Answer {
    match taking_behind(bytes, refusal) {
        failed if failed.number == 11 => failed,
        _ => refusal,
    }
}

fn queries_before_challenges(bytes: &[u8]) -> Answer {
    let swapped = judged_with(bytes, |sections| {
        if sections.len() >= 4 {
            sections.swap(2, 3);
        }
    });
    match swapped {
        Answer { number: 1 | 2, place: Some(section @ 3..=4), .. } => {
            refused_at(swapped.number, 7 - section)
        }
        _ => swapped,
    }
}

fn missing_are_zeros(bytes: &[u8], _: Answer) -> Answer {
    let mut longer = bytes.to_vec();
    while judge(&longer).number == 1 {
        longer.resize(2 * longer.len() + 4, 0);
    }
    match judge(&longer) {
        answer if answer.number == 3 => taking_behind(&longer, answer),
        answer => answer,
    }
}

fn one_section(bytes: &[u8], refusal: Answer) -> Answer {
    let rounds = sections_of(bytes).get(2).map_or(0, |challenges| challenges.count as u64);
    match refusal.place {
        Some(section) if (5..5 + rounds).contains(&section) => refused_at(refusal.number, 5),
        _ => refusal,
    }
}

/// Sorts that agree where it is not said that they differ.
const WATCHED: [&str; 7] = [HONEST, EACH, CUT, BEHIND, BASES, OUTSIDE, PARAMETERS];

pub fn rows() -> Vec<Row<Judges>> {
    let wrong = |what: &str, judges, differ: &[&str]| {
        let agree: Vec<&str> = WATCHED.into_iter().filter(|name| !differ.contains(name)).collect();
        row(what, judges).differs(differ).agrees(&agree)
    };
    let refused = |what: &str, numbers: &[u64], other: Other, differ: &[&str]| {
        wrong(what, instead_of(numbers.to_vec(), other), differ)
    };
    vec![
        wrong("counts have 8 bits", cut_counts(8), &[COUNTS, QUERIES, OUTSIDE]),
        wrong("counts have 16 bits", cut_counts(16), &[COUNTS]),
        wrong("counts have 29 bits", cut_counts(29), &[COUNTS]),
        wrong("counts have 31 bits", cut_counts(31), &[COUNTS]),
        wrong("parameters have 8 bits", cut_entries(0..=0, 8), &[PARAMETERS]),
        wrong("parameters have 32 bits", cut_entries(0..=0, 32), &[PARAMETERS]),
        wrong("queries have 32 bits", cut_entries(3..=3, 32), &[OUTSIDE, POWERS]),
        wrong("queries have 63 bits", cut_entries(3..=3, 63), &[OUTSIDE, POWERS]),
        wrong(
            "entries have 63 bits",
            cut_entries(0..=9, 63),
            &[HONEST, EACH, BEHIND, OUTSIDE, PARAMETERS],
        ),
        wrong("the highest byte comes first", judging(highest_first), &WATCHED)
            .smallest(HONEST, "4 bytes: 03, 00 (3 times)"),
        wrong(
            "queries come before challenges",
            judging(queries_before_challenges),
            &[HONEST, EACH, CUT, BEHIND, OUTSIDE, COUNTS],
        ),
        refused("entries before their count", &[2, 9], entries_before_count, &[COUNTS, SEVERAL])
            .smallest(COUNTS, "4 bytes: 00 (3 times), 01"),
        refused("values after all sections", &[8, 10], values_at_the_end, &[SEVERAL, FRONT]),
        refused("shared cosets after all sections", &[17], values_at_the_end, &[SEVERAL, FAULTS]),
        refused("query count after all", &[9], query_count_at_the_end, &[SEVERAL, COUNTS]),
        refused("rounds before bytes behind", &[3], rounds_before_the_end, &[SEVERAL]),
        refused("missing bytes are zeros", &[1], missing_are_zeros, &[CUT, CUT_NEAR, FRONT])
            .smallest(CUT, "0 bytes: nothing"),
        refused("bytes behind are taken", &[3], taking_behind, &[BEHIND, SEVERAL]),
        refused("layers have one section", &[1, 2], one_section, &[CUT, CUT_NEAR, COUNTS]),
    ]
}

// Queries in one coset.

/// The parameters and the queries of a transcript whose first four sections are whole.
fn parameters_and_queries(bytes: &[u8]) -> Option<(Parameters, Vec<u64>)> {
    let sections = sections_of(bytes);
    let [first, _, _, queries, ..] = &sections[..] else { return None };
    let [k, rate, step] = first.entries[..] else { return None };
    Some((Parameters { k, rate, step }, queries.entries.clone()))
}

/// The verdict whatever cosets the queries share: each is judged alone.
fn taken(bytes: &[u8], queries: &[u64]) -> Answer {
    let mut reads = 0;
    for (place, &query) in (0..).zip(queries) {
        let alone = judged_with(bytes, |all| all[3] = Section::of(&[query]));
        match (alone.number, alone.round) {
            (0, _) => reads += alone.reads,
            (11, Some(round)) => return failed(place, round, reads + alone.reads),
            _ => return alone,
        }
    }
    accepted(reads)
}

/// Whether something comes before shared cosets: a number of the first four sections.
fn comes_before(answer: Answer) -> bool {
    match answer.number {
        0 | 3 | 11 | 17 => false,
        1 | 2 => answer.place <= Some(4),
        _ => true,
    }
}

/// Looks for shared cosets in another way.
fn finding(find: Find) -> Judges {
    judging(move |bytes| match (judge(bytes), parameters_and_queries(bytes)) {
        (right, Some((parameters, queries))) if !comes_before(right) => {
            match find(parameters, &queries) {
                Some(place) => refused_at(17, place as u64),
                None => taken(bytes, &queries),
            }
        }
        (right, _) => right,
    })
}

/// Refuses for a shared coset where there is another cause of section 4.
fn before_other_causes(bytes: &[u8], right: Answer) -> Answer {
    let found = parameters_and_queries(bytes).and_then(|(p, queries)| together::RIGHT(p, &queries));
    found.map_or(right, |place| refused_at(17, place as u64))
}

/// The last place whose query shares a coset with an earlier one.
fn last_place(bytes: &[u8], right: Answer) -> Answer {
    let places =
        parameters_and_queries(bytes).map(|(p, all)| together::again(&all, |q| q >> p.step));
    let last = places.and_then(|places| places.last().copied());
    last.map_or(right, |place| refused_at(17, place as u64))
}

/// The first place in the coset that is told as shared.
fn earlier_place(bytes: &[u8], right: Answer) -> Answer {
    let (parameters, queries) = parameters_and_queries(bytes).expect("queries in one coset");
    let coset = |query: u64| query >> parameters.step;
    let later = coset(queries[right.place.unwrap_or(0) as usize]);
    let earlier = queries.iter().position(|&query| coset(query) == later);
    refused_at(17, earlier.expect("an earlier place") as u64)
}

/// Looks at each query as soon as it is read, where the bytes end in their section.
fn as_they_are_read(bytes: &[u8], right: Answer) -> Answer {
    let (sections, rest) = split(bytes, |count| count);
    let ([first, _, _], Some(4)) = (&sections[..], right.place) else { return right };
    let (entries, _) = rest.get(4..).unwrap_or_default().as_chunks();
    let read: Vec<u64> = entries.iter().map(|entry| u64::from_le_bytes(*entry)).collect();
    let places = together::again(&read, |query| query >> first.entries[2]);
    places.first().map_or(right, |&place| refused_at(17, place as u64))
}

/// All in which two queries share a coset, and nothing comes before that.
const SHARED: [&str; 7] = [PAIR, SEVERAL_SHARED, NEAR, SHARED_DAMAGED, LONG, FAULTS, SEVERAL];

pub fn shared_cosets() -> Vec<Row<Judges>> {
    let found = |what: &str, find: Find, differ: &[&str]| {
        row(what, finding(find)).differs(differ).agrees(&[BASES, OUTSIDE, OTHER_CAUSES])
    };
    let told = |what: &str, numbers: &[u64], other: Other, differ: &[&str]| {
        row(what, instead_of(numbers.to_vec(), other)).differs(differ).agrees(&[HONEST, EACH, CUT])
    };
    vec![
        row("nothing of shared cosets", finding(together::RIGHT)),
        found("shared cosets are taken", together::NOTHING, &SHARED),
        found("only equal queries share a coset", together::EQUAL, &[PAIR, SEVERAL_SHARED, NEAR]),
        found("only neighbours are compared", together::NEIGHBOURS, &[PAIR, SEVERAL_SHARED, LONG]),
        found("only the first is compared", together::WITH_FIRST, &[PAIR, SEVERAL_SHARED, LONG]),
        found("the cosets of layer 1 are compared", together::LAYER_1, &[HONEST, NEAR, LONG]),
        found("those half the length away share", together::HALVES, &[HONEST, PAIR, NEAR, LONG]),
        found("the two lowest bits are compared", together::TWO_BITS, &[LONG]),
        found("the step is taken for 1", together::STEP_1, &[NEAR, LONG]),
        found("the step is taken for 3", together::STEP_3, &[HONEST, NEAR, LONG]),
        told("the earlier place is told", &[17], earlier_place, &SHARED),
        told("the last such place is told", &[17], last_place, &[SEVERAL_SHARED]),
        told("shared cosets have reads", &[17], |_, a| Answer { reads: 2, ..a }, &SHARED),
        told("shared cosets before the end of their section", &[1], as_they_are_read, &[FAULTS])
            .agrees(&[CUT_NEAR]),
        told("shared cosets before the count", &[9], before_other_causes, &[OTHER_CAUSES]),
        told("shared cosets before queries outside", &[10], before_other_causes, &[OTHER_CAUSES]),
    ]
}
