//! The comparisons of the prover, of the judge over lists, of the lookup of a layer, and of the
//! numbers that say how long the lists of a run are.

pub(crate) mod inputs;
mod lengths;
mod lookup;
mod proving;
mod table_a;

use super::call::*;
use super::lent::FILLS;
use super::operation::{raw_calls, Library, Op, Operation, Outputs, Setting};
use super::{library, refused, Comparison, Input};
use crate::answer::{refused_at, Answer, DEGREE_TOO_HIGH};
use crate::parameters::Parameters;
use crate::protocol::{self, may_take, Proved, Run};
use crate::queries::apart;
use crate::random::Random;
use crate::transcript::{self, Judging};
use inputs::queries::{self, Lists};
use inputs::{damaged, known, right, together, Turns};

// The operations.

/// What the prover and the judge have in common.
pub(super) const OVER_A_RUN: Operation = Operation {
    name: "",
    numbers: &[K, Rate, Step, Offset],
    given: &[],
    lent: &[],
    dimensions: 2..=20,
    settings: |k| {
        let all = (1..=6).flat_map(|rate| (1..=3).map(move |step| [k, rate, step]));
        all.filter(|[k, rate, step]| *k >= rate + step).collect()
    },
    due_length,
    fits: |_, length, due| length == due,
    refusal: |call| may_take(&run_of(call)).err(),
    due: |call, outputs| write_proof(call, outputs, proof_due),
    mended: |_| None,
    safe: library::prove,
    raw: library::raw_prove,
    right: |random, setting, turn| prove_call(right::honest(random, with(setting), turn)),
    special: |random, setting| right::special(random, with(setting)).map(prove_call).to_vec(),
    k_out_of_range: "k out of range",
    least_k: "rate plus step",
    several_lists: "several lists of wrong lengths",
};

pub static PROVE: Operation = Operation {
    name: "prove",
    given: &[Basis, Challenges, Given],
    lent: &[Store, Last],
    ..OVER_A_RUN
};

pub static JUDGE: Operation = Operation {
    name: "judge",
    given: &[Basis, Challenges, Given, Store, Last, Queries],
    due: |call, _| protocol::judge(&run_of(call), &call[Queries]),
    mended: made_honest,
    safe: library::judge,
    raw: library::raw_judge,
    right: |random, setting, turn| {
        let run = right::honest(random, with(setting), turn);
        let queries = apart(random, run.parameters, 2);
        judge_call(Judging { run, queries })
    },
    special: failing_or_refused_for_queries,
    ..OVER_A_RUN
};

pub(super) fn with([k, rate, step]: Setting) -> Parameters {
    Parameters { k, rate, step }
}

/// The length that a list must have. Where there is none, the parameters being bad, it is what the
/// paper's formulas give for the nearest that they can be computed for.
fn due_length(call: &Call, list: List) -> usize {
    let Parameters { k, rate, step } = parameters_of(call);
    let k = k.min(refused::LARGEST_OF_LISTS);
    let nearest = Parameters { k, rate: rate.min(k), step: step.max(1) };
    match list {
        Basis => k as usize,
        Challenges => nearest.rounds() as usize,
        Given => nearest.layer_length(0),
        Store => nearest.store_length(),
        Last => nearest.last_count(),
        Bytes => transcript::length(nearest, call[Queries].len() as u64) as usize,
        _ => 0,
    }
}

// Calls of runs.

pub(super) fn call_of(operation: Op, run: Run) -> Call {
    let Parameters { k, rate, step } = run.parameters;
    Call::of(operation)
        .with_setting([k, rate, step])
        .with(Offset, run.offset)
        .with_list(Basis, run.basis)
        .with_list(Challenges, run.challenges)
        .with_list(Given, run.word)
        .with_list(Store, run.store)
        .with_list(Last, run.last)
}

/// The store and the last coefficients are lists to write to.
fn prove_call(mut run: Run) -> Call {
    run.store.fill(0);
    run.last.fill(0);
    call_of(&PROVE, run)
}

pub(super) fn judge_call(Judging { run, queries }: Judging) -> Call {
    call_of(&JUDGE, run).with_list(Queries, queries)
}

fn parameters_of(call: &Call) -> Parameters {
    with([K, Rate, Step].map(|number| call[number]))
}

pub(super) fn run_of(call: &Call) -> Run {
    Run {
        parameters: parameters_of(call),
        offset: call[Offset],
        basis: call[Basis].clone(),
        challenges: call[Challenges].clone(),
        word: call[Given].clone(),
        store: call[Store].clone(),
        last: call[Last].clone(),
    }
}

/// Writes what is proved of a run whose lists are those that were lent.
fn write_proof(call: &Call, outputs: &mut Outputs, prove: impl Fn(&Run) -> Proved) -> Answer {
    let [store, last] = outputs.lists();
    let lent = Run { store: store.to_vec(), last: last.to_vec(), ..run_of(call) };
    let proved = prove(&lent);
    store.copy_from_slice(&proved.store);
    last.copy_from_slice(&proved.last);
    proved.answer
}

fn proof_due(run: &Run) -> Proved {
    let proved = protocol::prove(run);
    match (proved.answer.number, proved.answer.place) {
        (DEGREE_TOO_HIGH, Some(degree)) => Proved { answer: degree_too_high(degree), ..proved },
        _ => proved,
    }
}

/// The C interface has the degree for its value as well, where the paper has one number.
fn degree_too_high(degree: u64) -> Answer {
    Answer { value: Some(degree), ..refused_at(DEGREE_TOO_HIGH, degree) }
}

/// With the honest store and the honest last coefficients, if there are any.
fn made_honest(call: &Call) -> Option<Call> {
    let run = run_of(call);
    may_take(&run).ok()?;
    let Run { store, last, .. } = run.made_honest();
    Some(call.clone().with_list(Store, store).with_list(Last, last))
}

/// What a judge alone refuses: a failing run, no query, a query out of range, and two queries in
/// one coset, of a failing run as well.
fn failing_or_refused_for_queries(random: &mut Random, setting: Setting) -> Vec<Call> {
    let honest = (JUDGE.right)(random, setting, 0);
    let mut failing = honest.clone();
    failing[Last][0] ^= 1;
    let with_queries = |call: &Call, queries| call.clone().with_list(Queries, queries);
    let outside = with_queries(&honest, vec![0, 1 << setting[0]]);
    let shared = [&honest, &failing].map(|call| with_queries(call, vec![2, 3]));
    let without = with_queries(&honest, Vec::new());
    [&[failing, outside, without], &shared[..]].concat()
}

/// Judgings to try in place of this one, all with lists of the right lengths.
pub(crate) fn simpler(judging: &Judging) -> Vec<Judging> {
    let fits = |call: &Call| {
        let mut lists = JUDGE.lists().into_iter();
        parameters_of(call).may_use().is_ok() && lists.all(|list| call.fits(list))
    };
    let judging_of = |call: Call| Judging { run: run_of(&call), queries: call[Queries].clone() };
    let simpler = judge_call(judging.clone()).simpler().into_iter();
    simpler.filter(fits).map(judging_of).collect()
}

// The comparisons.

/// How many inputs the comparisons take.
pub struct Amounts {
    /// Runs of each sort, or a multiple of so many.
    pub turns: Turns,
    /// The largest dimension with words of every degree.
    pub all_degrees: u64,
    /// Words of degrees near the bounds.
    pub near_bounds: Turns,
    /// Larger dimensions, each with every step.
    pub whole: &'static [u64],
    /// Runs that are too large for the reference to prove.
    pub known: &'static [Setting],
    /// The largest dimension of runs with each entry damaged, in which each query is judged alone,
    /// and one in each first-layer coset together.
    pub each_damaged: [u64; 2],
    /// Large runs with some entries damaged, and how often each.
    pub large_damaged: (&'static [Setting], usize),
    /// Runs with each of many query lists.
    pub queries: Turns,
    /// Runs with the longest query lists.
    pub long: &'static [Setting],
    /// The largest dimension with every lookup, and the largest with some.
    pub lookups: [u64; 2],
    /// The largest number that stands for each of the parameters.
    pub lengths: u64,
    /// How many of the smallest challenges and of random ones in case J.
    pub challenges: usize,
    pub refused: refused::Amounts,
}

/// The amounts that the program takes. All sorts of any words come up within 420 turns.
pub const FULL: Amounts = Amounts {
    turns: [0, 0, 84, 42, 21, 12, 7, 4, 2, 1],
    all_degrees: 5,
    near_bounds: [0, 0, 8, 8, 4, 2, 2, 1, 1, 1],
    whole: &[10, 11, 12, 13, 14, 15],
    known: LARGE.split_at(6).1,
    each_damaged: [5, 6],
    large_damaged: (LARGE, 16),
    queries: [0, 0, 2, 2, 1, 1, 0, 0, 0, 1],
    long: &[[9, 2, 1], [10, 1, 2], [11, 3, 3], [16, 6, 1]],
    lookups: [10, 20],
    lengths: 40,
    challenges: 1_000,
    refused: refused::Amounts {
        out_of_range: &[1, 0, 21, 22, 24, 31, 32, 37, 63, 64, 69, 133, 261, 1 << 63],
        dimensions: &[2, 3, 4, 5, 6, 7, 8, 9, 12],
        too_small: 5,
        several_lists: 4,
        largest_dependent: 10,
        several_causes: 2,
        most_causes: usize::MAX,
        every_sort: (&[2, 3, 4], 14),
    },
};

const LARGE: &[Setting] = &[
    [10, 3, 1],
    [11, 1, 2],
    [12, 6, 3],
    [13, 2, 1],
    [14, 4, 2],
    [15, 1, 3],
    [16, 1, 1],
    [17, 5, 2],
    [18, 3, 3],
    [19, 5, 2],
    [20, 1, 1],
    [20, 6, 3],
];

/// Runs all comparisons of this file and of those under it.
pub fn comparisons(library: &dyn Library, amounts: &Amounts) -> Vec<Comparison> {
    [
        of_prover(library, amounts),
        of_judge(library, amounts),
        of_lookup(library, amounts),
        lengths::comparisons(library, amounts.lengths),
    ]
    .concat()
}

fn of_prover(library: &dyn Library, amounts: &Amounts) -> Vec<Comparison> {
    [
        proofs(library, amounts),
        vec![proving::known_layers(library, amounts.known)],
        refused::comparisons(library, &PROVE, &amounts.refused),
        table_a::of_prover(library, amounts.challenges),
    ]
    .concat()
}

fn of_judge(library: &dyn Library, amounts: &Amounts) -> Vec<Comparison> {
    [
        judgings(library, amounts),
        vec![proving::accepted_by_judge(library, &amounts.turns)],
        refused::comparisons(library, &JUDGE, &amounts.refused),
        table_a::of_judge(library),
    ]
    .concat()
}

fn of_lookup(library: &dyn Library, amounts: &Amounts) -> Vec<Comparison> {
    [
        lookup::comparisons(library, amounts.lookups),
        vec![proving::layer_by_layer(library, &amounts.turns), table_a::of_lookup(library)],
    ]
    .concat()
}

/// Compares the calls of all inputs, the fills in turn.
fn compared<I, Inputs: IntoIterator<Item = I>>(
    library: &dyn Library,
    name: &'static str,
    call: fn(I) -> Call,
    inputs: impl FnOnce(Random) -> Inputs,
) -> Comparison {
    let inputs = inputs(Random::named(name)).into_iter();
    let calls = inputs.zip(FILLS.into_iter().cycle());
    raw_calls(library, name, calls.map(|(input, fill)| call(input).with_fill(fill)))
}

fn proofs(library: &dyn Library, amounts: &Amounts) -> Vec<Comparison> {
    let any_words = amounts.turns.map(|turns| 5 * turns);
    let proofs = |name, inputs: &dyn Fn(&mut Random) -> Vec<Run>| {
        compared(library, name, prove_call, |mut random| inputs(&mut random))
    };
    vec![
        proofs("prove, any words", &|random| right::any_words(random, &any_words)),
        proofs("prove, words of every degree", &|random| {
            right::all_degrees(random, amounts.all_degrees)
        }),
        proofs("prove, degrees near the bounds", &|random| {
            right::near_bounds(random, &amounts.near_bounds)
        }),
        proofs("prove, exceptional challenges", &|random| {
            known::exceptional(random, &amounts.turns)
        }),
        proofs("prove, k 10 to 15", &|random| right::large(random, amounts.whole)),
    ]
}

fn judgings(library: &dyn Library, amounts: &Amounts) -> Vec<Comparison> {
    let Amounts { turns, queries, .. } = amounts;
    let honest = turns.map(|turns| 2 * turns);
    let (large, times) = amounts.large_damaged;
    let [large, long] = [large, amounts.long].map(|settings| {
        let all = settings.iter().copied().map(with);
        all.collect::<Vec<Parameters>>()
    });
    let judgings = |name, inputs: &dyn Fn(&mut Random) -> Vec<Judging>| {
        compared(library, name, judge_call, |mut random| inputs(&mut random))
    };
    let lists =
        |name, lists: Lists| judgings(name, &|random| queries::with_lists(random, queries, lists));
    vec![
        judgings("judge, honest runs", &|random| right::honest_with_queries(random, &honest)),
        judgings("judge, honest folds of too high a degree", &|random| {
            right::of_high_degrees(random, turns)
        }),
        judgings("judge, some entries damaged, k 2 to 9", &|random| damaged::some(random, turns)),
        judgings("judge, another challenge", &|random| damaged::other_challenges(random, turns)),
        judgings("judge, counts of queries", &|random| queries::of_all_counts(random, queries)),
        judgings("judge, a query out of range", &|random| queries::out_of_range(random, queries)),
        judgings("judge, several queries out of range", &|random| {
            queries::several_out_of_range(random, queries)
        }),
        lists("judge, two queries in one coset", together::one_pair),
        lists("judge, several queries in one coset", together::several),
        lists("judge, queries near each other", together::near),
        lists("judge, queries in one coset and other causes", together::and_other_causes),
        judgings("judge, queries in one coset of damaged runs", &|random| {
            damaged::some_in_one_coset(random, queries)
        }),
        compared(library, "judge, long lists of queries", judge_call, |random| {
            together::long(random, &long)
        }),
        compared(library, "judge, each entry damaged, each query alone", judge_call, |random| {
            damaged::with_each_query(random, amounts.each_damaged[0])
        }),
        compared(library, "judge, each entry damaged, all cosets", judge_call, |random| {
            damaged::with_all_cosets(random, amounts.each_damaged[1])
        }),
        compared(library, "judge, some entries damaged, k 10 to 20", judge_call, |random| {
            damaged::some_of_large(random, &large, times)
        }),
    ]
}

#[cfg(test)]
pub(super) mod tests;
