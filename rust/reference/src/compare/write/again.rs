//! What was written, read again by the reference and judged by the library.

use super::{inputs, write_call, Amounts};
use crate::answer::{done, raw, Answer};
use crate::compare::call::*;
use crate::compare::operation::{after_safe, Library, Setting};
use crate::compare::protocol::inputs::{damaged, known, right};
use crate::compare::protocol::{judge_call, run_of, with};
use crate::compare::{compare, Comparison};
use crate::parameters::Parameters;
use crate::protocol::{Run, QUERY_COUNTS};
use crate::queries::apart;
use crate::random::Random;
use crate::transcript::{read, Judging};

pub fn comparisons(library: &dyn Library, amounts: &Amounts) -> Vec<Comparison> {
    vec![read_again(library, amounts), judged_as_lists(library, amounts)]
}

/// What is compared: the writer's answer, and what another makes of its bytes. Nothing where there
/// must be no bytes: a smaller call may be one of those.
type Again<A> = Option<(Answer, A)>;

/// What is due, if it is that the bytes are written.
fn due<A>(call: &Call, of_lists: impl FnOnce() -> A) -> Again<A> {
    call.refusal().is_none().then(|| (done(), of_lists()))
}

/// What the library wrote, as another takes it.
fn given<A>(library: &dyn Library, call: &Call, of_bytes: impl FnOnce(&[u8]) -> A) -> Again<A> {
    call.refusal().is_none().then(|| {
        let mut after = after_safe(library, call);
        (after.answer, of_bytes(after.outputs.bytes()))
    })
}

fn judging_of(call: &Call) -> Judging {
    Judging { run: run_of(call), queries: call[Queries].clone() }
}

// The reader finds parameters, offset and all lists again.

fn read_again(library: &dyn Library, amounts: &Amounts) -> Comparison {
    let name = "what is written is read again";
    let random = &mut Random::named(name);
    let any = inputs::any_lists(random, &amounts.turns).into_iter();
    let large: Vec<Judging> = large(random, amounts.judged.1).collect();
    let calls = any.chain(large).map(write_call);
    let of_bytes = |bytes: &[u8]| read(bytes).map_or_else(in_place_of_lists, lists_of);
    compare(
        name,
        calls,
        ["given", "read again"],
        |call| due(call, || lists_of(judging_of(call))),
        |call| given(library, call, of_bytes),
    )
}

fn lists_of(Judging { run, queries }: Judging) -> Vec<Vec<u64>> {
    let Run { parameters: Parameters { k, rate, step }, offset, .. } = run;
    let numbers = vec![k, rate, step, offset];
    vec![numbers, run.basis, run.challenges, queries, run.word, run.store, run.last]
}

fn in_place_of_lists(refusal: Answer) -> Vec<Vec<u64>> {
    vec![raw(&refusal).to_vec()]
}

// The verdict over the bytes is that over the lists.

fn judged_as_lists(library: &dyn Library, amounts: &Amounts) -> Comparison {
    let name = "what is written is judged as its lists are";
    let random = &mut Random::named(name);
    let calls = judgings(random, amounts).map(write_call);
    compare(
        name,
        calls,
        ["over lists", "over bytes"],
        |call| due(call, || after_safe(library, &judge_call(judging_of(call))).answer),
        |call| given(library, call, |bytes| library.judge_transcript(bytes)),
    )
}

/// Honest runs and damaged ones, some of them large.
fn judgings<'a>(random: &'a mut Random, amounts: &Amounts) -> impl Iterator<Item = Judging> + 'a {
    let (turns, settings) = &amounts.judged;
    let small = [
        right::honest_with_queries(random, turns),
        right::of_high_degrees(random, turns),
        damaged::some(random, turns),
        damaged::other_challenges(random, turns),
    ];
    small.into_iter().flatten().chain(large(random, settings))
}

/// Honest with as many queries as there may be, and failing at the last of them.
fn large<'a>(
    random: &'a mut Random,
    settings: &'static [Setting],
) -> impl Iterator<Item = Judging> + 'a {
    settings.iter().flat_map(move |&setting| {
        let run = known::honest(random, with(setting));
        let queries = apart(random, run.parameters, *QUERY_COUNTS.end());
        let mut failing = run.clone();
        failing.word[queries[queries.len() - 1] as usize] ^= 1;
        [run, failing].map(|run| Judging { run, queries: queries.clone() })
    })
}
