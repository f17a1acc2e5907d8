//! What is proved, against layers that are known, and with the library's own judge and lookup.

use super::inputs::known::{self, Others};
use super::inputs::right;
use super::lookup::{layer_call, layer_of_library};
use super::table_a::{cases, Case};
use super::{degree_too_high, judge_call, prove_call, run_of, with};
use crate::answer::{accepted, done, raw};
use crate::compare::operation::{after_safe, Library, Setting};
use crate::compare::{compare, Comparison, Fixed, PAPER_AND_LIBRARY};
use crate::parameters::Parameters;
use crate::protocol::{honest_layers, Run, QUERY_COUNTS};
use crate::random::Random;
use crate::transcript::Judging;

/// In turn the highest degree that is proved, and the highest there is.
pub fn known_layers(library: &dyn Library, settings: &[Setting]) -> Comparison {
    let name = "prove, k 16 to 20, known layers";
    let mut random = Random::named(name);
    let known = settings.iter().copied().map(with).map(|parameters| {
        if parameters.k % 2 == 0 {
            let run = known::honest(&mut random, parameters);
            let lists = vec![Some(run.store.clone()), Some(run.last.clone())];
            return Case::of(prove_call(run), done(), lists);
        }
        let degree = parameters.layer_length(parameters.rounds()) - 1;
        let run = known::known(&mut random, parameters, degree, Others::Any, 0);
        let lists = vec![Some(run.store.clone()), None];
        Case::of(prove_call(run), degree_too_high(degree as u64), lists)
    });
    cases(library, name, ["known", "library"], known)
}

// With the library itself.

/// Compares what is due for a run with what the library makes of its own proof. Nothing else stands
/// for a run, since a smaller one might have no proof.
fn of_own_proofs(
    library: &dyn Library,
    name: &'static str,
    amounts: &[usize],
    due: impl Fn(&Run) -> Vec<Vec<u64>>,
    given: impl Fn(&Run) -> Vec<Vec<u64>>,
) -> Comparison {
    let runs = right::to_be_proved(&mut Random::named(name), amounts).into_iter();
    compare(
        name,
        runs.map(|run| Fixed(prove_call(run))),
        PAPER_AND_LIBRARY,
        |Fixed(call)| due(&run_of(call)),
        |Fixed(call)| {
            let mut lists = after_safe(library, call).outputs.contents();
            let last = lists.pop().expect("the last coefficients");
            given(&Run { store: lists.concat(), last, ..run_of(call) })
        },
    )
}

/// All queries, in lists that are as long as they may be: all that stand at one place of their
/// coset, in one list or more.
fn query_lists(parameters: Parameters) -> Vec<Vec<u64>> {
    let entries = 1 << parameters.step;
    let at_place = |place| (place..parameters.layer_length(0) as u64).step_by(entries);
    let of_place = |place| {
        let all: Vec<u64> = at_place(place).collect();
        all.chunks(*QUERY_COUNTS.end()).map(<[u64]>::to_vec).collect::<Vec<_>>()
    };
    (0..entries as u64).flat_map(of_place).collect()
}

/// The numbers of the verdicts, by the paper's formula for the reads.
pub fn accepted_by_judge(library: &dyn Library, amounts: &[usize]) -> Comparison {
    let due = |run: &Run| {
        let entries = run.parameters.rounds() << run.parameters.step;
        let lists = query_lists(run.parameters).into_iter();
        lists.map(|queries| raw(&accepted(queries.len() as u64 * entries)).to_vec()).collect()
    };
    let given = |run: &Run| {
        let lists = query_lists(run.parameters).into_iter();
        let calls = lists.map(|queries| judge_call(Judging { run: run.clone(), queries }));
        calls.map(|call| raw(&after_safe(library, &call).answer).to_vec()).collect()
    };
    of_own_proofs(library, "what is proved is accepted with every query", amounts, due, given)
}

/// Layers 0 to r, of which the first and the last are not in the store.
pub fn layer_by_layer(library: &dyn Library, amounts: &[usize]) -> Comparison {
    let due = |run: &Run| {
        let mut layers = honest_layers(run);
        let r = layers.len() - 1;
        layers[0].clear();
        layers[r].clear();
        layers
    };
    let given = |run: &Run| {
        let call = |i| layer_call(run.parameters, run.store.clone(), i);
        (0..=run.parameters.rounds()).map(|i| layer_of_library(library, &call(i))).collect()
    };
    of_own_proofs(library, "what is proved, layer by layer", amounts, due, given)
}
