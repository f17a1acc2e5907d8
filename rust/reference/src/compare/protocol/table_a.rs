//! Calls of which it is known what is due, and the cases of table A that have a prover, a judge or a
//! lookup.

use super::lookup::{layer_call, layer_of_library};
use super::{degree_too_high, judge_call, prove_call, with};
use crate::answer::{accepted, done, failed, refused, refused_at, Answer};
use crate::cases::{
    of_case_f, of_case_h, of_case_j, of_case_k, of_case_l, queries_of_case_p, stretched,
    too_many_queries_of_case_p, LAYER_1_OF_CASE_K, PARAMETERS_OF_CASE_P,
};
use crate::compare::call::Call;
use crate::compare::fold::{challenges_of_case_j, Exceptional};
use crate::compare::operation::{after, after_safe, After, Library};
use crate::compare::{compare, Comparison, Fixed, Input, Show, Sides, PAPER_AND_LIBRARY};
use crate::protocol::Run;
use crate::random::Random;
use crate::transcript::Judging;
use std::sync::{Arc, LazyLock};

/// A call, its answer, and for each lent list what it then holds, if it is written to. Nothing else
/// stands for it. The call is shared, since its lists may be long.
#[derive(Clone)]
pub struct Case {
    call: Arc<Call>,
    answer: Answer,
    lists: Vec<Option<Vec<u64>>>,
}

impl Show for Case {
    fn show(&self) -> String {
        self.call.show()
    }
}

impl Input for Case {
    type Size = <Call as Input>::Size;

    fn size(&self) -> Self::Size {
        self.call.size()
    }

    fn simpler(&self) -> Vec<Case> {
        Vec::new()
    }
}

impl Case {
    pub fn of(call: Call, answer: Answer, lists: Vec<Option<Vec<u64>>>) -> Case {
        Case { call: Arc::new(call), answer, lists }
    }

    fn due(&self) -> After<Answer> {
        after(&self.call, |outputs| {
            for (lent, due) in outputs.lent.iter_mut().zip(&self.lists) {
                if let Some(due) = due {
                    lent.list().copy_from_slice(due);
                }
            }
            self.answer
        })
    }
}

pub fn cases(
    library: &dyn Library,
    name: &'static str,
    sides: Sides,
    cases: impl IntoIterator<Item = Case>,
) -> Comparison {
    compare(name, cases, sides, Case::due, |case| after_safe(library, &case.call))
}

// Table A.

fn in_table(library: &dyn Library, name: &'static str, all: &[Case]) -> Comparison {
    cases(library, name, PAPER_AND_LIBRARY, all.iter().cloned())
}

pub fn of_prover(library: &dyn Library, challenges: usize) -> Vec<Comparison> {
    let j = [not_proved(of_case_j(4), degree_too_high(1)), proved(of_case_j(2), &[], &[0])];
    let k = proved(of_case_k(), &LAYER_1_OF_CASE_K, &[1]);
    vec![
        in_table(library, "case F of table A", &[proved(of_case_f(), &[], &[0xb])]),
        in_table(library, "case J of table A", &j),
        only_2_is_proved_in_case_j(library, challenges),
        in_table(library, "case K of table A, proved", &[k]),
        in_table(library, "case O of table A, lists of a prover", &LISTS_IN_CASE_O),
    ]
}

pub fn of_judge(library: &dyn Library) -> Vec<Comparison> {
    let g_to_i = [
        judged(of_case_f(), &[0, 3], accepted(4)),
        judged(of_case_h(), &[0, 3], failed(1, 0, 4)),
        judged(of_case_h(), &[0], accepted(2)),
    ];
    let k = judged(of_case_k(), &[5], accepted(4));
    let l = [judged(of_case_l(), &[0], failed(0, 0, 4)), judged(of_case_l(), &[7], accepted(4))];
    let of_p = stretched(PARAMETERS_OF_CASE_P, &[7]);
    let p = [
        judged(of_p.clone(), &queries_of_case_p(), accepted(256 * 5 * 2)),
        judged(of_p, &too_many_queries_of_case_p(), refused(9)),
    ];
    vec![
        in_table(library, "cases G, H and I of table A", &g_to_i),
        in_table(library, "case K of table A, judged", &[k]),
        in_table(library, "case L of table A", &l),
        in_table(library, "case O of table A, judged", &JUDGED_IN_CASE_O),
        in_table(library, "case P of table A", &p),
    ]
}

pub fn of_lookup(library: &dyn Library) -> Comparison {
    let layer_1 = layer_call(of_case_k().parameters, of_case_k().store, 1);
    compare(
        "case K of table A, layer 1",
        [Fixed(layer_1)],
        PAPER_AND_LIBRARY,
        |_| LAYER_1_OF_CASE_K.to_vec(),
        |Fixed(call)| layer_of_library(library, call),
    )
}

fn judged(run: Run, queries: &[u64], answer: Answer) -> Case {
    Case::of(judge_call(Judging { run, queries: queries.to_vec() }), answer, Vec::new())
}

fn proved(run: Run, store: &[u64], last: &[u64]) -> Case {
    let lists = [store, last].map(|list| Some(list.to_vec()));
    Case::of(prove_call(run), done(), lists.to_vec())
}

/// The lists are left as they were.
fn not_proved(run: Run, answer: Answer) -> Case {
    Case::of(prove_call(run), answer, vec![None, None])
}

fn only_2_is_proved_in_case_j(library: &dyn Library, challenges: usize) -> Comparison {
    let name = "case J of table A, 2 alone is proved";
    compare(
        name,
        challenges_of_case_j(&mut Random::named(name), challenges),
        PAPER_AND_LIBRARY,
        |&challenge| Exceptional(challenge == 2),
        |&challenge| {
            let call = prove_call(of_case_j(challenge));
            Exceptional(after_safe(library, &call).answer.number == 0)
        },
    )
}

// Case O, whose lists are so long that they are made once.

/// Four challenges and four last coefficients are right.
static LISTS_IN_CASE_O: LazyLock<Vec<Case>> = LazyLock::new(|| {
    let mut all = vec![not_proved(beyond_case_o(), refused(4))];
    for length in [3, 5] {
        let [mut challenges, mut last] = [of_case_o(), of_case_o()];
        challenges.challenges.resize(length, 0);
        last.last.resize(length, 0);
        all.push(not_proved(challenges, refused_at(13, 2)));
        all.push(not_proved(last, refused_at(13, 5)));
    }
    all
});

/// All four coefficients and all 256 points count: the last layer has a point for each query.
static JUDGED_IN_CASE_O: LazyLock<Vec<Case>> = LazyLock::new(|| {
    let queries: Vec<u64> = (0..256).map(|point| (point << 12) + 16 * point).collect();
    vec![
        judged(of_case_o(), &queries, accepted(256 * 4 * 8)),
        judged(beyond_case_o(), &queries, refused(4)),
    ]
});

fn of_case_o() -> Run {
    stretched(with([20, 6, 3]), &[7, 6, 5, 4])
}

fn beyond_case_o() -> Run {
    Run { parameters: with([21, 6, 3]), ..of_case_o() }
}
