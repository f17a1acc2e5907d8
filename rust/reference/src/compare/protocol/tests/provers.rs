//! Wrong provers.

use super::*;
use crate::answer::{done, refused};
use crate::coset::points;
use crate::polynomial::interpolant;

const ANY_WORDS: &str = "prove, any words";
const DEGREES: &str = "prove, words of every degree";
const NEAR_BOUNDS: &str = "prove, degrees near the bounds";
const EXCEPTIONAL: &str = "prove, exceptional challenges";
const LARGE: &str = "prove, k 10 to 15";
const KNOWN: &str = "prove, k 16 to 20, known layers";
const ACCEPTED: &str = "what is proved is accepted with every query";
const LAYERS: &str = "what is proved, layer by layer";
const SEVERAL: &str = "prove, several causes";
const SAFE: &str = "prove, safe calls";
const OTHER_ANSWER: &str = "prove with an answer list of another length";
const CASE_F: &str = "case F of table A";
const CASE_J: &str = "case J of table A";
const CASE_J_ALL: &str = "case J of table A, 2 alone is proved";
const CASE_K: &str = "case K of table A, proved";
const CASE_O: &str = "case O of table A, lists of a prover";

/// All in which layers are written, but for cases.
const WRITTEN: [&str; 9] =
    [ANY_WORDS, DEGREES, NEAR_BOUNDS, EXCEPTIONAL, LARGE, KNOWN, ACCEPTED, LAYERS, SAFE];

/// All in which last coefficients are written.
const SENT: [&str; 9] =
    [ANY_WORDS, DEGREES, NEAR_BOUNDS, EXCEPTIONAL, KNOWN, ACCEPTED, SAFE, CASE_J, CASE_K];

/// All in which the degree is too high, but for cases.
const TOO_HIGH: [&str; 6] = [ANY_WORDS, DEGREES, NEAR_BOUNDS, LARGE, KNOWN, SAFE];

const OTHERS: Others = Others {
    right: &[ANY_WORDS, DEGREES, NEAR_BOUNDS, EXCEPTIONAL, LARGE],
    safely: &[KNOWN, CASE_F, CASE_J, CASE_K, CASE_O],
    dependent: &[],
    unsaid: &[CASE_O],
};

/// The judge and the lookup, which are right, take what a wrong prover wrote.
#[test]
fn the_table_holds() {
    let rows = [
        in_all(),
        layers(),
        last_coefficients(),
        degrees(),
        refusals::rows(&PROVE, ANY_WORDS),
        shared_rows(&PROVE, &OTHERS),
    ];
    hold(rows, |library| {
        let mut all = of_prover(library, &FEW);
        all.push(proving::accepted_by_judge(library, &FEW.turns));
        all.push(proving::layer_by_layer(library, &FEW.turns));
        all
    });
}

/// Makes another proof of the run, with the lists as they were lent, and the right proof, if that
/// has one of these numbers.
fn prover(
    what: &'static str,
    numbers: &'static [u64],
    proof: impl Fn(&Run, Proved) -> Proved + 'static,
) -> Row<Wrong> {
    let changed = move |run: &Run| match proof_due(run) {
        right if numbers.contains(&right.answer.number) => proof(run, right),
        right => right,
    };
    row(what, alike(move |call, outputs| write_proof(call, outputs, &changed)).of(&PROVE))
}

/// The numbers of a run whose layers are written.
const FOLDED: &[u64] = &[0, 12];

fn in_all() -> Vec<Row<Wrong>> {
    vec![
        prover("all are turned away", ALL, |run, right| {
            let left = with_store_left(run, with_last_left(run, right));
            Proved { answer: refused(4), ..left }
        })
        .differs(&WRITTEN)
        .differs(&[CASE_F, CASE_J, CASE_J_ALL, CASE_K])
        .agrees(&[OTHER_ANSWER]),
        prover("nothing is refused", BEFORE_WORK, |_, right| Proved { answer: done(), ..right })
            .differs(&[SAFE, SEVERAL, CASE_O])
            .agrees(&[ANY_WORDS, DEGREES, NEAR_BOUNDS, EXCEPTIONAL, LARGE]),
    ]
}

fn with_store_left(run: &Run, proved: Proved) -> Proved {
    Proved { store: run.store.clone(), ..proved }
}

fn with_last_left(run: &Run, proved: Proved) -> Proved {
    Proved { last: run.last.clone(), ..proved }
}

// Wrong layers.

/// What is right but for the folds.
fn folding((what, folding): (&'static str, Folding)) -> Row<Wrong> {
    prover(what, FOLDED, move |run, _| {
        let mut layers = vec![run.word.clone()];
        for round in 0..run.challenges.len() {
            let entries = 0..layers[round].len() >> run.parameters.step;
            layers.push(entries.map(|j| folding.entry(run, round, &layers[round], j)).collect());
        }
        let r = layers.len() - 1;
        let Coset { offset, basis } = &protocol::cosets(run)[r];
        let mut last = interpolant(&points(*offset, basis), &layers[r]);
        let degree = last.iter().rposition(|&coefficient| coefficient != 0);
        last.truncate(run.last.len());
        let proved = Proved { answer: done(), store: layers[1..r].concat(), last };
        match degree {
            Some(degree) if degree >= run.last.len() => {
                let answer = degree_too_high(degree as u64);
                with_last_left(run, Proved { answer, ..proved })
            }
            _ => proved,
        }
    })
}

fn layers() -> Vec<Row<Wrong>> {
    vec![
        folding(("nothing", RIGHT)),
        folding(HALVES).differs(&WRITTEN).differs(&[CASE_J, CASE_J_ALL, CASE_K]),
        // Nothing shows where there is one round.
        folding(FIRST_BASIS)
            .differs(&WRITTEN)
            .differs(&[CASE_K])
            .smallest(ANY_WORDS, "; rate 1; step 1; offset 0; basis: 1, 2, 4"),
        folding(PLAIN_POINTS).differs(&WRITTEN).differs(&[CASE_K]),
        prover("only layer 1 is folded", FOLDED, |run, mut right| {
            let first = run.parameters.layer_length(1);
            right.store.iter_mut().skip(first).for_each(|entry| *entry = 0);
            right
        })
        .differs(&WRITTEN)
        // With three rounds there are two layers in the store.
        .smallest(ANY_WORDS, "k 4; rate 1; step 1; "),
        prover("the layers are joined from behind", FOLDED, |run, mut right| {
            let first = run.parameters.layer_length(1).min(right.store.len());
            right.store.rotate_left(first);
            right
        })
        .differs(&WRITTEN),
        prover("the challenges are taken from behind", FOLDED, |run, _| {
            let challenges = run.challenges.iter().rev().copied().collect();
            proof_due(&Run { challenges, ..run.clone() })
        })
        .differs(&WRITTEN)
        .differs(&[CASE_K]),
        prover("the store is not written", FOLDED, with_store_left)
            .differs(&WRITTEN)
            .differs(&[CASE_K]),
    ]
}

// Wrong last coefficients.

fn last_coefficients() -> Vec<Row<Wrong>> {
    vec![
        prover("the last coefficients are the same for all", &[0], |run, right| Proved {
            last: vec![0xb; run.last.len()],
            ..right
        })
        .differs(&SENT),
        prover("the last layer is sent as values", &[0], |run, right| {
            let mut layers = protocol::honest_layers(run);
            let values = layers.pop().expect("a last layer");
            Proved { last: values[..run.last.len()].to_vec(), ..right }
        })
        .differs(&[ANY_WORDS, DEGREES, NEAR_BOUNDS, EXCEPTIONAL, ACCEPTED, SAFE])
        // One coefficient is the value at any point, and these are the least with two.
        .smallest(NEAR_BOUNDS, "k 4; rate 1; step 2; "),
        prover("the last coefficients are not written", &[0], with_last_left)
            .differs(&SENT)
            .differs(&[CASE_F]),
    ]
}

// Too high a degree.

fn degrees() -> Vec<Row<Wrong>> {
    let answering = |what, answer: fn(Answer) -> Answer| {
        prover(what, &[12], move |_, right| Proved { answer: answer(right.answer), ..right })
            .differs(&TOO_HIGH)
            .differs(&[CASE_J])
    };
    vec![
        answering("a high degree is no refusal", |_| done()).differs(&[CASE_J_ALL]),
        answering("a high degree is not given", |_| refused(12)),
        answering("a high degree is no value", |right| Answer { value: None, ..right }),
        answering("a high degree is no place", |right| Answer { place: None, ..right }),
        answering("a high degree is given one too high", |right| {
            degree_too_high(right.place.map_or(0, |degree| degree + 1))
        }),
        prover("the store is left at a high degree", &[12], with_store_left)
            .differs(&TOO_HIGH)
            .smallest(ANY_WORDS, "k 3; rate 1; step 1; "),
        prover("coefficients are written at a high degree", &[12], |run, right| Proved {
            last: protocol::honest_last(run),
            ..right
        })
        .differs(&TOO_HIGH)
        .differs(&[CASE_J]),
        prover("a degree of d is proved", &[12], |run, right| match right.answer.place {
            Some(degree) if degree == run.last.len() as u64 => {
                Proved { answer: done(), last: protocol::honest_last(run), ..right }
            }
            _ => right,
        })
        .differs(&TOO_HIGH)
        .differs(&[CASE_J, CASE_J_ALL]),
        // At an exceptional challenge the degree of the last layer is lower.
        prover("a word of a high degree is never proved", &[0], |run, right| {
            let polynomial = interpolant(&points(run.offset, &run.basis), &run.word);
            let bound = polynomial.len() >> run.parameters.rate;
            match polynomial[bound..].iter().all(|&coefficient| coefficient == 0) {
                true => right,
                false => Proved { answer: degree_too_high(run.last.len() as u64), ..right },
            }
        })
        .differs(&[ANY_WORDS, EXCEPTIONAL, SAFE, CASE_J, CASE_J_ALL]),
    ]
}
