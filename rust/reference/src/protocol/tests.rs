//! Table A, the reads that the paper has formulas for, and the order of the refusals.

use super::*;
use crate::cases::{judgings, of_case_f, of_case_j, of_case_k};
use crate::parameters::all_up_to;
use crate::queries::apart;
use crate::random::Random;

/// The run with numbers in its lent lists that no prover would write.
fn lent(run: &Run) -> Run {
    Run { store: vec![0xabc; run.store.len()], last: vec![0xdef; run.last.len()], ..run.clone() }
}

fn proved(answer: Answer, store: &[u64], last: &[u64]) -> Proved {
    Proved { answer, store: store.to_vec(), last: last.to_vec() }
}

// Table A.

#[test]
fn cases_f_j_and_k_are_proved() {
    for run in [of_case_f(), of_case_j(2), of_case_k()] {
        assert_eq!(prove(&lent(&run)), proved(done(), &run.store, &run.last));
    }
    for challenge in (0..100).filter(|&challenge| challenge != 2).chain([1 << 63, u64::MAX]) {
        let run = lent(&of_case_j(challenge));
        assert_eq!(prove(&run), proved(refused_at(12, 1), &[], &run.last));
    }
}

#[test]
fn cases_g_to_p_are_judged() {
    for (run, queries, due) in judgings() {
        assert_eq!(judge(&run, &queries), due);
    }
}

// The judge.

/// What the paper has for the reads of such an answer to so many queries.
fn reads_due(parameters: Parameters, queries: usize, answer: Answer) -> u64 {
    let r = parameters.rounds();
    let cosets = match (answer.place, answer.round) {
        (Some(query), Some(round)) => query * r + r.min(round + 2),
        _ => queries as u64 * r,
    };
    cosets << parameters.step
}

/// Of honest runs, and with each entry damaged in turn.
#[test]
fn the_reads_are_those_of_the_formulas() {
    let random = &mut Random::named("the reads are those of the formulas");
    let lists: [fn(&mut Run) -> &mut Vec<u64>; 3] =
        [|run| &mut run.word, |run| &mut run.store, |run| &mut run.last];
    let mut met = BTreeSet::new();
    for parameters in all_up_to(6) {
        let first = Coset { offset: random.number(), basis: random.list(parameters.k as usize) };
        let polynomial = random.list(1 << (parameters.k - parameters.rate));
        let challenges = random.list(parameters.rounds() as usize);
        let mut honest = Run::honest(parameters, first, &polynomial, challenges);
        let queries = apart(random, parameters, 6);
        let reads_due = |answer| reads_due(parameters, queries.len(), answer);
        assert_eq!(judge(&honest, &queries), accepted(reads_due(done())));
        for list in lists {
            for place in 0..list(&mut honest).len() {
                let mut damaged = honest.clone();
                list(&mut damaged)[place] ^= 1;
                let answer = judge(&damaged, &queries);
                assert_eq!(answer.reads, reads_due(answer));
                met.insert((answer.place, answer.round));
            }
        }
    }
    for (query, round) in [(0, 0), (0, 1), (0, 4), (1, 2), (2, 3), (3, 1), (5, 0)] {
        assert!(met.contains(&(Some(query), Some(round))), "query {query}, round {round}");
    }
}

// Refusals.

/// One change for each cause, from the last cause to the first. Each is found before those that
/// were there, and a prover that refuses leaves its lists.
#[test]
fn the_first_cause_is_given() {
    let (mut run, mut queries) = (of_case_k(), vec![5, 2]);
    let mut assert_next = |change: fn(&mut Run, &mut Vec<u64>), due: Answer| {
        change(&mut run, &mut queries);
        assert_eq!(judge(&run, &queries), due);
        if ![9, 10, 11, 17].contains(&due.number) {
            assert_eq!(prove(&run), proved(due, &run.store, &run.last));
        }
    };
    assert_next(|run, _| run.word[2] ^= 1, failed(1, 0, 8));
    assert_next(|_, queries| queries.extend([0, 4, 3]), refused_at(17, 3));
    assert_next(|_, queries| queries.insert(0, 3), refused_at(17, 2));
    assert_next(|_, queries| queries.push(8), refused_at(10, 6));
    assert_next(|_, queries| queries[0] = 1 << 32, refused_at(10, 0));
    assert_next(|_, queries| queries.resize(257, 8), refused(9));
    assert_next(|_, queries| queries.clear(), refused(9));
    assert_next(|run, _| run.basis[2] = 3, refused_at(8, 2));
    assert_next(|run, _| run.basis[0] = 0, refused_at(8, 0));
    assert_next(|run, _| run.last.push(0), refused_at(13, 5));
    assert_next(|run, _| run.store.clear(), refused_at(13, 4));
    assert_next(|run, _| run.word.push(0), refused_at(13, 3));
    assert_next(|run, _| run.challenges.clear(), refused_at(13, 2));
    assert_next(|run, _| run.basis.push(0), refused_at(13, 1));
    assert_next(|run, _| run.parameters.rate = 3, refused(7));
    assert_next(|run, _| run.parameters.step = 4, refused(6));
    assert_next(|run, _| run.parameters.rate = 7, refused(5));
    assert_next(|run, _| run.parameters.k = 21, refused(4));
}

/// With step 2 the word of 16 entries has four cosets of four.
#[test]
fn the_first_query_in_the_coset_of_an_earlier_one_is_named() {
    let parameters = Parameters { k: 4, rate: 1, step: 2 };
    let place = |queries: &[u64]| right_queries(parameters, queries).err();
    let shared = |place| Some(refused_at(17, place));
    assert_eq!([&[7, 7][..], &[4, 7], &[7, 4]].map(place), [shared(1); 3]);
    assert_eq!([&[3, 4][..], &[4, 3], &[0, 15, 5, 10]].map(place), [None; 3]);
    // The later one of the pair that is whole first, whichever pair begins first.
    assert_eq!(place(&[0, 5, 6, 1]), shared(2));
    assert_eq!(place(&[0, 5, 1, 6]), shared(2));
    assert_eq!(place(&[15, 0, 4, 8, 12]), shared(4));
    assert_eq!(place(&[0, 1, 2, 3]), shared(1));
}
