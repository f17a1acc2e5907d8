//! The runs of table A, with the numbers that the paper has for them.

#[cfg(test)]
use crate::answer::{accepted, failed, refused, refused_at, Answer};
use crate::coset::points;
use crate::fold::Coset;
use crate::parameters::Parameters;
use crate::polynomial::value;
use crate::protocol::{cosets, Run};

/// A run of rate 1 and step 1 over the coset of all numbers below 2^k.
fn plain(challenges: &[u64], word: &[u64], store: &[u64], last: &[u64]) -> Run {
    let k = word.len().trailing_zeros() as u64;
    Run {
        parameters: Parameters { k, rate: 1, step: 1 },
        offset: 0,
        basis: (0..k).map(|place| 1 << place).collect(),
        challenges: challenges.to_vec(),
        word: word.to_vec(),
        store: store.to_vec(),
        last: last.to_vec(),
    }
}

// Cases F to J.

pub fn of_case_f() -> Run {
    plain(&[4], &[7, 4, 1, 2], &[], &[0xb])
}

pub fn of_case_h() -> Run {
    plain(&[4], &[7, 4, 1, 3], &[], &[0xb])
}

pub fn of_case_j(challenge: u64) -> Run {
    plain(&[challenge], &[0, 0, 0, 1], &[], &[0])
}

// Cases K to M.

pub const LAYER_1_OF_CASE_K: [u64; 4] = [2, 4, 0x16, 0x10];

pub fn of_case_k() -> Run {
    let word = [0, 1, 4, 5, 0x10, 0x11, 0x14, 0x15];
    plain(&[2, 3], &word, &LAYER_1_OF_CASE_K, &[1])
}

pub fn of_case_l() -> Run {
    let mut run = of_case_k();
    run.store[0] = 3;
    run
}

/// The paper has the basis alone.
pub fn of_case_m() -> Run {
    Run { basis: vec![1, 2, 3], ..of_case_k() }
}

// Cases O and P.

/// An honest run with this last polynomial, each value of the last layer standing in all
/// entries that are folded to it. So every fold is plain, whatever the challenge is.
pub fn stretched(parameters: Parameters, last: &[u64]) -> Run {
    let run = Run {
        parameters,
        offset: 1,
        basis: (1..=parameters.k).map(|place| 1 << place).collect(),
        challenges: (5..).take(parameters.rounds() as usize).collect(),
        word: Vec::new(),
        store: Vec::new(),
        last: last.to_vec(),
    };
    let r = parameters.rounds();
    let Coset { offset, basis } = &cosets(&run)[r as usize];
    let points = points(*offset, basis);
    let values: Vec<u64> = points.iter().map(|&x| value(last, x)).collect();
    let layer = |i: u64| -> Vec<u64> {
        let entries = 0..parameters.layer_length(i);
        let folded = (r - i) * parameters.step;
        entries.map(|entry| values[entry >> folded]).collect()
    };
    Run { word: layer(0), store: (1..r).flat_map(layer).collect(), ..run }
}

/// With step 1 a first-layer coset of these has two entries.
pub const PARAMETERS_OF_CASE_P: Parameters = Parameters { k: 9, rate: 4, step: 1 };

/// One query in each of the 256 first-layer cosets.
pub fn queries_of_case_p() -> Vec<u64> {
    (0..256).map(|coset| 2 * coset).collect()
}

/// One query more than there may be.
pub fn too_many_queries_of_case_p() -> Vec<u64> {
    [&queries_of_case_p()[..], &[511]].concat()
}

// All of them.

/// Runs that have lines, each with its queries and its sheet: cases G to I, case J at its
/// exceptional challenge, and cases K and L.
///
/// The paper has the first line of case G. In case H the values at points 2 and 3 are 1 and 3, so
/// that the fold at 4 is 1 + 6 × 2. In case L round 1 folds 3 and 4 at points 0 and 6: at challenge
/// 3 that is 3 + 3 × 7 / 6, and 7 / 2 is 1 / 2 plus 3.
pub fn sheets() -> Vec<(Run, Vec<u64>, &'static str)> {
    vec![
        (
            of_case_f(),
            vec![0, 3],
            "    0        0   0 000000000000000b 000000000000000b ok\n    \
             1        3   0 000000000000000b 000000000000000b ok\n",
        ),
        (
            of_case_h(),
            vec![0, 3],
            "    0        0   0 000000000000000b 000000000000000b ok\n    \
             1        3   0 000000000000000d 000000000000000b no\n",
        ),
        (of_case_h(), vec![0], "    0        0   0 000000000000000b 000000000000000b ok\n"),
        (
            of_case_j(2),
            vec![0, 3],
            "    0        0   0 0000000000000000 0000000000000000 ok\n    \
             1        3   0 0000000000000000 0000000000000000 ok\n",
        ),
        (
            of_case_k(),
            vec![5],
            "    0        5   0 0000000000000016 0000000000000016 ok\n    \
             0        5   1 0000000000000001 0000000000000001 ok\n",
        ),
        (
            of_case_l(),
            vec![0],
            "    0        0   0 0000000000000002 0000000000000003 no\n    \
             0        0   1 800000000000000d 0000000000000001 no\n",
        ),
        (
            of_case_l(),
            vec![7],
            "    0        7   0 0000000000000010 0000000000000010 ok\n    \
             0        7   1 0000000000000001 0000000000000001 ok\n",
        ),
    ]
}

/// Runs that are judged, each with its queries and the answer due, cases G to P in order.
#[cfg(test)]
pub fn judgings() -> Vec<(Run, Vec<u64>, Answer)> {
    let of_case_p = stretched(PARAMETERS_OF_CASE_P, &[7]);
    vec![
        (of_case_f(), vec![0, 3], accepted(4)),
        (of_case_h(), vec![0, 3], failed(1, 0, 4)),
        (of_case_h(), vec![0], accepted(2)),
        (of_case_j(2), vec![0, 3], accepted(4)),
        (of_case_k(), vec![5], accepted(4)),
        (of_case_l(), vec![0], failed(0, 0, 4)),
        (of_case_l(), vec![7], accepted(4)),
        (of_case_m(), vec![5], refused_at(8, 2)),
        (of_case_p.clone(), queries_of_case_p(), accepted(256 * 5 * 2)),
        (of_case_p, too_many_queries_of_case_p(), refused(9)),
    ]
}
