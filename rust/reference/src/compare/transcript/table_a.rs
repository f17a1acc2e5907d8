//! The cases of table A that are judged, as transcripts.

use super::{names, Bytes, Judges};
use crate::cases::{
    of_case_f, of_case_h, of_case_k, of_case_l, of_case_m, queries_of_case_p, stretched,
    too_many_queries_of_case_p, PARAMETERS_OF_CASE_P,
};
use crate::compare::program::Printed;
use crate::compare::{compare, compare_on_threads, Comparison, Fixed};
use crate::compare::{PAPER_AND_LIBRARY, PAPER_AND_PROGRAM};
use crate::transcript::{lines, sections, transcript, written};

/// A byte string, and the second line that the paper has for it.
type Case = (Bytes, &'static str);

pub(super) fn comparisons(judges: &Judges) -> Vec<Comparison> {
    let (g, h, k, l, m) = (of_case_f(), of_case_h(), of_case_k(), of_case_l(), of_case_m());
    let g_to_i = [
        (transcript(&g, &[0, 3]), "accepted 0 - - 4"),
        (transcript(&h, &[0, 3]), "refused 11 1 0 4"),
        (transcript(&h, &[0]), "accepted 0 - - 2"),
    ];
    let k_and_l = [
        (transcript(&k, &[5]), "accepted 0 - - 4"),
        (transcript(&l, &[0]), "refused 11 0 0 4"),
        (transcript(&l, &[7]), "accepted 0 - - 4"),
    ];
    // Of case O the dimension that is out of range.
    let mut o = sections(&k, &[5]);
    o[0].entries = vec![21, 6, 3];
    let p = stretched(PARAMETERS_OF_CASE_P, &[7]);
    let m_to_p = [
        (transcript(&m, &[5]), "refused 8 2 - 0"),
        (Vec::new(), "refused 1 1 - 0"),
        (written(&o), "refused 4 - - 0"),
        (transcript(&p, &queries_of_case_p()), "accepted 0 - - 2560"),
        (transcript(&p, &too_many_queries_of_case_p()), "refused 9 - - 0"),
    ];
    [
        both(judges, "cases G, H and I of table A", &g_to_i),
        both(judges, "cases K and L of table A", &k_and_l),
        both(judges, "cases M to P of table A", &m_to_p),
    ]
    .concat()
}

/// The answer of the library is compared as the program would print it.
fn both(judges: &Judges, name: &str, cases: &[Case]) -> Vec<Comparison> {
    let inputs: Vec<Fixed<Bytes>> = cases.iter().map(|case| Fixed(case.0.clone())).collect();
    let due = |Fixed(bytes): &Fixed<Bytes>| {
        let case = cases.iter().find(|case| case.0 == *bytes);
        let (_, line) = case.expect("a case of these bytes");
        Printed(format!("answer number place round reads\n{line}\n").into_bytes())
    };
    let answer = |Fixed(bytes): &Fixed<Bytes>| Printed(lines(&(judges.judge)(bytes)).into_bytes());
    let text = |Fixed(bytes): &Fixed<Bytes>| Printed((judges.program)(bytes));
    let [library, program] = names(name);
    vec![
        compare(library, inputs.clone(), PAPER_AND_LIBRARY, due, answer),
        compare_on_threads(program, &inputs, PAPER_AND_PROGRAM, due, text),
    ]
}
