//! The line of the paper, lines by hand, and the cases of table A.

use super::*;
use crate::cases::{
    judgings, of_case_f, queries_of_case_p, sheets, stretched, PARAMETERS_OF_CASE_P,
};
use crate::parameters::{all_up_to, Parameters};
use crate::protocol::Run;
use crate::queries::apart;
use crate::random::Random;
use crate::transcript::{judge, judge_of_program, transcript};

fn sheet_of(run: &Run, queries: &[u64]) -> String {
    String::from_utf8(sheet_of_program(&transcript(run, queries))).expect("a text")
}

// Lines.

/// Byte by byte, as the paper has it.
#[test]
fn the_first_line_of_case_g() {
    let due = b"    0        0   0 000000000000000b 000000000000000b ok\n";
    let sheet = sheet(&transcript(&of_case_f(), &[0, 3]));
    assert_eq!(due.len(), LINE_LENGTH);
    assert_eq!(&sheet[..LINE_LENGTH], due);
}

/// By hand, with numbers of all widths.
#[test]
fn a_line_has_its_width() {
    let widest = Check {
        query: 255,
        index: 1_048_575,
        round: 18,
        computed: 0xfedc_ba98_7654_3210,
        found: u64::MAX,
    };
    let narrow = Check { query: 9, index: 10, round: 0, computed: 0, found: 0 };
    let lines = lines(&[widest, narrow]);
    assert_eq!(
        String::from_utf8_lossy(&lines),
        "  255  1048575  18 fedcba9876543210 ffffffffffffffff no\n    \
         9       10   0 0000000000000000 0000000000000000 ok\n"
    );
    assert!(lines
        .chunks(LINE_LENGTH)
        .all(|line| line.len() == LINE_LENGTH && line.ends_with(b"\n")));
}

// Table A.

#[test]
fn the_sheets_of_cases_g_to_l() {
    for (run, queries, due) in sheets() {
        assert_eq!(sheet_of(&run, &queries), due);
    }
}

#[test]
fn the_sheet_of_case_p() {
    let run = stretched(PARAMETERS_OF_CASE_P, &[7]);
    let line = |query: u64, round: u64| {
        let values = "0000000000000007 0000000000000007";
        format!("{query:>5} {:>8} {round:>3} {values} ok\n", 2 * query)
    };
    let of_query = |query| (0..5).map(move |round| line(query, round));
    let due: String = (0..256).flat_map(of_query).collect();
    assert_eq!(sheet_of(&run, &queries_of_case_p()), due);
}

/// The cases that are refused for another cause have none.
#[test]
fn lines_are_where_a_judge_came_to_the_rounds() {
    for (run, queries, answer) in judgings() {
        let has_lines = [0, 11].contains(&answer.number);
        assert_eq!(!sheet_of(&run, &queries).is_empty(), has_lines, "{answer:?}");
    }
    assert!(sheet(&[]).is_empty());
}

// Sheets and verdicts.

/// Of honest runs, and with the entry at each query damaged in turn.
#[test]
fn the_first_check_that_fails_is_the_one_of_the_verdict() {
    let random = &mut Random::named("sheets and verdicts");
    let mut failing = 0;
    for parameters in all_up_to(7) {
        let honest = stretched(parameters, &random.list(parameters.last_count()));
        let queries = apart(random, parameters, 5);
        assert!(checks(&honest, &queries).iter().all(Check::passes));
        for &query in &queries {
            let mut damaged = honest.clone();
            damaged.word[query as usize] ^= 1;
            let all = checks(&damaged, &queries);
            assert_eq!(all.len() as u64, queries.len() as u64 * parameters.rounds());
            let first = all.iter().find(|check| !check.passes());
            let verdict = judge(&transcript(&damaged, &queries));
            assert_eq!(first.map(|check| check.query), verdict.place);
            assert_eq!(first.map(|check| check.round), verdict.round);
            failing += usize::from(first.is_some());
        }
    }
    assert!(failing > 100, "{failing}");
}

// The limit of the program.

/// As long as the program takes it, and over that, where the library still has lines.
#[test]
fn what_is_too_long_for_the_program_has_no_lines() {
    let parameters = Parameters { k: 12, rate: 6, step: 1 };
    let random = &mut Random::named("sheets near the limit");
    let run = stretched(parameters, &[7]);
    let queries = apart(random, parameters, 100);
    let [fitting, longer] = [&queries[1..], &queries].map(|queries| transcript(&run, queries));
    assert_eq!([fitting.len(), longer.len()], [65_532, 65_540]);
    assert_eq!(sheet_of_program(&fitting), sheet(&fitting));
    assert_eq!(sheet(&fitting).len(), 99 * 6 * LINE_LENGTH);
    assert_eq!(sheet(&longer).len(), 100 * 6 * LINE_LENGTH);
    assert!(sheet_of_program(&longer).is_empty());
    assert_eq!(judge_of_program(&longer).number, 14);
    let far_longer = [&longer[..], &[0; 1_000_000]].concat();
    let mut with_k_21 = longer;
    with_k_21[4] = 21;
    assert_eq!(judge_of_program(&with_k_21).number, 4);
    assert!([far_longer, with_k_21].iter().all(|bytes| sheet_of_program(bytes).is_empty()));
}
