//! Table A, and what the writer writes and leaves.

use super::*;
use crate::answer::{accepted, failed};
use crate::cases::{judgings, of_case_f, of_case_h, of_case_k, of_case_m};
use crate::parameters::all_up_to;
use crate::queries::apart;
use crate::random::Random;

/// Case O has no transcript that the program takes.
#[test]
fn cases_g_to_p() {
    for (run, queries, due) in judgings() {
        assert_eq!(judge_of_program(&transcript(&run, &queries)), due);
    }
    assert_eq!(judge_of_program(&[]), refused_at(1, 1));
}

#[test]
fn the_length_and_the_lines_of_the_paper() {
    assert_eq!(transcript(&of_case_f(), &[0, 3]).len(), 136);
    let header = "answer number place round reads\n";
    assert_eq!(lines(&accepted(4)), format!("{header}accepted 0 - - 4\n"));
    assert_eq!(lines(&failed(1, 0, 4)), format!("{header}refused 11 1 0 4\n"));
}

// The writer.

/// Any lists that fit the parameters.
fn any(random: &mut Random, parameters: Parameters, queries: usize) -> Judging {
    let run = Run {
        parameters,
        offset: random.number(),
        basis: (0..parameters.k).map(|place| 1 << place).collect(),
        challenges: random.list(parameters.rounds() as usize),
        word: random.list(parameters.layer_length(0)),
        store: random.list(parameters.store_length()),
        last: random.list(parameters.last_count()),
    };
    let queries = apart(random, parameters, queries);
    Judging { run, queries }
}

/// The reader goes from byte to byte and knows nothing of the length. So it tells that all
/// lists stand in what is written, and that nothing else does.
#[test]
fn what_is_written_is_read_again() {
    let random = &mut Random::named("written and read");
    for (parameters, queries) in all_up_to(9).into_iter().zip([1, 2, 5, 256].iter().cycle()) {
        let Judging { run, queries } = any(random, parameters, *queries);
        let mut bytes = vec![0xa5; length(parameters, queries.len() as u64) as usize];
        assert_eq!(write(&run, &queries, &mut bytes), done());
        let Ok(again) = read(&bytes) else { panic!("{parameters:?}") };
        assert_eq!(again.run.parameters, parameters);
        assert_eq!((again.run.offset, &again.run.basis), (run.offset, &run.basis));
        assert_eq!((&again.run.challenges, &again.queries), (&run.challenges, &queries));
        assert_eq!((&again.run.word, &again.run.store), (&run.word, &run.store));
        assert_eq!(again.run.last, run.last);
        assert_eq!(judge(&bytes), protocol::judge(&run, &queries));
    }
}

/// No other bytes carry the same: not with a bit flipped, cut off or with a byte behind.
#[test]
fn nothing_else_is_read_as_the_same() {
    let judging = any(&mut Random::named("nothing else"), of_case_k().parameters, 2);
    let bytes = transcript(&judging.run, &judging.queries);
    let again = |bytes: &[u8]| read(bytes).map(|read| sections(&read.run, &read.queries));
    let same = again(&bytes);
    assert_eq!(same, Ok(sections(&judging.run, &judging.queries)));
    for bit in 0..8 * bytes.len() {
        let mut flipped = bytes.clone();
        flipped[bit / 8] ^= 1 << (bit % 8);
        assert_ne!(again(&flipped), same);
    }
    for length in 0..bytes.len() {
        assert_ne!(again(&bytes[..length]), same);
    }
    assert_ne!(again(&[&bytes[..], &[0]].concat()), same);
}

/// Each section is looked at as a whole before the next one.
#[test]
fn shared_cosets_come_before_all_behind_them() {
    let k = of_case_k();
    let mut all = sections(&k, &[5, 0, 4]);
    let front = written(&all[..4]);
    assert_eq!(judge(&written(&all)), refused_at(17, 2));
    assert_eq!(judge(&front), refused_at(17, 2));
    assert_eq!(judge(&front[..front.len() - 1]), refused_at(1, 4));
    all[4].count = 7;
    assert_eq!(judge(&written(&all)), refused_at(17, 2));
    all[3].entries[1] = 8;
    assert_eq!(judge(&written(&all)), refused_at(10, 1));
    all[3].count = 257;
    assert_eq!(judge(&written(&all)), refused(9));
}

/// The longest has 256 queries. Entries of each sort by themselves, and counts.
#[test]
fn the_lengths_are_those_of_the_formula() {
    for parameters in all_up_to(20) {
        let (k, r) = (parameters.k, parameters.rounds());
        let (store, d) = (parameters.store_length() as u64, parameters.last_count() as u64);
        for queries in [0, 1, 256, 257, 1 << 32, LONGEST_LIST] {
            let entries = 3 + 1 + k + r + queries + (1 << k) + store + d;
            assert_eq!(length(parameters, queries), 4 * (5 + r) + 8 * entries);
        }
        assert!(length(parameters, 256) <= 16_779_680);
    }
    assert_eq!(length(Parameters { k: 20, rate: 1, step: 1 }, 256), 16_779_680);
    assert_eq!(length(of_case_f().parameters, 2), 136);
}

/// What is written need not be accepted: case H is not.
#[test]
fn what_is_refused_is_left() {
    let k = of_case_k();
    let length = transcript(&k, &[5]).len();
    let longer = Run { last: vec![1, 0], ..k.clone() };
    let low = Run { parameters: Parameters { k: 1, ..k.parameters }, ..k.clone() };
    for (run, queries, length, due) in [
        (&low, &[5][..], 0, refused(4)),
        (&longer, &[8], length + 8, refused_at(13, 5)),
        (&of_case_m(), &[], length, refused_at(13, 8)),
        (&of_case_m(), &[], length - 8, refused_at(8, 2)),
        (&k, &[5], length - 1, refused_at(13, 8)),
        (&k, &[8], length + 1, refused_at(13, 8)),
        (&k, &[], length, refused_at(13, 8)),
        (&k, &[], length - 8, refused(9)),
        (&k, &[8; 257], length, refused_at(13, 8)),
        (&k, &[8; 257], length + 8 * 256, refused(9)),
        (&k, &[5, 8], length + 8, refused_at(10, 1)),
        (&k, &[5, 4, 8], length + 16, refused_at(10, 2)),
        (&k, &[5, 0, 4], length + 16, refused_at(17, 2)),
        (&k, &[5, 5], length, refused_at(13, 8)),
    ] {
        let mut bytes = vec![0xa5; length];
        assert_eq!(write(run, queries, &mut bytes), due);
        assert_eq!(bytes, vec![0xa5; length]);
    }
    for (run, queries) in [(of_case_f(), vec![0, 3]), (of_case_h(), vec![0, 3])] {
        let mut bytes = vec![0xa5; 136];
        assert_eq!(write(&run, &queries, &mut bytes), done());
        assert_eq!(bytes, transcript(&run, &queries));
    }
}

// The limit of the program.

/// What is made of the sections, and the answer that is due.
type Fault = (fn(&mut Vec<Section>), Answer);

/// Case K with two queries and with a fault, and zeros behind.
fn case_k_at(length: usize, fault: fn(&mut Vec<Section>)) -> Vec<u8> {
    let mut all = sections(&of_case_k(), &[5, 0]);
    fault(&mut all);
    let mut bytes = written(&all);
    bytes.resize(length, 0);
    bytes
}

/// What the paper has as its example is the second of them, with 70,000 bytes.
#[test]
fn sections_1_to_4_come_before_the_length() {
    let faults: [Fault; 14] = [
        (|all| all[0].count = 2, refused_at(2, 1)),
        (|all| all[0].entries[0] = 21, refused(4)),
        (|all| all[0].entries[1] = 7, refused(5)),
        (|all| all[0].entries[2] = 0, refused(6)),
        (|all| all[0].entries[1] = 3, refused(7)),
        (|all| all[1].count = 5, refused_at(2, 2)),
        (|all| all[1].entries[3] = 3, refused_at(8, 2)),
        (|all| all[2].count = 1, refused_at(2, 3)),
        (|all| all[3].count = 0, refused(9)),
        (|all| all[3].count = 257, refused(9)),
        (|all| all[3].count = u32::MAX, refused(9)),
        (|all| all[3].entries[1] = 8, refused_at(10, 1)),
        (|all| all[3].entries[1] = 4, refused_at(17, 1)),
        (|all| (all[3].entries[1], all[4].count) = (4, 7), refused_at(17, 1)),
    ];
    for (fault, due) in faults {
        for length in [65_535, 65_536, 65_537, 70_000, 1_000_000] {
            assert_eq!(judge_of_program(&case_k_at(length, fault)), due);
        }
    }
}

/// The library has no limit: its answer stays.
#[test]
fn the_length_comes_before_all_behind_section_4() {
    let faults: [Fault; 5] = [
        (|_| (), refused(3)),
        (|all| all.truncate(4), refused_at(2, 5)),
        (|all| all[4].count = 9, refused_at(2, 5)),
        (|all| all[6].count = 0, refused_at(2, 7)),
        (|all| all[6].entries[0] = 2, refused(3)),
    ];
    for (fault, due) in faults {
        assert_eq!(judge_of_program(&case_k_at(65_536, fault)), due);
        for length in [65_537, 70_000, 1_000_000] {
            let bytes = case_k_at(length, fault);
            assert_eq!((judge(&bytes), judge_of_program(&bytes)), (due, refused(14)));
        }
    }
}

/// So number 1 cannot be due for more bytes than the program takes.
#[test]
fn sections_1_to_4_have_at_most_2408_bytes() {
    let front = |parameters: Parameters| 4 * 4 + 8 * (3 + 1 + parameters.k + parameters.rounds());
    let longest = all_up_to(20).into_iter().map(|parameters| front(parameters) + 8 * 256).max();
    assert_eq!(longest, Some(2_408));
    let parameters = Parameters { k: 20, rate: 1, step: 1 };
    let Judging { run, queries } = any(&mut Random::named("the longest front"), parameters, 256);
    let bytes = written(&sections(&run, &queries)[..4]);
    assert_eq!((bytes.len(), judge_too_long(&bytes)), (2_408, refused(14)));
    assert_eq!(judge_too_long(&bytes[..2_407]), refused_at(1, 4));
}
