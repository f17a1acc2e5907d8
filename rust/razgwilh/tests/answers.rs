//! The causes are those of docs/NUMBERS.md and docs/CALLERS.md, and no answer reads as accepted
//! but number 0.

use razgwilh::raw::{self, Answer, NONE};
use razgwilh::{inverse, judge, transcript_length, write_transcript, Cause, Refusal, Run};

/// The rows of a document's table of numbers.
fn rows(document: &str) -> impl Iterator<Item = &str> {
    let table =
        document.lines().skip_while(|line| !line.starts_with("| number | cause | place | round |"));
    table.skip(2).take_while(|line| line.starts_with('|'))
}

#[test]
fn causes_are_those_of_the_tables() {
    let operators = rows(include_str!("../../../docs/NUMBERS.md"));
    let callers = rows(include_str!("../../../docs/CALLERS.md"));
    let mut rows: Vec<&str> = operators.chain(callers).collect();
    rows.sort_by_key(|row| row.split('|').nth(1).and_then(|cell| cell.trim().parse::<u64>().ok()));
    assert_eq!(rows.len(), Cause::ALL.len());
    let declared = include_str!("../src/refusal.rs").lines().filter(|line| line.contains(" = "));
    assert_eq!(declared.filter(|line| line.ends_with(',')).count(), rows.len());
    for (row, cause) in rows.iter().zip(Cause::ALL) {
        let front = format!("| {} | {} |", cause.number(), cause.words());
        assert!(row.starts_with(&front), "{cause} stands in the place of {row}");
        assert_eq!(Cause::of(cause.number()), Some(*cause));
        let place = row.split('|').nth(3).and_then(|cell| cell.trim().split(',').next());
        if let Some(place) = place.filter(|place| *place != "-") {
            let refusal = Refusal { cause: *cause, place: Some(2), round: None, reads: 0 };
            assert_eq!(refusal.to_string(), format!("{cause}; {place} 2"));
        }
    }
}

#[test]
fn the_crate_does_without_std() {
    assert!(include_str!("../src/lib.rs").contains("\n#![no_std]\n"));
}

#[test]
#[should_panic(expected = "number 18446744073709551615")]
fn a_call_that_writes_nothing_is_not_accepted() {
    let _ = Answer::of(|_| ()).result();
}

#[test]
#[should_panic(expected = "number 18")]
fn a_number_without_a_cause_is_not_accepted() {
    let _ = Answer::of(|answer| answer.copy_from_slice(&[18, NONE, NONE, 0, NONE])).result();
}

/// 15 as from a library before 0.7, of the inverse of zero; 16, of a later layer's dependent basis,
/// never came from any.
#[test]
fn retired_numbers_have_no_cause_and_are_not_accepted() {
    for number in [15, 16] {
        assert_eq!(Cause::of(number), None);
        let told = Answer::of(|answer| answer.copy_from_slice(&[number, NONE, NONE, 0, NONE]));
        let panic = std::panic::catch_unwind(|| told.result()).expect_err("no answer");
        let said = panic.downcast_ref::<String>().expect("a message");
        assert!(said.contains(&format!("number {number}")), "{said}");
    }
}

#[test]
fn the_inverse_of_zero_is_zero() {
    assert_eq!([0, 1, 2].map(inverse), [0, 1, 0x8000_0000_0000_000d]);
    let answer = Answer::of(|answer| raw::inverse(0, answer));
    assert_eq!(answer, Answer { number: 0, place: NONE, round: NONE, reads: 0, value: 0 });
}

#[test]
fn a_run_tells_its_lengths() {
    let (basis, challenges, word) = (&[1; 20], &[0; 4], &[]);
    let run = Run { k: 20, rate: 6, step: 3, offset: 0, basis, challenges, word };
    let store_length = (1 << 17) + (1 << 14) + (1 << 11);
    assert_eq!((run.rounds(), run.store_length(), run.last_length()), (4, store_length, 4));
    let entries = 3 + 21 + 4 + 256 + (1 << 20) + store_length + 4;
    assert_eq!(run.transcript_length(256), 4 * 9 + 8 * entries);
    assert_eq!([transcript_length(21, 6, 3, 1), transcript_length(20, 6, 3, 1 << 60)], [0, 0]);
}

fn case_g() -> Run<'static> {
    let (basis, challenges, word) = (&[1, 2], &[4], &[7, 4, 1, 2]);
    Run { k: 2, rate: 1, step: 1, offset: 0, basis, challenges, word }
}

#[test]
fn queries_in_one_coset_are_refused() {
    let run = case_g();
    let due = Refusal { cause: Cause::CosetShared, place: Some(1), round: None, reads: 0 };
    assert_eq!(judge(run, &[3, 2], &[], &[0xb]), Err(due));

    let mut bytes = vec![0xa5; run.transcript_length(2)];
    assert_eq!(write_transcript(run, &[3, 2], &[], &[0xb], &mut bytes), Err(due));
    assert!(bytes.iter().all(|byte| *byte == 0xa5));
}

#[test]
fn a_list_of_bytes_that_does_not_fit_is_left_alone() {
    let run = case_g();
    let mut bytes = vec![0xa5; run.transcript_length(2) + 1];
    let refusal = write_transcript(run, &[0, 3], &[], &[0xb], &mut bytes).unwrap_err();
    assert_eq!((refusal.cause, refusal.place), (Cause::WrongLength, Some(8)));
    assert!(bytes.iter().all(|byte| *byte == 0xa5));

    bytes.pop();
    assert_eq!(write_transcript(run, &[0, 3], &[], &[0xb], &mut bytes), Ok(()));
    assert_eq!(bytes, include_bytes!("../../../examples/g.transcript"));
}
