//! Marking sheets: their lines, and what becomes of the room that is lent for them.
#![cfg(feature = "alloc")]

use razgwilh::{judge_transcript, sheet, sheet_into, Cause, LARGEST_SHEET};

const CASE_G: &[u8] = include_bytes!("../../../examples/g.transcript");
const SHEET_G: &str = "    0        0   0 000000000000000b 000000000000000b ok
    1        3   0 000000000000000b 000000000000000b ok
";

/// Case G with another byte at this place.
fn changed(place: usize, byte: u8) -> Vec<u8> {
    let mut bytes = CASE_G.to_vec();
    bytes[place] = byte;
    bytes
}

fn text(bytes: &[u8]) -> String {
    String::from_utf8(sheet(bytes)).expect("lines of text")
}

#[test]
fn an_accepted_transcript_has_lines_that_are_ok() {
    assert!(judge_transcript(CASE_G).is_ok());
    assert_eq!(text(CASE_G), SHEET_G);
}

/// Entry 1 of the word made 5: query 0 reads it, query 1 does not.
#[test]
fn lines_follow_the_first_check_that_fails() {
    let damaged = changed(100, 5);
    let refusal = judge_transcript(&damaged).unwrap_err();
    let told = (refusal.cause, refusal.place, refusal.round);
    assert_eq!(told, (Cause::RoundCheckFails, Some(0), Some(0)));
    let lines = "    0        0   0 000000000000000f 000000000000000b no
    1        3   0 000000000000000b 000000000000000b ok
";
    assert_eq!(text(&damaged), lines);
}

/// No bytes, a byte less, a byte more, k made 21, queries that share a coset of a damaged word.
#[test]
fn a_transcript_refused_for_another_cause_has_no_lines() {
    let mut shared = changed(80, 1);
    shared[100] = 5;
    let longer = [CASE_G, &[0]].concat();
    let all: [&[u8]; 5] = [&[], &CASE_G[..CASE_G.len() - 1], &longer, &changed(4, 21), &shared];
    for bytes in all {
        assert_ne!(judge_transcript(bytes).unwrap_err().cause, Cause::RoundCheckFails);
        assert_eq!(text(bytes), "");
        let mut out = [0xa5; 2 * SHEET_G.len()];
        assert_eq!(sheet_into(bytes, &mut out), 0);
        assert_eq!(out, [0xa5; 2 * SHEET_G.len()]);
    }
}

#[test]
fn a_room_is_filled_in_front_or_left_alone() {
    let length = SHEET_G.len();
    for room in [0, 1, 56, length - 1, length, length + 1, 2 * length] {
        let mut out = vec![0xa5; room];
        assert_eq!(sheet_into(CASE_G, &mut out), length as u64, "{room}");
        let written = if room < length { 0 } else { length };
        let (front, rest) = out.split_at(written);
        assert_eq!(front, &SHEET_G.as_bytes()[..written], "{room}");
        assert!(rest.iter().all(|byte| *byte == 0xa5), "{room}");
    }
}

#[test]
fn the_largest_sheet_is_declared_alike() {
    let header = include_str!("../../../include/razgwilh.h");
    assert!(header.contains("\n#define RZ_LARGEST_SHEET (256 * 19 * 56)\n"));
    assert_eq!(LARGEST_SHEET, 272_384);
}
