//! The cases of table A that are judged, byte by byte as the paper has a transcript.

use super::write_call;
use crate::answer::done;
use crate::cases::{of_case_f, of_case_h, of_case_k};
use crate::compare::operation::{after, after_safe, Library};
use crate::compare::{compare, Comparison, Fixed, PAPER_AND_LIBRARY};
use crate::protocol::Run;
use crate::transcript::Judging;

/// Parameters; offset and basis; challenges; queries; word; last coefficients.
const CASE_G: &str = "
    03000000 0200000000000000 0100000000000000 0100000000000000
    03000000 0000000000000000 0100000000000000 0200000000000000
    01000000 0400000000000000
    02000000 0000000000000000 0300000000000000
    04000000 0700000000000000 0400000000000000 0100000000000000 0200000000000000
    01000000 0b00000000000000";

/// It is not accepted.
const CASE_H: &str = "
    03000000 0200000000000000 0100000000000000 0100000000000000
    03000000 0000000000000000 0100000000000000 0200000000000000
    01000000 0400000000000000
    02000000 0000000000000000 0300000000000000
    04000000 0700000000000000 0400000000000000 0100000000000000 0300000000000000
    01000000 0b00000000000000";

/// With layer 1 behind the word.
const CASE_K: &str = "
    03000000 0300000000000000 0100000000000000 0100000000000000
    04000000 0000000000000000 0100000000000000 0200000000000000 0400000000000000
    02000000 0200000000000000 0300000000000000
    01000000 0500000000000000
    08000000 0000000000000000 0100000000000000 0400000000000000 0500000000000000
             1000000000000000 1100000000000000 1400000000000000 1500000000000000
    04000000 0200000000000000 0400000000000000 1600000000000000 1000000000000000
    01000000 0100000000000000";

pub fn comparisons(library: &dyn Library) -> Vec<Comparison> {
    vec![
        case(library, "case G of table A, written", of_case_f(), &[0, 3], CASE_G),
        case(library, "case H of table A, written", of_case_h(), &[0, 3], CASE_H),
        case(library, "case K of table A, written", of_case_k(), &[5], CASE_K),
    ]
}

fn case(
    library: &dyn Library,
    name: &'static str,
    run: Run,
    queries: &[u64],
    text: &str,
) -> Comparison {
    let call = write_call(Judging { run, queries: queries.to_vec() });
    let due = bytes_of(text);
    compare(
        name,
        [Fixed(call)],
        PAPER_AND_LIBRARY,
        |Fixed(call)| {
            after(call, |outputs| {
                outputs.bytes().copy_from_slice(&due);
                done()
            })
        },
        |Fixed(call)| after_safe(library, call),
    )
}

/// The bytes of a text in hexadecimal.
fn bytes_of(text: &str) -> Vec<u8> {
    let digits: Vec<u8> = text.chars().filter_map(|c| c.to_digit(16)).map(|d| d as u8).collect();
    digits.chunks(2).map(|two| 16 * two[0] + two[1]).collect()
}
