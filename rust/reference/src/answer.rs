//! What an operation answers, as the reference expects it.

/// What an operation answers: `number` is 0 when it went well, else that of the cause.
#[derive(Clone, Copy, Debug, PartialEq, Eq)]
pub struct Answer {
    /// 0 when it went well, else the number of the cause.
    pub number: u64,
    /// A section, a basis place, a query, a degree or a list, as the number has it.
    pub place: Option<u64>,
    /// The round, with number 11.
    pub round: Option<u64>,
    /// How many entries a judge read.
    pub reads: u64,
    /// What the operation gives, where it gives a number.
    pub value: Option<u64>,
}

/// What the C interface writes for a place, round or value there is none of.
pub const NONE: u64 = u64::MAX;
/// The length that the list of an answer must have.
pub const ANSWER_LENGTH: usize = 5;

// The numbers of the causes.

/// Bytes end in a count or in its entries.
pub const BYTES_END: u64 = 1;
/// A count differs from the one due.
pub const WRONG_COUNT: u64 = 2;
/// Bytes stand after the last section.
pub const BYTES_FOLLOW: u64 = 3;
/// A dimension is out of range.
pub const K_OUT_OF_RANGE: u64 = 4;
/// A rate is out of range.
pub const RATE_OUT_OF_RANGE: u64 = 5;
/// A step is out of range.
pub const STEP_OUT_OF_RANGE: u64 = 6;
/// A dimension is below rate plus step, or, in a lone fold, below the step.
pub const K_TOO_SMALL: u64 = 7;
/// A basis element lies in the span of earlier ones.
pub const DEPENDENT_BASIS: u64 = 8;
/// There is no query, or there are too many.
pub const WRONG_QUERY_COUNT: u64 = 9;
/// A query index is not below the length of the word.
pub const QUERY_OUT_OF_RANGE: u64 = 10;
/// A round check fails.
pub const ROUND_CHECK_FAILS: u64 = 11;
/// A prover's last layer has too high a degree.
pub const DEGREE_TOO_HIGH: u64 = 12;
/// A lent list has the wrong length.
pub const WRONG_LENGTH: u64 = 13;
/// There are more bytes than the program takes.
pub const INPUT_TOO_LONG: u64 = 14;
/// Two queries share a first-layer coset.
pub const COSET_SHARED: u64 = 17;

/// Numbers that had a cause once and are not used again: 15 was the inverse of zero, and 16 was
/// that a later layer's basis is dependent.
pub const RETIRED: [u64; 2] = [15, 16];

/// Whether a number has a cause.
pub fn has_cause(number: u64) -> bool {
    (BYTES_END..=COSET_SHARED).contains(&number) && !RETIRED.contains(&number)
}

// Answers.

/// The answer of an operation that went well and gives no element.
pub fn done() -> Answer {
    Answer { number: 0, place: None, round: None, reads: 0, value: None }
}

/// The answer of an operation that went well and gives one value.
pub fn went_well(value: u64) -> Answer {
    Answer { value: Some(value), ..done() }
}

/// The answer of a judge that accepts.
pub fn accepted(reads: u64) -> Answer {
    Answer { reads, ..done() }
}

/// The answer that carries nothing but the number of its cause. Every refusal is made here, so
/// none has a retired number.
pub fn refused(number: u64) -> Answer {
    assert!(!RETIRED.contains(&number), "number {number} is retired");
    Answer { number, ..done() }
}

/// The answer that carries the number of its cause and a place: a section, a list, the place of
/// a basis element, a query or a degree.
pub fn refused_at(number: u64, place: u64) -> Answer {
    Answer { place: Some(place), ..refused(number) }
}

/// The answer of a judge that a round check fails for.
pub fn failed(query: u64, round: u64, reads: u64) -> Answer {
    Answer { place: Some(query), round: Some(round), reads, ..refused(ROUND_CHECK_FAILS) }
}

/// The five numbers that the C interface writes for an answer.
pub fn raw(answer: &Answer) -> [u64; ANSWER_LENGTH] {
    [
        answer.number,
        answer.place.unwrap_or(NONE),
        answer.round.unwrap_or(NONE),
        answer.reads,
        answer.value.unwrap_or(NONE),
    ]
}

#[cfg(test)]
mod tests {
    use super::*;

    #[test]
    #[should_panic(expected = "number 15 is retired")]
    fn nothing_is_refused_with_15() {
        refused_at(15, 0);
    }

    #[test]
    #[should_panic(expected = "number 16 is retired")]
    fn nothing_is_refused_with_16() {
        refused(16);
    }
}
