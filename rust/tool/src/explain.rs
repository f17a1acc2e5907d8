//! Verdicts in words, and what an operator or a caller does next, as docs/NUMBERS.md and
//! docs/CALLERS.md have it.

use crate::lines::Verdict;
use razgwilh::Cause;

const NUMBERS: &str = include_str!("../../../docs/NUMBERS.md");
const CALLERS: &str = include_str!("../../../docs/CALLERS.md");

/// What an operator does next after an acceptance.
const AFTER_ACCEPTANCE: &str =
    "Before settling, compare sections 1 to 4 of the file with what was agreed and drawn: the \
     judge takes parameters, offset, basis, challenges and queries as the file has them. See also \
     that each layer is the one that was fixed before its challenge was drawn, and that no judging \
     of the same layers was refused with 11 (a round check fails): entries that no query reads may \
     hold anything.";

/// Number and cause in words, and what to do next: two indented lines, without the last one's
/// end.
pub fn text(verdict: &Verdict) -> String {
    match verdict {
        Ok(_) => format!("    number 0: accepted\n    {AFTER_ACCEPTANCE}"),
        Err(refusal) => format!("    {refusal}\n    {}", after_refusal(refusal.cause)),
    }
}

/// What an operator does next after a refusal.
pub fn after_refusal(cause: Cause) -> &'static str {
    // The library may add a cause that has no row yet.
    documented(cause).unwrap_or("Hold.")
}

/// The same in the tables of numbers, behind number, cause, place and round.
fn documented(cause: Cause) -> Option<&'static str> {
    let front = format!("| {} | {} |", cause.number(), cause.words());
    let rest = NUMBERS.lines().chain(CALLERS.lines()).find_map(|line| line.strip_prefix(&front))?;
    rest.split('|').nth(2).map(str::trim)
}

#[cfg(test)]
mod tests {
    use super::*;

    #[test]
    fn every_cause_has_its_next_step() {
        for cause in Cause::ALL {
            let next = documented(*cause).unwrap_or_else(|| panic!("no row for {cause}"));
            assert!(next.starts_with("Hold") || next.starts_with("Nothing to settle"), "{cause}");
            assert!(next.ends_with('.'), "{cause}");
        }
    }

    #[test]
    fn what_follows_an_acceptance_is_documented() {
        let words = NUMBERS.split_whitespace().collect::<Vec<_>>().join(" ");
        assert!(words.contains(AFTER_ACCEPTANCE));
    }
}
