//! Lists of an input: how they are shown, and how they are made smaller.

use super::Show;
use std::ops::Range;

// Showing lists.

/// How much of a list is shown: the rest can be had from the seed.
const SHOWN: usize = 40;

/// The list with a run of equal ones shown once, cut off when it gets long.
pub fn show_list(list: impl IntoIterator<Item = String>) -> String {
    let mut runs: Vec<(String, usize)> = Vec::new();
    for one in list {
        match runs.last_mut() {
            Some((last, times)) if *last == one => *times += 1,
            _ => runs.push((one, 1)),
        }
    }
    if runs.is_empty() {
        return "nothing".to_string();
    }
    let hidden: usize = runs.iter().skip(SHOWN).map(|(_, times)| times).sum();
    let shown: Vec<String> = runs.iter().take(SHOWN).map(show_run).collect();
    let shown = shown.join(", ");
    if hidden == 0 {
        shown
    } else {
        format!("{shown} and {hidden} more")
    }
}

fn show_run((one, times): &(String, usize)) -> String {
    if *times == 1 {
        one.clone()
    } else {
        format!("{one} ({times} times)")
    }
}

/// The numbers as such a list.
pub fn show_elements(numbers: &[u64]) -> String {
    show_list(numbers.iter().map(Show::show))
}

// Making lists smaller. Of a large input only a few large changes are tried, since each trial
// costs much.

/// Inputs up to this dimension are small.
const SMALL_K: usize = 6;

/// Up to so many numbers of a list are made smaller one by one.
const FEW_NUMBERS: usize = 8;

/// Whether an input of this dimension is small.
pub fn is_small(k: usize) -> bool {
    k <= SMALL_K
}

/// Places of a basis to leave out: the one half, the other half, and single ones.
pub fn left_out(k: usize) -> Vec<Range<usize>> {
    let single = (0..k).filter(|&place| is_small(k) || place == 0 || place + 1 == k);
    let halves = [k / 2..k, 0..k / 2].into_iter();
    halves.chain(single.map(|place| place..place + 1)).collect()
}

/// The length that differs from `now` as the old one did from `before`; one that is far too short
/// stays as it was if it can.
pub fn fitted(length: usize, before: usize, now: usize) -> usize {
    let differing = (length + now).checked_sub(before);
    differing.unwrap_or(length.min(now))
}

/// Shorter lists, and then lists with fewer numbers that are not zero.
pub fn simpler_lists(list: &[u64], small: bool) -> Vec<Vec<u64>> {
    let length = list.len();
    let shorter: &[usize] =
        if small { &[0, 1, length / 2, length.saturating_sub(1)] } else { &[0, 1, 2] };
    let cut = |&length: &usize| list.iter().take(length).copied().collect();
    let mut all: Vec<Vec<u64>> = shorter.iter().map(cut).collect();
    let places = places(list);
    let half = if small { places.len() / 2 } else { places.len().saturating_sub(1) };
    for kept in [&places[..0], &places[..places.len() - half], &places[half..]] {
        let keep = |place| if kept.contains(&place) { list[place] } else { 0 };
        all.push((0..length).map(keep).collect());
    }
    if small && places.len() <= FEW_NUMBERS {
        all.extend(with_one_smaller(list));
    }
    all
}

/// The basis that is simplest among independent ones, zeros, and bases with one element smaller.
pub fn simpler_bases(basis: &[u64], small: bool) -> Vec<Vec<u64>> {
    let power_or_zero = |place| 1u64.checked_shl(place as u32).unwrap_or(0);
    let powers = (0..basis.len()).map(power_or_zero).collect();
    let mut all = vec![powers, vec![0; basis.len()]];
    if small {
        all.extend(with_one_smaller(basis));
    }
    all
}

/// The places of the numbers that are not zero.
fn places(numbers: &[u64]) -> Vec<usize> {
    (0..numbers.len()).filter(|&place| numbers[place] != 0).collect()
}

/// The lists with one number smaller.
fn with_one_smaller(numbers: &[u64]) -> Vec<Vec<u64>> {
    let mut all = Vec::new();
    for place in places(numbers) {
        for number in simpler_numbers(numbers[place], true) {
            let mut simpler = numbers.to_vec();
            simpler[place] = number;
            all.push(simpler);
        }
    }
    all
}

/// A few numbers to try for one, of a large input zero alone.
pub fn simpler_numbers(number: u64, small: bool) -> Vec<u64> {
    if number == 0 || !small {
        return vec![0];
    }
    let lowest = number & number.wrapping_neg();
    let highest = 1 << number.ilog2();
    let shorter = [number & (u64::MAX >> 32), number >> 32, number >> 1].into_iter();
    let fewer = [0, 1, lowest, highest, number & !lowest, number & !highest].into_iter();
    fewer.chain(shorter).collect()
}

#[cfg(test)]
mod tests {
    use super::*;

    #[test]
    fn a_list_is_shown_in_runs_and_cut_off() {
        assert_eq!(show_elements(&[]), "nothing");
        assert_eq!(show_elements(&[7, 0xff, 0, 0]), "7, ff, 0 (2 times)");
        let long: Vec<u64> = (0..100).chain([5; 7]).collect();
        let shown = show_elements(&long);
        assert!(shown.starts_with("0, 1, 2, ") && shown.ends_with(", 26, 27 and 67 more"));
        assert!(show_elements(&long[..SHOWN]).ends_with(", 27"));
    }

    #[test]
    fn a_length_fits_as_before() {
        // Right, too long, too short, and far too short; a length that is due may also grow.
        let fitted_to_4 = [16, 17, 15, 7, 0].map(|length| fitted(length, 16, 4));
        assert_eq!(fitted_to_4, [4, 5, 3, 4, 0]);
        assert_eq!([4, 5, 0].map(|length| fitted(length, 4, 8)), [8, 9, 4]);
    }
}
