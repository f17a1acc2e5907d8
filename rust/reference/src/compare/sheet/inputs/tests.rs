//! What the sorts of their own hold.

use super::*;
use crate::compare::sheet::{FULL, LONGEST_SHEET};
use crate::protocol::{checks, Check};
use crate::sheet::LINE_LENGTH;
use crate::transcript::{judge, judge_of_program};

fn all_checks(Judging { run, queries }: &Judging) -> Vec<Check> {
    checks(run, queries)
}

/// Whether each of the checks fails.
fn failing(judging: &Judging) -> Vec<bool> {
    all_checks(judging).iter().map(|check| !check.passes()).collect()
}

/// Up to six rounds, each step, and 1, 2 and 4 last coefficients.
const SMALL: Amounts = Amounts { damaged: 7, ..FULL };

fn of_sort(name: &str) -> Vec<Judging> {
    let (name, judgings) = OWN.iter().find(|sort| sort.0 == name).expect("a sort of this name");
    judgings(&mut Random::named(name), &SMALL)
}

#[test]
fn all_steps_and_all_numbers_of_last_coefficients_are_damaged() {
    let met: BTreeSet<(u64, usize)> = of_sort("many entries damaged")
        .iter()
        .map(|Judging { run, .. }| (run.parameters.step, run.last.len()))
        .collect();
    assert!(met.into_iter().eq([(1, 1), (2, 1), (2, 2), (3, 1), (3, 2), (3, 4)]));
}

/// Layer i shows in rounds i - 1 and i, and the last coefficients in the last round alone.
#[test]
fn a_damaged_layer_shows_beside_it_alone() {
    let judgings = of_sort("one layer or challenge damaged");
    let mut met = BTreeSet::new();
    for judging in &judgings {
        let failing = all_checks(judging).into_iter().filter(|check| !check.passes());
        let rounds: BTreeSet<u64> = failing.map(|check| check.round).collect();
        let (first, last) = (rounds.first().copied(), rounds.last().copied());
        assert!(rounds.len() <= 2 && last <= first.map(|round| round + 1), "{rounds:?}");
        met.extend(first.map(|first| (judging.run.parameters.rounds(), first, rounds.len())));
    }
    for due in [(1, 0, 1), (4, 0, 1), (4, 0, 2), (4, 2, 2), (4, 3, 1), (6, 5, 1)] {
        assert!(met.contains(&due), "{due:?}");
    }
}

/// There are checks that pass behind those that fail, and checks that fail behind those.
#[test]
fn many_checks_fail_among_others() {
    let mixed = |judging: &Judging| {
        let failing = failing(judging);
        let changes = failing.windows(2).filter(|two| two[0] != two[1]).count();
        failing.iter().filter(|&&fails| fails).count() > 4 && changes > 4
    };
    let judgings = of_sort("many entries damaged");
    let count = judgings.iter().filter(|judging| mixed(judging)).count();
    assert!(3 * count > judgings.len(), "{count} of {}", judgings.len());
}

/// But where the challenge is another point of the coset, so that the entry does not count.
#[test]
fn the_last_query_alone_fails() {
    let judgings = of_sort("damage that the last query alone meets");
    let mut met = 0;
    for judging in &judgings {
        let last = judging.queries.len() as u64 - 1;
        let all = all_checks(judging);
        let failing: Vec<&Check> = all.iter().filter(|check| !check.passes()).collect();
        assert!(last > 0 && failing.iter().all(|check| check.query == last));
        met += usize::from(!failing.is_empty());
    }
    assert!(4 * met > 3 * judgings.len(), "{met} of {}", judgings.len());
}

/// Every number of digits, and most of the digits at each place, in both columns.
#[test]
fn values_have_every_digit() {
    let all: Vec<Check> = of_sort("values of every width").iter().flat_map(all_checks).collect();
    for column in [|check: &Check| check.computed, |check: &Check| check.found] {
        let leading = |check: &Check| column(check).leading_zeros() / 4;
        let widths: BTreeSet<u32> = all.iter().map(leading).collect();
        assert!(widths.into_iter().eq(0..=16));
        let digits = |check| (0..16).map(move |place| (place, (column(check) >> (4 * place)) & 15));
        let digits: BTreeSet<(u32, u64)> = all.iter().flat_map(digits).collect();
        assert!(digits.len() > 16 * 8, "{}", digits.len());
    }
    assert!(all.iter().any(|check| !check.passes()));
}

/// Up to ten of the program, and up to nineteen of the library.
#[test]
fn every_number_of_rounds_is_there() {
    let few = with_all_rounds(FULL.rounds).into_iter();
    let all = few.chain(FULL.longest.iter().copied().map(with));
    let rounds = |step| {
        let of_step = all.clone().filter(move |parameters| parameters.step == step);
        of_step.map(|parameters| parameters.rounds()).collect::<BTreeSet<u64>>()
    };
    assert!(rounds(1).into_iter().eq(1..=19));
    assert!(rounds(2).into_iter().eq(1..=6) && rounds(3).into_iter().eq(1..=4));
}

/// The longest that the program prints, and the longest that there is.
#[test]
fn the_longest_sheets_are_there() {
    let lines = |setting| with(setting).rounds() as usize * MOST;
    assert_eq!([lines([11, 1, 1]), lines([20, 1, 1])], [2_560, 4_864]);
    assert!([[11, 1, 1], [20, 1, 1]].iter().all(|setting| FULL.longest.contains(setting)));
    assert_eq!([lines([20, 1, 1]) * LINE_LENGTH, LONGEST_SHEET as usize], [272_384; 2]);
    let random = &mut Random::named("queries of every width");
    let queries = with_indices_of_every_width(random, with([20, 1, 1]));
    let digits: BTreeSet<usize> = queries.iter().map(|query| query.to_string().len()).collect();
    assert!(queries.len() == MOST && digits.into_iter().eq(1..=7));
    assert!(queries.contains(&0) && queries.contains(&1_048_575));
}

#[test]
fn the_program_takes_two_of_three_that_are_near_its_limit() {
    let bytes = of(of_sort("nearly too long for the program"));
    let lengths: Vec<usize> = bytes.iter().map(Bytes::len).collect();
    assert_eq!(lengths, [65_532, 65_532, 65_536, 65_536, 65_540, 65_540]);
    let number = |bytes: &Bytes| [judge(bytes).number, judge_of_program(bytes).number];
    let due = [[0, 0], [11, 11], [0, 0], [11, 11], [0, 14], [11, 14]];
    assert!(bytes.iter().map(number).eq(due));
}
