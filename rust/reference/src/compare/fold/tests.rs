use super::*;
use crate::answer::{done, refused, NONE};
use crate::compare::operation::Reference;
use crate::compare::reed_solomon::{ENCODE, INTERPOLATE};
use crate::compare::wrong::{
    alike, and_then, answering, changing, dependent, differing, first_of_all, hold_table,
    lower_halves, not_writing, raw_alone, refusing, right_library, row, shared_rows, taking,
    when_refused, with_16, with_points_from_0, Others, Row, Wrong,
};
use crate::coset::point;
use crate::polynomial::interpolant;

/// Few and small enough to run without optimisation.
const FEW: Amounts = Amounts {
    folds: [0, 0, 21, 21, 7, 0, 0, 1, 0, 0, 0, 0, 0],
    whole: &[4],
    sampled: &[4],
    all_ones: [0, 0, 2, 2, 0, 0, 0, 0, 0, 0, 0, 0, 0],
    at_points: [0, 0, 2, 2, 1, 0, 0, 0, 0, 0, 0, 0, 0],
    low_degrees: [0, 0, 2, 2, 2, 0, 0, 0, 0, 0, 0, 0, 0],
    in_two: [0, 0, 0, 12, 7, 0, 0, 0, 0, 0, 0, 0, 0],
    sums: [0, 0, 4, 4, 4, 0, 0, 0, 0, 0, 0, 0, 0],
    challenges: 10,
    refused: refused::Amounts {
        out_of_range: &[1, 0, 22, 32, 37, 64, 69, 261],
        dimensions: &[2, 3, 4],
        too_small: 20,
        several_lists: 4,
        largest_dependent: 4,
        several_causes: 3,
        most_causes: usize::MAX,
        every_sort: (&[2, 3, 4], 2),
    },
};

// The comparisons that a mistake of one sort shows in.

const BELOW: &str = "k below the step";
const SAFE: &str = "fold, safe calls";
const DAMAGED: &str = "k out of range and damaged";
const K_OUT: &str = "fold, k out of range";
const SEVERAL: &str = "several causes";

const RIGHT: &[&str] =
    &[STEP_1, STEP_2, STEP_3, LARGE_1, LARGE_2, LARGE_3, WHOLE, SAMPLED, ALL_ONES];
const SMALL: &[&str] = &[STEP_1, STEP_2, STEP_3];
const IN_TWO: &[&str] = &[TWICE, ONE_THEN_TWO, TWO_THEN_ONE];
const CASES: &[&str] = &[CASE_D, CASE_F, CASE_J, FIRST_OF_K, SECOND_OF_K];

/// All comparisons with a dependent basis.
const DEPENDENT: &[&str] = &[
    "zero in the basis",
    "a repeated basis element",
    "a sum of earlier basis elements",
    "a basis dependent at two places",
    SAFE,
    CASE_M,
];

const OTHERS: Others = Others { right: RIGHT, safely: CASES, dependent: &[CASE_M], unsaid: IN_TWO };

/// Right but for the entries.
fn with_entries(entry: fn(&Call, usize) -> u64) -> Wrong {
    and_then(move |call, outputs| {
        for (j, value) in outputs.first().iter_mut().enumerate() {
            *value = entry(call, j);
        }
    })
}

/// Right but for the next offset.
fn with_next_offset(offset: fn(&Call) -> u64) -> Wrong {
    answering(move |call, answer| Answer { value: answer.value.map(|_| offset(call)), ..answer })
}

/// Lagrange's interpolant through the points and entries of these indices, at the challenge.
fn at_challenge(call: &Call, points: &[usize], entries: &[usize]) -> u64 {
    let point_at = |&index: &usize| point(call[Offset], &call[Basis], index as u64);
    let points: Vec<u64> = points.iter().map(point_at).collect();
    let word: Vec<u64> = entries.iter().map(|&index| call[Given][index]).collect();
    value(&interpolant(&points, &word), call[Challenge])
}

fn coset_of(call: &Call, j: usize) -> Vec<usize> {
    (j << call[Step]..(j + 1) << call[Step]).collect()
}

fn half_the_length_away(call: &Call, j: usize) -> u64 {
    let apart = call[Output].len();
    let indices: Vec<usize> = (0..1 << call[Step]).map(|i| j + i * apart).collect();
    at_challenge(call, &indices, &indices)
}

fn from_behind(call: &Call, j: usize) -> u64 {
    let coset = coset_of(call, j);
    let reversed: Vec<usize> = coset.iter().rev().copied().collect();
    at_challenge(call, &reversed, &coset)
}

fn zero_at_points(call: &Call, j: usize) -> u64 {
    let point_at = |index| point(call[Offset], &call[Basis], index as u64);
    let holds = coset_of(call, j).into_iter().any(|index| point_at(index) == call[Challenge]);
    if holds {
        0
    } else {
        fold::entry(given(call), j)
    }
}

fn wrong_folds() -> Vec<Row<Wrong>> {
    let another_exceptional = changing(|call| {
        if call[Challenge] == 1 << 40 {
            call[Challenge] = 2;
        }
    });
    vec![
        row("entries are paired as in multiplicative FRI", with_entries(half_the_length_away))
            .differs(&[RIGHT, IN_TWO, &[AT_POINTS, LOW_DEGREES, FIRST_OF_K]].concat())
            .agrees(&[SUMS])
            .smallest(STEP_1, "challenge 0; basis: 1, 2; list 3: 0 (2 times), 1, 0;"),
        // The cosets of cases F, J and of the first fold of K have just these points.
        row("the points are 0, 1, 2 and so on", with_points_from_0())
            .differs(&[RIGHT, &[AT_POINTS, SAFE, CASE_D, SECOND_OF_K]].concat())
            .agrees(&[SUMS, CASE_F, CASE_J, FIRST_OF_K]),
        // A shift of all points leaves degrees, sums and folds in two as they are.
        row("the offset is ignored", changing(|call| call[Offset] = 0))
            .differs(&[RIGHT, &[AT_POINTS, SAFE, CASE_D]].concat())
            .smallest(STEP_1, "k 2; step 1; offset 1; challenge 0; basis: 2, 1; list 3: 0 (4"),
        row("a coset is taken from behind", with_entries(from_behind))
            .differs(&[RIGHT, &[AT_POINTS, SAFE, CASE_F, CASE_J]].concat())
            .agrees(&[SUMS, CASE_D]),
        row("a coset that holds the challenge folds to zero", with_entries(zero_at_points))
            .differs(&[SMALL, &[AT_POINTS]].concat())
            .agrees(&[SUMS])
            .smallest(AT_POINTS, "k 2; step 1; offset 0; "),
        row("the step is ignored", and_then(with_step_1))
            .differs(&[&[STEP_2, STEP_3, LARGE_2, LARGE_3], IN_TWO].concat())
            .agrees(&[STEP_1, LARGE_1, ALL_ONES]),
        row("the challenge is ignored", changing(|call| call[Challenge] = 0))
            .differs(&[RIGHT, &[AT_POINTS, SAFE, CASE_F, CASE_J]].concat())
            .agrees(&[SUMS, CASE_D])
            .smallest(STEP_1, "challenge 1; basis: 1, 2; list 3: 0 (3 times), 1;"),
        row("the top bit of the challenge is lost", changing(|call| call[Challenge] &= !(1 << 63)))
            .differs(&[STEP_1])
            .among_others()
            .smallest(STEP_1, "challenge 8000000000000000; "),
        row("another challenge is exceptional", another_exceptional).differs(&[CASE_J_ALL]),
        row("a number is added to the first entry", and_then(|_, outputs| outputs.first()[0] ^= 1))
            .differs(&[RIGHT, &[AT_POINTS, SUMS, SAFE]].concat())
            .among_others()
            .smallest(SUMS, "; with nothing"),
        row(
            "only the lower half of the word is folded",
            changing(|call| call[Given] = lower_halves(&call[Given])),
        )
        .differs(&[RIGHT, &[AT_POINTS]].concat())
        .agrees(&[CASES, &[SUMS]].concat())
        .smallest(STEP_1, "list 3: 0 (2 times), 100000000, 0;"),
    ]
}

/// Folds with step 1 whatever the step is, and writes what there is room for.
fn with_step_1(call: &Call, outputs: &mut Outputs) {
    let left = call.k() as usize - 1;
    let Ok(folded) = fold::fold(Fold { step: 1, ..given(call) }, 1 << left, left) else {
        return;
    };
    let [values, next_basis] = outputs.lists();
    values.copy_from_slice(&folded.values[..values.len()]);
    next_basis.copy_from_slice(&folded.next.basis[..next_basis.len()]);
}

/// The product over the basis elements alone; with step 1 nothing else is in the span.
fn wrong_image(call: &Call, x: u64) -> u64 {
    let spanning = call[Basis][..call[Step] as usize].iter().chain([&0]);
    spanning.fold(1, |product, b| field::product(product, x ^ b))
}

/// The next basis is the rest of the old one.
pub(super) fn keeping_the_basis() -> Wrong {
    and_then(|call, outputs| {
        let [_, next_basis] = outputs.lists();
        next_basis.copy_from_slice(&call[Basis][call[Step] as usize..])
    })
}

fn wrong_cosets() -> Vec<Row<Wrong>> {
    let vanishing_at_the_basis = alike(|call, outputs| {
        let answer = Reference.safe(call, outputs);
        let Some(_) = answer.value else {
            return answer;
        };
        let [_, next_basis] = outputs.lists();
        let rest = &call[Basis][call[Step] as usize..];
        for (next, &b) in next_basis.iter_mut().zip(rest) {
            *next = wrong_image(call, b);
        }
        went_well(wrong_image(call, call[Offset]))
    });
    let none_for_all_ones = answering(|_, answer| {
        let value = answer.value.filter(|&value| value != NONE);
        Answer { value, ..answer }
    });
    let zero_for_all_ones = raw_alone(|call, outputs, answer| {
        Reference.raw(call, outputs, answer);
        if answer.len() == 5 && answer[0] == 0 && answer[4] == NONE {
            answer[4] = 0;
        }
    });
    vec![
        row("the next offset forgets the offset", with_next_offset(|_| 0))
            .differs(&[RIGHT, IN_TWO, &[SAFE, CASE_D]].concat()),
        row("the next offset is the offset", with_next_offset(|call| call[Offset]))
            .differs(&[RIGHT, IN_TWO, &[SAFE, CASE_D]].concat()),
        row("the next basis is the rest of the old one", keeping_the_basis())
            .differs(&[RIGHT, CASES, &[LOW_DEGREES]].concat())
            .agrees(&[AT_POINTS, SUMS]),
        row("q vanishes at the basis elements alone", vanishing_at_the_basis)
            .differs(&[&[STEP_2, STEP_3], IN_TWO].concat())
            .agrees(&[STEP_1]),
        // As a raw number all ones may be a value or stand for none.
        row("a next offset of all ones is taken for none", none_for_all_ones).differs(&[SAFE]),
        row("a next offset of all ones is written as zero", zero_for_all_ones).differs(&[ALL_ONES]),
        // The degree is that of a shifted polynomial, so that nothing shows.
        row("encoding is over a shifted coset", changing(|call| call[Offset] ^= 1).of(&ENCODE)),
        row(
            "a degree shows a wrong code",
            and_then(|_, outputs| outputs.first()[0] ^= 1).of(&ENCODE),
        )
        .differs(&[LOW_DEGREES]),
        row("nothing is interpolated", first_of_all(|_| Some(refused(4))).of(&INTERPOLATE))
            .differs(&[LOW_DEGREES]),
    ]
}

fn wrong_writing() -> Vec<Row<Wrong>> {
    let dependent = |call: &Call| call.refusal().is_some_and(|refusal| refusal.number == 8);
    let too_late = when_refused(move |call, outputs| {
        if dependent(call) {
            outputs.first().fill(0)
        }
    });
    let from_another = when_refused(move |call, outputs| {
        let [values, next_basis] = outputs.lists();
        if let (true, Some(first)) = (dependent(call), next_basis.first_mut()) {
            *first = values[0];
        }
    });
    let smallest = "k 2; step 1; offset 0; challenge 0; basis: 1, 2; list 3: 0 (4 times);";
    let properties = &[AT_POINTS, LOW_DEGREES, SUMS, SAFE, CASE_J_ALL];
    vec![
        row("the last value is not written", not_writing(0, |place, _, length| place + 1 < length))
            .differs(&[RIGHT, IN_TWO, CASES, properties].concat())
            .smallest(STEP_2, smallest),
        // A dimension equal to the step leaves no basis to write.
        row("the next basis is not written", not_writing(1, |_, _, _| false))
            .differs(&[RIGHT, IN_TWO, CASES, &[SAFE]].concat())
            .agrees(&[AT_POINTS, CASE_J_ALL])
            .smallest(STEP_2, smallest),
        row("zeros are not written", not_writing(0, |_, number, _| number != 0))
            .differs(&[SMALL, &[AT_POINTS, CASE_J]].concat())
            .agrees(&[CASE_F]),
        row("the basis is tested too late", too_late).differs(DEPENDENT),
        // The lists are filled from numbers far apart.
        row("a list is filled from another", from_another).differs(DEPENDENT),
    ]
}

fn wrong_ranges() -> Vec<Row<Wrong>> {
    let testing_the_first = |otherwise: Answer| {
        refusing(8, move |call, _| {
            dependent(&call[Basis][..call[Step] as usize]).unwrap_or(otherwise)
        })
    };
    let taking = |k| taking(4, move |call| call.k() == k);
    vec![
        row("only the spanning elements are tested", testing_the_first(done())).differs(DEPENDENT),
        // With 16, a later layer's basis is dependent, which is retired.
        row("the next basis is tested instead", testing_the_first(with_16())).differs(DEPENDENT),
        row("dimension 0 is taken", taking(0)).differs(&[DAMAGED]),
        row("dimension 1 is taken", taking(1)).differs(&[DAMAGED, K_OUT, SEVERAL]),
        row("dimension 21 is taken", taking(21)).differs(&[SAFE]).smallest(
            SAFE,
            "k 21; step 0; offset 0; challenge 0; basis: nothing; list 3: nothing;",
        ),
        row("step 3 is refused", first_of_all(|call| (call[Step] == 3).then(|| refused(6))))
            .differs(&[STEP_3, BELOW])
            .agrees(&[STEP_1, STEP_2]),
        row(
            "a dimension equal to the step is refused",
            first_of_all(|call| {
                let equal = call.k() == call[Step] && (2..=3).contains(&call.k());
                equal.then(|| refused(7))
            }),
        )
        .differs(&[STEP_2, STEP_3])
        .agrees(&[STEP_1])
        .smallest(STEP_2, "k 2; step 2; offset 0; "),
    ]
}

#[test]
fn wrong_libraries_differ_as_they_should() {
    let all = [
        shared_rows(&FOLD, &OTHERS),
        wrong_folds(),
        wrong_cosets(),
        wrong_writing(),
        wrong_ranges(),
    ];
    let rows: Vec<Row<Wrong>> = all.into_iter().flatten().map(|row| row.of(&FOLD)).collect();
    hold_table(&right_library(), &rows, |library| comparisons(library, &FEW));
}

// Large folds.

/// Wrong in the last entry from a dimension on.
fn wrong_from(k: u64) -> Wrong {
    and_then(move |call, outputs| {
        if call.k() >= k {
            *outputs.first().last_mut().expect("an entry") ^= 1;
        }
    })
}

/// With dimension 10 some entries are left out on both sides.
#[test]
fn only_large_folds_are_wrong() {
    let large = Amounts { whole: &[8], sampled: &[10], ..FEW };
    for (k, due) in [
        (11, &[][..]),
        (10, &[SAMPLED]),
        (8, &[WHOLE, SAMPLED]),
        (7, &[LARGE_1, LARGE_2, LARGE_3, WHOLE, SAMPLED]),
    ] {
        assert_eq!(differing(&comparisons(&wrong_from(k), &large)), due);
    }
}

#[test]
fn samples_lie_far_apart() {
    let sampled = |length: usize| -> Vec<usize> {
        (0..length).filter(|&place| is_sampled(place, length)).collect()
    };
    assert_eq!(sampled(8), [0, 1, 2, 3, 4, 5, 6, 7]);
    let many = sampled(1 << 19);
    assert_eq!(many[..3], [0, 1_025, 2_050]);
    assert_eq!(many.last(), Some(&((1 << 19) - 1)));
    assert!(many.len() > 500 && many.len() < 520);
}
