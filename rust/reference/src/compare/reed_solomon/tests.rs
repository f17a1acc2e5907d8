use super::damaged::{ABOVE, CAUSES, DEPENDENT, LENGTHS};
use super::large::BOTH_WAYS;
use super::special::{BASES, COUNTS, COUNTS_TRIP};
use super::*;
use crate::compare::wrong::{
    alike, and_then, changing, first_of_all, hold_table, is_refused, not_writing, right,
    right_library, row, shared_rows, taking, with_points_from_0, Others, Row, Wrong,
};
use crate::coset::first_dependent;

/// Few and small enough to run without optimisation.
const FEW: Amounts = Amounts {
    encodings: [5, 15, 15, 15, 5, 0, 0, 1, 0, 0, 0, 0, 0, 0, 0],
    interpolations: [5, 15, 15, 15, 5, 0, 0, 1, 0, 0, 0, 0, 0, 0, 0],
    round_trips: [5, 15, 15, 5, 0, 0, 0, 0, 0, 0, 0, 0, 0, 0, 0],
    refused: refused::Amounts {
        out_of_range: &[21, 32, 44, 64, 268],
        dimensions: &[0, 1, 2, 3, 4],
        too_small: 0,
        several_lists: 200,
        largest_dependent: 4,
        several_causes: 3,
        most_causes: usize::MAX,
        every_sort: (&[0, 1, 2, 3, 4], 5),
    },
    special: special::Amounts {
        bases: [0, 0, 7, 28, 7, 0, 0, 0, 0, 0, 0, 0, 0, 0, 0],
        counts: &[(2, 4), (3, 4)],
    },
    large: &[(2, 5), (5, 1)],
    damaged: damaged::Amounts { dimensions: 2..=4, lists_above: &[0, 1, 5] },
};

// The comparisons that a mistake of one sort shows in, of both operations or of one.

const SMALL: &str = "k 0 to 6";
const LARGE: &str = "k 7 to 14";
const SAFE: &str = "safe calls";
const ENCODE_SMALL: &str = "encode, k 0 to 6";
const ENCODE_LARGE: &str = "encode, k 7 to 14";
const ENCODE_SAFE: &str = "encode, safe calls";
const ENCODE_BOTH_WAYS: &str = "encode, k 15 to 20, at points by Horner, and back";
const ENCODE_BASES: &str = "encode, bases of special forms";
const INTERPOLATE_SMALL: &str = "interpolate, k 0 to 6";
const INTERPOLATE_BASES: &str = "interpolate, bases of special forms";

/// Those of refused calls of large dimensions.
const DAMAGED: &[&str] = &[ABOVE, LENGTHS, DEPENDENT, CAUSES];

const OF_ENCODE: Others = Others {
    right: &[ENCODE_SMALL, ENCODE_LARGE, ENCODE_BASES, COUNTS],
    safely: &[TRIP, OTHER_TRIP, COUNTS_TRIP, BOTH_WAYS, E_ENCODE],
    dependent: &[M_ENCODE],
    unsaid: DAMAGED,
};

const OF_INTERPOLATE: Others = Others {
    right: &[INTERPOLATE_SMALL, "interpolate, k 7 to 14", INTERPOLATE_BASES],
    safely: &[TRIP, OTHER_TRIP, COUNTS_TRIP, BOTH_WAYS, E_INTERPOLATE],
    dependent: &[M_INTERPOLATE],
    unsaid: DAMAGED,
};

/// Round trips stay silent where both directions are wrong alike.
fn rows() -> Vec<Row<Wrong>> {
    let without_the_last = changing(|call| {
        call[Given].pop();
    });
    let left_off_are_one = changing(|call| {
        let points = call[Output].len();
        call[Given].resize(points, 1)
    });
    let one_bit = and_then(|call, outputs| outputs.first()[0] ^= call[Given][0] >> 63);
    let taking_right_calls = taking(4, |call| {
        let independent = first_dependent(&call[Basis]).is_none();
        let [given, output] = [Given, Output].map(|list| call[list].len());
        independent && given > 0 && given == output && call.k() > 21
    });
    let low_places = taking(8, |call| first_dependent(&call[Basis]) > Some(2));
    let over_16 = taking(4, |call| call.k() == 21 && call[Given].len() > 16);
    let both_long = taking(13, |call| [Given, Output].iter().all(|&list| call[list].len() > 16));
    // The coset of case E has no offset.
    let cosets = &[SMALL, LARGE, SAFE, BASES, COUNTS, BOTH_WAYS];
    let all = &[&cosets[..], &[E_ENCODE, E_INTERPOLATE]].concat();
    let of_encode = [ENCODE_SMALL, ENCODE_BASES, COUNTS, COUNTS_TRIP, TRIP, ENCODE_SAFE];
    let both_ways = &[&of_encode[..], &[BOTH_WAYS, ENCODE_LARGE, OTHER_TRIP]].concat();
    let when_left_off = &[&of_encode[..], &[ENCODE_BOTH_WAYS, E_ENCODE]].concat();
    vec![
        row("the offset is ignored", changing(|call| call[Offset] = 0))
            .differs(cosets)
            .smallest(SMALL, "offset 1; basis: 1; list 3: 0, 1; list 6 of length 2;"),
        row("the points are 0, 1, 2 and so on", with_points_from_0()).differs(cosets),
        row("the points go by the bits from above", changing(|call| call[Basis].reverse()))
            .differs(all)
            .smallest(SMALL, "offset 0; basis: 1, 2; list 3: 0, 1; list 6 of length 4;"),
        row("the top bit of the offset is lost", changing(|call| call[Offset] &= u64::MAX >> 1))
            .differs(&[SMALL])
            .among_others()
            .smallest(SMALL, "offset 8000000000000000; basis: 1; list 3: 0, 1;"),
        row("the last coefficient is not encoded", without_the_last.of(&ENCODE))
            .differs(&[&both_ways[..], &[E_ENCODE]].concat())
            .smallest(ENCODE_SMALL, "offset 0; basis: nothing; list 3: 1; list 6 of length 1;"),
        row("coefficients left off are one", left_off_are_one.of(&ENCODE))
            .differs(when_left_off)
            .smallest(ENCODE_SMALL, "offset 0; basis: nothing; list 3: nothing;"),
        row("the constant comes last", alike(with_the_constant_last)).differs(all),
        row("the top bit of the first value makes the constant wrong", one_bit.of(&INTERPOLATE))
            .differs(&[INTERPOLATE_SMALL, TRIP, OTHER_TRIP])
            .among_others()
            .smallest(INTERPOLATE_SMALL, "basis: nothing; list 3: 8000000000000000;"),
        row("the last number is not written", not_writing(0, |place, _, all| place + 1 < all))
            .differs(&[&all[..], &[TRIP, OTHER_TRIP, COUNTS_TRIP]].concat())
            .smallest(INTERPOLATE_SMALL, "offset 0; basis: nothing; list 3: 0;"),
        row("zeros are not written", not_writing(0, |_, number, _| number != 0))
            .differs(&[INTERPOLATE_SMALL, TRIP, COUNTS_TRIP, E_INTERPOLATE])
            .agrees(&[E_ENCODE]),
        row(
            "fewer coefficients than points are refused",
            refusing_lengths(|given, all| given < all),
        )
        .differs(when_left_off),
        row(
            "as many coefficients as points are refused",
            refusing_lengths(|given, all| given == all),
        )
        .differs(both_ways)
        .smallest(ENCODE_SMALL, "offset 0; basis: nothing; list 3: 0; list 6 of length 1;"),
        row("only right calls of large dimensions are taken", taking_right_calls)
            .differs(&["k over 20"]),
        row("a basis is not tested from place 3 on", low_places)
            .differs(&[DEPENDENT])
            .agrees(&[ABOVE, LENGTHS]),
        row("k 21 is taken with a long list 3", over_16)
            .differs(&[ABOVE, CAUSES])
            .agrees(&[LENGTHS, DEPENDENT]),
        row("two lists that are too long are taken", both_long)
            .differs(&[LENGTHS])
            .agrees(&[ABOVE, DEPENDENT]),
    ]
}

fn with_the_constant_last(call: &Call, outputs: &mut Outputs) -> Answer {
    if is_refused(call) {
        return right(call, outputs);
    }
    let mut other = call.clone();
    if call.operation == &ENCODE {
        other[Given].resize(call[Output].len(), 0);
        other[Given].reverse();
    }
    let answer = right(&other, outputs);
    if call.operation == &INTERPOLATE {
        outputs.first().reverse();
    }
    answer
}

/// Refuses to encode for how many coefficients there are beside points.
fn refusing_lengths(wrong: fn(usize, usize) -> bool) -> Wrong {
    first_of_all(move |call| {
        let lengths = wrong(call[Given].len(), call[Output].len());
        (lengths && !is_refused(call)).then(|| refused_at(13, 3))
    })
    .of(&ENCODE)
}

#[test]
fn wrong_libraries_differ_as_they_should() {
    let shared = [shared_rows(&ENCODE, &OF_ENCODE), shared_rows(&INTERPOLATE, &OF_INTERPOLATE)];
    let rows: Vec<Row<Wrong>> = shared.into_iter().flatten().chain(rows()).collect();
    hold_table(&right_library(), &rows, |library| comparisons(library, &FEW));
}
