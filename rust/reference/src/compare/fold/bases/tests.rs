use super::forms::*;
use super::*;
use crate::answer::{refused_at, went_well, Answer};
use crate::compare::fold::tests::keeping_the_basis;
use crate::compare::wrong::{
    alike, and_then, dependent, first_of_all, hold_table, is_refused, lower_halves, refusing,
    right, right_library, row, when_refused, with_16, Row, Wrong,
};
use crate::factor::Factor;
use crate::fold::{following, Coset};
use std::collections::HashSet;

/// Few and small enough to run without optimisation.
const FEW: Amounts = Amounts { bases: [0, 0, 3, 5, 7, 0, 0, 0, 0, 0, 0, 0, 0], large: &[5] };

/// The comparisons of single forms.
fn forms() -> Vec<&'static str> {
    FORMS.iter().map(|form| form.name).collect()
}

/// The next coset, whether or not the basis is independent.
fn next(call: &Call) -> Coset {
    following(call[Step] as usize, call[Offset], &call[Basis])
}

fn upper_halves(basis: &[u64]) -> Vec<u64> {
    basis.iter().map(|b| b >> 32).collect()
}

fn is_in_span(spanning: &[u64], element: u64) -> bool {
    first_dependent(&[spanning, &[element]].concat()) == Some(spanning.len())
}

/// That of 2^16 elements.
fn is_in_a_subfield(call: &Call) -> bool {
    call[Basis].iter().all(|&element| is_in_span(&TOWER[..16], element))
}

/// Whether q sends two elements to one.
fn has_images_together(call: &Call) -> bool {
    let mut images = HashSet::new();
    next(call).basis.into_iter().any(|image| !images.insert(image))
}

/// The first place whose element is a multiple of an earlier one by an element of the field of
/// four.
fn multiple_by_one_of_four(call: &Call) -> Option<usize> {
    let basis = &call[Basis];
    let four = [1, TOWER[1], TOWER[0] ^ TOWER[1]].map(Factor::of);
    let is_multiple = |&place: &usize| {
        let earlier = &basis[..place];
        earlier.iter().any(|&one| four.iter().any(|factor| factor.times(one) == basis[place]))
    };
    (0..basis.len()).find(is_multiple)
}

// Next bases.

/// Right but for the next basis.
fn with_next_basis(change: fn(&mut [u64])) -> Wrong {
    and_then(move |_, outputs| {
        let [_, next_basis] = outputs.lists();
        change(next_basis)
    })
}

fn wrong_next_bases() -> Vec<Row<Wrong>> {
    let zero = with_next_basis(|next| next.iter_mut().take(1).for_each(|first| *first = 0));
    let twice = with_next_basis(|next| {
        if let [.., one, last] = next {
            *last = *one
        }
    });
    let sum = with_next_basis(|next| {
        if let [one, other, last] = next {
            *last = *one ^ *other
        }
    });
    let whole = [&forms()[..], &[LARGE]].concat();
    let all = &[&whole[..], &[NEXT_BASES]].concat();
    vec![
        row("an element of the span is left for the next basis", zero)
            .differs(all)
            .smallest(NEXT_BASES, "k 2; step 1; offset 0; challenge 0; basis: 1, 2; "),
        row("an element is twice in the next basis", twice)
            .differs(all)
            .smallest(NEXT_BASES, "k 3; step 1; offset 0; challenge 0; basis: 1, 2, 4; "),
        row("the last element of the next basis is a sum", sum)
            .differs(&[NEXT_BASES, ANY])
            .among_others()
            .smallest(NEXT_BASES, "k 4; step 1; offset 0; challenge 0; basis: 1, 2, 4, 8; "),
        // That basis is independent, and only not the right one.
        row("the next basis is the rest of the old one", keeping_the_basis()).differs(&whole),
    ]
}

// Refusals.

/// Right, but for some calls that 8 is not looked for in: these go on to the next coset.
fn not_looking(passes: fn(&Call) -> bool) -> Wrong {
    alike(move |call, outputs| {
        let passed = call.refusal().filter(|refusal| refusal.number == 8 && passes(call));
        if passed.is_none() {
            return right(call, outputs);
        }
        let Coset { offset, basis } = next(call);
        let [_, next_basis] = outputs.lists();
        next_basis.copy_from_slice(&basis);
        went_well(offset)
    })
}

/// Right, but for a refusal of some calls that should go well.
fn refusing_right_calls(cause: fn(&Call) -> Option<Answer>) -> Wrong {
    first_of_all(move |call| if is_refused(call) { None } else { cause(call) })
}

/// The place of a refusal, if it is behind the elements that span.
fn behind(call: &Call, refusal: Answer) -> Option<u64> {
    refusal.place.filter(|&place| place >= call[Step])
}

/// A number that is retired, where 8 or nothing is due.
fn sixteens() -> Vec<Row<Wrong>> {
    let for_eight = refusing(8, |call, answer| behind(call, answer).map_or(answer, |_| with_16()));
    let in_a_subfield = refusing_right_calls(|call| is_in_a_subfield(call).then(with_16));
    let with_upper_halves =
        refusing_right_calls(|call| dependent(&upper_halves(&next(call).basis)).map(|_| with_16()));
    vec![
        row("16 is given for an element behind those that span", for_eight)
            .differs(&forms())
            .agrees(&[NEXT_BASES]),
        row("16 is given for a basis in a subfield", in_a_subfield)
            .differs(&[SUBFIELD, WHOLE, ZEROS, CONJUGATES, NEXT_BASES])
            .agrees(&[ANY, SHIFTED, TOGETHER]),
        row("16 is given for a next basis with dependent upper halves", with_upper_halves)
            .differs(&[TINY, NEXT_BASES])
            .agrees(&[ANY]),
    ]
}

fn wrong_eights() -> Vec<Row<Wrong>> {
    let from_there = refusing(8, |call, answer| {
        behind(call, answer).map_or(answer, |place| refused_at(8, place - call[Step]))
    });
    let multiples = refusing_right_calls(|call| {
        multiple_by_one_of_four(call).map(|place| refused_at(8, place as u64))
    });
    let with_lower_halves = refusing_right_calls(|call| dependent(&lower_halves(&call[Basis])));
    let clearing = when_refused(|_, outputs| outputs.first().fill(0));
    vec![
        row("8 is not looked for in a subfield", not_looking(is_in_a_subfield))
            .differs(&[SUBFIELD, LEAVING, ZEROS, CONJUGATES, NEXT_BASES])
            .agrees(&[TOGETHER, SHIFTED]),
        row("8 is not looked for where images fall together", not_looking(has_images_together))
            .differs(&[TOGETHER, BITS_OFF, TINY, NEXT_BASES])
            .among_others(),
        row("8 is given for multiples by elements of the field of four", multiples)
            .differs(&[WHOLE, ZEROS, PROPORTIONAL, NEXT_BASES])
            .agrees(&[ANY, TOGETHER, BITS_OFF]),
        row("8 is given for a basis with dependent lower halves", with_lower_halves)
            .differs(&[RUNS, BITS_OFF, NEXT_BASES])
            .agrees(&[ANY, TINY]),
        row("a place is counted from behind the elements that span", from_there)
            .differs(&forms())
            .agrees(&[NEXT_BASES]),
        row("a refusal clears list 6", clearing).differs(&forms()).agrees(&[NEXT_BASES]),
    ]
}

#[test]
fn wrong_libraries_differ_as_they_should() {
    let large = and_then(|call, outputs| outputs.first()[0] ^= u64::from(call.k() > 4));
    let mut rows = vec![row("an entry of a large fold is wrong", large).differs(&[LARGE])];
    rows.extend(wrong_next_bases());
    rows.extend(sixteens());
    rows.extend(wrong_eights());
    hold_table(&right_library(), &rows, |library| comparisons(library, &FEW));
}

// Forms.

/// With the amounts of the program: of each form a tenth at least is refused, and a tenth at
/// least goes well.
#[test]
fn bases_are_many_and_of_every_form_both_sorts_are() {
    let settings = settings(&FULL.bases);
    let all = settings.len();
    let mut different = HashSet::new();
    for form in &FORMS {
        let bases = bases(&mut Random::named(form.name), form, &settings);
        let refused = bases.iter().filter(|(_, basis)| first_dependent(basis).is_some()).count();
        assert!((all / 10..all - all / 10).contains(&refused), "{}: {refused} of {all}", form.name);
        different.extend(bases);
    }
    assert!(different.len() > 100_000, "{} different bases", different.len());
}

/// A span that holds 1 and all products of its elements is a field.
#[test]
fn the_tower_has_a_basis_of_every_subfield() {
    assert_eq!((TOWER[0], first_dependent(&TOWER)), (1, None));
    for bits in SUBFIELDS {
        let subfield = &TOWER[..bits];
        for factor in subfield.iter().map(|&element| Factor::of(element)) {
            let mut products = subfield.iter().map(|&element| factor.times(element));
            assert!(products.all(|product| is_in_span(subfield, product)));
        }
    }
}
