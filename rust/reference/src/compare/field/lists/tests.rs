//! Wrong libraries, and the comparisons that they differ in.

use super::*;
use crate::compare::wrong::{differing, hold_table, row, Row};

/// Few enough to run without optimisation.
const FEW: Amounts = Amounts {
    lengths: &[0..=2, 64..=65, 128..=129],
    each_place: &[0..=2, 64..=65],
    long: &[300, 320],
};

// The reference in the place of the library, with the inversion wrong.

fn inverting(invert: impl Fn(&mut [u64], Range<usize>) + Sync + 'static) -> Lists {
    Lists { product: Box::new(field::product), invert: Box::new(invert) }
}

fn right(buffer: &mut [u64], part: Range<usize>) {
    buffer[part].iter_mut().for_each(|a| *a = field::inverse(*a));
}

fn wrong(
    what: &str,
    invert: impl Fn(&mut [u64], Range<usize>) + Sync + 'static,
    differ: &[&[&str]],
) -> Row<Lists> {
    row(what, inverting(invert)).differs(&differ.concat())
}

/// Changes the list after it was inverted as it should be. It is given as it was, and as it is.
fn changing(
    what: &str,
    change: impl Fn(&[u64], &mut [u64]) + Sync + 'static,
    differ: &[&[&str]],
) -> Row<Lists> {
    let invert = move |buffer: &mut [u64], part: Range<usize>| {
        let before = buffer[part.clone()].to_vec();
        right(buffer, part.clone());
        change(&before, &mut buffer[part]);
    };
    wrong(what, invert, differ)
}

/// Changes each block of 64 in this way; the last one may be shorter.
fn in_blocks(
    what: &str,
    change: impl Fn(&[u64], &mut [u64]) + Sync + 'static,
    differ: &[&[&str]],
) -> Row<Lists> {
    let all = move |before: &[u64], list: &mut [u64]| {
        let blocks = before.chunks(BLOCK).zip(list.chunks_mut(BLOCK));
        blocks.for_each(|(before, block)| change(before, block));
    };
    changing(what, all, differ)
}

const BLOCK: usize = 64;

/// Leaves the list from a place on as it was.
fn leave_from(place: usize, before: &[u64], list: &mut [u64]) {
    list[place..].copy_from_slice(&before[place..]);
}

/// Leaves the list as it was.
fn leave(before: &[u64], list: &mut [u64]) {
    leave_from(0, before, list);
}

// Comparisons that a mistake shows in.

const NO_ZERO: &[&str] = &["lengths 0 to 200, no zero"];
const ZEROS: &[&str] = &["lengths 0 to 200, zeros alone"];
const AT_RANDOM: &[&str] = &["zeros at random places"];
const AT_EDGES: &[&str] = &["zeros at block edges"];
const STRETCHES: &[&str] = &["stretches of zeros"];
const AT_EACH: &[&str] = &["a zero at each place"];
const BUT_AT_EACH: &[&str] = &["zeros but for each place"];
const REPEATED: &[&str] = &["repeated elements"];
const EDGE_VALUES: &[&str] = &["lengths 0 to 200, edge values"];
const LONG: &[&str] = &["invert, long lists"];
const TWICE: &[&str] = &["twice gives it again"];
const PRODUCTS: &[&str] = &["in a list is one"];
const PART: &[&str] = &["a part of a longer list"];

/// All comparisons in which elements that are not zero stand beside zeros.
const MIXED: &[&[&str]] = &[
    AT_RANDOM,
    AT_EDGES,
    STRETCHES,
    AT_EACH,
    BUT_AT_EACH,
    REPEATED,
    EDGE_VALUES,
    LONG,
    PART,
    PRODUCTS,
];

/// All elements are wrong, or one at an end.
fn wrong_for_all() -> Vec<Row<Lists>> {
    let reverse = |_: &[u64], list: &mut [u64]| list.reverse();
    let clear = |_: &[u64], list: &mut [u64]| list.fill(0);
    let miss_last = |before: &[u64], list: &mut [u64]| {
        leave_from(list.len().saturating_sub(1), before, list);
    };
    let miss_first = |before: &[u64], list: &mut [u64]| {
        before.iter().zip(list).take(1).for_each(|(a, x)| *x = *a);
    };
    let leave_single = |before: &[u64], list: &mut [u64]| {
        if list.len() == 1 {
            leave(before, list);
        }
    };
    let single =
        &[NO_ZERO, AT_RANDOM, AT_EDGES, BUT_AT_EACH, REPEATED, EDGE_VALUES, PRODUCTS, PART];
    vec![
        changing("nothing is done", leave, MIXED).differs(NO_ZERO),
        changing("all become zero", clear, MIXED).differs(&[NO_ZERO, TWICE].concat()),
        changing("the list is reversed", reverse, MIXED).differs(NO_ZERO),
        changing("the last element is missed", miss_last, MIXED)
            .differs(NO_ZERO)
            .smallest(NO_ZERO[0], "2"),
        changing("the first element is missed", miss_first, MIXED).differs(NO_ZERO),
        changing("a single element is left", leave_single, single),
    ]
}

/// Some blocks of 64 are not inverted in the right way.
fn wrong_in_blocks() -> Vec<Row<Lists>> {
    let leave_last_full = |before: &[u64], list: &mut [u64]| {
        let whole_blocks = list.len() / BLOCK * BLOCK;
        if list.len() == whole_blocks {
            leave_from(whole_blocks.saturating_sub(BLOCK), before, list);
        }
    };
    let leave_last_partial = |before: &[u64], list: &mut [u64]| {
        leave_from(list.len() / BLOCK * BLOCK, before, list);
    };
    let leave_behind_first = |before: &[u64], list: &mut [u64]| {
        leave_from(list.len().min(BLOCK), before, list);
    };
    let leave_full = |before: &[u64], block: &mut [u64]| {
        if block.len() == BLOCK {
            leave(before, block);
        }
    };
    let reverse_full = |_: &[u64], block: &mut [u64]| {
        if block.len() == BLOCK {
            block.reverse();
        }
    };
    vec![
        changing("the last block is left if it is full", leave_last_full, MIXED).differs(NO_ZERO),
        changing("the last block is left if it is not full", leave_last_partial, MIXED)
            .differs(NO_ZERO),
        changing("only the first block is inverted", leave_behind_first, MIXED).differs(NO_ZERO),
        in_blocks("full blocks are left", leave_full, MIXED).differs(NO_ZERO),
        in_blocks("blocks are reversed", |_, block| block.reverse(), MIXED).differs(NO_ZERO),
        in_blocks("full blocks are reversed", reverse_full, MIXED).differs(NO_ZERO),
    ]
}

/// Zeros are not inverted in the right way, or what is beside them is not.
fn wrong_with_zeros() -> Vec<Row<Lists>> {
    let zero_is_one = |before: &[u64], list: &mut [u64]| {
        before.iter().zip(list).filter(|(a, _)| **a == 0).for_each(|(_, x)| *x = 1);
    };
    let spoil = |before: &[u64], block: &mut [u64]| {
        if before.contains(&0) {
            block.fill(0);
        }
    };
    let spoil_all = |before: &[u64], list: &mut [u64]| {
        if before.contains(&0) {
            list.fill(0);
        }
    };
    let end = |before: &[u64], block: &mut [u64]| {
        let zero = before.iter().position(|a| *a == 0);
        leave_from(zero.unwrap_or(before.len()), before, block);
    };
    let left_with_zero = |before: &[u64], block: &mut [u64]| {
        if before.contains(&0) {
            leave(before, block);
        }
    };
    let spoil_at_edge = |edge: usize| {
        move |before: &[u64], block: &mut [u64]| {
            if before.get(edge) == Some(&0) {
                block.fill(0);
            }
        }
    };
    let one_for_block_of_zeros = |before: &[u64], block: &mut [u64]| {
        if before == [0; BLOCK] {
            block.fill(1);
        }
    };
    // Whoever leaves the zeros out must put the others back to where they were.
    let to_the_front = |_: &[u64], block: &mut [u64]| block.sort_by_key(|x| *x == 0);
    // A product with zero is zero whatever zero becomes.
    let but_products = &MIXED[..MIXED.len() - 1];
    let at_edges = &[AT_EDGES, STRETCHES, AT_EACH, BUT_AT_EACH];
    let not_mixed = &[NO_ZERO, ZEROS].concat();
    let of_zeros = &[ZEROS, STRETCHES, BUT_AT_EACH];
    vec![
        changing("zero becomes one", zero_is_one, but_products)
            .differs(&[ZEROS, TWICE].concat())
            .smallest(ZEROS[0], "0"),
        in_blocks("a zero spoils its block", spoil, MIXED).differs(TWICE),
        changing("a zero spoils the list", spoil_all, MIXED).differs(TWICE),
        in_blocks("a zero ends its block", end, MIXED),
        in_blocks("a block with a zero is left", left_with_zero, MIXED),
        in_blocks("a zero spoils the block that it begins", spoil_at_edge(0), at_edges)
            .agrees(not_mixed),
        in_blocks("a zero spoils the block that it ends", spoil_at_edge(63), at_edges)
            .agrees(not_mixed),
        in_blocks("ones for a block of zeros", one_for_block_of_zeros, of_zeros),
        in_blocks("zeros move behind the others", to_the_front, MIXED).differs(TWICE),
    ]
}

/// Some elements are not inverted in the right way.
fn wrong_for_some() -> Vec<Row<Lists>> {
    let leave_if = |is_left: fn(&[u64], usize) -> bool| {
        move |before: &[u64], list: &mut [u64]| {
            let left = (0..list.len()).filter(|&place| is_left(before, place));
            left.for_each(|place| list[place] = before[place]);
        }
    };
    let repeats = leave_if(|before, place| place > 0 && before[place] == before[place - 1]);
    let all_ones = leave_if(|before, place| before[place] == u64::MAX);
    let product_one = |before: &[u64], block: &mut [u64]| {
        if before.iter().copied().fold(1, field::product) == 1 {
            leave(before, block);
        }
    };
    vec![
        changing("an element like the one before it is left", repeats, &[REPEATED]),
        changing("all ones is left", all_ones, &[REPEATED, EDGE_VALUES]),
        in_blocks("a block whose product is one is left", product_one, &[REPEATED]),
    ]
}

/// More than the part is written to.
fn wrong_around() -> Vec<Row<Lists>> {
    let also = |other: fn(Range<usize>) -> Range<usize>| {
        move |buffer: &mut [u64], part: Range<usize>| {
            let Range { start, end } = other(part.clone());
            let length = buffer.len();
            right(buffer, part);
            right(buffer, start.min(length)..end.min(length));
        }
    };
    let behind = also(|part| part.end..part.end + 1);
    let before = also(|part| part.start.saturating_sub(1)..part.start);
    let if_empty = also(|part| part.start..part.start + usize::from(part.is_empty()));
    let to_full_block = also(|part| part.end..part.start + part.len().next_multiple_of(BLOCK));
    let zero_behind = |buffer: &mut [u64], part: Range<usize>| {
        right(buffer, part.clone());
        buffer[part.end..].iter_mut().take(1).for_each(|a| *a = 0);
    };
    vec![
        wrong("the first behind the list is inverted", behind, &[PART])
            .smallest(PART[0], "nothing, before it nothing, behind it "),
        wrong("the first behind the list becomes zero", zero_behind, &[PART]),
        wrong("the last before the list is inverted", before, &[PART]),
        wrong("one of an empty list is inverted", if_empty, &[PART]),
        wrong("a full block is inverted", to_full_block, &[PART]),
        wrong("the whole buffer is inverted", |buffer, _| right(buffer, 0..buffer.len()), &[PART]),
    ]
}

#[test]
fn wrong_libraries_differ_as_they_should() {
    let rows =
        [wrong_for_all(), wrong_in_blocks(), wrong_with_zeros(), wrong_for_some(), wrong_around()];
    let rows: Vec<Row<Lists>> = rows.into_iter().flatten().collect();
    hold_table(&inverting(right), &rows, |library| comparisons(library, &FEW));
}

/// Apart, since the list is long: the others have no more than a thousand elements or so.
#[test]
fn a_length_in_two_bytes_shows() {
    let cut = |buffer: &mut [u64], part: Range<usize>| {
        let length = part.len() & 0xffff;
        right(buffer, part.start..part.start + length);
    };
    let amounts = Amounts { lengths: &[1..=1], each_place: &[1..=1], long: &[65_600] };
    let differing = differing(&comparisons(&inverting(cut), &amounts));
    assert_eq!(differing, ["invert, long lists", "product with the inverse in a list is one"]);
}
