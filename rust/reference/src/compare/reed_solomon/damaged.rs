//! Calls that are refused at the upper end of the range and just above it. Their lists are long,
//! so that there are fewer of them than of small ones.

use super::*;
use crate::compare::cosets::{any_basis, dependent, wrong_lengths};
use crate::coset::point;

// What the names of the comparisons end in.

pub const ABOVE: &str = "k 21 and lists of any lengths";
pub const LENGTHS: &str = "k 13 to 20 and lists of wrong lengths";
pub const DEPENDENT: &str = "k 13 to 20 and a dependent basis";
pub const CAUSES: &str = "k 13 to 21 and several causes";

/// How many inputs the comparisons take.
pub struct Amounts {
    pub dimensions: RangeInclusive<u64>,
    /// The dimensions whose lists go with the lowest dimension out of range.
    pub lists_above: &'static [u64],
}

/// Makes damages for all of the comparison.
type Damages = fn(&mut Random, Op, &Amounts) -> Vec<Damage>;

pub fn comparisons(library: &dyn Library, operation: Op, amounts: &Amounts) -> Vec<Comparison> {
    let sorts: [(&str, Damages); 4] =
        [(ABOVE, above), (LENGTHS, lengths), (DEPENDENT, dependent_bases), (CAUSES, causes)];
    let compared = sorts.into_iter().map(|(what, damages)| {
        let name = operation.title(what);
        let mut random = Random::named(name);
        let damages = damages(&mut random, operation, amounts);
        let calls = damages.into_iter().map(|damage| damage.call(&mut random, operation));
        raw_calls(library, name, calls)
    });
    compared.collect()
}

/// A basis and the lengths of lists 3 and 6, of which one at least is wrong. It is made into a
/// call when its turn comes, since many calls take much room.
struct Damage {
    basis: Vec<u64>,
    given: usize,
    output: usize,
}

impl Damage {
    fn call(self, random: &mut Random, operation: Op) -> Call {
        Call::of(operation)
            .with(Offset, random.number())
            .with_list(Basis, self.basis)
            .with_any(random, Given, self.given)
            .with_length(Output, self.output)
            .with_fill(FILLS[random.below(2)])
    }
}

// A dimension out of range.

/// The lowest dimension out of range.
const OUT: usize = LARGEST_K + 1;

/// The lengths that the dimensions ask for and those beside them. Each is that of both lists, with
/// an independent basis, and of one of them with the next length for the other one.
fn above(random: &mut Random, _: Op, amounts: &Amounts) -> Vec<Damage> {
    let near = |&k: &u64| [(1 << k) - 1, 1 << k, (1 << k) + 1];
    let mut lengths: Vec<usize> = amounts.lists_above.iter().flat_map(near).collect();
    lengths.sort_unstable();
    lengths.dedup();
    let mut damages = Vec::new();
    for (place, &length) in lengths.iter().enumerate() {
        let next = lengths[(place + 1) % lengths.len()];
        let is_odd = place % 2 == 1;
        for (given, output, is_dependent) in
            [(length, length, false), (length, next, is_odd), (next, length, !is_odd)]
        {
            let basis = any_or_dependent(random, OUT, is_dependent);
            damages.push(Damage { basis, given, output });
        }
    }
    damages
}

fn any_or_dependent(random: &mut Random, k: usize, is_dependent: bool) -> Vec<u64> {
    match is_dependent {
        true => cosets::any_dependent(random, k),
        false => any_basis(random, k),
    }
}

// Wrong lengths.

/// Each list with all wrong lengths, and both lists.
fn lengths(random: &mut Random, operation: Op, amounts: &Amounts) -> Vec<Damage> {
    let mut damages = Vec::new();
    for k in amounts.dimensions.clone() {
        let due = 1 << k;
        let wrong = |list| wrong_for(operation, list, due).into_iter();
        let mut pairs: Vec<(usize, usize)> = wrong(Given).map(|given| (given, due)).collect();
        pairs.extend(wrong(Output).map(|output| (due, output)));
        pairs.extend(wrong(Given).zip(wrong(Output)));
        pairs.extend(wrong(Given).zip(wrong(Output).rev()));
        for (given, output) in pairs {
            let basis = any_basis(random, k as usize);
            damages.push(Damage { basis, given, output });
        }
    }
    damages
}

/// Of the wrong lengths near the right one only those beside it.
fn wrong_for(operation: Op, list: List, due: usize) -> Vec<usize> {
    let mut wrong = wrong_lengths(due, |length| (operation.fits)(list, length, due));
    wrong.retain(|length| length.abs_diff(due) == 1 || length.abs_diff(due) > 4);
    wrong
}

// Dependent bases.

/// From this place on all places are taken, however large the dimension is.
const HIGH_PLACE: usize = 12;

/// Up to this dimension each place is taken with every sum.
const LARGEST_WITH_ALL: usize = 15;

/// An element is zero, an earlier one, or the sum of all earlier ones or of any.
fn dependent_bases(random: &mut Random, _: Op, amounts: &Amounts) -> Vec<Damage> {
    let mut damages = Vec::new();
    for k in amounts.dimensions.clone().map(|k| k as usize) {
        let turns = if k <= LARGEST_WITH_ALL { 4 } else { 1 };
        let is_taken = |place| place == 0 || place == k / 2 || place >= HIGH_PLACE;
        for place in (0..k).filter(|&place| k <= HIGH_PLACE || is_taken(place)) {
            for turn in 0..turns {
                let basis = dependent_at(random, k, place, place + turn);
                damages.push(Damage { basis, given: 1 << k, output: 1 << k });
            }
        }
    }
    damages
}

/// The last element is dependent as well now and then.
fn dependent_at(random: &mut Random, k: usize, place: usize, turn: usize) -> Vec<u64> {
    let any = random.number();
    let picked = [0, 1 << random.below(place.max(1)), u64::MAX, any][turn % 4];
    let mut basis = dependent(random, k, place, picked);
    if turn % 3 == 0 {
        basis[k - 1] = point(0, &basis[..k - 1], any);
    }
    basis
}

// Several causes.

/// All choices of two causes or more among a list 3 and a list 6 of a wrong length and a dependent
/// basis; and of one or more beside a dimension out of range.
fn causes(random: &mut Random, operation: Op, amounts: &Amounts) -> Vec<Damage> {
    let longest = amounts.lists_above.iter().copied().max().unwrap_or(0);
    let in_range = amounts.dimensions.clone().map(|k| (k as usize, 1 << k, 2));
    let mut damages = Vec::new();
    for (k, due, least) in in_range.chain([(OUT, 1 << longest, 1)]) {
        for choice in (0..8u32).filter(|choice| choice.count_ones() >= least) {
            let [given, output, basis] = [0, 1, 2].map(|place| (choice >> place) & 1 == 1);
            damages.push(Damage {
                given: right_or_wrong(random, operation, Given, due, given),
                output: right_or_wrong(random, operation, Output, due, output),
                basis: any_or_dependent(random, k, basis),
            });
        }
    }
    damages
}

fn right_or_wrong(
    random: &mut Random,
    operation: Op,
    list: List,
    due: usize,
    is_wrong: bool,
) -> usize {
    let wrong = wrong_for(operation, list, due);
    match is_wrong {
        true => wrong[random.below(wrong.len())],
        false => due,
    }
}

#[cfg(test)]
mod tests {
    use super::*;
    use crate::coset::first_dependent;

    const SMALL: Amounts = Amounts { dimensions: 3..=4, lists_above: &[0, 5] };
    const LARGE: Amounts = Amounts { dimensions: 13..=20, lists_above: &[0, 5] };

    /// The refusals by the definition, without the lists.
    fn refusals(damages: Damages, operation: Op, amounts: &Amounts) -> Vec<[u64; 2]> {
        let may = if operation == &ENCODE { may_encode } else { may_interpolate };
        let damages = damages(&mut Random::named("damages"), operation, amounts).into_iter();
        let refusal = |Damage { basis, given, output }: Damage| may(&basis, given, output).err();
        let refusals = damages.map(|damage| refusal(damage).expect("a refusal"));
        refusals.map(|refusal| [refusal.number, refusal.place.unwrap_or(0)]).collect()
    }

    #[test]
    fn damages_are_refused_for_what_their_comparison_names() {
        for operation in [&ENCODE, &INTERPOLATE] {
            for amounts in [SMALL, LARGE] {
                let of = |damages| refusals(damages, operation, &amounts);
                assert!(of(above).iter().all(|&refusal| refusal == [4, 0]));
                let both = [[13, 3], [13, 6]];
                assert!(of(lengths).iter().all(|refusal| both.contains(refusal)));
                assert!(both.iter().all(|refusal| of(lengths).contains(refusal)));
                assert!(of(dependent_bases).iter().all(|&[number, _]| number == 8));
                let numbers = [[4, 0], [13, 3], [13, 6]];
                assert!(numbers.iter().all(|refusal| of(causes).contains(refusal)));
            }
        }
    }

    #[test]
    fn all_high_places_are_dependent() {
        let damages = dependent_bases(&mut Random::named("places"), &ENCODE, &LARGE);
        let met = |k: usize, place: usize| {
            let is_met = |damage: &Damage| {
                damage.basis.len() == k && first_dependent(&damage.basis) == Some(place)
            };
            damages.iter().any(is_met)
        };
        for k in 13..=20 {
            assert!((HIGH_PLACE..k).chain([0, k / 2]).all(|place| met(k, place)));
        }
    }
}
