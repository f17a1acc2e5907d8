//! Lists that are lent for writing.

use super::lists::show_list;
use super::Show;
use crate::answer::ANSWER_LENGTH;
use std::ops::Range;

/// What a list is lent of: numbers or bytes.
pub trait Unit: Copy + PartialEq + Show {
    /// How many before and after a lent list are watched as well.
    const MARGIN: usize;

    /// What a place is filled with. None is as its neighbours are, so that none can be moved
    /// unseen.
    fn filled(fill: u64, place: usize) -> Self;
}

impl Unit for u64 {
    const MARGIN: usize = 8;

    fn filled(fill: u64, place: usize) -> u64 {
        fill + place as u64
    }
}

impl Unit for u8 {
    /// Nothing says that bytes lie at an even place: these do not.
    const MARGIN: usize = 61;

    /// The two fills differ in all bits of every place. So whatever is due there, one of them
    /// shows that it was not written.
    fn filled(fill: u64, place: usize) -> u8 {
        let [highest, ..] = fill.to_be_bytes();
        highest ^ place as u8
    }
}

/// What lent lists are filled from. A call takes one of the two, so that numbers which are
/// written but happen to be those of one fill are seen with the other.
pub const FILLS: [u64; 2] = [0xa5a5_a5a5_a5a5_a500, 0x5a5a_5a5a_5a5a_5a00];

/// How far apart the fills of the lists of one call are. So no number can be moved from one list
/// to another unseen.
pub const APART: u64 = 1 << 32;

/// Lengths that the list of an answer must not have: those near the right one, and one far
/// longer.
pub fn other_answer_lengths() -> impl Iterator<Item = usize> {
    let lengths = (0..=8).chain([64]);
    lengths.filter(|&length| length != ANSWER_LENGTH)
}

/// A lent list with the numbers, or the bytes, around it.
#[derive(PartialEq)]
pub struct Lent<N = u64> {
    pub numbers: Vec<N>,
    /// The place of the list among the numbers.
    pub list: Range<usize>,
    fill: u64,
}

impl<N: Unit> Lent<N> {
    pub fn filled(length: usize, fill: u64) -> Lent<N> {
        let places = 0..length + 2 * N::MARGIN;
        let numbers = places.map(|place| N::filled(fill, place)).collect();
        Lent { numbers, list: N::MARGIN..N::MARGIN + length, fill }
    }

    pub fn list(&mut self) -> &mut [N] {
        &mut self.numbers[self.list.clone()]
    }

    /// Makes the list as it was filled, but for the places that are kept.
    pub fn keep(&mut self, kept: impl Fn(usize) -> bool) {
        let Range { start, end } = self.list;
        for place in (start..end).filter(|place| !kept(place - start)) {
            self.numbers[place] = self.filled_with(place);
        }
    }

    /// Whether nothing before and after the list was written to.
    pub fn around_is_left(&self) -> bool {
        let Range { start, end } = self.list;
        (0..start).chain(end..self.numbers.len()).all(|place| self.is_left(place))
    }

    fn is_left(&self, place: usize) -> bool {
        self.numbers[place] == self.filled_with(place)
    }

    fn filled_with(&self, place: usize) -> N {
        N::filled(self.fill, place)
    }
}

/// A number that is as the list was filled is shown as left, and the numbers around a list are
/// shown only if one of them was written to.
impl<N: Unit> Show for Lent<N> {
    fn show(&self) -> String {
        let Range { start, end } = self.list;
        let show_number = |place: usize| match self.is_left(place) {
            true => "left".to_string(),
            false => self.numbers[place].show(),
        };
        let part = |part: Range<usize>| show_list(part.map(show_number));
        let list = part(start..end);
        if self.around_is_left() {
            return list;
        }
        let behind = part(end..self.numbers.len());
        format!("{list}, before it {}, behind it {behind}", part(0..start))
    }
}

#[cfg(test)]
mod tests {
    use super::*;

    #[test]
    fn what_was_left_is_shown_as_left() {
        let mut lent: Lent = Lent::filled(3, 0x100);
        assert_eq!(lent.show(), "left (3 times)");
        lent.list()[1] = 0xabc;
        assert_eq!(lent.show(), "left, abc, left");
        let behind = lent.list.end;
        lent.numbers[behind] = 7;
        let around = "before it left (8 times), behind it 7, left (7 times)";
        assert_eq!(lent.show(), format!("left, abc, left, {around}"));
        lent.numbers.fill(7);
        lent.keep(|place| place == 1);
        assert_eq!(lent.show(), "left, 7, left, before it 7 (8 times), behind it 7 (8 times)");
    }

    #[test]
    fn one_of_the_fills_shows_that_a_byte_is_left() {
        let [mut one, mut other] = FILLS.map(|fill| Lent::<u8>::filled(1_000, fill));
        assert!(one.list().iter().zip(other.list()).all(|(one, other)| *one == !*other));
        assert!(one.list().windows(2).all(|two| two[0] != two[1]));
        assert_eq!(one.list().as_ptr() as usize % 2, 1);
    }
}
