//! Bases that divide by 1: where the two points of a coset are interpolated their difference is
//! divided by, and over these bases it is 1.

use crate::coset::point;
use crate::field;
use crate::fold::image;
use crate::random::Random;

/// An independent basis that begins with so many cheap elements, the first of which is 1, and
/// goes on with powers of two. A round with step 1 takes those that follow to cheap ones again,
/// so that the two points of a coset differ by 1 in every round that folds by one of them.
pub(super) fn basis(random: &mut Random, cheap: u64, k: u64) -> Vec<u64> {
    let mut basis = Vec::new();
    for element in cheap_elements(cheap) {
        // Any sum of earlier ones may be added: it goes to zero in their rounds.
        basis.push(point(element, &basis, random.number()));
    }
    basis.extend((1..=k - cheap).map(|place| 1 << place));
    basis
}

/// 1, and then to each element one whose image it is.
fn cheap_elements(count: u64) -> Vec<u64> {
    let with_next = std::iter::successors(Some(1), |&element| Some(preimage(element)));
    with_next.take(count as usize).collect()
}

/// The even one of the two elements x with x (x + 1) = y. The sum over all i below 64 of
/// (y + y^2 + y^4 .. + y^(2^(i - 1))) θ^(2^i) is one of them, where θ has trace 1.
fn preimage(y: u64) -> u64 {
    let (mut power, mut theta_power) = (y, 1 << 61);
    let (mut x, mut sum) = (0, 0);
    for _ in 1..64 {
        sum = field::sum(sum, power);
        power = field::product(power, power);
        theta_power = field::product(theta_power, theta_power);
        x = field::sum(x, field::product(sum, theta_power));
    }
    assert_eq!(image(&[1], x), y, "{y:x} is no image");
    x & !1
}

#[cfg(test)]
mod tests {
    use super::*;
    use crate::coset::first_dependent;
    use crate::fold::following;

    #[test]
    fn the_points_of_a_coset_differ_by_one_in_every_round() {
        let random = &mut Random::named("cheap elements keep their property");
        let mut basis = basis(random, 8, 10);
        assert_eq!(basis.len(), 10);
        assert_eq!(first_dependent(&basis), None);
        for _ in 0..8 {
            assert_eq!(basis[0], 1);
            basis = following(1, 0, &basis).basis;
        }
    }
}
