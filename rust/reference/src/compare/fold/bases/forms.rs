//! Forms of bases. Of each some are independent and some are not.

use crate::compare::cosets::{any_dependent, cantors, multiples_by_powers};
use crate::coset::point;
use crate::factor::Factor;
use crate::field;
use crate::random::Random;
use std::iter::successors;
use std::sync::LazyLock;

/// A form of bases.
pub struct Form {
    /// The name of its comparison.
    pub name: &'static str,
    draw: fn(&mut Draw) -> Vec<u64>,
}

impl Form {
    /// A basis of k elements, of which the first ones, as many as the step says, span what q is
    /// zero on.
    pub fn basis(&self, random: &mut Random, k: usize, step: usize) -> Vec<u64> {
        (self.draw)(&mut Draw { random, k, step })
    }
}

pub const ANY: &str = "fold, a basis of any elements";
pub const SPAN: &str = "fold, a basis in a small span";
pub const TINY: &str = "fold, a basis of tiny elements";
pub const RECOMBINED: &str = "fold, a recombined basis";
pub const SUBFIELD: &str = "fold, a basis in a subfield";
pub const MULTIPLIED: &str = "fold, a basis in a multiple of a subfield";
pub const SHIFTED: &str = "fold, a basis in a coset of a subfield";
pub const LEAVING: &str = "fold, a basis that leaves a subfield";
pub const WHOLE: &str = "fold, a basis of a whole subfield";
pub const ZEROS: &str = "fold, q zero on a subfield";
pub const POWERS: &str = "fold, a basis of multiples by powers";
pub const PROPORTIONAL: &str = "fold, q zero on multiples by powers";
pub const TOGETHER: &str = "fold, a basis whose images fall together";
pub const BITS_OFF: &str = "fold, a basis one bit off the span";
pub const RUNS: &str = "fold, a basis of runs of bits";
pub const CONJUGATES: &str = "fold, a basis of conjugates";
pub const TRACE_ZERO: &str = "fold, a basis of trace zero";

pub static FORMS: [Form; 17] = [
    Form { name: ANY, draw: any },
    Form { name: SPAN, draw: in_small_span },
    Form { name: TINY, draw: tiny },
    Form { name: RECOMBINED, draw: recombined },
    Form { name: SUBFIELD, draw: in_subfield },
    Form { name: MULTIPLIED, draw: in_multiple_of_subfield },
    Form { name: SHIFTED, draw: in_coset_of_subfield },
    Form { name: LEAVING, draw: leaving_subfield },
    Form { name: WHOLE, draw: whole_subfield },
    Form { name: ZEROS, draw: zeros_in_subfield },
    Form { name: POWERS, draw: powers },
    Form { name: PROPORTIONAL, draw: zeros_at_powers },
    Form { name: TOGETHER, draw: images_together },
    Form { name: BITS_OFF, draw: bits_off },
    Form { name: RUNS, draw: runs_of_bits },
    Form { name: CONJUGATES, draw: conjugates },
    Form { name: TRACE_ZERO, draw: of_trace_zero },
];

// Drawing.

/// The bits of the elements of subfields.
pub const SUBFIELDS: [usize; 5] = [2, 4, 8, 16, 32];

/// Cantor's basis of the whole field. For each subfield the first elements, as many as there are
/// bits, are a basis of it. It is led up to by an element of trace 1.
pub static TOWER: LazyLock<Vec<u64>> = LazyLock::new(|| cantors(1 << 61, 64));

/// What a basis is drawn with.
struct Draw<'a> {
    random: &'a mut Random,
    k: usize,
    /// How many elements, the first ones, span what q is zero on.
    step: usize,
}

impl Draw<'_> {
    fn number(&mut self) -> u64 {
        self.random.number()
    }

    fn below(&mut self, bound: usize) -> usize {
        self.random.below(bound)
    }

    fn two_below(&mut self, bound: usize) -> [usize; 2] {
        [self.below(bound), self.below(bound)]
    }

    /// Whether a case comes up that has one chance in so many.
    fn one_in(&mut self, many: usize) -> bool {
        self.below(many) == 0
    }

    /// How many elements, the first ones, span what q is zero on; one less where k is the step, so
    /// that there is an element behind them.
    fn spanning(&self) -> usize {
        self.step.min(self.k - 1)
    }

    fn in_span(&mut self, spanning: &[u64]) -> u64 {
        point(0, spanning, self.number())
    }

    /// A basis whose elements are all drawn alike.
    fn all(&mut self, element: impl Fn(&mut Self) -> u64) -> Vec<u64> {
        self.fill(Vec::new(), element)
    }

    /// The basis with elements that are drawn alike for those that it wants.
    fn fill(&mut self, mut basis: Vec<u64>, element: impl Fn(&mut Self) -> u64) -> Vec<u64> {
        basis.extend((basis.len()..self.k).map(|_| element(self)));
        basis
    }

    /// A basis of any subfield.
    fn subfield(&mut self) -> &'static [u64] {
        &TOWER[..SUBFIELDS[self.below(SUBFIELDS.len())]]
    }

    /// One as often as not, else any factor.
    fn factor(&mut self) -> Factor {
        let one = self.one_in(2);
        Factor::of(if one { 1 } else { self.number() })
    }

    /// Adds elements to others, which leaves the span as it was.
    fn recombine(&mut self, elements: &mut [u64]) {
        for _ in 0..2 * elements.len() {
            let [one, other] = self.two_below(elements.len());
            if one != other {
                elements[one] = field::sum(elements[one], elements[other]);
            }
        }
    }
}

fn multiples(factor: &Factor, elements: &[u64]) -> Vec<u64> {
    elements.iter().map(|&element| factor.times(element)).collect()
}

// Small spaces.

/// Half of these bases have an element that is a sum of earlier ones.
fn any(draw: &mut Draw) -> Vec<u64> {
    match draw.one_in(2) {
        true => any_dependent(draw.random, draw.k),
        false => draw.all(Draw::number),
    }
}

/// The span is that of some small numbers: up to two more than there are elements, often fewer.
fn in_small_span(draw: &mut Draw) -> Vec<u64> {
    let count = 1 + draw.below(draw.k + 2);
    let spanning: Vec<u64> = (0..count).map(|_| draw.number() >> draw.below(48)).collect();
    draw.all(|draw| draw.in_span(&spanning))
}

/// Numbers of k bits, or of one more.
fn tiny(draw: &mut Draw) -> Vec<u64> {
    let bits = draw.k + draw.below(2);
    draw.all(|draw| draw.number() >> (64 - bits))
}

/// Powers of two, Cantor's basis or any elements, recombined. One in three may have one twice.
fn recombined(draw: &mut Draw) -> Vec<u64> {
    let k = draw.k;
    let mut basis = match draw.below(3) {
        0 => (0..k).map(|place| 1 << place).collect(),
        1 => TOWER[..k].to_vec(),
        _ => draw.all(Draw::number),
    };
    if draw.one_in(3) {
        let [one, other] = draw.two_below(k);
        basis[one] = basis[other];
    }
    draw.recombine(&mut basis);
    basis
}

// Subfields.

fn in_subfield(draw: &mut Draw) -> Vec<u64> {
    let subfield = draw.subfield();
    draw.all(|draw| draw.in_span(subfield))
}

fn in_multiple_of_subfield(draw: &mut Draw) -> Vec<u64> {
    let factor = Factor::of(draw.number());
    multiples(&factor, &in_subfield(draw))
}

fn in_coset_of_subfield(draw: &mut Draw) -> Vec<u64> {
    let (subfield, offset) = (draw.subfield(), draw.number());
    draw.all(|draw| point(offset, subfield, draw.number()))
}

/// The first elements lie in a subfield; those that follow, if there are some, are any.
fn leaving_subfield(draw: &mut Draw) -> Vec<u64> {
    let inside = 1 + draw.below(draw.k);
    let basis = in_subfield(draw)[..inside].to_vec();
    draw.fill(basis, Draw::number)
}

/// The largest subfield that there is room for, or a multiple of it, recombined. Of the elements
/// that follow one in three is in there too.
fn whole_subfield(draw: &mut Draw) -> Vec<u64> {
    let bits = SUBFIELDS.into_iter().rfind(|&bits| bits <= draw.k).expect("room for the smallest");
    let subfield = multiples(&draw.factor(), &TOWER[..bits]);
    let mut basis = subfield.clone();
    draw.recombine(&mut basis);
    draw.fill(basis, |draw| match draw.one_in(3) {
        true => draw.in_span(&subfield),
        false => draw.number(),
    })
}

/// The zeros of q are the field of two elements with step 1, that of four with step 2, and the span
/// of this one and an element more with step 3. The elements that follow lie in any subfield, and
/// all have a factor in common.
fn zeros_in_subfield(draw: &mut Draw) -> Vec<u64> {
    let mut spanning = TOWER[..draw.step].to_vec();
    draw.recombine(&mut spanning);
    let subfield = draw.subfield();
    let basis = draw.fill(spanning, |draw| draw.in_span(subfield));
    multiples(&draw.factor(), &basis)
}

// Multiples of one another.

/// The factor is 2, any, or of a small order, since it lies in a small subfield.
fn powers(draw: &mut Draw) -> Vec<u64> {
    let small = SUBFIELDS[draw.below(3)];
    let factor = match draw.below(4) {
        0 => 2,
        1 => draw.number(),
        _ => draw.in_span(&TOWER[..small]),
    };
    multiples_by_powers(draw.number(), factor, draw.k)
}

/// The first elements are multiples by powers of an element of a subfield. Those that follow are
/// multiples by any of its elements, or any at all.
fn zeros_at_powers(draw: &mut Draw) -> Vec<u64> {
    let (subfield, first) = (draw.subfield(), draw.number());
    let spanning = multiples_by_powers(first, draw.in_span(subfield), draw.step);
    let factor = Factor::of(first);
    draw.fill(spanning, |draw| match draw.one_in(2) {
        true => factor.times(draw.in_span(subfield)),
        false => draw.number(),
    })
}

// Elements near the span that q is zero on.

/// An element behind those that span is in their span, or has the image of another one. A bit
/// keeps it from that as often as not.
fn images_together(draw: &mut Draw) -> Vec<u64> {
    let mut basis = draw.all(Draw::number);
    let (spanning, others) = basis.split_at_mut(draw.spanning());
    let [one, other] = draw.two_below(others.len());
    let near = if one == other { 0 } else { others[other] };
    let bit = if draw.one_in(2) { 1 << draw.below(64) } else { 0 };
    others[one] = field::sum(point(near, spanning, draw.number()), bit);
    basis
}

/// All elements behind those that span are one bit off their span, some in the same place, but
/// for one in eight, which is in there.
fn bits_off(draw: &mut Draw) -> Vec<u64> {
    let spanning = draw.random.list(draw.spanning());
    let lowest = draw.below(64 - 2 * draw.k);
    draw.fill(spanning.clone(), |draw| {
        let bit = 1 << (lowest + draw.below(2 * draw.k));
        let offset = if draw.one_in(8) { 0 } else { bit };
        point(offset, &spanning, draw.number())
    })
}

// Numbers and powers of a pattern.

/// Single bits and runs of ones, near the lowest bit or near the highest.
fn runs_of_bits(draw: &mut Draw) -> Vec<u64> {
    draw.all(|draw| {
        let place = draw.below(2 * draw.k);
        match draw.below(4) {
            0 => 1 << place,
            1 => 1 << 63 >> place,
            2 => u64::MAX << place,
            _ => u64::MAX >> place,
        }
    })
}

/// An element of a subfield, or any, and powers of it: it is squared once, twice or three times
/// from one to the next.
fn conjugates(draw: &mut Draw) -> Vec<u64> {
    let subfield = draw.subfield();
    let element = if draw.one_in(4) { draw.number() } else { draw.in_span(subfield) };
    let squares = successors(Some(element), |&x| Some(field::product(x, x)));
    squares.step_by(1 + draw.below(3)).take(draw.k).collect()
}

/// x^2 + x has trace zero for all x. Here 1, of which it is zero, is in the span that x is drawn
/// from, or it is not.
fn of_trace_zero(draw: &mut Draw) -> Vec<u64> {
    let mut spanning = draw.random.list(draw.k + 1);
    if draw.one_in(2) {
        spanning[0] = 1;
    }
    draw.all(|draw| {
        let x = draw.in_span(&spanning);
        field::sum(field::product(x, x), x)
    })
}
