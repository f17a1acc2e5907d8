//! The field's operations as the methods in Rust are given them: by the library's product, or
//! counted.

use crate::field;
use crate::inversion;
use crate::multiplier::{multiples, times};
use std::cell::Cell;

/// A type of its own for each product, so that a method is compiled for each.
pub trait Arithmetic: Copy {
    #[inline(always)]
    fn sum(self, a: u64, b: u64) -> u64 {
        a ^ b
    }

    fn product(self, a: u64, b: u64) -> u64;

    /// The square as an inverse takes it.
    #[inline(always)]
    fn square(self, a: u64) -> u64 {
        self.product(a, a)
    }

    /// The inverse, and zero for zero.
    fn inverse(self, a: u64) -> u64 {
        self.compiled(|| field::inverse(self, a))
    }

    /// Inverts each element in its place; zeros stay zero.
    fn invert(self, list: &mut [u64]) {
        self.compiled(|| inversion::invert(self, list))
    }

    /// The product by c, for a run of products.
    #[inline(always)]
    fn products_by(self, c: u64) -> impl Fn(u64) -> u64 {
        move |x| self.product(c, x)
    }

    /// Does the work, compiled for the instructions that the product needs. A recursion's own
    /// work goes through it, since a recursion is not inlined.
    #[inline(always)]
    fn compiled<R>(self, work: impl FnOnce() -> R) -> R {
        work()
    }
}

/// Calls the product, as the library does: inlined, it gains little in the fold with step 1 and
/// loses in the others.
#[derive(Clone, Copy)]
pub struct Windowed;

impl Arithmetic for Windowed {
    #[inline(always)]
    fn product(self, a: u64, b: u64) -> u64 {
        field::windowed(a, b)
    }

    #[inline(always)]
    fn square(self, a: u64) -> u64 {
        field::square(a)
    }

    #[inline(always)]
    fn products_by(self, c: u64) -> impl Fn(u64) -> u64 {
        let table = multiples(c);
        move |x| times(&table, x)
    }
}

/// The windowed product in runs too, so that the tables' gain is seen.
#[derive(Clone, Copy)]
pub struct Untabled;

impl Arithmetic for Untabled {
    #[inline(always)]
    fn product(self, a: u64, b: u64) -> u64 {
        field::windowed(a, b)
    }

    #[inline(always)]
    fn square(self, a: u64) -> u64 {
        field::square(a)
    }
}

/// By a product that is called, squares too.
#[derive(Clone, Copy)]
pub struct By(pub fn(u64, u64) -> u64);

impl Arithmetic for By {
    #[inline(always)]
    fn product(self, a: u64, b: u64) -> u64 {
        (self.0)(a, b)
    }
}

/// Inverts the elements of a list one by one, so that the list's gain is seen.
#[derive(Clone, Copy)]
pub struct OneByOne<A>(pub A);

impl<A: Arithmetic> Arithmetic for OneByOne<A> {
    #[inline(always)]
    fn sum(self, a: u64, b: u64) -> u64 {
        self.0.sum(a, b)
    }

    #[inline(always)]
    fn product(self, a: u64, b: u64) -> u64 {
        self.0.product(a, b)
    }

    #[inline(always)]
    fn square(self, a: u64) -> u64 {
        self.0.square(a)
    }

    fn inverse(self, a: u64) -> u64 {
        self.0.inverse(a)
    }

    fn invert(self, list: &mut [u64]) {
        for x in list {
            *x = self.inverse(*x);
        }
    }

    #[inline(always)]
    fn products_by(self, c: u64) -> impl Fn(u64) -> u64 {
        self.0.products_by(c)
    }

    #[inline(always)]
    fn compiled<R>(self, work: impl FnOnce() -> R) -> R {
        self.0.compiled(work)
    }
}

/// How many operations of the field, and how many tables are filled; the products that an inverse
/// takes and the sums that a table takes are not among them.
#[derive(Clone, Copy, Default)]
pub struct Counts {
    pub sums: u64,
    pub products: u64,
    pub squares: u64,
    pub inverses: u64,
    pub tables: u64,
}

impl Counts {
    pub fn all(&self) -> u64 {
        self.sums + self.products + self.squares + self.inverses
    }

    /// Those of the inverses are among the products and squares.
    pub fn with_inverses(self) -> Counts {
        let inverse = counted(|arithmetic| field::inverse(arithmetic, 1));
        Counts {
            products: self.products + self.inverses * inverse.products,
            squares: self.squares + self.inverses * inverse.squares,
            ..self
        }
    }
}

impl Arithmetic for &Cell<Counts> {
    fn sum(self, a: u64, b: u64) -> u64 {
        self.set(Counts { sums: self.get().sums + 1, ..self.get() });
        Windowed.sum(a, b)
    }

    fn product(self, a: u64, b: u64) -> u64 {
        self.set(Counts { products: self.get().products + 1, ..self.get() });
        Windowed.product(a, b)
    }

    fn square(self, a: u64) -> u64 {
        self.set(Counts { squares: self.get().squares + 1, ..self.get() });
        Windowed.square(a)
    }

    fn inverse(self, a: u64) -> u64 {
        self.set(Counts { inverses: self.get().inverses + 1, ..self.get() });
        Windowed.inverse(a)
    }

    fn products_by(self, c: u64) -> impl Fn(u64) -> u64 {
        self.set(Counts { tables: self.get().tables + 1, ..self.get() });
        let by_table = Windowed.products_by(c);
        move |x| {
            self.set(Counts { products: self.get().products + 1, ..self.get() });
            by_table(x)
        }
    }
}

/// The operations that the work makes.
pub fn counted<R>(work: impl FnOnce(&Cell<Counts>) -> R) -> Counts {
    let counts = Cell::default();
    work(&counts);
    counts.get()
}
