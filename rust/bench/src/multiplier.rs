//! The library's product by a fixed element, by a table of its multiples.

use crate::field::reduced;

/// The multiples by the polynomials of four bits, each set of sixteen at the next four places.
pub type Table = [u64; 64];

/// The library's method: sixteen shifts, and a sum for each entry. It is called, as the library
/// does; inlined, it gains nothing.
#[inline(never)]
pub fn multiples(c: u64) -> Table {
    let mut table = [0; 64];
    let mut b = c;
    for block in table.chunks_exact_mut(16) {
        let mut step = b;
        for bit in 0..4 {
            let count = 1 << bit;
            for j in 0..count {
                block[count + j] = block[j] ^ step;
            }
            step = shifted(step, 1);
        }
        b = shifted(b, 4);
    }
    table
}

/// t^k · v.
#[inline(always)]
fn shifted(v: u64, k: u32) -> u64 {
    reduced(v >> (64 - k), v << k)
}

/// The product by the element whose table it is: four products by 16 bits, reduced together.
#[inline(always)]
pub fn times(table: &Table, x: u64) -> u64 {
    let (mut high, mut low) = (0, times16(table, x % 65536));
    for n in 1..4 {
        let part = times16(table, (x >> (16 * n)) % 65536);
        high ^= part >> (64 - 16 * n);
        low ^= part << (16 * n);
    }
    reduced(high, low)
}

#[inline(always)]
fn times16(table: &Table, x: u64) -> u64 {
    (0..4).fold(0, |sum, n| sum ^ table[16 * n + (x >> (4 * n)) as usize % 16])
}
