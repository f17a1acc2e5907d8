//! The product beside the 64-step loop, the same method in Rust and carry-less multiply
//! hardware; the inverse beside the same, and as a number of products; squaring by spreading bits.

use crate::arithmetic::{Arithmetic, By, Windowed};
use crate::clock::{least, print_table, table, Work};
use std::hint::black_box;

const REDUCTION: u64 = 0x1b;
// Short pieces of work, so that some turn of each meets the machine at rest.
const CALLS: usize = 2_000;
const TURNS: usize = 2_000;
const INVERSES: usize = 50;

type Product = fn(u64, u64) -> u64;

pub fn report() {
    println!("\nproduct, wanted at most 0.25 of the loop and at most 1.30 of the same method:");
    compare("each factor new", independent);
    compare("each product a factor of the next", chain);
    report_inverse();
    report_squaring();
}

fn report_inverse() {
    println!(
        "\ninverse, wanted at most 80 products, at most 1.30 of the same method and at most 0.59 \
         of that with squarings by the product:"
    );
    let mut works = vec![
        inverses("the library", razgwilh::inverse),
        inverses("squarings by the library's product", |a| By(razgwilh::product).inverse(a)),
        inverses("the same method in Rust", |a| Windowed.inverse(a)),
        inverses("squarings by the product in Rust", |a| By(windowed).inverse(a)),
    ];
    if let Some(hardware) = hardware() {
        let inverse = move |a| By(hardware).inverse(a);
        works.push(inverses("carry-less multiply hardware in Rust", inverse));
    }
    table(works, TURNS, "ns", INVERSES as f64);
}

/// The library lends no squaring: its time is what an inverse takes beside its products.
fn report_squaring() {
    println!("\nsquaring, which spreads bits, wanted at most 0.55 of a product:");
    let mut works = [
        inverses("inverse", razgwilh::inverse),
        work("product", razgwilh::product, chain),
        work("product by itself", razgwilh::product, squarings),
        work("spreading", |a, _| square(a), squarings),
        work("windowed", windowed, squarings),
    ];
    let mut times = least(&mut works, TURNS);
    times[0] /= INVERSES as f64;
    times[1..].iter_mut().for_each(|time| *time /= CALLS as f64);
    let [inverse, product, by_itself, spreading, windowed] = times[..] else {
        unreachable!("a time for each work")
    };
    println!(
        "  the library, whose inverse takes as long as {:.1} products in a row, {:.1} of each \
         factor by itself:",
        inverse / product,
        inverse / by_itself
    );
    let squaring = (inverse - 8.0 * product) / 63.0;
    let library = [("squaring in the inverse", squaring), ("the product", by_itself)];
    print_table(&library, "ns", 1.0);
    println!("  in Rust:");
    print_table(&[("spreading bits", spreading), ("the product", windowed)], "ns", 1.0);
}

/// The library's time over each method's time, with the calls arranged by `calls`.
fn compare(title: &str, calls: fn(Product) -> u64) {
    let mut works = vec![
        work("the library", razgwilh::product, calls),
        work("64-step loop in Rust", stepwise, calls),
        work("the same method in Rust", windowed, calls),
    ];
    if let Some(hardware) = hardware() {
        works.push(work("carry-less multiply hardware in Rust", hardware, calls));
    }
    println!("  {title}:");
    // One nanosecond for each of the calls, so that the times are those of one.
    table(works, TURNS, "ns", CALLS as f64);
}

fn work(name: &'static str, product: Product, calls: fn(Product) -> u64) -> Work<'static> {
    Work { name, run: Box::new(move || calls(product)) }
}

fn independent(product: Product) -> u64 {
    let mut x: u64 = black_box(0x9e37_79b9_7f4a_7c15);
    let mut sum = 0;
    for _ in 0..CALLS {
        x = x.wrapping_mul(0x5851_f42d_4c95_7f2d).wrapping_add(0x1405_7b7e_f767_814f);
        sum ^= product(x, x.rotate_left(17));
    }
    sum
}

fn chain(product: Product) -> u64 {
    let factor = black_box(0x9e37_79b9_7f4a_7c15);
    (0..CALLS as u64).fold(black_box(0x0123_4567_89ab_cdef), |x, i| product(x ^ i, factor))
}

fn squarings(product: Product) -> u64 {
    (0..CALLS).fold(black_box(0x0123_4567_89ab_cdef), |x, _| product(x, x))
}

/// Each inverse is inverted next, with other bits.
fn inverses(name: &'static str, inverse: impl Fn(u64) -> u64 + 'static) -> Work<'static> {
    let run = move || (1..=INVERSES as u64).fold(black_box(2), |x, i| inverse(x ^ i << 32));
    Work { name, run: Box::new(run) }
}

/// Doubles and adds, a bit at a time.
#[inline(never)]
fn stepwise(mut a: u64, mut b: u64) -> u64 {
    let mut r = 0;
    for _ in 0..64 {
        if b & 1 == 1 {
            r ^= a;
        }
        b >>= 1;
        a = (a << 1) ^ if a >> 63 == 1 { REDUCTION } else { 0 };
    }
    r
}

/// The library's method: a window of four bits over halves of 32 bits, then the reduction. The
/// sum of the mixed products has functions of its own here, which rustc compiles to the fastest
/// code.
#[inline(never)]
pub fn windowed(a: u64, b: u64) -> u64 {
    let (low, high) = (window(a & 0xffff_ffff), window(a >> 32));
    let (x, y) = (b >> 32, b & 0xffff_ffff);
    let middle = mixed32(&low, &high, x, y);
    reduced(times32(&high, x) ^ middle >> 32, times32(&low, y) ^ middle << 32)
}

type Table = [u64; 16];

#[inline(always)]
fn window(a: u64) -> Table {
    let mut t = [0; 16];
    let mut n = 1;
    while n < 16 {
        t[n] = if n % 2 == 1 { (t[n / 2] << 1) ^ a } else { t[n / 2] << 1 };
        n += 1;
    }
    t
}

#[inline(always)]
fn times8(t: &Table, b: u64) -> u64 {
    (t[(b / 16) as usize & 15] << 4) ^ t[(b % 16) as usize]
}

#[inline(always)]
fn times16(t: &Table, b: u64) -> u64 {
    (times8(t, b / 256) << 8) ^ times8(t, b % 256)
}

#[inline(always)]
fn times32(t: &Table, b: u64) -> u64 {
    (times16(t, b / 65536) << 16) ^ times16(t, b % 65536)
}

#[inline(always)]
fn mixed8(t: &Table, u: &Table, x: u64, y: u64) -> u64 {
    ((t[(x / 16) as usize & 15] ^ u[(y / 16) as usize & 15]) << 4)
        ^ t[(x % 16) as usize]
        ^ u[(y % 16) as usize]
}

#[inline(always)]
fn mixed16(t: &Table, u: &Table, x: u64, y: u64) -> u64 {
    (mixed8(t, u, x / 256, y / 256) << 8) ^ mixed8(t, u, x % 256, y % 256)
}

#[inline(always)]
fn mixed32(t: &Table, u: &Table, x: u64, y: u64) -> u64 {
    (mixed16(t, u, x / 65536, y / 65536) << 16) ^ mixed16(t, u, x % 65536, y % 65536)
}

#[inline(always)]
pub fn reduced(high: u64, low: u64) -> u64 {
    let h = high ^ (high >> 60) ^ (high >> 61) ^ (high >> 63);
    low ^ h ^ (h << 1) ^ (h << 3) ^ (h << 4)
}

/// The bits of a go to the even places of the square, which is then reduced.
#[inline(always)]
pub fn square(a: u64) -> u64 {
    reduced(spread(a >> 32), spread(a & 0xffff_ffff))
}

/// Bit i of 32 goes to place 2 i: halves, quarters and so on move apart.
#[inline(always)]
fn spread(a: u64) -> u64 {
    let a = (a ^ a << 16) & 0x0000_ffff_0000_ffff;
    let a = (a ^ a << 8) & 0x00ff_00ff_00ff_00ff;
    let a = (a ^ a << 4) & 0x0f0f_0f0f_0f0f_0f0f;
    let a = (a ^ a << 2) & 0x3333_3333_3333_3333;
    (a ^ a << 1) & 0x5555_5555_5555_5555
}

/// The library's method: the power with exponent 2^64 - 2, by 63 squarings and 8 products.
#[inline(always)]
pub fn inverse(arithmetic: impl Arithmetic, a: u64) -> u64 {
    // a^(2^n).
    let squared = |a, n| (0..n).fold(a, |x, _| arithmetic.square(x));
    // a^(2^n) · b.
    let raised = |a, n, b| arithmetic.product(squared(a, n), b);
    let ones_2 = raised(a, 1, a);
    let ones_3 = raised(ones_2, 1, a);
    let ones_6 = raised(ones_3, 3, ones_3);
    let ones_12 = raised(ones_6, 6, ones_6);
    let ones_15 = raised(ones_12, 3, ones_3);
    let ones_30 = raised(ones_15, 15, ones_15);
    let ones_60 = raised(ones_30, 30, ones_30);
    let ones_63 = raised(ones_60, 3, ones_3);
    squared(ones_63, 1)
}

#[cfg(target_arch = "x86_64")]
pub fn hardware() -> Option<Product> {
    fn product(a: u64, b: u64) -> u64 {
        // SAFETY: handed out only where the processor has the instruction.
        unsafe { carryless_multiply(a, b) }
    }
    std::is_x86_feature_detected!("pclmulqdq").then_some(product as Product)
}

#[cfg(not(target_arch = "x86_64"))]
pub fn hardware() -> Option<Product> {
    None
}

#[cfg(target_arch = "x86_64")]
#[target_feature(enable = "pclmulqdq", enable = "sse2")]
pub unsafe fn carryless_multiply(a: u64, b: u64) -> u64 {
    use std::arch::x86_64::{_mm_clmulepi64_si128, _mm_cvtsi128_si64, _mm_set_epi64x};
    let number = |x: u64| _mm_set_epi64x(0, x as i64);
    let wide = _mm_clmulepi64_si128(number(a), number(b), 0);
    let once = _mm_clmulepi64_si128(wide, number(REDUCTION), 1);
    let twice = _mm_clmulepi64_si128(once, number(REDUCTION), 1);
    (_mm_cvtsi128_si64(wide) ^ _mm_cvtsi128_si64(once) ^ _mm_cvtsi128_si64(twice)) as u64
}
