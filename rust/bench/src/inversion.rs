//! The inversion of a list beside inverses one by one and beside the same method in Rust, with the
//! library's product and with carry-less multiply hardware; its products, short lists, and what
//! the set-ups gain by it.

mod blocks;

pub use blocks::invert;

use crate::arithmetic::{counted, Arithmetic, By, OneByOne, Windowed};
use crate::beside::{checked, work, works, Operation, Side};
use crate::clock::{least, table, Work};
use crate::coset::{independent, numbers, step_elements};
use crate::fold::inverses_of;
use crate::transform::Maps;
use std::hint::black_box;

const COUNTS: [usize; 2] = [4_096, 100_000];
const SHORT_COUNTS: [usize; 5] = [1, 2, 3, 8, 20];
/// Where the zeros of a list are.
const ZEROS: [(&str, Places); 3] = [
    ("no zeros", |_| false),
    ("a zero in every eighth place", |i| i % 8 == 7),
    ("all zeros", |_| true),
];
// Short pieces of work, so that some turn of each meets the machine at rest.
const CALLS: usize = 20;
const SHORT_TURNS: usize = 400;

type Places = fn(usize) -> bool;

pub fn report() {
    check();
    println!(
        "\ninverting a list, wanted at most 0.08 of one by one with 71 products and at most 1.30 \
         of the same method, for each element:"
    );
    for count in COUNTS {
        for (title, is_zero) in ZEROS {
            println!("  {count} elements, {title}:");
            compare(Inversion { elements: &elements(count, is_zero) });
        }
    }
    report_products();
    report_short();
    report_set_ups();
}

/// Pseudo-random elements, and zeros.
fn elements(count: usize, is_zero: Places) -> Vec<u64> {
    let mut next = numbers();
    (0..count).map(|i| if is_zero(i) { 0 } else { next() }).collect()
}

/// All sides answer the same: for no block, parts of a block, and several blocks.
fn check() {
    for count in [0, 1, 2, 3, 8, 20, 63, 64, 65, 127, 128, 129, 1_000] {
        for (title, is_zero) in ZEROS {
            let elements = elements(count, is_zero);
            let given = Inversion { elements: &elements };
            checked(given);
            let (mut at_once, mut one_by_one) = (given.room(), given.room());
            given.by_library(&mut at_once);
            library_one_by_one(given, &mut one_by_one);
            assert!(at_once == one_by_one, "{count} elements, {title}: the list differs");
        }
    }
}

fn compare(given: Inversion) {
    let count = given.elements.len();
    // About as long for each list.
    let turns = 8.max((1 << 18) / count);
    let mut works: Vec<Work> = works(given).collect();
    works.insert(1, work(given, ("one by one, 71 products each", products_one_by_one)));
    works.insert(2, work(given, ("the library, one by one", library_one_by_one)));
    table(works, turns, "ns", count as f64);
}

/// The elements to invert.
#[derive(Clone, Copy)]
struct Inversion<'a> {
    elements: &'a [u64],
}

impl Operation for Inversion<'_> {
    /// The list. It is inverted where it is: every second turn finds the elements again.
    type Room = Vec<u64>;
    type Answer = ();

    fn room(self) -> Vec<u64> {
        self.elements.to_vec()
    }

    fn by_library(self, list: &mut Vec<u64>) {
        razgwilh::invert(list);
    }

    #[inline(always)]
    fn by(self, arithmetic: impl Arithmetic, list: &mut Vec<u64>) {
        arithmetic.invert(list);
    }
}

fn library_one_by_one(_: Inversion, list: &mut Vec<u64>) {
    for x in list {
        *x = razgwilh::inverse(*x);
    }
}

/// With squarings by the library's product: squarings that spread bits halve an inverse's time.
fn products_one_by_one(_: Inversion, list: &mut Vec<u64>) {
    for x in list {
        *x = By(razgwilh::product).inverse(*x);
    }
}

fn report_products() {
    println!("\nproducts for each element, wanted about 4.2 where one by one takes 71:");
    for count in COUNTS {
        for (title, is_zero) in ZEROS {
            let title = format!("{count} elements, {title}");
            print_counts(&title, Inversion { elements: &elements(count, is_zero) });
        }
    }
}

fn print_counts(title: &str, given: Inversion) {
    let counts = counted(|arithmetic| given.by(arithmetic, &mut given.room())).with_inverses();
    let each = |count: u64| count as f64 / given.elements.len() as f64;
    println!(
        "    {title:<45}{:>5.2}, {:.2} of them squarings; {} inverses in all",
        each(counts.products + counts.squares),
        each(counts.squares),
        counts.inverses
    );
}

fn report_short() {
    println!("\nshort lists, in ns as a list and one by one, and the ratio:");
    for count in SHORT_COUNTS {
        print_short(Inversion { elements: &elements(count, |_| false) });
    }
}

/// By the library and in Rust.
fn print_short(given: Inversion) {
    let sides: [Side<Inversion>; 4] = [
        ("the library", Operation::by_library),
        ("the library, one by one", library_one_by_one),
        ("Rust", |given, list| given.by(Windowed, list)),
        ("Rust, one by one", |given, list| given.by(OneByOne(Windowed), list)),
    ];
    let times = least(&mut sides.map(|side| often(work(given, side))), SHORT_TURNS);
    println!(
        "    length {:>2}: the library {}; in Rust {}",
        given.elements.len(),
        ratio(times[0], times[1]),
        ratio(times[2], times[3])
    );
}

/// Both times of one call, and the first over the second.
fn ratio(first: f64, second: f64) -> String {
    let [a, b] = [first, second].map(|time| time / CALLS as f64);
    format!("{a:>7.0} {b:>7.0} {:>5.2}", first / second)
}

/// So many times that the clock's own time counts for little.
fn often(mut work: Work) -> Work {
    let run = move || (0..CALLS).fold(0, |sum, _| sum ^ (work.run)());
    Work { name: work.name, run: Box::new(run) }
}

fn report_set_ups() {
    println!("\nset-up in Rust, in ns with inverses one by one and as a list, and the ratio:");
    let basis = independent(20, numbers());
    let basis = || black_box(&basis[..]);
    print_gain(
        "transform, 20 elements",
        || Maps::of(OneByOne(Windowed), basis()),
        || Maps::of(Windowed, basis()),
    );
    for step in 1..=3 {
        print_gain(
            &format!("layer of a fold or a judge, step {step}"),
            || step_set_up(OneByOne(Windowed), basis(), step),
            || step_set_up(Windowed, basis(), step),
        );
    }
}

/// The inverses that a layer needs, with the elements.
fn step_set_up(arithmetic: impl Arithmetic, basis: &[u64], step: usize) -> [u64; 3] {
    let elements = step_elements(arithmetic, basis, step);
    inverses_of(arithmetic, &elements[..step])
}

fn print_gain<R>(title: &str, one_by_one: impl Fn() -> R, by_list: impl Fn() -> R) {
    let times =
        least(&mut [set_up("one by one", one_by_one), set_up("list", by_list)], SHORT_TURNS);
    println!("    {title:<38}{}", ratio(times[0], times[1]));
}

fn set_up<'a, R>(name: &'a str, work: impl Fn() -> R + 'a) -> Work<'a> {
    let run = move || {
        black_box(work());
        0
    };
    often(Work { name, run: Box::new(run) })
}
