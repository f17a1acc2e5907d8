//! Operations of the library beside the same methods in Rust, by the library's product and by
//! carry-less multiply hardware.

use crate::arithmetic::{Arithmetic, Windowed};
use crate::clock::{table, Work};
use crate::field;
use std::fmt::Debug;
use std::hint::black_box;

/// What an operation is given.
pub trait Operation: Copy {
    /// The lists that it fills in.
    type Room: PartialEq;
    type Answer: Debug + PartialEq;

    fn room(self) -> Self::Room;

    fn by_library(self, room: &mut Self::Room) -> Self::Answer;

    /// The library's method in Rust.
    fn by(self, arithmetic: impl Arithmetic, room: &mut Self::Room) -> Self::Answer;
}

/// One way to do an operation, and its name.
pub type Side<O> = (&'static str, fn(O, &mut <O as Operation>::Room) -> <O as Operation>::Answer);

/// The sides to time, the library's first; that of the hardware is left off where there is none.
fn sides<O: Operation>() -> Vec<Side<O>> {
    let mut sides: Vec<Side<O>> = vec![
        ("the library", O::by_library),
        ("the same method in Rust", |operation, room| operation.by(Windowed, room)),
    ];
    if field::hardware().is_some() {
        sides.push(("carry-less multiply hardware in Rust", with_hardware));
    }
    sides
}

/// What the library answers; all sides answer and fill in the same.
pub fn checked<O: Operation>(operation: O) -> O::Answer {
    let mut expected = operation.room();
    let answer = operation.by_library(&mut expected);
    for (name, side) in &sides()[1..] {
        let mut room = operation.room();
        assert_eq!(side(operation, &mut room), answer, "{name}");
        assert!(room == expected, "{name} and the library differ");
    }
    answer
}

/// Prints a line for each side, in the unit of so many nanoseconds.
pub fn compare<O: Operation>(operation: O, turns: usize, unit: &str, nanoseconds: f64) {
    table(works(operation), turns, unit, nanoseconds);
}

/// The work of each side.
pub fn works<'a, O: Operation + 'a>(operation: O) -> impl Iterator<Item = Work<'a>> {
    sides().into_iter().map(move |side| work(operation, side))
}

/// The room is made once, so that each turn but the first finds its memory in place.
pub fn work<'a, O: Operation + 'a>(operation: O, (name, side): Side<O>) -> Work<'a> {
    let mut room = operation.room();
    let run = move || {
        black_box(side(black_box(operation), &mut room));
        0
    };
    Work { name, run: Box::new(run) }
}

/// By carry-less multiply hardware, which the processor must have.
#[cfg(target_arch = "x86_64")]
fn with_hardware<O: Operation>(operation: O, room: &mut O::Room) -> O::Answer {
    #[derive(Clone, Copy)]
    struct Hardware;

    impl Arithmetic for Hardware {
        #[inline(always)]
        fn product(self, a: u64, b: u64) -> u64 {
            // SAFETY: made only below, where the processor has the instruction.
            unsafe { field::carryless_multiply(a, b) }
        }

        #[inline(always)]
        fn compiled<R>(self, work: impl FnOnce() -> R) -> R {
            // SAFETY: as above.
            unsafe { compiled_with_instruction(work) }
        }
    }

    // The product is inlined only into what is compiled for the instruction too.
    #[target_feature(enable = "pclmulqdq", enable = "sse2")]
    unsafe fn with_instruction<O: Operation>(operation: O, room: &mut O::Room) -> O::Answer {
        operation.by(Hardware, room)
    }

    // Apart from the above, which as a closure is compiled to slower code in the judge.
    #[target_feature(enable = "pclmulqdq", enable = "sse2")]
    unsafe fn compiled_with_instruction<R>(work: impl FnOnce() -> R) -> R {
        work()
    }

    assert!(field::hardware().is_some());
    // SAFETY: the processor has the instruction.
    unsafe { with_instruction(operation, room) }
}

#[cfg(not(target_arch = "x86_64"))]
fn with_hardware<O: Operation>(_: O, _: &mut O::Room) -> O::Answer {
    unreachable!("timed only where there is such hardware")
}
