//! Calls that are lent a list for the sheet.

use super::{Bytes, Sheets};
use crate::compare::lent::{Lent, FILLS};
use crate::compare::program::Printed;
use crate::compare::{compare, Comparison, Input, Show, REFERENCE_AND_LIBRARY};
use crate::sheet::sheet;

/// A byte string, and the list that is lent for its sheet.
#[derive(Clone)]
pub struct Lending {
    bytes: Bytes,
    /// How much longer than the sheet it is. One that is shorter has at least no bytes.
    longer: isize,
    fill: u64,
}

/// Each byte string with one of the lists, and filled in one way or in the other, in turn.
pub fn longer<'a>(inputs: &'a [Bytes], longer: &'a [isize]) -> impl Iterator<Item = Lending> + 'a {
    let lists = longer.iter().flat_map(|longer| FILLS.map(|fill| (*longer, fill))).cycle();
    let lent =
        |(bytes, (longer, fill)): (&Bytes, _)| Lending { bytes: bytes.clone(), longer, fill };
    inputs.iter().zip(lists).map(lent)
}

impl Show for Lending {
    fn show(&self) -> String {
        let Lending { bytes, longer, fill } = self;
        format!("{}; list longer by {longer}, filled from {fill:x}", bytes.show())
    }
}

/// How much longer the list is stays, since a comparison may be about it.
impl Input for Lending {
    type Size = (usize, <Bytes as Input>::Size, u64);

    fn size(&self) -> Self::Size {
        (self.longer.unsigned_abs(), self.bytes.size(), self.fill)
    }

    fn simpler(&self) -> Vec<Lending> {
        let with = |bytes| Lending { bytes, ..*self };
        self.bytes.simpler().into_iter().map(with).collect()
    }
}

impl Lending {
    /// Lends the list, has it written to, and gives it with the length that is answered.
    fn after(&self, write: impl Fn(&[u8], &mut [u8]) -> u64) -> After {
        let length = sheet(&self.bytes).len().saturating_add_signed(self.longer);
        let mut lent = Lent::filled(length, self.fill);
        let answered = write(&self.bytes, lent.list());
        After { answered, lent }
    }
}

/// The length that is answered, and the list with the bytes around it.
#[derive(PartialEq)]
struct After {
    answered: u64,
    lent: Lent<u8>,
}

impl Show for After {
    fn show(&self) -> String {
        let list = Printed(self.lent.numbers[self.lent.list.clone()].to_vec()).show();
        let around = match self.lent.around_is_left() {
            true => "",
            false => ", and something around it",
        };
        format!("length {}, list {list}{around}", self.answered)
    }
}

/// Writes a sheet to the front of a list that it fits into, and gives its length.
pub fn write(sheet: &[u8], list: &mut [u8]) -> u64 {
    if let Some(front) = list.get_mut(..sheet.len()) {
        front.copy_from_slice(sheet);
    }
    sheet.len() as u64
}

pub fn compared(
    sheets: &Sheets,
    name: &'static str,
    inputs: impl Iterator<Item = Lending>,
) -> Comparison {
    let due = |bytes: &[u8], list: &mut [u8]| write(&sheet(bytes), list);
    compare(
        name,
        inputs,
        REFERENCE_AND_LIBRARY,
        |call| call.after(due),
        |call| call.after(&sheets.sheet_into),
    )
}
