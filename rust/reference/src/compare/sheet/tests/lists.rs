//! Sheets that are written to their lists in a wrong way.

use super::*;
use crate::compare::wrong::copy_what_fits;

/// Writes a sheet to a list, and gives what is answered.
type Write = fn(&[u8], &mut [u8]) -> u64;

/// What is wrong, and the comparisons that it shows in. With a list that is as long as the sheet
/// nothing is wrong.
const WRONG: [(&str, Write, &[&str]); 11] = [
    (
        "what fits is written",
        |sheet, list| {
            copy_what_fits(sheet, list);
            sheet.len() as u64
        },
        &[TOO_SHORT],
    ),
    (
        "the lines that fit are written",
        |sheet, list| {
            let whole = sheet.len().min(list.len()) / LINE_LENGTH * LINE_LENGTH;
            lending::write(&sheet[..whole], list);
            sheet.len() as u64
        },
        &[TOO_SHORT],
    ),
    (
        "a list that is too short is cleared",
        |sheet, list| {
            if list.len() < sheet.len() {
                list.fill(0);
            }
            lending::write(sheet, list)
        },
        &[TOO_SHORT],
    ),
    (
        "0 is answered for a list that is too short",
        |sheet, list| match list.len() < sheet.len() {
            true => 0,
            false => lending::write(sheet, list),
        },
        &[TOO_SHORT],
    ),
    (
        "the length of a list that is too short is answered",
        |sheet, list| lending::write(sheet, list).min(list.len() as u64),
        &[TOO_SHORT],
    ),
    (
        "a list that is one byte short is long enough",
        |sheet, list| match list.len() + 1 == sheet.len() {
            true => lending::write(&sheet[..list.len()], list) + 1,
            false => lending::write(sheet, list),
        },
        &[TOO_SHORT],
    ),
    (
        "the rest is cleared",
        |sheet, list| {
            let length = lending::write(sheet, list);
            list.iter_mut().skip(sheet.len()).for_each(|byte| *byte = 0);
            length
        },
        &[LONGER],
    ),
    (
        "a zero is written behind",
        |sheet, list| {
            list.iter_mut().skip(sheet.len()).take(1).for_each(|byte| *byte = 0);
            lending::write(sheet, list)
        },
        &[LONGER],
    ),
    (
        "the sheet is written to the end",
        |sheet, list| match list.len().checked_sub(sheet.len()) {
            Some(start) => lending::write(sheet, &mut list[start..]),
            None => lending::write(sheet, list),
        },
        &[LONGER],
    ),
    (
        "only a list of that length is written to",
        |sheet, list| match list.len() == sheet.len() {
            true => lending::write(sheet, list),
            false => sheet.len() as u64,
        },
        &[LONGER],
    ),
    (
        "the length of the list is answered",
        |sheet, list| {
            lending::write(sheet, list);
            list.len() as u64
        },
        &[LONGER, TOO_SHORT],
    ),
];

pub fn rows() -> Vec<Row<Sheets>> {
    let writing = |write: Write| Sheets {
        sheet_into: Box::new(move |bytes, list| write(&sheet(bytes), list)),
        ..right()
    };
    WRONG.map(|(what, write, differ)| row(what, writing(write)).differs(differ)).into()
}
