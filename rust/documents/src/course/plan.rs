//! The timetable of section 1, and rules for the whole text.

use super::document::{ensure, Held, Place, Place::Section, Table};
use super::programs::cause;
use super::Course;

pub fn check(course: &Course) -> Held {
    let header = "start | minutes | part | sections | exercises";
    let days = course.document.tables(Section(1), header)?;
    ensure(days.len() == 2, format!("{} timetables", days.len()))?;
    days.iter().try_for_each(|day| adds_up(course, day))?;
    let named = |column: usize| numbers_of(days.iter().flatten().map(|row| &row[column]));
    // Sections 13 and 14 are the exercises and their answers.
    let (sections, exercises) = (named(3), named(4));
    let due: Vec<usize> = (1..=12).chain(15..=17).collect();
    ensure(sections == due, format!("the timetable has the sections {sections:?}"))?;
    let due: Vec<usize> = (1..=15).collect();
    ensure(exercises == due, format!("the timetable has the exercises {exercises:?}"))?;
    says!(course, Section(1); "Both days are from 9:00 to 17:00.")
}

/// Each part begins when the one before it is over; the day is from 9:00 to 17:00.
fn adds_up(course: &Course, day: &Table) -> Held {
    let mut now = 9 * 60;
    for row in day {
        let (start, due) = (&row[0], format!("{}:{:02}", now / 60, now % 60));
        ensure(*start == due, format!("{} begins at {start}, not {due}", row[2]))?;
        now += row[1].parse::<usize>()?;
    }
    course.document.count(day.len());
    ensure(now == 17 * 60, format!("a day ends {now} minutes after midnight"))
}

/// The numbers in these cells, each once, in order.
fn numbers_of<'a>(cells: impl Iterator<Item = &'a String>) -> Vec<usize> {
    let words = cells.flat_map(|cell| cell.split([',', ' ']));
    let mut numbers: Vec<usize> = words.filter_map(|word| word.parse().ok()).collect();
    numbers.sort_unstable();
    numbers.dedup();
    numbers
}

/// Every number that a place names, in words or in a line of judge, stands there with its cause.
pub fn check_causes(course: &Course) -> Held {
    for part in &course.document.parts {
        for number in numbers_named(&part.text) {
            // The cause of 13 lists all lists behind a colon.
            let words = cause(number).split(':').next().unwrap_or_default();
            let there = part.text.contains(words);
            ensure(there, format!("{} has number {number} without: {words}", part.place))?;
        }
    }
    Ok(())
}

/// The refusal numbers of a text: behind `number`, and second in a line of judge.
fn numbers_named(text: &str) -> Vec<u64> {
    let after = |key: &str| -> Vec<u64> {
        let rests = text.split(key).skip(1);
        let digits = rests.filter_map(|rest| rest.split(|c: char| !c.is_ascii_digit()).next());
        digits.filter_map(|digits| digits.parse().ok()).collect()
    };
    ["number ", "`refused ", "`accepted "].into_iter().flat_map(after).collect()
}

/// No exercise and no answer has a number that none of the checks before has found there.
pub fn check_all_held(course: &Course) -> Held {
    let parts = course.document.parts.iter();
    for part in parts.filter(|part| matches!(part.place, Place::Exercise(_) | Place::Answer(_))) {
        let (place, unheld) = (part.place, part.unheld().unwrap_or_default());
        ensure(unheld.is_empty(), format!("{place} has what no check computes: {unheld}"))?;
    }
    Ok(())
}
