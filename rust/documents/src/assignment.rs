//! The numbers of an assignment, in the form that docs/COURSE.md describes. A mistake in that form
//! is the tool's to find (`razgwilh write`), and what the numbers are good for the library's to say.

use std::collections::BTreeMap;

pub struct Assignment {
    pub k: usize,
    pub rate: usize,
    pub step: usize,
    pub offset: u64,
    pub basis: Vec<u64>,
    pub challenges: Vec<u64>,
    pub queries: Vec<u64>,
    pub coefficients: Vec<u64>,
}

/// The numbers of each name.
type Items<'a> = BTreeMap<&'a str, Vec<u64>>;

impl Assignment {
    pub fn read(text: &str) -> Result<Assignment, String> {
        let items = items(text)?;
        Ok(Assignment {
            k: one(&items, "k")? as usize,
            rate: one(&items, "R")? as usize,
            step: one(&items, "eta")? as usize,
            offset: one(&items, "offset")?,
            basis: list(&items, "basis")?.to_vec(),
            challenges: list(&items, "challenges")?.to_vec(),
            queries: list(&items, "queries")?.to_vec(),
            coefficients: list(&items, "coefficients")?.to_vec(),
        })
    }
}

/// A name is followed by its numbers, in its line or in those below.
fn items(text: &str) -> Result<Items<'_>, String> {
    let mut items = Items::new();
    let mut name = None;
    let before_comment = text.lines().filter_map(|line| line.split('#').next());
    for token in before_comment.flat_map(str::split_whitespace) {
        if !token.starts_with(|letter: char| letter.is_ascii_digit()) {
            name = Some(token);
            items.insert(token, Vec::new());
            continue;
        }
        let numbers = name.and_then(|name| items.get_mut(name));
        numbers.ok_or("a number before any name")?.push(number(token)?);
    }
    Ok(items)
}

fn number(token: &str) -> Result<u64, String> {
    let number = match token.strip_prefix("0x") {
        Some(digits) => u64::from_str_radix(digits, 16),
        None => token.parse(),
    };
    number.map_err(|_| format!("{token} is no number"))
}

fn list<'a>(items: &'a Items, name: &str) -> Result<&'a [u64], String> {
    items.get(name).map(Vec::as_slice).ok_or_else(|| format!("{name} is missing"))
}

fn one(items: &Items, name: &str) -> Result<u64, String> {
    match list(items, name)? {
        [number] => Ok(*number),
        _ => Err(format!("{name} has one number")),
    }
}
