//! What the sections of a transcript hold, by their numbers.

use super::Part;
use crate::pictures::element;
use std::ops::RangeInclusive;

pub struct Parameters {
    k: usize,
    step: usize,
    rounds: usize,
    /// How many last coefficients there are.
    last: usize,
}

impl Parameters {
    /// From section 1; there are as many sections as they ask for.
    pub fn of(parts: &[Part]) -> Result<Parameters, String> {
        let first = parts.first().map(|part| &part.entries[..]);
        let Some([k, rate, step]) = first else { return Err("no parameters".into()) };
        let [k, rate, step] = [k, rate, step].map(|entry| u64::from_le_bytes(*entry) as usize);
        let (rounds, last) =
            (razgwilh::rounds(k, rate, step), razgwilh::last_length(k, rate, step));
        if rounds == 0 || parts.len() != 5 + rounds {
            return Err(format!("{} sections at k {k}, R {rate}, η {step}", parts.len()));
        }
        Ok(Parameters { k, step, rounds, last })
    }

    pub fn holds(&self, number: usize) -> String {
        match number {
            1 => "parameters k, R, η".into(),
            2 => "offset and basis".into(),
            3 => "challenges".into(),
            4 => "queries".into(),
            5 => "layer 0, the word".into(),
            _ if number < 5 + self.rounds => format!("layer {}", number - 5),
            _ => "last coefficients".into(),
        }
    }

    /// The count due as a formula, and what it comes to; the count has to be due.
    pub fn due(&self, number: usize, count: usize) -> Result<String, String> {
        let (formula, due) = self.formula(number);
        if !due.contains(&count) {
            return Err(format!("section {number} has count {count}, due is {formula}"));
        }
        match number {
            1 | 4 => Ok(formula),
            _ => Ok(format!("{formula} = {count}")),
        }
    }

    fn formula(&self, number: usize) -> (String, RangeInclusive<usize>) {
        let Parameters { k, step, rounds, last } = *self;
        let (formula, count) = match number {
            1 => ("3", 3),
            2 => ("k + 1", k + 1),
            3 => ("r", rounds),
            4 => return ("1 to 256".into(), 1..=256),
            5 => ("2^k", 1 << k),
            _ if number == 5 + rounds => ("d", last),
            6 => ("2^(k-η)", 1 << (k - step)),
            _ => {
                let (i, count) = (number - 5, 1 << (k - (number - 5) * step));
                return (format!("2^(k-{i}η)"), count..=count);
            }
        };
        (formula.into(), count..=count)
    }

    pub fn meaning(&self, number: usize, place: usize, value: u64) -> String {
        let shown = element(value);
        match number {
            1 => format!("{} = {value}", ["k", "R", "η"][place]),
            2 if place == 0 => format!("offset {shown}"),
            2 => format!("b_{} = {shown}", place - 1),
            3 => format!("challenge {place} is {shown}"),
            4 => format!("query {place}: index {value}"),
            _ if number < 5 + self.rounds => format!("entry {place} is {shown}"),
            _ => format!("coefficient {place} is {shown}"),
        }
    }
}
