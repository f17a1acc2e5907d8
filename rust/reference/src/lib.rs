//! An implementation written from the paper alone, the comparisons of the library with it, and
//! samples and example transcripts of what it gives.

pub mod compare;
pub mod examples;
pub mod samples;

mod answer;
mod cases;
mod coset;
mod factor;
mod field;
mod fold;
mod parameters;
mod polynomial;
mod protocol;
mod queries;
mod random;
mod reed_solomon;
mod refusal;
mod sheet;
mod transcript;
mod transform;
