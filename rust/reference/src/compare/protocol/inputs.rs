//! The runs that are proved and judged: right ones, damaged ones, and their queries.

pub mod damaged;
pub mod known;
pub mod queries;
pub mod right;
pub mod together;

use crate::parameters::{all_up_to, Parameters};
use crate::protocol::QUERY_COUNTS;
use crate::queries::apart;
use crate::random::Random;

/// How many inputs of each dimension, from 0 on, with all the rates and steps that it takes.
pub type Turns = [usize; 10];

/// All parameters that there are turns for, with the number of each turn.
pub fn turns(amounts: &[usize]) -> impl Iterator<Item = (Parameters, usize)> + '_ {
    let of = |parameters: Parameters| {
        (0..amounts[parameters.k as usize]).map(move |turn| (parameters, turn))
    };
    all_up_to(amounts.len() as u64 - 1).into_iter().flat_map(of)
}

/// Any query of a run.
pub fn any_query(random: &mut Random, parameters: Parameters) -> u64 {
    random.below(parameters.layer_length(0)) as u64
}

/// Any of them, which may share their cosets.
pub fn any_queries(random: &mut Random, parameters: Parameters, count: usize) -> Vec<u64> {
    (0..count).map(|_| any_query(random, parameters)).collect()
}

/// A few, or as many as there may be.
pub fn any_count(random: &mut Random) -> usize {
    match random.below(8) {
        0 => *QUERY_COUNTS.end(),
        few => few,
    }
}

/// So many queries, apart from each other for as long as there are cosets left.
pub fn mostly_apart(random: &mut Random, parameters: Parameters, count: usize) -> Vec<u64> {
    let mut queries = apart(random, parameters, count);
    let more = count - queries.len();
    queries.extend(any_queries(random, parameters, more));
    queries
}

pub fn all_queries(parameters: Parameters) -> Vec<u64> {
    (0..parameters.layer_length(0) as u64).collect()
}
