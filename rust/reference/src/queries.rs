//! Query lists in which no two share a first-layer coset.

use crate::parameters::Parameters;
use crate::random::Random;
use std::collections::BTreeSet;
use std::iter;

/// How many queries there can be in such a list, whatever their count may be.
pub fn most_apart(parameters: Parameters) -> usize {
    parameters.layer_length(0) >> parameters.step
}

/// So many queries, or one in each first-layer coset where there are fewer of these, in any order.
pub fn apart(random: &mut Random, parameters: Parameters, count: usize) -> Vec<u64> {
    let mut used = BTreeSet::new();
    let drawn = iter::repeat_with(|| random.below(parameters.layer_length(0)) as u64);
    let new = drawn.filter(|&query| used.insert(parameters.coset_used(query, 0)));
    new.take(count.min(most_apart(parameters))).collect()
}

/// One query in each first-layer coset, the cosets in their order.
pub fn in_each_coset(random: &mut Random, parameters: Parameters) -> Vec<u64> {
    let entries = 1 << parameters.step;
    let cosets = 0..most_apart(parameters) as u64;
    cosets.map(|coset| coset * entries + random.below(entries as usize) as u64).collect()
}

#[cfg(test)]
mod tests {
    use super::*;
    use crate::parameters::all_up_to;

    /// By division alone, the parameters' own cosets left aside.
    fn cosets_of(parameters: Parameters, queries: &[u64]) -> BTreeSet<u64> {
        assert!(queries.iter().all(|query| query >> parameters.k == 0));
        queries.iter().map(|query| query / 2u64.pow(parameters.step as u32)).collect()
    }

    #[test]
    fn as_many_as_asked_for_or_one_in_each_coset() {
        let random = &mut Random::named("queries apart");
        for parameters in all_up_to(9) {
            let all = 1 << (parameters.k - parameters.step);
            for count in [1, 2, 5, 256, 300] {
                let queries = apart(random, parameters, count);
                assert_eq!(queries.len(), count.min(all));
                assert_eq!(cosets_of(parameters, &queries).len(), queries.len());
            }
            let one_each = in_each_coset(random, parameters);
            assert!(cosets_of(parameters, &one_each).into_iter().eq(0..all as u64));
        }
    }
}
