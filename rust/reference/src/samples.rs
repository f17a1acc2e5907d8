//! The table of samples that the definitions are computed against: small inputs, and what the
//! reference gives for them.
//!
//! Rows divide by 1, for the sake of the one who computes them: see `bases`. Where nothing is
//! divided the values may be any, and the steps as well: steps 2 and 3 occur in layouts,
//! indices, cosets, lookups and refusals alone.

mod bases;
mod judged;
mod layers;
mod proved;
mod runs;
mod table;

use crate::protocol::Run;
use crate::transcript::Judging;
use table::{group, HEADER};

/// The whole table, the same each time.
pub fn text() -> String {
    let judged = |name, samples: &[Judging]| group(name, "JudgedSample", samples, judged::row);
    let proved = |name, samples: &[Run]| group(name, "ProvedSample", samples, proved::row);
    let [in_two_rounds, in_three_rounds, at_high_degree] = judged::failing();
    let groups = [
        group("layouts", "LayoutSample", &layers::layouts(), layers::layout_row),
        group("indices", "IndexSample", &layers::queries(), layers::index_row),
        group("cosets", "CosetSample", &layers::first_cosets(), layers::coset_row),
        group("lookups", "LookupSample", &layers::lookups(), layers::lookup_row),
        judged("judged_of_table_a", &judged::cases_of_table_a()),
        judged("judged_accepted", &judged::accepted()),
        judged("judged_failing_in_two_rounds", &in_two_rounds),
        judged("judged_failing_in_three_rounds", &in_three_rounds),
        judged("judged_at_high_degree", &at_high_degree),
        judged("judged_refused", &judged::refused()),
        proved("proved_well", &proved::well()),
        proved("proved_at_high_degree", &proved::at_high_degree()),
        proved("proved_refused", &proved::refused()),
    ];
    format!("{HEADER}{}", groups.concat())
}
