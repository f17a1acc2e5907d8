//! Compares the library, and the programs `judge` and `sheet`, with an implementation written
//! from the paper alone.
//!
//! It prints a line for each comparison. It ends with 0 if all agree, and with
//! 1 if one differs, having shown the smallest input that it found.

use reference::compare;
use reference::compare::operation::Razgwilh;
use std::process::ExitCode;

fn main() -> ExitCode {
    // Each part of the library has a file of its own under `compare`.
    let judges = compare::transcript::Judges::razgwilh();
    let transcripts = compare::transcript::comparisons(&judges, &compare::transcript::FULL);
    let sheets = compare::sheet::Sheets::razgwilh();
    let sheets = compare::sheet::comparisons(&sheets, &compare::sheet::FULL);
    let lists = compare::field::lists::Lists::razgwilh();
    let parts = [
        compare::numbers::comparisons(&compare::numbers::Numbers::razgwilh()),
        compare::field::comparisons(&compare::field::Field::razgwilh(), compare::field::FULL),
        compare::field::lists::comparisons(&lists, &compare::field::lists::FULL),
        compare::reed_solomon::comparisons(&Razgwilh, &compare::reed_solomon::FULL),
        compare::fold::comparisons(&Razgwilh, &compare::fold::FULL),
        compare::fold::bases::comparisons(&Razgwilh, &compare::fold::bases::FULL),
        compare::protocol::comparisons(&Razgwilh, &compare::protocol::FULL),
        compare::write::comparisons(&Razgwilh, &compare::write::FULL),
        transcripts.comparisons,
        sheets.comparisons,
    ];
    let report = compare::report(&parts.concat(), &(transcripts.table + &sheets.table));
    print!("{}", report.text);
    if report.agrees {
        ExitCode::SUCCESS
    } else {
        ExitCode::FAILURE
    }
}
