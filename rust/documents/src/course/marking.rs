//! Sections 15 and 16: what a marker compares, and assignments.

use super::cases::Case;
use super::document::{ensure, Held, Place::Section, ANY};
use super::rounds::visited;
use super::text::thousands;
use super::Course;
use razgwilh::Cause;

pub fn check(course: &Course) -> Held {
    sizes(course)?;
    by_number(course)?;
    assignments(course)?;
    limits(course)
}

/// The bytes of sections 1 to 5, and all, which are those of section 15's formulas.
fn sizes_of(case: &Case) -> Held<(usize, usize)> {
    let (run, sent) = (case.run(), case.proved()?);
    let front: usize = sent.0[..5].iter().map(|section| 4 + 8 * section.len()).sum();
    let entries = 4 + case.k() + run.rounds() + case.queries.len() + case.word.len();
    let all = 4 * (5 + run.rounds()) + 8 * (entries + run.store_length() + run.last_length());
    let right = front == 4 * 5 + 8 * entries && all == sent.bytes().len();
    ensure(right, "the formulas of section 15 give other sizes")?;
    Ok((front, all))
}

fn sizes(course: &Course) -> Held {
    let mut rows = Vec::new();
    for (number, case) in
        [("05", &course.exercise_5), ("07", &course.exercise_7), ("15", &course.exercise_15)]
    {
        let (front, all) = sizes_of(case)?;
        let (front, all, line) = (thousands(front), thousands(all), course.judge(&case.proved()?)?);
        // Where it is accepted, no two queries share a first-layer coset.
        let (cosets, seen) = (case.first_layer_cosets(), visited(&case.queries, case.step).len());
        let name = format!("`examples/exercise_{number}.assignment`");
        rows.push(row!["{name}", "{front}", "{all}", "{line}", "{cosets}", "{seen}"]);
    }
    let header =
        "assignment | sections 1 to 5 | bytes in all | line | first-layer cosets | visited";
    course.document.rows_are(Section(15), header, &rows)?;
    let (front, _) = sizes_of(&course.exercise_5)?;
    let left_out = course.exercise_15.first_layer_cosets() - course.exercise_15.queries.len();
    says!(course, Section(15);
        "They are its first 4 × 5 + 8 × (4 + k + r + queries + 2^k) bytes, of 4 × (5 + r) + 8 × (4 +
         k + r + queries + 2^k + store + d) in all"
        "the line is that of a right prover, with number 0 (accepted):"
        "an acceptance says nothing of the {left_out} cosets that are not visited."
        "cmp -n {front} due own"
    )
}

/// The marker's table has a row for each number that judge gives, three for 11.
fn by_number(course: &Course) -> Held {
    let mut rows = Vec::new();
    for cause in Cause::ALL {
        let (number, words) = (cause.number(), cause.words());
        let rounds: &[&str] = match cause {
            Cause::DegreeTooLarge | Cause::WrongLength => &[],
            Cause::RoundCheckFails => &[", round 0", ", round 1 to r-2", ", round r-1"],
            _ => &[""],
        };
        rows.extend(rounds.iter().map(|round| row!["{number}{round}", "{words}", "{ANY}"]));
    }
    course.document.rows_are(Section(15), "number | cause | what to look at", &rows)
}

fn assignments(course: &Course) -> Held {
    let case_k = course.read("examples/k.assignment")?;
    let (word, bound) = (thousands(1 << 14), 1 << (course.case_k.k() - course.case_k.rate));
    says!(course, Section(16);
        "{case_k}"
        "an exercise at k 14 needs no word of {word} numbers."
        "Case K with the coefficients 0, 0, 0, 0, 1, whose degree 4 is not below 2^(k-R) = {bound}:"
    )?;
    // What comes by standard input the library refuses.
    let refused = "sed 's/^R.*/R 7/' examples/k.assignment";
    let commands =
        ["write examples/k.assignment -", "write - -", "write examples/none.assignment -"];
    course.programs.end_in_turn(refused, commands)?;
    let rows = [0, 1, 2].map(|status| row!["{status}", "{ANY}"]);
    course.document.rows_are(Section(16), "exit status | when", &rows)
}

/// What the tool says of an assignment with a byte or a number too many.
fn limits(course: &Course) -> Held {
    let (bytes, numbers) = (1 << 25, 1 << 20);
    let too_long = format!("head -c {} /dev/zero | tr '\\0' '#'", bytes + 1);
    let too_many = format!("(echo word && yes 0 | head -n {})", numbers + 1);
    for (before, due) in [
        (too_long, format!("over {bytes} bytes\n")),
        (too_many, format!("over {numbers} numbers of word\n")),
    ] {
        let said = String::from_utf8(course.programs.tool(&before, "write - -")?.stderr)?;
        ensure(said.ends_with(&due), format!("the tool says {said}, not {due}"))?;
    }
    let [bytes, numbers] = [bytes, numbers].map(thousands);
    says!(course, Section(16);
        "A file has at most {bytes} bytes, and a name at most {numbers} numbers."
    )
}
