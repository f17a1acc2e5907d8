//! Transcripts that come as files, each with the lines that the judging program prints for it, and
//! with its sheet where it has one.

use crate::cases::{
    of_case_f, of_case_h, of_case_k, of_case_l, of_case_m, queries_of_case_p,
    too_many_queries_of_case_p, PARAMETERS_OF_CASE_P,
};
use crate::coset::{point, points};
use crate::field::{product, sum};
use crate::fold::Coset;
use crate::parameters::Parameters;
use crate::protocol::{cosets_from, Run};
use crate::queries::apart;
use crate::random::Random;
use crate::sheet::sheet_of_program;
use crate::transcript::{judge_of_program, lines, sections, transcript, written, Section};
use std::path::Path;
use std::{fs, io};

/// A name, and a transcript or what is given for one.
type Example = (&'static str, Vec<u8>);

/// Writes the files of each example: its bytes, the lines of its verdict and, unless that one has
/// no lines, its sheet.
pub fn write_to(folder: &Path) -> io::Result<()> {
    fs::create_dir_all(folder)?;
    for (name, bytes) in all() {
        let file = |ending: &str| folder.join(format!("{name}.{ending}"));
        fs::write(file("transcript"), &bytes)?;
        fs::write(file("lines"), lines(&judge_of_program(&bytes)))?;
        let sheet = sheet_of_program(&bytes);
        if !sheet.is_empty() {
            fs::write(file("sheet"), sheet)?;
        }
    }
    Ok(())
}

/// The same ones each time.
fn all() -> Vec<Example> {
    [of_table_a(), of_numbers(), of_limits(), of_long_inputs()].concat()
}

// Table A.

fn of_table_a() -> Vec<Example> {
    let (g, h, k, l) = (of_case_f(), of_case_h(), of_case_k(), of_case_l());
    vec![
        ("g", transcript(&g, &[0, 3])),
        ("h", transcript(&h, &[0, 3])),
        ("i", transcript(&h, &[0])),
        ("k", transcript(&k, &[5])),
        ("l_query_0", transcript(&l, &[0])),
        ("l_query_7", transcript(&l, &[7])),
        ("n_empty", Vec::new()),
        ("p_256_queries", of_case_p(&queries_of_case_p())),
    ]
}

/// An honest run with these queries.
fn of_case_p(queries: &[u64]) -> Vec<u8> {
    let random = &mut Random::named("example of case P");
    transcript(&honest(random, PARAMETERS_OF_CASE_P), queries)
}

// One for each number.

/// Case K with a change, but for numbers 8 and 9.
fn of_numbers() -> Vec<Example> {
    let whole = transcript(&of_case_k(), &[5]);
    let in_the_word = &whole[..130];
    let one_behind = [&whole[..], &[0]].concat();
    vec![
        ("number_01", in_the_word.to_vec()),
        ("number_02", changed(|all| all[5].count = 3)),
        ("number_03", one_behind),
        ("number_04", with_parameters([21, 1, 1])),
        ("number_05", with_parameters([3, 7, 1])),
        ("number_06", with_parameters([3, 1, 4])),
        ("number_07", with_parameters([3, 2, 2])),
        ("number_08", transcript(&of_case_m(), &[5])),
        ("number_09", of_case_p(&too_many_queries_of_case_p())),
        ("number_10", transcript(&of_case_k(), &[5, 8])),
        ("number_11", changed(|all| all[6].entries[0] = 2)),
        ("number_17", transcript(&of_case_k(), &[5, 0, 4])),
    ]
}

fn changed(change: impl FnOnce(&mut Vec<Section>)) -> Vec<u8> {
    let mut sections = sections(&of_case_k(), &[5]);
    change(&mut sections);
    written(&sections)
}

fn with_parameters(parameters: [u64; 3]) -> Vec<u8> {
    changed(|all| all[0].entries = parameters.to_vec())
}

// As long as the program takes it, and a byte more.

fn of_limits() -> Vec<Example> {
    let random = &mut Random::named("example of the largest transcript");
    let parameters = Parameters { k: 12, rate: 5, step: 1 };
    let run = honest(random, parameters);
    // The queries begin behind a number that nothing needs: without it they would be others.
    random.number();
    let largest = transcript(&run, &apart(random, parameters, 34));
    let one_more = [&largest[..], &[0]].concat();
    vec![("number_14", one_more), ("largest", largest)]
}

// Far more bytes than the program takes.

/// Sections 1 to 4 of case K with zeros behind, which are no layers: with k made 21, and as they
/// are.
fn of_long_inputs() -> Vec<Example> {
    let long = |k| {
        let mut bytes = changed(|all| {
            all.truncate(4);
            all[0].entries[0] = k;
        });
        bytes.resize(70_000, 0);
        bytes
    };
    vec![("long_with_k_21", long(21)), ("long_with_a_good_front", long(3))]
}

// Honest runs. They do not change with what is compared, and so the files stay.

/// One with step 1 and one last coefficient, from the last layer back: an entry is that of the
/// next layer times a line that is 1 at the challenge, and so the fold is the next layer.
fn honest(random: &mut Random, parameters: Parameters) -> Run {
    let (basis, offset) = (random.list(parameters.k as usize), random.number());
    let mut cosets = cosets_from(parameters, &Coset { offset, basis: basis.clone() });
    cosets.pop();
    let challenges = challenges(random, &cosets);
    let last = vec![random.number() | 1];
    let mut layers = vec![last.repeat(parameters.layer_length(parameters.rounds()))];
    for (coset, challenge) in cosets.iter().zip(&challenges).rev() {
        let [_, slope] = random.numbers();
        let line = |x| sum(1, product(slope | 1, sum(x, *challenge)));
        let next = layers[0].iter().flat_map(|&entry| [entry; 2]);
        let points = points(coset.offset, &coset.basis).into_iter();
        layers.insert(0, points.zip(next).map(|(x, entry)| product(entry, line(x))).collect());
    }
    let (word, store) = (layers[0].clone(), layers[1..cosets.len()].concat());
    Run { parameters, offset, basis, challenges, word, store, last }
}

/// One for each layer, of another sort than the one before it: any number, 0, 1, all ones, a
/// point, a zero of q, and what one bit keeps from being a point.
fn challenges(random: &mut Random, cosets: &[Coset]) -> Vec<u64> {
    let challenge = |(sort, Coset { offset, basis }): (usize, &Coset)| match sort {
        0 => random.number(),
        1 => 0,
        2 => 1,
        3 => u64::MAX,
        4 => point(*offset, basis, random.number()),
        5 => point(0, &basis[..1], random.number()),
        _ => point(offset ^ (1 << random.below(64)), basis, random.number()),
    };
    cosets.iter().enumerate().map(challenge).collect()
}

#[cfg(test)]
mod tests {
    use super::*;
    use crate::answer::{refused, refused_at};
    use crate::transcript::judge;

    #[test]
    fn each_number_is_that_of_the_name() {
        for (name, bytes) in all() {
            if let Some(number) = name.strip_prefix("number_") {
                assert_eq!(format!("{:02}", judge_of_program(&bytes).number), number);
            }
        }
    }

    /// One byte makes the difference. To the library, which has no limit, a layer is at fault.
    #[test]
    fn the_front_of_a_long_input_comes_before_its_length() {
        let [(_, with_k_21), (_, with_a_good_front)] = &of_long_inputs()[..] else {
            panic!("two examples");
        };
        assert_eq!([with_k_21.len(), with_a_good_front.len()], [70_000; 2]);
        let bytes = with_k_21.iter().zip(with_a_good_front);
        assert_eq!(bytes.filter(|(one, other)| one != other).count(), 1);
        assert_eq!([judge_of_program(with_k_21), judge(with_k_21)], [refused(4); 2]);
        assert_eq!(judge_of_program(with_a_good_front), refused(14));
        assert_eq!(judge(with_a_good_front), refused_at(2, 5));
    }

    /// Markers shall see that a sheet goes on behind a check that fails.
    #[test]
    fn a_sheet_has_lines_behind_one_that_fails() {
        let goes_on = |(_, bytes): &Example| {
            let sheet = String::from_utf8(sheet_of_program(bytes)).expect("a text");
            sheet.lines().rev().skip(1).any(|line| line.ends_with("no"))
        };
        assert!(all().iter().any(goes_on));
    }
}
