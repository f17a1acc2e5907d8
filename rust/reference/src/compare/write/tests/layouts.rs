//! Writers whose bytes are wrong.

use super::*;
use crate::protocol::judge;
use crate::transcript::written;

pub fn rows() -> Vec<Row<Wrong>> {
    [numbers(), fronts(), layers(), left(), honest()].into_iter().flatten().collect()
}

// How counts and entries are written.

type Count = fn(u32) -> Vec<u8>;
type Entry = fn(u64) -> Vec<u8>;

const COUNT: Count = |count| count.to_le_bytes().to_vec();
const ENTRY: Entry = |entry| entry.to_le_bytes().to_vec();

fn with_numbers(what: &'static str, count: Count, entry: Entry) -> Row<Wrong> {
    writing(what, move |run, queries| {
        let bytes = |section: Section| {
            let entries = section.entries.into_iter().flat_map(entry);
            [count(section.count), entries.collect()].concat()
        };
        sections(run, queries).into_iter().flat_map(bytes).collect()
    })
}

fn numbers() -> Vec<Row<Wrong>> {
    vec![
        with_numbers("nothing", COUNT, ENTRY),
        with_numbers("entries are big-endian", COUNT, |entry| entry.to_be_bytes().to_vec())
            .differs(&WRITTEN)
            .differs(&CASES),
        with_numbers("counts are big-endian", |count| count.to_be_bytes().to_vec(), ENTRY)
            .differs(&WRITTEN)
            .differs(&CASES),
        with_numbers("counts have 8 bytes", |count| ENTRY(count.into()), ENTRY)
            .differs(&WRITTEN)
            .differs(&CASES),
        with_numbers("there are no counts", |_| Vec::new(), ENTRY)
            .differs(&WRITTEN)
            .differs(&CASES),
        with_numbers("counts are those of bytes", |count| COUNT(8 * count), ENTRY)
            .differs(&WRITTEN)
            .differs(&CASES),
        with_numbers("a count has one byte", |count| COUNT(count % 256), ENTRY)
            // With fewer than 256 queries and entries nothing shows.
            .differs(&[LARGE])
            .smallest(LARGE, "k 8; rate 1; step 1; "),
        with_numbers("an entry has seven bytes of its own", COUNT, |entry| {
            ENTRY(entry & (u64::MAX >> 8))
        })
        .differs(&WRITTEN),
    ]
}

// Sections that are wrong as a whole. Those of the parameters, of the coset, of the challenges and of
// the queries come first.

fn with_sections(what: &'static str, change: fn(&Run, &mut Vec<Section>)) -> Row<Wrong> {
    writing(what, move |run, queries| {
        let mut sections = sections(run, queries);
        change(run, &mut sections);
        written(&sections)
    })
}

/// With other entries in the section at a place.
fn with_entries(
    what: &'static str,
    place: usize,
    other: impl Fn(&[u64]) -> Vec<u64> + 'static,
) -> Row<Wrong> {
    writing(what, move |run, queries| {
        let mut sections = sections(run, queries);
        sections[place] = Section::of(&other(&sections[place].entries));
        written(&sections)
    })
}

fn fronts() -> Vec<Row<Wrong>> {
    vec![
        with_entries("the rate and the step are swapped", 0, |all| vec![all[0], all[2], all[1]])
            .differs(&[HONEST, ANY, NEAR, LONG, LARGE, SAFE, AGAIN, JUDGED])
            .smallest(HONEST, "k 3; rate 1; step 2; "),
        with_entries("the offset is left out", 1, |all| all[1..].to_vec())
            .differs(&WRITTEN)
            .differs(&CASES),
        with_entries("the offset stands behind the basis", 1, |all| {
            [&all[1..], &all[..1]].concat()
        })
        .differs(&WRITTEN)
        .differs(&CASES),
        with_entries("the upper half of the offset is lost", 1, |all| {
            [&[all[0] & (u64::MAX >> 32)], &all[1..]].concat()
        })
        .differs(&WRITTEN),
        with_sections("challenges and queries are swapped", |_, all| all.swap(2, 3))
            .differs(&WRITTEN)
            .differs(&CASES),
        with_sections("the queries come last", |_, all| all[3..].rotate_left(1))
            .differs(&WRITTEN)
            .differs(&CASES),
        with_entries("the challenges come from behind", 2, |all| {
            all.iter().rev().copied().collect()
        })
        .differs(&[HONEST, ANY, NEAR, LONG, LARGE, SAFE, AGAIN, JUDGED, CASE_K])
        .smallest(ANY, "k 3; rate 1; step 1; "),
        with_entries("the queries are sorted", 3, |all| {
            let mut sorted = all.to_vec();
            sorted.sort_unstable();
            sorted
        })
        .differs(&WRITTEN),
        // It is judged as it should be.
        with_entries("an even query stands for the odd one behind it", 3, |all| {
            all.iter().map(|query| query & !1).collect()
        })
        .differs(&[HONEST, ANY, COUNTS, NEAR, NEAR_EACH_OTHER, LARGE, SAFE, AGAIN])
        .among_others(),
    ]
}

fn layers() -> Vec<Row<Wrong>> {
    vec![
        with_sections("the word is left out", |_, all| drop(all.remove(4)))
            .differs(&WRITTEN)
            .differs(&CASES),
        with_sections("a layer holds that of the next round", |run, all| {
            for i in 1..run.parameters.rounds() {
                let next = run.store[run.parameters.layer_start(i + 1)..].iter().copied();
                let entries = next.chain([0].into_iter().cycle());
                let section = &mut all[4 + i as usize];
                section.entries = entries.take(section.entries.len()).collect();
            }
        })
        .differs(&[HONEST, ANY, NEAR, LARGE, SAFE, AGAIN, JUDGED, CASE_K])
        // The least parameters with a layer in the store.
        .smallest(ANY, "k 3; rate 1; step 1; "),
        with_sections("all layers of the store are one section", |run, all| {
            let behind_the_store = all.len() - 1;
            if !run.store.is_empty() {
                all.splice(5..behind_the_store, [Section::of(&run.store)]);
            }
        })
        .differs(&[HONEST, ANY, LONG, LARGE, SAFE, AGAIN, JUDGED])
        // The least with two.
        .smallest(ANY, "k 4; rate 1; step 1; "),
        with_sections("the layers come from behind", |_, all| {
            let behind_the_layers = all.len() - 1;
            all[4..behind_the_layers].reverse();
        })
        .differs(&[HONEST, ANY, NEAR, LONG, LARGE, SAFE, AGAIN, JUDGED, CASE_K]),
        with_sections("the last coefficients come from behind", |_, all| {
            all.last_mut().expect("the last section").entries.reverse();
        })
        .differs(&[HONEST, ANY, LARGE, SAFE, AGAIN, JUDGED])
        // The least with two of them.
        .smallest(ANY, "k 4; rate 1; step 2; "),
    ]
}

// Bytes that are left as they were.

/// Leaves the bytes that are due and at a place as they are not to be written.
fn leaving(what: &'static str, is_left: fn(u8, usize, usize) -> bool) -> Row<Wrong> {
    let behaviour = move |call: &Call, outputs: &mut Outputs| {
        let before = outputs.bytes().to_vec();
        let answer = (WRITE.due)(call, outputs);
        let bytes = outputs.bytes();
        let length = bytes.len();
        for (place, (byte, before)) in bytes.iter_mut().zip(before).enumerate() {
            if is_left(*byte, place, length) {
                *byte = before;
            }
        }
        answer
    };
    row(what, alike(behaviour).of(&WRITE))
}

fn left() -> Vec<Row<Wrong>> {
    vec![
        leaving("zeros are not written", |byte, _, _| byte == 0).differs(&WRITTEN).differs(&CASES),
        leaving("the first byte is not written", |_, place, _| place == 0)
            .differs(&WRITTEN)
            .differs(&CASES),
        leaving("the last byte is not written", |_, place, length| place + 1 == length)
            .differs(&WRITTEN)
            .differs(&CASES),
        leaving("a byte in the middle is not written", |_, place, length| place == length / 2)
            .differs(&[HONEST, ANY, COUNTS, NEAR, LARGE, SAFE, AGAIN])
            .differs(&CASES)
            .among_others(),
    ]
}

// Runs that are not honest.

fn honest() -> Vec<Row<Wrong>> {
    let not_accepted = alike(|call, outputs| {
        let is_refused = call.refusal().is_some();
        match judge(&run_of(call), &call[Queries]) {
            verdict if !is_refused && verdict.number != 0 => verdict,
            _ => (WRITE.due)(call, outputs),
        }
    });
    let agreeing = [HONEST, CASE_G, CASE_K];
    vec![
        row("what is not accepted is refused", not_accepted.of(&WRITE))
            .differs(&[ANY, COUNTS, NEAR, LARGE, SAFE, AGAIN, JUDGED, CASE_H])
            .agrees(&agreeing),
        writing("what is written is made honest", |run, queries| {
            transcript(&run.clone().made_honest(), queries)
        })
        .differs(&[ANY, COUNTS, NEAR, LARGE, SAFE, AGAIN, JUDGED])
        .agrees(&agreeing),
    ]
}
