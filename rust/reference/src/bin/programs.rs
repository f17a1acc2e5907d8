//! Runs the programs `judge` and `sheet` with reads of every sort, and with every byte at every
//! place: no contract binds the function that reads, nor `main`. What is due is what the library
//! says of the bytes that come.
//!
//! It prints a line for each group of runs. It ends with 0 if all print what is due, else with 1,
//! having shown the first that does not.

use razgwilh::{judge_transcript, sheet};
use std::io::{ErrorKind, Result, Write};
use std::iter::{once, zip};
use std::os::fd::OwnedFd;
use std::os::unix::net::{UnixDatagram, UnixStream};
use std::process::{exit, Child, Command, Stdio};
use std::time::Duration;

const ROOT: &str = concat!(env!("CARGO_MANIFEST_DIR"), "/../..");

/// The most bytes that the programs take. They read one more, and no further.
const MOST: usize = 65_536;

fn main() {
    let k = std::fs::read(format!("{ROOT}/examples/k.transcript")).expect("case K");
    println!("programs, short reads: {} runs", short_reads(&k));
    println!("programs, failing reads: {} runs", failing_reads(&k));
    println!("programs, bytes behind the end: {} runs", ends(&k));
    println!("programs, about 65,536 bytes: {} runs", sizes());
    println!("programs, all parameters: {} runs", parameters());
    println!("programs, every byte at every place: {} runs", values());
}

// The groups. Each gives the number of its runs.

/// Parts of every size, and two parts cut at every place.
fn short_reads(bytes: &[u8]) -> usize {
    let even = (1..=bytes.len()).map(|size| bytes.chunks(size).collect());
    let two = (1..bytes.len()).map(|place| vec![&bytes[..place], &bytes[place..]]);
    even.chain(two).map(|parts: Vec<_>| compared(&parts, Last::End)).sum()
}

/// A failure behind every number of bytes, which came at once or in two parts.
fn failing_reads(bytes: &[u8]) -> usize {
    let starts = (0..=bytes.len()).map(|taken| &bytes[..taken]);
    let halves = starts.clone().map(|start| start.chunks(start.len().div_ceil(2).max(1)).collect());
    let at_once = starts.map(|start| compared(&[start], Last::FailureThenEnd));
    at_once.chain(halves.map(|parts: Vec<_>| compared(&parts, Last::Failure))).sum()
}

/// The end behind every number of bytes, with the others behind the end.
fn ends(bytes: &[u8]) -> usize {
    let places = 0..=bytes.len();
    places.map(|place| compared(&[&bytes[..place], &[], &bytes[place..]], Last::End)).sum()
}

/// As many bytes as are taken, and some more or fewer, in large parts. Sections 1 to 4 pass with
/// k 12 in place 4; then they do not.
fn sizes() -> usize {
    let mut bytes = of(&transcript([12, 5, 1], 34, 0), 0);
    assert_eq!(bytes.len(), MOST);
    bytes.resize(70_000, 7);
    let mut runs = 0;
    for (place, byte) in [(4, 12), (4, 21), (0, 4)] {
        bytes[place] = byte;
        for length in [MOST - 1, MOST, MOST + 1, MOST + 2, bytes.len()] {
            for size in [10_000, MOST / 2, MOST - 1, MOST, MOST + 1, bytes.len()] {
                let parts: Vec<_> = bytes[..length].chunks(size).collect();
                runs += compared(&parts, Last::End) + compared(&parts, Last::Failure);
            }
        }
    }
    runs
}

/// Every k with which all transcripts are taken, every R and every η, with many queries.
fn parameters() -> usize {
    let all = (2..=11).flat_map(|k| (1..=6).flat_map(move |r| (1..=3).map(move |eta| [k, r, eta])));
    let right = all.filter(|[k, r, eta]| *k >= r + eta);
    let transcripts = right.map(|[k, r, eta]| transcript([k, r, eta], 1 << (k - eta).min(8), 0));
    transcripts.map(|pattern| compared(&[&of(&pattern, 0)], Last::End)).sum()
}

/// Every value at every place: in transcripts that have it there, and in what is none, among it
/// what ends with the byte for which it is refused.
fn values() -> usize {
    let large = transcript([12, 5, 1], 34, 0);
    let too_long = [&large[..], &[(0, 0xff)]].concat();
    let any_from = |start: usize, end: usize| {
        let places = large[..end].iter().enumerate();
        places.map(|(place, byte)| (byte.0, if place < start { 0 } else { 0xff })).collect()
    };
    let none = [any_from(0, 4), any_from(4, 28), any_from(28, 32), any_from(0, MOST), too_long];
    let some = [([3, 1, 1], 1, 0), ([7, 1, 1], 1, 1), ([12, 6, 1], 99, 1)];
    let some = some.map(|(parameters, queries, spread)| transcript(parameters, queries, spread));
    let patterns = none.iter().chain(&some).chain(once(&large));
    let inputs = patterns.flat_map(|pattern| (0..=0xff).map(|value| of(pattern, value)));
    inputs.map(|bytes| compared(&[&bytes], Last::End)).sum()
}

/// Bytes, each with those of its bits that may be any.
type Pattern = Vec<(u8, u8)>;

/// The pattern's bytes; over all values, a byte that may be any takes all values.
fn of(pattern: &Pattern, value: u8) -> Vec<u8> {
    pattern.iter().map(|(byte, any)| byte ^ (value & any)).collect()
}

/// A transcript with right counts and parameters and queries in different first-layer cosets.
/// Each entry of word and layers is one value, as in an honest run of a constant, where the spread
/// is 0; else they are whatever, as the other entries are.
fn transcript([k, rate, step]: [u32; 3], queries: u64, spread: u32) -> Pattern {
    let rounds = (k - rate) / step;
    let value = |place| u64::from(1 + place).wrapping_mul(0x9e37_79b9_7f4a_7c15);
    let any = |count, spread| (0..count).map(|i: u32| (value(i * spread), u64::MAX)).collect();
    let parameters = [k, rate, step].map(|number| (number.into(), 0)).to_vec();
    let queries = (0..queries).map(|query| (query << step, (1 << k) - 1)).collect();
    let front: [Vec<_>; 4] = [parameters, any(k + 1, 1), any(rounds, 1), queries];
    let layers = (0..rounds).map(|round| any(1 << (k - round * step), spread));
    let last = any(1 << (k - rate - rounds * step), spread);
    let mut pattern = Vec::new();
    for section in front.into_iter().chain(layers).chain(once(last)) {
        pattern.extend(zip((section.len() as u32).to_le_bytes(), [0; 4]));
        for (entry, any) in section {
            pattern.extend(zip(u64::to_le_bytes(entry), u64::to_le_bytes(any)));
        }
    }
    pattern
}

// The runs.

/// What comes behind the parts: the end; failures; or one failure and the end, where all parts
/// come with one read.
#[derive(Clone, Copy, Debug, PartialEq)]
enum Last {
    End,
    Failure,
    FailureThenEnd,
}

/// Has both programs read the parts, one with each read; an empty one is the end. Where a read
/// fails before one byte too many has come, nothing is due.
fn compared(parts: &[&[u8]], last: Last) -> usize {
    let bytes = parts.split(|part| part.is_empty()).next().unwrap_or_default().concat();
    let sheet = if bytes.len() > MOST { Vec::new() } else { sheet(&bytes) };
    let programs = [("judge", lines(&bytes).into_bytes()), ("sheet", sheet)];
    for (program, all) in &programs {
        let readable = last == Last::End || bytes.len() > MOST;
        let due = String::from_utf8_lossy(if readable { all } else { &[] });
        let printed = printed(program, parts, last).unwrap_or_else(|error| error.to_string());
        if printed != due {
            let sizes: Vec<_> = parts.iter().map(|part| part.len()).collect();
            println!("programs: {program} differs with reads of {sizes:?} bytes, then {last:?}:");
            println!("{:02x?}\ndue:\n{due}printed:\n{printed}", &bytes[..bytes.len().min(256)]);
            exit(1);
        }
    }
    programs.len()
}

/// What `judge` has to print: of too many bytes what sections 1 to 4 are refused for, or 14.
fn lines(bytes: &[u8]) -> String {
    let shown = |number: Option<u64>| number.map_or("-".to_string(), |number| number.to_string());
    let (number, place, round, reads) = match judge_transcript(bytes) {
        Ok(accepted) => (0, None, None, accepted.reads),
        Err(refusal) => (refusal.cause.number(), refusal.place, refusal.round, refusal.reads),
    };
    let in_front = matches!((number, place), (2, Some(1..=3)) | (4..=10 | 17, _));
    let line = match number {
        _ if bytes.len() > MOST && !in_front => "refused 14 - - 0".to_string(),
        0 => format!("accepted 0 - - {reads}"),
        _ => format!("refused {number} {} {} {reads}", shown(place), shown(round)),
    };
    format!("answer number place round reads\n{line}\n")
}

/// What a program prints, or all that it does where that is more.
fn printed(program: &str, parts: &[&[u8]], last: Last) -> Result<String> {
    let (ours, theirs) = UnixDatagram::pair()?;
    // So that a program that reads on behind the end does not wait for good.
    theirs.set_read_timeout(Some(Duration::from_secs(60)))?;
    let child = match last {
        Last::End => {
            let child = started(program, theirs.into())?;
            send(&ours, &[parts, &[&[]]].concat())?;
            child
        }
        Last::Failure => {
            theirs.set_nonblocking(true)?;
            send(&ours, parts)?;
            started(program, theirs.into())?
        }
        Last::FailureThenEnd => started(program, reset_behind(&parts.concat())?)?,
    };
    let output = child.wait_with_output()?;
    ours.set_nonblocking(true)?;
    let wrote_to_input = ours.recv(&mut [0]).is_ok();
    if wrote_to_input || !output.status.success() || !output.stderr.is_empty() {
        return Ok(format!("{output:?}, written to standard input: {wrote_to_input}\n"));
    }
    Ok(String::from_utf8_lossy(&output.stdout).into_owned())
}

fn started(program: &str, input: OwnedFd) -> Result<Child> {
    let mut command = Command::new(format!("{ROOT}/target/bin/{program}"));
    command.stdin(input).stdout(Stdio::piped()).stderr(Stdio::piped()).spawn()
}

/// Sends each part as a datagram, which one read takes, until the program has ended.
fn send(ours: &UnixDatagram, parts: &[&[u8]]) -> Result<()> {
    ours.set_write_timeout(Some(Duration::from_secs(60)))?;
    match parts.iter().try_for_each(|part| ours.send(part).map(|_| ())) {
        Err(error) if error.kind() == ErrorKind::ConnectionRefused => Ok(()),
        sent => sent,
    }
}

/// A connection that is reset behind these bytes, since its other end went without reading.
fn reset_behind(bytes: &[u8]) -> Result<OwnedFd> {
    let (mut ours, mut theirs) = UnixStream::pair()?;
    theirs.write_all(b"unread")?;
    ours.write_all(bytes)?;
    Ok(theirs.into())
}
