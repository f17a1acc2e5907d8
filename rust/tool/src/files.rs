//! The bytes of a file, and those of standard output.

use std::ffi::OsStr;
use std::fs::File;
use std::io::{self, Read, Write};
use std::os::fd::AsFd;

/// The name that stands for standard input, or for standard output where something is written.
pub const STANDARD: &str = "-";

/// The length in bytes of the longest transcript that can pass: k 20, rate 1, step 1, so 19
/// rounds. A section is a count in 4 bytes and entries in 8. The sections are parameters,
/// offset and basis, challenges, queries, 19 layers and the last coefficients; layers of 2^20,
/// 2^19 .. 2^2 entries have 2^21 - 4 together.
pub const LONGEST: usize = 4 * (4 + 19 + 1) + 8 * (3 + 21 + 19 + 256 + ((1 << 21) - 4) + 1);

/// Makes `bytes` those of the file, or its first `most` where it has more. Of a transcript it is
/// proved that its first `LONGEST` + 1 bytes get the verdict of all (`LongTranscripts`,
/// crates/transcript/specs/Theorems.antt) and have the sheet of all (`Sheets`,
/// crates/sheet_text/specs/Theorems.antt).
pub fn read(file: &OsStr, most: usize, bytes: &mut Vec<u8>) -> io::Result<()> {
    if file == STANDARD {
        fill(bytes, most, descriptor(io::stdin())?)
    } else {
        fill(bytes, most, File::open(file)?)
    }
}

/// Standard input or output as a file: the standard library takes one that cannot be read or
/// written for one that is at its end, or takes everything.
pub fn descriptor(stream: impl AsFd) -> io::Result<File> {
    Ok(File::from(stream.as_fd().try_clone_to_owned()?))
}

/// Writes the bytes to standard output.
pub fn print(bytes: &[u8]) -> io::Result<()> {
    descriptor(io::stdout())?.write_all(bytes)
}

fn fill(bytes: &mut Vec<u8>, most: usize, source: impl Read) -> io::Result<()> {
    bytes.clear();
    // Room for all from the start: a list that grows as it is read takes up to twice of it.
    bytes.reserve_exact(most);
    source.take(most as u64).read_to_end(bytes)?;
    Ok(())
}

#[cfg(test)]
mod tests {
    use super::*;
    use razgwilh::{judge_transcript, sheet, transcript_length, Accepted, Cause};

    #[test]
    fn no_transcript_is_longer() {
        let mut longest = 0;
        for k in 2..=20 {
            for rate in 1..=6 {
                for step in 1..=3 {
                    longest = longest.max(transcript_length(k, rate, step, 256));
                }
            }
        }
        assert_eq!(longest, LONGEST);
    }

    /// An accepted transcript of the largest size: the zero word, at 256 queries, each in a
    /// first-layer coset of its own.
    fn longest() -> Vec<u8> {
        let mut bytes = Vec::new();
        let mut section = |entries: &[u64]| {
            bytes.extend((entries.len() as u32).to_le_bytes());
            bytes.extend(entries.iter().flat_map(|entry| entry.to_le_bytes()));
        };
        section(&[20, 1, 1]);
        section(&[[0].to_vec(), (0..20).map(|place| 1 << place).collect()].concat());
        section(&[7; 19]);
        section(&(0..256).map(|coset| 2 * coset).collect::<Vec<_>>());
        for dimension in (2..=20).rev() {
            section(&vec![0; 1 << dimension]);
        }
        section(&[0]);
        bytes
    }

    #[test]
    fn what_is_read_is_judged_as_the_whole() {
        let (whole, mut read) = (longest(), Vec::new());
        for length in [LONGEST - 1, LONGEST, LONGEST + 1, LONGEST + 10, 2 * LONGEST] {
            let mut bytes = whole.clone();
            bytes.resize(length, 0xa5);
            fill(&mut read, LONGEST + 1, bytes.as_slice()).unwrap();
            assert_eq!(read.len(), length.min(LONGEST + 1));
            assert!(read.capacity() <= LONGEST + 1);

            let verdict = judge_transcript(&read);
            assert_eq!(verdict, judge_transcript(&bytes), "{length} bytes");
            assert!(sheet(&read) == sheet(&bytes), "{length} bytes");
            let cause = verdict.map_err(|refusal| refusal.cause);
            match length {
                LONGEST => assert_eq!(cause, Ok(Accepted { reads: 256 * 19 * 2 })),
                _ if length < LONGEST => assert_eq!(cause, Err(Cause::BytesEnd)),
                _ => assert_eq!(cause, Err(Cause::TrailingBytes)),
            }
        }
    }
}
