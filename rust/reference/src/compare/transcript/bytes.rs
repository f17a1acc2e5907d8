//! A byte string that is judged, and how it is made smaller.

use crate::compare::lists::show_list;
use crate::compare::{protocol, Input, Show};
use crate::transcript::{read, transcript, Judging, LARGEST_INPUT};

pub type Bytes = Vec<u8>;

impl Show for Bytes {
    fn show(&self) -> String {
        let shown = show_list(self.iter().map(Show::show));
        format!("{} bytes: {shown}", self.len())
    }
}

/// Up to so many bytes are few, and then all changes are tried. Each trial with many of them
/// costs much.
const FEW_BYTES: usize = 512;

/// Of many bytes so many parts are tried.
const PARTS: usize = 16;

/// Up to so many bytes that are not zero are made smaller one by one.
const FEW_NOT_ZERO: usize = 12;

impl Input for Bytes {
    type Size = (usize, u32, Bytes);

    /// Short ones are small, and among them those with few bits.
    fn size(&self) -> Self::Size {
        let bits = self.iter().map(|byte| byte.count_ones()).sum();
        (self.len(), bits, self.clone())
    }

    fn simpler(&self) -> Vec<Bytes> {
        [beginnings(self), with_zeros(self), with_one_smaller(self), with_simpler_lists(self)]
            .concat()
    }
}

fn beginnings(bytes: &[u8]) -> Vec<Bytes> {
    let length = bytes.len();
    let lengths: Vec<usize> = if length <= FEW_BYTES {
        (0..length).collect()
    } else {
        let parts = (0..PARTS).map(|part| part * length / PARTS);
        let near = [length - 8, length - 1, LARGEST_INPUT, LARGEST_INPUT + 1];
        parts.chain(near).filter(|&near| near < length).collect()
    };
    lengths.into_iter().map(|length| bytes[..length].to_vec()).collect()
}

/// With a part of zeros. Counts and entries lie at multiples of four, and so do the parts.
fn with_zeros(bytes: &[u8]) -> Vec<Bytes> {
    let least = match bytes.len() {
        ..=FEW_BYTES => 4,
        many => many.div_ceil(PARTS).next_power_of_two(),
    };
    let most = bytes.len().next_power_of_two();
    let lengths = (0..usize::BITS).map(|halved| most >> halved).take_while(|&part| part >= least);
    let starts = |length| (0..bytes.len()).step_by(length).map(move |start| (start, length));
    lengths.flat_map(starts).map(|(start, length)| with_part(bytes, start, length, 0)).collect()
}

fn with_one_smaller(bytes: &[u8]) -> Vec<Bytes> {
    let places = (0..bytes.len()).filter(|&place| bytes[place] != 0);
    let places: Vec<usize> = places.take(FEW_NOT_ZERO + 1).collect();
    if places.len() > FEW_NOT_ZERO {
        return Vec::new();
    }
    let smaller = |byte: u8| [0, 1, byte >> 1, byte & (byte - 1)];
    let with_smaller = |place| smaller(bytes[place]).map(|byte| with_part(bytes, place, 1, byte));
    places.into_iter().flat_map(with_smaller).collect()
}

/// With so many bytes from a place on made one byte, for as far as there are any.
fn with_part(bytes: &[u8], start: usize, length: usize, byte: u8) -> Bytes {
    let mut simpler = bytes.to_vec();
    let end = bytes.len().min(start + length);
    simpler[start..end].fill(byte);
    simpler
}

/// If they carry what may be judged: the transcripts of smaller judgings.
fn with_simpler_lists(bytes: &[u8]) -> Vec<Bytes> {
    let Ok(judging) = read(bytes) else {
        return Vec::new();
    };
    let simpler = protocol::simpler(&judging).into_iter();
    simpler.map(|Judging { run, queries }| transcript(&run, &queries)).collect()
}
