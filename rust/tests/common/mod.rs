//! What the tests share: samples as bytes, dice, ways to cut a stream, and calls beside the second codec's.
#![allow(dead_code)]

pub mod beside;

use second::material::{stream, Kind, Stream, ALL};

/// Samples as the calls have them.
pub fn bytes(samples: &[i16]) -> Vec<u8> {
    samples.iter().flat_map(|x| x.to_be_bytes()).collect()
}

pub fn samples(bytes: &[u8]) -> Vec<i16> {
    bytes.chunks(2).map(|x| i16::from_be_bytes([x[0], x[1]])).collect()
}

/// Numbers that look random, the same for the same seed.
pub fn dice(seed: u64, n: usize) -> Vec<u8> {
    match stream(Kind::Random, 77 + seed, n) {
        Stream::Octets(octets) => octets,
        Stream::Samples(_) => unreachable!("this kind is octets"),
    }
}

/// Lengths of calls that make up so many octets, none, few and many at a time.
pub fn cuts(total: usize, seed: u64) -> Vec<usize> {
    const LENGTHS: [usize; 10] = [0, 1, 2, 7, 159, 160, 161, 1000, 7999, 8000];
    let mut left = total;
    let mut made = Vec::new();
    for roll in dice(seed, total + 1000).iter().cycle() {
        let n = LENGTHS[usize::from(*roll) % LENGTHS.len()].min(left);
        made.push(n);
        left -= n;
        if left == 0 {
            return made;
        }
    }
    unreachable!("the dice are cast again and again")
}

/// The kinds of material that are samples: so many of each.
pub fn of_samples(seed: u64, n: usize) -> Vec<(Kind, Vec<i16>)> {
    let pick = |kind| match stream(kind, seed, n) {
        Stream::Samples(samples) => Some((kind, samples)),
        Stream::Octets(_) => None,
    };
    ALL.into_iter().filter_map(pick).collect()
}

/// Every kind of octets, and what the second codec makes of every kind of samples.
pub fn of_octets(seed: u64, n: usize) -> Vec<(Kind, Vec<u8>)> {
    let made = |kind| match stream(kind, seed, n) {
        Stream::Octets(octets) => (kind, octets),
        Stream::Samples(samples) => {
            (kind, second::compare::encode_all(&samples, second::Wrong::None))
        }
    };
    ALL.into_iter().map(made).collect()
}
