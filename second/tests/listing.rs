//! The listing begins each take afresh, and every wrong listing is told from it.

use second::blocks::{self, BLOCK};
use second::listing::listing;
use second::material::{self, Kind, Stream};
use second::{wrong, Decoder, Wrong};

/// The right listing.
fn right(recording: &[u8]) -> String {
    listing(recording, Wrong::None)
}

/// A recording of one block.
fn block(take: u32, number: u32, mode: u8, octets: &[u8]) -> Vec<u8> {
    let mut block = vec![0; BLOCK];
    blocks::write(&mut block, take, number, mode, octets).unwrap();
    block
}

/// A recording of blocks with these takes and numbers, of octets of a kind, the
/// modes and the counts changing from block to block.
fn recording(kind: Kind, seed: u64, heads: &[(u32, u32); 4]) -> Vec<u8> {
    let Stream::Octets(octets) = material::stream(kind, seed, 480 * heads.len()) else {
        panic!("this kind is samples");
    };
    let mut recording = vec![];
    for (place, ((take, number), octets)) in heads.iter().zip(octets.chunks(480)).enumerate() {
        let mode = [1, 3, 2][place % 3];
        recording.extend(block(*take, *number, mode, &octets[97 * place..]));
    }
    recording
}

/// A take of four blocks, numbered from the first given.
fn take(take: u32, first: u32) -> Vec<u8> {
    recording(Kind::Random, u64::from(take), &[0, 1, 2, 3].map(|place| (take, first + place)))
}

#[test]
fn joined_takes_are_listed_as_each_alone() {
    let by_zero = [take(7, 0), take(7, 0), take(8, 0), take(7, 0)];
    let by_take = [take(0, 5), take(u32::MAX, 9), take(0, 9), take(1, 13)];
    for takes in [by_zero, by_take] {
        assert_eq!(right(&takes.concat()), takes.map(|one| right(&one)).concat());
    }
}

#[test]
fn a_take_is_one_run_from_reset() {
    let mut decoder = Decoder::new(Wrong::None);
    let (mut blocks, mut lines) = (vec![], String::new());
    for (number, mode, octet) in [(4, 1, 0x20), (9, 3, 0xdf), (8, 2, 0x04)] {
        blocks.extend(block(4000000000, number, mode, &[octet; 480]));
        let mut heard = [0; 960];
        let limited = decoder.decode(mode, &[octet; 480], &mut heard).unwrap();
        let ends = format!("{} {}", heard[0], heard[959]);
        lines += &format!("4000000000 {number} {mode} 480 {ends} {limited}\n");
    }
    assert_eq!(right(&blocks), lines);
}

#[test]
fn block_0_and_another_take_begin_afresh_and_nothing_else() {
    let of = |take, number| block(take, number, 1, &[0xfa]);
    let lines = |one: Vec<u8>, two: Vec<u8>| right(&[one, two].concat());
    assert_eq!(lines(of(7, 3), of(7, 0)), "7 3 1 1 0 -1 0\n7 0 1 1 0 -1 0\n");
    assert_eq!(lines(of(7, 3), of(8, 4)), "7 3 1 1 0 -1 0\n8 4 1 1 0 -1 0\n");
    assert_eq!(lines(of(7, 3), of(8, 0)), "7 3 1 1 0 -1 0\n8 0 1 1 0 -1 0\n");
    assert_eq!(lines(of(7, 3), of(7, 4)), "7 3 1 1 0 -1 0\n7 4 1 1 -1 0 0\n");
    assert_eq!(lines(of(7, 3), of(7, 1)), "7 3 1 1 0 -1 0\n7 1 1 1 -1 0 0\n");
}

#[test]
fn a_refusal_counts_the_blocks_of_all_takes_and_is_the_last_line() {
    let good = [take(7, 0), take(8, 0)].concat();
    let refused = |last: &[u8]| right(&[&good, last, &good].concat());
    assert_eq!(refused(&[0; BLOCK]), right(&good) + "refused 7 8\n");
    assert_eq!(right(&[&good[..], &good[..511]].concat()), right(&good) + "refused 6 8\n");
    assert_eq!(right(&[]), "");
}

/// Recordings in which a take begins at block 0 alone, at another take alone,
/// at both, and in which block numbers jump and nothing begins.
const RECORDINGS: [(&str, [(u32, u32); 4]); 4] = [
    ("Zero", [(7, 3), (7, 4), (7, 0), (7, 1)]),
    ("Take", [(7, 3), (7, 4), (8, 5), (8, 6)]),
    ("Both", [(7, 0), (7, 1), (8, 0), (8, 1)]),
    ("Jump", [(7, 3), (7, 9), (7, 2), (7, 3)]),
];

/// The recordings that tell each wrong listing.
const TELLS: [(Wrong, &str); 6] = [
    (Wrong::OneRun, "Zero Take Both"),
    (Wrong::OnlyBlockZero, "Take"),
    (Wrong::OnlyOtherTake, "Zero"),
    (Wrong::JumpBegins, "Jump"),
    (Wrong::ResetLate, "Zero Take Both Jump"),
    (Wrong::PairsKept, "Zero Take Both"),
];

#[test]
fn every_wrong_listing_is_told_by_the_recordings_listed() {
    assert_eq!(TELLS.map(|row| row.0), wrong::LISTING);
    for kind in [Kind::Random, Kind::NeverSent, Kind::Directed, Kind::Rhythm] {
        for seed in 0..4 {
            for (wrong, names) in TELLS {
                let told = RECORDINGS.iter().filter(|(_, heads)| {
                    let recording = recording(kind, seed, heads);
                    listing(&recording, wrong) != right(&recording)
                });
                let told: Vec<&str> = told.map(|(name, _)| *name).collect();
                assert_eq!(told.join(" "), names, "{wrong:?}, {kind:?}, seed {seed}");
            }
        }
    }
}
