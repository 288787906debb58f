//! Every wrong codec is told from the right one by some of the material.

use second::compare::compare;
use second::material::{self, material, Kind, Stream};
use second::{wrong, Decoder, Wrong};

/// The kinds of seed 0 that tell each variant: by the coder's octets, and by
/// the decoder's samples.
const TELLS: [(Wrong, &str, &str); 17] = [
    (Wrong::FilterStopsOnce, "Slams", "Slams Directed Rhythm Ends"),
    (Wrong::FilterOtherOrder, "Slams", "Slams Directed Rhythm Ends"),
    (Wrong::TransmitUnlimited, "FullScale Steps Signs Slams", ""),
    (Wrong::SixBitLoop, "all samples", "all"),
    (Wrong::LimitInLoop, "FullScale Steps Slams", "FullScale Steps Slams Directed Rhythm Ends"),
    (Wrong::RoundTowardZero, "all samples", "all"),
    (Wrong::NegatedSize, "all samples", ""),
    (Wrong::IntervalOne, "Silence NoiseFaint NoiseLow NoiseMiddle Tones Slams", ""),
    (
        Wrong::PhasesExchanged,
        "NoiseFaint NoiseLow NoiseMiddle NoiseFull FullScale Tones Steps \
         Signs Slams",
        "all",
    ),
    (Wrong::ForgetPairs, "", "all"),
    (
        Wrong::ReceiveWraps,
        "",
        "NoiseFull FullScale Tones Steps Signs Slams Random NeverSent \
         Directed Rhythm Ends",
    ),
    (
        Wrong::HeardUnlimited,
        "",
        "FullScale Tones Steps Signs Slams Random NeverSent Directed Rhythm Ends",
    ),
    (Wrong::LevelStaysBelow, "all samples", ""),
    (
        Wrong::DoubleNotStopped,
        "FullScale Tones Steps Signs Slams",
        "FullScale Tones Steps Signs Slams Random NeverSent Directed Rhythm Ends",
    ),
    (
        Wrong::PoleNotStopped,
        "Silence NoiseFaint FullScale Tones Steps Signs Slams",
        "Silence NoiseFaint FullScale Tones Steps Signs Slams Random \
         NeverSent Directed Rhythm Ends",
    ),
    (
        Wrong::PoleLimitLate,
        "Silence FullScale Tones Steps Slams",
        "Silence FullScale Tones Steps Slams NeverSent Directed Rhythm Ends",
    ),
    (Wrong::NeverSentLoop, "", "Random NeverSent Rhythm"),
];

/// The names of the kinds; "all" for all fifteen, "all samples" for the first
/// ten, which are the kinds of samples.
fn names(kinds: &[Kind]) -> String {
    if kinds == material::ALL {
        return "all".to_string();
    }
    if kinds == &material::ALL[..10] {
        return "all samples".to_string();
    }
    kinds.iter().map(|kind| format!("{kind:?}")).collect::<Vec<String>>().join(" ")
}

#[test]
fn every_variant_is_told_by_the_kinds_listed() {
    assert_eq!(TELLS.map(|row| row.0), wrong::CODEC);
    let material = material(0);
    for (wrong, by_coder, by_decoder) in TELLS {
        let (mut coder, mut decoder) = (vec![], vec![]);
        for (kind, stream) in &material {
            let told = compare(stream, wrong);
            coder.extend(told.coder.map(|_| *kind));
            decoder.extend(told.decoder.iter().any(Option::is_some).then_some(*kind));
        }
        assert_eq!(names(&coder), by_coder, "{wrong:?}, coder");
        assert_eq!(names(&decoder), by_decoder, "{wrong:?}, decoder");
        assert!(!coder.is_empty() || !decoder.is_empty(), "{wrong:?}");
    }
}

#[test]
fn other_seeds_tell_every_variant_too() {
    for seed in 1..4 {
        let material = material(seed);
        for wrong in wrong::CODEC {
            let told = material.iter().any(|(_, stream)| compare(stream, wrong).apart());
            assert!(told, "{wrong:?}, seed {seed}");
        }
    }
}

#[test]
fn the_right_codec_is_not_told_from_itself() {
    for (kind, stream) in material(0) {
        assert!(!compare(&stream, Wrong::None).apart(), "{kind:?}");
    }
}

/// The heard signals of the octets from reset in mode 1.
fn heard(octets: &[u8], wrong: Wrong) -> Vec<(i32, i32)> {
    let mut decoder = Decoder::new(wrong);
    octets.iter().map(|octet| decoder.sub_bands(*octet, 1)).collect()
}

#[test]
fn the_named_run_tells_where_filtez_stops() {
    let octets = [vec![0x20; 137], vec![0x04; 3], vec![0x20; 4]].concat();
    let Stream::Octets(directed) = material::stream(Kind::Directed, 0, 144) else {
        panic!("directed material is octets");
    };
    assert_eq!(octets, directed);
    assert_eq!(heard(&octets, Wrong::None)[139].0, 15644);
    assert_eq!(heard(&octets, Wrong::FilterStopsOnce)[139].0, 15805);
}

/// Whether the low signals of the octets differ between two codecs.
fn low_differs(octets: &[u8], one: Wrong, other: Wrong) -> bool {
    let pairs = heard(octets, one).into_iter().zip(heard(octets, other));
    pairs.into_iter().any(|(a, b)| a.0 != b.0)
}

#[test]
fn the_two_filtez_variants_are_told_from_each_other() {
    for kind in [Kind::Directed, Kind::Rhythm] {
        let told = (0..8).any(|seed| match material::stream(kind, seed, 6000) {
            Stream::Octets(octets) => {
                low_differs(&octets, Wrong::FilterStopsOnce, Wrong::FilterOtherOrder)
            }
            Stream::Samples(_) => false,
        });
        assert!(told, "{kind:?}");
    }
}
