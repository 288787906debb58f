//! Decoding in two steps: what each gives, moves and refuses, and every wrong
//! step told from the right one.

use second::compare::{decode_all, hear_all, join_all, octets_of, step_all};
use second::material::{self, material, Kind};
use second::tables::H;
use second::{wrong, Decoder, Refusal, Wrong};

/// What a call gives back when it refuses.
fn refusal<T>(number: u8, index: usize) -> Result<T, Refusal> {
    Err(Refusal { number, index })
}

/// Octets of any value.
fn random(seed: u64, n: usize) -> Vec<u8> {
    octets_of(&material::stream(Kind::Random, seed, n))
}

/// Low and high signals of any value in range, as no decoder would give them.
fn any_signals(seed: u64, n: usize) -> [Vec<i16>; 2] {
    [2 * seed, 2 * seed + 1].map(|seed| material::even_noise(seed, n, 16384))
}

/// A decoder that has decoded 100 octets.
fn used(wrong: Wrong) -> Decoder {
    let mut decoder = Decoder::new(wrong);
    decoder.decode(2, &random(1, 100), &mut [0; 200]).unwrap();
    decoder
}

/// What a used decoder answers to a first step; where it refuses, nothing has changed.
fn heard(mode: u8, octets: usize, low: usize, high: usize) -> Result<(), Refusal> {
    let (before, mut decoder) = (used(Wrong::None), used(Wrong::None));
    let (mut first, mut second) = (vec![77; low], vec![78; high]);
    let answer = decoder.hear(mode, &random(2, octets), &mut first, &mut second);
    let same = (decoder, first, second) == (before, vec![77; low], vec![78; high]);
    assert_eq!(same, answer.is_err() || octets == 0, "{mode} {octets} {low} {high}");
    answer.map(|_| ())
}

/// What a used decoder answers to a second step; where it refuses, nothing has changed.
fn joined(low: &[i16], high: &[i16], samples: usize) -> Result<(), Refusal> {
    let (before, mut decoder) = (used(Wrong::None), used(Wrong::None));
    let mut lent = vec![77; samples];
    let answer = decoder.join(low, high, &mut lent);
    let same = (decoder, lent) == (before, vec![77; samples]);
    assert_eq!(same, answer.is_err() || low.is_empty(), "{} {samples}", low.len());
    answer.map(|_| ())
}

#[test]
fn hearing_refuses_in_its_order() {
    for n in [0, 1, 8000] {
        for mode in 0..4 {
            assert_eq!(heard(mode, n, n, n), Ok(()));
            for [low, high] in [[n + 1, n], [n, n + 1], [n + 1, n + 1], [2 * n + 1, n], [0, n + 1]]
            {
                assert_eq!(heard(mode, n, low, high), refusal(3, 0));
            }
            if n > 0 {
                assert_eq!(heard(mode, n, n - 1, n), refusal(3, 0));
                assert_eq!(heard(mode, n, n, n - 1), refusal(3, 0));
            }
        }
        for mode in [4, 5, 255] {
            assert_eq!(heard(mode, n, n, n), refusal(1, 0));
            assert_eq!(heard(mode, n, n + 1, n), refusal(1, 0));
        }
    }
    assert_eq!(heard(3, 8001, 8001, 8001), refusal(3, 0));
    assert_eq!(heard(4, 8001, 8001, 8001), refusal(1, 0));
}

#[test]
fn joining_refuses_in_its_order() {
    for n in [0, 1, 8000] {
        let [low, high] = any_signals(1, n + 1);
        assert_eq!(joined(&low[..n], &high[..n], 2 * n), Ok(()));
        for samples in [2 * n + 1, 2 * n + 2, 16002] {
            assert_eq!(joined(&low[..n], &high[..n], samples), refusal(3, 0));
        }
        assert_eq!(joined(&low[..n], &high, 2 * n), refusal(3, 0));
        assert_eq!(joined(&low, &high[..n], 2 * n), refusal(3, 0));
        assert_eq!(joined(&low, &high[..n], 2 * n + 2), refusal(3, 0));
        assert_eq!(joined(&low, &high, 2 * n + 1), refusal(3, 0));
        assert_eq!(joined(&vec![16384; n], &vec![16384; n], 2 * n + 1), refusal(3, 0));
        assert_eq!(joined(&vec![16384; n], &vec![16384; n + 1], 2 * n), refusal(3, 0));
    }
    assert_eq!(joined(&[0; 8001], &[0; 8001], 16002), refusal(3, 0));
    assert_eq!(joined(&[16384; 8001], &[16384; 8001], 16002), refusal(3, 0));
}

/// The places to spoil among n: the first, the last, and two within.
fn places(n: usize) -> Vec<usize> {
    let mut places = vec![0, n / 3, n / 2, n - 1];
    places.dedup();
    places
}

#[test]
fn the_place_is_that_of_the_first_pair_out_of_range() {
    for n in [1, 2, 17, 8000] {
        let [low, high] = any_signals(3, n);
        for first in places(n) {
            for value in [16384, -16385, 32767, -32768] {
                let bad = |signals: &[i16], from: &[usize]| {
                    let mut signals = signals.to_vec();
                    from.iter().for_each(|place| signals[*place] = value);
                    signals
                };
                let later: Vec<usize> = places(n).into_iter().filter(|p| *p >= first).collect();
                let ways: [[&[usize]; 2]; 6] = [
                    [&[first], &[]],
                    [&[], &[first]],
                    [&[first], &[first]],
                    [&later, &later[1..]],
                    [&later[1..], &later],
                    [&[first], &later],
                ];
                for [in_low, in_high] in ways {
                    let answer = joined(&bad(&low, in_low), &bad(&high, in_high), 2 * n);
                    assert_eq!(answer, refusal(4, first), "{in_low:?} {in_high:?} of {n}");
                }
            }
        }
        assert_eq!(joined(&vec![16383; n], &vec![-16384; n], 2 * n), Ok(()));
    }
}

#[test]
fn each_step_moves_its_own_part() {
    let ([low, high], octets) = (any_signals(4, 500), random(4, 500));
    let run = |hear_first: bool| {
        let mut decoder = used(Wrong::None);
        let (mut rl, mut rh, mut samples) = (vec![0; 500], vec![0; 500], vec![0; 1000]);
        for hear in [hear_first, !hear_first] {
            let (before, past) = (decoder.clone(), decoder.past().clone());
            if hear {
                decoder.hear(3, &octets, &mut rl, &mut rh).unwrap();
                assert_eq!(decoder.past(), &past);
                assert!(decoder.bands() != before.bands());
            } else {
                decoder.join(&low, &high, &mut samples).unwrap();
                assert_eq!(decoder.bands(), before.bands());
                assert!(decoder.past() != &past);
            }
        }
        (decoder, rl, rh, samples)
    };
    assert_eq!(run(true), run(false));
}

#[test]
fn both_steps_are_decoding() {
    for (kind, stream) in material(5) {
        let octets = octets_of(&stream);
        for (modes, call) in [(vec![1], 8000), (vec![0, 3, 2], 37), (vec![2], 1)] {
            let samples = decode_all(&octets, &modes, call, Wrong::None);
            assert_eq!(step_all(&octets, &modes, call, Wrong::None), samples, "{kind:?}");
            let signals = hear_all(&octets, &modes, call, Wrong::None);
            assert_eq!(join_all(&signals, 8000, Wrong::None), samples, "{kind:?}");
        }
    }
    let (mut one, mut other) = (used(Wrong::None), used(Wrong::None));
    let (octets, mut samples) = (random(6, 8000), [vec![0; 16000], vec![0; 16000]]);
    let (mut low, mut high) = (vec![0; 8000], vec![0; 8000]);
    one.decode(3, &octets, &mut samples[0]).unwrap();
    other.hear(3, &octets, &mut low, &mut high).unwrap();
    other.join(&low, &high, &mut samples[1]).unwrap();
    assert_eq!((one, &samples[0]), (other, &samples[1]));
}

#[test]
fn the_length_of_calls_does_not_matter() {
    let octets = random(7, 1000);
    let whole = hear_all(&octets, &[3], 8000, Wrong::None);
    assert_eq!(hear_all(&octets, &[3], 7, Wrong::None), whole);
    let signals = any_signals(7, 1000);
    let samples = join_all(&signals, 8000, Wrong::None);
    for call in [1, 7, 999] {
        assert_eq!(join_all(&signals, call, Wrong::None), samples);
    }
}

#[test]
fn one_pair_alone_shows_the_coefficients() {
    let one = [vec![4096], vec![0; 12]].concat();
    let zero = vec![0; 13];
    let of_low = join_all(&[one.clone(), zero.clone()], 8000, Wrong::None);
    let of_high = join_all(&[zero, one], 8000, Wrong::None);
    for (place, h) in H.into_iter().chain([0, 0]).enumerate() {
        assert_eq!(i32::from(of_low[place]), h);
        assert_eq!(i32::from(of_high[place]), if place % 2 == 0 { -h } else { h });
    }
}

/// The codec's errors that either step makes; the coder makes the others, and
/// `ForgetPairs` shows where the steps follow each other.
const BY_HEAR: [Wrong; 10] = [
    Wrong::FilterStopsOnce,
    Wrong::FilterOtherOrder,
    Wrong::SixBitLoop,
    Wrong::LimitInLoop,
    Wrong::RoundTowardZero,
    Wrong::HeardUnlimited,
    Wrong::DoubleNotStopped,
    Wrong::PoleNotStopped,
    Wrong::PoleLimitLate,
    Wrong::NeverSentLoop,
];
const BY_JOIN: [Wrong; 2] = [Wrong::PhasesExchanged, Wrong::ReceiveWraps];

#[test]
fn the_step_that_errs_tells_what_decoding_tells() {
    for (kind, stream) in material(0) {
        let octets = octets_of(&stream);
        let (modes, call) = ([0, 3, 2], 37);
        let signals = hear_all(&octets, &modes, call, Wrong::None);
        let samples = decode_all(&octets, &modes, call, Wrong::None);
        for wrong in wrong::CODEC {
            let apart = decode_all(&octets, &modes, call, wrong) != samples;
            let by_hear = hear_all(&octets, &modes, call, wrong) != signals;
            let by_join = join_all(&signals, call, wrong) != samples;
            let in_turn = step_all(&octets, &modes, call, wrong) != samples;
            assert_eq!(by_hear, apart && BY_HEAR.contains(&wrong), "{wrong:?}, {kind:?}");
            assert_eq!(by_join, apart && BY_JOIN.contains(&wrong), "{wrong:?}, {kind:?}");
            assert_eq!(in_turn, apart, "{wrong:?}, {kind:?}");
        }
    }
}

#[test]
fn errors_of_the_steps_are_told_where_decoding_is_right() {
    for (kind, stream) in material(0) {
        let octets = octets_of(&stream);
        let (modes, call) = ([0, 3, 2], 37);
        let signals = hear_all(&octets, &modes, call, Wrong::None);
        let samples = decode_all(&octets, &modes, call, Wrong::None);
        for wrong in wrong::STEPS {
            assert_eq!(decode_all(&octets, &modes, call, wrong), samples);
            let exchanged = wrong == Wrong::SignalsExchanged;
            assert_eq!(hear_all(&octets, &modes, call, wrong) != signals, exchanged, "{kind:?}");
            assert_eq!(join_all(&signals, call, wrong) != samples, exchanged, "{kind:?}");
            let in_turn = [Wrong::HearMovesPairs, Wrong::JoinForgetsBands].contains(&wrong);
            let told = step_all(&octets, &modes, call, wrong) != samples;
            assert_eq!(told, in_turn, "{wrong:?}, {kind:?}");
        }
    }
}

/// What a refused second step answers, and the samples of the same pairs after
/// it without the bad ones.
fn refused_and_joined(wrong: Wrong) -> (Result<usize, Refusal>, Vec<i16>) {
    let mut decoder = used(wrong);
    let mut samples = vec![0; 10];
    let answer = decoder.join(&[5, 6, 7, 8, 16384], &[5, 6, 7, 16384, 8], &mut samples);
    decoder.join(&[5, 6, 7, 8, 9], &[5, 6, 7, 8, 9], &mut samples).unwrap();
    (answer, samples)
}

#[test]
fn errors_of_refusing_are_told() {
    let (right, samples) = refused_and_joined(Wrong::None);
    assert_eq!(right, refusal(4, 3));
    assert_eq!(refused_and_joined(Wrong::PlaceInSamples), (refusal(4, 6), samples.clone()));
    assert_eq!(refused_and_joined(Wrong::LowLookedFirst), (refusal(4, 4), samples.clone()));
    let (answer, others) = refused_and_joined(Wrong::JoinedUntilBad);
    assert_eq!(answer, right);
    assert_ne!(others, samples);
}
