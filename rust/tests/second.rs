//! The calls against the second codec: octets, samples, signals, data, counts of what was limited,
//! refusals and states, over streams cut in many ways with refused calls among the others. Each kind of
//! count is met above 0, and as 0 too.

mod common;

use common::beside::{coded, heard, joined, signals, told, Met};
use common::{bytes, cuts, dice, of_octets, of_samples};
use second::cue::{put_in, take_out};
use second::{Coder, Decoder, Wrong};
use zelcandry::{c, decode, join, put, take, CODER_RESET, DECODER_RESET};

#[test]
fn coding() {
    let mut met = Met::default();
    for seed in 0..4 {
        for (kind, stream) in of_samples(seed, 40000) {
            let (mut state, mut other) = (CODER_RESET, Coder::new(Wrong::None));
            let mut at = 0;
            for (turn, n) in cuts(stream.len() / 2, seed).into_iter().enumerate() {
                let given = &stream[at..at + 2 * n];
                at += 2 * n;
                let before = state;
                let mut spoilt = given.to_vec();
                for place in (0..spoilt.len()).skip(turn % 50).step_by(61) {
                    spoilt[place] = [16384, -16385, i16::MAX, i16::MIN][place % 4];
                }
                if spoilt != given {
                    coded(&mut state, &mut other, &spoilt, n).unwrap_err();
                }
                coded(&mut state, &mut other, given, n + 1).unwrap_err();
                assert_eq!(state, before, "{kind:?} {seed} {at}: a refused call changed the state");
                met.note(coded(&mut state, &mut other, given, n).unwrap());
                let past = &stream[at.saturating_sub(22)..at];
                assert_eq!(state[125 - 2 * past.len()..], bytes(past), "{kind:?} {seed} {at}");
            }
        }
    }
    met.both();
}

#[test]
fn decoding() {
    let mut met = Met::default();
    for seed in 0..4 {
        for (kind, stream) in of_octets(seed, 20000) {
            let (mut state, mut other) = (DECODER_RESET, Decoder::new(Wrong::None));
            let (mut signals, mut rl, mut rh) = (other.clone(), vec![0; 11], vec![0; 11]);
            let mut at = 0;
            for (n, roll) in cuts(stream.len(), seed).into_iter().zip(dice(seed, 30000)) {
                let given = &stream[at..at + n];
                at += n;
                let before = state;
                heard(&mut state, &mut other, roll | 4, given, 2 * n).unwrap_err();
                heard(&mut state, &mut other, roll % 4, given, 2 * n + 1).unwrap_err();
                assert_eq!(state, before, "{kind:?} {seed} {at}: a refused call changed the state");
                met.note(heard(&mut state, &mut other, roll % 4, given, 2 * n).unwrap());
                for octet in given {
                    let pair = signals.sub_bands(*octet, (roll % 4).max(1));
                    rl.push(pair.0 as i16);
                    rh.push(pair.1 as i16);
                }
                let past = [&rl[rl.len() - 11..], &rh[rh.len() - 11..]].concat();
                assert_eq!(state[81..], bytes(&past), "{kind:?} {seed} {at}: the past pairs");
            }
            assert_eq!(at, stream.len());
        }
    }
    met.both();
}

/// A stream of octets in calls, each with a roll of the dice.
fn calls(stream: &[u8], seed: u64) -> Vec<(&[u8], u8)> {
    let mut rest = stream;
    let call = |(n, roll)| {
        let (given, later) = rest.split_at(n);
        rest = later;
        (given, roll)
    };
    cuts(stream.len(), seed).into_iter().zip(dice(seed, 30000)).map(call).collect()
}

/// The signals of a stream, with refused calls between.
fn all_signals(
    state: &mut [u8; 125],
    other: &mut Decoder,
    stream: &[u8],
    seed: u64,
    met: &mut Met,
) -> [Vec<i16>; 2] {
    let mut all = [vec![], vec![]];
    for (given, roll) in calls(stream, seed) {
        let (n, before) = (given.len(), *state);
        signals(state, other, roll | 4, given, [n; 2]).unwrap_err();
        signals(state, other, roll % 4, given, [n + 1, n]).unwrap_err();
        signals(state, other, roll % 4, given, [n, n + 1]).unwrap_err();
        assert_eq!(*state, before, "a refused call changed the state");
        let (got, limited) = signals(state, other, roll % 4, given, [n; 2]).unwrap();
        met.note(limited);
        all.iter_mut().zip(got).for_each(|(all, got)| all.extend(got));
    }
    all
}

/// The samples of a stream of pairs, with refused calls between: a bad signal in either band or in both.
fn all_samples(
    state: &mut [u8; 125],
    other: &mut Decoder,
    stream: &[Vec<i16>; 2],
    seed: u64,
    met: &mut Met,
) -> Vec<i16> {
    let mut all = vec![];
    for (turn, n) in cuts(stream[0].len(), seed).into_iter().enumerate() {
        let at = all.len() / 2;
        let [low, high] = [0, 1].map(|band| &stream[band][at..at + n]);
        let before = *state;
        for bands in [[true, false], [false, true], [true, true]] {
            let spoilt = [(low, bands[0], 7), (high, bands[1], 11)].map(|(signals, bad, skip)| {
                let mut signals = signals.to_vec();
                for place in (0..n).skip(turn % 50 * skip).step_by(61).filter(|_| bad) {
                    signals[place] = [16384, -16385, i16::MAX, i16::MIN][place % 4];
                }
                signals
            });
            if spoilt != [low, high] {
                joined(state, other, &spoilt[0], &spoilt[1], 2 * n).unwrap_err();
            }
        }
        joined(state, other, low, high, 2 * n + 1).unwrap_err();
        joined(state, other, low, &[high, &[0]].concat(), 2 * n).unwrap_err();
        joined(state, other, &[low, &[0]].concat(), high, 2 * n).unwrap_err();
        assert_eq!(*state, before, "a refused call changed the state");
        let (got, limited) = joined(state, other, low, high, 2 * n).unwrap();
        met.note(limited);
        all.extend(got);
    }
    all
}

#[test]
fn steps() {
    let (mut met_hearing, mut met_joining) = (Met::default(), Met::default());
    for seed in 0..2 {
        for (kind, stream) in of_octets(seed, 12000) {
            let (mut state, mut other) = (DECODER_RESET, Decoder::new(Wrong::None));
            let mut pairs = all_signals(&mut state, &mut other, &stream, seed, &mut met_hearing);
            if seed % 2 == 1 {
                pairs[0].iter_mut().for_each(|x| *x = -1 - *x);
                pairs[1].rotate_left(5);
            }
            all_samples(&mut state, &mut other, &pairs, seed + 9, &mut met_joining);
            let past = [&pairs[0], &pairs[1]].map(|x| x[x.len() - 11..].to_vec()).concat();
            assert_eq!(state[81..], bytes(&past), "{kind:?} {seed}: the past pairs");
        }
    }
    met_hearing.both();
    met_joining.both();
}

#[test]
fn steps_in_turn_are_decoding() {
    for (kind, stream) in of_octets(4, 12000) {
        let (mut state, mut one) = (DECODER_RESET, DECODER_RESET);
        let mut other = Decoder::new(Wrong::None);
        let pairs = all_signals(&mut state, &mut other, &stream, 1, &mut Met::default());
        let found = all_samples(&mut state, &mut other, &pairs, 2, &mut Met::default());
        let (mut heard, mut limited) = (vec![], 0);
        for (given, roll) in calls(&stream, 1) {
            let mut lent = vec![0; 4 * given.len()];
            limited += decode(&mut one, roll % 4, given, &mut lent).unwrap();
            heard.extend(lent);
        }
        assert_eq!((state, bytes(&found)), (one, heard), "{kind:?}");
        assert_eq!(joining_counts(&pairs), limited, "{kind:?}: the counts");
    }
}

/// What joining counts of a stream of pairs from reset, in calls of 1000.
fn joining_counts(pairs: &[Vec<i16>; 2]) -> usize {
    let mut state = DECODER_RESET;
    let calls = pairs[0].chunks(1000).zip(pairs[1].chunks(1000));
    let count = |(low, high): (&[i16], &[i16])| {
        join(&mut state, &bytes(low), &bytes(high), &mut vec![0; 4 * low.len()]).unwrap()
    };
    calls.map(count).sum()
}

/// The whole answers of the six calls, of which the wrapper shows parts: on octets, on samples and low
/// signals that are all one value, and on data that fits.
fn words(
    coder: &mut [u8],
    decoder: &mut [u8],
    mode: u8,
    octets: &mut [u8],
    value: i16,
) -> [u64; 6] {
    let n = octets.len();
    let mut given = bytes(&vec![value; 2 * n]);
    let [mut low, mut high] = [bytes(&vec![value; n]), bytes(&vec![0; n])];
    let mut data = vec![0x5A; n * usize::from(mode.clamp(2, 3) - 1) / 8];
    let (c, d, o) = (coder.as_mut_ptr(), decoder.as_mut_ptr(), octets.as_mut_ptr());
    let (x, l, h, b) = (given.as_mut_ptr(), low.as_mut_ptr(), high.as_mut_ptr(), data.as_mut_ptr());
    let (cn, dn, bn) = (coder.len(), decoder.len(), data.len());
    unsafe {
        [
            c::zelcandry_put(mode, o, n, b, bn),
            c::zelcandry_take(mode, o, n, b, bn),
            c::zelcandry_join(d, dn, l, 2 * n, h, 2 * n, x, 4 * n),
            c::zelcandry_hear(d, dn, mode, o, n, l, 2 * n, h, 2 * n),
            c::zelcandry_decode(d, dn, mode, o, n, x, 4 * n),
            c::zelcandry_code(c, cn, x, 4 * n, o, n),
        ]
    }
}

#[test]
fn only_calls_that_are_done_have_a_count() {
    let octets = [[0x44; 400], [0x3A; 400]].concat();
    let states = || (CODER_RESET.to_vec(), DECODER_RESET.to_vec());
    let (mut coder, mut decoder) = states();
    let done = words(&mut coder, &mut decoder, 2, &mut octets.clone(), 16383);
    assert_eq!(done.map(|word| word as u32), [0; 6]);
    assert_eq!(done.map(|word| word >> 32 > 0), [false, false, true, true, true, true]);
    let (mut coder, mut decoder) = states();
    let refused = words(&mut coder, &mut decoder, 9, &mut octets.clone(), 16384);
    assert_eq!(refused, [1, 1, 4, 1, 1, 4]);
    let short = words(&mut coder[1..], &mut decoder[1..], 3, &mut octets.clone(), 16383);
    assert_eq!(short, [0, 0, 2, 2, 2, 2]);
    let long = words(&mut coder, &mut decoder, 3, &mut vec![0x44; 8004], 16383);
    assert_eq!(long, [3; 6]);
}

#[test]
fn data() {
    let mut met = [0; 6];
    for seed in 0..20000 {
        let rolls = dice(seed, 8);
        let (mode, n) =
            (rolls[0] % 5, usize::from(rolls[1]) % 43 * if seed % 100 == 0 { 200 } else { 4 });
        let off = if rolls[2] < 200 { 0 } else { usize::from(rolls[3]) % 3 };
        let given = dice(seed + 1, n * usize::from(mode.clamp(2, 3) - 1) / 8 + off);
        let mut octets = dice(seed + 2, n);
        let mut theirs = octets.clone();
        let answer = put(mode, &mut octets, &given);
        assert_eq!(answer, told(put_in(mode, &mut theirs, &given)));
        assert_eq!(octets, theirs);
        let mut out = dice(seed + 3, given.len());
        let mut their_out = out.clone();
        assert_eq!(take(mode, &octets, &mut out), told(take_out(mode, &octets, &mut their_out)));
        assert_eq!(out, their_out);
        assert!(answer.is_err() || out == given, "what was put in does not come out: seed {seed}");
        met[answer.map_or_else(|r| usize::from(r.number), |()| 0)] += 1;
    }
    assert!([0, 1, 3, 5].iter().all(|number| met[*number] > 500), "{met:?}");
}
