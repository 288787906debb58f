//! The overload lamp: what each call counts, on material that overloads one
//! place alone, and every wrong lamp told from the right one. What is counted
//! is held against LIMIT itself, which the lamp does not ask.

use second::arith::limit;
use second::compare::{encode_all, hear_all, mix_all, octets_of};
use second::filters::{Receive, Transmit};
use second::lamp::Before;
use second::listing::listing;
use second::material::{self, material, Kind};
use second::{blocks, wrong, Coder, Decoder, Desk, Refusal, Wrong};

/// A step up to one end: XL overshoots, and then stays at that end.
const STEP: [i16; 200] = [16383; 200];
/// As loud at 8 kHz: XH overshoots, and then stays at an end.
const FLUTTER: [[i16; 2]; 100] = [[-16384, 16383]; 100];
/// The low signal runs beyond its range, the high one stays small.
const LOW_RUN: [u8; 300] = [0x44; 300];
/// The high signal runs beyond its range, the low one stays small.
const HIGH_RUN: [u8; 300] = [0x3a; 300];

/// How many first and second values LIMIT changes, and how many of both stand
/// at an end of the range.
fn changed(before: &[Before]) -> ([usize; 2], usize) {
    let both = before.iter().flat_map(|pair| [pair.0, pair.1]);
    let first = before.iter().filter(|pair| limit(pair.0) != pair.0).count();
    let second = before.iter().filter(|pair| limit(pair.1) != pair.1).count();
    ([first, second], both.filter(|value| [-16384, 16383].contains(value)).count())
}

/// XL and XH before LIMIT.
fn transmitted(samples: &[i16]) -> Vec<Before> {
    let mut filter = Transmit::reset(Wrong::None);
    samples.chunks(2).map(|pair| filter.pair(pair[0].into(), pair[1].into())).collect()
}

/// YL and YH.
fn heard(octets: &[u8], mode: u8) -> Vec<Before> {
    let mut decoder = Decoder::new(Wrong::None);
    let pair = |octet: &u8| {
        let low = decoder.decode_low(octet & 63, mode);
        (low.before, decoder.decode_high(octet >> 6).before)
    };
    octets.iter().map(pair).collect()
}

/// The samples of pairs of signals, before LIMIT.
fn received(signals: &[Vec<i16>; 2]) -> Vec<Before> {
    let mut filter = Receive::reset(Wrong::None);
    let pairs = signals[0].iter().zip(&signals[1]);
    pairs.map(|(rl, rh)| filter.pair((*rl).into(), (*rh).into())).collect()
}

/// What coding counts, call by call, from reset.
fn coding(samples: &[i16], call: usize, wrong: Wrong) -> Vec<usize> {
    let mut coder = Coder::new(wrong);
    let calls = samples.chunks(2 * call);
    calls.map(|given| coder.encode(given, &mut vec![0; given.len() / 2]).unwrap()).collect()
}

/// What decoding in one counts.
fn decoding(octets: &[u8], mode: u8, call: usize, wrong: Wrong) -> Vec<usize> {
    let mut decoder = Decoder::new(wrong);
    let calls = octets.chunks(call);
    calls.map(|given| decoder.decode(mode, given, &mut vec![0; 2 * given.len()]).unwrap()).collect()
}

/// What the first step counts.
fn hearing(octets: &[u8], mode: u8, call: usize, wrong: Wrong) -> Vec<usize> {
    let mut decoder = Decoder::new(wrong);
    let step = |given: &[u8]| {
        let [mut low, mut high] = [vec![0; given.len()], vec![0; given.len()]];
        decoder.hear(mode, given, &mut low, &mut high).unwrap()
    };
    octets.chunks(call).map(step).collect()
}

/// What the second step counts.
fn joining(signals: &[Vec<i16>; 2], call: usize, wrong: Wrong) -> Vec<usize> {
    let mut decoder = Decoder::new(wrong);
    let calls = signals[0].chunks(call).zip(signals[1].chunks(call));
    calls.map(|(low, high)| decoder.join(low, high, &mut vec![0; 2 * low.len()]).unwrap()).collect()
}

/// What the ticks of a desk count, all ports in a mode.
fn ticking(ports: &[Vec<u8>], mode: u8, wrong: Wrong) -> Vec<usize> {
    let mut desk = Desk::reset(ports.len(), wrong).unwrap();
    let tick = |tick: usize| {
        let given: Vec<u8> = ports.iter().map(|octets| octets[tick]).collect();
        desk.tick(&vec![mode; ports.len()], &given, &mut vec![0; ports.len()]).unwrap()
    };
    (0..ports[0].len()).map(tick).collect()
}

/// What each port is to hear of a desk, low and high, before LIMIT: the total
/// less its own.
fn summed(ports: &[Vec<u8>], mode: u8) -> Vec<Before> {
    let signals = ports.iter().map(|octets| hear_all(octets, &[mode], 8000, Wrong::None));
    let signals: Vec<[Vec<i16>; 2]> = signals.collect();
    let sum = |port: usize, band: usize, tick: usize| {
        let own = |port: usize| i32::from(signals[port][band][tick]);
        (0..ports.len()).map(own).sum::<i32>() - own(port)
    };
    let ticks = (0..ports[0].len()).flat_map(|tick| (0..ports.len()).map(move |port| (port, tick)));
    ticks.map(|(port, tick)| (sum(port, 0, tick), sum(port, 1, tick))).collect()
}

/// The octets of so many ports, of a kind each with a seed of its own.
fn stations(kind: Kind, ports: u64) -> Vec<Vec<u8>> {
    let octets = |seed| octets_of(&material::stream(kind, seed, 2000))[..1000].to_vec();
    (0..ports).map(octets).collect()
}

#[test]
fn coding_counts_low_signals_alone_and_not_at_the_end() {
    assert_eq!(changed(&transmitted(&STEP)), ([3, 0], 89));
    assert_eq!(coding(&STEP, 100, Wrong::None), [3]);
    assert_eq!(coding(&STEP, 12, Wrong::None), [3, 0, 0, 0, 0, 0, 0, 0, 0]);
    assert_eq!(coding(&[-16384; 200], 12, Wrong::None), [3, 0, 0, 0, 0, 0, 0, 0, 0]);
}

#[test]
fn coding_counts_high_signals_alone_and_not_at_the_end() {
    for flutter in [FLUTTER.concat(), FLUTTER.concat().iter().map(|x| -1 - x).collect()] {
        assert_eq!(changed(&transmitted(&flutter)), ([0, 3], 89));
        assert_eq!(coding(&flutter, 100, Wrong::None), [3]);
        assert_eq!(coding(&flutter, 12, Wrong::None), [3, 0, 0, 0, 0, 0, 0, 0, 0]);
    }
    assert_eq!(coding(&[12000; 200], 100, Wrong::None), [0]);
}

#[test]
fn hearing_counts_either_band_alone() {
    for mode in 1..=3 {
        let low = [288, 287, 286][usize::from(mode) - 1];
        assert_eq!(changed(&heard(&LOW_RUN, mode)), ([low, 0], 0));
        assert_eq!(hearing(&LOW_RUN, mode, 300, Wrong::None), [low]);
        assert_eq!(changed(&heard(&HIGH_RUN, mode)), ([0, 258], 0));
        assert_eq!(hearing(&HIGH_RUN, mode, 300, Wrong::None), [258]);
        assert_eq!(hearing(&[0xfa; 300], mode, 300, Wrong::None), [0]);
    }
}

#[test]
fn decoding_counts_samples_where_no_signal_is_limited() {
    let octets = octets_of(&material::stream(Kind::NoiseFull, 0, 12000));
    for mode in 1..=3 {
        assert_eq!(changed(&heard(&octets, mode)).0, [0, 0]);
        assert_eq!(hearing(&octets, mode, 8000, Wrong::None), [0]);
        assert_eq!(decoding(&octets, mode, 8000, Wrong::None), [15]);
    }
}

#[test]
fn decoding_does_not_count_signals() {
    let octets = octets_of(&material::stream(Kind::Steps, 0, 12000));
    let [signals, samples] =
        [hearing, decoding].map(|counts| counts(&octets, 1, 8000, Wrong::None));
    assert_eq!((signals, samples), (vec![33], vec![38]));
}

#[test]
fn joining_counts_samples_and_not_at_the_end() {
    for end in [16383, -16384] {
        let signals = [vec![end; 100], vec![0; 100]];
        assert_eq!(changed(&received(&signals)), ([3, 2], 178));
        assert_eq!(joining(&signals, 12, Wrong::None), [5, 0, 0, 0, 0, 0, 0, 0, 0]);
    }
    assert_eq!(joining(&[vec![9000; 100], vec![0; 100]], 100, Wrong::None), [0]);
}

#[test]
fn a_desk_counts_sums_where_no_signal_is_limited() {
    let ports = stations(Kind::NoiseFull, 3);
    for octets in &ports {
        assert_eq!(hearing(octets, 1, 1000, Wrong::None), [0]);
    }
    assert_eq!(changed(&summed(&ports, 1)).0, [239, 0]);
    assert_eq!(ticking(&ports, 1, Wrong::None).iter().sum::<usize>(), 239);
    assert_eq!(ticking(&ports[..2], 1, Wrong::None), vec![0; 1000]);
    assert_eq!(ticking(&stations(Kind::NoiseMiddle, 3), 1, Wrong::None), vec![0; 1000]);
}

#[test]
fn a_desk_counts_high_sums_and_not_those_at_the_end() {
    let runs = vec![HIGH_RUN.to_vec(); 3];
    assert_eq!(changed(&summed(&runs, 1)).0[0], 0);
    assert!(ticking(&runs, 1, Wrong::None).iter().sum::<usize>() > 600);
    for (run, at_end) in [(HIGH_RUN, 516), (HIGH_RUN.map(|octet| octet ^ 0x80), 524)] {
        let two = vec![run.to_vec(); 2];
        assert_eq!(changed(&summed(&two, 1)), ([0, 0], at_end));
        assert_eq!(ticking(&two, 1, Wrong::None), vec![0; 300]);
    }
}

#[test]
fn signals_at_an_end_are_not_counted_where_they_are_heard() {
    let octets = octets_of(&material::stream(Kind::FullScale, 0, 12000));
    let before = heard(&octets, 1);
    assert_eq!(changed(&before), ([2303, 0], 45));
    assert!([-16384, 16383].iter().all(|end| before.iter().any(|(yl, _)| yl == end)));
    let counts = hearing(&octets, 1, 1, Wrong::None);
    for (count, (yl, _)) in counts.into_iter().zip(before) {
        assert_eq!(count, usize::from(limit(yl) != yl), "{yl}");
    }
}

/// The counts of calls of any length add up to what LIMIT changes.
fn adds_up(before: &[Before], counts: impl Fn(usize) -> Vec<usize>) -> usize {
    let total = changed(before).0.iter().sum();
    for call in [1, 37, 1000, 8000] {
        assert_eq!(counts(call).iter().sum::<usize>(), total, "calls of {call}");
    }
    total
}

#[test]
fn counts_are_what_limit_changes_in_each_call() {
    let (mut met, mut none) = ([false; 3], [false; 3]);
    for (kind, stream) in material(0) {
        let octets = octets_of(&stream);
        let signals = hear_all(&octets, &[2], 8000, Wrong::None);
        let samples = received(&signals);
        let mut totals = [0, 0, 0];
        if let material::Stream::Samples(given) = &stream {
            totals[0] = adds_up(&transmitted(given), |call| coding(given, call, Wrong::None));
        }
        totals[1] = adds_up(&heard(&octets, 2), |call| hearing(&octets, 2, call, Wrong::None));
        totals[2] = adds_up(&samples, |call| joining(&signals, call, Wrong::None));
        let in_one = adds_up(&samples, |call| decoding(&octets, 2, call, Wrong::None));
        assert_eq!(in_one, totals[2], "{kind:?}");
        for (place, total) in totals.into_iter().enumerate() {
            met[place] |= total > 0;
            none[place] |= total == 0;
        }
    }
    assert_eq!((met, none), ([true; 3], [true; 3]));
}

#[test]
fn the_sums_of_a_desk_are_counted_tick_by_tick() {
    for (kind, loud) in [(Kind::NoiseFull, true), (Kind::Slams, true), (Kind::NoiseLow, false)] {
        for ports in 3..=8 {
            let octets = stations(kind, ports);
            let counts = ticking(&octets, 3, Wrong::None);
            for (count, sums) in counts.iter().zip(summed(&octets, 3).chunks(ports as usize)) {
                assert_eq!(
                    *count,
                    changed(sums).0.iter().sum::<usize>(),
                    "{kind:?}, {ports} ports"
                );
            }
            assert_eq!(counts.iter().any(|count| *count > 0), loud, "{kind:?}, {ports} ports");
        }
    }
}

#[test]
fn a_refused_call_leaves_no_count() {
    let refusal = |number, index| Err(Refusal { number, index });
    let (mut coder, mut decoder) = (Coder::new(Wrong::None), Decoder::new(Wrong::None));
    let mut octets = [0; 12];
    assert_eq!(coder.encode(&[&STEP[..23], &[16384]].concat(), &mut octets), refusal(4, 23));
    assert_eq!(coder.encode(&[0; 24], &mut octets), Ok(0));
    let (mut low, mut high, mut samples) = ([0; 300], [0; 300], [0; 600]);
    assert_eq!(decoder.hear(4, &LOW_RUN, &mut low, &mut high), refusal(1, 0));
    assert_eq!(decoder.decode(4, &LOW_RUN, &mut samples), refusal(1, 0));
    assert_eq!(decoder.decode(1, &[0xfa; 300], &mut samples), Ok(0));
    let ends = [&[16383; 299][..], &[16384]].concat();
    assert_eq!(decoder.join(&ends, &[0; 300], &mut samples), refusal(4, 299));
    assert_eq!(decoder.join(&low, &high, &mut samples), Ok(0));
}

/// What all calls count on the material of a seed, place by place: coding,
/// decoding, both steps and the desk.
fn all_counts(seed: u64, wrong: Wrong) -> [Vec<usize>; 5] {
    let mut all: [Vec<usize>; 5] = Default::default();
    for (_, stream) in material(seed) {
        let octets = octets_of(&stream);
        let signals = hear_all(&octets, &[1], 8000, Wrong::None);
        if let material::Stream::Samples(given) = &stream {
            all[0].extend(coding(given, 37, wrong));
        }
        all[1].extend(decoding(&octets, 1, 37, wrong));
        all[2].extend(hearing(&octets, 1, 37, wrong));
        all[3].extend(joining(&signals, 37, wrong));
    }
    for kind in [Kind::NoiseFull, Kind::Slams, Kind::Rhythm] {
        all[4].extend(ticking(&stations(kind, 3), 1, wrong));
    }
    all
}

/// Where each wrong lamp is told. Coding does not tell `PairsOnce`, since XL and
/// XH of one pair are never both limited: their sizes add up to less than 26000.
const TELLS: [(Wrong, &str); 7] = [
    (Wrong::EndsCounted, "coding decoding hearing joining desk"),
    (Wrong::CountsKept, "coding decoding hearing joining desk"),
    (Wrong::HighUncounted, "coding hearing desk"),
    (Wrong::LowTwice, "coding hearing desk"),
    (Wrong::PairsOnce, "decoding hearing joining desk"),
    (Wrong::LoopCounted, "hearing"),
    (Wrong::HeardCounted, "decoding"),
];

#[test]
fn every_wrong_lamp_is_told_in_the_places_listed() {
    const PLACES: [&str; 5] = ["coding", "decoding", "hearing", "joining", "desk"];
    assert_eq!(TELLS.map(|row| row.0), wrong::LAMP);
    for seed in 0..2 {
        let right = all_counts(seed, Wrong::None);
        for (wrong, places) in TELLS {
            let other = all_counts(seed, wrong);
            let told = (0..5).filter(|place| other[*place] != right[*place]);
            let told: Vec<&str> = told.map(|place| PLACES[place]).collect();
            assert_eq!(told.join(" "), places, "{wrong:?}, seed {seed}");
        }
    }
}

#[test]
fn a_wrong_lamp_changes_nothing_but_counts() {
    for (kind, stream) in material(0) {
        let octets = octets_of(&stream);
        let ports = vec![octets[..500].to_vec(); 3];
        for wrong in wrong::LAMP {
            if let material::Stream::Samples(given) = &stream {
                assert_eq!(encode_all(given, wrong), octets, "{kind:?}, {wrong:?}");
            }
            let signals = |wrong| hear_all(&octets, &[1], 37, wrong);
            assert_eq!(signals(wrong), signals(Wrong::None), "{kind:?}, {wrong:?}");
            let mixed = |wrong| mix_all(&ports, &[vec![1; 3]], wrong);
            assert_eq!(mixed(wrong), mixed(Wrong::None), "{kind:?}, {wrong:?}");
        }
    }
}

#[test]
fn the_listing_has_the_count_of_each_block() {
    let octets = octets_of(&material::stream(Kind::Steps, 0, 12000));
    let counts = decoding(&octets, 1, 480, Wrong::None);
    let (mut recording, mut block) = (vec![], [0; blocks::BLOCK]);
    for (number, octets) in octets.chunks(480).enumerate() {
        blocks::write(&mut block, 7, number as u32, 1, octets).unwrap();
        recording.extend(block);
    }
    let listed = |wrong| -> Vec<usize> {
        let lines = listing(&recording, wrong);
        lines.lines().map(|line| line.split(' ').nth(6).unwrap().parse().unwrap()).collect()
    };
    assert_eq!(listed(Wrong::None), counts);
    assert!(counts.iter().any(|count| *count > 0) && counts.contains(&0));
    assert_ne!(listed(Wrong::CountsKept), counts);
    assert_ne!(listed(Wrong::HeardCounted), counts);
}
