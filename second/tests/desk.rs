//! The desk: what every port hears, what is refused, and every wrong desk told
//! from the right one.

use second::arith::limit;
use second::compare::{hear_all, mix_all, octets_of};
use second::desk::sum_of_others;
use second::material::{self, Kind};
use second::{wrong, Coder, Desk, Refusal, Wrong};

const TICKS: usize = 1000;
const LOUD: [Kind; 8] = [
    Kind::NoiseFull,
    Kind::FullScale,
    Kind::Slams,
    Kind::Tones,
    Kind::Rhythm,
    Kind::Signs,
    Kind::Directed,
    Kind::Random,
];
const QUIET: [Kind; 3] = [Kind::NoiseLow, Kind::NoiseFaint, Kind::Silence];

/// What a call gives back when it refuses.
fn refusal<T>(number: u8) -> Result<T, Refusal> {
    Err(Refusal { number, index: 0 })
}

/// The octets of each port, of the kinds in turn.
fn octets(kinds: &[Kind], ports: usize, seed: u64) -> Vec<Vec<u8>> {
    let stream = |port: usize| {
        let samples = material::stream(kinds[port % kinds.len()], seed + port as u64, 2 * TICKS);
        octets_of(&samples)[..TICKS].to_vec()
    };
    (0..ports).map(stream).collect()
}

/// Three ticks' modes of each port, no two neighbours in the same.
fn modes(ports: usize) -> Vec<Vec<u8>> {
    let told = [3, 1, 2, 0, 3, 2, 1, 2, 3, 0];
    (0..3).map(|tick| told[tick..tick + ports].to_vec()).collect()
}

/// The low and the high signals of each port, as its own decoder hears them.
fn signals(octets: &[Vec<u8>], modes: &[Vec<u8>]) -> Vec<[Vec<i16>; 2]> {
    let heard = |(port, octets): (usize, &Vec<u8>)| {
        let own: Vec<u8> = modes.iter().map(|told| told[port]).collect();
        hear_all(octets, &own, 1, Wrong::None)
    };
    octets.iter().enumerate().map(heard).collect()
}

/// The signals of all ports in one band at a tick.
fn at(signals: &[[Vec<i16>; 2]], band: usize, tick: usize) -> Vec<i32> {
    signals.iter().map(|bands| i32::from(bands[band][tick])).collect()
}

/// All octets that the two sub-band coders send for signals, from reset.
fn coded(low: &[i32], high: &[i32]) -> Vec<u8> {
    let mut coder = Coder::new(Wrong::None);
    let pairs = low.iter().zip(high);
    pairs.map(|(xl, xh)| coder.code_high(*xh) << 6 | coder.code_low(*xl)).collect()
}

#[test]
fn a_desk_has_two_to_eight_ports() {
    for ports in (0..20).chain([255, 256, 258, usize::MAX]) {
        let answer = Desk::reset(ports, Wrong::None).map(|_| ());
        assert_eq!(answer, if (2..=8).contains(&ports) { Ok(()) } else { refusal(9) }, "{ports}");
    }
}

/// What a tick that is refused answers; nothing is written.
fn refused(desk: &mut Desk, modes: &[u8], octets: usize, room: usize) -> Result<usize, Refusal> {
    let mut lent = vec![77; room];
    let answer = desk.tick(modes, &vec![0x5a; octets], &mut lent);
    assert_eq!(lent, vec![77; room]);
    answer
}

/// Tries on a desk all that is refused: counts that do not fit, also beside a
/// mode that is none, and such a mode at every port.
fn try_refusals(desk: &mut Desk, ports: usize) {
    for other in [0, 1, ports - 1, ports + 1, 8, 9].into_iter().filter(|n| *n != ports) {
        for (modes, octets, room) in
            [(ports, ports, other), (ports, other, ports), (other, ports, ports)]
        {
            for mode in [0, 3, 4, 255] {
                assert_eq!(refused(desk, &vec![mode; modes], octets, room), refusal(3));
            }
        }
    }
    for port in 0..ports {
        for mode in [4, 5, 128, 255] {
            let mut modes = vec![2; ports];
            modes[port] = mode;
            assert_eq!(refused(desk, &modes, ports, ports), refusal(1));
        }
    }
}

#[test]
fn a_refused_tick_has_not_been() {
    for ports in 2..=8 {
        let octets = octets(&LOUD, ports, 1);
        let sent = mix_all(&octets, &[vec![2; ports]], Wrong::None);
        let mut desk = Desk::reset(ports, Wrong::None).unwrap();
        for tick in 0..60 {
            let given: Vec<u8> = octets.iter().map(|octets| octets[tick]).collect();
            let mut room = vec![0; ports];
            try_refusals(&mut desk, ports);
            assert!(desk.tick(&vec![2; ports], &given, &mut room).is_ok());
            assert_eq!(room, sent.iter().map(|sent| sent[tick]).collect::<Vec<u8>>());
        }
    }
}

#[test]
fn two_ports_hear_each_other() {
    for (seed, kinds) in LOUD.chunks(2).enumerate() {
        let octets = octets(kinds, 2, seed as u64);
        let signals = signals(&octets, &modes(2));
        let sent = mix_all(&octets, &modes(2), Wrong::None);
        for (port, [low, high]) in signals.iter().enumerate() {
            let wide = |signals: &[i16]| signals.iter().map(|s| i32::from(*s)).collect::<Vec<_>>();
            assert_eq!(sent[1 - port], coded(&wide(low), &wide(high)), "{kinds:?}, port {port}");
        }
    }
}

#[test]
fn every_port_hears_the_total_less_its_own() {
    for ports in 2..=8 {
        let octets = octets(&LOUD, ports, 2);
        let signals = signals(&octets, &modes(ports));
        let sent = mix_all(&octets, &modes(ports), Wrong::None);
        for (port, sent) in sent.iter().enumerate() {
            let [low, high] = [0, 1].map(|band| {
                let tick = |tick| at(&signals, band, tick);
                let less = |all: Vec<i32>| limit(all.iter().sum::<i32>() - all[port]);
                (0..TICKS).map(tick).map(less).collect::<Vec<i32>>()
            });
            assert_eq!(*sent, coded(&low, &high), "port {port} of {ports}");
        }
    }
}

#[test]
fn the_sums_have_every_signal_once_for_each_other_port() {
    for ports in 2..=8 {
        let signals = signals(&octets(&LOUD, ports, 3), &modes(ports));
        for (band, tick) in (0..2 * TICKS).map(|i| (i % 2, i / 2)) {
            let all = at(&signals, band, tick);
            let sums = (0..ports).map(|port| sum_of_others(port, &all, Wrong::None));
            assert_eq!(sums.sum::<i32>(), (ports as i32 - 1) * all.iter().sum::<i32>());
        }
    }
}

#[test]
fn what_a_port_gives_it_does_not_hear() {
    for ports in 2..=8 {
        let given = octets(&LOUD, ports, 4);
        let sent = mix_all(&given, &modes(ports), Wrong::None);
        for port in 0..ports {
            let mut others = given.clone();
            others[port] = octets(&[Kind::Random], 1, 5).remove(0);
            let again = mix_all(&others, &modes(ports), Wrong::None);
            for (listener, (sent, again)) in sent.iter().zip(again).enumerate() {
                assert_eq!(*sent == again, listener == port, "{listener} of {ports}, {port} other");
            }
        }
    }
}

/// Whether some sum is out of range.
fn overloads(octets: &[Vec<u8>], modes: &[Vec<u8>]) -> bool {
    let signals = signals(octets, modes);
    (0..2 * TICKS).any(|i| {
        let all = at(&signals, i % 2, i / 2);
        let mut sums = (0..octets.len()).map(|port| sum_of_others(port, &all, Wrong::None));
        sums.any(|sum| limit(sum) != sum)
    })
}

/// The numbers of ports at which some sum is out of range.
fn overloaded(kinds: &[Kind]) -> Vec<usize> {
    (2..=8).filter(|ports| overloads(&octets(kinds, *ports, 6), &modes(*ports))).collect()
}

/// The numbers of ports at which a wrong desk is told.
fn told(wrong: Wrong, kinds: &[Kind]) -> Vec<usize> {
    let apart = |ports: &usize| {
        let octets = octets(kinds, *ports, 6);
        mix_all(&octets, &modes(*ports), wrong) != mix_all(&octets, &modes(*ports), Wrong::None)
    };
    (2..=8).filter(apart).collect()
}

#[test]
fn every_error_of_the_desk_is_told() {
    assert_eq!(overloaded(&LOUD), [3, 4, 5, 6, 7, 8]);
    for wrong in wrong::DESK {
        let first = match wrong {
            Wrong::SumsUnlimited => 3,
            Wrong::EighthLeftOut => 8,
            _ => 2,
        };
        assert_eq!(told(wrong, &LOUD), (first..=8).collect::<Vec<usize>>(), "{wrong:?}");
    }
}

#[test]
fn errors_of_limiting_are_told_by_overload_alone() {
    assert!(overloaded(&QUIET).is_empty());
    for wrong in wrong::DESK {
        let limiting = [Wrong::TotalLimited, Wrong::SumsUnlimited].contains(&wrong);
        assert_eq!(told(wrong, &QUIET).is_empty(), limiting, "{wrong:?}");
    }
}
