//! Calls beside the second codec where a block of 160 octets ends: those of just about one block, of two
//! and of the most that a call may have, and a stream that is cut into two calls at every place.

mod common;

use common::beside::{coded, coder_state, decoder_state, heard, joined, signals, Met};
use common::{bytes, of_octets, of_samples};
use second::{Coder, Decoder, Wrong};
use std::ops::Range;
use zelcandry::{code, decode, hear, join, CODER_RESET, DECODER_RESET};

/// The octets of calls that follow each other.
const LENGTHS: [usize; 8] = [159, 160, 161, 319, 320, 321, 7999, 8000];
const TOTAL: usize = 17439;

/// A stream in pieces of those lengths, each octet being so many values.
fn pieces<T>(stream: &[T], values: usize) -> Vec<&[T]> {
    let mut rest = stream;
    let piece = |n| {
        let (given, later) = rest.split_at(values * n);
        rest = later;
        given
    };
    LENGTHS.into_iter().map(piece).collect()
}

#[test]
fn lengths_of_coding() {
    let mut met = Met::default();
    for (_, stream) in of_samples(12, 2 * TOTAL) {
        let (mut state, mut other) = (CODER_RESET, Coder::new(Wrong::None));
        for given in pieces(&stream, 2) {
            met.note(coded(&mut state, &mut other, given, given.len() / 2).unwrap());
        }
    }
    met.both();
}

#[test]
fn lengths_of_decoding() {
    let mut met = Met::default();
    for (_, stream) in of_octets(12, 2 * TOTAL) {
        for mode in 1..4 {
            let (mut state, mut other) = (DECODER_RESET, Decoder::new(Wrong::None));
            for given in pieces(&stream, 1) {
                met.note(heard(&mut state, &mut other, mode, given, 2 * given.len()).unwrap());
            }
        }
    }
    met.both();
}

#[test]
fn lengths_of_the_steps() {
    let (mut met_hearing, mut met_joining) = (Met::default(), Met::default());
    for (_, stream) in of_octets(12, 2 * TOTAL) {
        for mode in 1..4 {
            let (mut state, mut other) = (DECODER_RESET, Decoder::new(Wrong::None));
            for given in pieces(&stream, 1) {
                let n = given.len();
                let ([low, high], limited) =
                    signals(&mut state, &mut other, mode, given, [n; 2]).unwrap();
                met_hearing.note(limited);
                met_joining.note(joined(&mut state, &mut other, &low, &high, 2 * n).unwrap().1);
            }
        }
    }
    met_hearing.both();
    met_joining.both();
}

/// The octets of a stream that is cut, and those that both codecs have behind them before it.
const CUT: usize = 330;
const BEFORE: usize = 1000;

/// What the second codec makes of a stream, octet by octet: the bytes it gives, and at each place how many
/// values it has limited and the state it has come to.
struct Told {
    given: Vec<u8>,
    counts: Vec<usize>,
    states: Vec<[u8; 125]>,
}

impl Told {
    fn from(state: [u8; 125]) -> Told {
        Told { given: vec![], counts: vec![0], states: vec![state] }
    }

    /// Takes note of one more octet.
    fn then(&mut self, given: &[u8], limited: usize, state: [u8; 125]) {
        self.given.extend(given);
        self.counts.push(self.counts[self.counts.len() - 1] + limited);
        self.states.push(state);
    }
}

/// Holds two calls of ours, cut at every place, to what the second codec says of the whole stream and of the
/// place. A call is told its state and which octets it has; it gives its bytes and its count. Gives the
/// count of the whole stream.
fn cut_everywhere(
    what: &str,
    theirs: &Told,
    call: impl Fn(&mut [u8], Range<usize>) -> (Vec<u8>, usize),
) -> usize {
    for place in 0..=CUT {
        let mut state = theirs.states[0];
        let (mut given, first) = call(&mut state, 0..place);
        assert_eq!(first, theirs.counts[place], "{what}: the count before {place}");
        assert_eq!(state, theirs.states[place], "{what}: the state at {place}");
        let (rest, second) = call(&mut state, place..CUT);
        given.extend(rest);
        assert_eq!(given, theirs.given, "{what}, cut at {place}");
        assert_eq!(first + second, theirs.counts[CUT], "{what}: the counts, cut at {place}");
        assert_eq!(state, theirs.states[CUT], "{what}: the state at the end, cut at {place}");
    }
    theirs.counts[CUT]
}

#[test]
fn coding_cut_at_every_place() {
    let mut limited = 0;
    for (kind, stream) in of_samples(13, 2 * (BEFORE + CUT)) {
        let (before, stream) = stream.split_at(2 * BEFORE);
        let mut other = Coder::new(Wrong::None);
        other.encode(before, &mut [0; BEFORE]).unwrap();
        let mut theirs = Told::from(coder_state(&other.record()));
        for pair in stream.chunks(2) {
            let mut octet = [0];
            let limited = other.encode(pair, &mut octet).unwrap();
            theirs.then(&octet, limited, coder_state(&other.record()));
        }
        limited += cut_everywhere(&format!("{kind:?}"), &theirs, |state, part| {
            let mut octets = vec![0; part.len()];
            let given = bytes(&stream[2 * part.start..2 * part.end]);
            let limited = code(state, &given, &mut octets).unwrap();
            (octets, limited)
        });
    }
    assert_ne!(limited, 0);
}

/// Cuts the octets of every kind in every mode: those before the stream, and the stream. Some of it has a
/// count.
fn in_every_mode(mut cut: impl FnMut(&str, u8, &[u8], &[u8]) -> usize) {
    let mut limited = 0;
    for (kind, stream) in of_octets(13, 2 * (BEFORE + CUT)) {
        let (before, stream) = stream[..BEFORE + CUT].split_at(BEFORE);
        for mode in 1..4 {
            limited += cut(&format!("{kind:?} in mode {mode}"), mode, before, stream);
        }
    }
    assert_ne!(limited, 0);
}

/// The second codec's decoder with these octets behind it, and what it says at first.
fn decoder_after(mode: u8, octets: &[u8]) -> (Decoder, Told) {
    let mut decoder = Decoder::new(Wrong::None);
    decoder.decode(mode, octets, &mut vec![0; 2 * octets.len()]).unwrap();
    let told = Told::from(decoder_state(&decoder.record()));
    (decoder, told)
}

#[test]
fn decoding_cut_at_every_place() {
    in_every_mode(|what, mode, before, stream| {
        let (mut other, mut theirs) = decoder_after(mode, before);
        for octet in stream {
            let mut pair = [0; 2];
            let limited = other.decode(mode, &[*octet], &mut pair).unwrap();
            theirs.then(&bytes(&pair), limited, decoder_state(&other.record()));
        }
        cut_everywhere(what, &theirs, |state, part| {
            let mut samples = vec![0; 4 * part.len()];
            let limited = decode(state, mode, &stream[part], &mut samples).unwrap();
            (samples, limited)
        })
    });
}

/// The bytes of both steps octet by octet: those of a low and a high signal, then those of two samples.
fn woven(low: &[u8], high: &[u8], samples: &[u8]) -> Vec<u8> {
    let octets = low.chunks(2).zip(high.chunks(2)).zip(samples.chunks(4));
    octets.flat_map(|((low, high), pair)| [low, high, pair].concat()).collect()
}

#[test]
fn steps_cut_at_every_place() {
    in_every_mode(|what, mode, before, stream| {
        let (mut other, mut theirs) = decoder_after(mode, before);
        for octet in stream {
            let (mut low, mut high, mut pair) = ([0], [0], [0; 2]);
            let heard = other.hear(mode, &[*octet], &mut low, &mut high).unwrap();
            let joined = other.join(&low, &high, &mut pair).unwrap();
            let given = woven(&bytes(&low), &bytes(&high), &bytes(&pair));
            theirs.then(&given, heard + joined, decoder_state(&other.record()));
        }
        cut_everywhere(what, &theirs, |state, part| {
            let n = part.len();
            let (mut low, mut high, mut pairs) = (vec![0; 2 * n], vec![0; 2 * n], vec![0; 4 * n]);
            let heard = hear(state, mode, &stream[part], &mut low, &mut high).unwrap();
            let joined = join(state, &low, &high, &mut pairs).unwrap();
            (woven(&low, &high, &pairs), heard + joined)
        })
    });
}
