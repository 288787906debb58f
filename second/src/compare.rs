//! Which material tells a wrong codec from the right one.

use crate::material::Stream;
use crate::{Coder, Decoder, Desk, Wrong, MOST_OCTETS};

/// Where a wrong codec first answers otherwise.
#[derive(Clone, Copy, Debug, PartialEq, Eq, Default)]
pub struct Told {
    /// The first octet in which the coders differ.
    pub coder: Option<usize>,
    /// The first sample in which the decoders differ, in modes 1, 2 and 3 and
    /// with the mode changing from call to call.
    pub decoder: [Option<usize>; 4],
}

impl Told {
    /// Whether anything differs.
    pub fn apart(&self) -> bool {
        self.coder.is_some() || self.decoder.iter().any(Option::is_some)
    }
}

/// All octets of the samples, from reset. An odd last sample is left out.
pub fn encode_all(samples: &[i16], wrong: Wrong) -> Vec<u8> {
    let mut coder = Coder::new(wrong);
    let mut all = Vec::new();
    for piece in samples[..samples.len() / 2 * 2].chunks(2 * MOST_OCTETS) {
        let mut octets = vec![0; piece.len() / 2];
        coder.encode(piece, &mut octets).expect("material is in range");
        all.append(&mut octets);
    }
    all
}

/// The octets of a stream: as they are, or what the right coder makes of samples.
pub fn octets_of(stream: &Stream) -> Vec<u8> {
    match stream {
        Stream::Samples(samples) => encode_all(samples, Wrong::None),
        Stream::Octets(octets) => octets.clone(),
    }
}

/// All samples of the octets, from reset, the modes taken in turn by the calls
/// of `call` octets each.
pub fn decode_all(octets: &[u8], modes: &[u8], call: usize, wrong: Wrong) -> Vec<i16> {
    let mut decoder = Decoder::new(wrong);
    let mut all = Vec::new();
    for (mode, piece) in modes.iter().cycle().zip(octets.chunks(call)) {
        let mut samples = vec![0; 2 * piece.len()];
        decoder.decode(*mode, piece, &mut samples).expect("the modes are 0 to 3");
        all.append(&mut samples);
    }
    all
}

/// All low and high signals of the octets, from reset, in such calls.
pub fn hear_all(octets: &[u8], modes: &[u8], call: usize, wrong: Wrong) -> [Vec<i16>; 2] {
    let mut decoder = Decoder::new(wrong);
    let mut all = [vec![], vec![]];
    for (mode, piece) in modes.iter().cycle().zip(octets.chunks(call)) {
        let [mut low, mut high] = [vec![0; piece.len()], vec![0; piece.len()]];
        decoder.hear(*mode, piece, &mut low, &mut high).expect("the modes are 0 to 3");
        all[0].append(&mut low);
        all[1].append(&mut high);
    }
    all
}

/// All samples of signals in range, from reset.
pub fn join_all(signals: &[Vec<i16>; 2], call: usize, wrong: Wrong) -> Vec<i16> {
    let mut decoder = Decoder::new(wrong);
    let mut all = Vec::new();
    for (low, high) in signals[0].chunks(call).zip(signals[1].chunks(call)) {
        let mut samples = vec![0; 2 * low.len()];
        decoder.join(low, high, &mut samples).expect("the signals are in range");
        all.append(&mut samples);
    }
    all
}

/// All samples of the octets, from reset, each call heard and then joined. They
/// end where what was heard is refused, which only a wrong decoder does.
pub fn step_all(octets: &[u8], modes: &[u8], call: usize, wrong: Wrong) -> Vec<i16> {
    let mut decoder = Decoder::new(wrong);
    let mut all = Vec::new();
    for (mode, piece) in modes.iter().cycle().zip(octets.chunks(call)) {
        let [mut low, mut high] = [vec![0; piece.len()], vec![0; piece.len()]];
        let mut samples = vec![0; 2 * piece.len()];
        decoder.hear(*mode, piece, &mut low, &mut high).expect("the modes are 0 to 3");
        if decoder.join(&low, &high, &mut samples).is_err() {
            break;
        }
        all.append(&mut samples);
    }
    all
}

/// All octets that a desk sends to each port, from reset, for what each port
/// gives it. The ticks take the modes of all ports in turn.
pub fn mix_all(ports: &[Vec<u8>], modes: &[Vec<u8>], wrong: Wrong) -> Vec<Vec<u8>> {
    let mut desk = Desk::reset(ports.len(), wrong).expect("the ports are 2 to 8");
    let mut all = vec![vec![]; ports.len()];
    for (tick, modes) in (0..ports[0].len()).zip(modes.iter().cycle()) {
        let octets: Vec<u8> = ports.iter().map(|octets| octets[tick]).collect();
        let mut room = vec![0; ports.len()];
        desk.tick(modes, &octets, &mut room).expect("the modes are 0 to 3");
        all.iter_mut().zip(room).for_each(|(sent, octet)| sent.push(octet));
    }
    all
}

/// The first place where two answers differ.
fn first_difference<T: PartialEq>(one: &[T], other: &[T]) -> Option<usize> {
    one.iter().zip(other).position(|(a, b)| a != b)
}

/// Compares the wrong codec with the right one. A stream of samples is coded
/// by both; what the right coder sends, or the octets given, both decode.
pub fn compare(stream: &Stream, wrong: Wrong) -> Told {
    let mut told = Told::default();
    let octets = octets_of(stream);
    if let Stream::Samples(samples) = stream {
        told.coder = first_difference(&octets, &encode_all(samples, wrong));
    }
    let ways: [(&[u8], usize); 4] = [(&[1], 8000), (&[2], 8000), (&[3], 8000), (&[0, 3, 2], 37)];
    for (place, (modes, call)) in ways.into_iter().enumerate() {
        let right = decode_all(&octets, modes, call, Wrong::None);
        let other = decode_all(&octets, modes, call, wrong);
        told.decoder[place] = first_difference(&right, &other);
    }
    told
}
