//! Codecs that start from a record: where a stream is taken up again, and from
//! records such as no stream leads to.

use second::compare::octets_of;
use second::extremes::{self, record, Zeros};
use second::material::{even_noise, material, Stream};
use second::{Coder, Decoder, Record, Wrong};

/// The octets of samples, coded in one call.
fn coded(coder: &mut Coder, samples: &[i16]) -> Vec<u8> {
    let mut octets = vec![0; samples.len() / 2];
    coder.encode(samples, &mut octets).unwrap();
    octets
}

/// The samples of octets, decoded in one call.
fn decoded(decoder: &mut Decoder, mode: u8, octets: &[u8]) -> Vec<i16> {
    let mut samples = vec![0; 2 * octets.len()];
    decoder.decode(mode, octets, &mut samples).unwrap();
    samples
}

#[test]
fn a_stream_is_taken_up_where_it_was_left() {
    for (kind, stream) in material(6) {
        let mut one = Decoder::new(Wrong::None);
        for (place, octets) in octets_of(&stream).chunks(401).enumerate() {
            let mut other = Decoder::from_record(&one.record(), Wrong::None);
            assert_eq!(other.record(), one.record());
            let mode = place as u8 % 4;
            assert_eq!(decoded(&mut other, mode, octets), decoded(&mut one, mode, octets));
            assert_eq!(other.record(), one.record(), "{kind:?}, call {place} of decoding");
        }
        let Stream::Samples(samples) = stream else { continue };
        let mut one = Coder::new(Wrong::None);
        for (place, samples) in samples.chunks(802).enumerate() {
            let mut other = Coder::from_record(&one.record(), Wrong::None);
            assert_eq!(other.record(), one.record());
            assert_eq!(coded(&mut other, samples), coded(&mut one, samples));
            assert_eq!(other.record(), one.record(), "{kind:?}, call {place} of coding");
        }
    }
}

#[test]
fn the_record_at_reset_is_zero_but_for_the_scale_factors() {
    let Record { low, high, past } = Coder::new(Wrong::None).record();
    assert_eq!(Decoder::new(Wrong::None).record(), Record { low, high, past });
    for (band, scale) in [(low, 32), (high, 8)] {
        assert_eq!(
            (band.b, band.d, band.a, band.r, band.p),
            ([0; 6], [0; 6], [0; 2], [0; 2], [0; 2])
        );
        assert_eq!((band.log_factor, band.scale), (0, scale));
    }
    assert_eq!(past, [0; 22]);
}

#[test]
fn terms_add_up_to_the_very_edges() {
    for seed in 0..1000 {
        for sum in [32767, 32768] {
            let made = record(Zeros::Up(sum), Zeros::Down(-1 - sum), seed);
            let ((up, down), (high_up, high_down)) = (made.low.sums(), made.high.sums());
            assert_eq!((up, high_down), (sum, -1 - sum), "seed {seed}");
            assert!(down >= -32768 && high_up <= 32767, "seed {seed}");
        }
        let (up, down) = record(Zeros::Small, Zeros::Any, seed).low.sums();
        assert!(up <= 32767 && down >= -32768, "seed {seed}");
    }
}

/// The signals that a codec hears of the octets from a record.
fn heard(from: &Record, octets: &[u8], wrong: Wrong) -> [Vec<i16>; 2] {
    let [mut low, mut high] = [vec![0; octets.len()], vec![0; octets.len()]];
    Decoder::from_record(from, wrong).hear(1, octets, &mut low, &mut high).unwrap();
    [low, high]
}

#[test]
fn wrong_sums_of_filtez_are_told_in_both_bands_and_from_each_other() {
    let samples = even_noise(7, 80, 16384);
    let mut told = [[0; 2]; 3];
    for seed in 0..20 {
        for zeros in extremes::ALL {
            let from = record(zeros, zeros, seed);
            let octets = coded(&mut Coder::from_record(&from, Wrong::None), &samples);
            let [right, once, order] =
                [Wrong::None, Wrong::FilterStopsOnce, Wrong::FilterOtherOrder]
                    .map(|wrong| heard(&from, &octets, wrong));
            for band in 0..2 {
                told[0][band] += usize::from(right[band] != once[band]);
                told[1][band] += usize::from(right[band] != order[band]);
                told[2][band] += usize::from(once[band] != order[band]);
            }
        }
    }
    assert!(told.iter().flatten().all(|count| *count > 20), "{told:?}");
}
