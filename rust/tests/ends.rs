//! The two ends over the bytes of their states (SCOPE 62 and 63): after each octet both bands are equal
//! at both ends, whatever stands in the last two bits, and bits that are not heard change nothing. Of
//! decoding the same holds of its first step alone.

mod common;

use common::{bytes, cuts, dice, of_octets, of_samples};
use zelcandry::{code, decode, hear, CODER_RESET, DECODER_RESET};

/// The bytes of the two bands, the same in both states.
const BANDS: std::ops::Range<usize> = 1..81;

#[test]
fn ends_stay_equal() {
    for (kind, stream) in of_samples(5, 12000) {
        let (mut coder, mut decoder, mut hearer) = (CODER_RESET, DECODER_RESET, DECODER_RESET);
        let rolls = dice(5, stream.len());
        for (i, pair) in stream.chunks(2).enumerate() {
            let (mut octet, mut heard, mut low, mut high) = ([0], [0; 4], [0; 2], [0; 2]);
            code(&mut coder, &bytes(pair), &mut octet).unwrap();
            octet[0] ^= rolls[2 * i] % 4;
            decode(&mut decoder, rolls[2 * i + 1] % 4, &octet, &mut heard).unwrap();
            hear(&mut hearer, rolls[2 * i] % 4, &octet, &mut low, &mut high).unwrap();
            assert_eq!(coder[BANDS], decoder[BANDS], "{kind:?}, octet {i}");
            assert_eq!(coder[BANDS], hearer[BANDS], "{kind:?}, octet {i}, heard alone");
        }
        assert_ne!(coder[1..41], CODER_RESET[1..41], "{kind:?}: the ends idled");
    }
}

#[test]
fn cuts_do_not_show() {
    for (kind, stream) in of_samples(6, 30000) {
        let given = bytes(&stream);
        let run = |seed| {
            let mut state = CODER_RESET;
            let mut octets = vec![0; given.len() / 4];
            let mut at = 0;
            for n in cuts(octets.len(), seed) {
                code(&mut state, &given[4 * at..4 * (at + n)], &mut octets[at..at + n]).unwrap();
                at += n;
            }
            (state, octets)
        };
        assert_eq!(run(1), run(2), "{kind:?}");
    }
}

#[test]
fn unheard_bits_change_nothing() {
    for (kind, stream) in of_octets(7, 12000) {
        let (mut one, mut other, mut hearer) = (DECODER_RESET, DECODER_RESET, DECODER_RESET);
        let mut other_hearer = hearer;
        let rolls = dice(7, stream.len());
        let mut at = 0;
        for n in cuts(stream.len(), 7) {
            let mode = 2 + rolls[at.min(stream.len() - 1)] % 2;
            let sent = &stream[at..at + n];
            let unheard = rolls[at..at + n].iter().map(|x| x & (2 * mode - 3));
            let changed: Vec<u8> =
                sent.iter().zip(unheard).map(|(octet, bits)| octet ^ bits).collect();
            let (mut first, mut second) = (vec![0; 4 * n], vec![1; 4 * n]);
            decode(&mut one, mode, sent, &mut first).unwrap();
            decode(&mut other, mode, &changed, &mut second).unwrap();
            assert_eq!((one, first), (other, second), "{kind:?} from {at}");
            let heard = |state: &mut [u8], octets: &[u8]| {
                let (mut low, mut high) = (vec![0; 2 * n], vec![0; 2 * n]);
                hear(state, mode, octets, &mut low, &mut high).unwrap();
                (low, high)
            };
            assert_eq!(
                heard(&mut hearer, sent),
                heard(&mut other_hearer, &changed),
                "{kind:?} from {at}"
            );
            assert_eq!(hearer, other_hearer, "{kind:?} from {at}");
            at += n;
        }
    }
}
