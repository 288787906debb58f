//! The fifteen sums worked by hand of SCOPE, under their numbers.

use second::blocks::{self, Reader};
use second::filters::Transmit;
use second::listing::listing;
use second::quantiser::{logscl, quantl, scaleh, scalel};
use second::{cue, Coder, Decoder, Refusal, Wrong};

/// What a call gives back when it refuses.
fn refusal<T>(number: u8, index: usize) -> Result<T, Refusal> {
    Err(Refusal { number, index })
}

/// The two samples of one octet from reset.
fn from_reset(mode: u8, octet: u8) -> [i16; 2] {
    let mut samples = [99; 2];
    Decoder::new(Wrong::None).decode(mode, &[octet], &mut samples).unwrap();
    samples
}

/// A recording of one block: take 7, block 0, mode 1, the octet FA.
fn one_block() -> [u8; 512] {
    let mut block = [0xee; 512];
    blocks::write(&mut block, 7, 0, 1, &[0xfa]).unwrap();
    block
}

#[test]
fn sum_01_silence_from_reset() {
    let mut octets = [0];
    Coder::new(Wrong::None).encode(&[0, 0], &mut octets).unwrap();
    assert_eq!(octets, [0xfa]);
}

#[test]
fn sum_02_low_differences_at_scale_32() {
    assert_eq!(quantl(-1, 32, Wrong::None), 0b011110);
    assert_eq!(quantl(1, 32, Wrong::None), 0b110111);
}

#[test]
fn sum_03_sizes_21_and_22_at_scale_32() {
    assert_eq!(quantl(21, 32, Wrong::None), 0b100001);
    assert_eq!(quantl(22, 32, Wrong::None), 0b100000);
}

#[test]
fn sum_04_fa_from_reset() {
    for mode in [0, 1, 3] {
        assert_eq!(from_reset(mode, 0xfa), [0, -1]);
    }
    assert_eq!(from_reset(2, 0xfa), [0, 0]);
}

#[test]
fn sum_05_its_neighbours_in_mode_3() {
    for octet in [0xf8, 0xf9, 0xfb] {
        assert_eq!(from_reset(3, octet), [0, -1]);
    }
}

#[test]
fn sum_06_ff_from_reset() {
    assert_eq!(from_reset(1, 0xff), [-1, 0]);
    assert_eq!(from_reset(3, 0xff), [0, 0]);
}

#[test]
fn sum_07_low_log_factor_at_its_end() {
    assert_eq!(logscl(0b100000, 18432, Wrong::None), 18432);
    assert_eq!(logscl(0b111100, 18432, Wrong::None), 18228);
}

#[test]
fn sum_08_scale_factors_at_the_ends() {
    assert_eq!((scalel(0), scaleh(0)), (32, 8));
    assert_eq!((scalel(18432), scaleh(22528)), (16384, 16384));
}

#[test]
fn sum_09_data_in_mode_3() {
    let mut octets = [0xfa; 4];
    cue::put_in(3, &mut octets, &[0xb1]).unwrap();
    assert_eq!(octets, [0xfa, 0xfb, 0xf8, 0xf9]);
    let mut data = [0];
    cue::take_out(3, &octets, &mut data).unwrap();
    assert_eq!(data, [0xb1]);
}

#[test]
fn sum_10_data_in_mode_2() {
    let mut octets = [0xfa; 8];
    cue::put_in(2, &mut octets, &[0x81]).unwrap();
    assert_eq!(octets, [0xfb, 0xfa, 0xfa, 0xfa, 0xfa, 0xfa, 0xfa, 0xfb]);
    let mut data = [0];
    cue::take_out(2, &octets, &mut data).unwrap();
    assert_eq!(data, [0x81]);
}

#[test]
fn sum_11_samples_outside_the_range() {
    let mut octets = [0x55];
    let mut coder = Coder::new(Wrong::None);
    assert_eq!(coder.encode(&[16384, 0], &mut octets), refusal(4, 0));
    assert_eq!(octets, [0x55]);
    assert_eq!(coder.encode(&[16383, -16384], &mut octets), Ok(0));
}

#[test]
fn sum_12_the_mode_is_refused_first() {
    let mut samples = [5; 3];
    assert_eq!(Decoder::new(Wrong::None).decode(4, &[0], &mut samples), refusal(1, 0));
    assert_eq!(samples, [5; 3]);
}

#[test]
fn sum_13_equal_samples_pass_the_transmit_filter() {
    for c in (-16384..=16383).step_by(31).chain([-16383, -1, 0, 1, 16383]) {
        let mut filter = Transmit::reset(Wrong::None);
        let last = (0..12).map(|_| filter.pair(c, c)).last();
        assert_eq!(last, Some((c, 0)));
    }
}

#[test]
fn sum_14_blocks_that_are_refused() {
    let zeros = [0; 512];
    assert_eq!(Reader::new(&zeros).next_block().unwrap_err().number, 7);
    assert_eq!(listing(&zeros, Wrong::None), "refused 7 0\n");
    assert_eq!(Reader::new(&zeros[..511]).next_block().unwrap_err().number, 6);
    assert_eq!(listing(&zeros[..511], Wrong::None), "refused 6 0\n");
}

#[test]
fn sum_15_one_block() {
    assert_eq!(listing(&one_block(), Wrong::None), "7 0 1 1 0 -1 0\n");
}
