//! Refusals, calls and blocks beyond the fifteen sums.

use second::blocks::{self, check, Reader};
use second::compare::{decode_all, encode_all};
use second::history::History;
use second::material::{self, Kind, Stream};
use second::{cue, Coder, Decoder, Refusal, Wrong};

/// What a call gives back when it refuses.
fn refusal<T>(number: u8, index: usize) -> Result<T, Refusal> {
    Err(Refusal { number, index })
}

/// The samples of a kind.
fn samples(kind: Kind, seed: u64, n: usize) -> Vec<i16> {
    match material::stream(kind, seed, n) {
        Stream::Samples(samples) => samples,
        Stream::Octets(_) => panic!("this kind is octets"),
    }
}

#[test]
fn coding_refuses_in_its_order() {
    let mut coder = Coder::new(Wrong::None);
    assert_eq!(coder.encode(&[20000], &mut [0]), refusal(3, 0));
    assert_eq!(coder.encode(&vec![0; 16002], &mut vec![0; 8001]), refusal(3, 0));
    assert_eq!(coder.encode(&[0, 0, 1, -16385], &mut [0; 2]), refusal(4, 3));
    assert_eq!(coder.encode(&[], &mut []), Ok(0));
    let mut octets = [0];
    coder.encode(&[0, 0], &mut octets).unwrap();
    assert_eq!(octets, [0xfa]);
}

#[test]
fn decoding_refuses_in_its_order() {
    let mut decoder = Decoder::new(Wrong::None);
    assert_eq!(decoder.decode(4, &[], &mut []), refusal(1, 0));
    assert_eq!(decoder.decode(3, &[], &mut [0]), refusal(3, 0));
    assert_eq!(decoder.decode(3, &vec![0; 8001], &mut vec![0; 16002]), refusal(3, 0));
    assert_eq!(decoder.decode(3, &[], &mut []), Ok(0));
}

#[test]
fn data_is_refused_in_its_order() {
    assert_eq!(cue::put_in(4, &mut [0], &[0, 0]), refusal(1, 0));
    assert_eq!(cue::put_in(0, &mut [0], &[0, 0]), refusal(5, 0));
    assert_eq!(cue::take_out(1, &[0], &mut [0, 0]), refusal(5, 0));
    assert_eq!(cue::put_in(2, &mut [0; 7], &[0]), refusal(3, 0));
    assert_eq!(cue::put_in(3, &mut [0; 2], &[]), refusal(3, 0));
    assert_eq!(cue::take_out(3, &[0; 8004], &mut [0; 2001]), refusal(3, 0));
    assert_eq!(cue::put_in(3, &mut [], &[]), Ok(()));
}

#[test]
fn the_length_of_calls_does_not_matter() {
    let samples = samples(Kind::Tones, 5, 2000);
    let whole = encode_all(&samples, Wrong::None);
    let mut coder = Coder::new(Wrong::None);
    let mut parts = vec![0; 1000];
    for (octets, piece) in parts.chunks_mut(7).zip(samples.chunks(14)) {
        coder.encode(piece, octets).unwrap();
    }
    assert_eq!(parts, whole);
    let one = decode_all(&whole, &[2], 8000, Wrong::None);
    assert_eq!(decode_all(&whole, &[2], 7, Wrong::None), one);
}

#[test]
fn both_ends_keep_the_same_loop_in_every_mode() {
    for kind in [Kind::Tones, Kind::NoiseFull, Kind::Slams, Kind::Signs] {
        let samples = samples(kind, 2, 6000);
        let mut coder = Coder::new(Wrong::None);
        let mut octets = vec![0; 3000];
        coder.encode(&samples, &mut octets).unwrap();
        for mode in 0..4 {
            let mut decoder = Decoder::new(Wrong::None);
            decoder.decode(mode, &octets, &mut vec![0; 6000]).unwrap();
            assert_eq!(coder.bands(), decoder.bands());
        }
    }
}

/// The part of the signal's power that the error after the filters' delay of
/// 22 samples makes up, in thousandths.
fn error(samples: &[i16], mode: u8) -> i64 {
    let octets = encode_all(samples, Wrong::None);
    let heard = decode_all(&octets, &[mode], 8000, Wrong::None);
    let power = |value: i64| value * value;
    let signal: i64 = samples.iter().map(|x| power(i64::from(*x))).sum();
    let pairs = samples.iter().zip(&heard[22..]);
    let error: i64 = pairs.map(|(x, y)| power(i64::from(*x) - i64::from(*y))).sum();
    error * 1000 / signal
}

#[test]
fn tones_come_back() {
    let samples = samples(Kind::Tones, 3, 16000);
    let errors = [1, 2, 3].map(|mode| error(&samples, mode));
    assert!(errors[0] <= errors[1] && errors[1] <= errors[2] && errors[2] < 50, "{errors:?}");
}

#[test]
fn the_check_is_the_known_one() {
    assert_eq!(check(b"123456789"), 0x29b1);
    assert_eq!(check(&[]), 0xffff);
}

/// A block of take 1, block 2, mode 3 with these octets.
fn block(octets: &[u8]) -> [u8; 512] {
    let mut block = [0; 512];
    blocks::write(&mut block, 1, 2, 3, octets).unwrap();
    block
}

/// The number of the refusal when a byte is changed and the check set right.
fn after_change(place: usize, value: u8) -> u8 {
    let mut changed = block(&[0xfa; 10]);
    changed[place] = value;
    let right = check(&changed[..510]);
    changed[510..].copy_from_slice(&right.to_be_bytes());
    blocks::read(&changed).map_or_else(|refusal| refusal.number, |_| 0)
}

#[test]
fn blocks_are_refused_in_their_order() {
    assert_eq!(blocks::write(&mut [0; 511], 0, 0, 0, &[]), refusal(6, 0));
    assert_eq!(blocks::write(&mut [0; 512], 0, 0, 0, &[1]), refusal(8, 0));
    assert_eq!(blocks::write(&mut [0; 512], 0, 0, 4, &[1]), refusal(8, 0));
    assert_eq!(blocks::write(&mut [0; 512], 0, 0, 1, &[]), refusal(8, 0));
    assert_eq!(blocks::write(&mut [0; 512], 0, 0, 1, &[0; 481]), refusal(8, 0));
    assert_eq!(after_change(8, 0), 8);
    assert_eq!(after_change(9, 1), 8);
    assert_eq!(after_change(10, 2), 8);
    assert_eq!(after_change(11, 0), 8);
    assert_eq!(after_change(22, 1), 8);
    assert_eq!(after_change(509, 1), 8);
    assert_eq!(after_change(21, 1), 0);
    let mut spoilt = block(&[1]);
    spoilt[8] = 9;
    assert_eq!(blocks::read(&spoilt).unwrap_err().number, 7);
}

#[test]
fn a_reader_stays_at_a_refusal_and_at_the_end() {
    let good = block(&[7; 480]);
    let mut reader = Reader::new(&good);
    assert_eq!(reader.next_block().unwrap().unwrap().octets, [7; 480]);
    assert_eq!(reader.next_block(), Ok(None));
    assert_eq!(reader.next_block(), Ok(None));
    let short = [good.as_slice(), &[0; 5]].concat();
    let mut reader = Reader::new(&short);
    assert!(reader.next_block().is_ok());
    for _ in 0..2 {
        assert_eq!(reader.next_block().unwrap_err().number, 6);
    }
}

#[test]
fn a_long_history_is_still_looked_up_by_index() {
    let mut history = History::default();
    for now in 0..200_000 {
        history.push(now);
        let now = now as usize;
        assert_eq!(history.len(), now + 1);
        for back in [0, 1, 6, 23, 24] {
            assert_eq!(history.before(now, back), (now as i32 - back as i32).max(0));
        }
    }
}
