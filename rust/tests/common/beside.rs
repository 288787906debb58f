//! A call of ours beside the same call of the second codec: the answer with its count, what is left in
//! lent memory, and all bytes of the state are the same.

use super::{bytes, dice, samples};
use second::record::BandRecord;
use second::{Coder, Decoder, Record};
use zelcandry::{code, decode, hear, join, Refusal};

/// The second codec's answer in our words.
pub fn told<T>(answer: Result<T, second::Refusal>) -> Result<T, Refusal> {
    answer.map_err(|r| Refusal { number: r.number, index: r.index })
}

/// The 20 values of a band, in the order of docs/C.md.
fn band_values(band: &BandRecord) -> Vec<i32> {
    let oldest_first = [band.b, band.d].into_iter().flat_map(|six| six.into_iter().rev());
    let rest = [band.a, band.r, band.p, [band.log_factor, band.scale]].concat();
    oldest_first.chain(rest).collect()
}

/// The bytes of a record of this kind, in the order of docs/C.md.
fn state(kind: u8, record: &Record) -> [u8; 125] {
    let values = [band_values(&record.low), band_values(&record.high), record.past.to_vec()];
    let values: Vec<i16> = values.concat().into_iter().map(|x| x.try_into().unwrap()).collect();
    [vec![kind], bytes(&values)].concat().try_into().unwrap()
}

/// A coder's state.
pub fn coder_state(record: &Record) -> [u8; 125] {
    state(1, record)
}

/// A decoder's state.
pub fn decoder_state(record: &Record) -> [u8; 125] {
    state(2, record)
}

/// One coding call of both, into n octets.
pub fn coded(
    state: &mut [u8],
    other: &mut Coder,
    given: &[i16],
    n: usize,
) -> Result<usize, Refusal> {
    let mut lent = dice(n as u64, n);
    let mut theirs = lent.clone();
    let answer = code(state, &bytes(given), &mut lent);
    assert_eq!(answer, told(other.encode(given, &mut theirs)));
    assert_eq!(lent, theirs);
    assert_eq!(state, coder_state(&other.record()));
    answer
}

/// One decoding call of both, into n samples.
pub fn heard(
    state: &mut [u8],
    other: &mut Decoder,
    mode: u8,
    given: &[u8],
    n: usize,
) -> Result<usize, Refusal> {
    let mut lent = dice(n as u64, 2 * n);
    let mut theirs = samples(&lent);
    let answer = decode(state, mode, given, &mut lent);
    assert_eq!(answer, told(other.decode(mode, given, &mut theirs)));
    assert_eq!(lent, bytes(&theirs));
    assert_eq!(state, decoder_state(&other.record()));
    answer
}

/// One call of the first step of both, into n low and high signals; the signals, with the count.
pub fn signals(
    state: &mut [u8],
    other: &mut Decoder,
    mode: u8,
    given: &[u8],
    n: [usize; 2],
) -> Result<([Vec<i16>; 2], usize), Refusal> {
    let mut lent = n.map(|n| dice(n as u64, 2 * n));
    let mut theirs = lent.clone().map(|bytes| samples(&bytes));
    let before = state[81..].to_vec();
    let ([low, high], [their_low, their_high]) = (&mut lent, &mut theirs);
    let answer = hear(state, mode, given, low, high);
    assert_eq!(answer, told(other.hear(mode, given, their_low, their_high)));
    assert_eq!(lent, theirs.clone().map(|signals| bytes(&signals)));
    assert_eq!(state, decoder_state(&other.record()));
    assert_eq!(state[81..], before, "hearing moved the past pairs");
    answer.map(|limited| (theirs, limited))
}

/// One call of the second step of both, into n samples; the samples, with the count.
pub fn joined(
    state: &mut [u8],
    other: &mut Decoder,
    low: &[i16],
    high: &[i16],
    n: usize,
) -> Result<(Vec<i16>, usize), Refusal> {
    let mut lent = dice(n as u64, 2 * n);
    let mut theirs = samples(&lent);
    let before = state[..81].to_vec();
    let answer = join(state, &bytes(low), &bytes(high), &mut lent);
    assert_eq!(answer, told(other.join(low, high, &mut theirs)));
    assert_eq!(lent, bytes(&theirs));
    assert_eq!(state, decoder_state(&other.record()));
    assert_eq!(state[..81], before, "joining moved a band");
    answer.map(|limited| (theirs, limited))
}

/// How many calls limited something, and how many nothing.
#[derive(Default)]
pub struct Met(usize, usize);

impl Met {
    /// Takes note of a call that was done.
    pub fn note(&mut self, limited: usize) {
        if limited > 0 {
            self.0 += 1;
        } else {
            self.1 += 1;
        }
    }

    /// Holds that there were more than a few of both.
    pub fn both(&self) {
        assert!(self.0 > 20 && self.1 > 20, "{} calls limited, {} did not", self.0, self.1);
    }
}
