//! The decoder: the two sub-band decoders and the receive filter, together or
//! each as a step of its own.

use crate::arith::{add, limit};
use crate::band::Band;
use crate::filters::Receive;
use crate::lamp::{Before, Lamp};
use crate::quantiser::{invqah, invqal, invqbl, logsch, logscl, scaleh, scalel};
use crate::{mode_in_force, refused, Record, Refusal, Wrong, MOST_OCTETS};

/// A signal as it is heard, RL or RH, and beside it YL or YH, before LIMIT.
#[derive(Clone, Copy, Debug, PartialEq, Eq)]
pub struct Heard {
    pub signal: i32,
    pub before: i32,
}

/// A decoder and everything it has been given since reset.
#[derive(Clone, Debug, PartialEq, Eq)]
pub struct Decoder {
    wrong: Wrong,
    receive: Receive,
    low: Band,
    high: Band,
    lamp: Lamp,
    /// The mode of the last call (only a wrong decoder asks for it).
    last_mode: u8,
}

impl Decoder {
    /// A decoder at reset.
    pub fn new(wrong: Wrong) -> Decoder {
        let (receive, lamp) = (Receive::reset(wrong), Lamp::dark(wrong));
        let (low, high) = (Band::reset(32, wrong), Band::reset(8, wrong));
        Decoder { wrong, receive, low, high, lamp, last_mode: 1 }
    }

    /// A decoder as a record has it.
    pub fn from_record(record: &Record, wrong: Wrong) -> Decoder {
        Decoder {
            receive: Receive::after(record.past, wrong),
            low: Band::from_record(&record.low, wrong),
            high: Band::from_record(&record.high, wrong),
            ..Decoder::new(wrong)
        }
    }

    /// What has to be remembered of it.
    pub fn record(&self) -> Record {
        let past = self.receive.past();
        Record { low: self.low.record(), high: self.high.record(), past }
    }

    /// The decoder of the next take: one at reset (only a wrong one keeps its
    /// past pairs).
    pub fn for_next_take(self) -> Decoder {
        let next = Decoder::new(self.wrong);
        if self.wrong == Wrong::PairsKept {
            return Decoder { receive: self.receive, ..next };
        }
        next
    }

    /// The low and the high band.
    pub fn bands(&self) -> [&Band; 2] {
        [&self.low, &self.high]
    }

    /// The receive filter, which has the past pairs.
    pub fn past(&self) -> &Receive {
        &self.receive
    }

    /// The heard signal of a band: limited, while the loop keeps its own.
    fn heard(&self, before: i32) -> Heard {
        let unlimited = self.wrong == Wrong::HeardUnlimited;
        Heard { signal: if unlimited { before } else { limit(before) }, before }
    }

    /// The low sub-band decoder: RL of the received word in the mode.
    pub fn decode_low(&mut self, ilr: u8, mode: u8) -> Heard {
        let said = self.low.predic();
        let dl = invqbl(ilr, self.low.scale, mode, self.wrong);
        let yl = add(said.s, dl);
        let dlt = invqal(ilr, self.low.scale, self.wrong);
        self.low.adapt(said, dlt);
        self.low.log_factor = logscl(ilr, self.low.log_factor, self.wrong);
        self.low.scale = scalel(self.low.log_factor);
        if self.wrong == Wrong::LoopCounted {
            return Heard { before: add(said.s, dlt), ..self.heard(yl) };
        }
        self.heard(yl)
    }

    /// The high sub-band decoder: RH of the received word.
    pub fn decode_high(&mut self, ih: u8) -> Heard {
        let said = self.high.predic();
        let dh = invqah(ih, self.high.scale, self.wrong);
        let yh = add(said.s, dh);
        self.high.adapt(said, dh);
        self.high.log_factor = logsch(ih, self.high.log_factor, self.wrong);
        self.high.scale = scaleh(self.high.log_factor);
        self.heard(yh)
    }

    /// The heard signals RL and RH of one octet in mode 1, 2 or 3.
    pub fn sub_bands(&mut self, octet: u8, mode: u8) -> (i32, i32) {
        (self.decode_low(octet & 63, mode).signal, self.decode_high(octet >> 6).signal)
    }

    /// Takes note of the mode of a call (only a wrong decoder asks for it).
    fn told(&mut self, mode: u8) {
        if self.wrong == Wrong::ForgetPairs && mode != self.last_mode {
            self.receive.forget();
        }
        self.last_mode = mode;
    }

    /// The two samples of one pair of signals into their place; what they were
    /// before LIMIT.
    fn select(&mut self, rl: i32, rh: i32, pair: &mut [i16]) -> Before {
        let before = self.receive.pair(rl, rh);
        pair[0] = self.receive.sample(before.0);
        pair[1] = self.receive.sample(before.1);
        before
    }

    /// Decodes n octets into the 2n lent samples. Gives the count of the samples
    /// that were limited. Refusals in the order 1, 3.
    pub fn decode(
        &mut self,
        mode: u8,
        octets: &[u8],
        samples: &mut [i16],
    ) -> Result<usize, Refusal> {
        let mode = mode_in_force(mode)?;
        if octets.len() > MOST_OCTETS || samples.len() != 2 * octets.len() {
            return refused(3);
        }
        if octets.is_empty() {
            return Ok(0);
        }
        self.told(mode);
        let mut before = vec![];
        for (octet, pair) in octets.iter().zip(samples.chunks_mut(2)) {
            let (low, high) = (self.decode_low(octet & 63, mode), self.decode_high(octet >> 6));
            before.push(self.select(low.signal, high.signal, pair));
            if self.wrong == Wrong::HeardCounted {
                before.push((low.before, high.before));
            }
        }
        Ok(self.lamp.of_samples(&before))
    }

    /// The signals of the low and the high band (only a wrong decoder exchanges
    /// them).
    fn ordered<T>(&self, low: T, high: T) -> (T, T) {
        if self.wrong == Wrong::SignalsExchanged {
            return (high, low);
        }
        (low, high)
    }

    /// The first step: n octets into the n lent signals of either band, one
    /// band after the other. Gives the count of the signals of both that were
    /// limited. Refusals in the order 1, 3.
    pub fn hear(
        &mut self,
        mode: u8,
        octets: &[u8],
        low: &mut [i16],
        high: &mut [i16],
    ) -> Result<usize, Refusal> {
        let mode = mode_in_force(mode)?;
        if octets.len() > MOST_OCTETS || [low.len(), high.len()] != [octets.len(); 2] {
            return refused(3);
        }
        if octets.is_empty() {
            return Ok(0);
        }
        self.told(mode);
        let (low, high) = self.ordered(low, high);
        let of_low = octets.iter().map(|octet| self.decode_low(octet & 63, mode));
        let yl = kept_apart(of_low, low);
        let of_high = octets.iter().map(|octet| self.decode_high(octet >> 6));
        let yh = kept_apart(of_high, high);
        if self.wrong == Wrong::HearMovesPairs {
            self.select_all(low, high, &mut vec![0; 2 * octets.len()]);
        }
        let before: Vec<Before> = yl.into_iter().zip(yh).collect();
        Ok(self.lamp.of_signals(&before))
    }

    /// The samples of all pairs of signals; what they were before LIMIT.
    fn select_all(&mut self, low: &[i16], high: &[i16], samples: &mut [i16]) -> Vec<Before> {
        let pairs = low.iter().zip(high).zip(samples.chunks_mut(2));
        pairs.map(|((rl, rh), pair)| self.select((*rl).into(), (*rh).into(), pair)).collect()
    }

    /// The place of the first pair of which either signal is out of range.
    fn first_bad(&self, low: &[i16], high: &[i16]) -> Option<usize> {
        let bad = |signal: &i16| !(-16384..=16383).contains(signal);
        let pair = low.iter().zip(high).position(|(rl, rh)| bad(rl) || bad(rh));
        match self.wrong {
            Wrong::PlaceInSamples => pair.map(|place| 2 * place),
            Wrong::LowLookedFirst => low.iter().position(bad).or(pair),
            _ => pair,
        }
    }

    /// The second step: n signals of either band into the 2n lent samples. Gives
    /// the count of the samples that were limited. Refusals in the order 3, 4.
    pub fn join(
        &mut self,
        low: &[i16],
        high: &[i16],
        samples: &mut [i16],
    ) -> Result<usize, Refusal> {
        let n = low.len();
        if n > MOST_OCTETS || high.len() != n || samples.len() != 2 * n {
            return refused(3);
        }
        if let Some(index) = self.first_bad(low, high) {
            if self.wrong == Wrong::JoinedUntilBad {
                self.select_all(&low[..index], high, samples);
            }
            return Err(Refusal { number: 4, index });
        }
        let (low, high) = self.ordered(low, high);
        let before = self.select_all(low, high, samples);
        if self.wrong == Wrong::JoinForgetsBands {
            *self = Decoder { receive: self.receive.clone(), ..Decoder::new(self.wrong) };
        }
        Ok(self.lamp.of_samples(&before))
    }
}

/// Puts heard signals into their places; what they were before LIMIT.
fn kept_apart(heard: impl Iterator<Item = Heard>, signals: &mut [i16]) -> Vec<i32> {
    let placed = heard.zip(signals).map(|(heard, signal)| {
        *signal = heard.signal as i16;
        heard.before
    });
    placed.collect()
}
