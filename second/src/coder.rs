//! The coder: transmit filter and the two sub-band coders.

use crate::arith::sub;
use crate::band::Band;
use crate::filters::Transmit;
use crate::lamp::{Before, Lamp};
use crate::quantiser::{invqah, invqal, logsch, logscl, quanth, quantl, scaleh, scalel};
use crate::{refused, Record, Refusal, Wrong, MOST_OCTETS};

/// A coder and everything it has been given since reset.
#[derive(Clone, Debug)]
pub struct Coder {
    wrong: Wrong,
    transmit: Transmit,
    low: Band,
    high: Band,
    lamp: Lamp,
}

impl Coder {
    /// A coder at reset.
    pub fn new(wrong: Wrong) -> Coder {
        let (transmit, lamp) = (Transmit::reset(wrong), Lamp::dark(wrong));
        Coder { wrong, transmit, low: Band::reset(32, wrong), high: Band::reset(8, wrong), lamp }
    }

    /// A coder as a record has it.
    pub fn from_record(record: &Record, wrong: Wrong) -> Coder {
        Coder {
            transmit: Transmit::after(record.past, wrong),
            low: Band::from_record(&record.low, wrong),
            high: Band::from_record(&record.high, wrong),
            ..Coder::new(wrong)
        }
    }

    /// What has to be remembered of it.
    pub fn record(&self) -> Record {
        let past = self.transmit.past();
        Record { low: self.low.record(), high: self.high.record(), past }
    }

    /// The low and the high band.
    pub fn bands(&self) -> [&Band; 2] {
        [&self.low, &self.high]
    }

    /// The low sub-band coder: the word IL of the signal XL.
    pub fn code_low(&mut self, xl: i32) -> u8 {
        let said = self.low.predic();
        let il = quantl(sub(xl, said.s), self.low.scale, self.wrong);
        let dlt = invqal(il, self.low.scale, self.wrong);
        self.low.adapt(said, dlt);
        self.low.log_factor = logscl(il, self.low.log_factor, self.wrong);
        self.low.scale = scalel(self.low.log_factor);
        il
    }

    /// The high sub-band coder: the word IH of the signal XH.
    pub fn code_high(&mut self, xh: i32) -> u8 {
        let said = self.high.predic();
        let ih = quanth(sub(xh, said.s), self.high.scale, self.wrong);
        let dh = invqah(ih, self.high.scale, self.wrong);
        self.high.adapt(said, dh);
        self.high.log_factor = logsch(ih, self.high.log_factor, self.wrong);
        self.high.scale = scaleh(self.high.log_factor);
        ih
    }

    /// The octet H1 H2 L1..L6 of the signals XL and XH.
    pub fn of_signals(&mut self, xl: i32, xh: i32) -> u8 {
        let il = self.code_low(xl);
        let ih = self.code_high(xh);
        ih << 6 | il
    }

    /// The octet of one pair of samples into its place; XL and XH before LIMIT.
    fn code(&mut self, pair: &[i16], octet: &mut u8) -> Before {
        let before = self.transmit.pair(i32::from(pair[0]), i32::from(pair[1]));
        let (xl, xh) = (self.transmit.signal(before.0), self.transmit.signal(before.1));
        *octet = self.of_signals(xl, xh);
        before
    }

    /// Codes 2n samples into the n lent octets. Gives the count of the signals
    /// XL and XH that were limited. Refusals in the order 3, 4.
    pub fn encode(&mut self, samples: &[i16], octets: &mut [u8]) -> Result<usize, Refusal> {
        if octets.len() > MOST_OCTETS || samples.len() != 2 * octets.len() {
            return refused(3);
        }
        if let Some(index) = samples.iter().position(|x| !(-16384..=16383).contains(x)) {
            return Err(Refusal { number: 4, index });
        }
        let pairs = octets.iter_mut().zip(samples.chunks(2));
        let before: Vec<Before> = pairs.map(|(octet, pair)| self.code(pair, octet)).collect();
        Ok(self.lamp.of_signals(&before))
    }
}
