//! Section 5: the two mirror filters, over all samples or pairs since reset.

use crate::arith::limit;
use crate::history::History;
use crate::lamp::Before;
use crate::tables::H;
use crate::Wrong;

/// The transmit filter and the samples it has been given since reset.
#[derive(Clone, Debug)]
pub struct Transmit {
    wrong: Wrong,
    samples: History,
}

impl Transmit {
    /// A transmit filter at reset.
    pub fn reset(wrong: Wrong) -> Transmit {
        Transmit { wrong, samples: History::default() }
    }

    /// A transmit filter that was given these samples last, oldest first.
    pub fn after(samples: [i32; 22], wrong: Wrong) -> Transmit {
        Transmit { wrong, samples: History::ending(&samples) }
    }

    /// The samples that it was given last, oldest first.
    pub fn past(&self) -> [i32; 22] {
        self.samples.last()
    }

    /// The sum of every second coefficient from `first` on, times the sample
    /// as many places before instant `j` as the coefficient's index says.
    fn accumulate(&self, first: usize, j: usize) -> i32 {
        (first..24).step_by(2).map(|i| H[i] * self.samples.before(j, i)).sum()
    }

    /// ACCUMA and ACCUMB at the newer sample of the last pair.
    fn accumulators(&self) -> (i32, i32) {
        let j = self.samples.len() - 1;
        if self.wrong == Wrong::PhasesExchanged {
            return (self.accumulate(0, j - 1), self.accumulate(1, j + 1));
        }
        (self.accumulate(0, j), self.accumulate(1, j))
    }

    /// LOWT and HIGHT up to LIMIT: what XL and XH are made of after one more
    /// pair of samples.
    pub fn pair(&mut self, older: i32, newer: i32) -> Before {
        self.samples.push(older);
        self.samples.push(newer);
        let (xa, xb) = self.accumulators();
        ((xa + xb).div_euclid(8192), (xa - xb).div_euclid(8192))
    }

    /// XL or XH, of its value before LIMIT.
    pub fn signal(&self, before: i32) -> i32 {
        if self.wrong == Wrong::TransmitUnlimited {
            return before;
        }
        limit(before)
    }
}

/// The receive filter and the pairs RL, RH it has been given since reset.
#[derive(Clone, Debug, PartialEq, Eq)]
pub struct Receive {
    wrong: Wrong,
    low: History,
    high: History,
}

impl Receive {
    /// A receive filter at reset.
    pub fn reset(wrong: Wrong) -> Receive {
        Receive { wrong, low: History::default(), high: History::default() }
    }

    /// A receive filter that was given these RL and then these RH last, oldest
    /// first.
    pub fn after(signals: [i32; 22], wrong: Wrong) -> Receive {
        let (low, high) = signals.split_at(11);
        Receive { wrong, low: History::ending(low), high: History::ending(high) }
    }

    /// RL and then RH of the pairs that it was given last, oldest first.
    pub fn past(&self) -> [i32; 22] {
        let (low, high): ([i32; 11], [i32; 11]) = (self.low.last(), self.high.last());
        std::array::from_fn(|place| if place < 11 { low[place] } else { high[place - 11] })
    }

    /// Makes all past pairs 0 (only a wrong decoder does this).
    pub fn forget(&mut self) {
        self.low.forget();
        self.high.forget();
    }

    /// RECA, ACCUMC: the even coefficients over RL - RH.
    fn accumc(&self, n: usize) -> i32 {
        (0..12).map(|i| H[2 * i] * (self.low.before(n, i) - self.high.before(n, i))).sum()
    }

    /// RECB, ACCUMD: the odd coefficients over RL + RH.
    fn accumd(&self, n: usize) -> i32 {
        (0..12).map(|i| H[2 * i + 1] * (self.low.before(n, i) + self.high.before(n, i))).sum()
    }

    /// SELECT up to LIMIT: what the samples XOUT1, XOUT2 are made of after one
    /// more pair of signals.
    pub fn pair(&mut self, rl: i32, rh: i32) -> Before {
        self.low.push(rl);
        self.high.push(rh);
        let n = self.low.len() - 1;
        let [first, second] = [self.accumc(n), self.accumd(n)].map(|sum| sum.div_euclid(4096));
        if self.wrong == Wrong::PhasesExchanged {
            return (second, first);
        }
        (first, second)
    }

    /// An output sample, of its value before LIMIT.
    pub fn sample(&self, before: i32) -> i16 {
        if self.wrong == Wrong::ReceiveWraps {
            return before as i16;
        }
        limit(before) as i16
    }
}
