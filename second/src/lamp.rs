//! The overload lamp: how many values a call had to limit. A call keeps its
//! values as they were before LIMIT, and when it is done they are held against
//! the range; LIMIT itself is not asked.

use crate::Wrong;

/// Two values before LIMIT: XL and XH, YL and YH, the sums of both bands that a
/// port is to hear, or the two samples of an octet.
pub type Before = (i32, i32);

/// The lamp of a coder, a decoder or a desk.
#[derive(Clone, Debug, PartialEq, Eq)]
pub struct Lamp {
    wrong: Wrong,
    /// What the calls so far have counted (only a wrong lamp keeps it).
    kept: usize,
}

impl Lamp {
    /// A lamp that has counted nothing.
    pub fn dark(wrong: Wrong) -> Lamp {
        Lamp { wrong, kept: 0 }
    }

    /// Whether a value is out of range.
    fn beyond(&self, value: i32) -> bool {
        let (least, most) =
            if self.wrong == Wrong::EndsCounted { (-16383, 16382) } else { (-16384, 16383) };
        !(least..=most).contains(&value)
    }

    /// How many of the first and how many of the second values are out of range.
    fn each(&self, before: &[Before]) -> [usize; 2] {
        let first = before.iter().filter(|pair| self.beyond(pair.0));
        let second = before.iter().filter(|pair| self.beyond(pair.1));
        [first.count(), second.count()]
    }

    /// The count of a call (only a wrong lamp adds those of the calls before).
    fn told(&mut self, count: usize) -> usize {
        if self.wrong == Wrong::CountsKept {
            self.kept += count;
            return self.kept;
        }
        count
    }

    /// The count of a call for all its samples, as they were before LIMIT.
    pub fn of_samples(&mut self, before: &[Before]) -> usize {
        let count = match self.wrong {
            Wrong::PairsOnce => self.pairs(before),
            _ => self.each(before).iter().sum(),
        };
        self.told(count)
    }

    /// The count of a call for all its low and high signals, or sums of them,
    /// as they were before LIMIT.
    pub fn of_signals(&mut self, before: &[Before]) -> usize {
        let [low, high] = self.each(before);
        let count = match self.wrong {
            Wrong::HighUncounted => low,
            Wrong::LowTwice => 2 * low + high,
            Wrong::PairsOnce => self.pairs(before),
            _ => low + high,
        };
        self.told(count)
    }

    /// How many pairs have a value out of range (only a wrong lamp asks).
    fn pairs(&self, before: &[Before]) -> usize {
        before.iter().filter(|pair| self.beyond(pair.0) || self.beyond(pair.1)).count()
    }
}
