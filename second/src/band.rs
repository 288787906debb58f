//! Block 4: the adaptive predictor of one band, over its signals since reset.

use crate::arith::{add, limit, mul, sign, stop, sub};
use crate::history::History;
use crate::record::BandRecord;
use crate::Wrong;

/// What the predictor says before the present difference is known.
#[derive(Clone, Copy, Debug)]
pub struct Prediction {
    /// SZL or SZH, the transversal part.
    pub sz: i32,
    /// SL or SH, the whole prediction.
    pub s: i32,
}

/// The same values in the contrary order.
fn turned<const N: usize>(mut values: [i32; N]) -> [i32; N] {
    values.reverse();
    values
}

/// One band's signals since reset, its coefficients and its factors.
#[derive(Clone, Debug, PartialEq, Eq)]
pub struct Band {
    wrong: Wrong,
    /// DLT or DH.
    differences: History,
    /// RLT or YH.
    reconstructed: History,
    /// PLT or PH.
    partial: History,
    /// B1 to B6 as they stand before the present instant.
    pub b: [i32; 6],
    /// A1 and A2 as they stand before the present instant.
    pub a: [i32; 2],
    /// NBL or NBH.
    pub log_factor: i32,
    /// DETL or DETH.
    pub scale: i32,
}

impl Band {
    /// A band at reset with its smallest scale factor.
    pub fn reset(scale: i32, wrong: Wrong) -> Band {
        Band {
            wrong,
            differences: History::default(),
            reconstructed: History::default(),
            partial: History::default(),
            b: [0; 6],
            a: [0; 2],
            log_factor: 0,
            scale,
        }
    }

    /// A band as a record has it.
    pub fn from_record(record: &BandRecord, wrong: Wrong) -> Band {
        Band {
            wrong,
            differences: History::ending(&turned(record.d)),
            reconstructed: History::ending(&turned(record.r)),
            partial: History::ending(&turned(record.p)),
            b: record.b,
            a: record.a,
            log_factor: record.log_factor,
            scale: record.scale,
        }
    }

    /// What has to be remembered of it.
    pub fn record(&self) -> BandRecord {
        BandRecord {
            b: self.b,
            d: turned(self.differences.last()),
            a: self.a,
            r: turned(self.reconstructed.last()),
            p: turned(self.partial.last()),
            log_factor: self.log_factor,
            scale: self.scale,
        }
    }

    /// The index of the present instant.
    fn now(&self) -> usize {
        self.differences.len()
    }

    /// FILTEZ: the oldest term first, each sum stopping.
    fn filtez(&self) -> i32 {
        let now = self.now();
        let term = |i: usize| {
            let d = self.differences.before(now, i);
            mul(self.b[i - 1], add(d, d), self.wrong)
        };
        match self.wrong {
            Wrong::FilterStopsOnce => stop((1..=6).map(term).sum()),
            Wrong::FilterOtherOrder => (1..=6).map(term).fold(0, add),
            _ => (1..=6).rev().map(term).fold(0, add),
        }
    }

    /// FILTEP: the recursive part.
    fn filtep(&self) -> i32 {
        let now = self.now();
        let term = |i: usize| {
            let r = self.reconstructed.before(now, i);
            let twice = if self.wrong == Wrong::DoubleNotStopped { r + r } else { add(r, r) };
            mul(self.a[i - 1], twice, self.wrong)
        };
        add(term(1), term(2))
    }

    /// FILTEZ, FILTEP and PREDIC.
    pub fn predic(&self) -> Prediction {
        let sz = self.filtez();
        Prediction { sz, s: add(self.filtep(), sz) }
    }

    /// UPZERO: the coefficients B1 to B6 after the difference `d`.
    fn upzero(&self, d: i32) -> [i32; 6] {
        let now = self.now();
        let wd1 = if d == 0 { 0 } else { 128 };
        let mut next = self.b;
        for (place, b) in next.iter_mut().enumerate() {
            let past = self.differences.before(now, place + 1);
            let wd2 = if sign(d) == sign(past) { wd1 } else { -wd1 };
            *b = add(wd2, mul(*b, 32640, self.wrong));
        }
        next
    }

    /// The four-fold A1 of UPPOL2, negated where two signs agree.
    fn f_of_a1(&self, negated: bool) -> i32 {
        if self.wrong == Wrong::PoleNotStopped {
            return if negated { -4 * self.a[0] } else { 4 * self.a[0] };
        }
        let twice = add(self.a[0], self.a[0]);
        let wd1 = add(twice, twice);
        if negated {
            sub(0, wd1)
        } else {
            wd1
        }
    }

    /// UPPOL2: the coefficient A2 after the partial signal `p`.
    fn uppol2(&self, p: i32) -> i32 {
        let now = self.now();
        let same = |back| sign(p) == sign(self.partial.before(now, back));
        let wd2 = self.f_of_a1(same(1)) >> 7;
        let wd3 = if same(2) { 128 } else { -128 };
        let wd5 = mul(self.a[1], 32512, self.wrong);
        add(add(wd2, wd3), wd5).clamp(-12288, 12288)
    }

    /// UPPOL1: the coefficient A1 after the partial signal `p`, held within
    /// 15360 less the new A2.
    fn uppol1(&self, p: i32, apl2: i32) -> i32 {
        let same = sign(p) == sign(self.partial.before(self.now(), 1));
        let wd1 = if same { 192 } else { -192 };
        let apl1 = add(wd1, mul(self.a[0], 32640, self.wrong));
        let wd3 = match self.wrong {
            Wrong::PoleLimitLate => sub(15360, self.a[1]),
            _ => sub(15360, apl2),
        };
        apl1.clamp(-wd3, wd3)
    }

    /// PARREC, RECONS and the three adaptations, then on to the next instant.
    pub fn adapt(&mut self, said: Prediction, d: i32) {
        let p = add(d, said.sz);
        let r = add(said.s, d);
        let b = self.upzero(d);
        let apl2 = self.uppol2(p);
        let apl1 = self.uppol1(p, apl2);
        self.b = b;
        self.a = [apl1, apl2];
        self.differences.push(d);
        self.partial.push(p);
        self.reconstructed.push(if self.wrong == Wrong::LimitInLoop { limit(r) } else { r });
    }
}
