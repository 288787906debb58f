//! A record: all that an end of the line has to remember. A codec that starts
//! from one takes its signals for the last ones since reset.

use crate::arith::add;

/// What a band remembers. Coefficients and signals have the order of their
/// numbers, so the newest stands first.
#[derive(Clone, Copy, Debug, PartialEq, Eq)]
pub struct BandRecord {
    /// B1 to B6.
    pub b: [i32; 6],
    /// DLT1 to DLT6, or DH1 to DH6.
    pub d: [i32; 6],
    /// A1 and A2.
    pub a: [i32; 2],
    /// RLT1 and RLT2, or YH1 and YH2.
    pub r: [i32; 2],
    /// PLT1 and PLT2, or PH1 and PH2.
    pub p: [i32; 2],
    /// NBL or NBH.
    pub log_factor: i32,
    /// DETL or DETH.
    pub scale: i32,
}

impl BandRecord {
    /// What the positive and what the negative terms of the next FILTEZ add up
    /// to where nothing stops but the double of a difference.
    pub fn sums(&self) -> (i32, i32) {
        let term = |(b, d): (&i32, &i32)| (b * add(*d, *d)).div_euclid(32768);
        let terms = || self.b.iter().zip(&self.d).map(term);
        (terms().map(|term| term.max(0)).sum(), terms().map(|term| term.min(0)).sum())
    }
}

/// What an end remembers: its bands, and the past of its filter, oldest first.
/// That is 22 samples of a coder; of a decoder it is RL of eleven pairs and then
/// their RH.
#[derive(Clone, Copy, Debug, PartialEq, Eq)]
pub struct Record {
    pub low: BandRecord,
    pub high: BandRecord,
    pub past: [i32; 22],
}
