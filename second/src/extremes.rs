//! Records as a host may hand them in: all their bounds are kept, while the
//! coefficients and past differences of FILTEZ are such as no stream leads to,
//! so that its sums stop in the middle and at the end, or just do not.

use crate::arith::add;
use crate::material::Chance;
use crate::quantiser::{scaleh, scalel};
use crate::record::{BandRecord, Record};

/// How the coefficients and past differences of a band are chosen.
#[derive(Clone, Copy, Debug, PartialEq, Eq)]
pub enum Zeros {
    /// All coefficients at one end of 16 bits, and all differences at one.
    Equal,
    /// At the ends, the coefficients in turn at one and at the other.
    Alternating,
    /// Each at an end.
    Ends,
    /// Any numbers, half of them ends.
    Any,
    /// So small that no sum can stop.
    Small,
    /// The positive terms add up to this, and the negative ones can not stop.
    Up(i32),
    /// The negative terms add up to this, and the positive ones can not stop.
    Down(i32),
}

/// Every way, the four edges among them.
pub const ALL: [Zeros; 9] = [
    Zeros::Equal,
    Zeros::Alternating,
    Zeros::Ends,
    Zeros::Any,
    Zeros::Small,
    Zeros::Up(32767),
    Zeros::Up(32768),
    Zeros::Down(-32768),
    Zeros::Down(-32769),
];

/// A number from `low` to `high`, in half of all cases one of these two.
fn within(chance: &mut Chance, low: i32, high: i32) -> i32 {
    let inner = chance.between(low.into(), high.into()) as i32;
    chance.pick(&[low, high, inner, inner])
}

/// An end of 16 bits.
fn end(chance: &mut Chance) -> i32 {
    chance.pick(&[-32768, 32767])
}

/// Three sizes of at most `most` that add up to the total.
fn parts(chance: &mut Chance, total: i32, most: i32) -> [i32; 3] {
    let first = within(chance, (total - most).max(0), total.min(most));
    let second = within(chance, 0, total - first);
    [first, second, total - first - second]
}

/// A coefficient and a difference that make this term: with any difference the
/// coefficient next to the quotient, and where 16 bits have none, one with
/// -16384, whose double makes a term of any coefficient.
fn making(chance: &mut Chance, term: i32) -> (i32, i32) {
    let size = within(chance, 1, 32767);
    let d = chance.pick(&[-size, size]);
    let twice = add(d, d);
    let b = -twice.signum() * (-32768 * term).div_euclid(twice.abs());
    if i16::try_from(b).is_ok() {
        (b, d)
    } else {
        (-term, -16384)
    }
}

/// Pairs that make terms with these two sums, in any order. A product is at
/// least -32767 and, before it stops, at most 32768.
fn with_sums(chance: &mut Chance, up: i32, down: i32) -> Vec<(i32, i32)> {
    let negative = parts(chance, -down, 32767).map(|size| -size);
    let mut terms = [parts(chance, up, 32768), negative].concat();
    terms.sort_by_cached_key(|_| chance.next());
    terms.into_iter().map(|term| making(chance, term)).collect()
}

/// Six coefficients, each with the difference it meets.
fn pairs(zeros: Zeros, chance: &mut Chance) -> Vec<(i32, i32)> {
    let (b, d) = (end(chance), end(chance));
    match zeros {
        Zeros::Equal => vec![(b, d); 6],
        Zeros::Alternating => [(b, d), (-1 - b, d)].repeat(3),
        Zeros::Ends => (0..6).map(|_| (end(chance), end(chance))).collect(),
        Zeros::Any => {
            (0..6).map(|_| (within(chance, -32768, 32767), within(chance, -32768, 32767))).collect()
        }
        Zeros::Small => {
            (0..6).map(|_| (within(chance, -8192, 8191), within(chance, -8192, 8191))).collect()
        }
        Zeros::Up(sum) => {
            let other = within(chance, -32768, 0);
            with_sums(chance, sum, other)
        }
        Zeros::Down(sum) => {
            let other = within(chance, 0, 32767);
            with_sums(chance, other, sum)
        }
    }
}

/// A band whose log factor is at most this, with the scale factor it gives.
fn band(zeros: Zeros, chance: &mut Chance, most: i32, scale: fn(i32) -> i32) -> BandRecord {
    let pairs = pairs(zeros, chance);
    let a2 = within(chance, -12288, 12288);
    let a1 = within(chance, a2 - 15360, 15360 - a2);
    let log_factor = within(chance, 0, most);
    let mut signals = || [(); 2].map(|()| within(chance, -32768, 32767));
    BandRecord {
        b: std::array::from_fn(|place| pairs[place].0),
        d: std::array::from_fn(|place| pairs[place].1),
        a: [a1, a2],
        r: signals(),
        p: signals(),
        log_factor,
        scale: scale(log_factor),
    }
}

/// A record, of either end, with its low and its high band made these ways.
pub fn record(low: Zeros, high: Zeros, seed: u64) -> Record {
    let chance = &mut Chance::of(seed);
    Record {
        low: band(low, chance, 18432, scalel),
        high: band(high, chance, 22528, scaleh),
        past: [(); 22].map(|()| within(chance, -16384, 16383)),
    }
}
