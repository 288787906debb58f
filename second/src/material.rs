//! Material to compare codecs on, the same for the same seed everywhere.

use crate::tables::H;

/// A kind of material.
#[derive(Clone, Copy, Debug, PartialEq, Eq)]
pub enum Kind {
    /// Samples 0.
    Silence,
    /// Samples -2 to 2.
    NoiseFaint,
    /// Samples -100 to 100.
    NoiseLow,
    /// Samples -3000 to 3000.
    NoiseMiddle,
    /// Samples of the whole range.
    NoiseFull,
    /// Samples at the two ends only, in runs.
    FullScale,
    /// Two tones at a time, changing.
    Tones,
    /// Constant stretches of any level.
    Steps,
    /// Full scale with the signs of the filter coefficients.
    Signs,
    /// Long tones at full scale that break off, turn or stop.
    Slams,
    /// Octets of any value.
    Random,
    /// Octets with many words a coder never sends.
    NeverSent,
    /// Runs of extreme words that drive the predictors to their ends.
    Directed,
    /// Extreme words whose signs follow a rhythm.
    Rhythm,
    /// Alternating extremes for so long that coefficients come to their ends.
    Ends,
}

/// Every kind.
pub const ALL: [Kind; 15] = [
    Kind::Silence,
    Kind::NoiseFaint,
    Kind::NoiseLow,
    Kind::NoiseMiddle,
    Kind::NoiseFull,
    Kind::FullScale,
    Kind::Tones,
    Kind::Steps,
    Kind::Signs,
    Kind::Slams,
    Kind::Random,
    Kind::NeverSent,
    Kind::Directed,
    Kind::Rhythm,
    Kind::Ends,
];

/// The kind of that name, as it is spelt above.
pub fn by_name(name: &str) -> Option<Kind> {
    ALL.into_iter().find(|kind| format!("{kind:?}") == name)
}

/// Material for a coder or for a decoder.
#[derive(Clone, Debug, PartialEq, Eq)]
pub enum Stream {
    Samples(Vec<i16>),
    Octets(Vec<u8>),
}

/// A source of numbers that look random, fixed by its seed.
pub(crate) struct Chance(u64);

impl Chance {
    /// The source of a seed.
    pub(crate) fn of(seed: u64) -> Chance {
        Chance(seed)
    }

    /// The next 64 bits (the generator known as splitmix64).
    pub(crate) fn next(&mut self) -> u64 {
        self.0 = self.0.wrapping_add(0x9e37_79b9_7f4a_7c15);
        let mut z = self.0;
        z = (z ^ z >> 30).wrapping_mul(0xbf58_476d_1ce4_e5b9);
        z = (z ^ z >> 27).wrapping_mul(0x94d0_49bb_1331_11eb);
        z ^ z >> 31
    }

    /// A number from `low` to `high`, both included.
    pub(crate) fn between(&mut self, low: i64, high: i64) -> i64 {
        low + (self.next() >> 1) as i64 % (high - low + 1)
    }

    /// One of the choices.
    pub(crate) fn pick<T: Copy>(&mut self, choices: &[T]) -> T {
        choices[self.between(0, choices.len() as i64 - 1) as usize]
    }
}

/// Joins pieces until there are n values.
fn joined<T>(n: usize, mut piece: impl FnMut() -> Vec<T>) -> Vec<T> {
    let mut all = Vec::new();
    while all.len() < n {
        all.append(&mut piece());
    }
    all.truncate(n);
    all
}

/// The sine of a phase that runs over 65536, times the level; an old fraction
/// of whole numbers, near enough and the same on every machine.
fn sine(phase: u32, level: i64) -> i64 {
    let half = i64::from(phase & 0x7fff);
    let u = half * (32768 - half);
    let value = level * 16 * u / (5 * 32768 * 32768 - 4 * u);
    if phase & 0x8000 == 0 {
        value
    } else {
        -value
    }
}

/// A number brought into the range of a sample.
fn sample(value: i64) -> i16 {
    value.clamp(-16384, 16383) as i16
}

/// Even noise up to a level.
fn noise(chance: &mut Chance, n: usize, level: i64) -> Vec<i16> {
    (0..n).map(|_| sample(chance.between(-level, level))).collect()
}

/// Even noise of a seed up to a level.
pub fn even_noise(seed: u64, n: usize, level: i64) -> Vec<i16> {
    noise(&mut Chance(seed), n, level)
}

/// A tone from its top on, 8000 samples a second.
pub fn tone(n: usize, hertz: usize, level: i64) -> Vec<i16> {
    (0..n).map(|i| sample(sine((16384 + i * hertz * 65536 / 8000) as u32, level))).collect()
}

/// Runs of samples at either end.
fn full_scale(chance: &mut Chance, n: usize) -> Vec<i16> {
    joined(n, || {
        let length = chance.between(1, 40) as usize;
        vec![chance.pick(&[-16384, 16383]); length]
    })
}

/// Stretches of two tones each.
fn tones(chance: &mut Chance, n: usize) -> Vec<i16> {
    joined(n, || {
        let steps = [chance.between(50, 30000) as u32, chance.between(50, 30000) as u32];
        let levels = [chance.between(10, 12000), chance.between(10, 4000)];
        let length = chance.between(100, 2000) as u32;
        let at = |t: u32, k: usize| sine(t.wrapping_mul(steps[k]) & 0xffff, levels[k]);
        (0..length).map(|t| sample(at(t, 0) + at(t, 1))).collect()
    })
}

/// Constant stretches.
fn steps(chance: &mut Chance, n: usize) -> Vec<i16> {
    joined(n, || {
        let length = chance.between(1, 300) as usize;
        vec![sample(chance.between(-16384, 16383)); length]
    })
}

/// Full scale with the sign of the coefficient that each sample will meet, so
/// that XL (or XH, where every second sign is turned) is as large as can be.
fn signs(chance: &mut Chance, n: usize) -> Vec<i16> {
    joined(n, || {
        let turn = chance.pick(&[-1, 1]);
        let for_high = chance.pick(&[false, true]);
        let met = |i: usize| {
            let other = if for_high && i % 2 == 1 { -1 } else { 1 };
            sample(i64::from(turn * other * H[i].signum()) * 16384)
        };
        let mut piece: Vec<i16> = (0..24).rev().map(met).collect();
        let gap = 2 * chance.between(0, 12) as usize;
        piece.extend(noise(chance, gap, 16384));
        piece
    })
}

/// A long tone at full scale, then a short contrary stretch.
fn slams(chance: &mut Chance, n: usize) -> Vec<i16> {
    joined(n, || {
        let step = chance.pick(&[0, 0, 20, 300, 2000, 8192, 16384, 24576, 32768]);
        let length = 2 * chance.between(100, 600) as u32;
        let turn = chance.pick(&[-1, 1]);
        let square = |t: u32| if (t * step) & 0x8000 == 0 { turn } else { -turn };
        let mut piece: Vec<i16> = (0..length).map(|t| sample(square(t) * 16384)).collect();
        let contrary = chance.pick(&[-turn, -turn, 0]);
        let short = 2 * chance.between(1, 12) as usize;
        piece.extend(vec![sample(contrary * 16384); short]);
        piece
    })
}

/// Octets of any value.
fn random(chance: &mut Chance, n: usize) -> Vec<u8> {
    (0..n).map(|_| chance.next() as u8).collect()
}

/// Octets of which three in four have low six bits 000000 to 000011.
fn never_sent(chance: &mut Chance, n: usize) -> Vec<u8> {
    (0..n).map(|_| chance.next() as u8 & chance.pick(&[0xff, 0xc3, 0xc3, 0xc3])).collect()
}

/// The largest words of both signs, with given high bits.
fn extreme(high: u8, positive: bool) -> u8 {
    high << 6 | if positive { 0x20 } else { 0x04 }
}

/// A long run of one extreme, a short run of the other, and the first again.
fn directed(chance: &mut Chance, seed: u64, n: usize) -> Vec<u8> {
    let mut first = seed == 0;
    joined(n, || {
        let mut lengths = [chance.between(60, 260), chance.between(1, 6), chance.between(1, 9)];
        let mut highs = [chance.between(0, 3) as u8, chance.between(0, 3) as u8];
        let mut turn = chance.pick(&[false, true]);
        if first {
            (lengths, highs, turn, first) = ([137, 3, 4], [0, 0], false, false);
        }
        let run = |k: usize, high: u8, positive: bool| {
            vec![extreme(high, positive ^ turn); lengths[k] as usize]
        };
        [run(0, highs[0], true), run(1, highs[1], false), run(2, highs[0], true)].concat()
    })
}

/// Extreme words whose sign follows a rhythm of up to twelve octets, now and
/// then a word less extreme.
fn rhythm(chance: &mut Chance, n: usize) -> Vec<u8> {
    joined(n, || {
        let (pattern, period) = (chance.next(), chance.between(1, 12) as u64);
        let length = chance.between(40, 400) as u64;
        (0..length)
            .map(|t| {
                let low = extreme(0, pattern >> (t % period) & 1 == 1);
                let high = (pattern >> (20 + t % period) & 1) as u8;
                let low = if chance.between(0, 19) == 0 { chance.next() as u8 & 63 } else { low };
                high << 7 | low
            })
            .collect()
    })
}

/// Thousands of alternating or equal extremes, then a short stir.
fn ends(chance: &mut Chance, n: usize) -> Vec<u8> {
    joined(n, || {
        let (low, high) = (chance.between(1, 3) as usize, chance.between(1, 3) as usize);
        let length = chance.between(2600, 4000) as usize;
        let at = |t: usize| extreme((t / high % 2) as u8 * 2, t / low % 2 == 0);
        let mut piece: Vec<u8> = (0..length).map(at).collect();
        let stir = chance.between(1, 30) as usize;
        piece.extend(rhythm(chance, stir));
        piece
    })
}

/// The first n samples or octets of a kind.
pub fn stream(kind: Kind, seed: u64, n: usize) -> Stream {
    let chance = &mut Chance(seed.wrapping_mul(1000).wrapping_add(kind as u64));
    match kind {
        Kind::Silence => Stream::Samples(vec![0; n]),
        Kind::NoiseFaint => Stream::Samples(noise(chance, n, 2)),
        Kind::NoiseLow => Stream::Samples(noise(chance, n, 100)),
        Kind::NoiseMiddle => Stream::Samples(noise(chance, n, 3000)),
        Kind::NoiseFull => Stream::Samples(noise(chance, n, 16384)),
        Kind::FullScale => Stream::Samples(full_scale(chance, n)),
        Kind::Tones => Stream::Samples(tones(chance, n)),
        Kind::Steps => Stream::Samples(steps(chance, n)),
        Kind::Signs => Stream::Samples(signs(chance, n)),
        Kind::Slams => Stream::Samples(slams(chance, n)),
        Kind::Random => Stream::Octets(random(chance, n)),
        Kind::NeverSent => Stream::Octets(never_sent(chance, n)),
        Kind::Directed => Stream::Octets(directed(chance, seed, n)),
        Kind::Rhythm => Stream::Octets(rhythm(chance, n)),
        Kind::Ends => Stream::Octets(ends(chance, n)),
    }
}

/// One stream of every kind: 12000 samples or 6000 octets each.
pub fn material(seed: u64) -> Vec<(Kind, Stream)> {
    ALL.into_iter()
        .map(|kind| match stream(kind, seed, 6000) {
            Stream::Samples(_) => (kind, stream(kind, seed, 12000)),
            octets => (kind, octets),
        })
        .collect()
}
