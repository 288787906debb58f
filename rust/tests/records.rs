//! Records that a host hands in, good ones with coefficients and past differences such as no stream leads
//! to, beside the second codec. FILTEZ is a sum of six terms that stops at each step. Where neither its
//! positive nor its negative terms add up to more than 16 bits hold, a plain sum is the same; the turns
//! compared here are of both kinds, and among them such as just fit and such as just do not.

mod common;

use common::beside::{coded, coder_state, decoder_state, heard, joined, signals};
use common::{of_octets, of_samples};
use second::arith::stop;
use second::band::Band;
use second::extremes::{record, ALL};
use second::{Coder, Decoder, Record, Wrong};
use std::io::Write;
use std::ops::Range;

/// The octets that follow a record, more than a block.
const OCTETS: usize = 200;

/// How often there are streams of each kind. The kinds of octets are 15, so each has all four modes.
const ROUNDS: u64 = 4;

/// What the turns of a band have to be, each at some time.
const TURNS: [&str; 11] = [
    "fit",
    "too much above",
    "too much below",
    "too much both ways",
    "32767 above",
    "32768 above",
    "32768 that shows",
    "-32768 below",
    "-32769 below",
    "-32769 that shows",
    "stopped within",
];

/// Which of these the next turn of a band is. It is stopped within where stopping once at the end gives
/// something else. A sum too large by one shows where that is so, since it would be taken for one that fits.
fn turn(band: &Band) -> [bool; TURNS.len()] {
    let ((up, down), sum) = (band.record().sums(), band.predic().sz);
    let (above, below, within) = (up > 32767, down < -32768, sum != stop(up + down));
    assert!(above || below || sum == up + down, "what fits is another sum: {up} {down} {sum}");
    [
        !above && !below,
        above && !below,
        below && !above,
        above && below,
        up == 32767,
        up == 32768,
        up == 32768 && !below && within,
        down == -32768,
        down == -32769,
        down == -32769 && !above && within,
        within,
    ]
}

/// How many turns of the low and of the high band were each.
#[derive(Default)]
struct Met([[usize; TURNS.len()]; 2]);

impl Met {
    /// Takes note of the next turn of both bands.
    fn note(&mut self, bands: [&Band; 2]) {
        for (counts, band) in self.0.iter_mut().zip(bands) {
            for (count, found) in counts.iter_mut().zip(turn(band)) {
                *count += usize::from(found);
            }
        }
    }
}

/// The octets of calls that follow each other.
type Calls = Vec<Range<usize>>;

/// Records with their bands made in all ways, other ones for each stream, and the calls that follow them: one
/// call, or three, of which the first has one octet, so that all that the first turn leaves is compared.
fn records(stream: usize) -> impl Iterator<Item = (Record, [Calls; 2])> {
    let ways = ALL.into_iter().flat_map(|low| ALL.map(|high| (low, high)));
    ways.enumerate().map(move |(place, (low, high))| {
        let seed = stream * ALL.len() * ALL.len() + place;
        let cut = 1 + seed % OCTETS;
        (record(low, high, seed as u64), [vec![0..OCTETS], vec![0..1, 1..cut, cut..OCTETS]])
    })
}

/// Samples coded from a record.
fn coded_from(from: &Record, samples: &[i16], calls: &Calls) {
    let (mut state, mut other) = (coder_state(from), Coder::from_record(from, Wrong::None));
    for part in calls {
        let given = &samples[2 * part.start..2 * part.end];
        coded(&mut state, &mut other, given, part.len()).unwrap();
    }
}

/// Samples coded from records; the turns, which the second codec makes once more one by one.
fn coding() -> Met {
    let mut met = Met::default();
    let streams = (0..ROUNDS).flat_map(|round| of_samples(round, 2 * OCTETS));
    for (place, (_, stream)) in streams.enumerate() {
        for (from, ways) in records(place) {
            ways.iter().for_each(|calls| coded_from(&from, &stream, calls));
            let mut alone = Coder::from_record(&from, Wrong::None);
            for pair in stream.chunks(2) {
                met.note(alone.bands());
                alone.encode(pair, &mut [0]).unwrap();
            }
        }
    }
    met
}

/// Octets decoded from a record.
fn decoded_from(from: &Record, mode: u8, octets: &[u8], calls: &Calls) {
    let (mut state, mut other) = (decoder_state(from), Decoder::from_record(from, Wrong::None));
    for part in calls {
        let given = &octets[part.clone()];
        heard(&mut state, &mut other, mode, given, 2 * part.len()).unwrap();
    }
}

/// Octets heard from a record, and their signals joined.
fn stepped_from(from: &Record, mode: u8, octets: &[u8], calls: &Calls) {
    let (mut state, mut other) = (decoder_state(from), Decoder::from_record(from, Wrong::None));
    for part in calls {
        let (given, n) = (&octets[part.clone()], part.len());
        let ([low, high], _) = signals(&mut state, &mut other, mode, given, [n; 2]).unwrap();
        joined(&mut state, &mut other, &low, &high, 2 * n).unwrap();
    }
}

/// Octets decoded from records, in the modes 0 to 3, in one and in two steps; the turns, as above.
fn decoding() -> Met {
    let mut met = Met::default();
    let streams = (0..ROUNDS).flat_map(|round| of_octets(round, 2 * OCTETS));
    for (place, (_, stream)) in streams.enumerate() {
        let (stream, mode) = (&stream[..OCTETS], place as u8 % 4);
        for (from, ways) in records(place) {
            ways.iter().for_each(|calls| decoded_from(&from, mode, stream, calls));
            ways.iter().for_each(|calls| stepped_from(&from, mode, stream, calls));
            let mut alone = Decoder::from_record(&from, Wrong::None);
            for octet in stream {
                met.note(alone.bands());
                alone.sub_bands(*octet, 1);
            }
        }
    }
    met
}

/// The counts are one line, written past what cargo keeps of the tests' own.
#[test]
fn from_records() {
    let bands = [coding().0, decoding().0].concat();
    let counts = |place: usize| {
        let counts: Vec<String> = bands.iter().map(|counts| counts[place].to_string()).collect();
        format!("{} {}", TURNS[place], counts.join(" "))
    };
    let text: Vec<String> = (0..TURNS.len()).map(counts).collect();
    let what = "turns from records, low and high in coding, low and high in decoding";
    writeln!(std::io::stdout(), "\nhost: {what}: {}", text.join("; ")).unwrap();
    assert!(bands.iter().flatten().all(|count| *count > 0), "a kind of turn was not met");
}
