//! The two steps of decoding over standard input, from reset, for tests:
//!
//! ```text
//! steps hear MODE [LENGTH..]    octets to pairs of signals
//! steps join [LENGTH..]         pairs of signals to samples
//! ```
//!
//! A number has two bytes, the high byte first, and of a pair the low signal comes first. The input is
//! handed to calls of so many octets or pairs, one length after the other and then from the first again;
//! where there are none, of 8000. What a call refuses is the line `refused NUMBER INDEX` and status 1. An
//! index of a pair counts from the input's start, and the pairs before that one are joined and written.

use std::io::{self, Read, Write};
use std::process::ExitCode;
use zelcandry::{hear, join, Refusal, DECODER_RESET};

/// The octets or pairs of a call where nothing else is said: as many as a call may have.
const MOST: usize = 8000;

/// What a program does not do.
enum Fault {
    Refused(Refusal),
    Usage,
    Broken(io::Error),
}

impl From<Refusal> for Fault {
    fn from(refusal: Refusal) -> Fault {
        Fault::Refused(refusal)
    }
}

impl From<io::Error> for Fault {
    fn from(error: io::Error) -> Fault {
        Fault::Broken(error)
    }
}

/// What a call left to be written, and its answer.
type Called = (Vec<u8>, Result<usize, Refusal>);

/// Hands standard input to calls of these lengths, an octet or a pair being so many bytes.
fn by_calls(
    lengths: &[usize],
    size: usize,
    mut call: impl FnMut(&[u8]) -> Called,
) -> Result<(), Fault> {
    let mut before = 0;
    for length in lengths.iter().cycle() {
        let mut given = Vec::new();
        io::stdin().lock().take((size * length) as u64).read_to_end(&mut given)?;
        let (made, answer) = call(&given);
        io::stdout().write_all(&made)?;
        let first = if answer.is_err_and(|r| r.number == 4) { before } else { 0 };
        answer.map_err(|r| Refusal { index: first + r.index, ..r })?;
        if given.len() < size * length {
            break;
        }
        before += length;
    }
    Ok(())
}

/// Hears octets; the pairs of signals.
fn signals(state: &mut [u8], mode: u8, octets: &[u8]) -> Called {
    let [mut low, mut high] = [(); 2].map(|()| vec![0; 2 * octets.len()]);
    let answer = hear(state, mode, octets, &mut low, &mut high);
    let pairs = low.chunks(2).zip(high.chunks(2)).flat_map(|(low, high)| [low, high].concat());
    (answer.map_or_else(|_| vec![], |_| pairs.collect()), answer)
}

/// Joins pairs; the samples.
fn samples(state: &mut [u8], pairs: &[u8]) -> Called {
    let (mut low, mut high) = (vec![], vec![]);
    for pair in pairs.chunks(4) {
        let (first, second) = pair.split_at(pair.len().min(2));
        low.extend(first);
        high.extend(second);
    }
    let mut samples = vec![0; low.len() + high.len()];
    let answer = join(state, &low, &high, &mut samples);
    (answer.map_or_else(|_| vec![], |_| samples), answer)
}

/// Joins whole pairs, or those before a refused one; and hands on what is left of a pair, to be refused.
fn joined(state: &mut [u8], pairs: &[u8]) -> Called {
    let (whole, rest) = pairs.split_at(pairs.len() / 4 * 4);
    let (made, answer) = samples(state, whole);
    match answer {
        Err(Refusal { number: 4, index }) => (samples(state, &whole[..4 * index]).0, answer),
        Ok(_) if !rest.is_empty() => (made, samples(state, rest).1),
        _ => (made, answer),
    }
}

/// The lengths of calls, of which one is not 0.
fn lengths(words: &[String]) -> Result<Vec<usize>, Fault> {
    let told: Result<Vec<usize>, _> = words.iter().map(|word| word.parse()).collect();
    let told = told.map_err(|_| Fault::Usage)?;
    match told[..] {
        [] => Ok(vec![MOST]),
        _ if told.iter().all(|n| *n == 0) => Err(Fault::Usage),
        _ => Ok(told),
    }
}

/// Runs the step that the arguments name.
fn run(words: &[String]) -> Result<(), Fault> {
    let mut state = DECODER_RESET;
    match words {
        [step, mode, more @ ..] if step == "hear" => {
            let mode = mode.parse().map_err(|_| Fault::Usage)?;
            by_calls(&lengths(more)?, 1, |octets| signals(&mut state, mode, octets))
        }
        [step, more @ ..] if step == "join" => {
            by_calls(&lengths(more)?, 4, |pairs| joined(&mut state, pairs))
        }
        _ => Err(Fault::Usage),
    }
}

fn main() -> ExitCode {
    let words: Vec<String> = std::env::args().skip(1).collect();
    match run(&words) {
        Ok(()) => return ExitCode::SUCCESS,
        Err(Fault::Refused(refusal)) => eprintln!("refused {} {}", refusal.number, refusal.index),
        Err(Fault::Usage) => eprintln!("usage: steps hear MODE [LENGTH..] | join [LENGTH..]"),
        Err(Fault::Broken(error)) => eprintln!("{error}"),
    }
    ExitCode::FAILURE
}
