//! The second codec's programs: encode, decode, hear, join, sub_bands, desk, put, take, log, listing,
//! material, tells, sequences.

use second::material::{self, Stream};
use second::{blocks, compare, cue, desk, listing, sequences, wrong};
use second::{Coder, Decoder, Desk, Refusal, Wrong, MOST_OCTETS};
use std::io::{self, Read, Write};
use std::path::Path;
use std::process::ExitCode;

/// How a program ends that did not do all it was asked.
enum Fault {
    Refused(Refusal),
    Usage,
    Broken(io::Error),
}

impl From<Refusal> for Fault {
    fn from(refusal: Refusal) -> Fault {
        Fault::Refused(refusal)
    }
}

impl From<io::Error> for Fault {
    fn from(error: io::Error) -> Fault {
        Fault::Broken(error)
    }
}

const USAGE: &str = "\
second encode [WRONG]            samples (two bytes, high first) to octets
second decode MODE [WRONG]       octets to samples, mode 0 to 3
second hear MODE [WRONG]         octets to pairs of signals (low, high; bytes as of samples)
second join [WRONG]              pairs of signals to samples
second sub_bands [WRONG]         pairs of signals to octets, without the transmit filter
second desk PORTS MODE.. [WRONG] ticks of one octet a port to octets for each port
second put MODE FILE             the bytes of a file into octets
second take MODE                 the bytes out of octets
second log TAKE MODE             octets to a recording
second listing [WRONG]           a recording to its lines
second material KIND SEED N      N samples or octets
second tells SEED                which material tells which wrong codec
second sequences DIR             the test sequences of appendix II, into the folder";

/// Fills the buffer from standard input as far as the input goes.
fn piece(most: usize) -> io::Result<Vec<u8>> {
    let mut bytes = Vec::with_capacity(most);
    io::stdin().lock().take(most as u64).read_to_end(&mut bytes)?;
    Ok(bytes)
}

/// Samples as bytes, the high byte first.
fn bytes_of(samples: &[i16]) -> Vec<u8> {
    samples.iter().flat_map(|sample| sample.to_be_bytes()).collect()
}

/// The wrong variant named, or none.
fn variant(name: Option<&String>) -> Result<Wrong, Fault> {
    name.map_or(Ok(Wrong::None), |name| wrong::by_name(name).ok_or(Fault::Usage))
}

/// All of standard input.
fn everything() -> io::Result<Vec<u8>> {
    let mut bytes = Vec::new();
    io::stdin().read_to_end(&mut bytes)?;
    Ok(bytes)
}

/// The samples of whole pairs of bytes.
fn samples_of(bytes: &[u8]) -> Vec<i16> {
    bytes.chunks_exact(2).map(|pair| i16::from_be_bytes([pair[0], pair[1]])).collect()
}

/// A number of the arguments.
fn number<T: std::str::FromStr>(word: &str) -> Result<T, Fault> {
    word.parse().map_err(|_| Fault::Usage)
}

/// Codes and writes samples. Where one is refused, the pairs before it are written.
fn code(coder: &mut Coder, samples: &[i16]) -> Result<(), Fault> {
    let mut octets = vec![0; samples.len() / 2];
    let done = coder.encode(samples, &mut octets);
    if let Err(refusal) = done {
        let whole = refusal.index / 2;
        octets.truncate(whole);
        coder.encode(&samples[..2 * whole], &mut octets)?;
    }
    io::stdout().write_all(&octets)?;
    done?;
    Ok(())
}

/// Gives standard input to calls of 8000 times four bytes, as numbers. A place of a refusal, of which a
/// whole four has `places`, is counted from the input's start.
fn by_fours(places: usize, mut call: impl FnMut(&[i16]) -> Result<(), Fault>) -> Result<(), Fault> {
    let mut before = 0;
    loop {
        let bytes = piece(4 * MOST_OCTETS)?;
        let whole = bytes.len() / 4;
        call(&samples_of(&bytes[..4 * whole])).map_err(|fault| match fault {
            Fault::Refused(r) => Refusal { index: r.index + before, ..r }.into(),
            other => other,
        })?;
        if 4 * whole < bytes.len() {
            return Err(Refusal { number: 3, index: 0 }.into());
        }
        if whole < MOST_OCTETS {
            return Ok(());
        }
        before += places * whole;
    }
}

/// Codes standard input in calls of 8000 octets from reset.
fn encode(wrong: Wrong) -> Result<(), Fault> {
    let mut coder = Coder::new(wrong);
    by_fours(2, |samples| code(&mut coder, samples))
}

/// The mode that an argument tells.
fn mode_of(word: &str) -> Result<u8, Refusal> {
    let mode = ["0", "1", "2", "3"].iter().position(|text| *text == word);
    mode.map(|mode| mode as u8).ok_or(Refusal { number: 1, index: 0 })
}

/// Decodes standard input in calls of 8000 octets from reset.
fn decode(mode: &str, wrong: Wrong) -> Result<(), Fault> {
    let mode = mode_of(mode)?;
    let mut decoder = Decoder::new(wrong);
    loop {
        let octets = piece(MOST_OCTETS)?;
        let mut samples = vec![0; 2 * octets.len()];
        decoder.decode(mode, &octets, &mut samples)?;
        io::stdout().write_all(&bytes_of(&samples))?;
        if octets.len() < MOST_OCTETS {
            return Ok(());
        }
    }
}

/// Hears standard input in calls of 8000 octets from reset.
fn hear(mode: &str, wrong: Wrong) -> Result<(), Fault> {
    let mode = mode_of(mode)?;
    let mut decoder = Decoder::new(wrong);
    loop {
        let octets = piece(MOST_OCTETS)?;
        let [mut low, mut high] = [vec![0; octets.len()], vec![0; octets.len()]];
        decoder.hear(mode, &octets, &mut low, &mut high)?;
        let pairs: Vec<i16> = low.into_iter().zip(high).flat_map(|(rl, rh)| [rl, rh]).collect();
        io::stdout().write_all(&bytes_of(&pairs))?;
        if octets.len() < MOST_OCTETS {
            return Ok(());
        }
    }
}

/// Joins and writes pairs. Where one is refused, the samples of those before it are written.
fn select(decoder: &mut Decoder, pairs: &[i16]) -> Result<(), Fault> {
    let (mut low, mut high): (Vec<i16>, Vec<i16>) = pairs.chunks(2).map(|p| (p[0], p[1])).unzip();
    let mut samples = vec![0; pairs.len()];
    let done = decoder.join(&low, &high, &mut samples);
    if let Err(refusal) = done {
        low.truncate(refusal.index);
        high.truncate(refusal.index);
        samples.truncate(2 * refusal.index);
        decoder.join(&low, &high, &mut samples)?;
    }
    io::stdout().write_all(&bytes_of(&samples))?;
    done?;
    Ok(())
}

/// Joins standard input in calls of 8000 pairs from reset.
fn join(wrong: Wrong) -> Result<(), Fault> {
    let mut decoder = Decoder::new(wrong);
    by_fours(1, |pairs| select(&mut decoder, pairs))
}

/// Mixes the ticks of a turn and says how many sums were limited, where any were.
fn turn(desk: &mut Desk, modes: &[u8], octets: &[u8], sent: &mut [u8]) -> Result<(), Refusal> {
    let mut limited = 0;
    for (tick, room) in octets.chunks(modes.len()).zip(sent.chunks_mut(modes.len())) {
        limited += desk.tick(modes, tick, room)?;
    }
    if limited > 0 {
        eprintln!("overload: {limited} sums limited");
    }
    Ok(())
}

/// Mixes the ticks on standard input from reset, in turns of 1000. The words after the number of ports
/// are a mode for each and perhaps a wrong variant.
fn mix(ports: &str, words: &[String]) -> Result<(), Fault> {
    let ports = desk::number_of_ports(number::<u8>(ports)?.into())?;
    if ![ports, ports + 1].contains(&words.len()) {
        return Err(Fault::Usage);
    }
    let mut desk = Desk::reset(ports, variant(words.get(ports))?)?;
    let modes: Result<Vec<u8>, Refusal> = words[..ports].iter().map(|word| mode_of(word)).collect();
    let (modes, octets) = (modes?, everything()?);
    let mut sent = vec![0; octets.len() / ports * ports];
    for (ticks, room) in octets.chunks(1000 * ports).zip(sent.chunks_mut(1000 * ports)) {
        turn(&mut desk, &modes, ticks, room)?;
    }
    io::stdout().write_all(&sent)?;
    if sent.len() < octets.len() {
        return Err(Refusal { number: 3, index: 0 }.into());
    }
    Ok(())
}

/// Codes the pairs of signals on standard input from reset, without the transmit filter.
fn sub_bands(wrong: Wrong) -> Result<(), Fault> {
    let mut coder = Coder::new(wrong);
    by_fours(1, |pairs| {
        let octets: Vec<u8> =
            pairs.chunks(2).map(|pair| coder.of_signals(pair[0].into(), pair[1].into())).collect();
        Ok(io::stdout().write_all(&octets)?)
    })
}

/// Puts the bytes of a file into the octets on standard input, 1000 bytes a call.
fn put(mode: u8, file: &str) -> Result<(), Fault> {
    let bytes = std::fs::read(file)?;
    let mut octets = everything()?;
    let room = if mode == 3 { 4000 } else { 8000 };
    for call in 0..=octets.len() / room {
        let end = octets.len().min((call + 1) * room);
        let part = &mut octets[call * room..end];
        let data = bytes.len().min(call * 1000)..bytes.len().min((call + 1) * 1000);
        cue::put_in(mode, part, &bytes[data])?;
        io::stdout().write_all(part)?;
    }
    Ok(())
}

/// Takes the bytes out of the octets on standard input, 8000 octets a call.
fn take(mode: u8) -> Result<(), Fault> {
    let octets = everything()?;
    for call in 0..=octets.len() / 8000 {
        let part = &octets[call * 8000..octets.len().min((call + 1) * 8000)];
        let mut bytes = vec![0; part.len() * if mode == 3 { 2 } else { 1 } / 8];
        cue::take_out(mode, part, &mut bytes)?;
        io::stdout().write_all(&bytes)?;
    }
    Ok(())
}

/// Writes the octets on standard input as blocks of at most 480.
fn log(take: u32, mode: u8) -> Result<(), Fault> {
    for (number, octets) in everything()?.chunks(480).enumerate() {
        let mut block = [0; blocks::BLOCK];
        blocks::write(&mut block, take, number as u32, mode, octets)?;
        io::stdout().write_all(&block)?;
    }
    Ok(())
}

/// Lists the recording on standard input.
fn list(wrong: Wrong) -> Result<(), Fault> {
    io::stdout().write_all(listing::listing(&everything()?, wrong).as_bytes())?;
    Ok(())
}

/// Writes material of a kind.
fn write_material(kind: &str, seed: &str, n: &str) -> Result<(), Fault> {
    let kind = material::by_name(kind).ok_or(Fault::Usage)?;
    let bytes = match material::stream(kind, number(seed)?, number(n)?) {
        Stream::Samples(samples) => bytes_of(&samples),
        Stream::Octets(octets) => octets,
    };
    io::stdout().write_all(&bytes)?;
    Ok(())
}

/// Prints for each wrong codec the kinds that tell it, with the first octet
/// (coder) or sample (decoder in modes 1, 2, 3 and changing) that differs.
fn tells(seed: &str) -> Result<(), Fault> {
    let material = material::material(number(seed)?);
    let place = |at: Option<usize>| at.map_or("-".to_string(), |at| at.to_string());
    for wrong in wrong::CODEC {
        for (kind, stream) in &material {
            let told = compare::compare(stream, wrong);
            if told.apart() {
                let decoder: Vec<String> = told.decoder.into_iter().map(place).collect();
                let coder = place(told.coder);
                println!("{wrong:?} {kind:?} coder {coder} decoder {}", decoder.join(" "));
            }
        }
    }
    Ok(())
}

/// Writes the test sequences into a folder.
fn write_sequences(folder: &str) -> Result<(), Fault> {
    for file in sequences::files(Wrong::None) {
        std::fs::write(Path::new(folder).join(file.name), file.text())?;
    }
    Ok(())
}

/// Runs the program that the arguments name.
fn run(words: &[String]) -> Result<(), Fault> {
    let texts: Vec<&str> = words.iter().map(String::as_str).collect();
    match texts[..] {
        ["encode"] | ["encode", _] => encode(variant(words.get(1))?),
        ["decode", mode] | ["decode", mode, _] => decode(mode, variant(words.get(2))?),
        ["hear", mode] | ["hear", mode, _] => hear(mode, variant(words.get(2))?),
        ["join"] | ["join", _] => join(variant(words.get(1))?),
        ["sub_bands"] | ["sub_bands", _] => sub_bands(variant(words.get(1))?),
        ["desk", ports, ..] => mix(ports, &words[2..]),
        ["put", mode, file] => put(number(mode)?, file),
        ["take", mode] => take(number(mode)?),
        ["log", take, mode] => log(number(take)?, number(mode)?),
        ["listing"] | ["listing", _] => list(variant(words.get(1))?),
        ["material", kind, seed, n] => write_material(kind, seed, n),
        ["tells", seed] => tells(seed),
        ["sequences", folder] => write_sequences(folder),
        _ => Err(Fault::Usage),
    }
}

fn main() -> ExitCode {
    let words: Vec<String> = std::env::args().skip(1).collect();
    match run(&words) {
        Ok(()) => return ExitCode::SUCCESS,
        Err(Fault::Refused(refusal)) => eprintln!("refused {} {}", refusal.number, refusal.index),
        Err(Fault::Usage) => eprintln!("{USAGE}"),
        Err(Fault::Broken(error)) => eprintln!("{error}"),
    }
    ExitCode::FAILURE
}
