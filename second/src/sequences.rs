//! The digital test sequences of G.722, appendix II, as far as it describes
//! them: inputs, and what this codec makes of them without its mirror filters.

use crate::material;
use crate::{Coder, Decoder, Wrong};

/// The word that resets, and that marks an output as not valid.
const RESET: u16 = 1;

/// The most significant bits of both bands' words: each row repeated over 2048 words.
const SIGNS: [&str; 8] = ["001", "11110000", "1", "1100", "10", "00000100", "00101", "11000"];

/// The least significant bits of the high band's words, likewise.
const HIGH_LOWS: [&str; 8] = [
    "1",
    "11111111111111110000000000000000",
    "0",
    "1111111100000000",
    "0",
    "11110000",
    "1",
    "1100",
];

/// A file of the sequences.
pub struct File {
    pub name: &'static str,
    pub words: Vec<u16>,
}

/// A line of 66 characters and its end.
fn line(text: &str) -> String {
    format!("{text:66}\r\n")
}

/// A data line: 16 words and the sum over their characters that makes 0.
fn data_line(words: &[u16]) -> String {
    let text: String = words.iter().map(|word| format!("{word:04X}")).collect();
    let sum = text.bytes().fold(0u8, u8::wrapping_add);
    line(&format!("{text}{:02X}", sum.wrapping_neg()))
}

impl File {
    /// The file as II.4.4 writes it.
    pub fn text(&self) -> String {
        let name = self.name;
        let mut text = line("/* CCITT 64KBIT/S SB-ADPCM DIGITAL TEST SEQUENCE G.722 */");
        text += &line(&format!("/* FILE NAME: {name} DATE: 11-15-26 VERSION: V 1.0 */"));
        text.extend(self.words.chunks(16).map(data_line));
        text + &line(&format!("/* END OF FILE: {name}")) + "\x1a"
    }
}

/// The words between 16 resets at either end.
fn framed(words: impl Iterator<Item = u16>) -> Vec<u16> {
    let resets = [RESET; 16];
    resets.into_iter().chain(words).chain(resets).collect()
}

/// X# of a signal XL.
fn x_word(xl: i16) -> u16 {
    (xl << 1) as u16
}

/// Table II-3: the overflow sequence.
fn overflows() -> Vec<u16> {
    let alternating = [-16384, 16383].into_iter().cycle().take(639);
    let threes = [-16384, 16383, -16384].into_iter().cycle().take(126);
    framed(alternating.chain([0, -10000, -8192]).chain(threes).map(x_word))
}

/// The bit of the row for word n of a sequence of eight rows of 2048 words.
fn bit(rows: [&str; 8], n: usize) -> usize {
    let row = rows[n / 2048].as_bytes();
    usize::from(row[n % 2048 % row.len()] - b'0')
}

/// Table II-4: the five last bits of the low band's word n.
fn low_lows(n: usize) -> usize {
    let (row, second) = (n / 256, n % 32 / 16);
    match (row % 2 * second, 31 - row / 2) {
        (0, value) => value,
        (_, 0) => 3,
        (_, value) => value - 1,
    }
}

/// II.3.2: the artificial sequence.
fn artificial() -> Vec<u16> {
    framed((0..16384).map(|n| {
        let il = bit(SIGNS, n) << 5 | low_lows(n);
        let ih = bit(SIGNS, n) << 1 | bit(HIGH_LOWS, n);
        ((ih << 6 | il) << 8) as u16
    }))
}

/// Table II-2 in a quarter of its lengths, with levels and noise of our own.
fn tones_and_noise() -> Vec<u16> {
    let tones = [3504, 2054, 1504, 504, 254, 1254, 2254, 3254];
    let mut signal: Vec<i16> = Vec::new();
    for hertz in tones {
        signal.extend(material::tone(256, hertz, 8000));
    }
    signal.extend(material::tone(128, 4000, 8000));
    for level in [50, 0, -50] {
        signal.extend([level; 128]);
    }
    signal.extend(material::even_noise(1, 768, 50));
    signal.extend(material::even_noise(2, 768, 16384));
    framed(signal.into_iter().map(x_word))
}

/// Configuration 1: I# of X#. Both bands are given the same signal.
fn coded(inputs: &[u16], wrong: Wrong) -> Vec<u16> {
    let mut coder = Coder::new(wrong);
    let one = |input: &u16| {
        if input & 1 == 1 {
            coder = Coder::new(wrong);
            return RESET;
        }
        let signal = i32::from(*input as i16 >> 1);
        let (il, ih) = (coder.code_low(signal), coder.code_high(signal));
        u16::from(ih << 6 | il) << 8
    };
    inputs.iter().map(one).collect()
}

/// Configuration 2: RL# of I# in mode 1, 2 or 3, or RH# where the mode is 0.
fn heard(inputs: &[u16], mode: u8, wrong: Wrong) -> Vec<u16> {
    let mut decoder = Decoder::new(wrong);
    let one = |input: &u16| {
        if input & 1 == 1 {
            decoder = Decoder::new(wrong);
            return RESET;
        }
        let (ih, il) = ((input >> 14) as u8, (input >> 8 & 63) as u8);
        let heard = if mode == 0 { decoder.decode_high(ih) } else { decoder.decode_low(il, mode) };
        x_word(heard.signal as i16)
    };
    inputs.iter().map(one).collect()
}

/// What the decoders make of the inputs: RH#, and RL# in modes 1, 2 and 3.
fn all_heard(inputs: &[u16], names: [&'static str; 4], wrong: Wrong) -> Vec<File> {
    let each = names.into_iter().zip(0..4);
    each.map(|(name, mode)| File { name, words: heard(inputs, mode, wrong) }).collect()
}

/// Every file, as the codec or a wrong variant of it makes them.
pub fn files(wrong: Wrong) -> Vec<File> {
    let (c1, c2, d3) = (tones_and_noise(), overflows(), artificial());
    let (r1, r2) = (coded(&c1, wrong), coded(&c2, wrong));
    let mut files =
        all_heard(&r1, ["OURS-H1.RC0", "OURS-L1.RC1", "OURS-L1.RC2", "OURS-L1.RC3"], wrong);
    files.extend(all_heard(&r2, ["T3H2.RC0", "T3L2.RC1", "T3L2.RC2", "T3L2.RC3"], wrong));
    files.extend(all_heard(&d3, ["T3H3.RC0", "T3L3.RC1", "T3L3.RC2", "T3L3.RC3"], wrong));
    files.push(File { name: "OURS-C1.XMT", words: c1 });
    files.push(File { name: "OURS-R1.COD", words: r1 });
    files.push(File { name: "T1C2.XMT", words: c2 });
    files.push(File { name: "T2R2.COD", words: r2 });
    files.push(File { name: "T1D3.COD", words: d3 });
    files
}
