//! The test sequences of appendix II: their sizes, form and printed beginnings.

use second::sequences::{files, File};
use second::{wrong, Wrong};

/// The file of that name.
fn file(name: &str) -> File {
    files(Wrong::None).into_iter().find(|file| file.name == name).unwrap()
}

/// The words after the 16 resets.
fn body(name: &str) -> Vec<u16> {
    let words = file(name).words;
    words[16..words.len() - 16].to_vec()
}

#[test]
fn files_have_the_sizes_of_table_ii_5() {
    for file in files(Wrong::None) {
        let size = if file.name.starts_with("OURS") { 17749 } else { 69973 };
        let short = matches!(file.name.split('.').next(), Some("T1C2" | "T2R2" | "T3L2" | "T3H2"));
        assert_eq!(file.text().len(), if short { 3605 } else { size }, "{}", file.name);
    }
}

#[test]
fn a_data_line_adds_up_to_zero() {
    let text = file("T1C2.XMT").text();
    let lines: Vec<&str> = text.lines().collect();
    // 64 characters: 16 words 0001, whose codes add up to 16 * 193 = 3088, of which 16 is left.
    assert_eq!(lines[2], format!("{}F0", "0001".repeat(16)));
    for line in &lines[2..52] {
        let sum: u32 = line[..64].bytes().map(u32::from).sum();
        assert_eq!((sum + u32::from_str_radix(&line[64..66], 16).unwrap()) % 256, 0);
    }
}

#[test]
fn the_overflow_sequence_is_table_ii_3() {
    let words = body("T1C2.XMT");
    assert_eq!(words.len(), 768);
    assert_eq!(words[..3], [0x8000, 0x7ffe, 0x8000]);
    assert_eq!(words[637..645], [0x7ffe, 0x8000, 0, 0xb1e0, 0xc000, 0x8000, 0x7ffe, 0x8000]);
    assert_eq!(words[765..], [0x8000, 0x7ffe, 0x8000]);
}

#[test]
fn the_artificial_sequence_begins_as_printed() {
    let words = body("T1D3.COD");
    let printed = [
        "00100100100100100",
        "11110000111100001",
        "11111111111111111",
        "11001100110011001",
        "10101010101010101",
        "00000100000001000",
        "00101001010010100",
        "11000110001100011",
    ];
    for (part, row) in words.chunks(2048).zip(printed) {
        for (place, letter) in [(13, 'l'), (15, 'h')] {
            let bits: String =
                part[..17].iter().map(|w| (b'0' + (w >> place & 1) as u8) as char).collect();
            assert_eq!(bits, row, "{letter}");
        }
    }
    let low = |n: usize| words[n] >> 8 & 31;
    assert_eq!(
        [low(0), low(255), low(256), low(272), low(288), low(512)],
        [31, 31, 31, 30, 31, 30]
    );
    assert_eq!([low(62 * 256), low(63 * 256), low(63 * 256 + 16), low(16383)], [0, 0, 3, 3]);
    let high = |n: usize| words[n] >> 14 & 1;
    assert_eq!(
        [high(0), high(2048), high(2064), high(4096), high(14336), high(14338)],
        [1, 1, 0, 0, 1, 0]
    );
}

#[test]
fn wrong_variants_are_told() {
    let right = files(Wrong::None);
    let apart = |wrong: &Wrong| files(*wrong).iter().zip(&right).any(|(a, b)| a.words != b.words);
    let untold: Vec<Wrong> = wrong::CODEC.into_iter().filter(|wrong| !apart(wrong)).collect();
    // Four lie in the mirror filters. The order and the stops of FILTEZ do not show in these sequences.
    let filters =
        [Wrong::TransmitUnlimited, Wrong::PhasesExchanged, Wrong::ForgetPairs, Wrong::ReceiveWraps];
    let sums = [Wrong::FilterStopsOnce, Wrong::FilterOtherOrder];
    assert_eq!(untold, [&sums[..], &filters[..]].concat());
}
