//! The printed tables against each other.

use second::quantiser::{scaleh, scalel};
use second::tables::*;
use std::collections::HashSet;

/// Table 15, ILB, as printed; the codec itself does not use it.
const ILB: [i32; 32] = [
    2048, 2093, 2139, 2186, 2233, 2282, 2332, 2383, //
    2435, 2489, 2543, 2599, 2656, 2714, 2774, 2834, //
    2896, 2960, 3025, 3091, 3158, 3228, 3298, 3371, //
    3444, 3520, 3597, 3676, 3756, 3838, 3922, 4008, //
];

/// A >> n; a negative n shifts to the left.
fn shift_right(value: i32, count: i32) -> i32 {
    if count >= 0 {
        value >> count
    } else {
        value << -count
    }
}

/// Method 2 of SCALEL and SCALEH, where `full` is 8 or 10.
fn method_2(log_factor: i32, full: i32) -> i32 {
    let wd1 = (log_factor >> 6) & 31;
    let wd2 = log_factor >> 11;
    shift_right(ILB[wd1 as usize], full - wd2) << 2
}

#[test]
fn method_1_gives_the_scale_factors_of_method_2() {
    for log_factor in 0..=18432 {
        assert_eq!(scalel(log_factor), method_2(log_factor, 8));
    }
    for log_factor in 0..=22528 {
        assert_eq!(scaleh(log_factor), method_2(log_factor, 10));
    }
}

#[test]
fn every_word_stands_in_one_row() {
    let words = |rows: &[WordRow]| rows.iter().map(|row| row.0).collect::<HashSet<u8>>();
    assert_eq!(words(&TABLE_17), (0..16).collect());
    assert_eq!(words(&TABLE_18), (0..64).collect());
    assert_eq!(words(&TABLE_19), (0..32).collect());
    assert_eq!(words(&TABLE_21), (0..4).collect());
}

#[test]
fn words_that_are_sent_are_read_back() {
    for (sign, interval, word) in TABLE_16 {
        assert_eq!(row_of_word(&TABLE_18, word), (sign, interval));
    }
    for (sign, interval, word) in TABLE_20 {
        assert_eq!(row_of_word(&TABLE_21, word), (sign, interval));
    }
}

#[test]
fn shorter_words_join_neighbouring_intervals() {
    for (_, interval, word) in TABLE_16 {
        assert_eq!(row_of_word(&TABLE_19, word >> 1).1, interval.div_ceil(2));
        assert_eq!(row_of_word(&TABLE_17, word >> 2).1, interval.div_ceil(2) / 2);
    }
}

#[test]
fn filter_coefficients_add_up() {
    assert_eq!(H.iter().sum::<i32>(), 8192);
    assert_eq!(H.iter().step_by(2).sum::<i32>(), 4096);
    assert!((0..24).all(|i| H[i] == H[23 - i]));
}
