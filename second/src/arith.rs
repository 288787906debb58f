//! The arithmetic of section 6: 16-bit numbers, held in 32 bits.

use crate::Wrong;

/// Stops a sum or difference at the ends of 16 bits.
pub fn stop(value: i32) -> i32 {
    value.clamp(-32768, 32767)
}

/// A + B of section 6.
pub fn add(a: i32, b: i32) -> i32 {
    stop(a + b)
}

/// A - B of section 6.
pub fn sub(a: i32, b: i32) -> i32 {
    stop(a - b)
}

/// A * B of section 6: the product over 32768, rounded down. Only
/// -32768 times -32768 has to stop.
pub fn mul(a: i32, b: i32, wrong: Wrong) -> i32 {
    let product = a * b;
    if wrong == Wrong::RoundTowardZero {
        return stop(product / 32768);
    }
    stop(product.div_euclid(32768))
}

/// The sign as section 6 writes it (A >> 15): -1 below zero, otherwise 0.
pub fn sign(value: i32) -> i32 {
    if value < 0 {
        -1
    } else {
        0
    }
}

/// LIMIT: the 15-bit range of XIN, XL, XH, RL, RH and XOUT.
pub fn limit(value: i32) -> i32 {
    value.clamp(-16384, 16383)
}
