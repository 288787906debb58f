//! Blocks 1 to 3 and INVQBL: quantisers, their inverses and the scale factors.

use crate::arith::{add, mul, sign, sub};
use crate::tables::*;
use crate::Wrong;

/// The size of a difference: itself from 0 up, -1 minus it below.
fn size(difference: i32, wrong: Wrong) -> i32 {
    if difference >= 0 {
        difference
    } else if wrong == Wrong::NegatedSize {
        sub(0, difference)
    } else {
        -1 - difference
    }
}

/// Whether a size has reached the decision level that a constant gives.
fn reached(size: i32, constant: i32, scale: i32, wrong: Wrong) -> bool {
    let level = mul(constant << 3, scale, wrong);
    if wrong == Wrong::LevelStaysBelow {
        return level < size;
    }
    level <= size
}

/// QUANTL: the six-bit word IL of the difference EL.
pub fn quantl(el: i32, detl: i32, wrong: Wrong) -> u8 {
    let wd = size(el, wrong);
    let below = Q6.iter().filter(|constant| reached(wd, **constant, detl, wrong)).count();
    let mil = if wd == 0 && wrong == Wrong::IntervalOne { 1 } else { 1 + below };
    word_of_row(&TABLE_16, sign(el), mil)
}

/// QUANTH: the two-bit word IH of the difference EH.
pub fn quanth(eh: i32, deth: i32, wrong: Wrong) -> u8 {
    let wd = size(eh, wrong);
    let mih = if reached(wd, Q2, deth, wrong) { 2 } else { 1 };
    word_of_row(&TABLE_20, sign(eh), mih)
}

/// The common end of the inverse quantisers: scale, set the sign, multiply.
fn difference(constant: i32, sign: i32, scale: i32, wrong: Wrong) -> i32 {
    let wd1 = constant << 3;
    let wd2 = if sign == 0 { wd1 } else { -wd1 };
    mul(scale, wd2, wrong)
}

/// INVQAL: the difference DLT that the loop uses, from the upper four bits.
pub fn invqal(il: u8, detl: i32, wrong: Wrong) -> i32 {
    if wrong == Wrong::SixBitLoop {
        return invqbl(il, detl, 1, wrong);
    }
    let ril = match (wrong, il >> 2) {
        (Wrong::NeverSentLoop, 0b0000) => 0b0001,
        (_, upper) => upper,
    };
    let (sil, il4) = row_of_word(&TABLE_17, ril);
    difference(QQ4[il4], sil, detl, wrong)
}

/// INVQBL: the difference DL that is heard in the mode.
pub fn invqbl(ilr: u8, detl: i32, mode: u8, wrong: Wrong) -> i32 {
    let (sil, constant) = match mode {
        1 => {
            let (sil, il6) = row_of_word(&TABLE_18, ilr);
            (sil, QQ6[il6 - 1])
        }
        2 => {
            let (sil, il5) = row_of_word(&TABLE_19, ilr >> 1);
            (sil, QQ5[il5 - 1])
        }
        _ => {
            let (sil, il4) = row_of_word(&TABLE_17, ilr >> 2);
            (sil, QQ4[il4])
        }
    };
    difference(constant, sil, detl, wrong)
}

/// INVQAH: the difference DH.
pub fn invqah(ih: u8, deth: i32, wrong: Wrong) -> i32 {
    let (sih, ih2) = row_of_word(&TABLE_21, ih);
    difference(QQ2[ih2 - 1], sih, deth, wrong)
}

/// LOGSCL: the next log factor of the low band.
pub fn logscl(il: u8, nbl: i32, wrong: Wrong) -> i32 {
    let (_, il4) = row_of_word(&TABLE_17, il >> 2);
    add(mul(nbl, 32512, wrong), WL[il4]).clamp(0, 18432)
}

/// LOGSCH: the next log factor of the high band.
pub fn logsch(ih: u8, nbh: i32, wrong: Wrong) -> i32 {
    let (_, ih2) = row_of_word(&TABLE_21, ih);
    add(mul(nbh, 32512, wrong), WH[ih2 - 1]).clamp(0, 22528)
}

/// Method 1 of SCALEL and SCALEH: the scale factor at an address of ILA. The
/// limits of the log factors keep it within the table.
fn scale(address: i32) -> i32 {
    (ILA[address as usize] + 1) << 2
}

/// SCALEL: the scale factor of the low band.
pub fn scalel(nbpl: i32) -> i32 {
    scale((nbpl >> 6) + 64)
}

/// SCALEH: the scale factor of the high band.
pub fn scaleh(nbph: i32) -> i32 {
    scale(nbph >> 6)
}
