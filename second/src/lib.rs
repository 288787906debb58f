//! A second G.722 codec, written to be compared with the proved one.
//!
//! It takes another route wherever there is one: it keeps the signals since
//! reset and looks back at them by index, reads code words from the printed
//! rows, works the scale factor out of the 32-entry table, finds a block's check
//! by long division, and counts what was limited by values kept from before
//! that. `Wrong` switches on errors that must be told apart.

pub mod arith;
pub mod band;
pub mod blocks;
pub mod coder;
pub mod compare;
pub mod cue;
pub mod decoder;
pub mod desk;
pub mod extremes;
pub mod filters;
pub mod history;
pub mod lamp;
pub mod listing;
pub mod material;
pub mod quantiser;
pub mod record;
pub mod sequences;
pub mod tables;
pub mod wrong;

pub use coder::Coder;
pub use decoder::Decoder;
pub use desk::Desk;
pub use record::Record;
pub use wrong::Wrong;

/// The most octets that one call may cover.
pub const MOST_OCTETS: usize = 8000;

/// The number given back by a call that is not done, and the index beside it.
#[derive(Clone, Copy, Debug, PartialEq, Eq)]
pub struct Refusal {
    pub number: u8,
    pub index: usize,
}

/// A refusal whose index is 0.
pub fn refused<T>(number: u8) -> Result<T, Refusal> {
    Err(Refusal { number, index: 0 })
}

/// Refusal 1 for a told mode above 3; otherwise the mode in force (0 means 1).
pub fn mode_in_force(mode: u8) -> Result<u8, Refusal> {
    match mode {
        0 => Ok(1),
        1..=3 => Ok(mode),
        _ => refused(1),
    }
}
