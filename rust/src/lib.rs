//! The six calls of `zelcandry.h` for Rust. What the header asks of memory, that the runs of a call
//! are there and do not overlap, is what slices are, so these functions are safe.
//!
//! A call that is done gives the count of the values it limited; those for data limit nothing and give
//! none.

include!(concat!(env!("OUT_DIR"), "/reset.rs"));

/// The calls as C has them.
pub mod c {
    extern "C" {
        pub fn zelcandry_code(
            state: *mut u8,
            state_len: usize,
            samples: *const u8,
            samples_len: usize,
            octets: *mut u8,
            octets_len: usize,
        ) -> u64;
        pub fn zelcandry_decode(
            state: *mut u8,
            state_len: usize,
            mode: u8,
            octets: *const u8,
            octets_len: usize,
            samples: *mut u8,
            samples_len: usize,
        ) -> u64;
        pub fn zelcandry_hear(
            state: *mut u8,
            state_len: usize,
            mode: u8,
            octets: *const u8,
            octets_len: usize,
            low: *mut u8,
            low_len: usize,
            high: *mut u8,
            high_len: usize,
        ) -> u64;
        pub fn zelcandry_join(
            state: *mut u8,
            state_len: usize,
            low: *const u8,
            low_len: usize,
            high: *const u8,
            high_len: usize,
            samples: *mut u8,
            samples_len: usize,
        ) -> u64;
        pub fn zelcandry_put(
            mode: u8,
            octets: *mut u8,
            octets_len: usize,
            data: *const u8,
            data_len: usize,
        ) -> u64;
        pub fn zelcandry_take(
            mode: u8,
            octets: *const u8,
            octets_len: usize,
            data: *mut u8,
            data_len: usize,
        ) -> u64;
    }
}

/// The number of a refused call, and the index beside it.
#[derive(Clone, Copy, Debug, PartialEq, Eq)]
pub struct Refusal {
    pub number: u8,
    pub index: usize,
}

/// The parts of an answer: the number in bits 0 to 7, the index in bits 8 to 31, the count in bits 32 to
/// 63.
fn told(answer: u64) -> Result<usize, Refusal> {
    match answer as u8 {
        0 => Ok((answer >> 32) as usize),
        number => Err(Refusal { number, index: (answer >> 8 & 0xFF_FFFF) as usize }),
    }
}

/// Codes `samples`, four bytes for each of the `octets`. Counts outputs of the transmit filter, of both
/// bands, that were limited.
pub fn code(state: &mut [u8], samples: &[u8], octets: &mut [u8]) -> Result<usize, Refusal> {
    let (s, x, o) = (state.as_mut_ptr(), samples.as_ptr(), octets.as_mut_ptr());
    told(unsafe { c::zelcandry_code(s, state.len(), x, samples.len(), o, octets.len()) })
}

/// Decodes `octets` in a mode to `samples`, four bytes for each. Counts samples that were limited.
pub fn decode(
    state: &mut [u8],
    mode: u8,
    octets: &[u8],
    samples: &mut [u8],
) -> Result<usize, Refusal> {
    let (s, o, x) = (state.as_mut_ptr(), octets.as_ptr(), samples.as_mut_ptr());
    told(unsafe { c::zelcandry_decode(s, state.len(), mode, o, octets.len(), x, samples.len()) })
}

/// The first step of decoding: `octets` in a mode to `low` and `high` signals, two bytes of each for an
/// octet. Counts signals of both that were limited.
pub fn hear(
    state: &mut [u8],
    mode: u8,
    octets: &[u8],
    low: &mut [u8],
    high: &mut [u8],
) -> Result<usize, Refusal> {
    let (s, o) = (state.as_mut_ptr(), octets.as_ptr());
    let (l, h) = (low.as_mut_ptr(), high.as_mut_ptr());
    told(unsafe {
        let n = (octets.len(), low.len(), high.len());
        c::zelcandry_hear(s, state.len(), mode, o, n.0, l, n.1, h, n.2)
    })
}

/// The second step: `low` and `high` signals to `samples`, four bytes for each pair. Counts samples that
/// were limited.
pub fn join(
    state: &mut [u8],
    low: &[u8],
    high: &[u8],
    samples: &mut [u8],
) -> Result<usize, Refusal> {
    let (s, x) = (state.as_mut_ptr(), samples.as_mut_ptr());
    let (l, h) = (low.as_ptr(), high.as_ptr());
    told(unsafe {
        let n = (low.len(), high.len(), samples.len());
        c::zelcandry_join(s, state.len(), l, n.0, h, n.1, x, n.2)
    })
}

/// Puts `data` into the last bits of `octets`.
pub fn put(mode: u8, octets: &mut [u8], data: &[u8]) -> Result<(), Refusal> {
    let (o, d) = (octets.as_mut_ptr(), data.as_ptr());
    told(unsafe { c::zelcandry_put(mode, o, octets.len(), d, data.len()) }).map(|_| ())
}

/// Takes `data` out of the last bits of `octets`.
pub fn take(mode: u8, octets: &[u8], data: &mut [u8]) -> Result<(), Refusal> {
    let (o, d) = (octets.as_ptr(), data.as_mut_ptr());
    told(unsafe { c::zelcandry_take(mode, o, octets.len(), d, data.len()) }).map(|_| ())
}
