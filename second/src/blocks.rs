//! The logger's 512-byte blocks.

use crate::{refused, Refusal};

/// The bytes of a block.
pub const BLOCK: usize = 512;

/// The bytes the check covers.
const COVERED: usize = 510;

/// The first byte of the octets.
const FIRST: usize = 12;

/// The powers of x in the divisor.
const POLYNOMIAL: [usize; 4] = [16, 12, 5, 0];

/// What a block says; the octets stay where they stand in it.
#[derive(Clone, Copy, Debug, PartialEq, Eq)]
pub struct Block<'a> {
    pub take: u32,
    pub number: u32,
    pub mode: u8,
    pub octets: &'a [u8],
}

/// The bits of the bytes, highest first.
fn bits(bytes: &[u8]) -> Vec<bool> {
    bytes.iter().flat_map(|byte| (0..8).rev().map(move |place| byte >> place & 1 == 1)).collect()
}

/// The check by long division: sixteen zeros are put after the bit string, its
/// first sixteen bits are inverted (that is the register starting at 65535),
/// and the remainder after division by the polynomial is the check.
pub fn check(bytes: &[u8]) -> u16 {
    let mut dividend = bits(bytes);
    let message = dividend.len();
    dividend.resize(message + 16, false);
    for bit in &mut dividend[..16] {
        *bit = !*bit;
    }
    for place in 0..message {
        if dividend[place] {
            for power in POLYNOMIAL {
                dividend[place + 16 - power] ^= true;
            }
        }
    }
    dividend[message..].iter().fold(0, |sum, bit| sum << 1 | u16::from(*bit))
}

/// Whether the mode and the count may stand in a block.
fn allowed(mode: u8, count: usize) -> bool {
    (1..=3).contains(&mode) && (1..=480).contains(&count)
}

/// Writes a block into the lent bytes. Refusals in the order 6, 8.
pub fn write(
    lent: &mut [u8],
    take: u32,
    number: u32,
    mode: u8,
    octets: &[u8],
) -> Result<(), Refusal> {
    if lent.len() != BLOCK {
        return refused(6);
    }
    if !allowed(mode, octets.len()) {
        return refused(8);
    }
    lent.fill(0);
    lent[0..4].copy_from_slice(&take.to_be_bytes());
    lent[4..8].copy_from_slice(&number.to_be_bytes());
    lent[8] = mode;
    lent[10..12].copy_from_slice(&(octets.len() as u16).to_be_bytes());
    lent[FIRST..FIRST + octets.len()].copy_from_slice(octets);
    let check = check(&lent[..COVERED]);
    lent[COVERED..].copy_from_slice(&check.to_be_bytes());
    Ok(())
}

/// The number whose bytes these are, the high byte first.
fn number(bytes: &[u8]) -> u32 {
    bytes.iter().fold(0, |sum, byte| sum << 8 | u32::from(*byte))
}

/// Reads a block. Refusals in the order 6, 7, 8.
pub fn read(block: &[u8]) -> Result<Block<'_>, Refusal> {
    if block.len() != BLOCK {
        return refused(6);
    }
    if number(&block[COVERED..]) != u32::from(check(&block[..COVERED])) {
        return refused(7);
    }
    let (mode, count) = (block[8], number(&block[10..12]) as usize);
    if !allowed(mode, count) || block[9] != 0 {
        return refused(8);
    }
    let (octets, rest) = block[FIRST..COVERED].split_at(count);
    if rest.iter().any(|byte| *byte != 0) {
        return refused(8);
    }
    Ok(Block { take: number(&block[..4]), number: number(&block[4..8]), mode, octets })
}

/// A reader that walks a recording block after block.
#[derive(Clone, Debug)]
pub struct Reader<'a> {
    recording: &'a [u8],
    /// The blocks read so far.
    pub read: usize,
}

impl<'a> Reader<'a> {
    /// A reader at the start of the recording.
    pub fn new(recording: &'a [u8]) -> Reader<'a> {
        Reader { recording, read: 0 }
    }

    /// The next block, or nothing at the end. After a refusal it stays there.
    pub fn next_block(&mut self) -> Result<Option<Block<'a>>, Refusal> {
        let left = &self.recording[self.read * BLOCK..];
        if left.is_empty() {
            return Ok(None);
        }
        let block = read(&left[..left.len().min(BLOCK)])?;
        self.read += 1;
        Ok(Some(block))
    }
}
