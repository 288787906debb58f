//! The cue channel: data bits in the low bits of the octets.

use crate::{refused, Refusal, MOST_OCTETS};

/// The bits an octet gives up in the mode, highest first, or refusal 1 or 5.
fn places(mode: u8) -> Result<&'static [u32], Refusal> {
    match mode {
        0 | 1 => refused(5),
        2 => Ok(&[0]),
        3 => Ok(&[1, 0]),
        _ => refused(1),
    }
}

/// Refusal 3 unless the data fills the octets exactly.
fn fits(places: &[u32], octets: &[u8], data: &[u8]) -> Result<(), Refusal> {
    if octets.len() > MOST_OCTETS || octets.len() * places.len() != data.len() * 8 {
        return refused(3);
    }
    Ok(())
}

/// The position in the octets of every data bit in turn: octet and place.
fn positions(octets: usize, places: &[u32]) -> Vec<(usize, u32)> {
    (0..octets).flat_map(|octet| places.iter().map(move |place| (octet, *place))).collect()
}

/// Puts the data into the octets. Refusals in the order 1, 5, 3.
pub fn put_in(mode: u8, octets: &mut [u8], data: &[u8]) -> Result<(), Refusal> {
    let places = places(mode)?;
    fits(places, octets, data)?;
    for (bit, (octet, place)) in positions(octets.len(), places).into_iter().enumerate() {
        let value = data[bit / 8] >> (7 - bit % 8) & 1;
        octets[octet] = octets[octet] & !(1 << place) | value << place;
    }
    Ok(())
}

/// Takes the data out of the octets. Refusals in the order 1, 5, 3.
pub fn take_out(mode: u8, octets: &[u8], data: &mut [u8]) -> Result<(), Refusal> {
    let places = places(mode)?;
    fits(places, octets, data)?;
    for (bit, (octet, place)) in positions(octets.len(), places).into_iter().enumerate() {
        let value = octets[octet] >> place & 1;
        let shift = 7 - bit % 8;
        data[bit / 8] = data[bit / 8] & !(1 << shift) | value << shift;
    }
    Ok(())
}
