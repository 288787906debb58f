//! The conference desk: every port hears the sum of all the others. Signals
//! are summed band by band, between the sub-band decoders and coders; no mirror
//! filter is passed.

use crate::arith::limit;
use crate::lamp::{Before, Lamp};
use crate::{mode_in_force, refused, Coder, Decoder, Refusal, Wrong};

/// A desk and everything its ports have been given since reset.
#[derive(Clone, Debug)]
pub struct Desk {
    wrong: Wrong,
    decoders: Vec<Decoder>,
    coders: Vec<Coder>,
    lamp: Lamp,
}

/// Refusal 9 for a number of ports that no desk has; otherwise the number.
pub fn number_of_ports(ports: usize) -> Result<usize, Refusal> {
    match ports {
        2..=8 => Ok(ports),
        _ => refused(9),
    }
}

/// The sum of the signals of all ports but the one, not limited.
pub fn sum_of_others(port: usize, signals: &[i32], wrong: Wrong) -> i32 {
    let most = if wrong == Wrong::EighthLeftOut { 7 } else { 8 };
    let heard = |other: &usize| *other != port || wrong == Wrong::OwnLeftIn;
    (0..signals.len().min(most)).filter(heard).map(|other| signals[other]).sum()
}

impl Desk {
    /// A desk at reset. Refusal 9 where it would not have 2 to 8 ports.
    pub fn reset(ports: usize, wrong: Wrong) -> Result<Desk, Refusal> {
        let ports = number_of_ports(ports)?;
        let (decoders, coders) = (vec![Decoder::new(wrong); ports], vec![Coder::new(wrong); ports]);
        Ok(Desk { wrong, decoders, coders, lamp: Lamp::dark(wrong) })
    }

    /// The mode in which a port's octet is decoded.
    fn mode_of(&self, port: usize, modes: &[u8]) -> u8 {
        match self.wrong {
            Wrong::NeighboursMode => modes[(port + 1) % modes.len()],
            Wrong::FirstMode => modes[0],
            _ => modes[port],
        }
    }

    /// The signals RL and RH of every port.
    fn signals(&mut self, modes: &[u8], octets: &[u8]) -> (Vec<i32>, Vec<i32>) {
        let modes: Vec<u8> = (0..modes.len()).map(|port| self.mode_of(port, modes)).collect();
        let ports = self.decoders.iter_mut().zip(octets).zip(modes);
        ports.map(|((decoder, octet), mode)| decoder.sub_bands(*octet, mode)).unzip()
    }

    /// The sums of both bands that each port is to hear, before LIMIT.
    fn sums(&self, low: &[i32], high: &[i32]) -> Vec<Before> {
        let sum = |port, signals| sum_of_others(port, signals, self.wrong);
        (0..low.len()).map(|port| (sum(port, low), sum(port, high))).collect()
    }

    /// What a port is to hear of one band, of its sum (only a wrong desk asks
    /// for the port's own signal).
    fn mixed(&self, sum: i32, own: i32) -> i32 {
        match self.wrong {
            Wrong::SumsUnlimited => sum,
            Wrong::TotalLimited => limit(limit(sum + own) - own),
            _ => limit(sum),
        }
    }

    /// One octet of every port into the room for one octet to every port. Gives
    /// the count of the sums that were limited. Refusals in the order 3, 1.
    pub fn tick(&mut self, modes: &[u8], octets: &[u8], room: &mut [u8]) -> Result<usize, Refusal> {
        if [modes.len(), octets.len(), room.len()] != [self.coders.len(); 3] {
            return refused(3);
        }
        let modes: Result<Vec<u8>, Refusal> = modes.iter().map(|m| mode_in_force(*m)).collect();
        let (low, high) = self.signals(&modes?, octets);
        let before = self.sums(&low, &high);
        for (port, octet) in room.iter_mut().enumerate() {
            let (xl, xh) = before[port];
            let (xl, xh) = (self.mixed(xl, low[port]), self.mixed(xh, high[port]));
            *octet = self.coders[port].of_signals(xl, xh);
        }
        if self.wrong == Wrong::CodersExchanged {
            self.coders.swap(0, 1);
        }
        Ok(self.lamp.of_signals(&before))
    }
}
