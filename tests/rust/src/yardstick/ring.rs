//! A fault-free ring of the yardstick's stations, in place.

use super::codec::Ring as Addresses;
use super::station::record::{Frame, Kind, Message, Station};
use super::station::rules::Heard;

/// The table of stations, and the one frame on the wire with its sender.
pub struct Ring {
    stations: Vec<Station>,
    pub from: u8,
    pub wire: Frame,
}

impl Ring {
    /// Stations start from N−1 down to 0; only station 0 sends. R is 1.
    pub fn start(members: u8) -> Ring {
        let mut stations: Vec<_> =
            (0..members).map(|own| Station::new(addresses(members.into()), own)).collect();
        let sent = stations.iter_mut().rev().filter_map(|station| station.start().frame).last();
        Ring { stations, from: 0, wire: sent.expect("station 0 sends") }
    }

    /// Hands the frame to every other station and puts the addressee's new frame on the wire.
    pub fn step(&mut self) {
        let (from, to) = (self.from, self.wire.to);
        let heard = heard(&self.wire);
        for station in &mut self.stations {
            if station.own != from && !station.is_bystander(to, &heard) {
                if let Some(frame) = station.frame(from, to, &heard).frame {
                    (self.from, self.wire) = (to, frame);
                }
            }
        }
    }

    pub fn queue(
        &mut self,
        from: u16,
        to: u16,
        priority: u16,
        channel: u16,
        length: u16,
    ) -> Result<(), u32> {
        let members = self.stations.len() as u16;
        let station = self.stations.get_mut(usize::from(from)).ok_or(15u32)?;
        let to = (to < members).then_some(to as u8);
        station.queue(to, priority.into(), channel.into(), length.into()).map(drop)
    }
}

/// Member i has address i+1; R is 1.
fn addresses(members: usize) -> Addresses {
    let address = |place: usize| if place < members { place as u64 + 1 } else { 0 };
    Addresses { members, retry_limit: 1, addresses: std::array::from_fn(address), open: [255; 64] }
}

/// A frame as the others hear it.
#[inline]
pub fn heard(frame: &Frame) -> Heard {
    let number = frame.number;
    match frame.kind {
        Kind::Token { priority, master, failing, named } => {
            Heard::Token { priority, number, master, failing, named }
        }
        Kind::Transmit { priority, master, named } => {
            Heard::Transmit { priority, number, master, named }
        }
        Kind::Information(Message { priority, channel, length, .. }) => {
            Heard::Information { priority, number, channel, length }
        }
    }
}
