//! A fault-free ring of the model's stations: no frame is lost, no timer runs.

use super::station::{Frame, Station};
use super::Ring as Addresses;

/// The stations, and the one frame on the wire.
pub struct Ring {
    pub stations: Vec<Station>,
    pub wire: Frame,
}

impl Ring {
    /// Stations start from N−1 down to 0; only station 0 sends. Member i has address i+1; R is 1.
    pub fn start(members: usize) -> Ring {
        let addresses = Addresses::plain(1, (1..=members as u64).collect());
        let mut stations: Vec<Station> =
            (0..members).map(|own| Station::new(addresses.clone(), own)).collect();
        let sent = stations.iter_mut().rev().filter_map(|station| station.start().frame).last();
        Ring { stations, wire: sent.expect("station 0 sends") }
    }

    /// Hands the frame to every other station and puts the addressee's new frame on the wire.
    pub fn step(&mut self) {
        let heard = self.wire;
        for station in self.stations.iter_mut().filter(|station| station.own != heard.from) {
            if let Some(frame) = station.frame(&heard).frame {
                self.wire = frame;
            }
        }
    }

    pub fn queue(
        &mut self,
        from: usize,
        to: usize,
        priority: usize,
        channel: usize,
        length: usize,
    ) -> Result<(), u32> {
        let members = self.stations.len();
        let station = self.stations.get_mut(from).ok_or(15u32)?;
        station.queue(Some(to).filter(|to| *to < members), priority, channel, length).map(drop)
    }
}
