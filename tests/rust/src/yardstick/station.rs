//! The station's six calls over the same record, the same store and the same numbers as the proved
//! ones: a record is read into a struct (and checked whole), the rule runs, and the part of the record
//! that can change is written back.

pub mod record;
pub mod rules;

use super::codec::{self, Packet, Ring};
use record::{Frame, Kind, State, Station};
use rules::Answer;

/// Octets of a record.
pub const RECORD: usize = 735;
/// Octets of a store: 16 send places, then 16 receive places.
pub const STORE: usize = 2 * MESSAGES * PLACE;
/// Octets of a place.
pub const PLACE: usize = codec::MOST_INFORMATION;
/// The fewest octets of an out buffer.
pub const OUT: usize = codec::LONGEST;
/// Messages of a list at the most.
pub const MESSAGES: usize = 16;

fn number(done: Result<(), u32>) -> u32 {
    match done {
        Ok(()) => 0,
        Err(number) => number,
    }
}

/// Where a send place lies in the store.
fn send_place(place: u8, length: u16) -> std::ops::Range<usize> {
    let at = usize::from(place) * PLACE;
    at..at + usize::from(length)
}

/// Where a receive place lies in the store.
fn receive_place(place: u8, length: u16) -> std::ops::Range<usize> {
    let at = (MESSAGES + usize::from(place)) * PLACE;
    at..at + usize::from(length)
}

/// Writes a frame's packet to the start of `out`, which has room, and gives its octets.
fn write(ring: &Ring, frame: &Frame, store: &[u8], out: &mut [u8]) -> usize {
    let address = |position: u8| ring.addresses[usize::from(position)];
    let number = frame.number;
    let (packet, information) = match frame.kind {
        Kind::Token { priority, master, failing, named } => {
            let failing = failing.map_or(0, address);
            let (master, named) = (address(master), address(named));
            (Packet::Token { priority, number, master, failing, named }, &[][..])
        }
        Kind::Transmit { priority, master, named } => {
            let (master, named) = (address(master), address(named));
            (Packet::Transmit { priority, number, master, named }, &[][..])
        }
        Kind::Information(record::Message { priority, channel, place, length, .. }) => {
            let information = &store[send_place(place, length)];
            (Packet::Information { priority, number, channel, length }, information)
        }
    };
    codec::write(packet, information, out)
}

/// Writes what a call tells, and the packet that it sends.
fn tell(ring: &Ring, answer: &Answer, store: &[u8], out: &mut [u8], told: &mut [u64; 84]) {
    (told[0], told[1]) = match &answer.frame {
        Some(frame) => {
            (write(ring, frame, store, out) as u64, ring.addresses[usize::from(frame.to)])
        }
        None => (0, 0),
    };
    told[2] = answer.struck.map_or(0, |position| ring.addresses[usize::from(position)]);
    let given_up = answer.given_up.messages();
    told[3] = given_up.len() as u64;
    for (numbers, message) in told[4..].chunks_exact_mut(5).zip(given_up) {
        numbers[0] = ring.addresses[usize::from(message.other)];
        numbers[1] = message.priority.into();
        numbers[2] = message.channel.into();
        numbers[3] = message.length.into();
        numbers[4] = message.place.into();
    }
}

#[inline(never)]
pub fn make(record: &mut [u8], file: &[u8], own: u64) -> u32 {
    number((|| {
        let record: &mut [u8; RECORD] = record.try_into().map_err(|_| 35u32)?;
        let ring = Ring::read(file)?;
        let own = ring.position(own).ok_or(8u32)?;
        record::make(record, file, own, ring.members);
        Ok(())
    })())
}

#[inline(never)]
pub fn start(record: &mut [u8], out: &mut [u8], told: &mut [u64; 84]) -> u32 {
    number((|| {
        if out.len() < OUT {
            return Err(9);
        }
        let (record, mut station) = Station::read(record).ok_or(35u32)?;
        if station.state != State::Offline {
            return Err(23);
        }
        let answer = station.start();
        station.write(record);
        tell(&station.ring, &answer, &[], out, told);
        Ok(())
    })())
}

#[inline(never)]
#[allow(clippy::too_many_arguments)]
pub fn frame(
    record: &mut [u8],
    store: &mut [u8],
    from: u64,
    to: u64,
    packet: &[u8],
    out: &mut [u8],
    told: &mut [u64; 84],
) -> u32 {
    number((|| {
        if store.len() != STORE || out.len() < OUT {
            return Err(9);
        }
        let (record, mut station) = Station::read(record).ok_or(35u32)?;
        if !station.takes_part() {
            return Err(22);
        }
        let from = station.ring.position(from).ok_or(13u32)?;
        let to = station.ring.position(to).ok_or(13u32)?;
        if from == to || from == station.own || !station.live[usize::from(from)] {
            return Err(13);
        }
        let member = |address| station.ring.position(address);
        let heard = codec::read(packet, member, |address| match address {
            0 => Some(None),
            address => member(address).map(Some),
        })?;
        let answer = station.frame(from, to, &heard);
        if let Some(message) = answer.stored {
            store[receive_place(message.place, message.length)]
                .copy_from_slice(codec::information(packet, message.length));
        }
        station.write(record);
        tell(&station.ring, &answer, store, out, told);
        Ok(())
    })())
}

#[inline(never)]
pub fn timer(record: &mut [u8], store: &[u8], out: &mut [u8], told: &mut [u64; 84]) -> u32 {
    number((|| {
        if store.len() != STORE || out.len() < OUT {
            return Err(9);
        }
        let (record, mut station) = Station::read(record).ok_or(35u32)?;
        let answer = match (station.state, station.awaited) {
            (State::Waiting, Some(frame)) => station.timer(frame),
            (State::Idle, _) => Answer::nothing(),
            _ => return Err(22),
        };
        station.write(record);
        tell(&station.ring, &answer, store, out, told);
        Ok(())
    })())
}

#[inline(never)]
pub fn queue(
    record: &mut [u8],
    store: &mut [u8],
    to: u64,
    priority: usize,
    channel: usize,
    payload: &[u8],
) -> u32 {
    number((|| {
        if store.len() != STORE {
            return Err(9);
        }
        let (record, mut station) = Station::read(record).ok_or(35u32)?;
        let place = station.queue(station.ring.position(to), priority, channel, payload.len())?;
        let length = payload.len() as u16;
        store[send_place(place, length)].copy_from_slice(payload);
        station.write(record);
        Ok(())
    })())
}

#[inline(never)]
pub fn take(
    record: &mut [u8],
    store: &[u8],
    channel: usize,
    room: &mut [u8],
    told: &mut [u64; 4],
) -> u32 {
    number((|| {
        if store.len() != STORE {
            return Err(9);
        }
        let (record, mut station) = Station::read(record).ok_or(35u32)?;
        if channel > 7 {
            return Err(17);
        }
        let best = station.receive.best(|message| usize::from(message.channel) == channel);
        let best = best.ok_or(20u32)?;
        let length = usize::from(station.receive.messages()[best].length);
        if room.len() < length {
            return Err(21);
        }
        let message = station.receive.leave(best);
        room[..length].copy_from_slice(&store[receive_place(message.place, message.length)]);
        station.write(record);
        *told = [
            station.ring.addresses[usize::from(message.other)],
            message.priority.into(),
            message.channel.into(),
            message.length.into(),
        ];
        Ok(())
    })())
}
