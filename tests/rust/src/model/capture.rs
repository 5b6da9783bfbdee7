//! A recorded day's form: request CR 1's records, read from the request alone.

use super::bits;

/// Octets of a record.
pub const RECORD: usize = 5;
/// Octets of a capture at the most.
pub const LONGEST: usize = 60_000;

#[derive(Debug, Clone, Copy, PartialEq, Eq)]
pub enum Event {
    Delivered,
    LostForAddressee,
    LostForAll,
    Timer { station: usize },
    Queue { station: usize, destination: usize, priority: usize, channel: usize, length: usize },
}

/// The fields of a record: bits each, in order.
const WIDTHS: [usize; 7] = [3, 6, 6, 8, 3, 11, 3];

/// The capture's length is not a multiple of 5, or over 60,000.
pub fn is_refused(capture: &[u8]) -> bool {
    !capture.len().is_multiple_of(RECORD) || capture.len() > LONGEST
}

/// The event of a record on a ring of so many; or 25.
pub fn event(record: &[u8], members: usize) -> Result<Event, u32> {
    let mut at = 0;
    let [kind, station, destination, priority, channel, length, zero_bits] =
        WIDTHS.map(|width| bits(record, &mut at, width) as usize);
    let is_unused = |fields: &[usize]| fields.iter().all(|field| *field == 0);
    let event = match kind {
        0 => Event::Delivered,
        1 => Event::LostForAddressee,
        2 => Event::LostForAll,
        3 => Event::Timer { station },
        4 => Event::Queue { station, destination, priority, channel, length },
        _ => return Err(25),
    };
    let is_good = match event {
        Event::Delivered | Event::LostForAddressee | Event::LostForAll => {
            is_unused(&[station, destination, priority, channel, length, zero_bits])
        }
        Event::Timer { station } => {
            station < members && is_unused(&[destination, priority, channel, length, zero_bits])
        }
        Event::Queue { station, destination, .. } => {
            station < members && destination < members && is_unused(&[zero_bits])
        }
    };
    is_good.then_some(event).ok_or(25)
}

/// A record of these fields, right or wrong: each one's lowest bits.
pub fn record(fields: [usize; 7]) -> [u8; RECORD] {
    let mut number = 0u64;
    for (field, width) in fields.into_iter().zip(WIDTHS) {
        number = number << width | field as u64 & ((1 << width) - 1);
    }
    let octets = number.to_be_bytes();
    octets[octets.len() - RECORD..].try_into().unwrap()
}

impl Event {
    /// The event's record.
    pub fn octets(self) -> [u8; RECORD] {
        record(match self {
            Event::Delivered => [0; 7],
            Event::LostForAddressee => [1, 0, 0, 0, 0, 0, 0],
            Event::LostForAll => [2, 0, 0, 0, 0, 0, 0],
            Event::Timer { station } => [3, station, 0, 0, 0, 0, 0],
            Event::Queue { station, destination, priority, channel, length } => {
                [4, station, destination, priority, channel, length, 0]
            }
        })
    }
}

/// The capture of these events.
pub fn capture(events: &[Event]) -> Vec<u8> {
    events.iter().flat_map(|event| event.octets()).collect()
}

#[cfg(test)]
mod tests {
    use super::*;

    #[test]
    fn records_octet_by_octet() {
        let queue =
            Event::Queue { station: 1, destination: 2, priority: 5, channel: 0, length: 100 };
        // 100 000001 000010 00000101 000 00001100100 000
        assert_eq!(queue.octets(), [0x80, 0x84, 0x0A, 0x03, 0x20]);
        assert_eq!(Event::Timer { station: 63 }.octets(), [0x7F, 0x80, 0, 0, 0]);
        assert_eq!(Event::Delivered.octets(), [0; 5]);
        assert_eq!(Event::LostForAddressee.octets(), [0x20, 0, 0, 0, 0]);
        assert_eq!(Event::LostForAll.octets(), [0x40, 0, 0, 0, 0]);
        let full =
            Event::Queue { station: 63, destination: 63, priority: 255, channel: 7, length: 2047 };
        assert_eq!(full.octets(), [0x9F, 0xFF, 0xFF, 0xFF, 0xF8]);
        for event in [queue, full, Event::Timer { station: 63 }, Event::Delivered] {
            assert_eq!(super::event(&event.octets(), 64), Ok(event));
        }
    }

    /// A record that reads as an event is that event's, bit by bit; every other one is refused.
    #[test]
    fn each_bit_counts() {
        for members in [2, 3, 33, 64] {
            for event in [
                Event::Delivered,
                Event::LostForAddressee,
                Event::LostForAll,
                Event::Timer { station: 1 },
                Event::Queue { station: 0, destination: 1, priority: 9, channel: 3, length: 7 },
            ] {
                for bit in 0..40 {
                    let mut octets = event.octets();
                    octets[bit / 8] ^= 0x80 >> (bit % 8);
                    match super::event(&octets, members) {
                        Ok(other) => assert!(other != event && other.octets() == octets),
                        Err(number) => assert_eq!(number, 25),
                    }
                }
            }
        }
        for bit in 37..40 {
            let mut octets =
                Event::Queue { station: 0, destination: 1, priority: 9, channel: 3, length: 7 }
                    .octets();
            octets[bit / 8] ^= 0x80 >> (bit % 8);
            assert_eq!(super::event(&octets, 64), Err(25));
        }
    }

    #[test]
    fn a_station_or_destination_outside_the_ring() {
        let queue = |station, destination| {
            Event::Queue { station, destination, priority: 1, channel: 0, length: 0 }.octets()
        };
        assert_eq!(event(&Event::Timer { station: 3 }.octets(), 3), Err(25));
        assert_eq!(
            event(&Event::Timer { station: 2 }.octets(), 3),
            Ok(Event::Timer { station: 2 })
        );
        assert_eq!(event(&queue(3, 0), 3), Err(25));
        assert_eq!(event(&queue(0, 3), 3), Err(25));
        assert!(event(&queue(2, 2), 3).is_ok());
        for kind in 5..8 {
            assert_eq!(event(&record([kind, 0, 0, 0, 0, 0, 0]), 64), Err(25));
        }
    }

    #[test]
    fn lengths() {
        let refused = |length: usize| is_refused(&vec![0; length]);
        assert_eq!([0, 5, 59_995, 60_000].map(refused), [false; 4]);
        assert_eq!([1, 4, 6, 59_999, 60_001, 60_005, 120_000].map(refused), [true; 7]);
    }
}
