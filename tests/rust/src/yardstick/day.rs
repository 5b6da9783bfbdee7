//! A recorded day on the yardstick's stations, in place.

use super::codec::Ring as Addresses;
use super::out::{Out, HEADING};
use super::ring::heard;
use super::station::record::{Frame, State, Station};
use std::collections::VecDeque;
use std::io::{self, Write};

const RECORD: usize = 5;
const LONGEST: usize = 60_000;
const MOST_FRAMES: usize = 64;
const END: &str = "station state live send receive lost given-up\n";

enum Event {
    Delivered,
    LostForAddressee,
    LostForAll,
    Timer(usize),
    Queue { station: usize, to: u8, priority: usize, channel: usize, length: usize },
}

impl Event {
    /// The event of a record, if it is a good one.
    fn read(octets: &[u8; RECORD], members: usize) -> Option<Event> {
        let [a, b, c, d, e] = *octets;
        let record = u64::from_be_bytes([0, 0, 0, a, b, c, d, e]);
        let field = |at: u32, width: u32| (record >> at) as usize & ((1 << width) - 1);
        let (station, to) = (field(31, 6), field(25, 6));
        match field(37, 3) {
            0 if record == 0 => Some(Event::Delivered),
            1 if record == 1 << 37 => Some(Event::LostForAddressee),
            2 if record == 2 << 37 => Some(Event::LostForAll),
            3 if field(0, 31) == 0 && station < members => Some(Event::Timer(station)),
            4 if field(0, 3) == 0 && station < members && to < members => Some(Event::Queue {
                station,
                to: to as u8,
                priority: field(17, 8),
                channel: field(14, 3),
                length: field(3, 11),
            }),
            _ => None,
        }
    }
}

/// The table of stations, and the frames on the wire with their senders, the oldest first.
struct Day {
    stations: Vec<Station>,
    wire: VecDeque<(u8, Frame)>,
}

impl Day {
    fn start(file: &[u8]) -> Result<Day, u32> {
        let mut wire = VecDeque::with_capacity(MOST_FRAMES);
        let ring = Addresses::read(file)?;
        let mut stations: Vec<Station> =
            (0..ring.members as u8).map(|own| Station::new(ring.clone(), own)).collect();
        for station in stations.iter_mut().rev() {
            wire.extend(station.start().frame.map(|frame| (station.own, frame)));
        }
        Ok(Day { stations, wire })
    }

    /// The oldest frame, handed to every station but its sender and `deaf`.
    fn take(&mut self, deaf: impl Fn(u8, u8) -> bool, out: &mut Out<impl Write>) -> io::Result<()> {
        let Some((from, frame)) = self.wire.pop_front() else { return Ok(()) };
        let heard = heard(&frame);
        let mut sent = None;
        for station in &mut self.stations {
            if station.own == from
                || deaf(station.own, frame.to)
                || station.is_bystander(frame.to, &heard)
                || !station.takes_part()
                || !station.live[usize::from(from)]
            {
                continue;
            }
            let answer = station.frame(from, frame.to, &heard);
            if let Some(struck) = answer.struck {
                out.struck(struck, station.own)?;
            }
            if let Some(frame) = answer.frame {
                sent = Some((station.own, frame));
            }
        }
        if let Some((from, frame)) = sent {
            self.wire.push_back((from, frame));
            out.frame(from, &frame)?;
        }
        Ok(())
    }

    /// The timer of a station. False where it would send one frame too many.
    fn timer(&mut self, station: usize, out: &mut Out<impl Write>) -> io::Result<bool> {
        let station = &mut self.stations[station];
        let Some(frame) = station.awaited else { return Ok(true) };
        if self.wire.len() == MOST_FRAMES && station.timer_sends(&frame) {
            return Ok(false);
        }
        let answer = station.timer(frame);
        if let Some(struck) = answer.struck {
            out.struck(struck, station.own)?;
        }
        if let Some(frame) = answer.frame {
            self.wire.push_back((station.own, frame));
            out.frame(station.own, &frame)?;
        }
        Ok(true)
    }

    /// A record; or the number that it is refused with.
    fn apply(
        &mut self,
        record: &[u8; RECORD],
        out: &mut Out<impl Write>,
    ) -> io::Result<Result<(), u32>> {
        let Some(event) = Event::read(record, self.stations.len()) else { return Ok(Err(25)) };
        match event {
            Event::Delivered => self.take(|_, _| false, out)?,
            Event::LostForAddressee => self.take(|own, to| own == to, out)?,
            Event::LostForAll => drop(self.wire.pop_front()),
            Event::Timer(station) => {
                if !self.timer(station, out)? {
                    return Ok(Err(36));
                }
            }
            Event::Queue { station, to, priority, channel, length } => {
                let station = &mut self.stations[station];
                if let Err(number) = station.queue(Some(to), priority, channel, length) {
                    out.refused(number)?;
                }
            }
        }
        Ok(Ok(()))
    }

    fn end(&self, out: &mut Out<impl Write>) -> io::Result<()> {
        out.text(END)?;
        for station in &self.stations {
            let live = station.live.map(|live| b'0' + u8::from(live));
            out.text("")?;
            out.digits(station.own.into());
            out.more(match station.state {
                State::Offline => b" Offline ",
                State::Idle => b" Idle ",
                State::Waiting => b" Waiting ",
                State::Alone => b" Alone ",
                State::Excluded => b" Excluded ",
            });
            out.more(&live[..station.ring.members]);
            out.number(station.send.messages().len() as u32);
            out.number(station.receive.messages().len() as u32);
            out.number(station.lost);
            out.number(station.given_up);
            out.end();
        }
        Ok(())
    }
}

/// Prints what a ring file and a capture do.
pub fn replay(file: &[u8], capture: &[u8], out: &mut Out<impl Write>) -> io::Result<()> {
    let mut day = match Day::start(file) {
        Ok(day) => day,
        Err(number) => return out.refused(number),
    };
    let (records, rest) = capture.as_chunks::<RECORD>();
    if !rest.is_empty() || capture.len() > LONGEST {
        return out.refused(24);
    }
    out.text(HEADING)?;
    for (from, frame) in &day.wire {
        out.frame(*from, frame)?;
    }
    for (at, record) in records.iter().enumerate() {
        if let Err(number) = day.apply(record, out)? {
            out.text("stopped")?;
            out.number(number);
            out.more(b" at");
            out.number(at as u32);
            out.end();
            break;
        }
    }
    day.end(out)
}
