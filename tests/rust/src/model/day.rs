//! A recorded day on the model's stations, read from the rule book and the request for recorded days alone: frames get lost,
//! timers run, and more than one frame may be on the wire.

use super::capture::{self, Event};
use super::station::{Answer, Frame, Kind, State, Station};
use super::{read_ring, Ring};
use std::collections::VecDeque;
use std::fmt;

/// Frames on the wire at the most.
pub const MOST_FRAMES: usize = 64;

/// A line that is printed between the heading and the end.
#[derive(Debug, Clone, Copy, PartialEq, Eq)]
pub enum Line {
    Frame(Frame),
    Struck { station: usize, by: usize },
    Refused(u32),
    Stopped { number: u32, record: usize },
}

impl fmt::Display for Line {
    fn fmt(&self, out: &mut fmt::Formatter) -> fmt::Result {
        match self {
            Line::Frame(frame) => {
                let Frame { from, to, number, kind } = frame;
                let kind = match kind {
                    Kind::Token { .. } => 'T',
                    Kind::Transmit { .. } => 'G',
                    Kind::Information(_) => 'I',
                };
                write!(out, "{number} {kind} {from} {to} {} {}", frame.priority(), frame.wire())
            }
            Line::Struck { station, by } => write!(out, "struck {station} by {by}"),
            Line::Refused(number) => write!(out, "refused {number}"),
            Line::Stopped { number, record } => write!(out, "stopped {number} at {record}"),
        }
    }
}

/// The stations, and the wire, the oldest frame first.
#[derive(Clone)]
pub struct Day {
    pub stations: Vec<Station>,
    pub wire: VecDeque<Frame>,
}

/// A heard frame with its checks: 22, then 13.
fn hear(station: &mut Station, heard: &Frame) -> Result<Answer, u32> {
    if !matches!(station.state, State::Idle | State::Waiting) {
        return Err(22);
    }
    if !station.live[heard.from] {
        return Err(13);
    }
    Ok(station.frame(heard))
}

/// The timer by the table of moves.
fn run_timer(station: &mut Station) -> Result<Answer, u32> {
    match station.state {
        State::Waiting => Ok(station.timer(station.awaited.expect("a frame is awaited"))),
        State::Idle => Ok(Answer::default()),
        State::Offline | State::Alone | State::Excluded => Err(22),
    }
}

impl Day {
    /// Stations start from N−1 down to 0; what they send is on the wire.
    pub fn start(ring: &Ring) -> Day {
        let members = ring.addresses.len();
        let mut stations: Vec<Station> =
            (0..members).map(|own| Station::new(ring.clone(), own)).collect();
        let wire = stations.iter_mut().rev().filter_map(|station| station.start().frame).collect();
        Day { stations, wire }
    }

    /// What a station's answer prints: whom it struck.
    fn strikes(by: usize, answer: &Answer) -> Option<Line> {
        answer.struck.map(|station| Line::Struck { station, by })
    }

    /// The oldest frame is taken and handed to every station that `hears` it; a refused one does nothing. What is
    /// answered joins the end of the wire.
    fn take(&mut self, hears: impl Fn(&Frame, usize) -> bool) -> Vec<Line> {
        let Some(heard) = self.wire.pop_front() else { return Vec::new() };
        let mut lines = Vec::new();
        let mut answered = Vec::new();
        for (own, station) in self.stations.iter_mut().enumerate() {
            if own != heard.from && hears(&heard, own) {
                let answer = hear(station, &heard).unwrap_or_default();
                lines.extend(Day::strikes(own, &answer));
                answered.extend(answer.frame);
            }
        }
        lines.extend(answered.iter().copied().map(Line::Frame));
        self.wire.extend(answered);
        lines
    }

    /// The timer of a station; 36 where it would send a 65th frame.
    fn timer(&mut self, own: usize) -> Result<Vec<Line>, u32> {
        let mut station = self.stations[own].clone();
        let answer = run_timer(&mut station).unwrap_or_default();
        if answer.frame.is_some() && self.wire.len() == MOST_FRAMES {
            return Err(36);
        }
        self.stations[own] = station;
        self.wire.extend(answer.frame);
        Ok(Day::strikes(own, &answer).into_iter().chain(answer.frame.map(Line::Frame)).collect())
    }

    /// A message for a station's send list; or its refusal, 22 before those of the message.
    fn queue(
        &mut self,
        station: usize,
        to: usize,
        priority: usize,
        channel: usize,
        length: usize,
    ) -> Result<(), u32> {
        let station = &mut self.stations[station];
        if !matches!(station.state, State::Idle | State::Waiting) {
            return Err(22);
        }
        station.queue(Some(to), priority, channel, length).map(drop)
    }

    /// What an event prints; or its refusal, and then nothing is done.
    pub fn apply(&mut self, event: Event) -> Result<Vec<Line>, u32> {
        Ok(match event {
            Event::Delivered => self.take(|_, _| true),
            Event::LostForAddressee => self.take(|frame, own| own != frame.to),
            Event::LostForAll => self.take(|_, _| false),
            Event::Timer { station } => self.timer(station)?,
            Event::Queue { station, destination, priority, channel, length } => {
                let done = self.queue(station, destination, priority, channel, length);
                done.err().map(Line::Refused).into_iter().collect()
            }
        })
    }

    /// A station's line of the end.
    fn end(station: &Station) -> String {
        let state = match station.state {
            State::Offline => unreachable!("every station has started"),
            State::Idle => "Idle",
            State::Waiting => "Waiting",
            State::Alone => "Alone",
            State::Excluded => "Excluded",
        };
        let live: String = station.live.iter().map(|live| if *live { '1' } else { '0' }).collect();
        let (send, receive) = (station.send.len(), station.receive.len());
        let Station { own, lost, given_up, .. } = station;
        format!("{own} {state} {live} {send} {receive} {lost} {given_up}\n")
    }
}

/// A day that was run: what it printed, and what it left.
pub struct Run {
    pub lines: Vec<Line>,
    pub day: Day,
}

impl Run {
    pub fn text(&self) -> String {
        let mut text = String::from("no kind from to prio octets\n");
        for line in &self.lines {
            text += &format!("{line}\n");
        }
        text += "station state live send receive lost given-up\n";
        text.extend(self.day.stations.iter().map(Day::end));
        text
    }
}

/// Runs a capture: until its end, or before the first record that is refused. Before anything runs, a bad ring file
/// is refused with its number, then a capture with 24.
pub fn run(file: &[u8], capture: &[u8]) -> Result<Run, u32> {
    let ring = read_ring(file).map_err(|faults| faults[0].number())?;
    if capture::is_refused(capture) {
        return Err(24);
    }
    let mut day = Day::start(&ring);
    let mut lines: Vec<Line> = day.wire.iter().copied().map(Line::Frame).collect();
    for (record, octets) in capture.chunks(capture::RECORD).enumerate() {
        let event = capture::event(octets, ring.addresses.len());
        match event.and_then(|event| day.apply(event)) {
            Ok(printed) => lines.extend(printed),
            Err(number) => {
                lines.push(Line::Stopped { number, record });
                break;
            }
        }
    }
    Ok(Run { lines, day })
}

/// What is printed of a ring file and a capture, whatever octets they have.
pub fn printed(file: &[u8], capture: &[u8]) -> String {
    match run(file, capture) {
        Ok(run) => run.text(),
        Err(number) => format!("refused {number}\n"),
    }
}
