//! The rule book's station, read from the page alone: the six calls over the same record, the same store
//! and the same numbers as the proved ones.
//!
//! It is what the tests hold the proved calls to, so it is written to be believed and not to be fast,
//! in the page's own order. A record is whole if the station that it says is, and that station's
//! record is the same octets again.

use super::{get, put, Packet, Ring};

/// Octets of a record.
pub const RECORD: usize = 735;
/// Octets of a store: 16 send places, then 16 receive places.
pub const STORE: usize = 2 * MESSAGES * PLACE;
/// Octets of a place.
pub const PLACE: usize = 1492;
/// The fewest octets of an out buffer.
pub const OUT: usize = 1500;
/// Messages of a list at the most.
pub const MESSAGES: usize = 16;
/// Octets of a ring file at the most: as many has a record for it.
const FILE: usize = 450;

#[derive(Debug, Clone, Copy, PartialEq, Eq)]
pub enum State {
    Offline,
    Idle,
    Waiting,
    Alone,
    Excluded,
}

/// A message of a list. Its other end is the destination, or the sender.
#[derive(Debug, Clone, Copy, PartialEq, Eq)]
pub struct Message {
    pub other: usize,
    pub priority: u8,
    pub channel: u8,
    pub place: usize,
    pub length: usize,
}

/// A frame, over ring positions.
#[derive(Debug, Clone, Copy, PartialEq, Eq)]
pub struct Frame {
    pub from: usize,
    pub to: usize,
    pub number: u16,
    pub kind: Kind,
}

#[derive(Debug, Clone, Copy, PartialEq, Eq)]
pub enum Kind {
    Token { priority: u8, master: usize, failing: Option<usize>, named: usize },
    Transmit { priority: u8, master: usize, named: usize },
    Information(Message),
}

impl Frame {
    pub fn priority(&self) -> u8 {
        match self.kind {
            Kind::Token { priority, .. } | Kind::Transmit { priority, .. } => priority,
            Kind::Information(message) => message.priority,
        }
    }

    /// Octets on the wire.
    pub fn wire(&self) -> usize {
        match self.kind {
            Kind::Token { .. } | Kind::Transmit { .. } => 72,
            Kind::Information(message) => 72.max(34 + message.length),
        }
    }
}

/// What a call sends and tells, and the received message whose payload goes into the store.
#[derive(Debug, Clone, Default)]
pub struct Answer {
    pub frame: Option<Frame>,
    pub struck: Option<usize>,
    pub given_up: Vec<Message>,
    pub stored: Option<Message>,
}

#[derive(Debug, Clone)]
pub struct Station {
    pub ring: Ring,
    pub own: usize,
    pub state: State,
    pub live: Vec<bool>,
    pub send: Vec<Message>,
    pub receive: Vec<Message>,
    /// The last handled number.
    pub handled: Option<u16>,
    /// The frame that an acknowledgement is awaited for.
    pub awaited: Option<Frame>,
    pub retries: u8,
    pub lost: u32,
    pub given_up: u32,
}

/// The highest priority, the earliest among equals.
fn best<'a>(messages: impl DoubleEndedIterator<Item = &'a Message>) -> Option<Message> {
    messages.rev().max_by_key(|message| message.priority).copied()
}

/// The lowest place that no message has.
fn free_place(list: &[Message]) -> usize {
    (0..).find(|place| list.iter().all(|message| message.place != *place)).unwrap()
}

// ---------------------------------------------------------------------------------------------
// The rules

impl Station {
    pub fn new(ring: Ring, own: usize) -> Station {
        Station {
            live: vec![true; ring.addresses.len()],
            ring,
            own,
            state: State::Offline,
            send: Vec::new(),
            receive: Vec::new(),
            handled: None,
            awaited: None,
            retries: 0,
            lost: 0,
            given_up: 0,
        }
    }

    fn members(&self) -> usize {
        self.ring.addresses.len()
    }

    /// The next live one in ring order, cyclically; this one if there is no other.
    fn successor(&self) -> usize {
        let ahead = (1..self.members()).map(|steps| (self.own + steps) % self.members());
        ahead.into_iter().find(|position| self.live[*position]).unwrap_or(self.own)
    }

    /// The message in flight.
    fn in_flight(&self) -> Option<Message> {
        match self.awaited?.kind {
            Kind::Information(message) => Some(message),
            _ => None,
        }
    }

    /// The messages of the send list that wait, in order of acceptance.
    pub fn waiting(&self) -> impl DoubleEndedIterator<Item = &Message> {
        let in_flight = self.in_flight().map(|message| message.place);
        self.send.iter().filter(move |message| Some(message.place) != in_flight)
    }

    pub fn head(&self) -> Option<Message> {
        best(self.waiting())
    }

    fn head_priority(&self) -> u8 {
        self.head().map_or(0, |message| message.priority)
    }

    fn to(&self, to: usize, number: u16, kind: Kind) -> Frame {
        Frame { from: self.own, to, number, kind }
    }

    /// A round that starts: the token to the successor.
    fn round(&self, number: u16, failing: Option<usize>) -> Frame {
        let priority = self.head_priority();
        let kind = Kind::Token { priority, master: self.own, failing, named: self.own };
        self.to(self.successor(), number, kind)
    }

    /// Told to send: the head, or with no head a round.
    fn send_head(&self, number: u16) -> Frame {
        match self.head() {
            Some(message) => self.to(message.other, number, Kind::Information(message)),
            None => self.round(number, None),
        }
    }

    fn wait_for(&mut self, frame: Frame) -> Option<Frame> {
        self.state = State::Waiting;
        self.retries = 0;
        self.awaited = Some(frame);
        Some(frame)
    }

    /// Takes out of the send list what suits, in order of acceptance.
    fn leave(&mut self, suits: impl Fn(&Message) -> bool) -> Vec<Message> {
        let (leaving, staying) = self.send.iter().partition(|message| suits(message));
        self.send = staying;
        leaving
    }

    /// The message in flight leaves.
    fn leave_flight(&mut self) -> Vec<Message> {
        let in_flight = self.in_flight();
        self.leave(|message| Some(*message) == in_flight)
    }

    /// The waiting messages to a station leave.
    fn leave_to(&mut self, position: usize) -> Vec<Message> {
        let in_flight = self.in_flight();
        self.leave(|message| message.other == position && Some(*message) != in_flight)
    }

    /// Out of the live set; gives the station if it was there.
    fn strike(&mut self, position: usize) -> Option<usize> {
        std::mem::replace(&mut self.live[position], false).then_some(position)
    }

    fn is_alone(&self) -> bool {
        self.successor() == self.own
    }

    fn count(&mut self, given_up: &[Message]) {
        self.given_up = self.given_up.saturating_add(given_up.len() as u32);
    }

    /// Excluded or Alone: a message in flight is given up, and no frame is awaited.
    fn stop(&mut self, state: State, answer: &mut Answer) {
        answer.given_up.extend(self.leave_flight());
        self.count(&answer.given_up);
        self.state = state;
        self.awaited = None;
    }

    pub fn start(&mut self) -> Answer {
        let mut answer = Answer::default();
        if self.own == 0 {
            answer.frame = self.wait_for(self.round(0, None));
        } else {
            self.state = State::Idle;
        }
        answer
    }

    /// A heard frame, after its checks. The page's numbers stand beside the steps.
    pub fn frame(&mut self, heard: &Frame) -> Answer {
        let mut answer = Answer::default();
        // 2
        if let Some(own) = self.awaited {
            let ahead = heard.number.wrapping_sub(own.number);
            if (1..=32_767).contains(&ahead) {
                self.leave_flight();
                self.awaited = None;
                self.state = State::Idle;
            }
        }
        // 3
        if let Kind::Token { failing: Some(failing), .. } = heard.kind {
            answer.struck = self.strike(failing);
            if failing == self.own {
                self.stop(State::Excluded, &mut answer);
                return answer;
            }
            answer.given_up = self.leave_to(failing);
            if self.is_alone() {
                self.stop(State::Alone, &mut answer);
                return answer;
            }
            self.count(&answer.given_up);
        }
        // 4
        let handled = self.handled == Some(heard.number);
        if heard.to != self.own || handled || self.state == State::Waiting {
            return answer;
        }
        // 5
        self.handled = Some(heard.number);
        if let Kind::Information(message) = heard.kind {
            if self.receive.len() == MESSAGES {
                self.lost = self.lost.saturating_add(1);
            } else {
                let place = free_place(&self.receive);
                let stored = Message { other: heard.from, place, ..message };
                self.receive.push(stored);
                answer.stored = Some(stored);
            }
        }
        answer.frame = self.wait_for(self.reply(heard));
        answer
    }

    /// The frame that a handled one is followed by.
    fn reply(&self, heard: &Frame) -> Frame {
        let number = heard.number.wrapping_add(1);
        match heard.kind {
            Kind::Information(_) => self.round(number, None),
            Kind::Transmit { .. } => self.send_head(number),
            Kind::Token { priority, master, named, .. } if master == self.own => {
                if priority == 0 {
                    self.round(number, None)
                } else if named == self.own {
                    self.send_head(number)
                } else if self.live[named] {
                    self.to(named, number, Kind::Transmit { priority, master, named })
                } else {
                    self.round(number, None)
                }
            }
            Kind::Token { master, .. } if !self.live[master] => self.round(number, None),
            Kind::Token { mut priority, master, failing, mut named } => {
                if !self.live[named] {
                    (priority, named) = (self.head_priority(), self.own);
                }
                if self.head_priority() > priority {
                    (priority, named) = (self.head_priority(), self.own);
                }
                let kind = Kind::Token { priority, master, failing, named };
                self.to(self.successor(), number, kind)
            }
        }
    }

    /// The timer while the station waits for this frame's acknowledgement.
    pub fn timer(&mut self, own: Frame) -> Answer {
        let mut answer = Answer::default();
        if u64::from(self.retries) < self.ring.retry_limit {
            self.retries += 1;
            answer.frame = Some(own);
            return answer;
        }
        answer.struck = self.strike(own.to);
        answer.given_up = self.leave_to(own.to);
        if self.is_alone() {
            self.stop(State::Alone, &mut answer);
            return answer;
        }
        answer.given_up.extend(self.leave_flight());
        self.awaited = None;
        self.count(&answer.given_up);
        let number = own.number.wrapping_add(1);
        let next = match own.kind {
            Kind::Token { mut priority, master, mut named, .. }
                if master != self.own && self.live[master] =>
            {
                if named == own.to {
                    (priority, named) = (self.head_priority(), self.own);
                }
                let kind = Kind::Token { priority, master, failing: Some(own.to), named };
                self.to(self.successor(), number, kind)
            }
            _ => self.round(number, Some(own.to)),
        };
        answer.frame = self.wait_for(next);
        answer
    }

    /// Queues a message to a position, or refuses it.
    pub fn queue(
        &mut self,
        to: Option<usize>,
        priority: usize,
        channel: usize,
        length: usize,
    ) -> Result<Message, u32> {
        let other = to.filter(|to| *to != self.own);
        let refusals = [
            (!(1..=255).contains(&priority), 14),
            (other.is_none(), 15),
            (other.is_some_and(|to| !self.live[to]), 16),
            (channel > 7, 17),
            (other.is_some_and(|to| channel < 8 && !self.ring.open[to][channel]), 28),
            (length > PLACE, 18),
            (self.send.len() == MESSAGES, 19),
        ];
        if let Some((_, number)) = refusals.into_iter().find(|(holds, _)| *holds) {
            return Err(number);
        }
        let place = free_place(&self.send);
        let (priority, channel) = (priority as u8, channel as u8);
        let message = Message { other: other.unwrap(), priority, channel, place, length };
        self.send.push(message);
        Ok(message)
    }

    /// Takes the best message of a channel, or refuses to.
    pub fn take(&mut self, channel: usize, room: usize) -> Result<Message, u32> {
        if channel > 7 {
            return Err(17);
        }
        let on_channel = |message: &&Message| usize::from(message.channel) == channel;
        let message = best(self.receive.iter().filter(on_channel)).ok_or(20u32)?;
        if room < message.length {
            return Err(21);
        }
        self.receive.retain(|other| *other != message);
        Ok(message)
    }
}

// ---------------------------------------------------------------------------------------------
// The record

fn put_message(octets: &mut Vec<u8>, message: &Message) {
    put(octets, message.other as u64, 1);
    put(octets, message.priority.into(), 1);
    put(octets, message.channel.into(), 1);
    put(octets, message.place as u64, 1);
    put(octets, message.length as u64, 2);
}

fn put_list(octets: &mut Vec<u8>, list: &[Message]) {
    put(octets, list.len() as u64, 1);
    list.iter().for_each(|message| put_message(octets, message));
    (list.len()..MESSAGES).for_each(|_| put(octets, 0, 6));
}

fn put_awaited(octets: &mut Vec<u8>, awaited: &Option<Frame>) {
    let end = octets.len() + 13;
    if let Some(Frame { to, number, kind, .. }) = *awaited {
        let identifier = match kind {
            Kind::Token { .. } => 1,
            Kind::Transmit { .. } => 2,
            Kind::Information(_) => 3,
        };
        put(octets, identifier, 1);
        put(octets, to as u64, 1);
        put(octets, number.into(), 2);
        match kind {
            Kind::Token { priority, master, failing, named } => {
                put(octets, priority.into(), 1);
                put(octets, master as u64, 1);
                put(octets, failing.map_or(0, |position| position as u64 + 1), 2);
                put(octets, named as u64, 1);
            }
            Kind::Transmit { priority, master, named } => {
                put(octets, priority.into(), 1);
                put(octets, master as u64, 1);
                put(octets, 0, 2);
                put(octets, named as u64, 1);
            }
            Kind::Information(message) => {
                put(octets, message.priority.into(), 1);
                put(octets, 0, 4);
                put(octets, message.channel.into(), 1);
                put(octets, message.place as u64, 1);
                put(octets, message.length as u64, 2);
            }
        }
    }
    octets.resize(end, 0);
}

/// Reads octets one field after the other.
struct Fields<'a> {
    octets: &'a [u8],
    at: usize,
}

impl Fields<'_> {
    fn next(&mut self, count: usize) -> u64 {
        self.at += count;
        get(self.octets, self.at - count, count)
    }

    fn message(&mut self) -> Message {
        let [other, priority, channel, place, length] = [1, 1, 1, 1, 2].map(|n| self.next(n));
        Message {
            other: other as usize,
            priority: priority as u8,
            channel: channel as u8,
            place: place as usize,
            length: length as usize,
        }
    }

    /// A list of at most 16.
    fn list(&mut self) -> Option<Vec<Message>> {
        let count = self.next(1) as usize;
        let slots: Vec<Message> = (0..MESSAGES).map(|_| self.message()).collect();
        Some(slots.get(..count)?.to_vec())
    }

    fn awaited(&mut self, own: usize) -> Option<Option<Frame>> {
        let [identifier, to, number, priority, master, failing, named, channel, place, length] =
            [1, 1, 2, 1, 1, 2, 1, 1, 1, 2].map(|n| self.next(n));
        let (to, priority) = (to as usize, priority as u8);
        let (master, named) = (master as usize, named as usize);
        let kind = match identifier {
            0 => return Some(None),
            1 => {
                let failing = failing.checked_sub(1).map(|position| position as usize);
                Kind::Token { priority, master, failing, named }
            }
            2 => Kind::Transmit { priority, master, named },
            3 => Kind::Information(Message {
                other: to,
                priority,
                channel: channel as u8,
                place: place as usize,
                length: length as usize,
            }),
            _ => return None,
        };
        Some(Some(Frame { from: own, to, number: number as u16, kind }))
    }
}

impl Station {
    /// The octets behind the ring file's room.
    fn fields(&self) -> Vec<u8> {
        let mut octets = Vec::new();
        put(&mut octets, self.own as u64, 1);
        put(&mut octets, self.state as u64, 1);
        put(&mut octets, self.retries.into(), 1);
        put(&mut octets, self.handled.is_some().into(), 1);
        put(&mut octets, self.handled.unwrap_or(0).into(), 2);
        put_awaited(&mut octets, &self.awaited);
        put(&mut octets, self.lost.into(), 4);
        put(&mut octets, self.given_up.into(), 4);
        (0..64).for_each(|position| {
            let live = self.live.get(position).copied().unwrap_or(false);
            put(&mut octets, live.into(), 1);
        });
        put_list(&mut octets, &self.send);
        put_list(&mut octets, &self.receive);
        octets
    }

    /// The record of a station on a ring with this file.
    fn record(&self, file: &[u8]) -> Vec<u8> {
        let mut octets = file.to_vec();
        octets.resize(FILE, 0);
        octets.extend(self.fields());
        octets
    }

    /// The station that a record says, if there is one, and the ring file in it.
    fn said(record: &[u8]) -> Option<(Station, &[u8])> {
        if record.len() != RECORD {
            return None;
        }
        let members = (get(record, 0, 2) >> 6 & 63) as usize + 1;
        let member_octets = if record[0] >> 4 == 2 { 7 } else { 6 };
        let file = &record[..2 + member_octets * members];
        let ring = super::read_ring(file).ok()?;
        let mut fields = Fields { octets: record, at: FILE };
        let own = fields.next(1) as usize;
        let state = match fields.next(1) {
            0 => State::Offline,
            1 => State::Idle,
            2 => State::Waiting,
            3 => State::Alone,
            4 => State::Excluded,
            _ => return None,
        };
        let retries = fields.next(1) as u8;
        let some = fields.next(1) == 1;
        let number = fields.next(2) as u16;
        let awaited = fields.awaited(own)?;
        let [lost, given_up] = [4, 4].map(|n| fields.next(n) as u32);
        let mut live: Vec<bool> = (0..64).map(|_| fields.next(1) == 1).collect();
        live.truncate(members);
        let send = fields.list()?;
        let receive = fields.list()?;
        let handled = some.then_some(number);
        #[rustfmt::skip]
        let station = Station {
            ring, own, state, live, send, receive, handled, awaited, retries, lost, given_up,
        };
        Some((station, file))
    }

    /// The station of a record that is whole, and the ring file in it.
    pub fn read(record: &[u8]) -> Option<(Station, &[u8])> {
        let (station, file) = Station::said(record)?;
        (station.is_whole() && station.record(file) == record).then_some((station, file))
    }

    fn is_member(&self, position: usize) -> bool {
        position < self.members()
    }

    /// "A record is whole if …", for all but its octets.
    fn is_whole(&self) -> bool {
        if !self.is_member(self.own) {
            return false;
        }
        let own = self.live[self.own];
        let others = self.live.iter().filter(|live| **live).count() - usize::from(own);
        let company = match self.state {
            State::Offline => own && others == self.members() - 1,
            State::Idle | State::Waiting => own && others > 0,
            State::Alone => own && others == 0,
            State::Excluded => !own,
        };
        company
            && self.is_good_list(&self.send)
            && self.is_good_list(&self.receive)
            && (self.state == State::Excluded || self.waiting().all(|m| self.live[m.other]))
            && u64::from(self.retries) <= self.ring.retry_limit
            && self.awaited.is_some() == (self.state == State::Waiting)
            && self.awaited.is_none_or(|frame| self.is_fit(&frame))
            && self.in_flight().is_none_or(|message| self.send.contains(&message))
    }

    fn is_good_list(&self, list: &[Message]) -> bool {
        let in_range = |m: &Message| {
            let place = m.place < MESSAGES && m.length <= PLACE;
            place
                && m.priority > 0
                && m.channel <= 7
                && self.is_member(m.other)
                && m.other != self.own
        };
        let own_place =
            |m: &Message| list.iter().filter(|other| other.place == m.place).count() == 1;
        list.iter().all(|message| in_range(message) && own_place(message))
    }

    /// An awaited frame goes to another member, and can be written.
    fn is_fit(&self, frame: &Frame) -> bool {
        let fit = match frame.kind {
            Kind::Token { master, failing, named, .. } => {
                let failing = failing.is_none_or(|failing| self.is_member(failing));
                self.is_member(master) && failing && self.is_member(named)
            }
            Kind::Transmit { priority, master, named } => {
                priority > 0 && self.is_member(master) && self.is_member(named)
            }
            // It is a message of the send list, which is good.
            Kind::Information(_) => true,
        };
        fit && self.is_member(frame.to) && frame.to != self.own
    }
}

// ---------------------------------------------------------------------------------------------
// The calls

fn number(done: Result<(), u32>) -> u32 {
    done.err().unwrap_or(0)
}

fn send_place(message: &Message) -> std::ops::Range<usize> {
    message.place * PLACE..message.place * PLACE + message.length
}

fn receive_place(message: &Message) -> std::ops::Range<usize> {
    let at = (MESSAGES + message.place) * PLACE;
    at..at + message.length
}

/// The frame of a packet that was heard.
fn frame_of(ring: &Ring, from: usize, to: usize, packet: &Packet) -> Frame {
    let position = |address: u64| ring.position(address).unwrap();
    let (number, kind) = match *packet {
        Packet::Token { priority, number, master, failing, named } => {
            let (master, named) = (position(master), position(named));
            (number, Kind::Token { priority, master, failing: failing.map(position), named })
        }
        Packet::TransmitToken { priority, number, master, named } => {
            (number, Kind::Transmit { priority, master: position(master), named: position(named) })
        }
        Packet::Information { priority, number, channel, information } => {
            let (channel, length) = (channel as u8, information.len());
            let message = Message { other: from, priority, channel, place: 0, length };
            (number, Kind::Information(message))
        }
    };
    Frame { from, to, number, kind }
}

/// The packet of a frame that is sent.
fn packet_of<'a>(ring: &Ring, frame: &Frame, store: &'a [u8]) -> Packet<'a> {
    let number = frame.number;
    let address = |position: usize| ring.addresses[position];
    match frame.kind {
        Kind::Token { priority, master, failing, named } => {
            let (master, named) = (address(master), address(named));
            Packet::Token { priority, number, master, failing: failing.map(address), named }
        }
        Kind::Transmit { priority, master, named } => {
            let (master, named) = (address(master), address(named));
            Packet::TransmitToken { priority, number, master, named }
        }
        Kind::Information(message) => {
            let (priority, channel) = (message.priority, message.channel.into());
            let information = &store[send_place(&message)];
            Packet::Information { priority, number, channel, information }
        }
    }
}

/// What an answer leaves in the record, in `out` and in the told numbers.
fn settle(
    station: &Station,
    answer: &Answer,
    record: &mut [u8],
    store: &[u8],
    out: &mut [u8],
    told: &mut [u64; 84],
) {
    record[FILE..].copy_from_slice(&station.fields());
    let address = |position: usize| station.ring.addresses[position];
    let mut numbers = vec![0, 0];
    if let Some(frame) = &answer.frame {
        let octets = packet_of(&station.ring, frame, store).octets();
        out[..octets.len()].copy_from_slice(&octets);
        numbers = vec![octets.len() as u64, address(frame.to)];
    }
    numbers.push(answer.struck.map_or(0, address));
    numbers.push(answer.given_up.len() as u64);
    for m in &answer.given_up {
        let (priority, channel) = (m.priority.into(), m.channel.into());
        numbers.extend([address(m.other), priority, channel, m.length as u64, m.place as u64]);
    }
    told[..numbers.len()].copy_from_slice(&numbers);
}

pub fn make(record: &mut [u8], file: &[u8], own: u64) -> u32 {
    number((|| {
        if record.len() != RECORD {
            return Err(35);
        }
        let ring = super::read_ring(file).map_err(|faults| faults[0].number())?;
        let own = ring.position(own).ok_or(8u32)?;
        record.copy_from_slice(&Station::new(ring, own).record(file));
        Ok(())
    })())
}

pub fn start(record: &mut [u8], out: &mut [u8], told: &mut [u64; 84]) -> u32 {
    number((|| {
        if out.len() < OUT {
            return Err(9);
        }
        let (mut station, _) = Station::read(record).ok_or(35u32)?;
        if station.state != State::Offline {
            return Err(23);
        }
        let answer = station.start();
        settle(&station, &answer, record, &[], out, told);
        Ok(())
    })())
}

pub fn frame(
    record: &mut [u8],
    store: &mut [u8],
    from: u64,
    to: u64,
    packet: &[u8],
    out: &mut [u8],
    told: &mut [u64; 84],
) -> u32 {
    number((|| {
        if store.len() != STORE || out.len() < OUT {
            return Err(9);
        }
        let (mut station, _) = Station::read(record).ok_or(35u32)?;
        if !matches!(station.state, State::Idle | State::Waiting) {
            return Err(22);
        }
        let from = station.ring.position(from).ok_or(13u32)?;
        let to = station.ring.position(to).ok_or(13u32)?;
        if from == to || !station.live[from] || from == station.own {
            return Err(13);
        }
        let members = &station.ring.addresses;
        let packet =
            super::read(members, packet).map_err(|_| super::read_answer(members, packet))?;
        let answer = station.frame(&frame_of(&station.ring, from, to, &packet));
        settle(&station, &answer, record, store, out, told);
        if let Some(message) = answer.stored {
            store[receive_place(&message)].copy_from_slice(packet.information());
        }
        Ok(())
    })())
}

pub fn timer(record: &mut [u8], store: &[u8], out: &mut [u8], told: &mut [u64; 84]) -> u32 {
    number((|| {
        if store.len() != STORE || out.len() < OUT {
            return Err(9);
        }
        let (mut station, _) = Station::read(record).ok_or(35u32)?;
        let answer = match (station.state, station.awaited) {
            (State::Waiting, Some(own)) => station.timer(own),
            (State::Idle, _) => Answer::default(),
            _ => return Err(22),
        };
        settle(&station, &answer, record, store, out, told);
        Ok(())
    })())
}

pub fn queue(
    record: &mut [u8],
    store: &mut [u8],
    to: u64,
    priority: usize,
    channel: usize,
    payload: &[u8],
) -> u32 {
    number((|| {
        if store.len() != STORE {
            return Err(9);
        }
        let (mut station, _) = Station::read(record).ok_or(35u32)?;
        if !matches!(station.state, State::Idle | State::Waiting) {
            return Err(22);
        }
        let to = station.ring.position(to);
        let message = station.queue(to, priority, channel, payload.len())?;
        record[FILE..].copy_from_slice(&station.fields());
        store[send_place(&message)].copy_from_slice(payload);
        Ok(())
    })())
}

pub fn take(
    record: &mut [u8],
    store: &[u8],
    channel: usize,
    room: &mut [u8],
    told: &mut [u64; 4],
) -> u32 {
    number((|| {
        if store.len() != STORE {
            return Err(9);
        }
        let (mut station, _) = Station::read(record).ok_or(35u32)?;
        let message = station.take(channel, room.len())?;
        record[FILE..].copy_from_slice(&station.fields());
        room[..message.length].copy_from_slice(&store[receive_place(&message)]);
        let sender = station.ring.addresses[message.other];
        let (priority, channel) = (message.priority.into(), message.channel.into());
        *told = [sender, priority, channel, message.length as u64];
        Ok(())
    })())
}
