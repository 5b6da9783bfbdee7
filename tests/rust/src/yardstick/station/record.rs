//! The record: its octets read into a station, which is checked whole, and written back.

use super::{MESSAGES, PLACE, RECORD};
use crate::yardstick::codec::Ring;

// Where the fields lie.
const RING: usize = 450;
const OWN: usize = 450;
const STATE: usize = 451;
const RETRIES: usize = 452;
const HANDLED: usize = 453;
const AWAITED: usize = 456;
const LOST: usize = 469;
const GIVEN_UP: usize = 473;
const LIVE: usize = 477;
const SEND: usize = 541;
const RECEIVE: usize = 638;

const LIST: usize = 1 + 6 * MESSAGES;
const ZEROS: [u8; RING] = [0; RING];

fn zero(octets: &[u8]) -> bool {
    *octets == ZEROS[..octets.len()]
}

#[derive(Clone, Copy, PartialEq, Eq)]
pub enum State {
    Offline,
    Idle,
    Waiting,
    Alone,
    Excluded,
}

/// A message of a list. Its other end is the destination, or the sender.
#[derive(Clone, Copy, PartialEq, Eq)]
pub struct Message {
    pub other: u8,
    pub priority: u8,
    pub channel: u8,
    pub place: u8,
    pub length: u16,
}

/// Up to 16 messages in order of acceptance.
pub struct List {
    count: usize,
    slots: [Message; MESSAGES],
}

impl List {
    pub fn new() -> List {
        let blank = Message { other: 0, priority: 0, channel: 0, place: 0, length: 0 };
        List { count: 0, slots: [blank; MESSAGES] }
    }

    pub fn messages(&self) -> &[Message] {
        &self.slots[..self.count]
    }

    /// Puts a message at the end. There is room for it.
    pub fn push(&mut self, message: Message) {
        self.slots[self.count] = message;
        self.count += 1;
    }

    /// Puts a message at the end, with the lowest free place, and gives the place. There is room.
    pub fn join(&mut self, other: u8, priority: u8, channel: u8, length: u16) -> u8 {
        let used = self.messages().iter().fold(0u16, |used, message| used | 1 << message.place);
        let place = used.trailing_ones() as u8;
        self.push(Message { other, priority, channel, place, length });
        place
    }

    /// Takes out one message; the others stay in order.
    pub fn leave(&mut self, index: usize) -> Message {
        let message = self.slots[index];
        self.slots.copy_within(index + 1..self.count, index);
        self.count -= 1;
        message
    }

    /// Takes out the messages that do not suit and puts them at the end of the other list.
    pub fn part(&mut self, stays: impl Fn(&Message) -> bool, others: &mut List) {
        let mut kept = 0;
        for index in 0..self.count {
            let message = self.slots[index];
            if stays(&message) {
                self.slots[kept] = message;
                kept += 1;
            } else {
                others.push(message);
            }
        }
        self.count = kept;
    }

    /// Where the best message stands that suits: the highest priority, the earliest among equals.
    pub fn best(&self, suits: impl Fn(&Message) -> bool) -> Option<usize> {
        let mut best: Option<usize> = None;
        for (index, message) in self.messages().iter().enumerate() {
            if suits(message) && best.is_none_or(|b| message.priority > self.slots[b].priority) {
                best = Some(index);
            }
        }
        best
    }

    /// Reads a list whose messages are in range and have their own places; `own` is not their
    /// other end.
    fn read(octets: &[u8], own: u8, members: usize) -> Option<List> {
        let (count, slots) = octets.split_first()?;
        let count = usize::from(*count);
        if count > MESSAGES || !zero(&slots[6 * count..]) {
            return None;
        }
        let mut list = List::new();
        let mut used = 0u16;
        for &[other, priority, channel, place, high, low] in slots[..6 * count].as_chunks::<6>().0 {
            let length = u16::from_be_bytes([high, low]);
            if usize::from(other) >= members
                || other == own
                || priority == 0
                || channel > 7
                || usize::from(place) >= MESSAGES
                || usize::from(length) > PLACE
                || used >> place & 1 == 1
            {
                return None;
            }
            used |= 1 << place;
            list.push(Message { other, priority, channel, place, length });
        }
        Some(list)
    }

    fn write(&self, octets: &mut [u8]) {
        octets[0] = self.count as u8;
        let (used, unused) = octets[1..].split_at_mut(6 * self.count);
        for (slot, message) in used.as_chunks_mut::<6>().0.iter_mut().zip(self.messages()) {
            let [high, low] = message.length.to_be_bytes();
            *slot = [message.other, message.priority, message.channel, message.place, high, low];
        }
        unused.fill(0);
    }
}

/// A frame of this station, with its addressee and its number.
#[derive(Clone, Copy)]
pub struct Frame {
    pub to: u8,
    pub number: u16,
    pub kind: Kind,
}

#[derive(Clone, Copy)]
pub enum Kind {
    Token {
        priority: u8,
        master: u8,
        failing: Option<u8>,
        named: u8,
    },
    Transmit {
        priority: u8,
        master: u8,
        named: u8,
    },
    /// The message goes to the addressee.
    Information(Message),
}

impl Frame {
    /// Reads the awaited frame: none, or one that is fit to write and goes to another member.
    fn read(octets: &[u8; 13], own: u8, members: usize) -> Option<Option<Frame>> {
        let [kind, to, n0, n1, priority, master, f0, f1, named, channel, place, l0, l1] = *octets;
        if kind == 0 {
            return zero(octets).then_some(None);
        }
        let member = |position: u8| usize::from(position) < members;
        let number = u16::from_be_bytes([n0, n1]);
        let failing = u16::from_be_bytes([f0, f1]);
        let length = u16::from_be_bytes([l0, l1]);
        if !member(to) || to == own {
            return None;
        }
        let kind = match kind {
            1 | 2 => {
                if !member(master) || !member(named) || (channel, place, length) != (0, 0, 0) {
                    return None;
                }
                if kind == 1 {
                    if usize::from(failing) > members {
                        return None;
                    }
                    let failing = failing.checked_sub(1).map(|position| position as u8);
                    Kind::Token { priority, master, failing, named }
                } else {
                    if failing != 0 || priority == 0 {
                        return None;
                    }
                    Kind::Transmit { priority, master, named }
                }
            }
            // That its numbers are in range follows: it is a message of the send list.
            3 if (master, failing, named) == (0, 0, 0) => {
                Kind::Information(Message { other: to, priority, channel, place, length })
            }
            _ => return None,
        };
        Some(Some(Frame { to, number, kind }))
    }

    fn write(frame: Option<Frame>, octets: &mut [u8; 13]) {
        let Some(frame) = frame else {
            *octets = [0; 13];
            return;
        };
        let to = frame.to;
        let [n0, n1] = frame.number.to_be_bytes();
        *octets = match frame.kind {
            Kind::Token { priority, master, failing, named } => {
                let failing = failing.map_or(0, |position| u16::from(position) + 1);
                let [f0, f1] = failing.to_be_bytes();
                [1, to, n0, n1, priority, master, f0, f1, named, 0, 0, 0, 0]
            }
            Kind::Transmit { priority, master, named } => {
                [2, to, n0, n1, priority, master, 0, 0, named, 0, 0, 0, 0]
            }
            Kind::Information(Message { priority, channel, place, length, .. }) => {
                let [l0, l1] = length.to_be_bytes();
                [3, to, n0, n1, priority, 0, 0, 0, 0, channel, place, l0, l1]
            }
        };
    }
}

/// What every frame is held against stands first, in one line of the cache.
#[repr(C)]
pub struct Station {
    pub own: u8,
    pub state: State,
    pub retries: u8,
    pub handled: Option<u16>,
    pub awaited: Option<Frame>,
    pub live: [bool; 64],
    pub lost: u32,
    pub given_up: u32,
    pub send: List,
    pub receive: List,
    pub ring: Ring,
}

/// A call by itself: reading a record stays small.
#[inline(never)]
fn ring_of(file: &[u8]) -> Option<Ring> {
    Ring::read(file).ok()
}

/// Writes the record of a station that is made.
pub fn make(record: &mut [u8; RECORD], file: &[u8], own: u8, members: usize) {
    record[..file.len()].copy_from_slice(file);
    record[file.len()..].fill(0);
    record[OWN] = own;
    record[LIVE..LIVE + members].fill(1);
}

impl Station {
    /// A station that is made.
    pub fn new(ring: Ring, own: u8) -> Station {
        let mut live = [false; 64];
        live[..ring.members].fill(true);
        Station {
            ring,
            own,
            state: State::Offline,
            retries: 0,
            handled: None,
            awaited: None,
            lost: 0,
            given_up: 0,
            live,
            send: List::new(),
            receive: List::new(),
        }
    }

    /// The station of a record, if it is whole.
    pub fn read(record: &mut [u8]) -> Option<(&mut [u8; RECORD], Station)> {
        let record: &mut [u8; RECORD] = record.try_into().ok()?;
        let members = usize::from(u16::from_be_bytes([record[0], record[1]]) >> 6 & 63) + 1;
        let octets = if record[0] >> 4 == 2 { 7 } else { 6 };
        let (file, after) = record[..RING].split_at(2 + octets * members);
        let ring = ring_of(file)?;
        if !zero(after) {
            return None;
        }
        let own = record[OWN];
        if usize::from(own) >= members {
            return None;
        }
        let state = match record[STATE] {
            0 => State::Offline,
            1 => State::Idle,
            2 => State::Waiting,
            3 => State::Alone,
            4 => State::Excluded,
            _ => return None,
        };
        let retries = record[RETRIES];
        if retries > ring.retry_limit {
            return None;
        }
        let handled = match [record[HANDLED], record[HANDLED + 1], record[HANDLED + 2]] {
            [0, 0, 0] => None,
            [1, high, low] => Some(u16::from_be_bytes([high, low])),
            _ => return None,
        };
        let lost = u32::from_be_bytes(record[LOST..LOST + 4].try_into().unwrap());
        let given_up = u32::from_be_bytes(record[GIVEN_UP..GIVEN_UP + 4].try_into().unwrap());

        let octets: &[u8; 64] = record[LIVE..LIVE + 64].try_into().unwrap();
        let alive = octets.iter().map(|octet| u32::from(*octet)).sum::<u32>() as usize;
        if octets.iter().fold(0, |all, octet| all | octet) > 1 || !zero(&octets[members..]) {
            return None;
        }
        let live = octets.map(|octet| octet == 1);
        let company = match state {
            State::Offline => alive == members,
            State::Idle | State::Waiting => live[usize::from(own)] && alive > 1,
            State::Alone => live[usize::from(own)] && alive == 1,
            State::Excluded => !live[usize::from(own)],
        };
        if !company {
            return None;
        }

        let send = List::read(&record[SEND..SEND + LIST], own, members)?;
        let receive = List::read(&record[RECEIVE..RECEIVE + LIST], own, members)?;
        let awaited = record[AWAITED..AWAITED + 13].try_into().unwrap();
        let awaited = Frame::read(awaited, own, members)?;
        if awaited.is_some() != (state == State::Waiting) {
            return None;
        }
        let in_flight = match awaited {
            Some(Frame { kind: Kind::Information(message), .. }) => {
                if !send.messages().contains(&message) {
                    return None;
                }
                Some(message.place)
            }
            _ => None,
        };
        let waits = |message: &Message| in_flight != Some(message.place);
        let goes = |message: &Message| live[usize::from(message.other)];
        if state != State::Excluded && !send.messages().iter().all(|m| goes(m) || !waits(m)) {
            return None;
        }
        let station = Station {
            ring,
            own,
            state,
            retries,
            handled,
            awaited,
            lost,
            given_up,
            live,
            send,
            receive,
        };
        Some((record, station))
    }

    /// Writes back what can change.
    pub fn write(&self, record: &mut [u8; RECORD]) {
        record[STATE] = self.state as u8;
        record[RETRIES] = self.retries;
        record[HANDLED] = self.handled.is_some().into();
        record[HANDLED + 1..HANDLED + 3].copy_from_slice(&self.handled.unwrap_or(0).to_be_bytes());
        Frame::write(self.awaited, (&mut record[AWAITED..AWAITED + 13]).try_into().unwrap());
        record[LOST..LOST + 4].copy_from_slice(&self.lost.to_be_bytes());
        record[GIVEN_UP..GIVEN_UP + 4].copy_from_slice(&self.given_up.to_be_bytes());
        record[LIVE..LIVE + 64].copy_from_slice(&self.live.map(u8::from));
        self.send.write(&mut record[SEND..SEND + LIST]);
        self.receive.write(&mut record[RECEIVE..RECEIVE + LIST]);
    }
}
