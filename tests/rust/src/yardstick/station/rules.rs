//! The rules: what a station does and tells.

use super::record::{Frame, Kind, List, Message, State, Station};
use super::{MESSAGES, PLACE};
use crate::yardstick::codec::Packet;

/// A packet that was heard.
pub type Heard = Packet<u8, Option<u8>>;

/// What a call sends and tells, and the received message whose payload goes into the store.
pub struct Answer {
    pub frame: Option<Frame>,
    pub struck: Option<u8>,
    pub given_up: List,
    pub stored: Option<Message>,
}

impl Answer {
    pub fn nothing() -> Answer {
        Answer { frame: None, struck: None, given_up: List::new(), stored: None }
    }
}

impl Station {
    /// The next live station after this one; this one if no other is live.
    fn successor(&self) -> u8 {
        let own = usize::from(self.own);
        let next = (own + 1..self.ring.members).chain(0..own).find(|&position| self.live[position]);
        next.unwrap_or(own) as u8
    }

    fn is_live(&self, position: u8) -> bool {
        self.live[usize::from(position)]
    }

    /// The head. It is asked for only when no message is in flight.
    fn head(&self) -> Option<Message> {
        self.send.best(|_| true).map(|index| self.send.messages()[index])
    }

    /// The head's priority, 0 if none.
    fn head_priority(&self) -> u8 {
        self.head().map_or(0, |message| message.priority)
    }

    fn round(&self, number: u16, failing: Option<u8>) -> Frame {
        let priority = self.head_priority();
        let kind = Kind::Token { priority, master: self.own, failing, named: self.own };
        Frame { to: self.successor(), number, kind }
    }

    fn send_head(&self, number: u16) -> Frame {
        match self.head() {
            Some(message) => Frame { to: message.other, number, kind: Kind::Information(message) },
            None => self.round(number, None),
        }
    }

    fn wait_for(&mut self, frame: Frame, answer: &mut Answer) {
        self.state = State::Waiting;
        self.retries = 0;
        self.awaited = Some(frame);
        answer.frame = Some(frame);
    }

    /// Nothing is awaited any longer. The message that was in flight leaves the list.
    fn land(&mut self) -> Option<Message> {
        match self.awaited.take()?.kind {
            Kind::Information(message) => {
                let flies = |other: &Message| other.place == message.place;
                let index = self.send.messages().iter().position(flies)?;
                Some(self.send.leave(index))
            }
            _ => None,
        }
    }

    fn count_given_up(&mut self, answer: &Answer) {
        let count = answer.given_up.messages().len() as u32;
        self.given_up = self.given_up.saturating_add(count);
    }

    fn strike(&mut self, position: u8, answer: &mut Answer) {
        if self.is_live(position) {
            self.live[usize::from(position)] = false;
            answer.struck = Some(position);
        }
    }

    /// The waiting messages to a station leave, in order of acceptance.
    fn give_up_to(&mut self, position: u8, answer: &mut Answer) {
        let in_flight = match self.awaited {
            Some(Frame { kind: Kind::Information(message), .. }) => Some(message.place),
            _ => None,
        };
        self.send.part(
            |message| message.other != position || Some(message.place) == in_flight,
            &mut answer.given_up,
        );
    }

    /// Excluded or Alone: a message in flight is given up, and nothing more happens.
    fn stop(&mut self, state: State, answer: &mut Answer) {
        self.state = state;
        if let Some(message) = self.land() {
            answer.given_up.push(message);
        }
        self.count_given_up(answer);
    }

    pub fn start(&mut self) -> Answer {
        let mut answer = Answer::nothing();
        if self.own == 0 {
            self.wait_for(self.round(0, None), &mut answer);
        } else {
            self.state = State::Idle;
        }
        answer
    }

    /// Whether a frame passes it by: one to another, with nobody failing, while it waits for nothing.
    #[inline]
    pub fn is_bystander(&self, to: u8, heard: &Heard) -> bool {
        let fails = matches!(heard, Heard::Token { failing: Some(_), .. });
        to != self.own && !fails && self.awaited.is_none()
    }

    pub fn frame(&mut self, from: u8, to: u8, heard: &Heard) -> Answer {
        let mut answer = Answer::nothing();
        if let Some(frame) = self.awaited {
            let ahead = heard.number().wrapping_sub(frame.number);
            if ahead != 0 && ahead < 32_768 {
                self.state = State::Idle;
                self.land();
            }
        }
        if let Heard::Token { failing: Some(failing), .. } = *heard {
            self.strike(failing, &mut answer);
            if failing == self.own {
                self.stop(State::Excluded, &mut answer);
                return answer;
            }
            self.give_up_to(failing, &mut answer);
            if self.successor() == self.own {
                self.stop(State::Alone, &mut answer);
                return answer;
            }
            self.count_given_up(&answer);
        }
        if to != self.own || self.handled == Some(heard.number()) || self.state == State::Waiting {
            return answer;
        }
        self.handled = Some(heard.number());
        let number = heard.number().wrapping_add(1);
        let frame = match *heard {
            Heard::Token { priority, master, named, .. } if master == self.own => {
                if priority == 0 {
                    self.round(number, None)
                } else if named == self.own {
                    self.send_head(number)
                } else if self.is_live(named) {
                    let kind = Kind::Transmit { priority, master, named };
                    Frame { to: named, number, kind }
                } else {
                    self.round(number, None)
                }
            }
            Heard::Token { priority, master, failing, named, .. } => {
                if self.is_live(master) {
                    let own = (self.head_priority(), self.own);
                    let mut bid = (priority, named);
                    if !self.is_live(named) || own.0 > priority {
                        bid = own;
                    }
                    let kind = Kind::Token { priority: bid.0, master, failing, named: bid.1 };
                    Frame { to: self.successor(), number, kind }
                } else {
                    self.round(number, None)
                }
            }
            Heard::Transmit { .. } => self.send_head(number),
            Heard::Information { priority, channel, length, .. } => {
                if self.receive.messages().len() < MESSAGES {
                    let place = self.receive.join(from, priority, channel, length);
                    answer.stored = Some(Message { other: from, priority, channel, place, length });
                } else {
                    self.lost = self.lost.saturating_add(1);
                }
                self.round(number, None)
            }
        };
        self.wait_for(frame, &mut answer);
        answer
    }

    /// The timer while the station waits for this frame's acknowledgement.
    pub fn timer(&mut self, frame: Frame) -> Answer {
        let mut answer = Answer::nothing();
        if self.retries < self.ring.retry_limit {
            self.retries += 1;
            answer.frame = Some(frame);
            return answer;
        }
        let silent = frame.to;
        self.strike(silent, &mut answer);
        self.give_up_to(silent, &mut answer);
        if self.successor() == self.own {
            self.stop(State::Alone, &mut answer);
            return answer;
        }
        if let Some(message) = self.land() {
            answer.given_up.push(message);
        }
        self.count_given_up(&answer);
        let number = frame.number.wrapping_add(1);
        let next = match frame.kind {
            Kind::Token { priority, master, named, .. }
                if master != self.own && self.is_live(master) =>
            {
                let (priority, named) = if named == silent {
                    (self.head_priority(), self.own)
                } else {
                    (priority, named)
                };
                let kind = Kind::Token { priority, master, failing: Some(silent), named };
                Frame { to: self.successor(), number, kind }
            }
            _ => self.round(number, Some(silent)),
        };
        self.wait_for(next, &mut answer);
        answer
    }

    /// Whether the timer, while the station waits for this frame's acknowledgement, sends one: the same again, or
    /// one to another that is live.
    pub fn timer_sends(&self, frame: &Frame) -> bool {
        let others =
            (0..self.ring.members as u8).filter(|other| ![self.own, frame.to].contains(other));
        self.retries < self.ring.retry_limit || others.into_iter().any(|other| self.is_live(other))
    }

    /// Frame and queue run in these states.
    #[inline]
    pub fn takes_part(&self) -> bool {
        matches!(self.state, State::Idle | State::Waiting)
    }

    /// Puts a message to a position at the end of the send list and gives its place; or its refusal.
    #[inline]
    pub fn queue(
        &mut self,
        to: Option<u8>,
        priority: usize,
        channel: usize,
        length: usize,
    ) -> Result<u8, u32> {
        if !self.takes_part() {
            return Err(22);
        }
        if !(1..=255).contains(&priority) {
            return Err(14);
        }
        let to = match to {
            Some(to) if to != self.own => to,
            _ => return Err(15),
        };
        if !self.is_live(to) {
            return Err(16);
        }
        if channel > 7 {
            return Err(17);
        }
        if self.ring.open[usize::from(to)] << channel & 0x80 == 0 {
            return Err(28);
        }
        if length > PLACE {
            return Err(18);
        }
        if self.send.messages().len() == MESSAGES {
            return Err(19);
        }
        Ok(self.send.join(to, priority as u8, channel as u8, length as u16))
    }
}
