//! What the plain programs write: lines of words and numbers, in blocks.

use super::station::record::{Frame, Kind};
use std::io::{self, Write};

pub const BLOCK: usize = 1 << 16;
pub const HEADING: &str = "no kind from to prio octets\n";

/// No line is longer: a station's of the end, with 64 members, has at most this many octets.
const LINE: usize = 128;

/// What is written, and the block of it that is still to go.
pub struct Out<To> {
    to: To,
    block: Vec<u8>,
}

impl<To: Write> Out<To> {
    pub fn new(to: To) -> Out<To> {
        Out { to, block: Vec::with_capacity(BLOCK) }
    }

    pub fn flush(&mut self) -> io::Result<()> {
        self.to.write_all(&self.block)?;
        self.block.clear();
        Ok(())
    }

    fn make_room(&mut self) -> io::Result<()> {
        if self.block.len() + LINE > BLOCK {
            self.flush()?;
        }
        Ok(())
    }

    /// A line, or its beginning.
    pub fn text(&mut self, text: &str) -> io::Result<()> {
        self.make_room()?;
        self.more(text.as_bytes());
        Ok(())
    }

    pub fn refused(&mut self, refusal: u32) -> io::Result<()> {
        self.text("refused")?;
        self.number(refusal);
        self.end();
        Ok(())
    }

    pub fn struck(&mut self, station: u8, by: u8) -> io::Result<()> {
        self.text("struck")?;
        self.number(station.into());
        self.more(b" by");
        self.number(by.into());
        self.end();
        Ok(())
    }

    /// A frame with its sender.
    pub fn frame(&mut self, from: u8, frame: &Frame) -> io::Result<()> {
        self.make_room()?;
        let (kind, priority, octets) = match frame.kind {
            Kind::Token { priority, .. } => (b'T', priority, 72),
            Kind::Transmit { priority, .. } => (b'G', priority, 72),
            Kind::Information(message) => (b'I', message.priority, (34 + message.length).max(72)),
        };
        self.digits(frame.number.into());
        self.more(&[b' ', kind]);
        self.number(from.into());
        self.number(frame.to.into());
        self.number(priority.into());
        self.number(octets.into());
        self.end();
        Ok(())
    }

    /// More of the line.
    pub fn more(&mut self, octets: &[u8]) {
        self.block.extend_from_slice(octets);
    }

    pub fn end(&mut self) {
        self.block.push(b'\n');
    }

    pub fn number(&mut self, number: u32) {
        self.block.push(b' ');
        self.digits(number);
    }

    pub fn digits(&mut self, mut number: u32) {
        let mut digits = [b'0'; 10];
        let mut first = digits.len();
        loop {
            first -= 1;
            digits[first] += (number % 10) as u8;
            number /= 10;
            if number == 0 {
                break;
            }
        }
        self.block.extend_from_slice(&digits[first..]);
    }
}
