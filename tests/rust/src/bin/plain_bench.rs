//! The bench of the rule book in plain Rust, written from the page alone: the same script on standard
//! input, the same lines on standard output. Its stations are those of `rtep::yardstick`.

use rtep::yardstick::out::{Out, BLOCK, HEADING};
use rtep::yardstick::ring::Ring;
use std::io::{self, BufRead, BufReader};

/// No good line is longer: `queue` and five numbers of five digits.
const LONGEST_LINE: usize = 35;

fn main() -> io::Result<()> {
    let mut session = Session { ring: None, out: Out::new(io::stdout()) };
    let mut input = BufReader::with_capacity(BLOCK, io::stdin().lock());
    // The line being read, as far as the blocks before have it; one octet too long if it is too long.
    let mut begun: Vec<u8> = Vec::with_capacity(LONGEST_LINE + 1);
    loop {
        let block = input.fill_buf()?;
        if block.is_empty() {
            break;
        }
        let length = block.len();
        let mut rest = block;
        while let Some(end) = rest.iter().position(|&octet| octet == b'\n') {
            if begun.is_empty() {
                session.obey(&rest[..end])?;
            } else {
                join(&mut begun, &rest[..end]);
                session.obey(&begun)?;
                begun.clear();
            }
            rest = &rest[end + 1..];
        }
        join(&mut begun, rest);
        input.consume(length);
    }
    if !begun.is_empty() {
        session.obey(&begun)?;
    }
    session.out.flush()
}

fn join(begun: &mut Vec<u8>, part: &[u8]) {
    let room = LONGEST_LINE + 1 - begun.len();
    begun.extend_from_slice(&part[..part.len().min(room)]);
}

enum Line {
    Ring(u16),
    Queue { from: u16, to: u16, priority: u16, channel: u16, length: u16 },
    Step(u16),
}

impl Line {
    fn read(line: &[u8]) -> Option<Line> {
        let mut words = line.split(|&octet| octet == b' ');
        let word = words.next()?;
        let mut next = || number(words.next()?);
        let read = match word {
            b"ring" => Line::Ring(next()?),
            b"queue" => Line::Queue {
                from: next()?,
                to: next()?,
                priority: next()?,
                channel: next()?,
                length: next()?,
            },
            b"step" => Line::Step(next()?),
            _ => return None,
        };
        words.next().is_none().then_some(read)
    }
}

/// 1 to 5 digits, at most 65,535.
fn number(word: &[u8]) -> Option<u16> {
    if !(1..=5).contains(&word.len()) || !word.iter().all(u8::is_ascii_digit) {
        return None;
    }
    let value = word.iter().fold(0, |value, digit| 10 * value + u32::from(digit - b'0'));
    u16::try_from(value).ok()
}

struct Session {
    ring: Option<Ring>,
    out: Out<io::Stdout>,
}

impl Session {
    fn obey(&mut self, line: &[u8]) -> io::Result<()> {
        match (Line::read(line), &mut self.ring) {
            (Some(Line::Ring(members @ 2..=64)), None) => {
                let ring = Ring::start(members as u8);
                self.out.text(HEADING)?;
                self.out.frame(ring.from, &ring.wire)?;
                self.ring = Some(ring);
                Ok(())
            }
            (Some(Line::Queue { from, to, priority, channel, length }), Some(ring)) => {
                match ring.queue(from, to, priority, channel, length) {
                    Ok(()) => Ok(()),
                    Err(refusal) => self.out.refused(refusal),
                }
            }
            (Some(Line::Step(count)), Some(ring)) => {
                for _ in 0..count {
                    ring.step();
                    self.out.frame(ring.from, &ring.wire)?;
                }
                Ok(())
            }
            _ => self.out.text("bad line\n"),
        }
    }
}
