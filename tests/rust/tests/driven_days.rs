//! Recorded days driven over the proved calls, as drivers make them: packets in octets, addresses, a record and a store for each
//! station. What they send, strike and refuse, and what their records have at the end, is what the model of the day prints.

use rtep::days::{day, Seen};
use rtep::model::capture::{self, Event};
use rtep::model::day::MOST_FRAMES;
use rtep::model::station::{State, Station, OUT, RECORD, STORE};
use rtep::model::{read, read_ring, Packet, Ring};
use rtep::random::Random;
use std::collections::VecDeque;
use std::fmt::Write;

const SEED: u64 = 0x5254_4550_0000_0042;
const DAYS: usize = 1500;
/// A longer capture is left to the program's own test.
const LONGEST: usize = 5 * 400;

struct Driver {
    record: Vec<u8>,
    store: Vec<u8>,
}

/// A packet on the wire.
struct Flying {
    from: usize,
    to: usize,
    octets: Vec<u8>,
}

/// What a call did.
struct Done {
    number: u32,
    sent: Option<(usize, Vec<u8>)>,
    struck: Option<usize>,
}

struct Site {
    ring: Ring,
    drivers: Vec<Driver>,
    wire: VecDeque<Flying>,
    text: String,
}

impl Site {
    fn start(ring: Ring, file: &[u8]) -> Site {
        let make = |own: &u64| {
            let mut record = vec![0; RECORD];
            assert_eq!(rtep::make(&mut record, file, *own), 0);
            Driver { record, store: vec![0; STORE] }
        };
        let drivers = ring.addresses.iter().map(make).collect();
        let text = String::from("no kind from to prio octets\n");
        let mut site = Site { ring, drivers, wire: VecDeque::new(), text };
        for own in (0..site.drivers.len()).rev() {
            let done =
                site.call(own, |driver, out, told| rtep::start(&mut driver.record, out, told));
            site.sends(own, done.sent);
        }
        site
    }

    /// A call of a station, and what it tells in positions.
    fn call(
        &mut self,
        own: usize,
        call: impl FnOnce(&mut Driver, &mut [u8], &mut [u64; 84]) -> u32,
    ) -> Done {
        let (mut out, mut told) = (vec![0; OUT], [0; 84]);
        let number = call(&mut self.drivers[own], &mut out, &mut told);
        let position = |address: u64| self.ring.position(address);
        let sent = position(told[1]).map(|to| (to, out[..told[0] as usize].to_vec()));
        Done { number, sent, struck: position(told[2]) }
    }

    /// A frame joins the end of the wire and is printed.
    fn sends(&mut self, from: usize, sent: Option<(usize, Vec<u8>)>) {
        let Some((to, octets)) = sent else { return };
        let packet = read(&self.ring.addresses, &octets).expect("a packet of a station reads");
        let (number, kind, priority) = match packet {
            Packet::Token { number, priority, .. } => (number, 'T', priority),
            Packet::TransmitToken { number, priority, .. } => (number, 'G', priority),
            Packet::Information { number, priority, .. } => (number, 'I', priority),
        };
        writeln!(self.text, "{number} {kind} {from} {to} {priority} {}", packet.wire()).unwrap();
        self.wire.push_back(Flying { from, to, octets });
    }

    fn strikes(&mut self, by: usize, struck: Option<usize>) {
        if let Some(struck) = struck {
            writeln!(self.text, "struck {struck} by {by}").unwrap();
        }
    }

    fn take(&mut self, hears: impl Fn(usize, &Flying) -> bool) {
        let Some(heard) = self.wire.pop_front() else { return };
        let [from, to] = [heard.from, heard.to].map(|position| self.ring.addresses[position]);
        let mut answer = None;
        for own in 0..self.drivers.len() {
            if own == heard.from || !hears(own, &heard) {
                continue;
            }
            let done = self.call(own, |driver, out, told| {
                let Driver { record, store } = driver;
                rtep::frame(record, store, from, to, &heard.octets, out, told)
            });
            assert!(
                [0, 13, 22].contains(&rtep::number(done.number)),
                "a frame of a station gets {}",
                rtep::number(done.number)
            );
            self.strikes(own, done.struck);
            if done.sent.is_some() {
                assert!(own == heard.to && answer.is_none(), "another than the addressee answers");
                answer = done.sent;
            }
        }
        self.sends(heard.to, answer);
    }

    /// False where the timer would send a frame too many.
    fn timer(&mut self, own: usize) -> bool {
        let before = self.drivers[own].record.clone();
        let done = self.call(own, |driver, out, told| {
            rtep::timer(&mut driver.record, &driver.store, out, told)
        });
        if done.sent.is_some() && self.wire.len() == MOST_FRAMES {
            self.drivers[own].record = before;
            return false;
        }
        self.strikes(own, done.struck);
        self.sends(own, done.sent);
        true
    }

    /// The number that a record is refused with; 0 for none.
    fn apply(&mut self, octets: &[u8]) -> u32 {
        match capture::event(octets, self.drivers.len()) {
            Err(number) => return number,
            Ok(Event::Delivered) => self.take(|_, _| true),
            Ok(Event::LostForAddressee) => self.take(|own, heard| own != heard.to),
            Ok(Event::LostForAll) => self.take(|_, _| false),
            Ok(Event::Timer { station }) if self.timer(station) => {}
            Ok(Event::Timer { .. }) => return 36,
            Ok(Event::Queue { station, destination, priority, channel, length }) => {
                let to = self.ring.addresses[destination];
                let done = self.call(station, |driver, _, _| {
                    let Driver { record, store } = driver;
                    rtep::queue(record, store, to, priority, channel, &vec![0; length])
                });
                if done.number != 0 {
                    writeln!(self.text, "refused {}", done.number).unwrap();
                }
            }
        }
        0
    }

    fn end(mut self) -> String {
        self.text += "station state live send receive lost given-up\n";
        for (own, driver) in self.drivers.iter().enumerate() {
            let (station, _) = Station::read(&driver.record).expect("a station's record is whole");
            assert_ne!(station.state, State::Offline);
            let live: String =
                station.live.iter().map(|live| u8::from(*live).to_string()).collect();
            let (send, receive) = (station.send.len(), station.receive.len());
            let Station { state, lost, given_up, .. } = station;
            writeln!(self.text, "{own} {state:?} {live} {send} {receive} {lost} {given_up}")
                .unwrap();
        }
        self.text
    }
}

/// What the calls print of a good ring file and a capture of a good length.
fn driven(file: &[u8], capture: &[u8]) -> String {
    let mut site = Site::start(read_ring(file).expect("a good ring"), file);
    for (at, octets) in capture.chunks(capture::RECORD).enumerate() {
        let number = site.apply(octets);
        if number != 0 {
            writeln!(site.text, "stopped {number} at {at}").unwrap();
            break;
        }
    }
    site.end()
}

#[test]
fn the_proved_calls_do_what_the_model_prints() {
    let mut random = Random::new(SEED);
    let mut seen = Seen::default();
    let mut driven_days = 0;
    for _ in 0..DAYS {
        let made = day(&mut random);
        let text = seen.look(&made);
        if !text.starts_with("refused") && made.capture.len() <= LONGEST {
            assert!(driven(&made.ring, &made.capture) == text, "{text}");
            driven_days += 1;
        }
    }
    assert!(driven_days > DAYS / 2);
    println!("{driven_days} days driven over the calls, of {DAYS}: {}", seen.told());
}
