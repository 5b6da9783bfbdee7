//! Times the proved station calls beside `rtep::yardstick::station`, the same calls written in Rust by hand. Not
//! a test: it refuses no time.
//!
//! Both sides keep the same record in a buffer, make the same checks, and get the same inputs. Each
//! stands behind exactly one call that is not inlined. They take turns in many short rounds; before
//! each round every record is set to what it was, outside the time, and the best time per call of
//! each side counts. A word after the program's name runs only the rows that have it.

use rtep::model::{ring_file, Packet};
use rtep::random::Random;
use rtep::yardstick::station::{self, MESSAGES, OUT, PLACE, RECORD, STORE};
use std::hint::black_box;
use std::time::Instant;

const SEED: u64 = 0x5254_4550_0000_0021;
const ROUNDS: usize = 4000;
/// Calls of a round, each on a record of its own.
const CALLS: usize = 32;

// Where the record has what is set here by hand.
const OWN: usize = 450;
const STATE: usize = 451;
const LIVE: usize = 477;
const SEND: usize = 541;
const RECEIVE: usize = 638;
const IDLE: u8 = 1;

#[derive(Clone)]
enum Call {
    Make { file: Vec<u8>, own: u64 },
    Start,
    Frame { from: u64, to: u64, packet: Vec<u8> },
    Timer,
    Queue { to: u64, payload: Vec<u8> },
    Take,
}

/// What a side's calls are lent besides the record.
struct Lent {
    store: Vec<u8>,
    out: [u8; OUT],
    room: [u8; PLACE],
    told: [u64; 84],
    taken: [u64; 4],
}

impl Lent {
    fn new(random: &mut Random) -> Lent {
        Lent {
            store: random.octets(STORE),
            out: [0; OUT],
            room: [0; PLACE],
            told: [0; 84],
            taken: [0; 4],
        }
    }
}

macro_rules! on_side {
    ($side:path, $call:expr, $record:expr, $lent:expr) => {{
        use $side as side;
        let (record, lent) = (black_box($record), black_box($lent));
        match $call {
            Call::Make { file, own } => side::make(record, file, *own),
            Call::Start => side::start(record, &mut lent.out, &mut lent.told),
            Call::Frame { from, to, packet } => side::frame(
                record,
                &mut lent.store,
                *from,
                *to,
                packet,
                &mut lent.out,
                &mut lent.told,
            ),
            Call::Timer => side::timer(record, &lent.store, &mut lent.out, &mut lent.told),
            Call::Queue { to, payload } => side::queue(record, &mut lent.store, *to, 9, 3, payload),
            Call::Take => side::take(record, &lent.store, 3, &mut lent.room, &mut lent.taken),
        }
    }};
}

fn on_library(call: &Call, record: &mut [u8], lent: &mut Lent) -> u32 {
    on_side!(rtep, call, record, lent)
}

fn on_plain(call: &Call, record: &mut [u8], lent: &mut Lent) -> u32 {
    on_side!(station, call, record, lent)
}

/// A ring with its file; R is 1.
struct Ring {
    file: Vec<u8>,
    addresses: Vec<u64>,
}

impl Ring {
    fn new(random: &mut Random, members: usize) -> Ring {
        let mut addresses = Vec::new();
        while addresses.len() < members {
            let address = random.next() >> 16 & !(1 << 40);
            if address != 0 && !addresses.contains(&address) {
                addresses.push(address);
            }
        }
        Ring { file: ring_file(1, members as u64 - 1, 1, 0, &addresses), addresses }
    }

    /// A record with so many messages in each list, of `length` octets on channel 3: to and from
    /// stations 0 and 2 by turns (1 and 2 for station 0).
    fn record(&self, own: usize, state: u8, messages: usize, length: usize) -> [u8; RECORD] {
        let mut record = [0; RECORD];
        record[..self.file.len()].copy_from_slice(&self.file);
        record[OWN] = own as u8;
        record[STATE] = state;
        record[LIVE..LIVE + self.addresses.len()].fill(1);
        let others = if own == 0 { [1, 2] } else { [2, 0] };
        for list in [SEND, RECEIVE] {
            record[list] = messages as u8;
            for place in 0..messages {
                let [high, low] = (length as u16).to_be_bytes();
                let slot = list + 1 + 6 * place;
                let priority = 1 + place as u8 % 5;
                record[slot..slot + 6].copy_from_slice(&[
                    others[place % 2],
                    priority,
                    3,
                    place as u8,
                    high,
                    low,
                ]);
            }
        }
        record
    }

    fn frame(&self, from: usize, to: usize, packet: &Packet) -> Call {
        let packet = packet.octets();
        Call::Frame { from: self.addresses[from], to: self.addresses[to], packet }
    }

    /// A token of master 0, from station 0.
    fn token(&self, to: usize) -> Call {
        let first = self.addresses[0];
        let packet =
            Packet::Token { priority: 3, number: 77, master: first, failing: None, named: first };
        self.frame(0, to, &packet)
    }

    /// A transmit token from station 0 to station 1.
    fn transmit(&self) -> Call {
        let (master, named) = (self.addresses[0], self.addresses[1]);
        self.frame(0, 1, &Packet::TransmitToken { priority: 3, number: 77, master, named })
    }
}

/// What the record is after a call that is done.
fn after(record: [u8; RECORD], call: &Call, lent: &mut Lent) -> [u8; RECORD] {
    let mut record = record;
    assert_eq!(on_plain(call, &mut record, lent), 0);
    record
}

struct Bench {
    wanted: String,
    library: Lent,
    plain: Lent,
    highest: f64,
    logarithms: f64,
    rows: usize,
}

impl Bench {
    fn row(
        &mut self,
        what: &str,
        members: usize,
        messages: usize,
        call: &Call,
        number: u32,
        record: &[u8; RECORD],
    ) {
        if !what.contains(&self.wanted) {
            return;
        }
        let Bench { library, plain, .. } = self;
        // Both sides do the same before they are timed.
        let (mut one, mut other) = (*record, *record);
        plain.store.copy_from_slice(&library.store);
        (plain.out, plain.room, plain.told, plain.taken) =
            (library.out, library.room, library.told, library.taken);
        let given = on_library(call, &mut one, library);
        assert_eq!(rtep::number(given), number, "{what}");
        assert_eq!(on_plain(call, &mut other, plain), given, "{what}");
        assert_eq!(one, other, "{what}");
        assert_eq!((library.out, library.room), (plain.out, plain.room), "{what}");
        assert_eq!((library.told, library.taken), (plain.told, plain.taken), "{what}");
        assert_eq!(library.store, plain.store, "{what}");

        let mut records = vec![*record; CALLS];
        let mut best = [f64::INFINITY; 2];
        for round in 0..2 * ROUNDS {
            records.fill(*record);
            let records = black_box(&mut records[..]);
            let start = Instant::now();
            if round % 2 == 0 {
                for record in records {
                    black_box(on_library(call, record, library));
                }
            } else {
                for record in records {
                    black_box(on_plain(call, record, plain));
                }
            }
            let time = start.elapsed().as_secs_f64() * 1e9 / CALLS as f64;
            best[round % 2] = best[round % 2].min(time);
        }
        let ratio = best[0] / best[1];
        println!(
            "{what:<40} {members:>7} {messages:>8} {:>8.1} {:>7.1} {ratio:>6.2}",
            best[0], best[1]
        );
        self.highest = self.highest.max(ratio);
        self.logarithms += ratio.ln();
        self.rows += 1;
    }
}

fn main() {
    let random = &mut Random::new(SEED);
    println!(
        "seed {SEED:#018x}; best of {ROUNDS} rounds of {CALLS} calls each, nanoseconds per call"
    );
    println!(
        "{:<40} {:>7} {:>8} {:>8} {:>7} {:>6}",
        "call", "members", "messages", "library", "Rust", "ratio"
    );
    let mut bench = Bench {
        wanted: std::env::args().nth(1).unwrap_or_default(),
        library: Lent::new(random),
        plain: Lent::new(random),
        highest: 0.0,
        logarithms: 0.0,
        rows: 0,
    };
    for members in [3, 64] {
        let ring = Ring::new(random, members);
        let own = ring.addresses[1];
        let make = Call::Make { file: ring.file.clone(), own };
        bench.row("make", members, 0, &make, 0, &[0; RECORD]);
        for full in [false, true] {
            // The fewest messages that a case needs, or 15.
            let none = if full { MESSAGES - 1 } else { 0 };
            let one = if full { MESSAGES - 1 } else { 1 };
            let lent = &mut Lent::new(random);
            let empty = ring.record(1, IDLE, none, PLACE);
            let short = ring.record(1, IDLE, one, 100);
            let long = ring.record(1, IDLE, one, PLACE);

            bench.row("start", members, none, &Call::Start, 0, &ring.record(0, 0, none, PLACE));

            let waiting = after(empty, &ring.token(1), lent);
            bench.row("timer: token again", members, none, &Call::Timer, 0, &waiting);
            let last = after(waiting, &Call::Timer, lent);
            bench.row("timer: the last, strikes", members, none, &Call::Timer, 0, &last);
            let flying = after(long, &ring.transmit(), lent);
            bench.row("timer: information of 1492 again", members, one, &Call::Timer, 0, &flying);

            bench.row("frame: token to pass on", members, none, &ring.token(1), 0, &empty);
            bench.row("frame: token, bystander", members, none, &ring.token(2), 0, &empty);
            bench.row("frame: sends information of 100", members, one, &ring.transmit(), 0, &short);
            bench.row("frame: sends information of 1492", members, one, &ring.transmit(), 0, &long);
            let octets = random.octets(PLACE);
            let information =
                Packet::Information { priority: 5, number: 77, channel: 3, information: &octets };
            let information = ring.frame(0, 1, &information);
            bench.row("frame: information of 1492 stored", members, none, &information, 0, &empty);
            let (mut nobody, mut damaged) = (ring.token(1), ring.token(1));
            if let Call::Frame { from, .. } = &mut nobody {
                *from = 1 << 40;
            }
            if let Call::Frame { packet, .. } = &mut damaged {
                packet[45] = 1;
            }
            bench.row("frame: 13", members, none, &nobody, 13, &empty);
            bench.row("frame: 12", members, none, &damaged, 12, &empty);

            for length in [100, PLACE] {
                let queue = Call::Queue { to: ring.addresses[2], payload: random.octets(length) };
                let what = format!("queue: {length}");
                bench.row(&what, members, none, &queue, 0, &empty);
            }
            bench.row("take: 1492", members, one, &Call::Take, 0, &long);
        }
    }
    let mean = (bench.logarithms / bench.rows.max(1) as f64).exp();
    println!("highest ratio {:.2}, geometric mean {mean:.2}", bench.highest);
}
