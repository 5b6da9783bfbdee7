//! Random days: a ring file and a capture, good and damaged, the same for the same seed. Some look at what the stations
//! do, so that the rare things come often: a full wire, a full list, a station struck by all others.

use crate::model::capture::{self, record, Event};
use crate::model::day::{self, Day, Line, MOST_FRAMES};
use crate::model::station::State;
use crate::model::{read_ring, ring_file, Ring};
use crate::random::Random;
use std::collections::BTreeMap;

pub struct Made {
    pub ring: Vec<u8>,
    pub capture: Vec<u8>,
}

const MOST_RECORDS: usize = capture::LONGEST / capture::RECORD;

/// How a day is.
#[derive(Clone, Copy, PartialEq, Eq)]
enum Temper {
    /// Nothing is lost, no timer runs: as on the bench.
    Quiet,
    /// Now and then a frame is lost, and a timer runs.
    Lossy,
    /// Timers run and hardly a frame is taken.
    Storm,
    /// One station gets no frame that is for it, and no timer of it runs.
    Killed(usize),
    /// Any event, whatever the stations are doing.
    Blind,
}

/// A ring file and a capture.
pub fn day(random: &mut Random) -> Made {
    let mut ring = good_ring(random);
    let temper = match random.below(10) {
        0 | 1 => Temper::Quiet,
        2..=4 => Temper::Lossy,
        5 | 6 => Temper::Storm,
        7 | 8 => Temper::Killed(random.below(ring.addresses.len())),
        _ => Temper::Blind,
    };
    // With many retries the wire fills up before everybody is struck.
    if temper == Temper::Storm && random.once_in(2) {
        ring.retry_limit = random.within(4..=15) as u64;
    }
    let count = match random.below(100) {
        0 => MOST_RECORDS,
        1..=6 => random.within(300..=3000),
        7..=20 => random.below(6),
        _ if temper == Temper::Storm => random.within(100..=400),
        _ => random.within(6..=300),
    };
    let mut capture = capture::capture(&events(random, &ring, temper, count));
    if random.once_in(4) {
        damage(random, &mut capture, ring.addresses.len());
    }
    let mut file = written(&ring);
    if random.once_in(25) {
        damage_ring(random, &mut file);
    }
    Made { ring: file, capture }
}

/// The longest capture on the largest ring: messages and frames, and where it is `lossy`, lost frames and timers too. With a
/// retry limit of 1 such a ring soon falls apart, and with 15 it lives on.
pub fn longest(random: &mut Random, lossy: bool, retry_limit: u64) -> Made {
    let ring = Ring::plain(retry_limit, (1..=64).collect());
    let temper = if lossy { Temper::Lossy } else { Temper::Quiet };
    let capture = capture::capture(&events(random, &ring, temper, MOST_RECORDS));
    Made { ring: written(&ring), capture }
}

/// Days that chance may leave out: every bit of a record of each kind turned, on rings of three sizes; lengths around those that
/// are allowed; and the longest captures.
pub fn edges(random: &mut Random) -> Vec<Made> {
    let mut made = Vec::new();
    for members in [2, 33, 64] {
        let ring = written(&Ring::plain(1, (1..=members).collect()));
        let queue = Event::Queue { station: 0, destination: 1, priority: 9, channel: 3, length: 7 };
        let timer = Event::Timer { station: 1 };
        for event in [Event::Delivered, Event::LostForAddressee, Event::LostForAll, timer, queue] {
            for bit in 0..8 * capture::RECORD {
                let mut capture = capture::capture(&[Event::Delivered, event, Event::Delivered]);
                capture[capture::RECORD + bit / 8] ^= 0x80 >> (bit % 8);
                made.push(Made { ring: ring.clone(), capture });
            }
        }
        for length in
            [0, 1, 2, 3, 4, 5, 6, 9, 10, 11, 59_995, 59_999, 60_000, 60_001, 60_005, 120_000]
        {
            made.push(Made { ring: ring.clone(), capture: vec![0; length] });
        }
    }
    for lossy in [false, true] {
        made.push(longest(random, lossy, 1));
        let Made { ring, mut capture } = longest(random, lossy, 1);
        capture.extend(Event::Delivered.octets());
        made.push(Made { ring, capture });
    }
    made
}

fn good_ring(random: &mut Random) -> Ring {
    let members = match random.below(10) {
        0 => 2,
        1 => 64,
        2 | 3 => random.within(2..=64),
        _ => random.within(2..=6),
    };
    let retry_limit = match random.below(8) {
        0 => 15,
        1 => random.within(1..=15),
        2..=4 => 1,
        _ => random.within(1..=3),
    } as u64;
    let mut addresses = Vec::new();
    while addresses.len() < members {
        // Few, so that they begin alike; none has the lowest bit of its first octet.
        let address = random.below(5000) as u64 | (random.below(3) as u64) << 41;
        if address != 0 && !addresses.contains(&address) {
            addresses.push(address);
        }
    }
    let mut ring = Ring::plain(retry_limit, addresses);
    if random.once_in(2) {
        ring.form = 2;
        ring.version = random.within(1..=2) as u64;
        for open in &mut ring.open {
            match random.below(6) {
                0 => *open = [false; 8],
                1 | 2 => open.iter_mut().for_each(|open| *open = !random.once_in(4)),
                _ => {}
            }
        }
    }
    ring
}

fn written(ring: &Ring) -> Vec<u8> {
    ring.file()
}

/// Events that the reader takes; the last timer may be one too many.
fn events(random: &mut Random, ring: &Ring, temper: Temper, count: usize) -> Vec<Event> {
    let members = ring.addresses.len();
    // On some days one station has most of the messages, and on some all are for one, so that lists fill up.
    let busy = random.once_in(2).then(|| random.below(members));
    let loved = random.once_in(3).then(|| random.below(members));
    let mut day = Day::start(ring);
    let mut events = Vec::new();
    while events.len() < count {
        let event = match random.below(if temper == Temper::Storm { 12 } else { 4 }) {
            0 => message(random, members, busy, loved),
            _ => next(random, &day, temper),
        };
        events.push(event);
        // Where a storm has been refused a frame, the day mostly goes on without that timer.
        if day.apply(event).is_err() && !random.once_in(40) {
            events.pop();
            events.push(Event::LostForAll);
            day.apply(Event::LostForAll).expect("a frame record is not refused");
        }
    }
    events
}

/// What happens to the frames and the timers.
fn next(random: &mut Random, day: &Day, temper: Temper) -> Event {
    let waits = |own: &usize| day.stations[*own].state == State::Waiting;
    let waiting: Vec<usize> = (0..day.stations.len()).filter(waits).collect();
    let any = Event::Timer { station: random.below(day.stations.len()) };
    let timer = match waiting[..] {
        [] => any,
        _ if random.once_in(6) => any,
        _ => Event::Timer { station: random.pick(&waiting) },
    };
    let frame = random.pick(&[Event::LostForAddressee, Event::LostForAll, Event::Delivered]);
    match temper {
        Temper::Quiet => Event::Delivered,
        Temper::Lossy => match random.below(12) {
            0 => frame,
            1 => timer,
            // Nothing moves any more until a timer runs.
            _ if day.wire.is_empty() => timer,
            _ => Event::Delivered,
        },
        Temper::Storm if day.wire.len() == MOST_FRAMES && random.once_in(3) => frame,
        Temper::Storm if random.once_in(12) => frame,
        Temper::Storm => timer,
        Temper::Killed(killed) => match day.wire.front() {
            Some(oldest) if oldest.to == killed => Event::LostForAddressee,
            Some(_) => Event::Delivered,
            None if any == (Event::Timer { station: killed }) => Event::Delivered,
            None if timer == (Event::Timer { station: killed }) => any,
            None => timer,
        },
        Temper::Blind => random.pick(&[frame, any, Event::Delivered]),
    }
}

/// Mostly a good message, of few priorities, so that equals meet.
fn message(
    random: &mut Random,
    members: usize,
    busy: Option<usize>,
    loved: Option<usize>,
) -> Event {
    let station = busy.filter(|_| !random.once_in(6)).unwrap_or_else(|| random.below(members));
    let other = (station + random.within(1..=members - 1)) % members;
    let destination = loved.filter(|loved| *loved != station).unwrap_or(other);
    let mut event = [
        station,
        if random.once_in(12) { station } else { destination },
        random.pick(&[1, 2, 3, 5, 9, 254, 255]),
        random.below(8),
        random.pick(&[0, 1, 37, 38, 39, 40, 100, 1491, 1492]),
    ];
    if random.once_in(12) {
        event[2] = 0;
    }
    if random.once_in(12) {
        event[4] = random.pick(&[1493, 1526, 2047]);
    }
    let [station, destination, priority, channel, length] = event;
    Event::Queue { station, destination, priority, channel, length }
}

/// A capture that is refused, or stops somewhere; now and then it is still a good one.
fn damage(random: &mut Random, capture: &mut Vec<u8>, members: usize) {
    let records = capture.len() / capture::RECORD;
    match random.below(10) {
        0 => {
            capture.truncate(capture::RECORD * records.saturating_sub(1));
            let odd = random.within(1..=4);
            capture.extend(random.octets(odd));
        }
        1 => {
            let length = random.pick(&[59_995, 59_999, 60_000, 60_001, 60_005, 60_010, 65_535]);
            capture.resize(length, 0);
        }
        2 => {
            let octets = random.octets(capture.len());
            *capture = octets;
        }
        _ if records > 0 => {
            let at = capture::RECORD * random.below(records);
            let octets = &mut capture[at..at + capture::RECORD];
            let bad = bad_record(random, members);
            match random.below(3) {
                0 => octets[random.below(capture::RECORD)] ^= 1 << random.below(8),
                1 => octets[capture::RECORD - 1] ^= 1 << random.below(3),
                _ => octets.copy_from_slice(&bad),
            }
        }
        _ => capture.push(0),
    }
}

/// A record with one thing wrong.
fn bad_record(random: &mut Random, members: usize) -> [u8; capture::RECORD] {
    let outside = if members < 64 { random.within(members..=63) } else { 63 };
    let mut fields = match random.below(5) {
        0 => [random.within(5..=7), 0, 0, 0, 0, 0, 0],
        1 => [3, outside, 0, 0, 0, 0, 0],
        2 => [4, outside, 0, 1, 0, 0, 0],
        3 => [4, 0, outside, 1, 0, 0, 0],
        _ => [random.below(5), 0, 1, 1, 0, 0, 0],
    };
    if members == 64 || random.once_in(4) {
        let (field, value) =
            random.pick(&[(1, 1), (2, 1), (3, 128), (4, 4), (5, 1), (6, 1), (6, 4)]);
        fields[field] = value;
    }
    record(fields)
}

fn damage_ring(random: &mut Random, file: &mut Vec<u8>) {
    let octets = if file[0] >> 4 == 2 { 7 } else { 6 };
    let members = (file.len() - 2) / octets;
    let at = 2 + octets * random.below(members);
    match random.below(9) {
        0 => file[0] ^= 0x10 << random.below(4),
        1 | 2 if octets == 7 => file[1] ^= file[1] & 3 ^ random.pick(&[0, 3]),
        1 | 2 => file[1] |= random.pick(&[1, 2, 3]),
        3 => *file = ring_file(1, 0, 1, 0, &[2]),
        4 => file[1] &= 0xC3,
        5 => file[at] |= 1,
        6 => file[at..at + 6].fill(0),
        7 => file.copy_within(2..8, 2 + octets * (members - 1)),
        _ => file.truncate(random.below(file.len())),
    }
}

/// How many days had which things in them.
#[derive(Default)]
pub struct Seen {
    counts: BTreeMap<String, usize>,
}

/// What random days must have had. A number is that of a whole day's refusal, of a stop, or of a refused queue.
const RARE: [&str; 30] = [
    "refused 1",
    "refused 2",
    "refused 3",
    "refused 4",
    "refused 5",
    "refused 6",
    "refused 7",
    "refused 27",
    "refused 24",
    "stopped 25",
    "stopped 36",
    "queue 14",
    "queue 15",
    "queue 16",
    "queue 18",
    "queue 19",
    "queue 22",
    "queue 28",
    "struck by another",
    "struck on hearing",
    "struck itself",
    "Alone",
    "Excluded",
    "lost at a full list",
    "given up",
    "64 frames",
    "a timer that sends nothing beside 64 frames",
    "a frame record with no frame",
    "60,000 octets",
    "64 members",
];

impl Seen {
    fn count(&mut self, things: impl IntoIterator<Item = String>) {
        let mut things: Vec<String> = things.into_iter().collect();
        things.sort();
        things.dedup();
        things.into_iter().for_each(|thing| *self.counts.entry(thing).or_default() += 1);
    }

    /// Looks at a day, and gives what it prints.
    pub fn look(&mut self, made: &Made) -> String {
        match day::run(&made.ring, &made.capture) {
            Err(number) => {
                self.count([format!("refused {number}")]);
                format!("refused {number}\n")
            }
            Ok(run) => {
                let ring = read_ring(&made.ring).expect("it was run");
                self.count(things(&run, &ring, &made.capture));
                run.text()
            }
        }
    }

    /// The counts, a line; all that must be seen was.
    pub fn told(&self) -> String {
        let missing: Vec<&str> =
            RARE.into_iter().filter(|thing| !self.counts.contains_key(*thing)).collect();
        assert!(missing.is_empty(), "not seen: {missing:?}");
        let told = RARE.map(|thing| format!("{} with {thing}", self.counts[thing]));
        told.join(", ")
    }
}

/// What a day had, by its lines and its end, and by the frames on the wire before each record.
fn things(run: &day::Run, ring: &Ring, capture: &[u8]) -> Vec<String> {
    let mut things = Vec::new();
    for line in &run.lines {
        match line {
            Line::Frame(_) => {}
            Line::Struck { station, by } if station == by => things.push("struck itself".into()),
            Line::Struck { .. } => things.push("struck by another".into()),
            Line::Refused(number) => things.push(format!("queue {number}")),
            Line::Stopped { number, .. } => things.push(format!("stopped {number}")),
        }
    }
    for station in &run.day.stations {
        things.push(format!("{:?}", station.state));
        if station.lost > 0 {
            things.push("lost at a full list".into());
        }
        if station.given_up > 0 {
            things.push("given up".into());
        }
    }
    let mut day = Day::start(ring);
    for octets in capture.chunks(capture::RECORD) {
        let before = day.wire.len();
        let event = capture::event(octets, ring.addresses.len());
        let Ok(printed) = event.and_then(|event| day.apply(event)) else { break };
        let is_timer = matches!(event, Ok(Event::Timer { .. }));
        let is_queue = matches!(event, Ok(Event::Queue { .. }));
        if before == MOST_FRAMES {
            things.push("64 frames".into());
        }
        if is_timer && before == MOST_FRAMES {
            things.push("a timer that sends nothing beside 64 frames".into());
        }
        if !is_timer && !is_queue && before == 0 {
            things.push("a frame record with no frame".into());
        }
        if !is_timer && printed.iter().any(|line| matches!(line, Line::Struck { .. })) {
            things.push("struck on hearing".into());
        }
    }
    if capture.len() == capture::LONGEST {
        things.push("60,000 octets".into());
    }
    if ring.addresses.len() == 64 {
        things.push("64 members".into());
    }
    things
}
