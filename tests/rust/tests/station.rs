//! Holds the proved station calls to the independent station: random histories of whole rings, calls
//! on made-up whole records, damaged records, and buffers of wrong lengths.
//!
//! Each side has its own buffers, with other octets around them. After every call the two sides are
//! compared: the number, and every octet and number lent, those around them included. After a
//! refusal they are compared with what they were before, too. The yardstick of the benchmarks makes
//! every call as well, and leaves the same. Each test demands that every number,
//! every move and every rule came often enough; RTEP_FIGURES=1 prints how often.

use rtep::model::station::{self, MESSAGES, OUT, PLACE, RECORD, STORE};
use rtep::model::{self, Packet};
use rtep::random::Random;
use rtep::yardstick;
use std::collections::BTreeMap;
use std::time::Instant;

const HISTORY_SEED: u64 = 0x5254_4550_0000_0011;
const MADE_UP_SEED: u64 = 0x5254_4550_0000_0012;
const DAMAGE_SEED: u64 = 0x5254_4550_0000_0013;

/// The fewest calls of histories on rings of each size, of made-up records, and on damaged ones.
const HISTORY_CALLS: [(usize, u64); 4] = [(2, 200_000), (3, 450_000), (5, 450_000), (64, 200_000)];
const MADE_UP_CALLS: u64 = 600_000;
const DAMAGED_RECORDS: u64 = 600_000;
/// How often each number of each call, each move and each thing that happens must come.
const EACH: u64 = 100;

// ---------------------------------------------------------------------------------------------
// The record as docs/ lays it out

const OWN: usize = 450;
const STATE: usize = 451;
const RETRIES: usize = 452;
const HANDLED: usize = 453;
const AWAITED: usize = 456;
const LOST: usize = 469;
const GIVEN_UP: usize = 473;
const LIVE: usize = 477;
const SEND: usize = 541;
const RECEIVE: usize = 638;

const OFFLINE: u8 = 0;
const IDLE: u8 = 1;
const WAITING: u8 = 2;
const ALONE: u8 = 3;
const EXCLUDED: u8 = 4;

const TOKEN: u8 = 1;
const TRANSMIT: u8 = 2;
const INFORMATION: u8 = 3;

/// A message of a list.
#[derive(Clone, Copy, PartialEq, Eq)]
struct Message {
    other: usize,
    priority: u8,
    channel: u8,
    place: u8,
    length: usize,
}

/// Where a member begins in a ring file, or in a record.
fn member_at(file: &[u8], position: usize) -> usize {
    2 + if file[0] >> 4 == 2 { 7 } else { 6 } * position
}

/// A record that is whole, field by field.
#[derive(Clone, Copy)]
struct View<'a>(&'a [u8]);

impl View<'_> {
    fn members(self) -> usize {
        (self.number(0) >> 6 & 63) + 1
    }
    fn limit(self) -> u8 {
        self.0[1] >> 2 & 15
    }
    fn address(self, position: usize) -> u64 {
        let at = member_at(self.0, position);
        let octets = &self.0[at..at + 6];
        octets.iter().fold(0, |number, octet| number << 8 | u64::from(*octet))
    }
    fn position(self, address: u64) -> Option<usize> {
        (0..self.members()).find(|position| self.address(*position) == address)
    }
    fn number(self, at: usize) -> usize {
        usize::from(u16::from_be_bytes([self.0[at], self.0[at + 1]]))
    }
    fn count(self, at: usize) -> u32 {
        u32::from_be_bytes(self.0[at..at + 4].try_into().unwrap())
    }
    fn own(self) -> usize {
        self.0[OWN].into()
    }
    fn state(self) -> u8 {
        self.0[STATE]
    }
    fn retries(self) -> u8 {
        self.0[RETRIES]
    }
    fn handled(self) -> Option<u16> {
        (self.0[HANDLED] == 1).then_some(self.number(HANDLED + 1) as u16)
    }
    fn kind(self) -> u8 {
        self.0[AWAITED]
    }
    fn awaited_to(self) -> usize {
        self.0[AWAITED + 1].into()
    }
    fn awaited_number(self) -> u16 {
        self.number(AWAITED + 2) as u16
    }
    fn awaited_priority(self) -> u8 {
        self.0[AWAITED + 4]
    }
    fn awaited_master(self) -> usize {
        self.0[AWAITED + 5].into()
    }
    fn awaited_failing(self) -> Option<usize> {
        self.number(AWAITED + 6).checked_sub(1)
    }
    fn awaited_named(self) -> usize {
        self.0[AWAITED + 8].into()
    }
    fn live(self, position: usize) -> bool {
        self.0[LIVE + position] == 1
    }
    fn list(self, at: usize) -> Vec<Message> {
        let slots = self.0[at + 1..at + 1 + 6 * usize::from(self.0[at])].chunks_exact(6);
        slots
            .map(|slot| Message {
                other: slot[0].into(),
                priority: slot[1],
                channel: slot[2],
                place: slot[3],
                length: usize::from(u16::from_be_bytes([slot[4], slot[5]])),
            })
            .collect()
    }
    /// The place of the message in flight.
    fn in_flight(self) -> Option<u8> {
        (self.kind() == INFORMATION).then_some(self.0[AWAITED + 10])
    }
    fn head_priority(self) -> u8 {
        let waiting =
            self.list(SEND).into_iter().filter(|message| Some(message.place) != self.in_flight());
        waiting.map(|message| message.priority).max().unwrap_or(0)
    }
}

// ---------------------------------------------------------------------------------------------
// Calls and their buffers

#[derive(Debug, Clone, Copy, PartialEq, Eq, PartialOrd, Ord)]
enum Event {
    Make,
    Start,
    Frame,
    Timer,
    Queue,
    Take,
}

#[derive(Clone)]
enum Call {
    Make { file: Vec<u8>, own: u64 },
    Start,
    Frame { from: u64, to: u64, packet: Vec<u8> },
    Timer,
    Queue { to: u64, priority: usize, channel: usize, payload: Vec<u8> },
    Take { channel: usize },
}

impl Call {
    fn event(&self) -> Event {
        match self {
            Call::Make { .. } => Event::Make,
            Call::Start => Event::Start,
            Call::Frame { .. } => Event::Frame,
            Call::Timer => Event::Timer,
            Call::Queue { .. } => Event::Queue,
            Call::Take { .. } => Event::Take,
        }
    }

    fn text(&self) -> String {
        match self {
            Call::Make { file, own } => format!("make own {own:x}, file {file:02x?}"),
            Call::Start => "start".to_string(),
            Call::Frame { from, to, packet } => {
                let shown = &packet[..packet.len().min(46)];
                let octets = packet.len();
                format!("frame from {from:x} to {to:x}, {octets} octets: {shown:02x?}")
            }
            Call::Timer => "timer".to_string(),
            Call::Queue { to, priority, channel, payload } => {
                let octets = payload.len();
                format!("queue to {to:x}, priority {priority}, channel {channel}, {octets} octets")
            }
            Call::Take { channel } => format!("take channel {channel}"),
        }
    }
}

/// The lengths that a call is told.
#[derive(Debug, Clone, Copy)]
struct Lengths {
    record: usize,
    store: usize,
    out: usize,
    room: usize,
}

/// Octets around each buffer; a buffer may be lent as many longer.
const AROUND: usize = 64;
const LONGEST_OUT: usize = 2000;
const LONGEST_ROOM: usize = 2000;

fn around(octets: &mut [u8], len: usize) -> &mut [u8] {
    &mut octets[AROUND..AROUND + len]
}

/// A station's own buffers.
#[derive(Clone, PartialEq)]
struct Kept {
    record: Vec<u8>,
    store: Vec<u8>,
}

impl Kept {
    fn new(random: &mut Random) -> Kept {
        Kept {
            record: random.octets(RECORD + 2 * AROUND),
            store: random.octets(STORE + 2 * AROUND),
        }
    }

    fn record(&self) -> &[u8] {
        &self.record[AROUND..AROUND + RECORD]
    }

    fn copy_from(&mut self, other: &Kept) {
        self.record.copy_from_slice(&other.record);
        self.store.copy_from_slice(&other.store);
    }
}

/// Buffers lent for one call.
#[derive(Clone, PartialEq)]
struct Lent {
    out: Vec<u8>,
    room: Vec<u8>,
    told: [u64; 86],
    taken: [u64; 6],
}

impl Lent {
    fn new() -> Lent {
        Lent {
            out: vec![0; LONGEST_OUT + 2 * AROUND],
            room: vec![0; LONGEST_ROOM + 2 * AROUND],
            told: [0; 86],
            taken: [0; 6],
        }
    }

    fn fill(&mut self, mark: u64) {
        self.out.fill(mark as u8);
        self.room.fill((mark >> 8) as u8);
        self.told.fill(mark);
        self.taken.fill(mark);
    }

    fn copy_from(&mut self, other: &Lent) {
        self.out.copy_from_slice(&other.out);
        self.room.copy_from_slice(&other.room);
        self.told = other.told;
        self.taken = other.taken;
    }

    fn told(&self) -> &[u64] {
        &self.told[1..85]
    }
}

macro_rules! on_side {
    ($side:path, $call:expr, $lengths:expr, $kept:expr, $lent:expr) => {{
        use $side as side;
        let record = around(&mut $kept.record, $lengths.record);
        let store = around(&mut $kept.store, $lengths.store);
        let out = around(&mut $lent.out, $lengths.out);
        let room = around(&mut $lent.room, $lengths.room);
        let told = (&mut $lent.told[1..85]).try_into().unwrap();
        match $call {
            Call::Make { file, own } => side::make(record, file, *own),
            Call::Start => side::start(record, out, told),
            Call::Frame { from, to, packet } => {
                side::frame(record, store, *from, *to, packet, out, told)
            }
            Call::Timer => side::timer(record, store, out, told),
            Call::Queue { to, priority, channel, payload } => {
                side::queue(record, store, *to, *priority, *channel, payload)
            }
            Call::Take { channel } => {
                let taken = (&mut $lent.taken[1..5]).try_into().unwrap();
                side::take(record, store, *channel, room, taken)
            }
        }
    }};
}

/// One station on both sides.
#[derive(Clone)]
struct Both {
    library: Kept,
    plain: Kept,
}

impl Both {
    fn new(random: &mut Random) -> Both {
        let kept = Kept::new(random);
        Both { library: kept.clone(), plain: kept }
    }

    fn view(&self) -> View<'_> {
        View(self.plain.record())
    }

    /// Sets octets of the record on both sides.
    fn edit(&mut self, at: usize, octets: &[u8]) {
        for side in [&mut self.library, &mut self.plain] {
            around(&mut side.record, RECORD)[at..at + octets.len()].copy_from_slice(octets);
        }
    }
}

/// Makes calls on both sides, compares, and counts.
struct Comparison {
    what: &'static str,
    seed: u64,
    start: Instant,
    library: Lent,
    plain: Lent,
    before: Lent,
    kept_before: Kept,
    fast: Lent,
    fast_kept: Kept,
    calls: u64,
    numbers: BTreeMap<(Event, u32), u64>,
    /// Beside 12.
    offsets: BTreeMap<u32, u64>,
    moves: BTreeMap<(u8, Event), u64>,
    happened: BTreeMap<&'static str, u64>,
}

impl Comparison {
    fn new(what: &'static str, seed: u64) -> Comparison {
        Comparison {
            what,
            seed,
            start: Instant::now(),
            library: Lent::new(),
            plain: Lent::new(),
            before: Lent::new(),
            kept_before: Kept::new(&mut Random::new(seed)),
            fast: Lent::new(),
            fast_kept: Kept::new(&mut Random::new(seed)),
            calls: 0,
            numbers: BTreeMap::new(),
            offsets: BTreeMap::new(),
            moves: BTreeMap::new(),
            happened: BTreeMap::new(),
        }
    }

    /// Makes the call on both sides and gives the number. What it told and sent is in `plain`.
    fn call(&mut self, random: &mut Random, both: &mut Both, call: &Call, lens: Lengths) -> u32 {
        let mark = random.next();
        self.before.fill(mark);
        self.library.copy_from(&self.before);
        self.plain.copy_from(&self.before);
        self.kept_before.copy_from(&both.plain);

        let given = on_side!(rtep, call, lens, both.library, self.library);
        let expected = on_side!(station, call, lens, both.plain, self.plain);
        if given != expected
            || both.library.record != both.plain.record
            || both.library.store != both.plain.store
            || self.library != self.plain
        {
            self.differ(both, call, lens, given, expected);
        }
        self.fast.copy_from(&self.before);
        self.fast_kept.copy_from(&self.kept_before);
        let fast = on_side!(yardstick::station, call, lens, self.fast_kept, self.fast);
        let same = fast == expected && self.fast == self.plain;
        if !same || self.fast_kept != both.plain {
            panic!("{}: the yardstick differs: {}", self.place(), call.text());
        }
        if expected != 0
            && (both.plain.record != self.kept_before.record
                || both.plain.store != self.kept_before.store
                || self.plain != self.before)
        {
            panic!("{}: {expected} changed something: {}", self.place(), call.text());
        }

        self.calls += 1;
        let event = call.event();
        *self.numbers.entry((event, rtep::number(expected))).or_default() += 1;
        if rtep::number(expected) == 12 {
            *self.offsets.entry(rtep::offset(expected)).or_default() += 1;
        }
        if event != Event::Make && expected != 9 && expected != 35 {
            let state = self.kept_before.record()[STATE];
            *self.moves.entry((state, event)).or_default() += 1;
        }
        if expected == 0 {
            for thing in self.look(both, call) {
                *self.happened.entry(thing).or_default() += 1;
            }
        }
        expected
    }

    fn place(&self) -> String {
        format!("{}, seed {:#x}, call {}", self.what, self.seed, self.calls)
    }

    fn differ(&self, both: &Both, call: &Call, lens: Lengths, given: u32, expected: u32) -> ! {
        fn first<T: PartialEq + std::fmt::LowerHex>(
            text: &mut String,
            what: &str,
            around: usize,
            library: &[T],
            plain: &[T],
        ) {
            let differing: Vec<usize> =
                (0..plain.len()).filter(|place| library[*place] != plain[*place]).collect();
            for &place in differing.iter().take(12) {
                let at = place as isize - around as isize;
                let (library, plain) = (&library[place], &plain[place]);
                *text += &format!("\n  {what}[{at}]: library {library:x}, plain {plain:x}");
            }
        }
        let words = |given| format!("{} at {}", rtep::number(given), rtep::offset(given));
        let mut text = format!("\n  number: library {}, plain {}", words(given), words(expected));
        first(&mut text, "record", AROUND, &both.library.record, &both.plain.record);
        first(&mut text, "store", AROUND, &both.library.store, &both.plain.store);
        first(&mut text, "out", AROUND, &self.library.out, &self.plain.out);
        first(&mut text, "room", AROUND, &self.library.room, &self.plain.room);
        first(&mut text, "told", 1, &self.library.told, &self.plain.told);
        first(&mut text, "taken", 1, &self.library.taken, &self.plain.taken);
        let record = self.kept_before.record();
        let call = call.text();
        panic!(
            "{}: {call}, {lens:?}{text}\n  ring {:02x?}\n  own, state, retries, handled {:02x?}\n  \
             awaited {:02x?}\n  lost, given up {:02x?}\n  live {:x?}\n  send {:02x?}\n  receive {:02x?}",
            self.place(),
            &record[..OWN],
            &record[OWN..AWAITED],
            &record[AWAITED..LOST],
            &record[LOST..LIVE],
            &record[LIVE..SEND],
            &record[SEND..RECEIVE],
            &record[RECEIVE..],
        )
    }

    /// What happened in a call that gave 0, in the page's words. Also checks the telling against
    /// the two records.
    fn look(&self, both: &Both, call: &Call) -> Vec<&'static str> {
        let before = View(self.kept_before.record());
        let after = both.view();
        let told = self.plain.told();
        let mut things = Vec::new();
        let mut saw = |thing: &'static str, is: bool| {
            if is {
                things.push(thing);
            }
        };
        if matches!(call, Call::Start | Call::Frame { .. } | Call::Timer) {
            let given_up = told[3] as usize;
            assert_eq!(
                after.count(GIVEN_UP),
                before.count(GIVEN_UP).saturating_add(given_up as u32)
            );
            let mut live = before.0[LIVE..SEND].to_vec();
            if told[2] != 0 {
                live[before.position(told[2]).unwrap()] = 0;
            }
            assert_eq!(after.0[LIVE..SEND], live);
            let left = before.0[SEND] as usize - after.0[SEND] as usize;
            assert!(left == given_up || left == given_up + 1, "{}", self.place());
            saw("messages given up", given_up > 0);
            saw("several messages given up", given_up > 1);
            saw(
                "the given-up count stopped",
                u64::from(before.count(GIVEN_UP)) + told[3] > 0xFFFF_FFFF,
            );
            saw("a frame of 1,500 octets", told[0] == 1500);
        }
        let flies = before.kind() == INFORMATION;
        let own = before.own();
        match call {
            Call::Start => saw("station 0 starts a round", after.state() == WAITING),
            Call::Timer if before.state() == WAITING => {
                let to = before.awaited_to();
                if before.retries() < before.limit() {
                    saw("the same frame again", true);
                    saw("the same frame again to a station struck earlier", !before.live(to));
                    saw("the same information again", flies);
                } else if after.state() == ALONE {
                    saw("timer: alone", true);
                    saw("timer: alone, in flight given up", flies);
                } else {
                    let master = before.awaited_master();
                    let token = before.kind() == TOKEN;
                    let named = before.awaited_named();
                    let passed = token && master != own && after.live(master);
                    saw("timer: the addressee struck", told[2] != 0);
                    saw("timer: an addressee struck earlier", told[2] == 0);
                    saw("timer: in flight given up", flies);
                    saw("timer: waiting ones, then the one in flight", flies && told[3] > 1);
                    saw("timer: passed on again", passed);
                    saw("timer: passed on with its own name", passed && named == to);
                    saw(
                        "timer: passed on with a name struck earlier",
                        passed && named != to && !after.live(named),
                    );
                    saw("timer: its own round's token", token && master == own);
                    saw("timer: its master struck", token && master != own && !passed);
                    saw("timer: a transmit token", before.kind() == TRANSMIT);
                    saw("timer: number 0 after 65,535", before.awaited_number() == 65_535);
                    assert_eq!(after.awaited_failing(), Some(to));
                }
            }
            Call::Timer => saw("timer does nothing when Idle", true),
            Call::Frame { from, to, packet } => {
                let from = before.position(*from).unwrap();
                let to = before.position(*to).unwrap();
                let number = u16::from_be_bytes([packet[2], packet[3]]);
                let waiting = before.state() == WAITING;
                let ahead = number.wrapping_sub(before.awaited_number());
                let acknowledged = waiting && (1..=32_767).contains(&ahead);
                let addressee = waiting && from == before.awaited_to();
                saw("acknowledged", acknowledged);
                saw("acknowledged by a frame to another", acknowledged && to != own);
                saw("acknowledged by another than its addressee", acknowledged && !addressee);
                saw("acknowledged by a later number", acknowledged && ahead > 1);
                saw("acknowledged: the message in flight leaves", acknowledged && flies);
                saw("65,535 acknowledged by 0", acknowledged && ahead == 1 && number == 0);
                saw("acknowledged 32,767 ahead", waiting && ahead == 32_767);
                saw("not acknowledged 32,768 ahead", waiting && ahead == 32_768);
                saw("not acknowledged by its own number", waiting && ahead == 0);
                saw("an earlier number from the addressee", addressee && ahead > 32_768);
                let address = |at: usize| {
                    packet[at..at + 6].iter().fold(0, |n, octet| n << 8 | u64::from(*octet))
                };
                let token = packet[0] == TOKEN;
                let failing = if token { before.position(address(10)) } else { None };
                if let Some(failing) = failing {
                    saw("failing station struck", told[2] != 0 && failing != own);
                    saw("failing station struck earlier", told[2] == 0);
                    saw("failing station is the sender", failing == from);
                    saw(
                        "struck while awaited",
                        waiting && after.state() == WAITING && before.awaited_to() == failing,
                    );
                }
                let dropped = flies && !acknowledged;
                if after.state() == EXCLUDED {
                    saw("Excluded", true);
                    saw("Excluded: in flight given up", dropped);
                    saw("Excluded: waiting messages stay", after.0[SEND] > 0);
                } else if after.state() == ALONE {
                    saw("Alone on hearing", true);
                    saw("Alone on hearing: in flight given up", dropped);
                } else if to != own {
                    saw("addressed elsewhere", true);
                } else if before.handled() == Some(number) {
                    saw("the last handled number again", true);
                } else if waiting && !acknowledged {
                    saw("still Waiting", true);
                } else {
                    let sent = after.kind();
                    assert_eq!(after.awaited_number(), number.wrapping_add(1));
                    assert_eq!(after.handled(), Some(number));
                    let head = after.head_priority().max(if sent == INFORMATION {
                        after.awaited_priority()
                    } else {
                        0
                    });
                    if token {
                        let priority = packet[1];
                        let master = before.position(address(4)).unwrap();
                        let named = before.position(address(16)).unwrap();
                        if master == own {
                            if priority == 0 {
                                saw("token back: priority 0", true);
                            } else if named == own {
                                saw("token back: itself named", sent == INFORMATION);
                                saw("token back: itself named, no head", sent == TOKEN);
                            } else {
                                saw("token back: granted", sent == TRANSMIT);
                                saw("token back: named is struck", sent == TOKEN);
                                saw(
                                    "token back: its own head is higher",
                                    sent == TRANSMIT && head > priority,
                                );
                            }
                        } else if !after.live(master) {
                            saw("token: master not live", true);
                        } else {
                            saw("token: named not live", !after.live(named));
                            saw("token: named not live, no head", !after.live(named) && head == 0);
                            saw("token: replaced", after.live(named) && head > priority);
                            saw(
                                "token: equal priority stays",
                                after.live(named) && head == priority && head > 0 && named != own,
                            );
                            saw("token: lower stays", head < priority && named != own);
                            saw("token: failing station kept", failing.is_some());
                        }
                    } else if packet[0] == TRANSMIT {
                        saw("transmit token: sends its head", sent == INFORMATION);
                        saw("transmit token: no head", sent == TOKEN);
                        saw(
                            "transmit token: sends a higher one",
                            sent == INFORMATION && head > packet[1],
                        );
                    } else {
                        saw("information stored", after.0[RECEIVE] > before.0[RECEIVE]);
                        saw("information lost", after.count(LOST) > before.count(LOST));
                        saw(
                            "the lost count stopped",
                            before.0[RECEIVE] == 16 && before.count(LOST) == 0xFFFF_FFFF,
                        );
                    }
                }
            }
            Call::Queue { .. } => {
                saw("queued while a message is in flight", flies);
                let lower = after.list(SEND).len() - 1;
                let place = usize::from(after.list(SEND)[lower].place);
                saw("queued into a place that was free again", place < lower);
            }
            Call::Take { .. } => saw("the last message taken", after.0[RECEIVE] == 0),
            Call::Make { .. } => {}
        }
        things
    }

    /// Numbers that each call must have given, and nothing else.
    const NUMBERS: [(Event, &'static [u32]); 6] = [
        (Event::Make, &[0, 1, 2, 3, 4, 5, 6, 7, 8, 27, 35]),
        (Event::Start, &[0, 9, 23, 35]),
        (Event::Frame, &[0, 9, 10, 11, 12, 13, 22, 35]),
        (Event::Timer, &[0, 9, 22, 35]),
        (Event::Queue, &[0, 9, 14, 15, 16, 17, 18, 19, 22, 28, 35]),
        (Event::Take, &[0, 9, 17, 20, 21, 35]),
    ];

    /// Prints the figures.
    fn close(&self, figures: &str) {
        if std::env::var_os("RTEP_FIGURES").is_some() {
            println!("{:#?}\n{:#?}", self.numbers, self.offsets);
            println!("{:#?}\n{:#?}", self.moves, self.happened);
        }
        let refused: u64 =
            self.numbers.iter().filter(|((_, number), _)| *number != 0).map(|(_, n)| n).sum();
        println!(
            "{}: {figures}, {} calls, {refused} of them refused, no difference, {:.1} s",
            self.what,
            self.calls,
            self.start.elapsed().as_secs_f64()
        );
    }

    /// Demands every number of these calls, and no others.
    fn demand_numbers(&self, events: &[Event]) {
        for (event, numbers) in Comparison::NUMBERS {
            if !events.contains(&event) {
                continue;
            }
            let given = self.numbers.iter().filter(|((of, _), _)| *of == event);
            let given: BTreeMap<u32, u64> = given.map(|((_, n), count)| (*n, *count)).collect();
            assert!(given.keys().eq(numbers), "{}: {event:?} gave {given:?}", self.what);
            for (number, count) in given {
                assert!(count >= EACH, "{}: {event:?} gave {number} only {count} times", self.what);
            }
        }
    }

    /// Demands 12 at every field, at pad octets and at both lengths.
    fn demand_offsets(&self) {
        for offset in [0, 1, 4, 6, 10, 16, 22, 45] {
            let count = self.offsets.get(&offset).copied().unwrap_or(0);
            assert!(count > 0, "{}: 12 never came with {offset}: {:?}", self.what, self.offsets);
        }
    }

    /// Demands every event in every state.
    fn demand_moves(&self) {
        for state in [OFFLINE, IDLE, WAITING, ALONE, EXCLUDED] {
            for event in [Event::Start, Event::Frame, Event::Timer, Event::Queue, Event::Take] {
                let count = self.moves.get(&(state, event)).copied().unwrap_or(0);
                assert!(count >= EACH, "{}: {event:?} in {state} {count} times", self.what);
            }
        }
    }

    fn demand_happened(&self, things: &[&str]) {
        for thing in things {
            let count = self.happened.get(thing).copied().unwrap_or(0);
            assert!(count >= EACH, "{}: {thing}: only {count} times", self.what);
        }
    }
}

const EVERY: [Event; 6] =
    [Event::Make, Event::Start, Event::Frame, Event::Timer, Event::Queue, Event::Take];

/// What a ring from its start can come to.
const IN_HISTORIES: [&str; 43] = [
    "messages given up",
    "several messages given up",
    "the given-up count stopped",
    "a frame of 1,500 octets",
    "station 0 starts a round",
    "the same frame again",
    "the same frame again to a station struck earlier",
    "the same information again",
    "timer: alone",
    "timer: the addressee struck",
    "timer: in flight given up",
    "timer: passed on again",
    "timer: its own round's token",
    "timer: its master struck",
    "timer: a transmit token",
    "timer does nothing when Idle",
    "acknowledged",
    "acknowledged by a frame to another",
    "acknowledged: the message in flight leaves",
    "65,535 acknowledged by 0",
    "acknowledged by another than its addressee",
    "acknowledged by a later number",
    "an earlier number from the addressee",
    "failing station struck",
    "failing station struck earlier",
    "struck while awaited",
    "Excluded",
    "Alone on hearing",
    "addressed elsewhere",
    "the last handled number again",
    "still Waiting",
    "token back: priority 0",
    "token back: itself named",
    "token back: granted",
    "token: replaced",
    "token: equal priority stays",
    "token: lower stays",
    "token: failing station kept",
    "transmit token: sends its head",
    "information stored",
    "information lost",
    "the lost count stopped",
    "the last message taken",
];

/// What a whole record, made up, can come to besides.
const ON_MADE_UP: [&str; 28] = [
    "timer: an addressee struck earlier",
    "timer: passed on with its own name",
    "timer: alone, in flight given up",
    "timer: waiting ones, then the one in flight",
    "timer: passed on with a name struck earlier",
    "timer: number 0 after 65,535",
    "acknowledged 32,767 ahead",
    "not acknowledged 32,768 ahead",
    "not acknowledged by its own number",
    "failing station is the sender",
    "Excluded: in flight given up",
    "Excluded: waiting messages stay",
    "Alone on hearing: in flight given up",
    "token back: itself named, no head",
    "token back: named is struck",
    "token back: its own head is higher",
    "token: master not live",
    "token: named not live",
    "token: named not live, no head",
    "transmit token: no head",
    "transmit token: sends a higher one",
    "information lost",
    "the lost count stopped",
    "the given-up count stopped",
    "queued while a message is in flight",
    "queued into a place that was free again",
    "the same frame again to a station struck earlier",
    "several messages given up",
];

// ---------------------------------------------------------------------------------------------
// Inputs

const GROUP: u64 = 1 << 40;

/// A ring file with its values.
#[derive(Clone)]
struct RingFile {
    file: Vec<u8>,
    limit: usize,
    addresses: Vec<u64>,
}

fn ring_file(random: &mut Random, members: usize) -> RingFile {
    let near = random.once_in(2);
    let base = random.next() >> 16;
    let mut addresses = Vec::new();
    while addresses.len() < members {
        let address = match near {
            true => base ^ (1 << random.below(48)) ^ (1 << random.below(48)),
            false => random.next() >> 16,
        } & !GROUP;
        if address != 0 && !addresses.contains(&address) {
            addresses.push(address);
        }
    }
    let limit = random.pick(&[1, 1, 1, 2, 2, 3, 7, 15]);
    let mut ring = model::Ring::plain(limit as u64, addresses.clone());
    if random.once_in(2) {
        (ring.form, ring.version) = (2, random.within(1..=2) as u64);
        for open in ring.open.iter_mut().flatten() {
            *open = !random.once_in(10);
        }
    }
    RingFile { file: ring.file(), limit, addresses }
}

fn lengths(random: &mut Random) -> Lengths {
    Lengths {
        record: RECORD,
        store: STORE,
        out: random.pick(&[OUT, OUT, OUT, OUT + 1, LONGEST_OUT]),
        room: random.pick(&[0, 46, PLACE - 1, PLACE, PLACE, PLACE + 1, LONGEST_ROOM]),
    }
}

/// One length wrong, or several.
fn wrong_lengths(random: &mut Random) -> Lengths {
    let mut lens = lengths(random);
    for _ in 0..random.within(1..=2) {
        match random.below(3) {
            0 => {
                lens.record =
                    random.pick(&[0, 1, 450, 638, 671, RECORD - 1, RECORD + 1, RECORD + 64])
            }
            1 => lens.store = random.pick(&[0, PLACE, STORE / 2, STORE - 1, STORE + 1, STORE + 64]),
            _ => lens.out = random.pick(&[0, 45, 46, PLACE, OUT - 1]),
        }
    }
    lens
}

fn payload_length(random: &mut Random) -> usize {
    match random.below(4) {
        0 => random.pick(&[0, 1, 37, 38, 39, PLACE - 1, PLACE]),
        1 => random.below(PLACE + 1),
        2 => PLACE,
        _ => random.below(100),
    }
}

/// A priority or a channel with all of its bits where only the lowest would be right.
fn odd_size(random: &mut Random, small: usize) -> usize {
    random.pick(&[small | 1 << 8, small | 1 << 16, small | 1 << 32, usize::MAX, 256 + small])
}

/// A member, another number near one, or nobody.
fn odd_address(random: &mut Random, ring: &RingFile) -> u64 {
    let member = random.pick(&ring.addresses);
    match random.below(4) {
        0 => 0,
        1 => member | 1 << random.within(48..=63),
        2 => member ^ 1 << random.below(48),
        _ => random.next() >> 16,
    }
}

fn queue_call(random: &mut Random, ring: &RingFile, own: usize) -> Call {
    let mut to = random.pick(&ring.addresses);
    let mut priority = match random.below(3) {
        0 => random.pick(&[1, 2, 5, 5, 5, 254, 255]),
        1 => random.within(3..=6),
        _ => random.within(1..=255),
    };
    let mut channel = random.below(8);
    let mut length = payload_length(random);
    if random.once_in(4) {
        for _ in 0..random.within(1..=2) {
            match random.below(5) {
                0 => priority = random.pick(&[0, 256, 257, 512, usize::MAX, 1 << 32, 1 << 63]),
                1 => to = odd_address(random, ring),
                2 => to = ring.addresses[own],
                3 => channel = random.pick(&[8, 9, 15, 255, 256, usize::MAX]),
                _ => length = random.pick(&[PLACE + 1, PLACE + 2, 1500, 1501, 2000, 65_536]),
            }
        }
    } else if random.once_in(40) {
        priority = odd_size(random, priority);
        channel = if random.once_in(2) { odd_size(random, channel) } else { channel };
    }
    Call::Queue { to, priority, channel, payload: random.octets(length) }
}

/// A channel, mostly one that has a message, and a room that is often just right or just short.
fn take_call(random: &mut Random, view: View, lens: &mut Lengths) -> Call {
    let messages = view.list(RECEIVE);
    let mut channel = random.below(8);
    if !messages.is_empty() && !random.once_in(4) {
        let message = random.pick(&messages);
        channel = message.channel.into();
        lens.room = match random.below(4) {
            0 => message.length,
            1 => message.length.saturating_sub(1),
            2 => PLACE,
            _ => random.below(PLACE + 1),
        };
    }
    if random.once_in(20) {
        channel = random.pick(&[8, 9, 255, 256, 256 + channel, 1 << 32 | channel, usize::MAX]);
    }
    Call::Take { channel }
}

/// Spoils a packet: a bit, an octet, a field, its length.
fn spoil(random: &mut Random, ring: &RingFile, packet: &mut Vec<u8>) {
    match random.below(9) {
        0 => packet[random.below(46)] ^= 1 << random.below(8),
        1 => packet[random.below(46)] = random.octet(),
        2 => packet[0] = random.pick(&[0, 4, 5, 129, 255]),
        3 => packet.truncate(random.below(46)),
        4 => packet.push(random.pick(&[0, 0, 1])),
        5 => {
            let len = random.pick(&[1500, 1501, 1600, 2000]);
            packet.resize(len, 0);
        }
        6 => {
            let at = random.pick(&[4, 10, 16]);
            let address = odd_address(random, ring);
            packet[at..at + 6].copy_from_slice(&address.to_be_bytes()[2..]);
        }
        7 => packet[1] = 0,
        _ => {
            let last = packet.len() - 1;
            packet.truncate(last);
        }
    }
}

/// A frame that may come to this station: one it waits for or not, to it or not, of any kind.
fn made_up_frame(random: &mut Random, ring: &RingFile, view: View) -> Call {
    let members = ring.addresses.len();
    let own = view.own();
    let waiting = view.state() == WAITING;
    let live: Vec<usize> = (0..members).filter(|p| view.live(*p) && *p != own).collect();
    let someone = |random: &mut Random| match random.below(4) {
        0 => own,
        1 if waiting => view.awaited_to(),
        2 if !live.is_empty() => random.pick(&live),
        _ => random.below(members),
    };
    let from = match random.below(16) {
        0 => own,
        1 => random.below(members),
        _ if waiting && !random.once_in(3) => view.awaited_to(),
        _ if !live.is_empty() => random.pick(&live),
        _ => random.below(members),
    };
    let to = if random.once_in(4) { someone(random) } else { own };
    let number = match random.below(12) {
        0 => random.next() as u16,
        1 => view.handled().unwrap_or(0),
        2 => view.awaited_number(),
        3 => view.awaited_number().wrapping_add(random.pick(&[2, 32_767, 32_768, 65_535])),
        4 => random.pick(&[0, 65_534, 65_535]),
        _ => view.awaited_number().wrapping_add(1),
    };
    let head = view.head_priority();
    let priority = match random.below(6) {
        0 => 0,
        1 => head,
        2 => head.saturating_sub(1),
        3 => head.saturating_add(1),
        _ => random.octet(),
    };
    let length = payload_length(random);
    let information = random.octets(length);
    let master = ring.addresses[someone(random)];
    let named = ring.addresses[someone(random)];
    let failing = random.once_in(4).then(|| ring.addresses[someone(random)]);
    let failing = if random.once_in(8) { Some(ring.addresses[from]) } else { failing };
    let packet = match random.below(5) {
        0 => Packet::Information {
            priority: priority.max(1),
            number,
            channel: random.below(8) as u16,
            information: &information,
        },
        1 => Packet::TransmitToken { priority: priority.max(1), number, master, named },
        _ => Packet::Token { priority, number, master, failing, named },
    };
    let mut packet = packet.octets();
    if random.once_in(24) {
        spoil(random, ring, &mut packet);
    }
    let (mut from, mut to) = (ring.addresses[from], ring.addresses[to]);
    if random.once_in(60) {
        from = odd_address(random, ring);
    }
    if random.once_in(60) {
        to = odd_address(random, ring);
    }
    Call::Frame { from, to, packet }
}

/// A ring file, right or with one or two things wrong, for a station to be made of.
fn make_call(random: &mut Random, ring: &RingFile) -> Call {
    let mut file = ring.file.clone();
    let mut own = random.pick(&ring.addresses);
    if random.once_in(4) {
        own = odd_address(random, ring);
    }
    for _ in 0..random.pick(&[0, 0, 1, 1, 1, 2]) {
        let members = ring.addresses.len();
        if file.len() < 2 || file.len() < member_at(&file, members) {
            break;
        }
        let place = member_at(&file, random.below(members));
        match random.below(9) {
            0 => file[0] ^= random.pick(&[0x10, 0x20, 0x40, 0x80]),
            1 if file[0] >> 4 == 2 => file[1] = file[1] & 0xFC | random.pick(&[0, 3]),
            1 => file[1] |= random.pick(&[1, 2, 3]),
            2 => {
                file[0] &= 0xF0;
                file[1] &= 0x3F;
            }
            3 => file[1] &= 0xC3,
            4 => {
                let len = random.pick(&[0, 1, 2, file.len() - 6, file.len() - 1]);
                file.truncate(len);
            }
            5 => file.push(0),
            6 => file[place] |= 1,
            7 => file[place..place + 6].fill(0),
            _ => {
                let other = member_at(&file, random.below(members));
                file.copy_within(other..other + 6, place);
            }
        }
    }
    Call::Make { file, own }
}

/// A whole record of any state, with lists, an awaited frame and counts of any kind.
fn made_up_record(random: &mut Random, ring: &RingFile) -> [u8; RECORD] {
    let members = ring.addresses.len();
    let mut record = [0; RECORD];
    record[..ring.file.len()].copy_from_slice(&ring.file);
    let own = if random.once_in(3) { 0 } else { random.below(members) };
    let state = match random.below(12) {
        0 => random.pick(&[OFFLINE, ALONE, EXCLUDED]),
        1..=3 => IDLE,
        _ => WAITING,
    };
    record[OWN] = own as u8;
    record[STATE] = state;
    record[RETRIES] = match random.below(2) {
        0 => ring.limit,
        _ => random.below(ring.limit + 1),
    } as u8;
    if !random.once_in(4) {
        record[HANDLED] = 1;
        let number = random.pick(&[0, 1, 0x1234, 65_534, 65_535]);
        record[HANDLED + 1..HANDLED + 3].copy_from_slice(&u16::to_be_bytes(number));
    }
    for at in [LOST, GIVEN_UP] {
        let count = match random.below(4) {
            0 => 0,
            1 => u32::MAX,
            2 => u32::MAX - random.below(3) as u32,
            _ => random.next() as u32,
        };
        record[at..at + 4].copy_from_slice(&count.to_be_bytes());
    }

    let others: Vec<usize> = (0..members).filter(|position| *position != own).collect();
    let few = random.once_in(2);
    let mut live: Vec<usize> = others
        .iter()
        .copied()
        .filter(|_| if few { random.once_in(members) } else { random.below(8) > 0 })
        .collect();
    match state {
        OFFLINE => live = others.clone(),
        ALONE => live.clear(),
        IDLE | WAITING if live.is_empty() => live.push(random.pick(&others)),
        _ => {}
    }
    for position in &live {
        record[LIVE + position] = 1;
    }
    record[LIVE + own] = u8::from(state != EXCLUDED);

    let count = |random: &mut Random| match random.below(4) {
        0 => 0,
        1 => random.pick(&[1, 15, 16]),
        _ => random.below(MESSAGES + 1),
    };
    // One station gets most of the messages.
    let favourite = random.pick(&others);
    for (at, from) in [(SEND, &live), (RECEIVE, &others)] {
        let from = if at == SEND && state == EXCLUDED { &others } else { from };
        if from.is_empty() {
            continue;
        }
        let mut places: Vec<u8> = (0..MESSAGES as u8).collect();
        for place in (1..MESSAGES).rev() {
            places.swap(place, random.below(place + 1));
        }
        let count = count(random);
        record[at] = count as u8;
        for (slot, place) in record[at + 1..].chunks_exact_mut(6).zip(&places[..count]) {
            let other = match from.contains(&favourite) && random.once_in(2) {
                true => favourite,
                false => random.pick(from),
            };
            let priority = random.pick(&[1, 5, 5, 5, 6, 200, 255]);
            let length = payload_length(random) as u16;
            let [high, low] = length.to_be_bytes();
            let channel = random.below(8) as u8;
            slot.copy_from_slice(&[other as u8, priority, channel, *place, high, low]);
        }
    }

    if state == WAITING {
        let to = match random.below(4) {
            0 => random.pick(&others),
            1 if live.contains(&favourite) => favourite,
            _ => random.pick(&live),
        };
        let gone: Vec<usize> = others.iter().copied().filter(|p| !live.contains(p)).collect();
        let member = |random: &mut Random| match random.below(5) {
            0 => own,
            1 => to,
            2 if !gone.is_empty() => random.pick(&gone),
            3 => random.pick(&live),
            _ => random.below(members),
        } as u8;
        let number: u16 = random.pick(&[0, 1, 0x1233, 65_533, 65_534, 65_535]);
        let mut kind = random.pick(&[TOKEN, TOKEN, TRANSMIT, INFORMATION, INFORMATION]);
        if record[SEND] == 0 && kind == INFORMATION {
            kind = TOKEN;
        }
        let frame = &mut [0; 13];
        frame[0] = kind;
        frame[1] = to as u8;
        frame[2..4].copy_from_slice(&number.to_be_bytes());
        frame[4] = if kind == TOKEN { random.octet() } else { random.mark() };
        if kind == INFORMATION {
            let slot = SEND + 1 + 6 * random.below(record[SEND].into());
            record[slot] = to as u8;
            frame[4] = record[slot + 1];
            frame[9..13].copy_from_slice(&record[slot + 2..slot + 6]);
        } else {
            frame[5] = member(random);
            frame[8] = member(random);
            if kind == TOKEN && random.once_in(3) {
                frame[7] = member(random) + 1;
            }
        }
        record[AWAITED..LOST].copy_from_slice(frame);
    }
    record
}

// ---------------------------------------------------------------------------------------------
// Histories of whole rings

/// A frame on the wire.
#[derive(Clone)]
struct Frame {
    from: usize,
    to: u64,
    packet: Vec<u8>,
}

struct Simulation {
    ring: RingFile,
    stations: Vec<Both>,
    /// The last frames sent; the newest is the last.
    wire: Vec<Frame>,
    /// Frames sent in this turn.
    sent: usize,
}

impl Simulation {
    /// Makes a call on one station; what it sends goes on the wire.
    fn call(
        &mut self,
        comparison: &mut Comparison,
        random: &mut Random,
        which: usize,
        call: &Call,
        lens: Lengths,
    ) -> u32 {
        let number = comparison.call(random, &mut self.stations[which], call, lens);
        let told = comparison.plain.told();
        let sends = matches!(call, Call::Start | Call::Frame { .. } | Call::Timer);
        if number == 0 && sends && told[0] > 0 {
            let packet = comparison.plain.out[AROUND..AROUND + told[0] as usize].to_vec();
            self.wire.push(Frame { from: which, to: told[1], packet });
            self.sent += 1;
            if self.wire.len() > 6 {
                self.wire.remove(0);
            }
        }
        number
    }

    fn some_lengths(random: &mut Random) -> Lengths {
        if random.once_in(100) {
            wrong_lengths(random)
        } else {
            lengths(random)
        }
    }

    /// Hands a frame to every other station, in any order, but for some that do not hear it.
    fn deliver(
        &mut self,
        comparison: &mut Comparison,
        random: &mut Random,
        frame: &Frame,
        lost_in_100: usize,
        deaf: Option<usize>,
    ) {
        let members = self.stations.len();
        let first = random.below(members);
        for which in (first..members).chain(0..first) {
            if which == frame.from || Some(which) == deaf || random.below(100) < lost_in_100 {
                continue;
            }
            let mut packet = frame.packet.clone();
            if random.once_in(150) {
                spoil(random, &self.ring, &mut packet);
            }
            let from = self.ring.addresses[frame.from];
            let call = Call::Frame { from, to: frame.to, packet };
            let lens = Simulation::some_lengths(random);
            self.call(comparison, random, which, &call, lens);
        }
    }
}

fn history(comparison: &mut Comparison, random: &mut Random, members: usize, events: usize) {
    let ring = ring_file(random, members);
    let mut ring_now = Simulation {
        stations: (0..members).map(|_| Both::new(random)).collect(),
        wire: Vec::new(),
        sent: 0,
        ring,
    };
    for which in 0..members {
        if random.once_in(2) {
            let call = make_call(random, &ring_now.ring);
            let lens = if random.once_in(8) { wrong_lengths(random) } else { lengths(random) };
            ring_now.call(comparison, random, which, &call, lens);
        }
        let ring = &ring_now.ring;
        let call = Call::Make { file: ring.file.clone(), own: ring.addresses[which] };
        let lens = lengths(random);
        assert_eq!(ring_now.call(comparison, random, which, &call, lens), 0);
    }
    for which in (0..members).rev() {
        if random.once_in(4) {
            let call = match random.below(5) {
                0 => queue_call(random, &ring_now.ring, which),
                1 => Call::Timer,
                2 => Call::Take { channel: random.below(9) },
                3 => made_up_frame(random, &ring_now.ring, ring_now.stations[which].view()),
                _ => Call::Start,
            };
            let start = matches!(call, Call::Start);
            let lens = if start { wrong_lengths(random) } else { Simulation::some_lengths(random) };
            ring_now.call(comparison, random, which, &call, lens);
        }
        let lens = lengths(random);
        ring_now.call(comparison, random, which, &Call::Start, lens);
    }
    if random.once_in(2) {
        // Numbers and counts near their ends.
        for which in 0..members {
            let station = &mut ring_now.stations[which];
            let near = |random: &mut Random| u32::MAX - random.below(2) as u32;
            station.edit(LOST, &near(random).to_be_bytes());
            station.edit(GIVEN_UP, &near(random).to_be_bytes());
        }
        let number = 65_535 - random.below(8) as u16;
        ring_now.stations[0].edit(AWAITED + 2, &number.to_be_bytes());
        for frame in &mut ring_now.wire {
            frame.packet[2..4].copy_from_slice(&number.to_be_bytes());
        }
    }

    let lost_in_100 = random.pick(&[0, 0, 0, 1, 5, 20]);
    let forged = random.pick(&[0, 0, 1, 4]);
    let takes = random.pick(&[1, 3, 10]);
    let queues = random.pick(&[15, 30, 70]);
    // A station that hears nothing from some moment on, and whose timer does not run.
    let dies = if random.once_in(2) { random.below(events) } else { events };
    let dead = random.below(members);
    let receiver = random.pick(&ring_now.ring.addresses);
    let mut handed_over = false;
    let mut end = events;
    for turn in 0..events {
        let goes_on = |both: &Both| matches!(both.view().state(), IDLE | WAITING);
        if end == events && ring_now.stations.iter().filter(|both| goes_on(both)).count() < 2 {
            end = turn + 20;
        }
        if turn >= end {
            break;
        }
        let which = random.below(members);
        let choice = random.below(100);
        let lens = &mut Simulation::some_lengths(random);
        let newest = ring_now.wire.len() - 1;
        if choice < forged {
            let call = made_up_frame(random, &ring_now.ring, ring_now.stations[which].view());
            ring_now.call(comparison, random, which, &call, *lens);
        } else if choice < 4 + takes {
            let call = take_call(random, ring_now.stations[which].view(), lens);
            ring_now.call(comparison, random, which, &call, *lens);
        } else if choice < queues {
            let mut call = queue_call(random, &ring_now.ring, which);
            if let Call::Queue { to, .. } = &mut call {
                if random.once_in(2) {
                    *to = receiver;
                }
            }
            ring_now.call(comparison, random, which, &call, *lens);
        } else if choice < queues + 2 {
            let call = if random.once_in(2) { Call::Start } else { Call::Timer };
            ring_now.call(comparison, random, which, &call, *lens);
        } else if choice < queues + 8 {
            let frame = ring_now.wire[random.below(newest + 1)].clone();
            ring_now.deliver(comparison, random, &frame, 50, None);
        } else if !handed_over {
            let frame = ring_now.wire[newest].clone();
            let deaf = (turn >= dies).then_some(dead);
            ring_now.deliver(comparison, random, &frame, lost_in_100, deaf);
            handed_over = true;
        } else {
            // Nobody answered: the timer of the last sender, or of another that waits.
            let from = ring_now.wire[newest].from;
            let silent = turn >= dies && from == dead;
            let which = if silent || random.once_in(8) { which } else { from };
            if turn < dies || which != dead {
                ring_now.call(comparison, random, which, &Call::Timer, *lens);
            }
        }
        handed_over &= ring_now.sent == 0;
        ring_now.sent = 0;
    }
}

#[test]
fn histories() {
    let mut comparison = Comparison::new("station, histories", HISTORY_SEED);
    let random = &mut Random::new(HISTORY_SEED);
    let mut figures = Vec::new();
    let mut count = 0;
    for (members, calls) in HISTORY_CALLS {
        let before = comparison.calls;
        while comparison.calls < before + calls {
            let events = if members == 64 { 60 } else { random.pick(&[100, 400, 1500]) };
            history(&mut comparison, random, members, events);
            count += 1;
        }
        figures.push(format!("{} on rings of {members}", comparison.calls - before));
    }
    let struck: u64 = ["failing station struck", "timer: the addressee struck", "Excluded"]
        .iter()
        .filter_map(|thing| comparison.happened.get(thing))
        .sum();
    comparison.close(&format!("{count} of them, {}, {struck} strikes", figures.join(", ")));
    comparison.demand_numbers(&EVERY);
    comparison.demand_offsets();
    comparison.demand_moves();
    comparison.demand_happened(&IN_HISTORIES);
}

// ---------------------------------------------------------------------------------------------
// Made-up whole records

fn any_members(random: &mut Random) -> usize {
    match random.below(6) {
        0 => 2,
        1 | 2 => 3,
        3 => 5,
        4 => 64,
        _ => random.within(2..=64),
    }
}

fn any_call(random: &mut Random, ring: &RingFile, view: View, lens: &mut Lengths) -> Call {
    match random.below(10) {
        0 => Call::Start,
        1 | 2 => Call::Timer,
        3 | 4 => queue_call(random, ring, view.own().min(ring.addresses.len() - 1)),
        5 => take_call(random, view, lens),
        _ => made_up_frame(random, ring, view),
    }
}

#[test]
fn made_up_records() {
    let mut comparison = Comparison::new("station, made-up whole records", MADE_UP_SEED);
    let random = &mut Random::new(MADE_UP_SEED);
    let mut both = Both::new(random);
    let mut records = 0;
    while comparison.calls < MADE_UP_CALLS {
        let members = any_members(random);
        let ring = ring_file(random, members);
        for _ in 0..20 {
            let record = made_up_record(random, &ring);
            both.edit(0, &record);
            records += 1;
            for turn in 0..6 {
                if turn > 0 && !matches!(both.view().state(), IDLE | WAITING) {
                    break;
                }
                let mut lens = lengths(random);
                let view = both.view();
                let call = any_call(random, &ring, view, &mut lens);
                if random.once_in(40) {
                    lens = wrong_lengths(random);
                }
                let number = comparison.call(random, &mut both, &call, lens);
                assert!(number != 35 || lens.record != RECORD, "made up, and not whole");
            }
        }
        let call = make_call(random, &ring);
        let lens = if random.once_in(10) { wrong_lengths(random) } else { lengths(random) };
        comparison.call(random, &mut both, &call, lens);
    }
    comparison.close(&format!("{records} records"));
    comparison.demand_numbers(&EVERY);
    comparison.demand_offsets();
    comparison.demand_moves();
    comparison.demand_happened(&ON_MADE_UP);
}

// ---------------------------------------------------------------------------------------------
// Damaged records

/// Changes one thing of a record, as a slip or a torn write might.
fn damage(random: &mut Random, record: &mut [u8; RECORD], members: usize) {
    // The fields behind the ring are hit more often than the addresses.
    let at = match random.below(4) {
        0 => random.below(OWN),
        1 => random.within(OWN..=LIVE - 1),
        2 => random.within(LIVE..=SEND - 1),
        _ => random.within(SEND..=RECORD - 1),
    };
    match random.below(12) {
        0 | 1 => record[at] ^= 1 << random.below(8),
        2 => record[at] = random.octet(),
        3 => {
            let edges =
                [0, 1, 2, 5, 7, 8, 15, 16, 17, 255, members as u8 - 1, members as u8, record[OWN]];
            record[at] = random.pick(&edges);
        }
        4 => record[STATE] = random.within(0..=5) as u8,
        5 => record[RETRIES] = random.within(0..=16) as u8,
        6 => record[AWAITED + random.below(13)] = random.pick(&[0, 1, 2, 3, 4, 8, 16, 64, 65, 255]),
        7 => record[LIVE + random.below(members + 1).min(63)] ^= 1,
        8 => {
            // A field of a message: its other end, priority, channel, place or length.
            let list = random.pick(&[SEND, RECEIVE]);
            let field = list + 1 + 6 * random.below(MESSAGES) + random.below(6);
            record[field] = random.pick(&[0, 1, 7, 8, 15, 16, 5, 6, 212, 213, members as u8]);
        }
        9 => {
            let list = random.pick(&[SEND, RECEIVE]);
            record[list] = match random.below(3) {
                0 => record[list].wrapping_add(1),
                1 => record[list].wrapping_sub(1),
                _ => random.pick(&[0, 16, 17, 255]),
            };
        }
        10 => {
            // Two addresses exchanged, or one of them twice.
            let (a, b) = (
                member_at(record, random.below(members)),
                member_at(record, random.below(members)),
            );
            let first: [u8; 6] = record[a..a + 6].try_into().unwrap();
            record.copy_within(b..b + 6, a);
            if random.once_in(2) {
                record[b..b + 6].copy_from_slice(&first);
            }
        }
        _ => {
            // A message of one list over another.
            let slot = |random: &mut Random| {
                random.pick(&[SEND, RECEIVE]) + 1 + 6 * random.below(MESSAGES)
            };
            let (from, to) = (slot(random), slot(random));
            record.copy_within(from..from + 6, to);
        }
    }
}

#[test]
fn damaged_records() {
    let mut comparison = Comparison::new("station, damaged records", DAMAGE_SEED);
    let random = &mut Random::new(DAMAGE_SEED);
    let mut both = Both::new(random);
    let mut records = 0;
    let mut whole = 0;
    let mut lengths_wrong = 0;
    let mut check = |random: &mut Random, ring: &RingFile, record: &[u8; RECORD], base: View| {
        both.edit(0, record);
        let mut lens = lengths(random);
        let call = any_call(random, ring, base, &mut lens);
        if random.once_in(50) {
            lens = wrong_lengths(random);
            lengths_wrong += 1;
        }
        let number = comparison.call(random, &mut both, &call, lens);
        records += 1;
        if number != 35 && number != 9 {
            whole += 1;
        }
    };
    // Every bit of every octet.
    for turn in 0..48 {
        let members = [2, 3, 5, 64, 63, 33][turn % 6];
        let ring = ring_file(random, members);
        let base = made_up_record(random, &ring);
        for at in 0..RECORD {
            for bit in 0..8 {
                let mut record = base;
                record[at] ^= 1 << bit;
                check(random, &ring, &record, View(&base));
            }
        }
    }
    // One thing changed, or a few.
    for turn in 0..DAMAGED_RECORDS {
        let members = any_members(random);
        let ring = ring_file(random, members);
        let base = made_up_record(random, &ring);
        let mut record = base;
        for _ in 0..[1, 1, 1, 2, 3][turn as usize % 5] {
            damage(random, &mut record, members);
        }
        check(random, &ring, &record, View(&base));
    }
    comparison.close(&format!(
        "{records} damaged records, {whole} of them still whole, {lengths_wrong} also with lengths wrong"
    ));
    assert!(records >= DAMAGED_RECORDS && whole > records / 20 && whole < records / 2);
    comparison.demand_numbers(&EVERY[1..]);
}

// ---------------------------------------------------------------------------------------------
// The page's order of checks, and its own cases

/// A call with all that it is lent.
struct Scene {
    record: [u8; RECORD],
    lens: Lengths,
    call: Call,
}

/// A fault with the number that the page gives it.
type Fault = (u32, fn(&mut Scene));

const STORE_SHORT: Fault = (9, |scene| scene.lens.store = STORE - 1);
const OUT_SHORT: Fault = (9, |scene| scene.lens.out = OUT - 1);
const RECORD_LONG: Fault = (35, |scene| scene.lens.record = RECORD + 1);
const RETRIES_ABOVE: Fault = (35, |scene| scene.record[RETRIES] = 16);
/// All live and nothing awaited: Offline, Idle; only the state differs.
const NOT_STARTED: Fault = (22, |scene| {
    scene.record[STATE] = OFFLINE;
    scene.record[LIVE + 2] = 1;
});
const STARTED: Fault = (23, |scene| scene.record[STATE] = IDLE);
const FROM_NOBODY: Fault = (13, |scene| {
    if let Call::Frame { from, .. } = &mut scene.call {
        *from = 99;
    }
});
const PACKET_SHORT: Fault = (10, |scene| {
    if let Call::Frame { packet, .. } = &mut scene.call {
        packet.truncate(45);
    }
});
const IDENTIFIER: Fault = (11, |scene| {
    if let Call::Frame { packet, .. } = &mut scene.call {
        packet[0] = 4;
    }
});
const PAD: Fault = (12, |scene| {
    if let Call::Frame { packet, .. } = &mut scene.call {
        packet[22] = 1;
    }
});
const PRIORITY_0: Fault = (14, |scene| {
    if let Call::Queue { priority, .. } = &mut scene.call {
        *priority = 0;
    }
});
const TO_ITSELF: Fault = (15, |scene| {
    if let Call::Queue { to, .. } = &mut scene.call {
        *to = 4;
    }
});
const TO_STRUCK: Fault = (16, |scene| {
    if let Call::Queue { to, .. } = &mut scene.call {
        if *to != 4 {
            *to = 6;
        }
    }
});
const CHANNEL_8: Fault = (17, |scene| match &mut scene.call {
    Call::Queue { channel, .. } | Call::Take { channel } => *channel = 8,
    _ => {}
});
const CLOSED: Fault = (28, |scene| {
    let file = model::ring_file_2(2, 2, 1, &[2, 4, 6], &[[false; 8]; 3]);
    scene.record[..file.len()].copy_from_slice(&file);
});
const PAYLOAD_LONG: Fault = (18, |scene| {
    if let Call::Queue { payload, .. } = &mut scene.call {
        payload.resize(PLACE + 1, 0);
    }
});
const SEND_LIST_FULL: Fault = (19, |scene| fill_list(&mut scene.record, SEND, 16, 1));
const NO_MESSAGE: Fault = (20, |scene| {
    if let Call::Take { channel: channel @ 0..8 } = &mut scene.call {
        *channel = 2;
    }
});
const ROOM_SHORT: Fault = (21, |scene| scene.lens.room = 99);

fn spoil_file(scene: &mut Scene, change: fn(&mut Vec<u8>)) {
    if let Call::Make { file, .. } = &mut scene.call {
        change(file);
    }
}
const FORM: Fault = (2, |scene| spoil_file(scene, |file| file[0] |= 0x20));
const ZERO_BITS: Fault = (3, |scene| spoil_file(scene, |file| file[1] |= 1));
const ONE_MEMBER: Fault = (4, |scene| spoil_file(scene, |file| file[1] &= 0x3F));
const NO_RETRY: Fault = (5, |scene| spoil_file(scene, |file| file[1] &= 0xC3));
const FILE_LONG: Fault = (1, |scene| spoil_file(scene, |file| file.push(0)));
const BAD_ADDRESS: Fault = (6, |scene| spoil_file(scene, |file| file[2] |= 1));
const SEEN_EARLIER: Fault = (7, |scene| spoil_file(scene, |file| file.copy_within(8..14, 14)));
const OWN_ABSENT: Fault = (8, |scene| {
    if let Call::Make { own, .. } = &mut scene.call {
        *own = 5;
    }
});

/// Messages of 100 octets on channel 1.
fn fill_list(record: &mut [u8; RECORD], list: usize, count: u8, other: u8) {
    record[list] = count;
    for place in 0..count {
        let slot = list + 1 + 6 * usize::from(place);
        record[slot..slot + 6].copy_from_slice(&[other - 1, 5, 1, place, 0, 100]);
    }
}

/// Every set of faults: the first of them in the page's order gives its number.
fn first_of_every_set(call: Call, state: u8, faults: &[Fault], comparison: &mut Comparison) {
    let random = &mut Random::new(comparison.seed);
    let both = &mut Both::new(random);
    let file = model::ring_file(1, 2, 2, 0, &[2, 4, 6]);
    let mut record = [0; RECORD];
    record[..file.len()].copy_from_slice(&file);
    record[OWN] = 1;
    record[STATE] = state;
    record[LIVE..LIVE + 3].fill(1);
    if state != OFFLINE {
        record[LIVE + 2] = 0;
    }
    fill_list(&mut record, RECEIVE, 3, 1);
    for set in 0..1u32 << faults.len() {
        let lens = Lengths { record: RECORD, store: STORE, out: OUT, room: 100 };
        let mut scene = Scene { record, lens, call: call.clone() };
        let chosen = || faults.iter().enumerate().filter(|(place, _)| set >> place & 1 == 1);
        for (_, (_, fault)) in chosen() {
            fault(&mut scene);
        }
        let expected = chosen().next().map_or(0, |(_, (number, _))| *number);
        both.edit(0, &scene.record);
        let given = comparison.call(random, both, &scene.call, scene.lens);
        assert_eq!(rtep::number(given), expected, "{}: set {set:b}", call.text());
    }
}

#[test]
fn order_of_checks() {
    let mut comparison = Comparison::new("station, order of checks", 1);
    let file = model::ring_file(1, 2, 2, 0, &[2, 4, 6]);
    let token = Packet::Token { priority: 0, number: 7, master: 2, failing: None, named: 2 };
    let make = Call::Make { file, own: 4 };
    let frame = Call::Frame { from: 2, to: 4, packet: token.octets() };
    let queue = Call::Queue { to: 2, priority: 5, channel: 1, payload: vec![9; 100] };
    let take = Call::Take { channel: 1 };
    let sets: [(Call, u8, &[Fault]); 8] = [
        (make.clone(), IDLE, &[RECORD_LONG, FORM, ZERO_BITS, ONE_MEMBER, NO_RETRY, FILE_LONG]),
        (make, IDLE, &[RECORD_LONG, FILE_LONG, BAD_ADDRESS, SEEN_EARLIER, OWN_ABSENT]),
        (Call::Start, OFFLINE, &[OUT_SHORT, RECORD_LONG, RETRIES_ABOVE, STARTED]),
        (Call::Timer, IDLE, &[STORE_SHORT, OUT_SHORT, RECORD_LONG, RETRIES_ABOVE, NOT_STARTED]),
        (
            frame.clone(),
            IDLE,
            &[STORE_SHORT, RECORD_LONG, NOT_STARTED, FROM_NOBODY, IDENTIFIER, PAD],
        ),
        (
            frame,
            IDLE,
            &[OUT_SHORT, RETRIES_ABOVE, NOT_STARTED, FROM_NOBODY, PACKET_SHORT, IDENTIFIER, PAD],
        ),
        (
            queue,
            IDLE,
            &[
                STORE_SHORT,
                RECORD_LONG,
                RETRIES_ABOVE,
                NOT_STARTED,
                PRIORITY_0,
                TO_ITSELF,
                TO_STRUCK,
                CHANNEL_8,
                CLOSED,
                PAYLOAD_LONG,
                SEND_LIST_FULL,
            ],
        ),
        (take, IDLE, &[STORE_SHORT, RECORD_LONG, RETRIES_ABOVE, CHANNEL_8, NO_MESSAGE, ROOM_SHORT]),
    ];
    let count: usize = sets.iter().map(|(_, _, faults)| 1 << faults.len()).sum();
    for (call, state, faults) in sets {
        first_of_every_set(call, state, faults, &mut comparison);
    }
    comparison.close(&format!("{count} sets of faults"));
}

/// The page's ten frames, on a perfect wire: number, kind, sender, addressee, priority.
#[test]
fn page_frames() {
    let mut comparison = Comparison::new("station, the page's ten frames", 2);
    let random = &mut Random::new(2);
    let addresses = vec![1, 2, 3];
    let file = model::ring_file(1, 2, 1, 0, &addresses);
    let ring = RingFile { file, limit: 1, addresses };
    let stations = (0..3).map(|_| Both::new(random)).collect();
    let mut bench = Simulation { ring, stations, wire: Vec::new(), sent: 0 };
    let lens = Lengths { record: RECORD, store: STORE, out: OUT, room: PLACE };
    let mut run = |bench: &mut Simulation, which: usize, call: Call| {
        assert_eq!(bench.call(&mut comparison, random, which, &call, lens), 0, "{}", call.text());
    };
    for which in 0..3 {
        let call = Call::Make { file: bench.ring.file.clone(), own: which as u64 + 1 };
        run(&mut bench, which, call);
    }
    for which in (0..3).rev() {
        run(&mut bench, which, Call::Start);
    }
    run(&mut bench, 1, Call::Queue { to: 3, priority: 5, channel: 0, payload: vec![7; 100] });
    run(&mut bench, 0, Call::Queue { to: 2, priority: 9, channel: 0, payload: vec![] });
    let expected: [(u16, u8, usize, u64, u8, usize); 10] = [
        (0, TOKEN, 0, 1, 0, 46),
        (1, TOKEN, 1, 2, 5, 46),
        (2, TOKEN, 2, 0, 5, 46),
        (3, TRANSMIT, 0, 1, 5, 46),
        (4, INFORMATION, 1, 2, 5, 108),
        (5, TOKEN, 2, 0, 0, 46),
        (6, TOKEN, 0, 1, 9, 46),
        (7, TOKEN, 1, 2, 9, 46),
        (8, TRANSMIT, 2, 0, 9, 46),
        (9, INFORMATION, 0, 1, 9, 46),
    ];
    for (turn, frame) in expected.iter().enumerate() {
        assert_eq!((bench.sent, bench.wire.len()), (1, 6.min(turn + 1)));
        bench.sent = 0;
        let Frame { from, to, packet } = bench.wire.last().unwrap().clone();
        let number = u16::from_be_bytes([packet[2], packet[3]]);
        assert_eq!((number, packet[0], from, to - 1, packet[1], packet.len()), *frame);
        for which in (0..3).filter(|which| *which != from) {
            let call = Call::Frame { from: from as u64 + 1, to, packet: packet.clone() };
            run(&mut bench, which, call);
        }
    }
    // R is 1: the second timer strikes.
    let (to, from) = (bench.wire.last().unwrap().to, bench.wire.last().unwrap().from);
    run(&mut bench, from, Call::Timer);
    run(&mut bench, from, Call::Timer);
    let struck = (0..3).filter(|which| !bench.stations[from].view().live(*which));
    assert_eq!(struck.collect::<Vec<_>>(), [to as usize - 1]);
    comparison.close("10 frames, then the second timer strikes");
}
