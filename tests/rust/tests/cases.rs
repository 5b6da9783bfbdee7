//! Cases with a name, each by itself: ring files, packets, the table of moves, and what a station does
//! and tells, rule by rule. `cases.txt` has a line for each, with its answer, under the page's headings.
//!
//! Stations are made ready by the calls themselves. Rings have four members, R = 1, and position i has
//! address 2(i + 1); messages have 10 octets on channel 0 unless said otherwise.

use rtep::model::station::{Frame, Kind, Message, State, Station, OUT, PLACE, RECORD, STORE};
use rtep::model::{ring_file, ring_file_2, Open, Packet};
use std::fmt::Write;

const EXPECTED: &str = include_str!("cases.txt");

#[test]
fn cases() {
    let mut told = Told(String::new());
    ring_files(&mut told);
    ring_files_of_form_2(&mut told);
    ring_files_in_another_form(&mut told);
    packets_read(&mut told);
    packets_read_bad_at(&mut told);
    packets_written(&mut told);
    moves(&mut told);
    starts(&mut told);
    checks(&mut told);
    acknowledged(&mut told);
    failing_stations(&mut told);
    nothing_more(&mut told);
    token_back(&mut told);
    other_token(&mut told);
    granted_and_informed(&mut told);
    timer_again(&mut told);
    timer_passed_on(&mut told);
    timer_round(&mut told);
    timer_alone(&mut told);
    queues(&mut told);
    takes(&mut told);
    for (number, (line, expected)) in told.0.lines().zip(EXPECTED.lines()).enumerate() {
        assert_eq!(line, expected, "line {}", number + 1);
    }
    assert_eq!(told.0.lines().count(), EXPECTED.lines().count());
}

// ---------------------------------------------------------------------------------------------
// A station, and its calls

#[derive(Clone)]
struct Made {
    record: Vec<u8>,
    store: Vec<u8>,
}

/// What a call gave: the station after it, the number, and what it told.
struct Gave {
    after: Made,
    number: u32,
    out: Vec<u8>,
    told: [u64; 84],
}

fn address(position: usize) -> u64 {
    2 * (position as u64 + 1)
}

fn position(address: u64) -> usize {
    address as usize / 2 - 1
}

fn made(members: usize, limit: u64, own: usize) -> Made {
    let addresses: Vec<u64> = (0..members).map(address).collect();
    made_of(&ring_file(1, members as u64 - 1, limit, 0, &addresses), own)
}

fn made_of(file: &[u8], own: usize) -> Made {
    let mut made = Made { record: vec![0; RECORD], store: vec![0; STORE] };
    assert_eq!(rtep::make(&mut made.record, file, address(own)), 0);
    made
}

fn idle(own: usize) -> Made {
    made(4, 1, own).start().after
}

/// A frame over positions; of its message only the fields that a packet has count.
fn packet(frame: &Frame) -> Vec<u8> {
    let number = frame.number;
    let octets = [0; PLACE];
    match frame.kind {
        Kind::Token { priority, master, failing, named } => Packet::Token {
            priority,
            number,
            master: address(master),
            failing: failing.map(address),
            named: address(named),
        },
        Kind::Transmit { priority, master, named } => {
            let (master, named) = (address(master), address(named));
            Packet::TransmitToken { priority, number, master, named }
        }
        Kind::Information(Message { priority, channel, length, .. }) => {
            let information = &octets[..length];
            Packet::Information { priority, number, channel: channel.into(), information }
        }
    }
    .octets()
}

impl Made {
    fn station(&self) -> Station {
        Station::read(&self.record).expect("it is whole").0
    }

    fn call(&self, call: impl FnOnce(&mut Made, &mut [u8], &mut [u64; 84]) -> u32) -> Gave {
        let (mut after, mut out, mut told) = (self.clone(), vec![0; OUT], [0; 84]);
        let number = call(&mut after, &mut out, &mut told);
        Gave { after, number, out, told }
    }

    fn start(&self) -> Gave {
        self.call(|made, out, told| rtep::start(&mut made.record, out, told))
    }

    fn timer(&self) -> Gave {
        self.call(|made, out, told| rtep::timer(&mut made.record, &made.store, out, told))
    }

    fn frame(&self, frame: Frame) -> Gave {
        let (from, to) = (address(frame.from), address(frame.to));
        self.call(|made, out, told| {
            rtep::frame(&mut made.record, &mut made.store, from, to, &packet(&frame), out, told)
        })
    }

    fn queue(&self, to: usize, priority: usize, channel: usize, length: usize) -> Gave {
        let payload = vec![0; length];
        self.call(|made, _, _| {
            let Made { record, store } = made;
            rtep::queue(record, store, address(to), priority, channel, &payload)
        })
    }

    fn take(&self, channel: usize, room: usize) -> Gave {
        let mut room = vec![0; room];
        self.call(|made, _, _| {
            rtep::take(&mut made.record, &made.store, channel, &mut room, &mut [0; 4])
        })
    }

    fn heard(&self, frame: Frame) -> Made {
        self.frame(frame).after
    }

    fn rung(&self) -> Made {
        self.timer().after
    }

    /// A message more.
    fn with(&self, to: usize, priority: usize) -> Made {
        self.queue(to, priority, 0, 10).after
    }

    /// It hears `from` tell `to` that `fails` fails, with a number that acknowledges no frame here.
    fn told(&self, fails: usize, from: usize, to: usize) -> Made {
        self.heard(token(9, 0, from, from).failing(fails).way(from, to))
    }

    /// Station 1 has passed on the token 10 of master 0, with priority 5, as 11 to its successor.
    fn passed(&self, named: usize) -> Made {
        self.heard(token(10, 5, 0, named))
    }

    /// Station 1 was told by number 10 to send, and awaits the acknowledgement of 11, its head.
    fn granted(&self) -> Made {
        self.heard(transmit(10, 5, 0, 1))
    }

    /// Station 1 receives a message from 0 and is acknowledged by its successor.
    fn received(&self, number: u16, priority: u8, channel: u8) -> Made {
        let stored = self.heard(information(number, priority, channel));
        stored.heard(token(number + 2, 0, 0, 0).way(2, 3))
    }

    /// On channel 0 a message of priority 5 and two of 7, and on channel 1 one of 5.
    fn four_in(&self) -> Made {
        self.received(30, 5, 0).received(40, 5, 1).received(50, 7, 0).received(60, 7, 0)
    }

    /// 15 messages that wait.
    fn fifteen_out(&self) -> Made {
        let four = [(2, 5), (0, 5), (2, 7), (0, 7)];
        let fifteen = four.into_iter().cycle().take(15);
        fifteen.fold(self.clone(), |made, (to, priority)| made.with(to, priority))
    }

    /// Both counts where they stop, too far for calls.
    fn at_stop(&self) -> Made {
        let mut made = self.clone();
        made.record[469..477].fill(0xFF);
        made
    }
}

// ---------------------------------------------------------------------------------------------
// Frames, from 0 to 1 unless said otherwise

fn frame(number: u16, kind: Kind) -> Frame {
    Frame { from: 0, to: 1, number, kind }
}

fn token(number: u16, priority: u8, master: usize, named: usize) -> Frame {
    frame(number, Kind::Token { priority, master, failing: None, named })
}

fn transmit(number: u16, priority: u8, master: usize, named: usize) -> Frame {
    frame(number, Kind::Transmit { priority, master, named })
}

fn information(number: u16, priority: u8, channel: u8) -> Frame {
    frame(number, Kind::Information(Message { other: 0, priority, channel, place: 0, length: 10 }))
}

trait Changed {
    fn way(self, from: usize, to: usize) -> Frame;
    fn failing(self, fails: usize) -> Frame;
}

impl Changed for Frame {
    fn way(self, from: usize, to: usize) -> Frame {
        Frame { from, to, ..self }
    }

    fn failing(mut self, fails: usize) -> Frame {
        if let Kind::Token { failing, .. } = &mut self.kind {
            *failing = Some(fails);
        }
        self
    }
}

// ---------------------------------------------------------------------------------------------
// A line for each case

struct Told(String);

macro_rules! tell {
    ($told:expr, $($text:tt)*) => { write!($told.0, $($text)*).unwrap() };
}

fn frame_text(frame: &Frame) -> String {
    let Frame { from, to, number, kind } = *frame;
    let first = |letter: char, priority: u8| {
        format!("{number} {letter} {from} to {to} priority {priority}")
    };
    match kind {
        Kind::Token { priority, master, failing, named } => {
            let failing = failing.map_or(String::new(), |fails| format!(" failing {fails}"));
            format!("{} master {master}{failing} named {named}", first('T', priority))
        }
        Kind::Transmit { priority, master, named } => {
            format!("{} master {master} named {named}", first('G', priority))
        }
        Kind::Information(Message { priority, channel, length, .. }) => {
            format!("{} channel {channel} length {length}", first('I', priority))
        }
    }
}

/// The frame of a packet that was sent.
fn sent(from: usize, gave: &Gave) -> Frame {
    let members = gave.after.station().ring.addresses;
    let packet = rtep::model::read(&members, &gave.out[..gave.told[0] as usize]).expect("it reads");
    let (number, kind) = match packet {
        Packet::Token { priority, number, master, failing, named } => {
            let (master, named) = (position(master), position(named));
            (number, Kind::Token { priority, master, failing: failing.map(position), named })
        }
        Packet::TransmitToken { priority, number, master, named } => {
            (number, Kind::Transmit { priority, master: position(master), named: position(named) })
        }
        Packet::Information { priority, number, channel, information } => {
            let (channel, length) = (channel as u8, information.len());
            (number, Kind::Information(Message { other: 0, priority, channel, place: 0, length }))
        }
    };
    Frame { from, to: position(gave.told[1]), number, kind }
}

impl Told {
    fn title(&mut self, words: &str) {
        tell!(self, "{words}\n");
    }

    fn answer(&mut self, words: &str, number: u32) {
        tell!(self, "  {words}: {number}\n");
    }

    /// A count, unless it is 0.
    fn some(&mut self, words: &str, count: impl Into<u64>) {
        let count = count.into();
        if count != 0 {
            tell!(self, "{words}{count}");
        }
    }

    /// Position, state, the frame awaited, the retry count, the head's priority, who is struck.
    fn begin(&mut self, words: &str, made: &Made) {
        let station = made.station();
        tell!(self, "  {words}: station {} {:?}", station.own, station.state);
        if let Some(frame) = &station.awaited {
            tell!(self, " for {}", frame_text(frame));
        }
        self.some(" retries ", station.retries);
        self.some(" head ", station.head().map_or(0, |message| message.priority));
        for (position, _) in station.live.iter().enumerate().filter(|(_, live)| !**live) {
            tell!(self, " without {position}");
        }
    }

    fn number(&mut self, gave: &Gave) {
        tell!(self, " -> {} {:?}", gave.number, gave.after.station().state);
    }

    /// The message that joined a list or left it, and each count that is not 0.
    fn rest(&mut self, before: &Made, gave: &Gave) {
        let (before, after) = (before.station(), gave.after.station());
        let joined =
            |old: &[Message], new: &[Message]| new.iter().find(|m| !old.contains(m)).copied();
        let message = joined(&before.send, &after.send)
            .or(joined(&before.receive, &after.receive))
            .or(joined(&after.receive, &before.receive));
        if let Some(Message { other, priority, channel, place, length }) = message {
            tell!(self, ", message with {other} priority {priority} channel {channel}");
            tell!(self, " length {length} place {place}");
        }
        self.some(", retries ", after.retries);
        self.some(", send list ", after.send.len() as u64);
        self.some(", receive list ", after.receive.len() as u64);
        self.some(", lost in all ", after.lost);
        self.some(", given up in all ", after.given_up);
        tell!(self, "\n");
    }

    /// Number, state, the frame sent, who is newly struck, the messages given up in order, the rest.
    fn gave(&mut self, before: &Made, gave: &Gave) {
        self.number(gave);
        let told = &gave.told;
        match told[0] {
            0 => tell!(self, ", sends nothing"),
            _ => tell!(self, ", sends {}", frame_text(&sent(before.station().own, gave))),
        }
        match told[2] {
            0 => tell!(self, ", struck none"),
            struck => tell!(self, ", struck {}", position(struck)),
        }
        tell!(self, ", given up {}", told[3]);
        for numbers in told[4..].chunks_exact(5).take(told[3] as usize) {
            tell!(self, " (to {} place {})", position(numbers[0]), numbers[4]);
        }
        self.rest(before, gave);
    }

    fn start(&mut self, words: &str, made: &Made) {
        self.begin(words, made);
        tell!(self, ", starts");
        self.gave(made, &made.start());
    }

    fn frame(&mut self, words: &str, made: &Made, frame: Frame) {
        self.begin(words, made);
        tell!(self, ", hears {}", frame_text(&frame));
        self.gave(made, &made.frame(frame));
    }

    fn timer(&mut self, words: &str, made: &Made) {
        self.begin(words, made);
        tell!(self, ", timer with R {}", made.station().ring.retry_limit);
        self.gave(made, &made.timer());
    }

    /// Queue and take never send, strike or give up.
    fn queue(&mut self, words: &str, made: &Made, [to, priority, channel, length]: [usize; 4]) {
        self.begin(words, made);
        tell!(self, ", queue to {to} priority {priority} channel {channel} length {length}");
        let gave = made.queue(to, priority, channel, length);
        self.number(&gave);
        self.rest(made, &gave);
    }

    fn take(&mut self, words: &str, made: &Made, channel: usize, room: usize) {
        self.begin(words, made);
        tell!(self, ", take channel {channel} room {room}");
        let gave = made.take(channel, room);
        self.number(&gave);
        self.rest(made, &gave);
    }
}

// ---------------------------------------------------------------------------------------------
// Ring files and packets

/// A file with some octets changed.
fn changed(octets: &[u8], changes: &[(usize, u8)]) -> Vec<u8> {
    let mut changed = octets.to_vec();
    changes.iter().for_each(|(at, octet)| changed[*at] = *octet);
    changed
}

fn ring_files(told: &mut Told) {
    told.title("ring files");
    let good = ring_file(1, 2, 2, 0, &[2, 4, 6]);
    let mut case = |words: &str, file: &[u8]| told.answer(words, rtep::ring(file, &mut [0; 66]));
    case("N = 3, R = 2", &good);
    case("no octet", &good[..0]);
    case("one octet", &good[..1]);
    case("two octets that promise three addresses", &good[..2]);
    case("one octet short", &good[..19]);
    let mut odd = |words: &str, changes: &[(usize, u8)]| case(words, &changed(&good, changes));
    odd("form number 3", &[(0, 0x30)]);
    odd("a zero bit set", &[(1, 0x89)]);
    odd("N = 1", &[(1, 0x08)]);
    odd("R = 0", &[(1, 0x80)]);
    odd("form 3, a zero bit and R = 0 at once", &[(0, 0x30), (1, 0x81)]);
    odd("the second address is zero", &[(13, 0)]);
    odd("the first address has its lowest first bit set", &[(2, 1)]);
    odd("the third address is the first again", &[(19, 2)]);
    odd("the second is the first again, and the third is bad", &[(13, 2), (14, 1)]);
}

const ALL: Open = [true; 8];
const NONE: Open = [false; 8];
/// All channels but 3.
const NOT_3: Open = [true, true, true, false, true, true, true, true];

fn ring_files_of_form_2(told: &mut Told) {
    told.title("ring files of form 2");
    let good = ring_file_2(2, 2, 1, &MEMBERS, &[ALL, NOT_3, NONE]);
    let mut case = |words: &str, file: &[u8]| told.answer(words, rtep::ring(file, &mut [0; 66]));
    case("N = 3, R = 2, version 1", &good);
    case("one octet short", &good[..22]);
    case("the length of form 1", &good[..20]);
    let mut odd = |words: &str, changes: &[(usize, u8)]| case(words, &changed(&good, changes));
    odd("version 2", &[(1, 0x8A)]);
    odd("version 0", &[(1, 0x88)]);
    odd("version 3", &[(1, 0x8B)]);
    odd("version 3, N = 1 and R = 0 at once", &[(1, 0x03)]);
    odd("N = 1 and R = 0 at once", &[(1, 0x01)]);
    odd("the second address has its lowest first bit set", &[(9, 1)]);
    odd("the third address is the first again, with other channels", &[(21, 2)]);
}

fn ring_files_in_another_form(told: &mut Told) {
    told.title("ring files in another form");
    let first = ring_file(1, 2, 2, 0, &MEMBERS);
    let plain = ring_file_2(2, 2, 1, &MEMBERS, &[ALL; 3]);
    let closed = ring_file_2(2, 2, 1, &MEMBERS, &[ALL, ALL, NOT_3]);
    let second = ring_file_2(2, 2, 2, &MEMBERS, &[ALL; 3]);
    let bad = ring_file_2(2, 2, 3, &MEMBERS, &[NONE; 3]);
    let mut case = |words: &str, asked: u64, file: &[u8], given: &[u8]| {
        let (mut out, mut octets) = ([0; 450], [0]);
        told.answer(words, rtep::to_form(asked, file, &mut out, &mut octets));
        assert_eq!(&out[..octets[0] as usize], given, "{words}");
    };
    case("form 1 to form 2", 2, &first, &plain);
    case("version 1 and all channels open, to form 1", 1, &plain, &first);
    case("form 1 to form 1", 1, &first, &first);
    case("a closed channel, to form 2", 2, &closed, &closed);
    case("a closed channel, to form 1", 1, &closed, b"");
    case("version 2, to form 1", 1, &second, b"");
    case("version 3 and closed channels, to form 1", 1, &bad, b"");
}

const MEMBERS: [u64; 3] = [2, 4, 6];

/// Number 9 of a token from master 2 for named station 4.
const TOKEN: Packet = Packet::Token { priority: 5, number: 9, master: 2, failing: None, named: 4 };
/// Three octets of information on channel 7, with priority 255.
const NOTICE: Packet =
    Packet::Information { priority: 255, number: 9, channel: 7, information: &[10, 20, 30] };

fn packets_read(told: &mut Told) {
    told.title("packets read");
    let mut case = |words: &str, packet: &[u8]| {
        told.answer(words, rtep::number(rtep::read(&MEMBERS, packet, &mut [0; 8])));
    };
    let (token, notice) = (TOKEN.octets(), NOTICE.octets());
    case("token", &token);
    case("45 octets", &token[..45]);
    case("1,501 octets", &[3; 1501]);
    let mut odd = |words: &str, changes: &[(usize, u8)]| case(words, &changed(&token, changes));
    odd("identifier 0", &[(0, 0)]);
    odd("identifier 4", &[(0, 4)]);
    odd("transmit token", &[(0, 2)]);
    odd("transmit token of priority 0", &[(0, 2), (1, 0)]);
    odd("token of priority 0", &[(1, 0)]);
    odd("token with the failing station 6", &[(15, 6)]);
    odd("token with a failing station that is no member", &[(15, 8)]);
    odd("transmit token with a failing station", &[(0, 2), (15, 6)]);
    odd("master that is no member", &[(9, 8)]);
    odd("last pad octet not zero", &[(45, 1)]);
    let mut odd = |words: &str, changes: &[(usize, u8)]| case(words, &changed(&notice, changes));
    odd("information of 3 octets", &[]);
    odd("information of priority 0", &[(1, 0)]);
    odd("channel 8", &[(5, 8)]);
    odd("an octet past the information not zero", &[(7, 2)]);
    odd("39 octets of information in 46", &[(7, 39)]);
    let most = Packet::Information { priority: 1, number: 0, channel: 0, information: &[0; 1492] };
    case("information of 1,492 octets", &most.octets());
    case("information of 1,493 octets in 1,500", &changed(&most.octets(), &[(7, 213)]));
}

fn packets_read_bad_at(told: &mut Told) {
    told.title("packets read: where a packet is bad");
    let mut case = |words: &str, packet: &[u8]| {
        let given = rtep::read(&MEMBERS, packet, &mut [0; 8]);
        let (number, offset) = (rtep::number(given), rtep::offset(given));
        tell!(told, "  {words}: {number} at {offset}\n");
    };
    let long = |octets: Vec<u8>| [octets, vec![0]].concat();
    let (token, notice) = (TOKEN.octets(), NOTICE.octets());
    let mut odd = |words: &str, changes: &[(usize, u8)]| case(words, &changed(&token, changes));
    odd("master that is no member, by its last octet", &[(9, 8)]);
    odd("failing station that is no member", &[(15, 8)]);
    odd("named station that is no member", &[(21, 8)]);
    odd("transmit token of priority 0", &[(0, 2), (1, 0)]);
    odd("transmit token with a failing station", &[(0, 2), (15, 6)]);
    odd("last pad octet not zero", &[(45, 1)]);
    odd("first and last pad octet not zero", &[(45, 1), (22, 1)]);
    odd("named station and master no members", &[(21, 8), (9, 8)]);
    odd("named station no member, and a pad octet not zero", &[(21, 8), (30, 1)]);
    case("a token of 47 octets", &long(token.clone()));
    case("a token of 47 octets, the last not zero", &changed(&long(token.clone()), &[(46, 1)]));
    case("a token of 47 octets, a pad octet not zero", &changed(&long(token.clone()), &[(45, 1)]));
    let mut odd = |words: &str, changes: &[(usize, u8)]| case(words, &changed(&notice, changes));
    odd("information of priority 0, on channel 8", &[(1, 0), (5, 8)]);
    odd("channel 8", &[(5, 8)]);
    odd("channel 256", &[(4, 1), (5, 0)]);
    odd("an octet past the information not zero", &[(7, 2)]);
    odd("39 octets of information in 46", &[(7, 39)]);
    odd("39 octets of information in 46, on channel 8", &[(5, 8), (7, 39)]);
    case("3 octets of information in 47", &long(notice.clone()));
    case("3 octets in 47, a pad octet not zero", &changed(&long(notice.clone()), &[(11, 1)]));
    let most = Packet::Information { priority: 1, number: 0, channel: 0, information: &[0; 1492] };
    case("1,493 octets of information in 1,500", &changed(&most.octets(), &[(7, 213)]));
}

fn packets_written(told: &mut Told) {
    told.title("packets written");
    let mut case = |words: &str, packet: [u64; 8], information: &[u8], out: usize| {
        let mut out = vec![0; out];
        told.answer(words, rtep::write(&MEMBERS, &packet, information, &mut out, &mut [0; 2]));
    };
    let (token, notice) = (TOKEN.numbers(), NOTICE.numbers());
    let odd = |numbers: [u64; 8], at: usize, number: u64| {
        let mut odd = numbers;
        odd[at] = number;
        odd
    };
    case("token", token, b"", 1500);
    case("token with a named station that is no member", odd(token, 5, 8), b"", 1500);
    case("token with octets of information", token, b"abc", 1500);
    case("transmit token of priority 0", odd(odd(token, 0, 2), 1, 0), b"", 1500);
    case("information of 3 octets", notice, b"abc", 1500);
    case("information of 3 octets, with 2", notice, b"ab", 1500);
    case("information on channel 8", odd(notice, 6, 8), b"abc", 1500);
    case("token, into 1,499 octets", token, b"", 1499);
    let stranger = odd(token, 3, 8);
    case("token with a master that is no member, into 1,499 octets", stranger, b"", 1499);
}

// ---------------------------------------------------------------------------------------------
// Moves and start

fn moves(told: &mut Told) {
    told.title("table of moves (take always runs, and finds no message here)");
    let s = idle(1);
    let alone = s.told(0, 2, 3).told(3, 2, 0).told(2, 2, 3);
    for made in [made(4, 1, 1), s.clone(), s.passed(0), alone, s.told(1, 2, 3)] {
        let state: State = made.station().state;
        let frame = made.frame(token(12, 5, 0, 0)).number;
        let (queue, take) = (made.queue(0, 5, 0, 10).number, made.take(0, 10).number);
        let (start, timer) = (made.start().number, made.timer().number);
        tell!(told, "  {state:?}: start {start}, frame {frame}, timer {timer}");
        tell!(told, ", queue {queue}, take {take}\n");
    }
}

fn starts(told: &mut Told) {
    told.title("start");
    told.start("station 0 starts a round with frame number 0 and waits", &made(4, 1, 0));
    told.start("others become Idle", &made(4, 1, 1));
    told.start("not Offline any more", &idle(1));
}

// ---------------------------------------------------------------------------------------------
// Heard frames. Station 1 unless said otherwise

fn checks(told: &mut Told) {
    told.title("heard frame, 1: checks");
    let s = idle(1).told(3, 2, 0);
    let f = token(12, 5, 0, 0);
    told.frame("sender no member", &s, f.way(4, 1));
    told.frame("addressee no member", &s, f.way(0, 4));
    told.frame("both the same", &s, f.way(2, 2));
    told.frame("sender not live", &s, f.way(3, 1));
    told.frame("sender this station", &s, f.way(1, 2));
    told.frame("addressee not live, no refusal", &s, f.way(0, 3));
    told.frame("Offline, 22 before 13", &made(4, 1, 1), f.way(4, 1));
}

fn acknowledged(told: &mut Told) {
    told.title("heard frame, 2: acknowledgement");
    let s = idle(1).passed(0);
    let f = token(12, 5, 0, 0).way(2, 3);
    told.frame("from its addressee with the number after its own frame's, becomes Idle", &s, f);
    told.frame("a later number, becomes Idle", &s, token(13, 5, 0, 0).way(2, 3));
    told.frame("another sender, becomes Idle", &s, f.way(3, 0));
    told.frame("another kind to another, becomes Idle", &s, transmit(15, 5, 3, 0).way(3, 0));
    told.frame("another sender and kind, then handled", &s, transmit(15, 5, 3, 1).way(3, 1));
    told.frame("its own frame's number, still Waiting", &s, token(11, 5, 0, 0).way(2, 3));
    told.frame("32,767 ahead, becomes Idle", &s, token(32778, 5, 0, 0).way(2, 3));
    told.frame("32,768 ahead, still Waiting", &s, token(32779, 5, 0, 0).way(2, 3));
    told.frame("the number before, still Waiting", &s, token(10, 5, 0, 0).way(2, 3));
    told.frame("not Waiting, nothing to acknowledge", &idle(1), f);
    let last = idle(1).heard(token(65534, 5, 0, 0));
    told.frame("number 65,535 by 0", &last, token(0, 5, 0, 0).way(2, 3));
    told.frame("the addressee struck meanwhile, 13", &s.told(2, 3, 0), f);
    let s = idle(1).with(3, 7).granted();
    let f = token(12, 0, 3, 3).way(3, 0);
    told.frame("a message in flight leaves the list", &s, f);
    told.frame("by another station, too", &s, token(13, 0, 3, 3).way(0, 2));
    told.frame("an earlier number, a message in flight stays", &s, token(10, 0, 3, 3).way(3, 0));
    let lost = s.heard(transmit(10, 5, 0, 1)).rung();
    let late = token(12, 0, 0, 0).failing(2).way(0, 3);
    told.frame("after losses, a message that has not arrived leaves as well", &lost, late);
    let two = idle(1).with(3, 7).with(3, 7).granted();
    told.frame("of two alike the one in flight leaves", &two, f);
    told.frame("acknowledged first, then handled", &two, f.way(3, 1));
}

fn failing_stations(told: &mut Told) {
    told.title("heard frame, 3: a token's failing station");
    let s = idle(1).with(3, 5).with(2, 5).with(3, 9);
    let here = token(12, 5, 0, 0).failing(3);
    let f = here.way(0, 2);
    told.frame("struck, waiting messages to it leave in order of acceptance", &s, f);
    told.frame("struck, then the token is handled", &s, here);
    told.frame("struck already, nobody new", &s.told(3, 2, 0), f);
    told.frame("the count of messages given up stops", &s.at_stop(), f);
    let own = here.failing(1);
    told.frame("this station, Excluded, waiting messages stay", &s, own);
    let flying = s.granted();
    let early = |f: Frame| Frame { number: 9, ..f };
    told.frame("at Excluded a message in flight is given up", &flying, early(own));
    told.frame("another, a message in flight to it stays", &flying, early(f));
    told.frame("acknowledged first, nothing in flight to give up", &flying, own.way(3, 0));
    let pair = made(2, 1, 1).start().after.with(0, 5).with(0, 7);
    let last = here.failing(0);
    told.frame("nobody else is left, Alone, nothing more happens", &pair, last);
    told.frame(
        "at Alone a message in flight is given up, after the waiting ones",
        &pair.with(0, 6).granted(),
        early(last),
    );
}

fn nothing_more(told: &mut Told) {
    told.title("heard frame, 4: nothing more");
    let f = token(12, 5, 0, 0);
    told.frame("addressed elsewhere", &idle(1), f.way(0, 2));
    let s = idle(1).passed(0);
    told.frame("still Waiting", &s, token(9, 5, 0, 0));
    let done = s.heard(f.way(2, 3));
    told.frame("number equal to the last handled one", &done, token(10, 5, 0, 0));
    told.frame(
        "otherwise a frame with the next number, Waiting with retry count 0",
        &s.rung().heard(f.way(2, 3)),
        token(14, 5, 0, 0),
    );
}

fn token_back(told: &mut Told) {
    told.title("heard frame, 5: token naming this station as master");
    let s = idle(1);
    let seven = s.with(3, 7);
    let none = token(12, 0, 1, 1);
    told.frame("priority 0 starts a round", &s, none);
    told.frame("priority 0 starts a round with its head's priority", &seven, none);
    let own = token(12, 5, 1, 1);
    told.frame("itself named sends its head", &seven, own);
    told.frame("told to send with no head, starts a round", &s, own);
    let f = token(12, 5, 1, 3);
    told.frame("otherwise a transmit token goes to the named station", &s, f);
    told.frame("a transmit token, its own list not looked at again", &seven, f);
    told.frame("told to grant to a struck station, starts a round", &s.told(3, 2, 0), f);
    told.frame("struck just now, the round carries no failing station", &s, f.failing(3));
}

fn other_token(told: &mut Told) {
    told.title("heard frame, 5: other token");
    let s = idle(1);
    let f = token(12, 5, 0, 3);
    told.frame("no head, goes to the successor", &s, f);
    told.frame("head's priority greater, priority and name are replaced", &s.with(3, 7), f);
    told.frame("head's priority equal, not replaced", &s.with(3, 5), f);
    told.frame("head's priority lower, not replaced", &s.with(2, 3), f);
    told.frame("the successor is the next live one", &s.told(2, 3, 0), f);
    told.frame("failing station kept", &s, f.failing(2));
    told.frame("the number after 65,535 is 0", &s, Frame { number: 65535, ..f });
    let unnamed = s.told(3, 2, 0);
    told.frame("named station not live, name and priority its own, 0 if no head", &unnamed, f);
    let lower = unnamed.with(2, 3);
    told.frame("named station not live, name and priority its own, head lower", &lower, f);
    told.frame("named station struck just now, failing station kept", &s, f.failing(3));
    let orphan = s.with(2, 7).told(0, 2, 3);
    told.frame("master not live, a round starts", &orphan, f.way(3, 1));
    let words = "master struck just now, the round carries no failing station";
    told.frame(words, &s, f.failing(0).way(3, 1));
}

fn granted_and_informed(told: &mut Told) {
    told.title("heard frame, 5: transmit token");
    let s = idle(1);
    let f = transmit(12, 5, 0, 1);
    told.frame("sends the head", &s.with(3, 5), f);
    let three = s.with(0, 5).with(3, 7).with(2, 7);
    told.frame("sends the highest, the earliest among equals", &three, f);
    told.frame("told to send with no head, starts a round", &s, f);
    told.title("heard frame, 5: information");
    let f = information(100, 5, 0);
    told.frame("stored, then starts a round", &s, f);
    told.frame("stored, then starts a round with its head's priority", &s.with(3, 7), f);
    let full = s.four_in().four_in().four_in().four_in();
    told.frame("counted lost, 16 are there, then starts a round", &full, f);
    told.frame("the count of messages lost stops", &full.at_stop(), f);
}

// ---------------------------------------------------------------------------------------------
// The timer. R = 1 unless said otherwise: the second timer strikes

fn timer_again(told: &mut Told) {
    told.title("timer while Waiting: retry count below R, or not");
    told.timer("Idle, does nothing and gives 0", &idle(1));
    let s = idle(1).passed(0);
    told.timer("the same frame goes again, same number, count one more", &s);
    told.timer("R = 1, the second timer strikes", &s.rung());
    let two = made(4, 2, 0).start().after;
    told.timer("R = 2, the second timer does not strike", &two.rung());
    told.timer("R = 2, the third timer strikes", &two.rung().rung());
    told.timer("retry count is 0 for the frame after it", &s.rung().rung());
}

fn timer_passed_on(told: &mut Told) {
    told.title("timer while Waiting: a token passed on for a master still live");
    let s = idle(1);
    let third = s.passed(3);
    told.timer("goes to the new successor with the next number", &third.rung());
    let words = "the struck station not named, a greater head changes nothing";
    told.timer(words, &third.with(3, 9).rung());
    let words = "the struck station named, name and priority its own, 0 if no head";
    told.timer(words, &s.passed(2).rung());
    let words = "the struck station named, name and priority its own";
    told.timer(words, &s.with(3, 4).passed(2).rung());
    let lists = s.with(2, 3).with(3, 4).with(2, 2);
    told.timer("waiting messages to it are given up in order", &lists.passed(0).rung());
    let failed = s.heard(token(10, 5, 0, 0).failing(3));
    told.timer("names the struck station as failing, not the one before", &failed.rung());
    let last = s.heard(token(65534, 5, 0, 0));
    told.timer("the number after 65,535 is 0", &last.rung());
}

fn timer_round(told: &mut Told) {
    told.title("timer while Waiting: in all other cases a round starts");
    told.timer("a token of its own", &idle(0).rung());
    let own = idle(0).with(1, 9).with(2, 3);
    told.timer("a token of its own, with the head that is left", &own.rung());
    let three = idle(3).heard(token(10, 5, 0, 2).way(2, 3));
    told.timer("a token passed on, the master itself struck", &three.rung());
    let s = idle(1).passed(3).told(0, 3, 2);
    told.timer("a token passed on, the master struck before", &s.rung());
    let asked = idle(0).heard(token(1, 5, 0, 2).way(1, 2));
    let granting = asked.heard(token(3, 5, 0, 2).way(3, 0));
    told.timer("a transmit token", &granting.rung());
    let one = idle(1).with(3, 7).granted();
    told.timer("information, the message in flight is given up", &one.rung());
    let four = idle(1).with(3, 5).with(3, 7).with(2, 6).with(3, 4);
    let words = "information, waiting messages to it, then the one in flight";
    told.timer(words, &four.granted().rung());
}

fn timer_alone(told: &mut Told) {
    told.title("timer while Waiting: alone");
    let s = made(2, 1, 0).start().after;
    told.timer("Alone, no frame", &s.rung());
    let two = s.with(1, 5).with(1, 7);
    told.timer("Alone, waiting messages are given up in order", &two.rung());
    told.title("timer while Waiting: an addressee struck earlier on hearing");
    let s = idle(1).passed(0).told(2, 3, 0);
    told.timer("is resent to in the same way", &s);
    told.timer("the last timer strikes nobody new", &s.rung());
    let flying = idle(1).with(3, 7).granted();
    told.timer("nobody new, a message in flight is given up", &flying.told(3, 2, 0).rung());
}

// ---------------------------------------------------------------------------------------------
// Queue and take. Station 1

fn queues(told: &mut Told) {
    told.title("queue");
    let s = idle(1).told(3, 2, 0);
    told.queue("accepted", &s, [2, 255, 7, 10]);
    told.queue("priority 0", &s, [2, 0, 0, 10]);
    told.queue("priority above 255", &s, [2, 256, 0, 10]);
    told.queue("destination no member", &s, [4, 5, 0, 10]);
    told.queue("destination this station", &s, [1, 5, 0, 10]);
    told.queue("destination struck out", &s, [3, 5, 0, 10]);
    told.queue("channel above 7", &s, [2, 5, 8, 10]);
    told.queue("n = 1,492 passes", &s, [2, 5, 0, 1492]);
    told.queue("n = 1,493 gets 18", &s, [2, 5, 0, 1493]);
    let fifteen = idle(1).fifteen_out();
    told.queue("message 16 passes", &fifteen, [2, 5, 0, 10]);
    let full = fifteen.with(2, 5);
    told.queue("message 17 gets 19", &full, [2, 5, 0, 10]);
    let flying = full.granted();
    told.queue("the one in flight fills its place", &flying, [2, 5, 0, 10]);
    let landed = flying.heard(token(12, 0, 3, 3).way(2, 3));
    told.queue("the place is free once it has left", &landed, [2, 5, 0, 10]);
    let full = s.fifteen_out().with(2, 5);
    told.queue("14 before 15, 17, 18 and 19", &full, [4, 0, 8, 1493]);
    told.queue("15 before 17, 18 and 19", &full, [4, 5, 8, 1493]);
    told.queue("16 before 17, 18 and 19", &full, [3, 5, 8, 1493]);
    told.queue("17 before 18 and 19", &full, [2, 5, 8, 1493]);
    told.queue("18 before 19", &full, [2, 5, 7, 1493]);
    let addresses: Vec<u64> = (0..4).map(address).collect();
    let file = ring_file_2(3, 1, 1, &addresses, &[ALL, ALL, NOT_3, NOT_3]);
    let s = made_of(&file, 1).start().after.told(3, 2, 0);
    told.queue("the destination has the channel closed", &s, [2, 5, 3, 10]);
    told.queue("another one is open", &s, [2, 5, 2, 10]);
    told.queue("another member has it open", &s, [0, 5, 3, 10]);
    let full = s.fifteen_out().with(2, 5);
    told.queue("16 before 28, 18 and 19", &full, [3, 5, 3, 1493]);
    told.queue("17 before 18 and 19, with closed channels too", &full, [2, 5, 8, 1493]);
    told.queue("28 before 18 and 19", &full, [2, 5, 3, 1493]);
}

fn takes(told: &mut Told) {
    told.title("take");
    let s = idle(1).four_in();
    told.take("channel above 7", &s, 8, 0);
    told.take("no message on the channel", &s, 2, 0);
    told.take("room shorter than the message, which stays", &s, 0, 9);
    told.take("the highest priority, the earliest among equals", &s, 0, 10);
    let t = s.take(0, 10).after;
    told.take("then the other of the two", &t, 0, 1492);
    told.take("the other channel", &t, 1, 10);
    told.frame("the place is free once it has left", &t, information(70, 5, 0));
}
