//! Holds the proved codec to the model on more than a million ring files and packets.
//!
//! Every call lends numbers and octets that hold random values before, with more of them on both
//! sides, and compares all of them after: what the model says is written, and nothing else.

use rtep::model::{self, Packet, ReadFault, RingFault, WriteFault};
use rtep::random::Random;
use rtep::yardstick::codec as yardstick;
use std::collections::BTreeMap;
use std::fmt::{Debug, Write};

const RING_SEED: u64 = 0x5254_4550_0000_0001;
const READ_SEED: u64 = 0x5254_4550_0000_0002;
const WRITE_SEED: u64 = 0x5254_4550_0000_0003;

/// The fewest inputs of each call: over a million together.
const RING_FILES: u64 = 350_000;
const PACKETS_READ: u64 = 450_000;
const PACKETS_WRITTEN: u64 = 350_000;

/// How often each answer must come, and each fault with no other beside it.
const EACH: u64 = 1_000;
/// How often two faults must come together that the order of checks decides between.
const EACH_PAIR: u64 = 100;

const EVERY_OCTET: [u8; 256] = {
    let mut octets = [0; 256];
    let mut octet = 0;
    while octet < 256 {
        octets[octet] = octet as u8;
        octet += 1;
    }
    octets
};

const ADDRESS: u64 = (1 << 48) - 1;
const GROUP: u64 = 1 << 40;

/// Counts of one call.
struct Tally<F> {
    what: &'static str,
    seed: u64,
    calls: u64,
    calls_back: u64,
    families: BTreeMap<&'static str, u64>,
    answers: BTreeMap<u32, u64>,
    alone: BTreeMap<F, u64>,
    pairs: BTreeMap<(F, F), u64>,
    /// Beside 12.
    offsets: BTreeMap<u32, u64>,
    /// Ring files by the form that they say, the form that was asked for, and the answer.
    forms: BTreeMap<(u8, u64, u32), u64>,
}

impl<F: Copy + Ord + Debug> Tally<F> {
    fn new(what: &'static str, seed: u64) -> Tally<F> {
        Tally {
            what,
            seed,
            calls: 0,
            calls_back: 0,
            families: BTreeMap::new(),
            answers: BTreeMap::new(),
            alone: BTreeMap::new(),
            pairs: BTreeMap::new(),
            offsets: BTreeMap::new(),
            forms: BTreeMap::new(),
        }
    }

    fn count(&mut self, family: &'static str, answer: u32, faults: &[F]) {
        self.calls += 1;
        *self.families.entry(family).or_default() += 1;
        *self.answers.entry(answer).or_default() += 1;
        match *faults {
            [only] => *self.alone.entry(only).or_default() += 1,
            [first, second] => *self.pairs.entry((first, second)).or_default() += 1,
            _ => {}
        }
    }

    /// Prints the counts, then demands that nothing came too seldom.
    fn close(&self, calls: u64, answers: &[u32], alone: &[F], pairs: &[(F, F)]) {
        let mut text = format!("{}: seed {:#018x}, {} inputs", self.what, self.seed, self.calls);
        if self.calls_back > 0 {
            write!(text, ", {} handed back the other way", self.calls_back).unwrap();
        }
        text += ", no difference\n  answers:";
        for (answer, count) in &self.answers {
            write!(text, " {answer}: {count},").unwrap();
        }
        text += "\n  sole faults:";
        for (fault, count) in &self.alone {
            write!(text, " {fault:?} {count},").unwrap();
        }
        text += "\n  inputs:";
        for (family, count) in &self.families {
            write!(text, " {family} {count},").unwrap();
        }
        println!("{text}");

        assert!(self.calls >= calls, "{}: only {} inputs", self.what, self.calls);
        assert!(
            self.answers.keys().eq(answers),
            "{}: answers {:?}",
            self.what,
            self.answers.keys()
        );
        for (answer, count) in &self.answers {
            assert!(*count >= EACH, "{}: answer {answer} only {count} times", self.what);
        }
        for fault in alone {
            let count = self.alone.get(fault).copied().unwrap_or(0);
            assert!(count >= EACH, "{}: {fault:?} alone only {count} times", self.what);
        }
        for pair in pairs {
            let count = self.pairs.get(pair).copied().unwrap_or(0);
            assert!(count >= EACH_PAIR, "{}: {pair:?} only {count} times", self.what);
        }
    }
}

fn hex(octets: &[u8]) -> String {
    octets.iter().fold(String::new(), |mut text, octet| {
        write!(text, "{octet:02x}").unwrap();
        text
    })
}

fn list(numbers: &[u64]) -> String {
    format!("{numbers:x?}")
}

/// `COUNT` numbers between two others, to see what a call writes past either end.
struct Told<const COUNT: usize> {
    numbers: Vec<u64>,
}

impl<const COUNT: usize> Told<COUNT> {
    fn new(random: &mut Random) -> Told<COUNT> {
        Told { numbers: (0..COUNT + 2).map(|_| random.next()).collect() }
    }

    fn lend(&mut self) -> &mut [u64; COUNT] {
        (&mut self.numbers[1..=COUNT]).try_into().unwrap()
    }

    /// What the numbers are after a call that tells these.
    fn after(&self, told: &[u64]) -> Vec<u64> {
        let mut numbers = self.numbers.clone();
        numbers[1..=told.len()].copy_from_slice(told);
        numbers
    }
}

/// Octets lent in the middle of others.
struct Lent {
    octets: Vec<u8>,
    start: usize,
    len: usize,
}

impl Lent {
    fn new(random: &mut Random, len: usize) -> Lent {
        let start = random.within(8..=23);
        Lent { octets: random.octets(start + len + 16), start, len }
    }

    fn lend(&mut self) -> &mut [u8] {
        &mut self.octets[self.start..self.start + self.len]
    }

    /// What the octets are after a call that fills the start of the lent ones with these.
    fn after(&self, packet: &[u8]) -> Vec<u8> {
        let mut octets = self.octets.clone();
        octets[self.start..self.start + packet.len()].copy_from_slice(packet);
        octets
    }
}

// ---------------------------------------------------------------------------------------------
// Ring files

fn check_ring(
    tally: &mut Tally<RingFault>,
    random: &mut Random,
    family: &'static str,
    file: &[u8],
) {
    let mut told = Told::<66>::new(random);
    let (answer, expected, faults) = match model::read_ring(file) {
        Ok(ring) => {
            let mut numbers = vec![ring.addresses.len() as u64, ring.retry_limit];
            numbers.extend(&ring.addresses);
            (0, told.after(&numbers), Vec::new())
        }
        Err(faults) => (faults[0].number(), told.after(&[]), faults),
    };
    let given = rtep::ring(file, told.lend());
    if given != answer || told.numbers != expected {
        panic!(
            "ring file, seed {:#x}, input {}, {family}\n  file {}\n  library {given}, told {:x?}\n  \
             model {answer} {faults:?}, told {:x?}\n  (told with one number more at both ends)",
            tally.seed,
            tally.calls,
            hex(file),
            told.numbers,
            expected
        );
    }
    check_forms(tally, random, family, file);
    tally.count(family, answer, &faults);
}

/// The same file asked for in either form, beside the model; where it was given, back again.
fn check_forms(tally: &mut Tally<RingFault>, random: &mut Random, family: &str, file: &[u8]) {
    let form = file.first().map_or(0, |first| first >> 4);
    for asked in [1, 2] {
        let given = to_form(random, asked, file);
        let seed = tally.seed;
        let input = || format!("to form {asked}, seed {seed:#x}, {family}, file {}", hex(file));
        assert_eq!(given, model::to_form(asked, file), "{}", input());
        *tally
            .forms
            .entry((form, asked, given.as_ref().err().copied().unwrap_or(0)))
            .or_default() += 1;
        if let Ok(other) = given {
            assert_eq!(
                to_form(random, form.into(), &other).as_deref(),
                Ok(file),
                "and back {}",
                input()
            );
        }
    }
}

/// What the library gives, with every octet of the out array and the number told looked at.
fn to_form(random: &mut Random, asked: u64, file: &[u8]) -> Result<Vec<u8>, u32> {
    let mut lent = Lent::new(random, 450);
    let mut told = Told::<1>::new(random);
    let (octets, numbers) = (lent.octets.clone(), told.numbers.clone());
    let number = rtep::to_form(asked, file, lent.lend().try_into().unwrap(), told.lend());
    if number != 0 {
        assert!(
            lent.octets == octets && told.numbers == numbers,
            "{number} changed something: {}",
            hex(file)
        );
        return Err(number);
    }
    let length = told.numbers[1] as usize;
    assert_eq!((told.numbers[0], told.numbers[2]), (numbers[0], numbers[2]), "{}", hex(file));
    let given = lent.lend()[..length].to_vec();
    assert!(lent.octets[..lent.start] == octets[..lent.start], "before the array: {}", hex(file));
    assert!(
        lent.octets[lent.start + length..] == octets[lent.start + length..],
        "behind it: {}",
        hex(file)
    );
    Ok(given)
}

fn good_address(random: &mut Random) -> u64 {
    let address = random.next() & ADDRESS & !GROUP;
    address.max(1)
}

/// `count` addresses, all different and good: spread out, or one or two bits from one address, or
/// small, or at the ends of the range.
fn good_addresses(random: &mut Random, count: usize) -> Vec<u64> {
    const ENDS: [u64; 8] = [
        1,
        ADDRESS & !GROUP,
        1 << 47,
        1 << 41,
        1 << 39,
        0xFF_FFFF_FFFF,
        0xFE00_0000_0000,
        0x0200_0000_0001,
    ];
    let style = random.below(4);
    let base = good_address(random);
    let mut addresses: Vec<u64> = Vec::with_capacity(count);
    while addresses.len() < count {
        let next = match style {
            0 => good_address(random),
            1 => base ^ (1 << random.below(48)) ^ ((random.below(2) as u64) << random.below(48)),
            2 => addresses.len() as u64 + 1,
            _ if addresses.len() < ENDS.len() => random.pick(&ENDS),
            _ => good_address(random),
        } & !GROUP;
        if next != 0 && !addresses.contains(&next) {
            addresses.push(next);
        }
    }
    addresses
}

fn bad_address(random: &mut Random) -> u64 {
    match random.below(5) {
        0 => 0,
        1 => GROUP,
        2 => ADDRESS,
        3 => 0x0100_5E00_0001,
        _ => random.next() & ADDRESS | GROUP,
    }
}

fn good_file(random: &mut Random) -> Vec<u8> {
    let members = match random.below(4) {
        0 => random.pick(&[2, 3, 63, 64]),
        _ => random.within(2..=64),
    };
    let retry_limit = random.within(1..=15) as u64;
    let addresses = good_addresses(random, members);
    if random.once_in(2) {
        return model::ring_file(1, members as u64 - 1, retry_limit, 0, &addresses);
    }
    let version = random.pick(&[1, 1, 2]);
    let open = open_channels(random, members);
    model::ring_file_2(members as u64 - 1, retry_limit, version, &addresses, &open)
}

/// All open, or all but one, or any, or none.
fn open_channels(random: &mut Random, members: usize) -> Vec<model::Open> {
    let mut open = vec![[true; 8]; members];
    match random.below(5) {
        0 | 1 => {}
        2 => open[random.below(members)][random.below(8)] = false,
        3 => open.iter_mut().flatten().for_each(|open| *open = random.once_in(2)),
        _ => open.fill([false; 8]),
    }
    open
}

/// Makes one part of the heading wrong: 0 form, 1 zero bits, 2 N-1, 3 R.
fn spoil_heading(random: &mut Random, file: &mut [u8], part: usize) {
    match part {
        0 => {
            let form = (random.pick(&[0, 2, 3, 5, 9, 15, 4, 8])) << 4;
            file[0] = file[0] & 0x0F | form;
        }
        1 if file[0] >> 4 == 2 => file[1] = file[1] & 0xFC | random.pick(&[0, 3]),
        1 => file[1] |= random.within(1..=3) as u8,
        2 => {
            file[0] &= 0xF0;
            file[1] &= 0x3F;
        }
        _ => file[1] &= 0xC3,
    }
}

#[test]
fn ring_files() {
    let mut tally = Tally::new("ring files", RING_SEED);
    let mut random = Random::new(RING_SEED);
    let random = &mut random;

    for _ in 0..60_000 {
        let file = good_file(random);
        check_ring(&mut tally, random, "good", &file);
    }
    // Every heading, with addresses that fit its N; and again with another length.
    let pool: Vec<Vec<u64>> = (0..64).map(|_| good_addresses(random, 64)).collect();
    for heading in 0..=65_535u64 {
        let addresses = &pool[random.below(64)][..(heading >> 6 & 63) as usize + 1];
        let mut file = model::ring_file(
            heading >> 12,
            heading >> 6 & 63,
            heading >> 2 & 15,
            heading & 3,
            addresses,
        );
        check_ring(&mut tally, random, "every heading", &file);
        let fits = file.len();
        let other = match random.below(5) {
            0 => fits - 1,
            1 => fits + 1,
            2 => fits - 6,
            3 => fits + 6,
            _ => random.within(2..=400),
        };
        let more = random.octets(400);
        file.extend(more);
        file.truncate(other);
        check_ring(&mut tally, random, "every heading with another length", &file);
    }
    // Every heading of form 2, with members that fit its N; and again with another length, form 1's too.
    for heading in 0x2000..=0x2FFFu64 {
        for _ in 0..4 {
            let members = (heading >> 6 & 63) as usize + 1;
            let addresses = &pool[random.below(64)][..members];
            let open = open_channels(random, members);
            let mut file = model::ring_file_2(
                heading >> 6 & 63,
                heading >> 2 & 15,
                heading & 3,
                addresses,
                &open,
            );
            check_ring(&mut tally, random, "every heading of form 2", &file);
            let fits = file.len();
            let other = random.pick(&[fits - 1, fits + 1, fits - 7, fits + 7, 2 + 6 * members]);
            file.resize(other, 2);
            check_ring(&mut tally, random, "every heading of form 2 with another length", &file);
        }
    }
    // One part of the heading wrong, and two: the length fits the heading's N or is wrong as well.
    for turn in 0..48_000 {
        let mut file = good_file(random);
        let part = random.below(5);
        let other = random.below(5);
        let both = turn % 3 == 0 && part != other;
        for part in [Some(part), both.then_some(other)].into_iter().flatten() {
            if part < 4 {
                spoil_heading(random, &mut file, part);
            }
        }
        if part == 2 || both && other == 2 {
            file.truncate(8);
        }
        if part == 4 || both && other == 4 {
            let len = file.len();
            let to = random.pick(&[len - 1, len + 1, len - 6, len + 6]);
            file.resize(to, 2);
        }
        let family = if both { "two parts wrong" } else { "one part wrong" };
        check_ring(&mut tally, random, family, &file);
    }
    // A bad address, and an address seen earlier, at every place of every N, in either form.
    for members in 2..=64usize {
        let retry_limit = random.within(1..=15) as u64;
        let open = open_channels(random, members);
        for place in 0..members {
            for _ in 0..5 {
                let mut addresses = pool[random.below(64)][..members].to_vec();
                addresses[place] = bad_address(random);
                let file = model::ring_file(1, members as u64 - 1, retry_limit, 0, &addresses);
                check_ring(&mut tally, random, "bad address", &file);
                let file =
                    model::ring_file_2(members as u64 - 1, retry_limit, 1, &addresses, &open);
                check_ring(&mut tally, random, "bad address", &file);
            }
            for earlier in 0..place {
                let mut addresses = pool[random.below(64)][..members].to_vec();
                addresses[place] = addresses[earlier];
                let file = model::ring_file(1, members as u64 - 1, retry_limit, 0, &addresses);
                check_ring(&mut tally, random, "address seen earlier", &file);
                let file =
                    model::ring_file_2(members as u64 - 1, retry_limit, 2, &addresses, &open);
                check_ring(&mut tally, random, "address seen earlier", &file);
            }
        }
    }
    // Several wrong addresses, sometimes with a wrong heading or length.
    for _ in 0..48_000 {
        let members = random.within(2..=64);
        let mut addresses = pool[random.below(64)][..members].to_vec();
        for _ in 0..random.within(1..=3) {
            let place = random.below(members);
            addresses[place] = match random.below(2) {
                0 => bad_address(random),
                _ => addresses[random.below(members)],
            };
        }
        let (others, retry_limit) = (members as u64 - 1, random.within(1..=15) as u64);
        let mut file = match random.below(2) {
            0 => model::ring_file(1, others, retry_limit, 0, &addresses),
            _ => {
                let (version, open) = (random.pick(&[1, 2]), open_channels(random, members));
                model::ring_file_2(others, retry_limit, version, &addresses, &open)
            }
        };
        match random.below(8) {
            0 => spoil_heading(random, &mut file, 0),
            1 => spoil_heading(random, &mut file, 1),
            2 => spoil_heading(random, &mut file, 3),
            3 => file.push(random.octet()),
            4 => file.extend([2, 0, 0, 0, 0, 1]),
            _ => {}
        }
        check_ring(&mut tally, random, "several wrong addresses", &file);
    }
    for _ in 0..30_000 {
        let mut file = good_file(random);
        let bit = random.below(8 * file.len());
        file[bit / 8] ^= 0x80 >> (bit % 8);
        check_ring(&mut tally, random, "one flipped bit", &file);
    }
    for _ in 0..15_000 {
        let mut file = good_file(random);
        let len = random.below(file.len());
        file.truncate(len);
        check_ring(&mut tally, random, "cut", &file);

        let mut file = good_file(random);
        let more = random.pick(&[1, 2, 5, 6, 7, 12, 384, 1000]);
        let more = random.octets(more);
        file.extend(more);
        check_ring(&mut tally, random, "lengthened", &file);
    }
    for _ in 0..20_000 {
        let len = random.below(400);
        let file = random.octets(len);
        check_ring(&mut tally, random, "random octets", &file);

        // Random addresses below a right heading.
        let members = random.within(2..=64);
        let mut file = random.octets(2 + 6 * members);
        let heading = model::ring_file(1, members as u64 - 1, 7, 0, &[]);
        file[..2].copy_from_slice(&heading);
        for place in 0..members {
            file[2 + 6 * place] &= if random.once_in(256) { 0xFF } else { 0xFE };
        }
        check_ring(&mut tally, random, "random addresses", &file);
    }
    for _ in 0..4 {
        check_ring(&mut tally, random, "under two octets", &[]);
        for octet in 0..=255 {
            check_ring(&mut tally, random, "under two octets", &[octet]);
        }
    }

    use RingFault::*;
    tally.close(
        RING_FILES,
        &[0, 1, 2, 3, 4, 5, 6, 7, 27],
        &[Short, Form, ZeroBits, Version, OneMember, NoRetry, Length, BadAddress, SeenEarlier],
        &[
            (Form, ZeroBits),
            (Form, OneMember),
            (Form, NoRetry),
            (Form, Length),
            (Form, BadAddress),
            (Form, SeenEarlier),
            (ZeroBits, OneMember),
            (ZeroBits, NoRetry),
            (ZeroBits, Length),
            (ZeroBits, BadAddress),
            (ZeroBits, SeenEarlier),
            (Version, OneMember),
            (Version, NoRetry),
            (Version, Length),
            (Version, BadAddress),
            (Version, SeenEarlier),
            (OneMember, NoRetry),
            (OneMember, Length),
            (NoRetry, Length),
            (NoRetry, BadAddress),
            (NoRetry, SeenEarlier),
            (Length, BadAddress),
            (Length, SeenEarlier),
            (BadAddress, SeenEarlier),
            (SeenEarlier, BadAddress),
        ],
    );
    let given = |form, asked, answer| tally.forms.get(&(form, asked, answer)).copied().unwrap_or(0);
    let pairs = [(1, 1, 0), (1, 2, 0), (2, 1, 0), (2, 2, 0), (2, 1, 26)];
    for (form, asked, answer) in pairs {
        let count = given(form, asked, answer);
        println!("  form {form} to {asked}, answer {answer}: {count}");
        assert!(count >= EACH, "form {form} to {asked}: {answer} only {count} times");
    }
}

// ---------------------------------------------------------------------------------------------
// Packets: what both tests need

/// Lists of members of every size that matters: good ones, ones with repeated numbers, with zero,
/// with numbers above 48 bits, and with such numbers only.
fn member_lists(random: &mut Random) -> Vec<Vec<u64>> {
    let mut lists = Vec::new();
    for size in [0, 1, 2, 3, 5, 64, 65] {
        for style in [0, 0, 0, 0, 1, 2, 3, 4] {
            let mut members = good_addresses(random, size);
            for place in 0..size {
                match style {
                    1 if random.once_in(2) => members[place] = members[random.below(place + 1)],
                    2 if random.once_in(3) => members[place] = 0,
                    3 if random.once_in(2) => {
                        members[place] = match random.below(4) {
                            0 => u64::MAX,
                            1 => members[place] | 1 << 48,
                            2 => members[place] | 1 << 63,
                            _ => random.next() | 1 << random.within(48..=63),
                        }
                    }
                    4 => members[place] |= 1 << random.within(48..=63),
                    _ => {}
                }
            }
            lists.push(members);
        }
    }
    lists
}

/// One of the members that can stand in a packet, if there is any.
fn member(random: &mut Random, members: &[u64]) -> Option<u64> {
    let start = random.below(members.len().max(1));
    (0..members.len())
        .map(|step| members[(start + step) % members.len()])
        .find(|member| *member <= ADDRESS)
}

/// An address at or past an edge; it may be a member, and it may have more than 48 bits.
fn odd_address(random: &mut Random, members: &[u64]) -> u64 {
    let some = if members.is_empty() { good_address(random) } else { random.pick(members) };
    match random.below(9) {
        0 => 0,
        1 => some,
        2 => some ^ 1 << random.below(48),
        3 => some ^ 1 << random.below(64),
        4 => some & ADDRESS,
        5 => random.pick(&[1, GROUP, ADDRESS, 1 << 47, 1 << 48, u64::MAX, 1 << 63]),
        6 => some.swap_bytes() >> 16,
        7 => some | 1 << random.within(48..=63),
        _ => good_address(random),
    }
}

fn information_length(random: &mut Random) -> usize {
    match random.below(3) {
        0 => random.pick(&[0, 1, 36, 37, 38, 39, 40, 100, 255, 256, 1490, 1491, 1492]),
        1 => random.within(0..=46),
        _ => random.within(0..=1492),
    }
}

/// The eight numbers of a packet fit to write, and its information. Kind 0 is any; a token needs
/// a member, so without one it is information.
fn fit_packet(random: &mut Random, members: &[u64], kind: u64) -> ([u64; 8], Vec<u8>) {
    let kind = if kind == 0 { random.within(1..=3) as u64 } else { kind };
    let number = match random.below(4) {
        0 => random.pick(&[0, 1, 255, 256, 32_767, 32_768, 65_534, 65_535]),
        _ => random.below(65_536) as u64,
    };
    let lowest = if kind == 1 { 0 } else { 1 };
    let priority = match random.below(3) {
        0 => random.pick(&[lowest, 1, 127, 128, 254, 255]),
        _ => random.within(lowest as usize..=255) as u64,
    };
    match (kind, member(random, members)) {
        (1, Some(master)) => {
            let named = member(random, members).unwrap();
            let failing = if random.once_in(3) { 0 } else { member(random, members).unwrap() };
            ([1, priority, number, master, failing, named, 0, 0], Vec::new())
        }
        (2, Some(master)) => {
            let named = member(random, members).unwrap();
            ([2, priority, number, master, 0, named, 0, 0], Vec::new())
        }
        _ => {
            let length = information_length(random);
            let channel = random.below(8) as u64;
            let numbers = [3, priority.max(1), number, 0, 0, 0, channel, length as u64];
            (numbers, random.octets(length))
        }
    }
}

/// The octets of a packet fit to write.
fn fit_octets(random: &mut Random, members: &[u64], kind: u64) -> Vec<u8> {
    let (numbers, information) = fit_packet(random, members, kind);
    model::fit(members, &numbers, &information, 1500).expect("it is fit").octets()
}

// ---------------------------------------------------------------------------------------------
// Packets read

/// Compares, and writes back what was read.
fn check_read(
    tally: &mut Tally<ReadFault>,
    random: &mut Random,
    family: &'static str,
    members: &[u64],
    packet: &[u8],
) {
    let mut told = Told::<8>::new(random);
    let model = model::read(members, packet);
    let (answer, expected) = match &model {
        Ok(read) => (0, told.after(&read.numbers())),
        Err(_) => (model::read_answer(members, packet), told.after(&[])),
    };
    let given = rtep::read(members, packet, told.lend());
    let differs = |what: &str, library: String, model: String| -> ! {
        panic!(
            "packet read, seed {:#x}, input {}, {family}: {what}\n  members {members:x?}\n  \
             packet ({} octets) {}\n  library {library}\n  model   {model}",
            tally.seed,
            tally.calls,
            packet.len(),
            hex(packet)
        )
    };
    let words = |given| format!("{} at {}", rtep::number(given), rtep::offset(given));
    if given != answer {
        differs("answer", words(given), format!("{}, {model:x?}", words(answer)));
    }
    let plain = yardstick_read(members, packet);
    if plain != answer {
        differs("the yardstick's answer", words(plain), words(answer));
    }
    if told.numbers != expected {
        differs("told, with one number more at both ends", list(&told.numbers), list(&expected));
    }
    let faults = match model {
        Ok(read) => {
            let numbers = *told.lend();
            let information = match numbers[0] {
                3 => &packet[8..8 + numbers[7] as usize],
                _ => &[],
            };
            if information != read.information() {
                differs("information", hex(information), hex(read.information()));
            }
            let out_len = random.pick(&[1500, 1500, 1501]);
            let mut out = Lent::new(random, out_len);
            let mut told = Told::<2>::new(random);
            let octets = out.after(packet);
            let lengths = told.after(&[packet.len() as u64, read.wire()]);
            let given = rtep::write(members, &numbers, information, out.lend(), told.lend());
            if given != 0 {
                differs("writing back", given.to_string(), 0.to_string());
            }
            if told.numbers != lengths {
                differs("told on writing back", list(&told.numbers), list(&lengths));
            }
            if out.octets != octets {
                differs("octets written back", hex(&out.octets), hex(&octets));
            }
            tally.calls_back += 1;
            Vec::new()
        }
        Err(faults) => faults,
    };
    tally.count(family, rtep::number(answer), &faults);
    if rtep::number(answer) == 12 {
        *tally.offsets.entry(rtep::offset(answer)).or_default() += 1;
    }
}

/// What the plain codec gives, which the benchmarks stand beside.
fn yardstick_read(members: &[u64], packet: &[u8]) -> u32 {
    let known = |address| members.contains(&address).then_some(address);
    let failing = |address| if address == 0 { Some(0) } else { known(address) };
    yardstick::read(packet, known, failing).err().unwrap_or(0)
}

/// Sets one field of a packet to a value at or past its edges.
fn set_field(random: &mut Random, members: &[u64], packet: &mut [u8]) {
    let information = packet[0] == 3;
    let mut put = |at: usize, octets: &[u8]| packet[at..at + octets.len()].copy_from_slice(octets);
    match random.below(6) {
        0 => put(0, &[random.pick(&[0, 1, 2, 3, 4, 5, 127, 128, 129, 130, 131, 255])]),
        1 => put(1, &[random.pick(&[0, 0, 1, 2, 127, 128, 254, 255])]),
        2 => put(2, &random.pick(&[0u16, 1, 255, 256, 65_534, 65_535]).to_be_bytes()),
        3..=5 if !information => {
            let at = random.pick(&[4, 10, 16]);
            put(at, &odd_address(random, members).to_be_bytes()[2..]);
        }
        3 => {
            let channel = random.pick(&[0u16, 1, 6, 7, 8, 9, 15, 255, 256, 0x0700, 0x0800, 65_535]);
            put(4, &channel.to_be_bytes());
        }
        _ => {
            let length = random.pick(&[
                0u16, 1, 36, 37, 38, 39, 255, 256, 1491, 1492, 1493, 1494, 1500, 2048, 65_535,
            ]);
            put(6, &length.to_be_bytes());
        }
    }
}

#[test]
fn packets_read() {
    let mut tally = Tally::new("packets read", READ_SEED);
    let mut random = Random::new(READ_SEED);
    let random = &mut random;
    let lists = member_lists(random);

    for _ in 0..100_000 {
        let members = &lists[random.below(lists.len())];
        let packet = fit_octets(random, members, 0);
        check_read(&mut tally, random, "fit", members, &packet);
    }
    for members in &lists {
        for kind in 1..=3 {
            let packet = fit_octets(random, members, kind);
            for bit in 0..46 * 8 {
                let mut packet = packet.clone();
                packet[bit / 8] ^= 0x80 >> (bit % 8);
                check_read(&mut tally, random, "one flipped bit", members, &packet);
            }
        }
    }
    for _ in 0..20_000 {
        let members = &lists[random.below(lists.len())];
        let mut packet = fit_octets(random, members, 0);
        let bit = random.below(8 * packet.len());
        packet[bit / 8] ^= 0x80 >> (bit % 8);
        check_read(&mut tally, random, "one flipped bit", members, &packet);
    }
    for turn in 0..80_000 {
        let members = &lists[random.below(lists.len())];
        let mut packet = fit_octets(random, members, 0);
        set_field(random, members, &mut packet);
        if turn % 4 == 0 {
            set_field(random, members, &mut packet);
        }
        check_read(&mut tally, random, "fields at and past their edges", members, &packet);
    }
    // One address of a token, at and past its edges.
    for _ in 0..20_000 {
        let members = &lists[random.below(lists.len())];
        let kind = random.within(1..=2) as u64;
        let mut packet = fit_octets(random, members, kind);
        let at = random.pick(&[4, 10, 16]);
        packet[at..at + 6].copy_from_slice(&odd_address(random, members).to_be_bytes()[2..]);
        check_read(&mut tally, random, "one address", members, &packet);
    }
    // Pads with one octet that is not zero, at each place.
    for kind in 1..=2 {
        for place in 22..46 {
            for value in 1..=255 {
                let members = &lists[random.below(lists.len())];
                if member(random, members).is_none() {
                    continue;
                }
                let mut packet = fit_octets(random, members, kind);
                packet[place] = value;
                check_read(&mut tally, random, "pad octet of a token", members, &packet);
            }
        }
    }
    for n in 0..=37u64 {
        for place in 8 + n as usize..46 {
            for bit in 0..8 {
                let priority = random.within(1..=255) as u64;
                let information = random.octets(n as usize);
                let numbers = [3, priority, random.next() & 65_535, 0, 0, 0, 7, n];
                let fit = model::fit(&[], &numbers, &information, 1500).expect("it is fit");
                let mut packet = fit.octets();
                packet[place] = 1 << bit;
                check_read(&mut tally, random, "pad octet of information", &[], &packet);
            }
        }
    }
    // Every identifier and priority, every channel, every length field.
    for identifier in 0..=255 {
        for priority in 0..=255 {
            let members = &lists[random.below(lists.len())];
            let mut packet = fit_octets(random, members, 0);
            packet[1] = priority;
            if priority % 4 == 0 {
                packet[0] = identifier;
            }
            check_read(&mut tally, random, "every identifier and priority", members, &packet);
        }
    }
    for value in 0..=65_535u16 {
        let members = &lists[random.below(lists.len())];
        let numbers = [3, 1, value.into(), 0, 0, 0, 0, 0];
        let fit = model::fit(members, &numbers, &[], 1500).expect("it is fit");
        let mut packet = fit.octets();
        packet[4..6].copy_from_slice(&value.to_be_bytes());
        check_read(&mut tally, random, "every channel", members, &packet);

        let len = match random.below(6) {
            0 => random.within(46..=1500),
            1 => 1499,
            2 => 1500,
            _ => 46.max(8 + value as usize).min(1501),
        };
        let mut packet = random.octets(len);
        packet[..6].copy_from_slice(&[3, random.mark(), 0, 0, 0, 7]);
        packet[6..8].copy_from_slice(&value.to_be_bytes());
        check_read(&mut tally, random, "every length field", members, &packet);
    }
    // Every information length, in a packet of that length, one less and one more.
    for n in 0..=1494usize {
        for len in [45.max(7 + n), 46.max(8 + n), 47.max(9 + n)] {
            let mut packet = vec![0; len];
            packet[..8].copy_from_slice(&[3, 1, 0, 0, 0, 0, (n >> 8) as u8, n as u8]);
            let end = len.min(8 + n);
            random.fill(&mut packet[8..end]);
            check_read(&mut tally, random, "every information length", &[], &packet);
        }
    }
    // Cut and lengthened.
    for kind in 1..=3 {
        for len in 0..=1600 {
            let members = &lists[random.below(lists.len())];
            let mut packet = fit_octets(random, members, kind);
            packet.resize(len, 0);
            check_read(&mut tally, random, "every packet length", members, &packet);
        }
    }
    for _ in 0..20_000 {
        let members = &lists[random.below(lists.len())];
        let mut packet = fit_octets(random, members, 0);
        let len = match random.below(3) {
            0 => packet.len() - 1,
            1 => random.pick(&[0, 1, 2, 3, 7, 8, 21, 22, 44, 45]),
            _ => random.below(packet.len()),
        };
        packet.truncate(len);
        if random.once_in(4) && len > 0 {
            packet[0] = random.octet();
        }
        check_read(&mut tally, random, "cut", members, &packet);

        let mut packet = fit_octets(random, members, 0);
        let len = match random.below(3) {
            0 => packet.len() + 1,
            1 => random.pick(&[1499, 1500, 1501, 1502, 2000]).max(packet.len()),
            _ => packet.len() + random.within(1..=64),
        };
        let mark = random.once_in(2);
        packet.resize(len, 0);
        if mark {
            packet[len - 1] = random.mark();
        }
        if random.once_in(8) {
            packet[0] = random.octet();
        }
        check_read(&mut tally, random, "lengthened", members, &packet);
    }
    for _ in 0..20_000 {
        let members = &lists[random.below(lists.len())];
        let len = random.below(1600);
        let packet = random.octets(len);
        check_read(&mut tally, random, "random octets", members, &packet);

        let len = random.pick(&[45, 46, 46, 46, 46, 47, 1500, 1501]);
        let mut packet = random.octets(len);
        packet[0] = random.within(1..=3) as u8;
        check_read(&mut tally, random, "right identifier and random octets", members, &packet);
    }

    use ReadFault::*;
    tally.close(
        PACKETS_READ,
        &[0, 10, 11, 12],
        &[
            Size,
            Identifier,
            Priority,
            Master,
            FailingNotMember,
            FailingInTransmitToken,
            Named,
            Channel,
            Pad,
            Length,
        ],
        // A length field above 1,492 never calls for a length that 10 lets through.
        &[(Size, Identifier), (LengthField, Length)],
    );
}

/// A packet of each kind, fit to read against these members, with the places of its fields that can
/// be bad and where its pad begins.
fn each_kind(members: &[u64]) -> Vec<(Vec<u8>, &'static [usize], usize)> {
    let (master, other) = (members[0], members[members.len() - 1]);
    let token = |failing| Packet::Token { priority: 5, number: 9, master, failing, named: other };
    let transmit = Packet::TransmitToken { priority: 5, number: 9, master, named: other };
    let mut kinds: Vec<(Vec<u8>, &'static [usize], usize)> = vec![
        (token(None).octets(), &[4, 10, 16], 22),
        (token(Some(other)).octets(), &[4, 10, 16], 22),
        (transmit.octets(), &[1, 4, 10, 16], 22),
    ];
    for n in [0, 1, 10, 37, 38, 39, 100, 1491, 1492] {
        let information = &vec![0xA5; n];
        let packet = Packet::Information { priority: 5, number: 9, channel: 3, information };
        kinds.push((packet.octets(), &[1, 4, 6], 8 + n));
    }
    kinds
}

/// One wrong octet at every place of each kind of packet, and in packets that are too long.
#[test]
fn one_wrong_octet() {
    let mut tally = Tally::new("one wrong octet", READ_SEED);
    let random = &mut Random::new(READ_SEED);
    let members = [0x0203_0405_0607, 0x0213_1415_1617, 0x0223_2425_2627];
    for (octets, _, _) in each_kind(&members) {
        for longer in [0, 1, 2, 20] {
            let mut packet = octets.clone();
            packet.resize(octets.len() + longer, 0);
            for place in 0..packet.len() {
                // Every value where the place can be bad, and a few where it is information.
                let values: &[u8] = if place < 46 { &EVERY_OCTET } else { &[0, 1, 128, 255] };
                let right = packet[place];
                for &value in values {
                    packet[place] = value;
                    check_read(&mut tally, random, "one wrong octet", &members, &packet);
                }
                packet[place] = right;
            }
        }
    }
    // No other place is ever named: the fields that can be bad, every pad octet, and both lengths.
    let places: Vec<u32> = [0, 1, 4, 6].into_iter().chain(8..46).collect();
    assert!(tally.offsets.keys().eq(&places), "offsets {:?}", tally.offsets);
    tally.close(100_000, &[0, 10, 11, 12], &[], &[]);
}

/// Two bad things at once, fields, pad octets and the length, in either order: the first is named.
#[test]
fn pairs_of_wrong_fields() {
    let mut tally = Tally::new("pairs of wrong fields", READ_SEED);
    let random = &mut Random::new(READ_SEED);
    let members = [0x0203_0405_0607, 0x0213_1415_1617, 0x0223_2425_2627];
    for (octets, fields, pad) in each_kind(&members) {
        let length = if octets[0] == 3 { 6 } else { 0 };
        // Each bad thing: the offset that it has alone, and how it comes about.
        let mut things: Vec<(usize, Bad)> = vec![(length, Bad::Longer)];
        for &at in fields {
            let octets = match (octets[0], at) {
                (_, 1) => 1,
                (3, _) => 2,
                _ => 6,
            };
            (at..at + octets).for_each(|place| things.push((at, Bad::Octet(place))));
        }
        things.extend((pad..46).map(|place| (place, Bad::Octet(place))));
        // A wrong length field can call for another pad and another length.
        let exact = |bad| octets[0] != 3 || !matches!(bad, Bad::Octet(6 | 7));
        for &(first, one) in &things {
            for &(second, other) in &things {
                let packet = other.done(&one.done(&octets));
                if packet.len() > 1500 {
                    continue;
                }
                if exact(one) && exact(other) {
                    let rank = |at, bad| (matches!(bad, Bad::Longer), at);
                    let first = if rank(first, one) < rank(second, other) { first } else { second };
                    let given = model::read_answer(&members, &packet);
                    assert_eq!((rtep::number(given), rtep::offset(given)), (12, first as u32));
                }
                check_read(&mut tally, random, "pairs of wrong fields", &members, &packet);
            }
        }
    }
    tally.close(10_000, &[12], &[], &[]);
}

/// How a packet is made bad.
#[derive(Clone, Copy)]
enum Bad {
    /// A wrong octet: 0 in a priority, else one that no field may have there.
    Octet(usize),
    /// An octet more.
    Longer,
}

impl Bad {
    fn done(self, packet: &[u8]) -> Vec<u8> {
        let mut packet = packet.to_vec();
        match self {
            Bad::Octet(1) => packet[1] = 0,
            Bad::Octet(place) => packet[place] = 0xFE,
            Bad::Longer => packet.push(0),
        }
        packet
    }
}

// ---------------------------------------------------------------------------------------------
// Packets written

/// Compares, and reads back what was written.
fn check_write(
    tally: &mut Tally<WriteFault>,
    random: &mut Random,
    family: &'static str,
    members: &[u64],
    numbers: &[u64; 8],
    information: &[u8],
    out_len: usize,
) {
    let mut out = Lent::new(random, out_len);
    let mut told = Told::<2>::new(random);
    let model = model::fit(members, numbers, information, out_len);
    let (answer, octets, lengths) = match &model {
        Ok(packet) => {
            let octets = packet.octets();
            let lengths = told.after(&[octets.len() as u64, packet.wire()]);
            (0, out.after(&octets), lengths)
        }
        Err(faults) => (faults[0].number(), out.after(&[]), told.after(&[])),
    };
    let given = rtep::write(members, numbers, information, out.lend(), told.lend());
    let differs = |what: &str, library: String, model: String| -> ! {
        panic!(
            "packet written, seed {:#x}, input {}, {family}: {what}\n  members {members:x?}\n  \
             numbers {numbers:x?}\n  information ({} octets) {}\n  out of {out_len} octets\n  \
             library {library}\n  model   {model}",
            tally.seed,
            tally.calls,
            information.len(),
            hex(information)
        )
    };
    if given != answer {
        differs("answer", given.to_string(), format!("{answer}, {model:x?}"));
    }
    if told.numbers != lengths {
        differs("told, with one number more at both ends", list(&told.numbers), list(&lengths));
    }
    if out.octets != octets {
        differs("octets, with others around", hex(&out.octets), hex(&octets));
    }
    let faults = match model {
        Ok(_) => {
            let written = told.lend()[0] as usize;
            let packet = &out.lend()[..written];
            let mut told = Told::<8>::new(random);
            let read = told.after(numbers);
            let given = rtep::read(members, packet, told.lend());
            if given != 0 {
                differs("reading back", given.to_string(), 0.to_string());
            }
            if told.numbers != read {
                differs("told on reading back", list(&told.numbers), list(&read));
            }
            if packet[8..8 + numbers[7] as usize] != *information {
                differs("information read back", hex(packet), hex(information));
            }
            tally.calls_back += 1;
            Vec::new()
        }
        Err(faults) => faults,
    };
    tally.count(family, answer, &faults);
}

fn out_length(random: &mut Random) -> usize {
    random.pick(&[1500, 1500, 1500, 1500, 1500, 1500, 1501, 2000, 1499, 0, 45, 46])
}

/// A value at or past an edge of one of the eight numbers.
fn odd_number(random: &mut Random, members: &[u64], field: usize, now: u64) -> u64 {
    const EDGES: [&[u64]; 8] = [
        &[0, 1, 2, 3, 4, 5, 255, 256, 257, 258, 259],
        &[0, 1, 2, 254, 255, 256, 257, 511, 512],
        &[0, 1, 65_534, 65_535, 65_536, 65_537],
        &[],
        &[],
        &[],
        &[0, 1, 7, 8, 9, 15, 256, 257, 0x0700, 65_535, 65_536, 65_537],
        &[0, 1, 37, 38, 39, 1491, 1492, 1493, 1494, 1500, 65_535, 65_536],
    ];
    match random.below(8) {
        0 => now.wrapping_add(1),
        1 => now.wrapping_sub(1),
        2 => now ^ 1 << random.below(64),
        3 => now | random.pick(&[1 << 8, 1 << 16, 1 << 32, 1 << 48, 1 << 56, 1 << 63]),
        4 if random.once_in(4) => random.pick(&[u64::MAX, 1 << 63, 1 << 32]),
        4 if random.once_in(4) => random.next(),
        _ if EDGES[field].is_empty() => odd_address(random, members),
        _ => random.pick(EDGES[field]),
    }
}

#[test]
fn packets_written() {
    let mut tally = Tally::new("packets written", WRITE_SEED);
    let mut random = Random::new(WRITE_SEED);
    let random = &mut random;
    let lists = member_lists(random);

    for _ in 0..120_000 {
        let members = &lists[random.below(lists.len())];
        let (numbers, information) = fit_packet(random, members, 0);
        let out_len = out_length(random);
        check_write(&mut tally, random, "fit", members, &numbers, &information, out_len);
    }
    for members in &lists {
        for out_len in [0, 45, 46, 1499, 1500, 1501, 2000] {
            for kind in 1..=3 {
                let (numbers, information) = fit_packet(random, members, kind);
                check_write(&mut tally, random, "fit", members, &numbers, &information, out_len);
            }
        }
    }
    for out_len in 0..=1600 {
        for kind in 1..=3 {
            let members = &lists[random.below(lists.len())];
            let (mut numbers, information) = fit_packet(random, members, kind);
            if random.once_in(4) {
                numbers[1] += 256;
            }
            let family = "every out length";
            check_write(&mut tally, random, family, members, &numbers, &information, out_len);
        }
    }
    // Every information length, with the length field the same, one less and one more.
    for n in 0..=1600usize {
        let information = random.octets(n);
        for length in [n as u64, (n as u64).wrapping_sub(1), n as u64 + 1] {
            let numbers = [3, 1, 65_535, 0, 0, 0, 0, length];
            let family = "every information length";
            check_write(&mut tally, random, family, &[], &numbers, &information, 1500);
        }
    }
    for _ in 0..1_000 {
        for n in [0, 37, 38, 39, 1491, 1492, 1493, 1494, 2000] {
            let members = &lists[random.below(lists.len())];
            let (mut numbers, _) = fit_packet(random, members, 3);
            numbers[7] = n as u64;
            let information = random.octets(n);
            let out_len = random.pick(&[1500, 1500, 1500, 1501, 2000, 1499]);
            let family = "information lengths at their edges";
            check_write(&mut tally, random, family, members, &numbers, &information, out_len);
        }
    }
    // Each bit of each number flipped, for each kind.
    for _ in 0..40 {
        for kind in 1..=3 {
            let members = &lists[random.below(lists.len())];
            let (fit, information) = fit_packet(random, members, kind);
            for field in 0..8 {
                for bit in 0..64 {
                    let mut numbers = fit;
                    numbers[field] ^= 1 << bit;
                    let family = "one flipped bit";
                    check_write(&mut tally, random, family, members, &numbers, &information, 1500);
                }
            }
        }
    }
    // Each number at and past its edges; and two of them.
    for turn in 0..120_000 {
        let members = &lists[random.below(lists.len())];
        let (mut numbers, information) = fit_packet(random, members, 0);
        for _ in 0..1 + turn % 4 / 3 {
            let field = random.below(8);
            numbers[field] = odd_number(random, members, field, numbers[field]);
        }
        let out_len = out_length(random);
        let family = "numbers at and past their edges";
        check_write(&mut tally, random, family, members, &numbers, &information, out_len);
    }
    // Information of another length than the field says, cut or lengthened; also with a token.
    for _ in 0..20_000 {
        let members = &lists[random.below(lists.len())];
        let (numbers, mut information) = fit_packet(random, members, 0);
        let len = match random.below(5) {
            0 => 0,
            1 => information.len() + 1,
            2 => information.len().saturating_sub(1),
            3 => random.pick(&[37, 38, 39, 46, 256, 1491, 1492, 1493, 1500]),
            _ => information.len() + 65_536,
        };
        information.resize(len, 0xA5);
        let family = "information cut or lengthened";
        check_write(&mut tally, random, family, members, &numbers, &information, 1500);
    }
    for _ in 0..20_000 {
        let members = &lists[random.below(lists.len())];
        let mut numbers: [u64; 8] = random.numbers();
        let shift = random.below(64);
        for number in &mut numbers {
            *number >>= shift;
        }
        if random.once_in(2) {
            numbers[0] = random.within(1..=3) as u64;
        }
        let len = random.pick(&[0, 1, 100]);
        let information = random.octets(len);
        let out_len = random.pick(&[1500, 1500, 1499]);
        check_write(&mut tally, random, "random numbers", members, &numbers, &information, out_len);
    }

    use WriteFault::*;
    tally.close(
        PACKETS_WRITTEN,
        &[0, 9, 12],
        &[
            Room,
            Identifier,
            Priority,
            Number,
            Master,
            FailingNotMember,
            FailingInTransmitToken,
            Named,
            Channel,
            LengthField,
            Information,
            MasterInInformation,
            FailingInInformation,
            NamedInInformation,
            ChannelInToken,
            LengthInToken,
            InformationInToken,
        ],
        &[
            (Room, Identifier),
            (Room, Priority),
            (Room, Number),
            (Room, Master),
            (Room, Named),
            (Room, Channel),
        ],
    );
}

// ---------------------------------------------------------------------------------------------
// The page's own cases

#[test]
fn page_cases() {
    for (members, retry_limit, begins, length) in
        [(3, 2, [0x10, 0x88], 20), (64, 15, [0x1F, 0xFC], 386), (64, 15, [0x2F, 0xFD], 450)]
    {
        let addresses: Vec<u64> = (1..=members).collect();
        let mut file = begins.to_vec();
        for address in &addresses {
            file.extend(&address.to_be_bytes()[2..]);
            file.extend([0xFF].iter().filter(|_| begins[0] >> 4 == 2));
        }
        assert_eq!(file.len(), length);
        let mut told = [0; 66];
        assert_eq!(rtep::ring(&file, &mut told), 0);
        assert_eq!(told[..2], [members, retry_limit]);
        assert_eq!(told[2..2 + members as usize], addresses);
    }
    for (n, wire) in [(0, 72), (38, 72), (39, 73), (1492, 1526)] {
        let packet = Packet::Information {
            priority: 1,
            number: 0,
            channel: 0,
            information: &[0xFF; 1492][..n],
        };
        let mut out = [0; 1500];
        let mut told = [0; 2];
        let given = rtep::write(&[], &packet.numbers(), packet.information(), &mut out, &mut told);
        assert_eq!((given, told[1]), (0, wire));
    }
    println!("page cases: 10 88, 1F FC and 2F FD, four wire sizes");
}
