//! The oracle: the rule book's ring file and packets, and behind them its station, a fault-free ring and a
//! recorded day, read from the page alone and with no eye to speed.
//!
//! A refusal lists everything that is wrong, in the page's order of checks, so that the tests can
//! count which checks stood alone. The number given back is that of the first.

pub mod capture;
pub mod day;
pub mod ring;
pub mod station;

/// The channels that a member listens on, from channel 0 on.
pub type Open = [bool; 8];

/// A good ring: R, the rule version, and the addresses in ring order, each with its open channels. N is their
/// count. The form is that of the file that it was read from.
#[derive(Debug, Clone, PartialEq, Eq)]
pub struct Ring {
    pub form: u64,
    pub retry_limit: u64,
    pub version: u64,
    pub addresses: Vec<u64>,
    pub open: Vec<Open>,
}

impl Ring {
    /// What a file of form 1 says: version 1, and every channel open.
    pub fn plain(retry_limit: u64, addresses: Vec<u64>) -> Ring {
        let open = vec![[true; 8]; addresses.len()];
        Ring { form: 1, retry_limit, version: 1, addresses, open }
    }

    /// Its only file.
    pub fn file(&self) -> Vec<u8> {
        let others = self.addresses.len() as u64 - 1;
        if self.form == 1 {
            return ring_file(1, others, self.retry_limit, 0, &self.addresses);
        }
        ring_file_2(others, self.retry_limit, self.version, &self.addresses, &self.open)
    }

    /// Form 1 has no room for a version, and none for channels.
    pub fn fits_form_1(&self) -> bool {
        self.version == 1 && self.open.iter().flatten().all(|open| *open)
    }

    /// The position of the member with this address.
    pub fn position(&self, address: u64) -> Option<usize> {
        self.addresses.iter().position(|next| *next == address)
    }
}

/// What can be wrong with a ring file, in the order of the checks.
#[derive(Debug, Clone, Copy, PartialEq, Eq, PartialOrd, Ord)]
pub enum RingFault {
    Short,
    Form,
    ZeroBits,
    Version,
    OneMember,
    NoRetry,
    Length,
    BadAddress,
    SeenEarlier,
}

impl RingFault {
    pub fn number(self) -> u32 {
        match self {
            RingFault::Short => 1,
            RingFault::Form => 2,
            RingFault::ZeroBits => 3,
            RingFault::Version => 27,
            RingFault::OneMember => 4,
            RingFault::NoRetry => 5,
            RingFault::Length => 1,
            RingFault::BadAddress => 6,
            RingFault::SeenEarlier => 7,
        }
    }
}

/// Takes the next `count` bits, most significant first.
fn bits(file: &[u8], at: &mut usize, count: usize) -> u64 {
    let mut number = 0;
    for _ in 0..count {
        let bit = file[*at / 8] >> (7 - *at % 8) & 1;
        number = number * 2 + u64::from(bit);
        *at += 1;
    }
    number
}

/// Reads a ring file, or says all that is wrong with it.
pub fn read_ring(file: &[u8]) -> Result<Ring, Vec<RingFault>> {
    if file.len() < 2 {
        return Err(vec![RingFault::Short]);
    }
    let mut at = 0;
    let form = bits(file, &mut at, 4);
    let members = bits(file, &mut at, 6) as usize + 1;
    let retry_limit = bits(file, &mut at, 4);
    let last = bits(file, &mut at, 2);

    let mut faults = Vec::new();
    if form != 1 && form != 2 {
        faults.push(RingFault::Form);
    }
    if form != 2 && last != 0 {
        faults.push(RingFault::ZeroBits);
    }
    if form == 2 && last != 1 && last != 2 {
        faults.push(RingFault::Version);
    }
    if members == 1 {
        faults.push(RingFault::OneMember);
    }
    if retry_limit == 0 {
        faults.push(RingFault::NoRetry);
    }
    let length = if form == 2 { 2 + 7 * members } else { 2 + 6 * members };
    if file.len() != length {
        faults.push(RingFault::Length);
    }
    let member_bits = if form == 2 { 56 } else { 48 };
    let mut addresses = Vec::new();
    let mut open = Vec::new();
    while addresses.len() < members && at + member_bits <= 8 * file.len() {
        let first_octet = file[at / 8];
        let address = bits(file, &mut at, 48);
        if address == 0 || first_octet % 2 == 1 {
            faults.push(RingFault::BadAddress);
        }
        if addresses.contains(&address) {
            faults.push(RingFault::SeenEarlier);
        }
        addresses.push(address);
        open.push(match form {
            2 => std::array::from_fn(|_| bits(file, &mut at, 1) == 1),
            _ => [true; 8],
        });
    }
    if faults.is_empty() {
        let version = if form == 2 { last } else { 1 };
        Ok(Ring { form, retry_limit, version, addresses, open })
    } else {
        Err(faults)
    }
}

/// A ring file in the form that is asked for, or the number of its refusal: the reader's own, then 26.
pub fn to_form(asked: u64, file: &[u8]) -> Result<Vec<u8>, u32> {
    let ring = read_ring(file).map_err(|faults| faults[0].number())?;
    if asked == 1 && !ring.fits_form_1() {
        return Err(26);
    }
    Ok(Ring { form: asked, ..ring }.file())
}

/// A packet, with the numbers that its kind has.
#[derive(Debug, Clone, Copy, PartialEq, Eq)]
pub enum Packet<'a> {
    Token { priority: u8, number: u16, master: u64, failing: Option<u64>, named: u64 },
    TransmitToken { priority: u8, number: u16, master: u64, named: u64 },
    Information { priority: u8, number: u16, channel: u16, information: &'a [u8] },
}

/// Adds the last `count` octets of a number, big-endian.
fn put(octets: &mut Vec<u8>, number: u64, count: usize) {
    for place in (0..count).rev() {
        octets.push((number >> (8 * place)) as u8);
    }
}

/// The big-endian number of `count` octets at `at`.
fn get(octets: &[u8], at: usize, count: usize) -> u64 {
    octets[at..at + count].iter().fold(0, |number, octet| number * 256 + u64::from(*octet))
}

impl<'a> Packet<'a> {
    /// The packet's octets.
    pub fn octets(&self) -> Vec<u8> {
        let mut octets = Vec::with_capacity(1500);
        match *self {
            Packet::Token { priority, number, master, failing, named } => {
                put(&mut octets, 1, 1);
                put(&mut octets, priority.into(), 1);
                put(&mut octets, number.into(), 2);
                put(&mut octets, master, 6);
                put(&mut octets, failing.unwrap_or(0), 6);
                put(&mut octets, named, 6);
            }
            Packet::TransmitToken { priority, number, master, named } => {
                put(&mut octets, 2, 1);
                put(&mut octets, priority.into(), 1);
                put(&mut octets, number.into(), 2);
                put(&mut octets, master, 6);
                put(&mut octets, 0, 6);
                put(&mut octets, named, 6);
            }
            Packet::Information { priority, number, channel, information } => {
                put(&mut octets, 3, 1);
                put(&mut octets, priority.into(), 1);
                put(&mut octets, number.into(), 2);
                put(&mut octets, channel.into(), 2);
                put(&mut octets, information.len() as u64, 2);
                octets.extend_from_slice(information);
            }
        }
        while octets.len() < 46 {
            octets.push(0);
        }
        octets
    }

    /// Octets on the wire.
    pub fn wire(&self) -> u64 {
        match self {
            Packet::Information { information, .. } => 72.max(34 + information.len() as u64),
            _ => 72,
        }
    }

    /// The eight numbers of the calls: identifier, priority, number, master, failing, named,
    /// channel, length.
    pub fn numbers(&self) -> [u64; 8] {
        match *self {
            Packet::Token { priority, number, master, failing, named } => {
                [1, priority.into(), number.into(), master, failing.unwrap_or(0), named, 0, 0]
            }
            Packet::TransmitToken { priority, number, master, named } => {
                [2, priority.into(), number.into(), master, 0, named, 0, 0]
            }
            Packet::Information { priority, number, channel, information } => [
                3,
                priority.into(),
                number.into(),
                0,
                0,
                0,
                channel.into(),
                information.len() as u64,
            ],
        }
    }

    /// The information; none for a token.
    pub fn information(&self) -> &'a [u8] {
        match self {
            Packet::Information { information, .. } => information,
            _ => &[],
        }
    }
}

/// An address belongs to the ring if it has 48 bits and is one of the members.
fn belongs(members: &[u64], address: u64) -> bool {
    address < 1 << 48 && members.contains(&address)
}

/// What can be wrong with a packet that is read.
#[derive(Debug, Clone, Copy, PartialEq, Eq, PartialOrd, Ord)]
pub enum ReadFault {
    Size,
    Identifier,
    Priority,
    Master,
    FailingNotMember,
    FailingInTransmitToken,
    Named,
    Channel,
    LengthField,
    Pad,
    Length,
}

impl ReadFault {
    pub fn number(self) -> u32 {
        match self {
            ReadFault::Size => 10,
            ReadFault::Identifier => 11,
            _ => 12,
        }
    }
}

/// Reads a packet, or says what is wrong with it. Fields are looked at only when the size and the
/// identifier are right.
pub fn read<'a>(members: &[u64], packet: &'a [u8]) -> Result<Packet<'a>, Vec<ReadFault>> {
    let mut faults = Vec::new();
    if packet.len() < 46 || packet.len() > 1500 {
        faults.push(ReadFault::Size);
    }
    if !packet.is_empty() && !(1..=3).contains(&packet[0]) {
        faults.push(ReadFault::Identifier);
    }
    if !faults.is_empty() {
        return Err(faults);
    }
    let identifier = packet[0];
    let priority = packet[1];
    let number = get(packet, 2, 2) as u16;
    if priority == 0 && identifier != 1 {
        faults.push(ReadFault::Priority);
    }
    let read = if identifier == 3 {
        let channel = get(packet, 4, 2) as u16;
        let length = get(packet, 6, 2) as usize;
        if channel > 7 {
            faults.push(ReadFault::Channel);
        }
        if length > 1492 {
            faults.push(ReadFault::LengthField);
        }
        if 8 + length < 46 && packet[8 + length..46].iter().any(|octet| *octet != 0) {
            faults.push(ReadFault::Pad);
        }
        if packet.len() != 46.max(8 + length) {
            faults.push(ReadFault::Length);
        }
        let information = packet.get(8..8 + length).unwrap_or(&[]);
        Packet::Information { priority, number, channel, information }
    } else {
        let master = get(packet, 4, 6);
        let failing = get(packet, 10, 6);
        let named = get(packet, 16, 6);
        if !belongs(members, master) {
            faults.push(ReadFault::Master);
        }
        if identifier == 1 && failing != 0 && !belongs(members, failing) {
            faults.push(ReadFault::FailingNotMember);
        }
        if identifier == 2 && failing != 0 {
            faults.push(ReadFault::FailingInTransmitToken);
        }
        if !belongs(members, named) {
            faults.push(ReadFault::Named);
        }
        if packet[22..46].iter().any(|octet| *octet != 0) {
            faults.push(ReadFault::Pad);
        }
        if packet.len() != 46 {
            faults.push(ReadFault::Length);
        }
        if identifier == 1 {
            let failing = if failing == 0 { None } else { Some(failing) };
            Packet::Token { priority, number, master, failing, named }
        } else {
            Packet::TransmitToken { priority, number, master, named }
        }
    };
    if faults.is_empty() {
        Ok(read)
    } else {
        Err(faults)
    }
}

/// Where a packet is bad that is refused with 12, by CR 9's words alone: the first octet of the
/// first bad field in wire order; else the first pad octet that is not zero; else, where only the
/// length disagrees, 6 for information and 0 for a short packet.
pub fn bad_offset(members: &[u64], packet: &[u8]) -> usize {
    type Good<'a> = &'a dyn Fn(u64) -> bool;
    let some: Good = &|priority| priority != 0;
    let member: Good = &|address| belongs(members, address);
    let none_or_member: Good = &|address| address == 0 || member(address);
    // Every field that can be bad: where it begins, its octets, and whether a value is good.
    let (fields, pad, length): (Vec<(usize, usize, Good)>, usize, usize) = match packet[0] {
        1 => (vec![(4, 6, member), (10, 6, none_or_member), (16, 6, member)], 22, 0),
        2 => {
            let none: Good = &|address| address == 0;
            (vec![(1, 1, some), (4, 6, member), (10, 6, none), (16, 6, member)], 22, 0)
        }
        _ => {
            let fields: Vec<(usize, usize, Good)> =
                vec![(1, 1, some), (4, 2, &|channel| channel <= 7), (6, 2, &|n| n <= 1492)];
            (fields, 8 + get(packet, 6, 2) as usize, 6)
        }
    };
    let bad_fields = fields
        .iter()
        .filter(|(at, octets, good)| !good(get(packet, *at, *octets)))
        .map(|(at, _, _)| *at);
    let bad_pads = (pad..46).filter(|at| packet[*at] != 0);
    bad_fields.chain(bad_pads).next().unwrap_or(length)
}

/// The number that reading gives back: the page's in the lower 16 bits, and beside 12 the offset in
/// the upper.
pub fn read_answer(members: &[u64], packet: &[u8]) -> u32 {
    match read(members, packet) {
        Ok(_) => 0,
        Err(faults) if faults[0].number() == 12 => (bad_offset(members, packet) as u32) << 16 | 12,
        Err(faults) => faults[0].number(),
    }
}

/// What can be wrong with a packet that is to be written.
#[derive(Debug, Clone, Copy, PartialEq, Eq, PartialOrd, Ord)]
pub enum WriteFault {
    Room,
    Identifier,
    Priority,
    Number,
    Master,
    FailingNotMember,
    FailingInTransmitToken,
    Named,
    Channel,
    LengthField,
    Information,
    MasterInInformation,
    FailingInInformation,
    NamedInInformation,
    ChannelInToken,
    LengthInToken,
    InformationInToken,
}

impl WriteFault {
    pub fn number(self) -> u32 {
        match self {
            WriteFault::Room => 9,
            _ => 12,
        }
    }
}

/// The packet of eight numbers and its information, fit to write to an out buffer of `out_len`
/// octets, or what is wrong with it.
pub fn fit<'a>(
    members: &[u64],
    numbers: &[u64; 8],
    information: &'a [u8],
    out_len: usize,
) -> Result<Packet<'a>, Vec<WriteFault>> {
    let [identifier, priority, number, master, failing, named, channel, length] = *numbers;
    let mut faults = Vec::new();
    if out_len < 1500 {
        faults.push(WriteFault::Room);
    }
    if !(1..=3).contains(&identifier) {
        faults.push(WriteFault::Identifier);
        return Err(faults);
    }
    let lowest_priority = if identifier == 1 { 0 } else { 1 };
    if priority < lowest_priority || priority > 255 {
        faults.push(WriteFault::Priority);
    }
    if number > 65_535 {
        faults.push(WriteFault::Number);
    }
    if identifier == 3 {
        if master != 0 {
            faults.push(WriteFault::MasterInInformation);
        }
        if failing != 0 {
            faults.push(WriteFault::FailingInInformation);
        }
        if named != 0 {
            faults.push(WriteFault::NamedInInformation);
        }
        if channel > 7 {
            faults.push(WriteFault::Channel);
        }
        if length > 1492 {
            faults.push(WriteFault::LengthField);
        }
        if information.len() as u64 != length {
            faults.push(WriteFault::Information);
        }
    } else {
        if !belongs(members, master) {
            faults.push(WriteFault::Master);
        }
        if identifier == 1 && failing != 0 && !belongs(members, failing) {
            faults.push(WriteFault::FailingNotMember);
        }
        if identifier == 2 && failing != 0 {
            faults.push(WriteFault::FailingInTransmitToken);
        }
        if !belongs(members, named) {
            faults.push(WriteFault::Named);
        }
        if channel != 0 {
            faults.push(WriteFault::ChannelInToken);
        }
        if length != 0 {
            faults.push(WriteFault::LengthInToken);
        }
        if !information.is_empty() {
            faults.push(WriteFault::InformationInToken);
        }
    }
    if !faults.is_empty() {
        return Err(faults);
    }
    let priority = priority as u8;
    let number = number as u16;
    Ok(match identifier {
        1 => {
            let failing = if failing == 0 { None } else { Some(failing) };
            Packet::Token { priority, number, master, failing, named }
        }
        2 => Packet::TransmitToken { priority, number, master, named },
        _ => Packet::Information { priority, number, channel: channel as u16, information },
    })
}

/// The octets of a ring file with these values, right or wrong.
pub fn ring_file(
    form: u64,
    members_less_one: u64,
    retry_limit: u64,
    zero_bits: u64,
    addresses: &[u64],
) -> Vec<u8> {
    let heading = form << 12 | members_less_one << 6 | retry_limit << 2 | zero_bits;
    let mut file = Vec::with_capacity(2 + 6 * addresses.len());
    put(&mut file, heading, 2);
    for address in addresses {
        put(&mut file, *address, 6);
    }
    file
}

/// The octets of a file of form 2 with these values, right or wrong.
pub fn ring_file_2(
    members_less_one: u64,
    retry_limit: u64,
    version: u64,
    addresses: &[u64],
    open: &[Open],
) -> Vec<u8> {
    let mut file = ring_file(2, members_less_one, retry_limit, version, &[]);
    for (address, open) in addresses.iter().zip(open) {
        put(&mut file, *address, 6);
        put(&mut file, open.iter().fold(0, |bits, open| bits * 2 + u64::from(*open)), 1);
    }
    file
}

#[cfg(test)]
mod tests {
    use super::*;

    /// N addresses 2, 4, 6 and so on.
    fn addresses(members: u64) -> Vec<u64> {
        (1..=members).map(|place| 2 * place).collect()
    }

    #[test]
    fn the_page_ring_files() {
        let small = ring_file(1, 2, 2, 0, &addresses(3));
        assert_eq!((&small[..2], small.len()), (&[0x10, 0x88][..], 20));
        assert_eq!(read_ring(&small), Ok(Ring::plain(2, addresses(3))));

        let large = ring_file(1, 63, 15, 0, &addresses(64));
        assert_eq!((&large[..2], large.len()), (&[0x1F, 0xFC][..], 386));
        assert_eq!(read_ring(&large), Ok(Ring::plain(15, addresses(64))));
    }

    #[test]
    fn ring_checks_in_the_page_order() {
        use RingFault::*;
        assert_eq!(read_ring(&[0x10]), Err(vec![Short]));
        assert_eq!(read_ring(&[0x00, 0x03]), Err(vec![Form, ZeroBits, OneMember, NoRetry, Length]));
        let group = 1 << 40;
        let file = ring_file(1, 3, 1, 0, &[2, 2, 0, group]);
        assert_eq!(read_ring(&file), Err(vec![SeenEarlier, BadAddress, BadAddress]));
        let file = ring_file(1, 2, 1, 0, &[2, 4, 4]);
        assert_eq!(read_ring(&file[..19]), Err(vec![Length]));
        assert_eq!(read_ring(&file), Err(vec![SeenEarlier]));
    }

    #[test]
    fn form_2_octet_by_octet() {
        let mut open = [[true; 8]; 2];
        open[1] = [false, true, false, false, false, false, false, true];
        let file = ring_file_2(1, 3, 2, &[2, 4], &open);
        assert_eq!(file, [0x20, 0x4E, 0, 0, 0, 0, 0, 2, 0xFF, 0, 0, 0, 0, 0, 4, 0x41]);
        let ring = Ring { form: 2, version: 2, open: open.to_vec(), ..Ring::plain(3, vec![2, 4]) };
        assert_eq!(read_ring(&file), Ok(ring.clone()));
        assert_eq!(ring.file(), file);
        assert_eq!(to_form(2, &file), Ok(file.clone()));
        assert_eq!(to_form(1, &file), Err(26));
    }

    #[test]
    fn form_2_checks_in_their_order() {
        use RingFault::*;
        assert_eq!(read_ring(&[0x20, 0x03]), Err(vec![Version, OneMember, NoRetry, Length]));
        assert_eq!(read_ring(&[0x20, 0x00]), Err(vec![Version, OneMember, NoRetry, Length]));
        let open = [[false; 8]; 3];
        let file = ring_file_2(2, 1, 1, &[2, 4, 4], &open);
        assert_eq!(read_ring(&file), Err(vec![SeenEarlier]));
        assert_eq!(read_ring(&file[..22]), Err(vec![Length]));
        assert_eq!(read_ring(&ring_file(3, 1, 1, 0, &[2, 4])), Err(vec![Form]));
    }

    #[test]
    fn there_and_back() {
        let one = ring_file(1, 63, 15, 0, &addresses(64));
        let two = to_form(2, &one).unwrap();
        assert_eq!((&two[..2], two.len()), (&[0x2F, 0xFD][..], 450));
        assert_eq!(to_form(1, &two), Ok(one.clone()));
        assert_eq!(to_form(2, &two), Ok(two));
        assert_eq!(to_form(1, &one), Ok(one));
    }

    #[test]
    fn the_page_wire_sizes() {
        let octets = [0; 1492];
        let wire = |n: usize| {
            let information = &octets[..n];
            Packet::Information { priority: 1, number: 0, channel: 0, information }.wire()
        };
        assert_eq!([0, 38, 39, 1492].map(wire), [72, 72, 73, 1526]);
        let token = Packet::Token { priority: 0, number: 0, master: 2, failing: None, named: 2 };
        assert_eq!((token.wire(), token.octets().len()), (72, 46));
    }

    #[test]
    fn a_token_octet_by_octet() {
        let members = [0x0203_0405_0607, 0x1213_1415_1617, 0x2223_2425_2627];
        let token = Packet::Token {
            priority: 0xA1,
            number: 0xB1B2,
            master: members[0],
            failing: Some(members[1]),
            named: members[2],
        };
        let mut octets = vec![1, 0xA1, 0xB1, 0xB2, 2, 3, 4, 5, 6, 7];
        octets.extend([0x12, 0x13, 0x14, 0x15, 0x16, 0x17]);
        octets.extend([0x22, 0x23, 0x24, 0x25, 0x26, 0x27]);
        octets.extend([0; 24]);
        assert_eq!(token.octets(), octets);
        assert_eq!(read(&members, &octets), Ok(token));
        assert_eq!(fit(&members, &token.numbers(), &[], 1500), Ok(token));
        assert_eq!(read(&members[..2], &octets), Err(vec![ReadFault::Named]));
        octets[0] = 2;
        assert_eq!(read(&members, &octets), Err(vec![ReadFault::FailingInTransmitToken]));
        octets[0] = 4;
        assert_eq!(read(&members, &octets), Err(vec![ReadFault::Identifier]));
        assert_eq!(read(&members, &octets[..45]).unwrap_err()[0].number(), 10);
    }

    #[test]
    fn information_octet_by_octet() {
        let information = Packet::Information {
            priority: 9,
            number: 0x0102,
            channel: 7,
            information: &[0xD0, 0xD1, 0xD2],
        };
        let mut octets = vec![3, 9, 1, 2, 0, 7, 0, 3, 0xD0, 0xD1, 0xD2];
        octets.extend([0; 35]);
        assert_eq!(information.octets(), octets);
        assert_eq!(read(&[], &octets), Ok(information));
        octets[7] = 2;
        assert_eq!(read(&[], &octets), Err(vec![ReadFault::Pad]));
        assert_eq!(read_answer(&[], &octets), 10 << 16 | 12);
        octets[7] = 39;
        assert_eq!(read(&[], &octets), Err(vec![ReadFault::Length]));
        assert_eq!(read_answer(&[], &octets), 6 << 16 | 12);
    }

    #[test]
    fn the_first_bad_place() {
        let members = [2, 4];
        let token = Packet::Token { priority: 5, number: 9, master: 2, failing: None, named: 4 };
        let at = |changes: &[(usize, u8)], len: usize| {
            let mut octets = token.octets();
            octets.resize(len, 0);
            changes.iter().for_each(|(at, octet)| octets[*at] = *octet);
            read_answer(&members, &octets)
        };
        assert_eq!(at(&[], 46), 0);
        assert_eq!(at(&[(9, 3)], 46), 4 << 16 | 12);
        assert_eq!(at(&[(45, 1), (21, 5)], 47), 16 << 16 | 12);
        assert_eq!(at(&[(45, 1)], 47), 45 << 16 | 12);
        assert_eq!(at(&[(46, 1)], 47), 12);
        assert_eq!(at(&[(0, 2), (1, 0), (15, 2)], 46), 1 << 16 | 12);
        assert_eq!(at(&[(0, 4)], 46), 11);
        assert_eq!(at(&[], 45), 10);
    }

    #[test]
    fn writing_refuses_nine_first() {
        use WriteFault::*;
        let numbers = [1, 256, 0, 1 << 48, 0, 2, 0, 0];
        assert_eq!(fit(&[1 << 48, 2], &numbers, &[], 1500), Err(vec![Priority, Master]));
        assert_eq!(fit(&[1 << 48, 2], &numbers, &[], 1499), Err(vec![Room, Priority, Master]));
    }
}
