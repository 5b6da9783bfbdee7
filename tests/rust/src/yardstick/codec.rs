//! Ring file and packets: slices in, values out.

use std::slice;

pub const SHORTEST: usize = 46;
pub const LONGEST: usize = 1500;
pub const MOST_INFORMATION: usize = 1492;

/// A good ring.
#[derive(Clone)]
pub struct Ring {
    pub members: usize,
    pub retry_limit: u8,
    /// In ring order, then zeros.
    pub addresses: [u64; 64],
    /// Of each member, channel 0 in the highest bit.
    pub open: [u8; 64],
}

/// The number of six octets.
#[inline]
fn address(octets: &[u8; 6]) -> u64 {
    let [a, b, c, d, e, f] = *octets;
    u64::from_be_bytes([0, 0, a, b, c, d, e, f])
}

impl Ring {
    /// Reads a ring file, or gives the number of the first thing wrong with it.
    #[inline]
    pub fn read(file: &[u8]) -> Result<Ring, u32> {
        let (heading, rest) = file.split_first_chunk::<2>().ok_or(1u32)?;
        let heading = u16::from_be_bytes(*heading);
        let members = usize::from(heading >> 6 & 63) + 1;
        let retry_limit = (heading >> 2 & 15) as u8;
        let form = heading >> 12;
        if form != 1 && form != 2 {
            return Err(2);
        }
        if form == 1 && heading & 3 != 0 {
            return Err(3);
        }
        if form == 2 && matches!(heading & 3, 0 | 3) {
            return Err(27);
        }
        if members == 1 {
            return Err(4);
        }
        if retry_limit == 0 {
            return Err(5);
        }
        let mut ring = Ring { members, retry_limit, addresses: [0; 64], open: [255; 64] };
        if form == 1 {
            ring.read_members::<6>(rest)?;
        } else {
            ring.read_members::<7>(rest)?;
        }
        Ok(ring)
    }

    /// The members behind the head, each of `OCTETS` octets: in the seventh are its open channels.
    #[inline(always)]
    fn read_members<const OCTETS: usize>(&mut self, rest: &[u8]) -> Result<(), u32> {
        if rest.len() != OCTETS * self.members {
            return Err(1);
        }
        for (place, octets) in rest.as_chunks::<OCTETS>().0.iter().enumerate() {
            let next = address(octets.first_chunk().expect("six octets"));
            if next == 0 || octets[0] & 1 == 1 {
                return Err(6);
            }
            if self.addresses[..place].contains(&next) {
                return Err(7);
            }
            self.addresses[place] = next;
            if let Some(open) = octets.get(6) {
                self.open[place] = *open;
            }
        }
        Ok(())
    }

    /// The position of the member with this address.
    #[inline]
    pub fn position(&self, address: u64) -> Option<u8> {
        let found = self.addresses[..self.members].iter().position(|next| *next == address);
        found.map(|position| position as u8)
    }
}

/// A packet. A member is told by its address, and then a failing station of 0 is none; or by its
/// position.
#[derive(Clone, Copy)]
pub enum Packet<Member, Failing> {
    Token { priority: u8, number: u16, master: Member, failing: Failing, named: Member },
    Transmit { priority: u8, number: u16, master: Member, named: Member },
    Information { priority: u8, number: u16, channel: u8, length: u16 },
}

impl<Member, Failing> Packet<Member, Failing> {
    #[inline]
    pub fn number(&self) -> u16 {
        match self {
            Packet::Token { number, .. }
            | Packet::Transmit { number, .. }
            | Packet::Information { number, .. } => *number,
        }
    }
}

#[inline]
fn zero(pad: &[u8]) -> bool {
    pad.iter().all(|octet| *octet == 0)
}

/// 12, with the offset of what is bad.
#[inline]
fn bad_at(at: usize) -> u32 {
    (at as u32) << 16 | 12
}

/// 12, with the offset of the first octet from `from` on that is not zero.
#[cold]
fn bad_pad(packet: &[u8], from: usize) -> u32 {
    bad_at(from + packet[from..].iter().take_while(|octet| **octet == 0).count())
}

/// Reads a packet whose members `member` knows; `failing` has a token's failing station, or 0.
#[inline]
pub fn read<Member, Failing>(
    packet: &[u8],
    member: impl Fn(u64) -> Option<Member>,
    failing: impl Fn(u64) -> Option<Failing>,
) -> Result<Packet<Member, Failing>, u32> {
    if !(SHORTEST..=LONGEST).contains(&packet.len()) {
        return Err(10);
    }
    let [identifier, priority, number @ ..] = packet.first_chunk::<4>().ok_or(10u32)?;
    let (identifier, priority) = (*identifier, *priority);
    let number = u16::from_be_bytes(*number);
    match identifier {
        1 | 2 => {
            let short = packet.first_chunk::<SHORTEST>().ok_or(10u32)?;
            if identifier == 2 && priority == 0 {
                return Err(bad_at(1));
            }
            let master = member(address(short[4..10].try_into().unwrap())).ok_or(bad_at(4))?;
            let fails = address(short[10..16].try_into().unwrap());
            let failing = match identifier {
                1 => Some(failing(fails).ok_or(bad_at(10))?),
                _ if fails != 0 => return Err(bad_at(10)),
                _ => None,
            };
            let named = member(address(short[16..22].try_into().unwrap())).ok_or(bad_at(16))?;
            if !zero(&short[22..]) {
                return Err(bad_pad(packet, 22));
            }
            if packet.len() != SHORTEST {
                return Err(bad_at(0));
            }
            Ok(match failing {
                Some(failing) => Packet::Token { priority, number, master, failing, named },
                None => Packet::Transmit { priority, number, master, named },
            })
        }
        3 => {
            let channel = u16::from_be_bytes([packet[4], packet[5]]);
            let length = u16::from_be_bytes([packet[6], packet[7]]);
            let end = 8 + usize::from(length);
            if priority == 0 {
                return Err(bad_at(1));
            }
            if channel > 7 {
                return Err(bad_at(4));
            }
            if usize::from(length) > MOST_INFORMATION {
                return Err(bad_at(6));
            }
            if !zero(packet.get(end..SHORTEST).unwrap_or_default()) {
                return Err(bad_pad(packet, end));
            }
            if packet.len() != SHORTEST.max(end) {
                return Err(bad_at(6));
            }
            Ok(Packet::Information { priority, number, channel: channel as u8, length })
        }
        _ => Err(11),
    }
}

/// The information of a packet that was read.
#[inline]
pub fn information(packet: &[u8], length: u16) -> &[u8] {
    &packet[8..8 + usize::from(length)]
}

#[inline]
fn token(out: &mut [u8; SHORTEST], identifier: u8, priority: u8, number: u16, addresses: [u64; 3]) {
    out[0] = identifier;
    out[1] = priority;
    out[2..4].copy_from_slice(&number.to_be_bytes());
    out[4..10].copy_from_slice(&addresses[0].to_be_bytes()[2..]);
    out[10..16].copy_from_slice(&addresses[1].to_be_bytes()[2..]);
    out[16..22].copy_from_slice(&addresses[2].to_be_bytes()[2..]);
    out[22..].fill(0);
}

/// Writes a packet to the start of `out` and gives its octets.
#[inline]
pub fn write(packet: Packet<u64, u64>, information: &[u8], out: &mut [u8]) -> usize {
    let short = out.first_chunk_mut::<SHORTEST>().unwrap();
    match packet {
        Packet::Token { priority, number, master, failing, named } => {
            token(short, 1, priority, number, [master, failing, named]);
            SHORTEST
        }
        Packet::Transmit { priority, number, master, named } => {
            token(short, 2, priority, number, [master, 0, named]);
            SHORTEST
        }
        Packet::Information { priority, number, channel, length } => {
            let end = 8 + information.len();
            let octets = SHORTEST.max(end);
            out[0] = 3;
            out[1] = priority;
            out[2..4].copy_from_slice(&number.to_be_bytes());
            out[4..6].copy_from_slice(&u16::from(channel).to_be_bytes());
            out[6..8].copy_from_slice(&length.to_be_bytes());
            out[8..end].copy_from_slice(information);
            out[end..octets].fill(0);
            octets
        }
    }
}

#[inline]
fn belongs(members: &[u64], address: u64) -> bool {
    address < 1 << 48 && members.contains(&address)
}

/// The packet of the eight numbers, if it is fit to write.
#[inline]
fn fit(members: &[u64], numbers: &[u64; 8], information: &[u8]) -> Option<Packet<u64, u64>> {
    let [identifier, priority, number, master, failing, named, channel, length] = *numbers;
    let priority = u8::try_from(priority).ok()?;
    let number = u16::try_from(number).ok()?;
    match identifier {
        1 | 2 => {
            if !belongs(members, master)
                || !belongs(members, named)
                || channel != 0
                || length != 0
                || !information.is_empty()
            {
                return None;
            }
            if identifier == 1 {
                (failing == 0 || belongs(members, failing)).then_some(Packet::Token {
                    priority,
                    number,
                    master,
                    failing,
                    named,
                })
            } else {
                let fits = failing == 0 && priority != 0;
                fits.then_some(Packet::Transmit { priority, number, master, named })
            }
        }
        3 => {
            let fits = priority != 0
                && (master, failing, named) == (0, 0, 0)
                && channel <= 7
                && information.len() <= MOST_INFORMATION
                && length == information.len() as u64;
            let (channel, length) = (channel as u8, length as u16);
            fits.then_some(Packet::Information { priority, number, channel, length })
        }
        _ => None,
    }
}

/// # Safety
/// The pointers and lengths are those of live references.
#[inline(never)]
pub unsafe extern "C" fn plain_ring(file: *const u8, len: usize, told: &mut [u64; 66]) -> u32 {
    match Ring::read(slice::from_raw_parts(file, len)) {
        Ok(ring) => {
            told[0] = ring.members as u64;
            told[1] = ring.retry_limit.into();
            told[2..2 + ring.members].copy_from_slice(&ring.addresses[..ring.members]);
            0
        }
        Err(number) => number,
    }
}

/// # Safety
/// The pointers and lengths are those of live references.
#[inline(never)]
pub unsafe extern "C" fn plain_read(
    members: *const u64,
    n: usize,
    packet: *const u8,
    len: usize,
    told: &mut [u64; 8],
) -> u32 {
    let members = slice::from_raw_parts(members, n);
    let packet = slice::from_raw_parts(packet, len);
    let known = |address| members.contains(&address).then_some(address);
    *told = match read(packet, known, |address| if address == 0 { Some(0) } else { known(address) })
    {
        Ok(Packet::Token { priority, number, master, failing, named }) => {
            [1, priority.into(), number.into(), master, failing, named, 0, 0]
        }
        Ok(Packet::Transmit { priority, number, master, named }) => {
            [2, priority.into(), number.into(), master, 0, named, 0, 0]
        }
        Ok(Packet::Information { priority, number, channel, length }) => {
            [3, priority.into(), number.into(), 0, 0, 0, channel.into(), length.into()]
        }
        Err(number) => return number,
    };
    0
}

/// # Safety
/// The pointers and lengths are those of live references.
#[inline(never)]
#[allow(clippy::too_many_arguments)]
pub unsafe extern "C" fn plain_write(
    members: *const u64,
    n: usize,
    packet: &[u64; 8],
    information: *const u8,
    information_len: usize,
    out: *mut u8,
    out_len: usize,
    told: &mut [u64; 2],
) -> u32 {
    let members = slice::from_raw_parts(members, n);
    let information = slice::from_raw_parts(information, information_len);
    let out = slice::from_raw_parts_mut(out, out_len);
    if out.len() < LONGEST {
        return 9;
    }
    match fit(members, packet, information) {
        Some(packet) => {
            *told = [write(packet, information, out) as u64, 72.max(34 + information.len() as u64)];
            0
        }
        None => 12,
    }
}
