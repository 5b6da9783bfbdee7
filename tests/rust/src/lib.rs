//! The proved exports as safe functions. They pass on what they are given and decide nothing.
//! `model` is the independent reading of the rule book that they are held to, plain and slow; `yardstick`
//! is the one that the benchmarks time them beside, made to be fast.

pub mod days;
pub mod model;
pub mod random;
pub mod yardstick;

mod exports {
    extern "C" {
        pub fn rtep_ring(file: *const u8, len: usize, told: *mut [u64; 66]) -> u32;
        pub fn rtep_to_form_1(
            file: *const u8,
            len: usize,
            out: *mut [u8; 450],
            octets: *mut [u64; 1],
        ) -> u32;
        pub fn rtep_to_form_2(
            file: *const u8,
            len: usize,
            out: *mut [u8; 450],
            octets: *mut [u64; 1],
        ) -> u32;
        pub fn rtep_read(
            members: *const u64,
            n: usize,
            packet: *const u8,
            len: usize,
            told: *mut [u64; 8],
        ) -> u32;
        pub fn rtep_write(
            members: *const u64,
            n: usize,
            packet: *const [u64; 8],
            information: *const u8,
            information_len: usize,
            out: *mut u8,
            out_len: usize,
            told: *mut [u64; 2],
        ) -> u32;
        pub fn rtep_make(
            record: *mut u8,
            record_len: usize,
            file: *const u8,
            file_len: usize,
            own: u64,
        ) -> u32;
        pub fn rtep_start(
            record: *mut u8,
            record_len: usize,
            out: *mut u8,
            out_len: usize,
            told: *mut [u64; 84],
        ) -> u32;
        pub fn rtep_frame(
            record: *mut u8,
            record_len: usize,
            store: *mut u8,
            store_len: usize,
            from: u64,
            to: u64,
            packet: *const u8,
            packet_len: usize,
            out: *mut u8,
            out_len: usize,
            told: *mut [u64; 84],
        ) -> u32;
        pub fn rtep_timer(
            record: *mut u8,
            record_len: usize,
            store: *const u8,
            store_len: usize,
            out: *mut u8,
            out_len: usize,
            told: *mut [u64; 84],
        ) -> u32;
        pub fn rtep_queue(
            record: *mut u8,
            record_len: usize,
            store: *mut u8,
            store_len: usize,
            to: u64,
            priority: usize,
            channel: usize,
            payload: *const u8,
            payload_len: usize,
        ) -> u32;
        pub fn rtep_take(
            record: *mut u8,
            record_len: usize,
            store: *const u8,
            store_len: usize,
            channel: usize,
            room: *mut u8,
            room_len: usize,
            told: *mut [u64; 4],
        ) -> u32;
    }
}

/// Reads a ring file. Told: N, R, then the N addresses in ring order; numbers beyond stay.
/// Gives 0, 1 to 7 or 27.
#[inline]
pub fn ring(file: &[u8], told: &mut [u64; 66]) -> u32 {
    // SAFETY: the pointers and the length are those of live Rust references.
    unsafe { exports::rtep_ring(file.as_ptr(), file.len(), told) }
}

/// The page's number of what `read` and `frame` give, as `RTEP_NUMBER` of the header.
pub fn number(given: u32) -> u32 {
    given & 0xFFFF
}

/// The offset that they give beside 12, as `RTEP_OFFSET` of the header; 0 beside any other number.
pub fn offset(given: u32) -> u32 {
    given >> 16
}

/// The same ring in form 1 or 2, at the start of `out`. Told: how many octets it has. Gives 0, the reader's
/// numbers or 26.
#[inline]
pub fn to_form(asked: u64, file: &[u8], out: &mut [u8; 450], octets: &mut [u64; 1]) -> u32 {
    // SAFETY: the pointers and the length are those of live Rust references.
    unsafe {
        match asked {
            1 => exports::rtep_to_form_1(file.as_ptr(), file.len(), out, octets),
            _ => exports::rtep_to_form_2(file.as_ptr(), file.len(), out, octets),
        }
    }
}

/// Reads a packet against a ring's members. Told: identifier, priority, number, master, failing
/// (0: none), named, channel, length; 0 where the kind has no such number. The information is
/// `packet[8..8 + length]`. Gives 0, 10, 11 or 12, with `number` and `offset`.
#[inline]
pub fn read(members: &[u64], packet: &[u8], told: &mut [u64; 8]) -> u32 {
    // SAFETY: the pointers and the lengths are those of live Rust references.
    unsafe {
        exports::rtep_read(members.as_ptr(), members.len(), packet.as_ptr(), packet.len(), told)
    }
}

/// Writes the packet of the same eight numbers and its information to the start of `out`.
/// Told: octets of the packet, octets on the wire. Gives 0, 9 or 12.
#[inline]
pub fn write(
    members: &[u64],
    packet: &[u64; 8],
    information: &[u8],
    out: &mut [u8],
    told: &mut [u64; 2],
) -> u32 {
    // SAFETY: the pointers and the lengths are those of live Rust references, and `out` and
    // `told` overlap nothing.
    unsafe {
        exports::rtep_write(
            members.as_ptr(),
            members.len(),
            packet,
            information.as_ptr(),
            information.len(),
            out.as_mut_ptr(),
            out.len(),
            told,
        )
    }
}

/// Makes a station of a ring file and its own address. Gives 0, 35 or 1 to 8.
#[inline]
pub fn make(record: &mut [u8], file: &[u8], own: u64) -> u32 {
    // SAFETY: the pointers and the lengths are those of live Rust references; what the calls below
    // write is borrowed for them alone.
    unsafe { exports::rtep_make(record.as_mut_ptr(), record.len(), file.as_ptr(), file.len(), own) }
}

/// Starts a station. Told: octets of the packet in `out` (0: none), its addressee, the station
/// newly struck (0: none), the messages given up, and five numbers for each. Gives 0, 9, 35 or 23.
#[inline]
pub fn start(record: &mut [u8], out: &mut [u8], told: &mut [u64; 84]) -> u32 {
    // SAFETY: as in `make`.
    unsafe {
        exports::rtep_start(record.as_mut_ptr(), record.len(), out.as_mut_ptr(), out.len(), told)
    }
}

/// Hands over a frame that was heard. Told as by `start`. Gives 0, 9, 35, 22, 13 or 10 to 12,
/// with `number` and `offset`.
#[inline]
pub fn frame(
    record: &mut [u8],
    store: &mut [u8],
    from: u64,
    to: u64,
    packet: &[u8],
    out: &mut [u8],
    told: &mut [u64; 84],
) -> u32 {
    // SAFETY: as in `make`.
    unsafe {
        exports::rtep_frame(
            record.as_mut_ptr(),
            record.len(),
            store.as_mut_ptr(),
            store.len(),
            from,
            to,
            packet.as_ptr(),
            packet.len(),
            out.as_mut_ptr(),
            out.len(),
            told,
        )
    }
}

/// The driver's timer. Told as by `start`. Gives 0, 9, 35 or 22.
#[inline]
pub fn timer(record: &mut [u8], store: &[u8], out: &mut [u8], told: &mut [u64; 84]) -> u32 {
    // SAFETY: as in `make`.
    unsafe {
        exports::rtep_timer(
            record.as_mut_ptr(),
            record.len(),
            store.as_ptr(),
            store.len(),
            out.as_mut_ptr(),
            out.len(),
            told,
        )
    }
}

/// Queues a message. Gives 0, 9, 35, 22 or 14 to 19.
#[inline]
pub fn queue(
    record: &mut [u8],
    store: &mut [u8],
    to: u64,
    priority: usize,
    channel: usize,
    payload: &[u8],
) -> u32 {
    // SAFETY: as in `make`.
    unsafe {
        exports::rtep_queue(
            record.as_mut_ptr(),
            record.len(),
            store.as_mut_ptr(),
            store.len(),
            to,
            priority,
            channel,
            payload.as_ptr(),
            payload.len(),
        )
    }
}

/// Takes the best message of a channel. Told: sender, priority, channel, length. Gives 0, 9, 35,
/// 17, 20 or 21.
#[inline]
pub fn take(
    record: &mut [u8],
    store: &[u8],
    channel: usize,
    room: &mut [u8],
    told: &mut [u64; 4],
) -> u32 {
    // SAFETY: as in `make`.
    unsafe {
        exports::rtep_take(
            record.as_mut_ptr(),
            record.len(),
            store.as_ptr(),
            store.len(),
            channel,
            room.as_mut_ptr(),
            room.len(),
            told,
        )
    }
}
