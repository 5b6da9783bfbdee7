//! Times the proved codec beside a plain Rust one. Not a test: it refuses no time.
//!
//! The yardstick is `rtep::yardstick::codec`: the codec as one writes it in Rust by hand, with slices, pattern
//! matching and the standard library's own `contains`, `copy_from_slice`, `fill`, `from_be_bytes`
//! and, for the pad of every kind of packet, `iter().all(|octet| *octet == 0)`. It makes the same
//! checks and tells the same numbers. Both sides are compiled for the same processor (the target's
//! baseline) and stand behind exactly one call that is not inlined: `rtep::read` and its likes are
//! `#[inline]` and only call the archive's function, and each `plain_` function is
//! `#[inline(never)]`. Both get the same inputs through the same C boundary. They take turns in many
//! short rounds, and the best time per call of each side counts.

use rtep::model::{self, Packet};
use rtep::random::Random;
use rtep::yardstick::codec as plain;
use std::hint::black_box;
use std::time::Instant;

const SEED: u64 = 0x5254_4550_0000_0004;
const ROUNDS: usize = 2000;
const CALLS: usize = 512;
/// Inputs of one row, called in turn.
const INPUTS: usize = 8;

fn nanoseconds_per_call(call: &mut impl FnMut(usize)) -> f64 {
    let start = Instant::now();
    for turn in 0..CALLS {
        call(turn % INPUTS);
    }
    start.elapsed().as_secs_f64() * 1e9 / CALLS as f64
}

/// Prints a row and gives the ratio.
fn row(
    what: &str,
    members: usize,
    mut library: impl FnMut(usize),
    mut plain: impl FnMut(usize),
) -> f64 {
    let (mut best_library, mut best_plain) = (f64::INFINITY, f64::INFINITY);
    for _ in 0..ROUNDS {
        best_library = best_library.min(nanoseconds_per_call(&mut library));
        best_plain = best_plain.min(nanoseconds_per_call(&mut plain));
    }
    let ratio = best_library / best_plain;
    println!("{what:<28} {members:>7} {best_library:>10.1} {best_plain:>7.1} {ratio:>6.2}");
    ratio
}

fn addresses(random: &mut Random, members: usize) -> Vec<u64> {
    let mut addresses = Vec::new();
    while addresses.len() < members {
        let next = random.next() >> 16 & !(1 << 40);
        if next != 0 && !addresses.contains(&next) {
            addresses.push(next);
        }
    }
    addresses
}

/// The inputs of a row: the eight numbers and the information, and the octets.
struct Input {
    numbers: [u64; 8],
    information: Vec<u8>,
    octets: Vec<u8>,
}

fn input(random: &mut Random, members: &[u64], identifier: u64, length: usize) -> Input {
    let information = random.octets(length);
    let priority = random.mark();
    let number = random.next() as u16;
    let master = random.pick(members);
    let named = random.pick(members);
    let packet = match identifier {
        1 => Packet::Token { priority, number, master, failing: Some(random.pick(members)), named },
        2 => Packet::TransmitToken { priority, number, master, named },
        _ => Packet::Information { priority, number, channel: 5, information: &information },
    };
    Input { numbers: packet.numbers(), octets: packet.octets(), information: information.clone() }
}

fn main() {
    let random = &mut Random::new(SEED);
    let mut highest: f64 = 0.0;
    println!(
        "seed {SEED:#018x}; best of {ROUNDS} rounds of {CALLS} calls each, nanoseconds per call"
    );
    println!("{:<28} {:>7} {:>10} {:>7} {:>6}", "call", "members", "library", "Rust", "ratio");
    for (what, identifier, length) in [
        ("token", 1, 0),
        ("transmit token", 2, 0),
        ("information of 0", 3, 0),
        ("information of 100", 3, 100),
        ("information of 1492", 3, 1492),
    ] {
        for size in [3, 64] {
            let members = &addresses(random, size)[..];
            let inputs: Vec<Input> =
                (0..INPUTS).map(|_| input(random, members, identifier, length)).collect();

            let read_library = |packet: &[u8], told: &mut [u64; 8]| {
                rtep::read(black_box(members), black_box(packet), told)
            };
            let read_plain = |packet: &[u8], told: &mut [u64; 8]| {
                let (members, packet) = (black_box(members), black_box(packet));
                // SAFETY: the pointers and lengths are those of live references.
                unsafe {
                    plain::plain_read(
                        members.as_ptr(),
                        members.len(),
                        packet.as_ptr(),
                        packet.len(),
                        told,
                    )
                }
            };
            let write_library = |input: &Input, out: &mut [u8], told: &mut [u64; 2]| {
                let (numbers, information) = black_box((&input.numbers, &input.information[..]));
                rtep::write(black_box(members), numbers, information, out, told)
            };
            let write_plain = |input: &Input, out: &mut [u8], told: &mut [u64; 2]| {
                let (numbers, information) = black_box((&input.numbers, &input.information[..]));
                let members = black_box(members);
                // SAFETY: the pointers and lengths are those of live references.
                unsafe {
                    plain::plain_write(
                        members.as_ptr(),
                        members.len(),
                        numbers,
                        information.as_ptr(),
                        information.len(),
                        out.as_mut_ptr(),
                        out.len(),
                        told,
                    )
                }
            };

            // Both sides do the same before they are timed.
            for input in &inputs {
                let (mut library, mut plain) = ([9; 8], [8; 8]);
                assert_eq!(read_library(&input.octets, &mut library), 0);
                assert_eq!(read_plain(&input.octets, &mut plain), 0);
                assert_eq!((library, plain), (input.numbers, input.numbers));
                let (mut library, mut plain) = ([9; 2], [8; 2]);
                let (mut library_out, mut plain_out) = ([7; 1500], [7; 1500]);
                assert_eq!(write_library(input, &mut library_out, &mut library), 0);
                assert_eq!(write_plain(input, &mut plain_out, &mut plain), 0);
                assert_eq!((library, library_out), (plain, plain_out));
                assert_eq!(library_out[..library[0] as usize], input.octets);
            }

            let (mut told, mut also_told) = ([0; 8], [0; 8]);
            let ratio = row(
                &format!("read {what}"),
                size,
                |place| {
                    black_box(read_library(&inputs[place].octets, black_box(&mut told)));
                },
                |place| {
                    black_box(read_plain(&inputs[place].octets, black_box(&mut also_told)));
                },
            );
            highest = highest.max(ratio);

            let (mut out, mut also_out) = ([0; 1500], [0; 1500]);
            let (mut told, mut also_told) = ([0; 2], [0; 2]);
            let ratio = row(
                &format!("write {what}"),
                size,
                |place| {
                    let out = black_box(&mut out);
                    black_box(write_library(&inputs[place], out, black_box(&mut told)));
                },
                |place| {
                    let out = black_box(&mut also_out);
                    black_box(write_plain(&inputs[place], out, black_box(&mut also_told)));
                },
            );
            highest = highest.max(ratio);
        }
    }
    println!("highest ratio of a packet: {highest:.2}");

    for (form, size) in [(1, 3), (1, 64), (2, 3), (2, 64)] {
        let files: Vec<Vec<u8>> = (0..INPUTS)
            .map(|_| model::Ring { form, ..model::Ring::plain(2, addresses(random, size)) }.file())
            .collect();
        let read_library = |file: &[u8], told: &mut [u64; 66]| rtep::ring(black_box(file), told);
        let read_plain = |file: &[u8], told: &mut [u64; 66]| {
            let file = black_box(file);
            // SAFETY: the pointer and the length are those of a live reference.
            unsafe { plain::plain_ring(file.as_ptr(), file.len(), told) }
        };
        for file in &files {
            let (mut library, mut plain) = ([9; 66], [9; 66]);
            assert_eq!((read_library(file, &mut library), read_plain(file, &mut plain)), (0, 0));
            assert_eq!(library, plain);
        }
        let (mut told, mut also_told) = ([0; 66], [0; 66]);
        row(
            if form == 1 { "read ring file" } else { "read ring file of form 2" },
            size,
            |place| {
                black_box(read_library(&files[place], black_box(&mut told)));
            },
            |place| {
                black_box(read_plain(&files[place], black_box(&mut also_told)));
            },
        );
    }
}
