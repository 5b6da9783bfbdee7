//! Makes input for the bench program, the same for the same seed.
//!
//! `random_scripts scripts FOLDER COUNT SEED` writes scripts of good and damaged lines into a folder;
//! `random_scripts bad OCTETS SEED` writes bad lines to standard output, and the page's script behind them.

use rtep::random::Random;
use std::io::{self, Write};
use std::path::Path;
use std::{env, fs, process};

const PAGE: &[u8] = b"ring 3\nqueue 1 2 5 0 100\nqueue 0 1 9 0 0\nstep 9\n";
/// The most frames that a script asks for beyond its last line.
const FRAMES: usize = 2000;

fn main() -> io::Result<()> {
    let words: Vec<String> = env::args().skip(1).collect();
    let words: Vec<&str> = words.iter().map(String::as_str).collect();
    match words[..] {
        ["scripts", folder, count, seed] => {
            let mut random = Random::new(parse(seed));
            for index in 0..parse(count) {
                let file = Path::new(folder).join(format!("{index:03}.script"));
                fs::write(file, script(&mut random))?;
            }
            Ok(())
        }
        ["bad", octets, seed] => bad_lines(&mut Random::new(parse(seed)), parse(octets)),
        _ => {
            eprintln!("random_scripts scripts FOLDER COUNT SEED | bad OCTETS SEED");
            process::exit(2);
        }
    }
}

fn parse(word: &str) -> u64 {
    word.parse().unwrap_or_else(|_| panic!("{word} is no number"))
}

fn script(random: &mut Random) -> Vec<u8> {
    let members = match random.below(8) {
        0 => 2,
        1 => 64,
        2 | 3 => random.within(2..=64),
        _ => random.within(2..=6),
    };
    // In some scripts one station has most of the messages, so that its list fills up.
    let busy = random.once_in(3).then(|| random.below(members));
    let mut script = Vec::new();
    let mut begun = false;
    let mut frames = 0;
    for _ in 0..random.within(1..=80) {
        let mut line = if !begun && !random.once_in(6) {
            begun = true;
            words(random, "ring", &[members])
        } else {
            match random.below(12) {
                0 => {
                    let members = random.pick(&[0, 1, 2, 3, 64, 65, 65535]);
                    words(random, "ring", &[members])
                }
                1..=3 if frames < FRAMES => {
                    let count = match random.below(30) {
                        0 => random.within(0..=2000),
                        1..=10 => random.within(0..=2 * members + 5),
                        _ => random.within(0..=5),
                    };
                    frames += count;
                    words(random, "step", &[count])
                }
                _ => {
                    let numbers = message(random, members, busy);
                    words(random, "queue", &numbers)
                }
            }
        };
        if random.once_in(10) {
            damage(random, &mut line);
        }
        script.extend(line);
        script.push(b'\n');
    }
    if random.once_in(20) {
        script.extend(words(random, "step", &[65535]));
        script.push(b'\n');
    }
    if random.once_in(3) {
        script.pop();
    }
    script
}

/// Mostly a good message, of few priorities, so that equals meet.
fn message(random: &mut Random, members: usize, busy: Option<usize>) -> [usize; 5] {
    let from = busy.filter(|_| !random.once_in(6)).unwrap_or_else(|| random.below(members));
    let mut numbers = [
        from,
        (from + random.within(1..=members - 1)) % members,
        random.pick(&[1, 2, 3, 5, 9, 254, 255]),
        random.below(8),
        random.pick(&[0, 1, 37, 38, 39, 40, 100, 1491, 1492]),
    ];
    while random.once_in(5) {
        let edges = [
            [members, 64, 256, 65535],
            [members, from, 256, 65535],
            [0, 256, 257, 65535],
            [7, 8, 256, 65535],
            [1492, 1493, 1526, 65535],
        ];
        let which = random.below(5);
        numbers[which] = random.pick(&edges[which]);
    }
    numbers
}

/// A line of a word and numbers, some of them with leading zeros.
fn words(random: &mut Random, word: &str, numbers: &[usize]) -> Vec<u8> {
    let mut line = word.as_bytes().to_vec();
    for number in numbers {
        let width = if random.once_in(12) { random.within(1..=5) } else { 1 };
        line.extend(format!(" {number:0width$}").into_bytes());
    }
    line
}

/// One to three octets taken out, put in or replaced.
fn damage(random: &mut Random, line: &mut Vec<u8>) {
    for _ in 0..random.within(1..=3) {
        let octet =
            if random.once_in(4) { random.octet() } else { random.pick(b"  \t\r\n\0+-0915a\xff") };
        let place = random.below(line.len() + 1);
        match random.below(3) {
            0 => line.insert(place, octet),
            1 if place < line.len() => line[place] = octet,
            _ if place < line.len() => drop(line.remove(place)),
            _ => {}
        }
    }
}

/// Lines of up to 300 octets. Behind the first octet they hold anything but a line feed; the first one begins no word
/// of a script.
fn bad_lines(random: &mut Random, octets: u64) -> io::Result<()> {
    let mut block = Vec::new();
    while block.len() < 1 << 20 {
        let length = random.below(301);
        let mut line = random.octets(length);
        line.iter_mut().filter(|octet| **octet == b'\n').for_each(|octet| *octet = b' ');
        if let Some(first) = line.first_mut() {
            *first = random.pick(b" #0\t\r\0\xff");
        }
        block.extend(line);
        block.push(b'\n');
    }
    let mut out = io::stdout().lock();
    for _ in 0..octets.div_ceil(block.len() as u64) {
        out.write_all(&block)?;
    }
    out.write_all(PAGE)
}
