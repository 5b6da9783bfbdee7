//! Times the proved program `rtep_replay` beside `plain_replay`, the same program written in Rust by hand: the longest
//! capture, 60,000 octets, on a ring of 64. It refuses an output that differs, and a time of more than three times plain Rust's.
//!
//! Both read the same files and write to nowhere. They take turns, and the least time of each counts, from before the
//! program is started until it has ended. An empty capture shows how much of that is the start; the last column is the ratio
//! without it. A path after the program's name says where `rtep_replay` is; `plain_replay` stands beside this program.

use rtep::days::{longest, Made};
use rtep::model::day;
use rtep::random::Random;
use std::path::{Path, PathBuf};
use std::process::{Command, Stdio};
use std::time::{Duration, Instant};
use std::{env, fs, io};

const ROUNDS: usize = 200;
const SEED: u64 = 20261115;
const MOST_RATIO: f64 = 3.0;

struct Files {
    ring: PathBuf,
    capture: PathBuf,
}

impl Files {
    fn write(made: &Made) -> io::Result<Files> {
        let here = env::current_exe()?;
        let files =
            Files { ring: here.with_extension("ring"), capture: here.with_extension("capture") };
        fs::write(&files.ring, &made.ring)?;
        fs::write(&files.capture, &made.capture)?;
        Ok(files)
    }

    fn given_to(&self, program: &Path) -> Command {
        let mut command = Command::new(program);
        command.args([&self.ring, &self.capture]).stdin(Stdio::null());
        command
    }
}

fn main() -> io::Result<()> {
    let proved = match env::args_os().nth(1) {
        Some(path) => PathBuf::from(path),
        None => Path::new(env!("CARGO_MANIFEST_DIR")).join("../../crates/rtep_replay/out/rtep_replay"),
    };
    let plain = env::current_exe()?.with_file_name("plain_replay");

    let mut random = Random::new(SEED);
    let quiet = longest(&mut random, false, 1);
    let lossy = longest(&mut random, true, 15);
    let fallen = longest(&mut random, true, 1);
    let empty = Made { ring: quiet.ring.clone(), capture: Vec::new() };
    let start = least(&[&proved, &plain], &empty)?;

    println!(
        "{:44}{:>12}{:>12}{:>8}{:>16}",
        "ring of 64", "proved, ms", "Rust, ms", "ratio", "without start"
    );
    let mut slow = false;
    for (name, made, limited) in [
        ("an empty capture", &empty, false),
        ("60,000 octets: frames and messages", &quiet, true),
        ("60,000 octets: lost frames and timers too", &lossy, true),
        ("60,000 octets: the same, and struck apart", &fallen, false),
    ] {
        let times = least(&[&proved, &plain], made)?;
        let [proved, plain] = [0, 1].map(|at| times[at].as_secs_f64() * 1e3);
        let [rest, plain_rest] =
            [0, 1].map(|at| times[at].saturating_sub(start[at]).as_secs_f64() * 1e3);
        let ratio = proved / plain;
        print!("{name:44}{proved:>12.2}{plain:>12.2}{ratio:>8.2}");
        if made.capture.is_empty() {
            println!();
        } else {
            println!("{:>16.2}", rest / plain_rest);
            slow |= limited && ratio > MOST_RATIO;
        }
    }
    assert!(!slow, "more than {MOST_RATIO} times as slow as plain Rust");
    Ok(())
}

/// The least time of each program, once both print what the model does.
fn least(programs: &[&Path; 2], made: &Made) -> io::Result<[Duration; 2]> {
    let files = Files::write(made)?;
    let wanted = day::printed(&made.ring, &made.capture);
    for program in programs {
        let printed = files.given_to(program).output()?.stdout;
        assert!(printed == wanted.as_bytes(), "{} prints something else", program.display());
    }
    let mut least = [Duration::MAX; 2];
    for _ in 0..ROUNDS {
        for (least, program) in least.iter_mut().zip(programs) {
            let mut command = files.given_to(program);
            command.stdout(Stdio::null());
            let before = Instant::now();
            let status = command.status()?;
            *least = before.elapsed().min(*least);
            assert!(status.success(), "{} ended with {status}", program.display());
        }
    }
    Ok(least)
}
