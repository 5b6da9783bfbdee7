//! Times the proved program `rtep_bench` beside `plain_bench`, the same bench written in Rust by hand.
//! Not a test: it refuses no time, only an output that differs.
//!
//! Both get the same script and write to nowhere. They take turns, and the least time of each counts,
//! from before the program is started until it has ended. A path after the program's name says where
//! `rtep_bench` is; `plain_bench` stands beside this program.

use std::env;
use std::io::{self, Write};
use std::path::{Path, PathBuf};
use std::process::{Child, Command, Stdio};
use std::time::{Duration, Instant};

const ROUNDS: usize = 30;
const SCRIPT: &[u8] = b"ring 64
queue 63 1 5 0 1492
queue 0 63 9 0 0
queue 20 40 9 7 100
queue 20 41 3 0 38
step 65535
step 65535
step 65535
step 65535
";

fn main() -> io::Result<()> {
    let proved = match env::args_os().nth(1) {
        Some(path) => PathBuf::from(path),
        None => Path::new(env!("CARGO_MANIFEST_DIR")).join("../../crates/rtep_bench/out/rtep_bench"),
    };
    let plain = env::current_exe()?.with_file_name("plain_bench");

    let printed = start(&proved, Stdio::piped())?.wait_with_output()?.stdout;
    let wanted = start(&plain, Stdio::piped())?.wait_with_output()?.stdout;
    assert!(!wanted.is_empty() && printed == wanted, "the two programs print different frames");

    let mut least = [Duration::MAX; 2];
    for _ in 0..ROUNDS {
        for (least, program) in least.iter_mut().zip([&proved, &plain]) {
            *least = time(program)?.min(*least);
        }
    }
    let [proved, plain] = least.map(|time| time.as_secs_f64() * 1e3);
    println!("{:30}{:>12}{:>12}{:>8}", "program", "proved, ms", "Rust, ms", "ratio");
    let ratio = proved / plain;
    println!("{:30}{proved:>12.1}{plain:>12.1}{ratio:>8.2}", "ring 64, four times step 65535");
    Ok(())
}

fn time(program: &Path) -> io::Result<Duration> {
    let before = Instant::now();
    let status = start(program, Stdio::null())?.wait()?;
    let time = before.elapsed();
    assert!(status.success(), "{} ended with {status}", program.display());
    Ok(time)
}

/// Starts a program and gives it the whole script, which is short enough for a pipe to hold.
fn start(program: &Path, out: Stdio) -> io::Result<Child> {
    let mut child = Command::new(program).stdin(Stdio::piped()).stdout(out).spawn()?;
    child.stdin.take().expect("it is piped").write_all(SCRIPT)?;
    Ok(child)
}
