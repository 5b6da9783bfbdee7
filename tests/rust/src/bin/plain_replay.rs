//! A recorded day in plain Rust: `plain_replay RINGFILE CAPTURE` prints what `rtep_replay` does. Its stations are
//! those of `rtep::yardstick`.

use rtep::yardstick::day::replay;
use rtep::yardstick::out::Out;
use std::{env, fs, io, process};

fn main() {
    let names: Vec<_> = env::args_os().skip(1).collect();
    let [ring, capture] = &names[..] else {
        eprintln!("plain_replay RINGFILE CAPTURE");
        process::exit(2);
    };
    let done = (|| -> io::Result<()> {
        let (file, capture) = (fs::read(ring)?, fs::read(capture)?);
        let mut out = Out::new(io::stdout());
        replay(&file, &capture, &mut out)?;
        out.flush()
    })();
    if let Err(error) = done {
        eprintln!("plain_replay: {error}");
        process::exit(1);
    }
}
