//! `model_days random FOLDER COUNT SEED` writes recorded days into a folder, the same for the same seed: first the edges, then as
//! many random ones; of each a ring file, a capture, and what the model prints of them. It fails where one of the rare
//! things did not come.
//! `model_days print RINGFILE CAPTURE` prints what the model does of these.

use rtep::days::{day, edges, Made, Seen};
use rtep::model::day::printed;
use rtep::random::Random;
use std::path::Path;
use std::{env, fs, io, process};

fn main() -> io::Result<()> {
    let words: Vec<String> = env::args().skip(1).collect();
    let words: Vec<&str> = words.iter().map(String::as_str).collect();
    match words[..] {
        ["random", folder, count, seed] => random(Path::new(folder), parse(count), parse(seed)),
        ["print", ring, capture] => {
            print!("{}", printed(&fs::read(ring)?, &fs::read(capture)?));
            Ok(())
        }
        _ => {
            eprintln!("model_days random FOLDER COUNT SEED | print RINGFILE CAPTURE");
            process::exit(2);
        }
    }
}

fn parse(word: &str) -> u64 {
    word.parse().unwrap_or_else(|_| panic!("{word} is no number"))
}

fn random(folder: &Path, count: u64, seed: u64) -> io::Result<()> {
    let mut random = Random::new(seed);
    for (index, made) in edges(&mut random).into_iter().enumerate() {
        let text = printed(&made.ring, &made.capture);
        write(&folder.join(format!("edge{index:04}")), &made, &text)?;
    }
    let mut seen = Seen::default();
    for index in 0..count {
        let made = day(&mut random);
        let text = seen.look(&made);
        write(&folder.join(format!("day{index:04}")), &made, &text)?;
    }
    println!("{}", seen.told());
    Ok(())
}

fn write(name: &Path, made: &Made, text: &str) -> io::Result<()> {
    fs::write(name.with_extension("ring"), &made.ring)?;
    fs::write(name.with_extension("capture"), &made.capture)?;
    fs::write(name.with_extension("expected"), text)
}
