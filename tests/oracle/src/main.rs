//! Runs the unchanged Rust on lent lists, with `VM::step` answered from the outcomes.
//!
//!     oracle walks [--explain] < IMAGES    the walks of images in the text of the program `walked`; with --explain, the Rust's own
//!                                          words for each fault on standard error
//!     oracle map [--explain] < IMAGE       the map of an image in frames, by `AnalyzerState::detect_functions`: what `fmap` prints
//!     oracle maps [--explain] < IMAGES     the same of many, each image and each answer ended by a line `=`: what `replay` prints
//!     oracle time RUNS                     times `FunctionSlices::analyze` of 65,536 straight words: best and mean in nanoseconds
//!     oracle bench RUNS                    times `detect_functions` on six images of 65,536 words; built for it (bench/map), the proved
//!                                          library beside it
//!     oracle sizes RUNS                    the same on 4,096 to 65,536 words and 16 to 1,024 functions
#![allow(dead_code, unused, unexpected_cfgs, unreachable_pub, mismatched_lifetime_syntaxes)]

mod analysis;
mod obj;
mod util;

mod checks;
mod faults;
mod frames;
mod lists;
mod maps;
mod timed;
mod walks;

use std::io::{Read, Write};

use lists::Lists;
use walks::Walks;

fn walks(explain: bool) -> std::io::Result<()> {
    let mut text = String::new();
    std::io::stdin().read_to_string(&mut text)?;
    let mut printed = std::io::BufWriter::new(std::io::stdout().lock());
    let lines: Vec<&str> = text.lines().collect();
    for image in lines.split_inclusive(|l| *l == "=") {
        let lines = image.iter().copied().filter(|l| *l != "=");
        let mut out = String::new();
        match Lists::read(lines).map(Walks::new) {
            Some(image) => image.asked().for_each(|walk| image.answer(&mut out, &walk, explain).unwrap()),
            None => out.push_str("?\n"),
        }
        writeln!(printed, "{out}=")?;
    }
    Ok(())
}

fn input() -> std::io::Result<String> {
    let mut bytes = vec![];
    std::io::stdin().read_to_end(&mut bytes)?;
    // a byte that is no text makes its line no frame
    Ok(String::from_utf8_lossy(&bytes).into_owned())
}

fn map(explain: bool) -> std::io::Result<()> {
    let text = input()?;
    std::io::stdout().write_all(maps::answer(text.split_terminator('\n'), explain).as_bytes())
}

fn maps(explain: bool) -> std::io::Result<()> {
    let text = input()?;
    let mut printed = std::io::BufWriter::new(std::io::stdout().lock());
    let lines: Vec<&str> = text.split_terminator('\n').collect();
    for image in lines.split_inclusive(|l| *l == "=") {
        let lines = image.iter().copied().filter(|l| *l != "=");
        write!(printed, "{}=\n", maps::answer(lines, explain))?;
    }
    printed.flush()
}

fn time(runs: u32) {
    log::set_max_level(log::LevelFilter::Off);
    let lines = ["s 1 80003000 40000 40000", "b 38630001 *ffff", "b 4e800020", "o 0 0 0 0 0 0 *ffff", "o 3 0 0 0 0 0"];
    let image = Walks::new(Lists::read(lines.into_iter()).unwrap());
    let took: Vec<u128> = (0..runs).map(|_| image.timed()).collect();
    println!("{} {}", took.iter().min().unwrap(), took.iter().sum::<u128>() / runs as u128);
}

fn main() -> std::io::Result<()> {
    faults::watch();
    let args: Vec<String> = std::env::args().skip(1).collect();
    match args.iter().map(String::as_str).collect::<Vec<_>>()[..] {
        ["walks"] => walks(false),
        ["walks", "--explain"] => walks(true),
        ["map"] => map(false),
        ["map", "--explain"] => map(true),
        ["maps"] => maps(false),
        ["maps", "--explain"] => maps(true),
        ["bench", runs] => Ok(timed::images(runs.parse().expect("a number of runs"))),
        ["sizes", runs] => Ok(timed::sizes(runs.parse().expect("a number of runs"))),
        ["time", runs] => Ok(time(runs.parse().expect("a number of runs"))),
        _ => {
            eprintln!("usage: oracle walks [--explain] | map [--explain] | maps [--explain] | time RUNS | bench RUNS | sizes RUNS");
            std::process::exit(2);
        }
    }
}
