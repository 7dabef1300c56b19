//! Compares the static library with the second meter, call by call. Prints what the run met; exit status 1 where something
//! differs.
//!
//! compare CALLS SEED FOLDER makes so many calls at random; the folder gets replies for other programs to read, and what can
//! be answered and never was, a number or what a read by date comes to, is a difference, too, and so are counters around the
//! overflow that never came, blocks that were not sent or refused, and transfers that were not ended or forgotten in every way. compare --replay INPUT OUTPUT goes through the script program's cases. compare --explain FRAMES
//! SEED PROGRAM FOLDER has the script program explain so many frames at random.

mod bench;
mod bits;
mod counters;
mod damage;
mod explained;
mod library;
mod opening;
mod owner;
mod player;
mod random;
mod ranges;
mod replay;
mod run;
mod samples;
mod states;
mod statistics;
mod transfers;
mod values;

use std::fs;
use std::path::Path;
use std::process::ExitCode;
use std::time::Instant;

/// How many frames the script program gets at once: some forty megabytes of lines.
const EXPLAINED_AT_ONCE: usize = 20_000;

fn main() -> ExitCode {
    let words: Vec<String> = std::env::args().skip(1).collect();
    let done = match &words[..] {
        [word, input, output] if word == "--replay" => replayed(input, output),
        [word, frames, seed, program, folder] if word == "--explain" => {
            let (Ok(frames), Ok(number)) = (frames.parse(), seed.parse()) else { return usage() };
            explained(frames, number, program, Path::new(folder)).map_err(|told| format!("{told}\nseed: {seed}"))
        }
        [calls, seed, folder] => {
            let (Ok(calls), Ok(number)) = (calls.parse(), seed.parse()) else { return usage() };
            compared(calls, number, Path::new(folder)).map_err(|told| format!("{told}\nseed: {seed}"))
        }
        _ => return usage(),
    };
    match done {
        Ok(()) => ExitCode::SUCCESS,
        Err(told) => {
            println!("{told}");
            ExitCode::FAILURE
        }
    }
}

fn usage() -> ExitCode {
    println!("usage: compare CALLS SEED FOLDER, compare --replay INPUT OUTPUT, or compare --explain FRAMES SEED PROGRAM FOLDER");
    ExitCode::from(2)
}

fn replayed(input: &str, output: &str) -> Result<(), String> {
    let read = |path: &str| fs::read(path).map_err(|error| format!("{path}: {error}"));
    let output = String::from_utf8(read(output)?).map_err(|error| format!("{output}: {error}"))?;
    replay::replayed(&read(input)?, &output)?.print();
    Ok(())
}

fn explained(frames: usize, seed: u64, program: &str, folder: &Path) -> Result<(), String> {
    let mut run = run::Run::new(seed, frames);
    let mut explained = explained::Explained::default();
    while explained.frames() < frames {
        let next = frames.min(explained.frames() + EXPLAINED_AT_ONCE);
        run.explain(&mut explained, next)?;
        explained.compare(program, folder)?;
    }
    explained.print();
    all_met(&explained.missing(), "10000 frames")
}

/// Nothing that a run should meet is missing.
fn all_met(missing: &[String], enough: &str) -> Result<(), String> {
    match missing {
        [] => Ok(()),
        _ => Err(format!("never met: {}; a run of {enough} meets all", missing.join(", "))),
    }
}

fn compared(calls: usize, seed: u64, folder: &Path) -> Result<(), String> {
    if library::state_size() != reference::image::SIZE {
        return Err(format!("the library's state buffer has {} bytes", library::state_size()));
    }
    let began = Instant::now();
    let mut run = run::Run::new(seed, calls);
    run.compare()?;
    let rate = calls as f64 / began.elapsed().as_secs_f64();
    run.statistics.print();
    println!("{rate:>9.0}  calls a second, both sides together");
    run.samples.write(folder).map_err(|error| format!("samples: {error}"))?;
    all_met(&run.statistics.missing(), "100000 calls")
}
