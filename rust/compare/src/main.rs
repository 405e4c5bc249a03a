//! Compares the proved library and programs with the reference.
//!
//! - `compare RUN_CASES RUN_SEND_CASES DRY_RUN [SEED]` makes direct calls of the library, runs the
//!   three proved programs, two of them on many inputs, and compares all that they answer, change
//!   and print.
//! - `compare --direct [SEED]` makes the direct calls only.
//! - `compare --soak [MINUTES] [SEED]` makes direct calls with new seeds until the time is over.

#![forbid(unsafe_code)]

use compare::calls::parts;
use compare::driver::Driver;
use compare::programs;
use std::error::Error;
use std::io;
use std::process::ExitCode;
use std::time::{Duration, Instant};

const USAGE: &str = "usage: compare RUN_CASES RUN_SEND_CASES DRY_RUN [SEED]
       compare --direct [SEED]
       compare --soak [MINUTES] [SEED]";

/// The seed, where none is given.
const SEED: u64 = 3964;

/// How many seeds the direct calls of one run are made from.
const SEEDS: u64 = 12;

/// Minutes of a long run, where none are given.
const MINUTES: f64 = 10.0;

fn main() -> Result<ExitCode, Box<dyn Error>> {
    let args: Vec<String> = std::env::args().skip(1).collect();
    let args: Vec<&str> = args.iter().map(String::as_str).collect();
    let right = match args[..] {
        ["--direct"] => direct_calls(SEED, SEEDS, None),
        ["--direct", seed] => direct_calls(seed.parse()?, SEEDS, None),
        ["--soak"] => long_run(MINUTES, SEED),
        ["--soak", minutes] => long_run(minutes.parse()?, SEED),
        ["--soak", minutes, seed] => long_run(minutes.parse()?, seed.parse()?),
        [run_cases, run_send_cases, dry_run] => everything(run_cases, run_send_cases, dry_run, SEED)?,
        [run_cases, run_send_cases, dry_run, seed] => everything(run_cases, run_send_cases, dry_run, seed.parse()?)?,
        _ => return Err(USAGE.into()),
    };
    Ok(if right { ExitCode::SUCCESS } else { ExitCode::FAILURE })
}

/// Direct calls with ever new seeds.
fn long_run(minutes: f64, seed: u64) -> bool {
    direct_calls(seed, u64::MAX, Some(Duration::from_secs_f64(60.0 * minutes)))
}

/// The direct calls, and then the programs.
fn everything(run_cases: &str, run_send_cases: &str, dry_run: &str, seed: u64) -> io::Result<bool> {
    let start = Instant::now();
    let right = direct_calls(seed, SEEDS, None) && programs::compare(run_cases, run_send_cases, dry_run, seed)?;
    println!("the comparison took {:.1} s in all", start.elapsed().as_secs_f64());
    Ok(right)
}

/// Makes the direct calls of so many seeds from one on, or until the time is over; false at the
/// first wrong one, and where a kind of answer was not reached although there was no end to the time.
fn direct_calls(seed: u64, seeds: u64, time: Option<Duration>) -> bool {
    println!("direct calls of the library, of plain Rust and of the reference, from seed {seed} on");
    let parts = parts();
    let driver = Driver::new(time).run(&parts, (0..seeds).map(|more| seed.wrapping_add(more)));
    if let Some(text) = driver.wrong.get() {
        println!("{text}");
        return false;
    }
    println!("{}, all as expected", driver.progress());
    time.is_some() || driver.all_reached(&parts)
}
