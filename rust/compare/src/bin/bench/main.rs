//! `bench [--quick] [--row KEY] [--seed SEED]` measures the proved library against plain Rust.

#![forbid(unsafe_code)]

mod measure;
mod memory;
mod rows;

use measure::{measure, Measured, Plan};
use rows::{rows, Row};
use std::error::Error;
use std::process::{Command, ExitCode};
use std::time::{Duration, Instant};

/// How it is measured, if nothing else is asked for.
const FULL: Plan = Plan { samples: 501, sample: Duration::from_micros(500) };

/// How it is measured in a hurry.
const QUICK: Plan = Plan { samples: 31, sample: Duration::from_micros(300) };

/// What is asked for.
struct Options {
    plan: Plan,
    key: Option<String>,
    seed: u64,
}

fn main() -> Result<ExitCode, Box<dyn Error>> {
    let start = Instant::now();
    let options = options()?;
    let mut rows = rows(options.seed);
    if let Some(key) = &options.key {
        let keys: Vec<&str> = rows.iter().map(|row| row.key).collect();
        if !keys.contains(&key.as_str()) {
            return Err(format!("there is no row {key}; rows: {}", keys.join(" ")).into());
        }
        rows.retain(|row| row.key == key);
    }
    for row in &rows {
        if !row.work.agree() {
            println!("WRONG: {}: the answers or the buffers differ", row.name);
            return Ok(ExitCode::FAILURE);
        }
    }
    method(&options);
    println!(
        "{:<40}{:>17}{:>17}  {:<22}{:>12}{:>12}",
        "", "library, ns", "plain, ns", "ratio (quartiles)", "library", "plain"
    );
    for row in &mut rows {
        let measured = measure(row, options.plan);
        print_row(row, &measured);
    }
    println!();
    memory::stack(&mut rows);
    let right = memory::archive();
    println!("it took {:.1} s in all", start.elapsed().as_secs_f64());
    Ok(if right { ExitCode::SUCCESS } else { ExitCode::FAILURE })
}

/// Reads the arguments.
fn options() -> Result<Options, Box<dyn Error>> {
    let mut options = Options { plan: FULL, key: None, seed: 3964 };
    let mut args = std::env::args().skip(1);
    while let Some(arg) = args.next() {
        match arg.as_str() {
            "--quick" => options.plan = QUICK,
            "--row" => options.key = Some(args.next().ok_or("--row needs a KEY")?),
            "--seed" => options.seed = args.next().ok_or("--seed needs a number")?.parse()?,
            _ => return Err("usage: bench [--quick] [--row KEY] [--seed SEED]".into()),
        }
    }
    Ok(options)
}

/// Says how is measured, and on what.
fn method(options: &Options) {
    let Plan { samples, sample } = options.plan;
    let milliseconds = 1000.0 * sample.as_secs_f64();
    let (seed, processor, compiler) = (options.seed, processor(), compiler());
    println!(
        "The proved library through its C interface against plain Rust with the same interface.

- Time of one call in nanoseconds: the median of {samples} samples of about {milliseconds:.1} ms
  each. The samples of the two take turns, in one process, warm, on the same buffers; each pair
  has its stack at another place. Behind it half the distance of the quartiles, in percent.
- Ratio: time of plain Rust divided by time of the library, as the median over the pairs of
  samples, with its quartiles. At 1 and above the library is at least as fast.
- Plain Rust is optimised by cargo (release: opt-level 3, link-time optimisation, one unit), the
  library by `rt lib`, which takes no options, a static library for each crate of exports. The
  plain functions are not inlined (inline(never)), as those of the library are in an archive and
  cannot be.
- A frame, a block that is sent and a gate telegram are measured by their bytes of data, receiving
  by the bytes fed: million bytes a second.
- Before that, library, plain Rust and reference gave the same answers and left the same buffers.
- Seed {seed}, {processor}, {compiler}.
"
    );
}

/// The model of the processor.
fn processor() -> String {
    let info = std::fs::read_to_string("/proc/cpuinfo").unwrap_or_default();
    let mut lines = info.lines().filter(|line| line.starts_with("model name"));
    match lines.next().and_then(|line| line.split_once(':')) {
        Some((_, model)) => format!("processor {}", model.trim()),
        None => "an unknown processor".into(),
    }
}

/// The version of the compiler that is installed.
fn compiler() -> String {
    let output = Command::new("rustc").arg("--version").output();
    match output {
        Ok(output) => String::from_utf8_lossy(&output.stdout).trim().into(),
        Err(_) => "an unknown compiler".into(),
    }
}

fn print_row(row: &Row, measured: &Measured) {
    let time = |spread: &measure::Spread| {
        let percent = spread.percent();
        format!("{:.1} ±{percent:>4.1}%", spread.median)
    };
    let ratio = &measured.ratio;
    let ratio = format!("{:.3} ({:.3} - {:.3})", ratio.median, ratio.low, ratio.high);
    let [library, plain] = [&measured.library, &measured.plain].map(|spread| match row.bytes {
        // Bytes a nanosecond are thousand million bytes a second.
        Some(bytes) => {
            let each = bytes as f64 / row.calls as f64;
            format!("{:.0} MB/s", 1000.0 * each / spread.median)
        }
        None => String::new(),
    });
    let line = format!(
        "{:<40}{:>17}{:>17}  {ratio:<22}{library:>12}{plain:>12}",
        row.name,
        time(&measured.library),
        time(&measured.plain)
    );
    println!("{}", line.trim_end());
}
