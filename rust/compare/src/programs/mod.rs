//! The programs: they are run on many inputs, and their texts compared with those of the reference.

mod inputs;
pub mod limits;

use crate::inputs::Random;
use crate::shrink::shorten;
use reference::link::{frame, receive, Answer, Event, Phase, State, MAX_DATA, STX};
use reference::report;
use std::io::{self, Read, Write};
use std::process::{ChildStdin, Command, Stdio};
use std::thread::{scope, sleep};
use std::time::Duration;

/// Time for a program to read a piece before the next is written.
const PAUSE: Duration = Duration::from_millis(10);

/// Most runs that are spent on making a failing input smaller.
const TRIES: u32 = 400;

/// One way to run a program.
struct Mode {
    name: &'static str,
    argument: Option<&'static str>,
    /// What must be printed for an input.
    text: fn(&[u8]) -> String,
    /// What must be in one of the texts, behind the end of a line.
    needed: &'static [&'static str],
}

/// An input, which is written in pieces of so many bytes.
struct Input {
    bytes: Vec<u8>,
    piece: usize,
}

const FRAME: Mode = Mode {
    name: "framing",
    argument: Some("frame"),
    text: play,
    needed: &["frame: refused 12\n", "frame: written 3: ", "frame: written 2051: "],
};

const LISTEN: Mode = Mode {
    name: "listening",
    argument: Some("listen"),
    text: feed,
    needed: &[": nothing\n", "02: sends 10\n", ": sends 15\n", "message of 0\n", "message of 1024: "],
};

#[rustfmt::skip]
const PROGRAM: Mode = Mode {
    name: "program",
    argument: None,
    text: report::program,
    needed: &[
        "\nsent 1\n", "\nsent 6\n", " refused 7\n", " refused 8\n", " refused 9\n", " refused 10\n",
        "\nrefused 2\n", "\nrefused 3\n", "\nrefused 4\n", "\nrefused 5\n", "\nrefused 6\n", "\nrefused 12\n",
    ],
};

/// Runs the programs on many inputs; false at the first wrong text, and where a text that is needed
/// did not come.
pub fn compare(run_cases: &str, run_send_cases: &str, dry_run: &str, seed: u64) -> io::Result<bool> {
    println!("texts of the programs, seed {seed}");
    let rows = [run(run_cases, None, &[], 1)?, run(run_send_cases, None, &[], 1)?].concat();
    let rows = String::from_utf8_lossy(&rows);
    if let Some(wrong) = wrong_row(&rows) {
        println!("limits: WRONG: {wrong}");
        return Ok(false);
    }
    println!("limits: {} rows, all as expected", rows.lines().count());
    let random = &mut Random::new(seed);
    Ok(FRAME.compare(run_cases, &inputs::framing(random))?
        && LISTEN.compare(run_cases, &inputs::listening(random))?
        && PROGRAM.compare(dry_run, &inputs::telegrams(random))?)
}

/// The first row at the limits that the reference tells in another way, or a table that is not
/// there.
fn wrong_row(rows: &str) -> Option<String> {
    let expected = limits::text(rows);
    let mut lines = rows.lines().zip(expected.lines());
    if let Some((row, expected)) = lines.find(|(row, expected)| row != expected) {
        return Some(format!("{row}\nexpected {expected}"));
    }
    let headings = limits::TABLES.map(|(heading, _)| heading);
    let missing = headings.into_iter().find(|heading| !rows.contains(&format!("{heading}\n ")));
    missing.map(|heading| format!("no rows of {heading:?}"))
}

impl Mode {
    fn compare(&self, program: &str, inputs: &[Input]) -> io::Result<bool> {
        let (mut read, mut printed) = (0, 0);
        let mut missing = self.needed.to_vec();
        for input in inputs {
            let right = (self.text)(&input.bytes);
            let text = run(program, self.argument, &input.bytes, input.piece)?;
            if text != right.as_bytes() {
                self.report(program, input, &right, &text);
                return Ok(false);
            }
            read += input.bytes.len();
            printed += text.len();
            let lines = format!("\n{right}");
            missing.retain(|needed| !lines.contains(needed));
        }
        let (name, runs) = (self.name, inputs.len());
        println!("{name}: {runs} processes, {read} bytes on standard input");
        println!("  their {printed} bytes of text are all as expected");
        for needed in &missing {
            println!("  NEVER printed: {needed:?}");
        }
        Ok(missing.is_empty())
    }

    /// Prints where the text goes wrong, and a small input that fails too.
    fn report(&self, program: &str, input: &Input, right: &str, wrong: &[u8]) {
        let (name, length, piece) = (self.name, input.bytes.len(), input.piece);
        println!("{name}: WRONG for {length} bytes in pieces of {piece}");
        let wrong = String::from_utf8_lossy(wrong);
        let mut lines = right.split('\n').zip(wrong.split('\n'));
        if let Some((right, wrong)) = lines.find(|(right, wrong)| right != wrong) {
            println!("the first wrong line is {wrong:?}, expected {right:?}");
        }
        let mut tries = TRIES;
        let smallest = shorten(&input.bytes, |bytes| {
            tries = tries.saturating_sub(1);
            tries > 0
                && run(program, self.argument, bytes, piece).is_ok_and(|text| text != (self.text)(bytes).as_bytes())
        });
        println!("smallest failing input found, {} bytes:", smallest.len());
        println!("{}", hex(&smallest));
    }
}

/// What a program prints, with a line more where it ends badly.
fn run(program: &str, argument: Option<&str>, input: &[u8], piece: usize) -> io::Result<Vec<u8>> {
    let mut child = Command::new(program).args(argument).stdin(Stdio::piped()).stdout(Stdio::piped()).spawn()?;
    let stdin = child.stdin.take().expect("a pipe");
    let mut stdout = child.stdout.take().expect("a pipe");
    let mut text = Vec::new();
    scope(|scope| {
        scope.spawn(|| write_pieces(stdin, input, piece));
        stdout.read_to_end(&mut text)
    })?;
    let status = child.wait()?;
    if !status.success() {
        text.extend(format!("{status}\n").bytes());
    }
    Ok(text)
}

/// Stops at an error: the program need not read all of its input.
fn write_pieces(mut stdin: ChildStdin, input: &[u8], piece: usize) {
    for (i, piece) in input.chunks(piece).enumerate() {
        if i > 0 {
            sleep(PAUSE);
        }
        if stdin.write_all(piece).and_then(|()| stdin.flush()).is_err() {
            return;
        }
    }
}

/// Each byte in two hex digits after a space.
fn hex(bytes: &[u8]) -> String {
    bytes.iter().map(|byte| format!(" {byte:02X}")).collect()
}

/// The bytes, if there are any, behind a colon.
fn shown(bytes: &[u8]) -> String {
    format!("{}{}", if bytes.is_empty() { "" } else { ":" }, hex(bytes))
}

/// The answer of a receiving half that has a message.
fn message(message: &[u8]) -> String {
    format!("sends 10, message of {}{}", message.len(), shown(message))
}

/// The text about data that is framed, and whose frame is fed back.
fn play(data: &[u8]) -> String {
    let mut out = [0; 2 * MAX_DATA + 3];
    match frame(data, &mut out) {
        Ok(length) => {
            let framed = &out[..length];
            format!("frame: written {length}{}\n{}", shown(framed), feed(&[&[STX], framed].concat()))
        }
        Err(number) => format!("frame: refused {number}\n"),
    }
}

/// The text about bytes that are fed to a half at rest.
fn feed(bytes: &[u8]) -> String {
    let mut buffer = [0; MAX_DATA];
    let mut state = State { phase: Phase::Rest, count: 0, check: 0 };
    let mut text = String::new();
    for &byte in bytes {
        let (answer, next) = receive(state, Event::Byte(byte), &mut buffer);
        state = next;
        text += &format!("fed {byte:02X}: ");
        text += &match answer {
            Answer::Nothing => "nothing\n".into(),
            Answer::Send(byte) => format!("sends {byte:02X}\n"),
            Answer::Message(count) => message(&buffer[..count]) + "\n",
            Answer::Refused(number) => format!("refused {number}\n"),
        };
    }
    text
}

#[cfg(test)]
mod tests {
    use super::*;

    #[test]
    fn rows_at_the_limits() {
        let rows = ["run_cases", "run_send_cases"].map(|program| {
            let file = format!("{}/../../crates/{program}/stdout", env!("CARGO_MANIFEST_DIR"));
            std::fs::read_to_string(file).expect("the rows that the program prints")
        });
        let rows = rows.concat();
        assert_eq!(wrong_row(&rows), None);
        for (row, wrong) in [
            ("sent 9", "sent 8"),
            (" 1 18", " 0 18"),
            ("refused 12", "refused 2"),
            ("55 00 01 00 7E", "55 00 01 00 7F"),
            ("X 00 00 0 256 0", "X 00 00 0 255 0"),
            ("0 253; kept", "0 252; kept"),
            ("09 03: no ack", "09 03: ack"),
            ("1D FF; kept", "1D FE; kept"),
            ("1C 80 80 80 80; kept", "1C 80 80 80 81; kept"),
        ] {
            assert!(rows.contains(row), "{row}");
            assert!(wrong_row(&rows.replacen(row, wrong, 1)).is_some());
        }
        assert!(wrong_row("").is_some());
    }
}
