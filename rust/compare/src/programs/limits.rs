//! The rows that `run_cases` and, of the sender, `run_send_cases` print of the calls at their limits,
//! in one table for each call. A row tells a call and, behind a colon, what came of it. The call is
//! made of the reference, which must tell the same.

mod gate;

use super::{message, shown};
use crate::answer::{self, heard, sent};
use crate::call::{Call, Outcome};
use crate::calls::send::{send, PHASE, RECEIVING};
use crate::calls::{dry_run, frame, read_reply, station};
use crate::calls::{receive::Receive, write_request::WriteRequest};
use crate::lent::Lent;
use hanraquin::sys::{START, TIMER};
use hanraquin::{DATA_MAX, DLE, FRAME_MAX, REGISTERS, STATIONS_MAX, TELEGRAM};
use reference::registers;

/// What the reference tells of a call.
type Tell = fn(&mut Columns) -> Option<String>;

/// The tables, each with its heading.
pub const TABLES: [(&str, Tell); 13] = [
    ("frame: byte, how often, places", frame),
    ("receive: phase (R, I, D, W), check, count, places, event", event),
    ("send: limits, failed, phase (F, O, A, R and the half, S, G), event, data 10, places", sending),
    ("handle: own, table, places, telegram", station),
    ("place_of: first, last", places),
    ("dry_run: addresses; tables, places, telegram", net),
    ("write_request: reads, writes, places, route", request),
    ("read_reply: telegram", reply),
    ("gate write: destination, source, how many bytes A5, places", gate::telegram),
    ("gate receive: own, phase, destination, source, length, count, store, places, byte", gate::received),
    ("gate operate: command, function", gate::operate),
    ("gate write_answer: position, places", gate::position),
    ("gate read_answer and write_answer: bytes", gate::read_answer),
];

/// What the reference tells of the call of every row, below the headings as they are.
pub fn text(rows: &str) -> String {
    let mut tell: Option<Tell> = None;
    let mut line_of = |line: &str| {
        if let Some((_, table)) = TABLES.iter().find(|(heading, _)| *heading == line) {
            tell = Some(*table);
            return Some(line.into());
        }
        let call = call_of(line)?;
        let mut columns = call.split([' ', ':', ';']).filter(|column| !column.is_empty());
        Some(format!("{call}: {}", tell?(&mut columns)?))
    };
    rows.lines().map(|line| line_of(line).unwrap_or_else(|| format!("no row: {line}")) + "\n").collect()
}

// What a row says

/// The call of a row: all before the colon with a word behind it.
fn call_of(row: &str) -> Option<&str> {
    let is_end = |&(end, _): &(usize, &str)| row[end + 2..].starts_with(|c: char| c.is_ascii_lowercase());
    let (end, _) = row.match_indices(": ").find(is_end)?;
    Some(&row[..end])
}

/// What stands between the spaces, colons and semicolons of a call.
type Columns<'a> = dyn Iterator<Item = &'a str> + 'a;

fn number(columns: &mut Columns) -> Option<usize> {
    columns.next()?.parse().ok()
}

fn byte(columns: &mut Columns) -> Option<u8> {
    u8::from_str_radix(columns.next()?, 16).ok()
}

/// The most bytes of a call that are shown.
const SHOWN: usize = 16;

/// Different addresses in no order, of which nets and routes are made.
const NAMES: &[u8; 65] = b"zyxwvutsrqponmlkjihgfedcbaABCDEFGHIJKLMNOPQRSTVWXYZ0123456789+-U*";

/// So many bytes, of which the first are shown. Behind these there are more names, if they end with
/// one, and then 00.
fn bytes(columns: &mut Columns) -> Option<Vec<u8>> {
    let length = number(columns)?;
    let mut bytes = (0..length.min(SHOWN)).map(|_| byte(columns)).collect::<Option<Vec<u8>>>()?;
    let last = NAMES.iter().position(|name| bytes.len() < length && bytes.last() == Some(name));
    bytes.extend(last.map_or(&[][..], |last| &NAMES[last + 1..]));
    bytes.resize(length, 0);
    Some(bytes)
}

/// The telegram of a row. Behind a block of names there is always the same request or reply.
fn telegram(columns: &mut Columns) -> Option<Vec<u8>> {
    let mut telegram = bytes(columns)?;
    let length = telegram.len();
    let end = telegram.get(6).map_or(0, |&count| 7 + usize::from(count));
    if telegram.get(7) == Some(&NAMES[0]) {
        telegram.truncate(end.checked_sub(1)?);
        telegram.extend([0, 0x01, 0x2C, 1, 0x01, 0x2C, 1, 0, 1]);
    }
    if telegram.get(8) == Some(&NAMES[0]) {
        let count = length.checked_sub(end + 3)? / 2;
        telegram.truncate(end);
        telegram.extend([0x03, 0xBB, count as u8, 0xC3, 0xD4]);
    }
    telegram.resize(length, 0);
    Some(telegram)
}

// What a row tells

/// What the reference makes of a call.
fn outcome<C: Call>(call: &C) -> Outcome<C> {
    call.outcome(C::REFERENCE, 0)
}

/// How far a slice is as before, from `from` on: to its end, which is that of the array that it is
/// the beginning of; or the value at a place, and how far it is as before behind that.
fn kept<T: PartialEq>(before: &[T], after: &[T], from: usize, array: usize, value: fn(&T) -> String) -> String {
    let mut places = (from..after.len()).filter(|&place| before[place] != after[place]);
    match places.next() {
        None => format!("kept to {array}"),
        Some(place) => format!("kept to {place} {} {}", value(&after[place]), places.next().unwrap_or(array)),
    }
}

fn bytes_kept(before: &[u8], after: &[u8], from: usize, array: usize) -> String {
    kept(before, after, from, array, |byte| format!("{byte:02X}"))
}

fn registers_kept(before: &[u16], after: &[u16]) -> String {
    let array = (STATIONS_MAX + 1) * REGISTERS + 1;
    format!("registers {}", kept(before, after, 0, array, u16::to_string))
}

fn frame(columns: &mut Columns) -> Option<String> {
    let data = vec![byte(columns)?; number(columns)?];
    let call = frame::frame(&data, number(columns)?);
    let outcome = outcome(&call);
    let (out, length) = (&outcome.after.out, outcome.value());
    let answer = answer::text(outcome.answer, "written");
    let kept = bytes_kept(&call.out, out, length, FRAME_MAX + 1);
    Some(format!("{answer}{}; {kept}", shown(&out[length.saturating_sub(3)..length])))
}

const PHASES: [&str; 4] = ["R", "I", "D", "W"];

fn event(columns: &mut Columns) -> Option<String> {
    let phase = phase_at(&PHASES, columns)?;
    let check = byte(columns)?.into();
    let call = Receive {
        state: vec![phase, number(columns)? as u64, check].into(),
        buffer: vec![0xEE; number(columns)?].into(),
        event: byte(columns).map_or(TIMER, u32::from),
    };
    let outcome = outcome(&call);
    let buffer = &outcome.after.buffer;
    let answer = match (outcome.is_done(), outcome.value()) {
        (false, _) => answer::text(outcome.answer, ""),
        (true, heard::NOTHING) => "nothing".into(),
        (true, value) if value < heard::MESSAGE => format!("sends {:02X}", value - heard::SEND),
        (true, value) => message(&buffer[..value - heard::MESSAGE]),
    };
    let [phase, count, check] = *outcome.after.state else {
        return None;
    };
    let phase = PHASES[phase as usize];
    let kept = bytes_kept(&call.buffer, buffer, 0, TELEGRAM + 1);
    Some(format!("{answer}; {phase} {check:02X} {count}; {kept}"))
}

const SEND_PHASES: [&str; 6] = ["F", "O", "A", "R", "S", "G"];

/// The place of a phase in the list of its names.
fn phase_at(names: &[&str], columns: &mut Columns) -> Option<u64> {
    let name = columns.next()?;
    names.iter().position(|&phase| phase == name).map(|place| place as u64)
}

fn sending(columns: &mut Columns) -> Option<String> {
    let mut state = [0; 9];
    for place in [1, 2, 4, 5] {
        state[place] = number(columns)? as u64;
    }
    state[PHASE] = phase_at(&SEND_PHASES, columns)?;
    if state[PHASE] == RECEIVING {
        (state[6], state[8]) = (phase_at(&PHASES, columns)?, byte(columns)?.into());
        state[7] = number(columns)? as u64;
    }
    let event = match columns.next()? {
        "start" => START,
        "timer" => TIMER,
        byte => u32::from_str_radix(byte, 16).ok()?,
    };
    let data = vec![DLE; number(columns)?];
    let call = send(&state, event, &data, DATA_MAX + 1, number(columns)?);
    let outcome = outcome(&call);
    let (after, value) = (&outcome.after, outcome.value());
    let length = value % sent::MESSAGE;
    let mut text = match outcome.is_done() {
        true => format!("written {length}{}", shown(&after.out[length.saturating_sub(3)..length])),
        false => answer::text(outcome.answer, ""),
    };
    if let Some(count) = (value / sent::MESSAGE).checked_sub(1) {
        text += &format!("; message of {count}");
    }
    let [phase, _, _, _, connections, blocks, half, count, check] = *after.state else {
        return None;
    };
    text += &format!("; {connections} {blocks} {}", SEND_PHASES[phase as usize]);
    if phase == RECEIVING {
        text += &format!(" {} {check:02X} {count}", PHASES[half as usize]);
    }
    let kept = bytes_kept(&call.out, &after.out, length, FRAME_MAX + 1);
    Some(format!("{text}; {kept}"))
}

fn station(columns: &mut Columns) -> Option<String> {
    let own = number(columns)? as u8;
    let registers: Vec<u16> = (0xA000..).take(number(columns)?).collect();
    let out = Lent::output(number(columns)?);
    let call = station::Station { own, registers: registers.into(), out, ..station::call(telegram(columns)?) };
    let outcome = outcome(&call);
    let (after, length) = (&outcome.after, outcome.value());
    let answer = answer::text(outcome.answer, "sent");
    let registers = registers_kept(&call.registers, &after.registers);
    let kept = bytes_kept(&call.out, &after.out, length, TELEGRAM + 1);
    Some(format!("{answer}{}; {registers}; {kept}", shown(&after.out[..length.min(32)])))
}

fn places(columns: &mut Columns) -> Option<String> {
    let numbers = number(columns)?..=number(columns)?;
    let shown = |number| Some(format!("; {number} at {}", registers::place(u16::try_from(number).ok()?)?));
    Some(format!("places{}; no other", numbers.filter_map(shown).collect::<String>()))
}

fn net(columns: &mut Columns) -> Option<String> {
    let addresses = bytes(columns)?;
    let tables = (0xA000..).take(number(columns)?).collect();
    let out = Lent::output(number(columns)?);
    let call = dry_run::DryRun { out, ..dry_run::run(telegram(columns)?, addresses, tables) };
    let outcome = outcome(&call);
    let after = &outcome.after;
    let mut text = answer::text(outcome.answer, "played");
    if outcome.is_done() {
        text += &match after.result[1] {
            0 => " at 00".into(),
            1 => " at nobody".into(),
            number => format!(": refused {number}"),
        };
        let length = after.result[2] as usize;
        let zeros = after.out[length..TELEGRAM].iter().take_while(|&&byte| byte == 0).count();
        text += &format!("; last {length}{}; 00 to {}", shown(&after.out[..length.min(64)]), length + zeros);
    }
    let registers = registers_kept(&call.tables, &after.tables);
    let played = if outcome.is_done() { TELEGRAM } else { 0 };
    let kept = bytes_kept(&call.out, &after.out, played, TELEGRAM + 1);
    Some(format!("{text}; {registers}; {kept}"))
}

fn request(columns: &mut Columns) -> Option<String> {
    let call = WriteRequest {
        read_start: 955,
        read_count: number(columns)?,
        write_start: 300,
        values: vec![0xC3D4; number(columns)?].into(),
        out: Lent::output(number(columns)?),
        route: bytes(columns)?.into(),
    };
    let outcome = outcome(&call);
    let (out, length) = (&outcome.after.out, outcome.value());
    let answer = answer::text(outcome.answer, "written");
    let kept = bytes_kept(&call.out, out, length, TELEGRAM + 1);
    Some(format!("{answer}{}; {kept}", shown(&out[length.saturating_sub(48)..length])))
}

fn reply(columns: &mut Columns) -> Option<String> {
    let call = read_reply::heard(telegram(columns)?);
    let outcome = outcome(&call);
    let (run, route) = (&outcome.after.run, shown(&outcome.after.route));
    let (answer, values) = match outcome.is_done() {
        true => ("accepted".into(), &call.telegram[usize::from(run[2])..]),
        false => (answer::text(outcome.answer, ""), &[][..]),
    };
    let (first, count, values) = (run[0], run[1], shown(&values[..values.len().min(16)]));
    Some(format!("{answer}; route{route}; run {first} {count}; values{values}"))
}
