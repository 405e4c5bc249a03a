//! The tables of the gate bus.

use super::{byte, bytes, bytes_kept, number, outcome, shown, Columns};
use crate::answer::{self, received};
use crate::calls::gate::operate::GateOperate;
use crate::calls::gate::read_answer::GateReadAnswer;
use crate::calls::gate::receive::GateReceive;
use crate::calls::gate::write::write;
use crate::calls::gate::write_answer::GateWriteAnswer;
use crate::lent::Lent;
use hanraquin::gate::{ANSWER_MAX, DATA_MAX, REGISTERS, TELEGRAM_MAX};
use reference::gate::{ACK, OPERATE, POSITION};

/// The answer of a call that writes, with the end of what is written, and how far the output is as
/// before behind it.
fn written(answer: u64, before: &[u8], after: &[u8], array: usize) -> String {
    let length = answer::value(answer);
    let end = shown(&after[length.saturating_sub(7)..length]);
    format!("{}{end}; {}", answer::text(answer, "written"), bytes_kept(before, after, length, array))
}

pub fn telegram(columns: &mut Columns) -> Option<String> {
    let (destination, source) = (byte(columns)?, byte(columns)?);
    let data = vec![0xA5; number(columns)?];
    let call = write(destination, source, &data, number(columns)?);
    let outcome = outcome(&call);
    Some(written(outcome.answer, &call.out, &outcome.after.out, TELEGRAM_MAX + 1))
}

const PHASES: [&str; 9] = ["R", "T", "F", "L", "D", "C", "S", "N", "X"];

/// The words of a state. Where a phase has a check, it is 1234; the high byte that came is 12.
fn state(columns: &mut Columns) -> Option<Vec<u64>> {
    let phase = columns.next()?;
    let (check, high) = match phase {
        "F" | "L" | "D" => (0x1234, 0),
        "C" => (0x1234, 0x12),
        _ => (0, 0),
    };
    let phase = PHASES.iter().position(|&name| name == phase)? as u64;
    let (destination, source) = (byte(columns)?.into(), byte(columns)?.into());
    Some(vec![phase, destination, source, number(columns)? as u64, number(columns)? as u64, check, high])
}

pub fn received(columns: &mut Columns) -> Option<String> {
    let call = GateReceive {
        own: byte(columns)?,
        state: state(columns)?.into(),
        store: vec![0xEE; number(columns)?].into(),
        out: vec![0; number(columns)?].into(),
        event: byte(columns)?.into(),
    };
    let outcome = outcome(&call);
    let answer = match (outcome.is_done(), outcome.value()) {
        (false, _) => answer::text(outcome.answer, ""),
        (true, received::NOTHING) => "nothing".into(),
        (true, value) if value < received::TOKEN => {
            let telegram = value - received::TELEGRAM;
            format!("telegram {:02X} {}", telegram / 256, telegram % 256)
        }
        (true, value) => format!("token {:02X}", value - received::TOKEN),
    };
    let [phase, destination, source, length, count, ..] = *outcome.after.state else {
        return None;
    };
    let phase = PHASES[phase as usize];
    let stored = outcome.after.out.iter().take_while(|&&byte| byte == 0xEE).count();
    let kept = bytes_kept(&call.store, &outcome.after.store, 0, DATA_MAX + 1);
    Some(format!("{answer}; {phase} {destination:02X} {source:02X} {length} {count} {stored}; {kept}"))
}

/// All levels and edges are 0.
pub fn operate(columns: &mut Columns) -> Option<String> {
    let call = GateOperate {
        data: vec![OPERATE, byte(columns)?, byte(columns)?].into(),
        levels: vec![0; REGISTERS].into(),
        edges: vec![0; REGISTERS].into(),
    };
    let is_ack = outcome(&call).answer == answer::done(ACK.into());
    Some(if is_ack { "ack" } else { "no ack" }.into())
}

/// What comes of an answer that is written into an output of so many places.
fn write_answer(kind: u8, number: i32, places: usize) -> String {
    let call = GateWriteAnswer { kind, number, out: Lent::output(places) };
    let outcome = outcome(&call);
    written(outcome.answer, &call.out, &outcome.after.out, ANSWER_MAX + 1)
}

pub fn position(columns: &mut Columns) -> Option<String> {
    let position = byte(columns)?.cast_signed();
    Some(write_answer(POSITION, position.into(), number(columns)?))
}

/// An answer that is read, and then written.
pub fn read_answer(columns: &mut Columns) -> Option<String> {
    let call = GateReadAnswer { data: bytes(columns)?.into(), number: Lent::output(1) };
    let outcome = outcome(&call);
    Some(match outcome.is_done() {
        true => write_answer(outcome.value() as u8, outcome.after.number[0], ANSWER_MAX),
        false => answer::text(outcome.answer, ""),
    })
}
