//! The numbers of the header for C are those of this crate.

use hanraquin::{DATA_MAX, DLE, FACTORY, FRAME_MAX, NAK, REGISTERS, REQUEST_MAX, ROUTE};
use hanraquin::{
    Phase, Priority, Receiver, Refusal, STATIONS_MAX, STX, Sender, TELEGRAM, gate, sys,
};

const HEADER: &str = include_str!("../../../include/hanraquin.h");

/// What stands in the header for a name.
fn defined(name: &str) -> &'static str {
    HEADER
        .lines()
        .filter_map(|line| line.strip_prefix("#define HANRAQUIN_")?.split_once(' '))
        .find(|(defined, _)| *defined == name)
        .map(|(_, text)| text.split("/*").next().unwrap_or(text).trim())
        .unwrap_or_else(|| panic!("the header does not define HANRAQUIN_{name}"))
}

fn number(text: &str) -> u64 {
    match text.strip_prefix("0x") {
        Some(digits) => u64::from_str_radix(digits, 16),
        None => text.parse(),
    }
    .expect("a number")
}

#[test]
fn numbers_are_the_same() {
    for (name, expected) in [
        ("DONE", u64::from(sys::DONE)),
        ("NOT_MINE", u64::from(sys::NOT_MINE)),
        ("REGISTERS", REGISTERS as u64),
        ("ROUTE", ROUTE as u64),
        ("DATA_MAX", DATA_MAX as u64),
        ("FRAME_MAX", FRAME_MAX as u64),
        ("TELEGRAM", TELEGRAM as u64),
        ("REQUEST_MAX", REQUEST_MAX as u64),
        ("STATIONS_MAX", STATIONS_MAX as u64),
        ("STX", u64::from(STX)),
        ("DLE", u64::from(DLE)),
        ("NAK", u64::from(NAK)),
        ("STATE", Receiver::new().state().len() as u64),
        ("TIMER", u64::from(sys::TIMER)),
        ("START", u64::from(sys::START)),
        ("SEND", u64::from(sys::SEND)),
        ("MESSAGE", u64::from(sys::MESSAGE)),
        ("AT_ZERO", u64::from(sys::AT_ZERO)),
        ("AT_NOBODY", u64::from(sys::AT_NOBODY)),
    ] {
        assert_eq!(number(defined(name)), expected, "{name}");
    }
}

#[test]
fn numbers_of_the_sending_half_are_the_same() {
    let fresh = Sender::new(3, 2, Priority::Low).state();
    for (name, expected) in [
        ("STATE", fresh.len() as u64),
        ("LIMIT_MIN", Sender::LIMIT_MIN),
        ("LIMIT_MAX", Sender::LIMIT_MAX),
        ("LOW", Priority::Low as u64),
        ("HIGH", Priority::High as u64),
        ("PHASE_FRESH", Phase::Fresh as u64),
        ("PHASE_OPENING", Phase::Opening as u64),
        ("PHASE_AWAITING", Phase::Awaiting as u64),
        ("PHASE_RECEIVING", Phase::Receiving as u64),
        ("PHASE_SENT", Phase::Sent as u64),
        ("PHASE_GAVE_UP", Phase::GaveUp as u64),
    ] {
        let name = format!("SEND_{name}");
        assert_eq!(number(defined(&name)), expected, "{name}");
    }
    // And a phase is read as the number that it is.
    for phase in 0..=5 {
        let mut state = fresh;
        state[0] = phase;
        assert_eq!(Sender::from_state(state).phase() as u64, phase);
    }
}

#[test]
fn numbers_of_the_gate_bus_are_the_same() {
    let [relay_1, relay_2, relay_3, relay_4, relay_5, relay_6] = gate::RELAYS;
    for (name, expected) in [
        ("STATE", gate::Receiver::new(0).state().len()),
        ("STORE", gate::Receiver::new(0).store().len()),
        ("DATA_MAX", gate::DATA_MAX),
        ("TELEGRAM_MAX", gate::TELEGRAM_MAX),
        ("REGISTERS", gate::REGISTERS),
        ("COMMAND_LENGTH", gate::COMMAND_LENGTH),
        ("ANSWER_MAX", gate::ANSWER_MAX),
        ("TELEGRAM", sys::GATE_TELEGRAM as usize),
        ("TOKEN", sys::GATE_TOKEN as usize),
    ] {
        let name = format!("GATE_{name}");
        assert_eq!(number(defined(&name)), expected as u64, "{name}");
    }
    for (name, expected) in [
        ("START", gate::START),
        ("BT", gate::BT),
        ("BA", gate::BA),
        ("BZ", gate::BZ),
        ("BS", gate::BS),
        ("RELAY_1", relay_1),
        ("RELAY_2", relay_2),
        ("RELAY_3", relay_3),
        ("RELAY_4", relay_4),
        ("RELAY_5", relay_5),
        ("RELAY_6", relay_6),
        ("PULSE", gate::PULSE),
        ("ACTIVATE", gate::ACTIVATE),
        ("DEACTIVATE", gate::DEACTIVATE),
        ("ACK", sys::GATE_ACK),
        ("NAK", sys::GATE_NAK),
        ("BUSY", sys::GATE_BUSY),
        ("SYN", sys::GATE_SYN),
        ("COUNT", sys::GATE_COUNT),
        ("POSITION", sys::GATE_POSITION),
    ] {
        let name = format!("GATE_{name}");
        assert_eq!(number(defined(&name)), expected.into(), "{name}");
    }
}

#[test]
fn refusals_are_the_same() {
    for (name, refusal) in [
        ("SETUP", Refusal::Setup),
        ("HEADER_CUT", Refusal::HeaderCut),
        ("FUNCTION", Refusal::Function),
        ("EXTENDED_COUNT", Refusal::ExtendedCount),
        ("BLOCK", Refusal::Block),
        ("MARK", Refusal::Mark),
        ("BODY_LENGTH", Refusal::BodyLength),
        ("NO_REGISTER", Refusal::NoRegister),
        ("NO_WRITE", Refusal::NoWrite),
        ("VALUE_RANGE", Refusal::ValueRange),
        ("OUTPUT_SHORT", Refusal::OutputShort),
        ("TOO_LONG", Refusal::TooLong),
    ] {
        let name = format!("REFUSED_{name}");
        assert_eq!(number(defined(&name)), refusal.number().into(), "{name}");
    }
    for (name, refusal) in [
        ("SETUP", gate::Refusal::Setup),
        ("OUTPUT_SHORT", gate::Refusal::OutputShort),
        ("CHECK", gate::Refusal::Check),
        ("ADDRESS", gate::Refusal::Address),
    ] {
        let name = format!("REFUSED_{name}");
        assert_eq!(number(defined(&name)), refusal.number().into(), "{name}");
    }
}

#[test]
fn factory_values_are_the_same() {
    let text = defined("FACTORY").trim_matches(['{', '}']);
    let values = text.split(',').map(|value| number(value.trim()));
    assert!(values.eq(FACTORY.map(u64::from)));
}
