//! The night's job for the dock with station 55: its pump is switched on, over the relays 12 and
//! 13. It does what examples/c/dock.c does, and prints the same.
//!
//!     cargo run --offline -p hanraquin --example night

use hanraquin::{
    Answer, DATA_MAX, DLE, Ending, Event, FACTORY, FRAME_MAX, Handled, Receiver, Refusal,
    Registers, Reply, Request, STX, TELEGRAM, dry_run, frame, handle, place_of, read_reply,
};
use std::error::Error;
use std::fmt::Write;

const ROUTE: [u8; 3] = [0x12, 0x13, 0x55]; // the destination last

fn main() -> Result<(), Box<dyn Error>> {
    print!("{}", night()?);
    Ok(())
}

/// The text that is printed.
fn night() -> Result<String, Box<dyn Error>> {
    let mut text = String::new();

    // The centre writes 1 to register 300, and reads 958 and 959.
    let request = Request {
        route: &ROUTE,
        read_start: 958,
        read_count: 2,
        write_start: 300,
        values: &[1],
    };
    let mut telegram = [0; TELEGRAM];
    let telegram = request.write(&mut telegram)?;
    show(&mut text, "request", telegram)?;

    // It goes over a cable to the radio.
    let mut heard = over_cable(&mut text, telegram)?;
    must(heard == telegram, "the message is the data")?;

    // A dry run with copies of the tables, before anything is sent.
    let mut tables = [FACTORY; 3];
    let (mut copies, mut out) = (tables, [0; TELEGRAM]);
    let run = dry_run(telegram, &ROUTE, copies.as_flattened_mut(), &mut out)?;
    must(run.ending == Ending::AtZero, "the reply reaches the centre")?;
    writeln!(text, "dry run   {} transmissions", run.count)?;

    // The stations themselves, which do what the dry run said.
    let mut count = 1;
    while let Some(sent) = next_hop(&heard, &mut tables)? {
        show(&mut text, "sent", &sent)?;
        heard = sent;
        count += 1;
    }
    must(count == run.count, "as many transmissions")?;
    must(heard == run.last, "the same last telegram")?;
    must(tables == copies, "the same tables")?;

    // The centre reads the reply.
    let Reply::Accepted(reply) = read_reply(&heard)? else {
        return Err("the reply is not for the centre".into());
    };
    must(reply.route() == ROUTE, "the route is the one asked for")?;
    for (number, value) in (reply.start..).zip(reply.values()) {
        writeln!(text, "reply     register {number} is {value}")?;
    }

    // The destination refuses a value that the register does not take, and keeps what it has.
    let wrong = Request {
        route: &ROUTE[2..],
        write_start: 300,
        values: &[4],
        ..Request::default()
    };
    let mut telegram = [0; TELEGRAM];
    let telegram = wrong.write(&mut telegram)?;
    let [.., dock] = &mut tables;
    let refusal = handle(0x55, dock, telegram, &mut out).unwrap_err();
    must(refusal == Refusal::ValueRange, "the station refuses 4")?;
    writeln!(
        text,
        "refused   {}, written value out of range",
        refusal.number()
    )?;
    let pump = place_of(300).map(|place| dock[place]);
    must(pump == Some(1), "the pump stays on")?;
    writeln!(text, "pump      1")?;
    Ok(text)
}

/// Frames data, and feeds STX and the frame to a receiving half. Gives the message.
fn over_cable(text: &mut String, data: &[u8]) -> Result<Vec<u8>, Box<dyn Error>> {
    let mut out = [0; FRAME_MAX];
    let framed = frame(data, &mut out)?;
    show(text, "frame", framed)?;

    let (mut receiver, mut buffer) = (Receiver::new(), [0; DATA_MAX]);
    let answer = receiver.event(Event::Byte(STX), &mut buffer)?;
    must(answer == Answer::Send(DLE), "STX is answered by DLE")?;
    for &mut byte in framed {
        match receiver.event(Event::Byte(byte), &mut buffer)? {
            Answer::Nothing => {}
            Answer::Send(_) => return Err("the frame is not taken".into()),
            // A real receiver also sends DLE now.
            Answer::Message(message) => return Ok(message.to_vec()),
        }
    }
    Err("the frame has no end".into())
}

/// Hands a telegram to the stations. Gives what one of them sends.
fn next_hop(telegram: &[u8], tables: &mut [Registers; 3]) -> Result<Option<Vec<u8>>, Refusal> {
    let mut out = [0; TELEGRAM];
    for (own, registers) in ROUTE.into_iter().zip(tables) {
        if let Handled::Sent(sent) = handle(own, registers, telegram, &mut out)? {
            return Ok(Some(sent.to_vec()));
        }
    }
    Ok(None)
}

fn show(text: &mut String, what: &str, bytes: &[u8]) -> std::fmt::Result {
    write!(text, "{what:9}")?;
    for byte in bytes {
        write!(text, " {byte:02X}")?;
    }
    writeln!(text)
}

fn must(holds: bool, what: &str) -> Result<(), String> {
    if holds {
        Ok(())
    } else {
        Err(format!("not so: {what}"))
    }
}

#[test]
fn prints_what_the_c_program_prints() {
    let expected = include_str!("../../../examples/c/dock.expected");
    assert_eq!(night().expect("no error"), expected);
}
