//! Barrier 10 on the gate bus: master 00 has it opened, and asks it for its position. It does what
//! examples/c/barrier.c does, and prints the same.
//!
//!     cargo run --offline -p hanraquin --example barrier

use hanraquin::Event;
use hanraquin::gate::{
    self, Answer, Commands, DATA_MAX, Received, Receiver, Refusal, TELEGRAM_MAX, Verdict,
};
use std::error::Error;
use std::fmt::Write;

const MASTER: u8 = 0x00;
const BARRIER: u8 = 0x10;
const OTHER: u8 = 0x11; // another barrier

/// The query for the position. The library makes no queries; this is data like any other.
const QUERY: [u8; 3] = [0x02, 0x18, 0x00];

fn main() -> Result<(), Box<dyn Error>> {
    print!("{}", barrier()?);
    Ok(())
}

/// The text that is printed.
fn barrier() -> Result<String, Box<dyn Error>> {
    let (mut master, mut barrier) = (Receiver::new(MASTER), Receiver::new(BARRIER));
    let mut text = String::new();

    // A barrier that was just switched on does not know its position.
    ask(&mut text, &mut master, &mut barrier, -1)?;

    // The master has it opened and kept open.
    let mut command = [0; gate::COMMAND_LENGTH];
    let command = gate::write_command(gate::BA, gate::ACTIVATE, &mut command)?;
    show(&mut text, "command", command)?;
    let data = over_bus(&mut text, MASTER, &mut barrier, command)?;

    // The barrier carries it out, takes the edge back when it has acted on it, and answers.
    let mut commands = Commands::new();
    let verdict = commands.operate(&data)?;
    must(verdict == Verdict::Ack, "the command is carried out")?;
    show_registers(&mut text, commands)?;
    commands.edges[usize::from(gate::BA)] = false;
    reply(&mut text, &mut master, verdict.into())?;
    writeln!(text, "answer    ack")?;

    // A telegram for another barrier passes by.
    let mut out = [0; TELEGRAM_MAX];
    let telegram = gate::write(OTHER, MASTER, command, &mut out)?;
    show(&mut text, "passing", telegram)?;
    let heard = hear(&mut barrier, telegram)?;
    must(heard.is_none(), "the barrier drops it")?;

    // Meanwhile barrier 10 is open.
    ask(&mut text, &mut master, &mut barrier, 100)?;

    // A telegram that is damaged on its way is not carried out.
    let telegram = gate::write(BARRIER, MASTER, command, &mut out)?;
    telegram[6] ^= 0x03; // deactivate in place of activate
    show(&mut text, "damaged", telegram)?;
    let refusal = hear(&mut barrier, telegram).unwrap_err();
    must(refusal == Refusal::Check, "the barrier refuses it")?;
    writeln!(text, "refused   {}, wrong check", refusal.number())?;
    show_registers(&mut text, commands)?;
    Ok(text)
}

/// The master asks for the position, and the barrier answers it; -1 is unknown.
fn ask(
    text: &mut String,
    master: &mut Receiver,
    barrier: &mut Receiver,
    position: i8,
) -> Result<(), Box<dyn Error>> {
    let data = over_bus(text, MASTER, barrier, &QUERY)?;
    must(data == QUERY, "it is the query for the position")?;
    match reply(text, master, Answer::Position(position))? {
        Answer::Position(-1) => writeln!(text, "position  unknown")?,
        Answer::Position(position) => writeln!(text, "position  {position}")?,
        _ => return Err("no position".into()),
    }
    Ok(())
}

/// The barrier answers, and the master reads that.
fn reply(
    text: &mut String,
    master: &mut Receiver,
    answer: Answer,
) -> Result<Answer, Box<dyn Error>> {
    let mut out = [0; gate::ANSWER_MAX];
    let data = over_bus(text, BARRIER, master, gate::write_answer(answer, &mut out)?)?;
    let read = gate::read_answer(&data)?;
    must(read == answer, "the answer reads as it was written")?;
    Ok(read)
}

/// Sends data in a telegram. Gives the data that came.
fn over_bus(
    text: &mut String,
    from: u8,
    to: &mut Receiver,
    data: &[u8],
) -> Result<Vec<u8>, Box<dyn Error>> {
    let mut out = [0; TELEGRAM_MAX];
    let telegram = gate::write(to.own(), from, data, &mut out)?;
    show(text, "sent", telegram)?;
    let (source, came) = hear(to, telegram)?.ok_or("the telegram is not taken")?;
    must(
        source == from && came == data,
        "all data comes, and who sent it",
    )?;
    Ok(came)
}

/// Feeds a telegram to a receiver. Gives source and data, if it takes the telegram.
fn hear(receiver: &mut Receiver, telegram: &[u8]) -> Result<Option<(u8, Vec<u8>)>, Refusal> {
    let mut out = [0; DATA_MAX];
    for &byte in telegram {
        match receiver.event(Event::Byte(byte), &mut out)? {
            Received::Nothing => {}
            Received::Telegram { source, data } => return Ok(Some((source, data.to_vec()))),
            Received::Token { source } => return Ok(Some((source, vec![]))),
        }
    }
    Ok(None)
}

fn show(text: &mut String, what: &str, bytes: &[u8]) -> std::fmt::Result {
    write!(text, "{what:9}")?;
    for byte in bytes {
        write!(text, " {byte:02X}")?;
    }
    writeln!(text)
}

fn show_registers(text: &mut String, commands: Commands) -> std::fmt::Result {
    let ba = usize::from(gate::BA);
    let [level, edge] = [commands.levels[ba], commands.edges[ba]].map(u8::from);
    writeln!(text, "BA        level {level}, edge {edge}")
}

fn must(holds: bool, what: &str) -> Result<(), String> {
    if holds {
        Ok(())
    } else {
        Err(format!("not so: {what}"))
    }
}

#[test]
fn prints_what_the_c_program_prints() {
    let expected = include_str!("../../../examples/c/barrier.expected");
    assert_eq!(barrier().expect("no error"), expected);
}
