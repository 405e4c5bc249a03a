//! The calls, one module each; those of the gate bus are in `gate`, dry runs in pairs of nets in
//! `isolation`, and both ends of a cable in `cable`.

mod cable;
pub mod dry_run;
mod exchange;
pub mod frame;
pub mod gate;
mod isolation;
pub mod read_reply;
pub mod receive;
pub mod send;
pub mod station;
pub mod write_request;

use crate::answer::{done, refused};
use crate::driver::Part;

/// All that is compared.
pub fn parts() -> Vec<Part> {
    vec![
        Part::of::<frame::Frame>(),
        Part::of::<receive::Receive>(),
        Part::of::<station::Station>(),
        Part::of::<write_request::WriteRequest>(),
        Part::of::<read_reply::ReadReply>(),
        Part::of::<dry_run::DryRun>(),
        Part::of::<isolation::Pair>(),
        Part::of_several("exchanges", exchange::generate),
        Part::of::<gate::write::GateWrite>(),
        Part::of::<gate::receive::GateReceive>(),
        Part::of::<gate::operate::GateOperate>(),
        Part::of::<gate::write_command::GateWriteCommand>(),
        Part::of::<gate::write_answer::GateWriteAnswer>(),
        Part::of::<gate::read_answer::GateReadAnswer>(),
        Part::of::<send::LinkSend>(),
        Part::of_several("both ends of a cable", cable::generate),
    ]
}

/// Most places of an output, and most bytes of a telegram, of most inputs.
pub const MOST: usize = 1100;

/// A length that only a wrong program would ever use.
pub const MEGABYTE: usize = 1 << 20;

/// The answer of a call that gives a value or a refusal's number.
fn given(result: Result<usize, u8>) -> u64 {
    match result {
        Ok(value) => done(value),
        Err(number) => refused(number),
    }
}
