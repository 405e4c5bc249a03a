//! The bus of the gate barriers: its telegrams and their receiver, the commands that operate
//! a barrier, and the answers of a barrier.
//!
//! Commands and answers are the data of telegrams. Every function is total: no argument makes
//! it panic.

mod answers;
mod commands;
mod receiver;
mod telegram;

pub use answers::{read_answer, write_answer, BarrierAnswer, ACK, BUSY, COUNT, NAK, POSITION, SYN};
pub use commands::{
    operate, write_command, Registers, ACTIVATE, COMMANDS, DEACTIVATE, OPERATE, PULSE,
};
pub use receiver::{receive, Answer, Event, State};
pub use telegram::{check, write, CHECK_START, LAST_MASTER, MAX_DATA, RESERVED, START};

/// The receiver's store is not as long as it has to be, or its state counts more bytes than
/// its telegram can have.
pub const BAD_SETUP: u8 = 1;
/// The call does not take data of this kind.
pub const OTHER_KIND: u8 = 3;
/// More data than a telegram carries, or not as many as their kind has.
pub const BAD_LENGTH: u8 = 7;
/// A position outside -1 to 100.
pub const BAD_POSITION: u8 = 10;
/// The output cannot hold all that is to be written.
pub const OUTPUT_TOO_SHORT: u8 = 11;
/// A telegram ends with another check than its bytes have.
pub const WRONG_CHECK: u8 = 15;
/// The reserved address is used, or a token goes to or comes from a slave.
pub const BAD_ADDRESS: u8 = 16;

/// Writes all of `bytes` to the start of `out`, or nothing, and gives their number.
fn put(bytes: &[u8], out: &mut [u8]) -> Result<usize, u8> {
    let place = out.get_mut(..bytes.len()).ok_or(OUTPUT_TOO_SHORT)?;
    place.copy_from_slice(bytes);
    Ok(bytes.len())
}
