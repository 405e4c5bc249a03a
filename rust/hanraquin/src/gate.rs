//! The gate bus: telegrams between masters and barriers, operating commands, and answers.
//!
//! Barriers share a LogiTed bus, which is RS485. Masters have the addresses 00 to 0F on it, and
//! slaves, as the barriers are, 10 to FE. Nobody has FF. A telegram is 55, destination, source,
//! length, as many bytes of data as the length says, and the high and low byte of a check: the
//! CRC-16 of all that stands before it, with the polynomial 1021 and the start value FFFF, the top
//! bit of each byte first. Without data it is a token, which goes from a master to a master.
//!
//! [`write()`] writes a telegram, and a [`Receiver`] takes one from the bus, byte by byte. Data may
//! be anything. [`write_command`] makes data of an operating command, and a barrier carries it out
//! on its [`Commands`]. [`write_answer`] and [`read_answer`] go from an [`Answer`] of a barrier to
//! data and back. Other data, such as the query 02 18 00 for a barrier's position, is for the
//! caller to make and to read.
//!
//! ```
//! use hanraquin::Event;
//! use hanraquin::gate::{self, Commands, Received, Receiver};
//!
//! // Master 00 has barrier 10 open itself, and stay open.
//! let (mut command, mut telegram) = ([0; gate::COMMAND_LENGTH], [0; gate::TELEGRAM_MAX]);
//! let command = gate::write_command(gate::BA, gate::ACTIVATE, &mut command)?;
//! let telegram = gate::write(0x10, 0x00, command, &mut telegram)?;
//! assert_eq!(telegram, [0x55, 0x10, 0x00, 0x03, 0x01, 0x01, 0x01, 0xF7, 0x86]);
//!
//! // The barrier hears it, carries it out, and has an answer for the master.
//! let (mut receiver, mut out) = (Receiver::new(0x10), [0; gate::DATA_MAX]);
//! let (mut commands, mut reply) = (Commands::new(), [0; gate::TELEGRAM_MAX]);
//! # let mut sent = vec![];
//! # let mut send = |telegram: &[u8]| sent.extend_from_slice(telegram);
//! for &mut byte in telegram {
//!     match receiver.event(Event::Byte(byte), &mut out) {
//!         Ok(Received::Telegram { source, data }) => {
//!             let verdict = commands.operate(data)?;
//!             let mut answer = [0; gate::ANSWER_MAX];
//!             let answer = gate::write_answer(verdict.into(), &mut answer)?;
//!             send(gate::write(source, receiver.own(), answer, &mut reply)?);
//!         }
//!         Ok(Received::Token { .. } | Received::Nothing) => {}
//!         Err(refusal) => eprintln!("{refusal}"), // and the receiver starts again
//!     }
//! }
//! assert!(commands.levels[usize::from(gate::BA)]);
//! # assert_eq!(sent[..5], [0x55, 0x00, 0x10, 0x01, 0x01]);
//! # Ok::<(), gate::Refusal>(())
//! ```

mod answers;
mod commands;
mod refusal;
mod telegram;

pub use answers::{ANSWER_MAX, Answer, read_answer, write_answer};
pub use commands::{ACTIVATE, BA, BS, BT, BZ, COMMAND_LENGTH, DEACTIVATE, PULSE, RELAYS};
pub use commands::{Commands, REGISTERS, Verdict, write_command};
pub use refusal::Refusal;
pub use telegram::{DATA_MAX, Received, Receiver, START, TELEGRAM_MAX, write};
