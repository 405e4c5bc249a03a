//! Proved software for a radio net of register stations, for the serial cables that lead to it, and
//! for the bus of the gate barriers: 3964R frames and both halves of a link, MoP telegrams at a
//! station and at the centre, a dry run of a net, and the telegrams, commands and answers of barriers
//! in the module [`gate`].
//!
//! The work is done by a static library that is written and proved in Rattle. This crate calls it,
//! and gives its answers as Rust types. Every call takes any slices and numbers at all, and says in
//! a [`Refusal`] what is wrong with them, or in a [`gate::Refusal`]; none panics, allocates, or
//! keeps anything from call to call. A telegram that is for somebody else is no error: it is "not
//! mine", and on the gate bus it is dropped.
//!
//! What is proved of the library, and what has to be trusted (this crate too), is told in
//! `docs/ARCHITECTURE.md` of the repository, and the rules in `docs/protocol/`.
//!
//! # The centre and a dry run
//!
//! ```
//! use hanraquin::{dry_run, read_reply, write_request, Ending, Reply};
//! use hanraquin::{FACTORY, REQUEST_MAX, TELEGRAM};
//!
//! let route = [0x12, 0x13, 0x55]; // two relays, and the destination
//! let mut request = [0; REQUEST_MAX];
//! // Read register 955, and write 1 to register 300.
//! let request = write_request(&route, 955, 1, 300, &[1], &mut request)?;
//!
//! let (mut tables, mut out) = ([FACTORY; 3], [0; TELEGRAM]);
//! let run = dry_run(request, &route, tables.as_flattened_mut(), &mut out)?;
//! assert_eq!((run.count, run.ending), (6, Ending::AtZero));
//!
//! let Reply::Accepted(reply) = read_reply(run.last)? else { unreachable!() };
//! assert_eq!((reply.route(), reply.start), (&route[..], 955));
//! assert!(reply.values().eq([0]));
//! # Ok::<(), hanraquin::Refusal>(())
//! ```
//!
//! # A station
//!
//! ```
//! use hanraquin::{handle, Handled, FACTORY, TELEGRAM};
//!
//! let (own, mut registers, mut out) = (0x55, FACTORY, [0; TELEGRAM]);
//! # let telegram = [0x60, 0xFF, 0x55, 0, 0, 0, 0, 0, 0, 0, 0, 0];
//! # let mut sent = 0;
//! # let mut send = |telegram: &[u8]| sent = telegram.len();
//! match handle(own, &mut registers, &telegram, &mut out) {
//!     Ok(Handled::Sent(telegram)) => send(telegram),
//!     Ok(Handled::NotMine) => {}
//!     Err(refusal) => eprintln!("{refusal}"),
//! }
//! # assert_eq!(sent, 9);
//! ```
//!
//! # A link
//!
//! ```
//! use hanraquin::{frame, Answer, Event, Receiver, DATA_MAX, DLE, FRAME_MAX, STX};
//!
//! let mut out = [0; FRAME_MAX];
//! let framed = frame(&[0x60, 0x10], &mut out)?;
//!
//! let (mut receiver, mut buffer) = (Receiver::new(), [0; DATA_MAX]);
//! # let mut line = vec![];
//! # let mut send = |byte| line.push(byte);
//! # let mut message = vec![];
//! for byte in [STX].into_iter().chain(framed.iter().copied()) {
//!     match receiver.event(Event::Byte(byte), &mut buffer)? {
//!         Answer::Nothing => {}
//!         Answer::Send(byte) => send(byte),
//!         Answer::Message(data) => {
//!             send(DLE);
//!             assert_eq!(data, [0x60, 0x10]);
//! #           message.extend_from_slice(data);
//!         }
//!     }
//! }
//! # assert_eq!((line, message), (vec![DLE, DLE], vec![0x60, 0x10]));
//! # Ok::<(), hanraquin::Refusal>(())
//! ```
//!
//! That is the receiving half. The sending half opens, sends the block, and tries again where it is
//! not taken, up to two limits; [`Sender`] says what the caller has to do.
//!
//! ```
//! use hanraquin::{Event, Phase, Priority, Sender, DATA_MAX, FRAME_MAX};
//!
//! let mut sender = Sender::new(3, 2, Priority::High);
//! let (data, mut buffer, mut out) = ([0x60, 0x10], [0; DATA_MAX], [0; FRAME_MAX]);
//! # let mut line = [0x10, 0x10].into_iter();
//! # let mut byte_or_timer = || line.next().map_or(Event::Timer, Event::Byte);
//! # let mut sent = vec![];
//! # let mut send = |bytes: &[u8]| sent.extend_from_slice(bytes);
//! send(sender.start(&data, &mut buffer, &mut out)?.bytes);
//! while sender.is_under_way() {
//!     let sending = match byte_or_timer() {
//!         Event::Byte(byte) => sender.byte(byte, &data, &mut buffer, &mut out)?,
//!         Event::Timer => sender.timer(&data, &mut buffer, &mut out)?,
//!     };
//!     send(sending.bytes);
//!     if let Some(message) = sending.message {
//!         println!("meanwhile came {message:02X?}");
//!     }
//! }
//! assert_eq!(sender.phase(), Phase::Sent); // or Phase::GaveUp
//! # assert_eq!(sent, [0x02, 0x60, 0x10, 0x10, 0x10, 0x03, 0x73]);
//! # Ok::<(), hanraquin::Refusal>(())
//! ```
//!
//! # The gate bus
//!
//! ```
//! use hanraquin::gate::{self, read_answer, Answer, Received, Receiver};
//! use hanraquin::Event;
//!
//! // Master 00 asks barrier 10 for its position.
//! let mut out = [0; gate::TELEGRAM_MAX];
//! let query = gate::write(0x10, 0x00, &[0x02, 0x18, 0x00], &mut out)?;
//! # assert_eq!(query.len(), 9);
//! # let mut answer = [0; gate::TELEGRAM_MAX];
//! # let answer = gate::write(0x00, 0x10, &[0x1D, 0x64], &mut answer)?;
//!
//! // What comes back over the bus:
//! let (mut receiver, mut out) = (Receiver::new(0x00), [0; gate::DATA_MAX]);
//! for &mut byte in answer {
//!     match receiver.event(Event::Byte(byte), &mut out)? {
//!         Received::Nothing => {}
//!         Received::Telegram { source, data } => {
//!             assert_eq!((source, read_answer(data)?), (0x10, Answer::Position(100)));
//!         }
//!         Received::Token { source } => println!("the token, from {source:02X}"),
//!     }
//! }
//! # Ok::<(), gate::Refusal>(())
//! ```
//!
//! # Building
//!
//! `make staticlib` in the root of the repository proves the library and writes it to
//! `target/staticlib/libhanraquin.a`; the build script of this crate has that done if the archive is
//! not there. That takes the Rattle kit. Without it, let `HANRAQUIN_LIB_DIR` name a folder that has
//! the archive: a relative path is taken from the folder in which cargo was called, or else from
//! that of this package or one above it, up to the root of the repository. An archive that is there
//! is taken as it is: after a change in `crates/`, run `make staticlib` first. It is for x86-64
//! Linux, and needs `memcpy` and `memset`.

#![no_std]
#![deny(missing_docs)]
#![deny(unsafe_op_in_unsafe_fn)]

mod answer;
mod centre;
pub mod gate;
mod link;
mod net;
mod refusal;
mod send;
mod station;
pub mod sys;

pub use centre::{Accepted, REQUEST_MAX, ROUTE, Reply, Request, read_reply, write_request};
pub use link::{Answer, DATA_MAX, DLE, Event, FRAME_MAX, NAK, Receiver, STX, frame};
pub use net::{DryRun, Ending, STATIONS_MAX, dry_run};
pub use refusal::Refusal;
pub use send::{Phase, Priority, Sender, Sending};
pub use station::{FACTORY, Handled, NUMBERS, REGISTERS, Registers, TELEGRAM, handle, place_of};

// The README's example is run with those of the documentation.
#[cfg(doctest)]
#[doc = include_str!("../../../README.md")]
struct Readme;
