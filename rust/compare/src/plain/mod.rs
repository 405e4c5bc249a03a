//! The calls in plain safe Rust, written for speed: the yardstick for the proved library.
//!
//! They take the same slices and give the same 64-bit answers. Nothing is allocated, and
//! no argument makes them panic.

mod centre;
pub mod gate;
mod header;
mod link;
mod net;
mod registers;
mod station;

pub use centre::{read_reply, write_request};
pub use link::{frame, receive, send};
pub use net::dry_run;
pub use station::station;

use crate::answer::{done, refused, NOT_MINE};
