//! A second, independent implementation of the 3964R link, of a station that takes, relays
//! and answers MoP telegrams, of the centre that writes requests and reads replies, of a dry
//! run through a net of such stations, and of the bus of the gate barriers, to be compared
//! with the proved one by running both. It prefers being easy to check over being fast.

#![forbid(unsafe_code)]
#![warn(missing_docs)]

pub mod centre;
pub mod gate;
pub mod header;
pub mod link;
pub mod net;
pub mod refusal;
pub mod registers;
pub mod report;
#[cfg(test)]
mod samples;
pub mod station;
