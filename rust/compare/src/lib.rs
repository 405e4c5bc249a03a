//! The comparison of the proved library and programs with the reference, and the benchmark.
//!
//! Every call is made of three implementations: the library through its C interface, the plain Rust
//! of `plain`, and the reference. Their answers, and all that they leave in the slices and around
//! them, must be the same. Dry runs are also made in pairs that must be alike, whatever the others
//! give; and senders are put at both ends of a cable, where they must not send more than their limits
//! allow.
//!
//! # How a call is added
//!
//! Write one module in `calls`, and name it in the list [`calls::parts`]. The module declares the
//! call's arguments in the order in which C takes them, by the macro `arguments` of [`call`], and
//! implements [`call::Call`] for the struct that comes of it:
//!
//! - `generate`, which makes inputs from a seed and gives each of them to be compared;
//! - `PLAIN` and `REFERENCE`, two functions over the same slices as the library's;
//! - `KINDS`, the kinds of answer that must be reached, each with the condition for it.
//!
//! Guards around every slice, counting, making failing inputs smaller and soaking are done for all
//! calls by [`driver`], [`lent`] and [`shrink`]. The tests of the module have implementations with
//! one mistake each, which its inputs must find. A row of the benchmark is one entry in
//! `bin/bench/rows.rs`.

#![deny(unsafe_code)]

pub mod answer;
pub mod call;
pub mod calls;
pub mod driver;
pub mod inputs;
pub mod lent;
pub mod plain;
pub mod programs;
pub mod shrink;
pub mod stack;
