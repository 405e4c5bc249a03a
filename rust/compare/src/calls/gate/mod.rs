//! The calls of the gate bus, one module each.

pub mod operate;
pub mod read_answer;
pub mod receive;
pub mod write;
pub mod write_answer;
pub mod write_command;

use crate::inputs::Random;
use reference::gate::{ACK, BUSY, COUNT, NAK, POSITION, SYN};

/// The kinds of a barrier's answers, each with the length of the answer.
const ANSWERS: [(u8, usize); 6] = [(ACK, 1), (NAK, 1), (BUSY, 1), (SYN, 1), (COUNT, 5), (POSITION, 2)];

/// Numbers at the limits of positions, of counts, and of words that they might be cut down to.
fn limits() -> Vec<i32> {
    let powers = [7, 8, 15, 16, 23, 24, 31].map(|power| 1 << power);
    let about = powers.into_iter().flat_map(|power: i64| [-power, power]).flat_map(|n| n - 2..=n + 2);
    // A position, or -1, if they are cut down.
    let cut_down = [8, 16, 24].into_iter().flat_map(|power| [-2, -1, 1, 2].map(|times| times << power));
    let cut_down = cut_down.flat_map(|more| [-2, -1, 0, 50, 100, 101].map(|position| more + position));
    (-130..=130).chain(about.chain(cut_down).filter_map(|number| i32::try_from(number).ok())).collect()
}

impl Random {
    /// Any signed number.
    fn number(&mut self) -> i32 {
        i32::from_le_bytes([0; 4].map(|_: u8| self.byte()))
    }
}
