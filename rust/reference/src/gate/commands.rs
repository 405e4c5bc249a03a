//! The commands that operate a barrier, and the registers that they work on.

use super::{put, ACK, BAD_LENGTH, NAK, OTHER_KIND};

/// The first byte of an operating command.
pub const OPERATE: u8 = 0x01;

/// How many commands there are: BT, BA, BZ, BS and the six multifunction relays.
pub const COMMANDS: usize = 10;

/// Gives a short signal.
pub const PULSE: u8 = 0x00;
/// Switches on.
pub const ACTIVATE: u8 = 0x01;
/// Switches off.
pub const DEACTIVATE: u8 = 0x02;

/// A level register and an edge register for every command.
#[derive(Clone, Copy, PartialEq, Eq, Debug)]
pub struct Registers {
    /// The levels.
    pub levels: [bool; COMMANDS],
    /// The edges.
    pub edges: [bool; COMMANDS],
}

/// Carries out an operating command and gives the answer due, `ACK` or `NAK`.
///
/// Only the registers of the named command can change. On a `NAK` or a refusal none does.
pub fn operate(registers: &mut Registers, data: &[u8]) -> Result<u8, u8> {
    let &[kind, command, function] = data else {
        return Err(BAD_LENGTH);
    };
    if kind != OPERATE {
        return Err(OTHER_KIND);
    }
    let command = usize::from(command);
    let (Some(level), Some(edge)) = (
        registers.levels.get_mut(command),
        registers.edges.get_mut(command),
    ) else {
        return Ok(NAK);
    };
    (*level, *edge) = match (*level, function) {
        (false, PULSE) => (*level, true),
        (false, ACTIVATE) => (true, true),
        (false, DEACTIVATE) => (false, *edge),
        (true, PULSE) => (*level, *edge),
        (true, ACTIVATE) => (true, *edge),
        (true, DEACTIVATE) => (false, *edge),
        _ => return Ok(NAK),
    };
    Ok(ACK)
}

/// Writes an operating command to the start of `out` and gives its length.
///
/// Command and function are not judged. On a refusal `out` is untouched.
pub fn write_command(command: u8, function: u8, out: &mut [u8]) -> Result<usize, u8> {
    put(&[OPERATE, command, function], out)
}

#[cfg(test)]
mod tests {
    use super::*;
    use crate::samples::Random;

    const FILL: u8 = 0xA5;

    /// Registers whose bits are those of the two numbers.
    fn registers(levels: u32, edges: u32) -> Registers {
        let bit = |number: u32, place: usize| (number >> place) & 1 == 1;
        Registers {
            levels: std::array::from_fn(|place| bit(levels, place)),
            edges: std::array::from_fn(|place| bit(edges, place)),
        }
    }

    /// All off, all on, and mixtures.
    fn samples() -> impl Iterator<Item = Registers> {
        let numbers = [0x000, 0x3FF, 0x155, 0x2AA, 0x333, 0x0F0];
        numbers
            .into_iter()
            .flat_map(move |levels| numbers.map(|edges| registers(levels, edges)))
    }

    /// What every row of the table leaves: level before, function, level after, and the edge
    /// after for an edge that was off and for one that was on.
    const ROWS: [(bool, u8, bool, [bool; 2]); 6] = [
        (false, 0x00, false, [true, true]),
        (false, 0x01, true, [true, true]),
        (false, 0x02, false, [false, true]),
        (true, 0x00, true, [false, true]),
        (true, 0x01, true, [false, true]),
        (true, 0x02, false, [false, true]),
    ];

    #[test]
    fn every_row_for_every_command() {
        for (before, function, after, edges) in ROWS {
            for command in 0..10_u8 {
                let place = usize::from(command);
                for others in samples() {
                    for edge in [false, true] {
                        let mut registers = others;
                        registers.levels[place] = before;
                        registers.edges[place] = edge;
                        let mut expected = others;
                        expected.levels[place] = after;
                        expected.edges[place] = edges[usize::from(edge)];

                        assert_eq!(operate(&mut registers, &[0x01, command, function]), Ok(1));
                        assert_eq!(registers, expected);
                    }
                }
            }
        }
    }

    #[test]
    fn unknown_command_or_function_is_answered_nak() {
        for before in samples() {
            for command in 0..=u8::MAX {
                for function in 0..=u8::MAX {
                    if command < 10 && function < 3 {
                        continue;
                    }
                    let mut registers = before;
                    assert_eq!(operate(&mut registers, &[0x01, command, function]), Ok(2));
                    assert_eq!(registers, before);
                }
            }
        }
    }

    #[test]
    fn other_first_byte_is_refused() {
        for before in samples() {
            for kind in (0..=u8::MAX).filter(|&kind| kind != 0x01) {
                for rest in [[0x00, 0x00], [0x01, 0x01], [0x18, 0x00], [0xFF, 0xFF]] {
                    let mut registers = before;
                    let data = [kind, rest[0], rest[1]];
                    assert_eq!(operate(&mut registers, &data), Err(3));
                    assert_eq!(registers, before);
                }
            }
        }
    }

    #[test]
    fn other_length_is_refused_before_the_first_byte() {
        for before in samples() {
            for first in [0x00, 0x01, 0x02, 0xFF] {
                for length in [0, 1, 2, 4, 5, 253, 256, 259, 1000] {
                    let mut data = vec![0x01; length];
                    if let Some(place) = data.first_mut() {
                        *place = first;
                    }
                    let mut registers = before;
                    assert_eq!(operate(&mut registers, &data), Err(7));
                    assert_eq!(registers, before);
                }
            }
        }
    }

    #[test]
    fn barrier_held_open_and_released() {
        let mut now = registers(0, 0);
        let mut ba = |function: u8| {
            assert_eq!(operate(&mut now, &[0x01, 0x01, function]), Ok(1));
            (now.levels[1], now.edges[1])
        };
        assert_eq!(ba(0x01), (true, true));
        assert_eq!(ba(0x00), (true, true));
        assert_eq!(ba(0x02), (false, true));
        assert_eq!(ba(0x02), (false, true));
        assert_eq!(now, registers(0, 2));
    }

    #[test]
    fn edge_once_set_stays() {
        let mut random = Random(0x0107);
        let mut now = registers(0, 0);
        for _ in 0..2000 {
            let before = now;
            let command = random.pick(&[0, 1, 2, 3, 4, 5, 6, 7, 8, 9, 10, 0xFF]);
            let function = random.pick(&[0, 1, 2, 3]);
            assert!(operate(&mut now, &[0x01, command, function]).is_ok());
            for place in 0..10 {
                assert!(now.edges[place] || !before.edges[place]);
            }
        }
        assert_eq!(now.edges, [true; 10]);
    }

    #[test]
    fn command_as_given() {
        for command in 0..=u8::MAX {
            for function in 0..=u8::MAX {
                let mut out = [FILL; 5];
                assert_eq!(write_command(command, function, &mut out), Ok(3));
                assert_eq!(out, [0x01, command, function, FILL, FILL]);
            }
        }
    }

    #[test]
    fn command_needs_three_places() {
        for length in 0..3 {
            let mut out = vec![FILL; length];
            assert_eq!(write_command(0x01, 0x01, &mut out), Err(11));
            assert_eq!(write_command(0xFF, 0xFF, &mut out), Err(11));
            assert!(out.iter().all(|&b| b == FILL));
        }
        let mut out = [FILL; 3];
        assert_eq!(write_command(0x09, 0x02, &mut out), Ok(3));
        assert_eq!(out, [0x01, 0x09, 0x02]);
    }

    #[test]
    fn written_command_is_carried_out() {
        for command in 0..10 {
            let mut out = [FILL; 3];
            assert_eq!(write_command(command, ACTIVATE, &mut out), Ok(3));
            let mut now = registers(0, 0);
            assert_eq!(operate(&mut now, &out), Ok(ACK));
            assert_eq!(now, registers(1 << command, 1 << command));
        }
    }
}
