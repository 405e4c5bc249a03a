//! The answers of a barrier.

use super::{put, BAD_LENGTH, BAD_POSITION, OTHER_KIND};

/// The command is accepted.
pub const ACK: u8 = 0x01;
/// The command is not accepted.
pub const NAK: u8 = 0x02;
/// The command cannot be carried out now.
pub const BUSY: u8 = 0x03;
/// The command has arrived; its result comes later.
pub const SYN: u8 = 0x04;
/// The number of vehicles follows in four bytes.
pub const COUNT: u8 = 0x1C;
/// The position of the boom follows in one byte.
pub const POSITION: u8 = 0x1D;

/// What a barrier answers.
#[derive(Clone, Copy, PartialEq, Eq, Debug)]
pub enum BarrierAnswer {
    /// The command is accepted.
    Ack,
    /// The command is not accepted.
    Nak,
    /// The command cannot be carried out now.
    Busy,
    /// The command has arrived; its result comes later.
    Syn,
    /// Vehicles counted.
    Count(i32),
    /// How far the barrier is open, from 0 to 100 percent, or -1 for not known. Other numbers
    /// can be given here and are refused.
    Position(i32),
}

/// Writes an answer to the start of `out` and gives its length.
///
/// On a refusal `out` is untouched.
pub fn write_answer(answer: BarrierAnswer, out: &mut [u8]) -> Result<usize, u8> {
    match answer {
        BarrierAnswer::Ack => put(&[ACK], out),
        BarrierAnswer::Nak => put(&[NAK], out),
        BarrierAnswer::Busy => put(&[BUSY], out),
        BarrierAnswer::Syn => put(&[SYN], out),
        BarrierAnswer::Count(count) => {
            let [b0, b1, b2, b3] = count.to_le_bytes();
            put(&[COUNT, b0, b1, b2, b3], out)
        }
        // Judged before it is cut down to a byte.
        BarrierAnswer::Position(position) => match i8::try_from(position) {
            Ok(percent @ -1..=100) => {
                let [byte] = percent.to_le_bytes();
                put(&[POSITION, byte], out)
            }
            _ => Err(BAD_POSITION),
        },
    }
}

/// Reads an answer.
pub fn read_answer(data: &[u8]) -> Result<BarrierAnswer, u8> {
    let (&kind, value) = data.split_first().ok_or(BAD_LENGTH)?;
    match (kind, value) {
        (ACK, []) => Ok(BarrierAnswer::Ack),
        (NAK, []) => Ok(BarrierAnswer::Nak),
        (BUSY, []) => Ok(BarrierAnswer::Busy),
        (SYN, []) => Ok(BarrierAnswer::Syn),
        (COUNT, &[b0, b1, b2, b3]) => {
            let count = i32::from_le_bytes([b0, b1, b2, b3]);
            Ok(BarrierAnswer::Count(count))
        }
        (POSITION, &[byte]) => match i8::from_le_bytes([byte]) {
            percent @ -1..=100 => Ok(BarrierAnswer::Position(percent.into())),
            _ => Err(BAD_POSITION),
        },
        (ACK | NAK | BUSY | SYN | COUNT | POSITION, _) => Err(BAD_LENGTH),
        _ => Err(OTHER_KIND),
    }
}

#[cfg(test)]
mod tests {
    use super::*;
    use crate::samples::Random;
    use BarrierAnswer::{Ack, Busy, Count, Nak, Position, Syn};

    const FILL: u8 = 0xA5;

    /// The kinds, each with the length of its answer.
    const KINDS: [(u8, usize); 6] = [
        (0x01, 1),
        (0x02, 1),
        (0x03, 1),
        (0x04, 1),
        (0x1C, 5),
        (0x1D, 2),
    ];

    /// The bytes of an answer, which must not be refused.
    fn written(answer: BarrierAnswer) -> Vec<u8> {
        let mut out = vec![FILL; 8];
        let length = write_answer(answer, &mut out).expect("written");
        assert!(out[length..].iter().all(|&b| b == FILL));
        out.truncate(length);
        out
    }

    /// Answers with their bytes.
    fn samples() -> Vec<(BarrierAnswer, Vec<u8>)> {
        vec![
            (Ack, vec![0x01]),
            (Nak, vec![0x02]),
            (Busy, vec![0x03]),
            (Syn, vec![0x04]),
            (Count(0), vec![0x1C, 0x00, 0x00, 0x00, 0x00]),
            (Count(1), vec![0x1C, 0x01, 0x00, 0x00, 0x00]),
            (Count(-1), vec![0x1C, 0xFF, 0xFF, 0xFF, 0xFF]),
            (Count(-2), vec![0x1C, 0xFE, 0xFF, 0xFF, 0xFF]),
            (Count(0x1234_5678), vec![0x1C, 0x78, 0x56, 0x34, 0x12]),
            (Count(i32::MAX), vec![0x1C, 0xFF, 0xFF, 0xFF, 0x7F]),
            (Count(i32::MIN), vec![0x1C, 0x00, 0x00, 0x00, 0x80]),
            (Position(-1), vec![0x1D, 0xFF]),
            (Position(0), vec![0x1D, 0x00]),
            (Position(1), vec![0x1D, 0x01]),
            (Position(99), vec![0x1D, 0x63]),
            (Position(100), vec![0x1D, 0x64]),
        ]
    }

    #[test]
    fn answers_and_their_bytes() {
        for (answer, bytes) in samples() {
            assert_eq!(written(answer), bytes);
            assert_eq!(read_answer(&bytes), Ok(answer));
        }
    }

    #[test]
    fn every_byte_as_a_position() {
        for byte in 0..=u8::MAX {
            let expected = match byte {
                0x00..=0x64 => Ok(Position(i32::from(byte))),
                0xFF => Ok(Position(-1)),
                _ => Err(10),
            };
            assert_eq!(read_answer(&[0x1D, byte]), expected);
        }
    }

    #[test]
    fn positions_written() {
        for position in -70_000..=70_000 {
            let mut out = [FILL; 3];
            let result = write_answer(Position(position), &mut out);
            if (-1..=100).contains(&position) {
                assert_eq!(result, Ok(2));
                assert_eq!(read_answer(&out[..2]), Ok(Position(position)));
                assert_eq!(out[2], FILL);
            } else {
                assert_eq!(result, Err(10));
                assert_eq!(out, [FILL; 3]);
            }
        }
        for position in [i32::MIN, i32::MIN + 100, i32::MAX, 0x7FFF_FF00, 1 << 24] {
            assert_eq!(write_answer(Position(position), &mut [FILL; 3]), Err(10));
        }
    }

    #[test]
    fn counts_round_trip() {
        let mut random = Random(0x1C);
        for _ in 0..10_000 {
            let [b0, b1, b2, b3] = random.next().to_be_bytes();
            let data = [0x1C, b0, b1, b2, b3];
            let answer = read_answer(&data).expect("a count");
            let Count(count) = answer else {
                panic!("{answer:?} is no count");
            };
            let unsigned = [b3, b2, b1, b0]
                .iter()
                .fold(0, |sum, &byte| sum * 256 + i64::from(byte));
            let wrapped = if b3 < 0x80 { 0 } else { 1 << 32 };
            assert_eq!(i64::from(count), unsigned - wrapped);
            assert_eq!(written(answer), data);
        }
    }

    #[test]
    fn no_byte_is_refused() {
        assert_eq!(read_answer(&[]), Err(7));
    }

    #[test]
    fn unknown_kind_is_refused_at_any_length() {
        for kind in 0..=u8::MAX {
            if KINDS.iter().any(|&(known, _)| known == kind) {
                continue;
            }
            for length in [1, 2, 3, 5, 6, 253, 300] {
                let mut data = vec![0x80; length];
                data[0] = kind;
                assert_eq!(read_answer(&data), Err(3));
            }
        }
    }

    #[test]
    fn known_kind_of_another_length_is_refused() {
        for (kind, right) in KINDS {
            for length in (1..300).filter(|&length| length != right) {
                // A position would be out of range as well.
                let mut data = vec![0x80; length];
                data[0] = kind;
                assert_eq!(read_answer(&data), Err(7));
            }
        }
    }

    #[test]
    fn output_lengths() {
        for (answer, bytes) in samples() {
            for length in 0..bytes.len() {
                let mut out = vec![FILL; length];
                assert_eq!(write_answer(answer, &mut out), Err(11));
                assert!(out.iter().all(|&b| b == FILL));
            }
            let mut out = vec![FILL; bytes.len()];
            assert_eq!(write_answer(answer, &mut out), Ok(bytes.len()));
            assert_eq!(out, bytes);
        }
    }

    #[test]
    fn position_comes_before_output_too_short() {
        for position in [-129, -128, -2, 101, 127, 128, 255, 256, 356] {
            assert_eq!(write_answer(Position(position), &mut []), Err(10));
            assert_eq!(write_answer(Position(position), &mut [FILL]), Err(10));
        }
        assert_eq!(write_answer(Position(100), &mut []), Err(11));
    }

    #[test]
    fn what_is_read_is_written_back() {
        let mut random = Random(0x1D);
        for _ in 0..20_000 {
            let mut data = vec![random.pick(&[0x01, 0x02, 0x03, 0x04, 0x05, 0x1C, 0x1D])];
            for _ in 0..random.pick(&[0, 0, 1, 1, 2, 4, 4, 5]) {
                data.push(random.next() as u8);
            }
            if let Ok(answer) = read_answer(&data) {
                assert_eq!(written(answer), data);
            }
        }
    }
}
