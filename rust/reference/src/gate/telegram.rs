//! The telegram: start, destination, source, length, data and check.

use super::{put, BAD_ADDRESS, BAD_LENGTH};

/// Begins every telegram.
pub const START: u8 = 0x55;
/// The address that no station may have.
pub const RESERVED: u8 = 0xFF;
/// The highest address of a master; those above it are of slaves.
pub const LAST_MASTER: u8 = 0x0F;
/// Most data bytes in one telegram.
pub const MAX_DATA: usize = 253;

/// The check of no bytes.
pub const CHECK_START: u16 = 0xFFFF;

/// The divisor of the check, without its leading bit.
const POLYNOMIAL: u16 = 0x1021;

/// Carries the check `start` on over `bytes`, each with its top bit first.
pub fn check(start: u16, bytes: &[u8]) -> u16 {
    let mut check = start;
    for byte in bytes {
        for place in (0..8).rev() {
            let entering = (byte >> place) & 1 != 0;
            let leaving = check & 0x8000 != 0;
            check <<= 1;
            if entering != leaving {
                check ^= POLYNOMIAL;
            }
        }
    }
    check
}

/// Whether both addresses are of masters, as those of a token have to be.
pub(super) fn between_masters(destination: u8, source: u8) -> bool {
    destination <= LAST_MASTER && source <= LAST_MASTER
}

/// Writes a telegram to the start of `out` and gives its length.
///
/// One without data is the token. On a refusal `out` is untouched.
pub fn write(destination: u8, source: u8, data: &[u8], out: &mut [u8]) -> Result<usize, u8> {
    if destination == RESERVED || source == RESERVED {
        return Err(BAD_ADDRESS);
    }
    if data.is_empty() && !between_masters(destination, source) {
        return Err(BAD_ADDRESS);
    }
    let length = match u8::try_from(data.len()) {
        Ok(length) if data.len() <= MAX_DATA => length,
        _ => return Err(BAD_LENGTH),
    };

    let mut telegram = vec![START, destination, source, length];
    telegram.extend(data);
    // High byte first.
    let check = check(CHECK_START, &telegram).to_be_bytes();
    telegram.extend(check);
    put(&telegram, out)
}

#[cfg(test)]
mod tests {
    use super::*;
    use crate::samples::Random;

    const FILL: u8 = 0xA5;

    /// The telegram with room enough, which must not be refused.
    fn written(destination: u8, source: u8, data: &[u8]) -> Vec<u8> {
        let mut out = vec![FILL; data.len() + 6];
        assert_eq!(write(destination, source, data, &mut out), Ok(out.len()));
        out
    }

    /// The number with which a call is refused that leaves its output alone.
    fn refused(destination: u8, source: u8, data: &[u8], room: usize) -> u8 {
        let mut out = vec![FILL; room];
        let refusal = write(destination, source, data, &mut out).expect_err("refused");
        assert!(out.iter().all(|&b| b == FILL));
        refusal
    }

    /// The check of two bytes or more, as the remainder of a long division of all their bits.
    /// Starting from ones turns the first sixteen bits over.
    fn remainder(bytes: &[u8]) -> u16 {
        let mut bits: Vec<bool> = bytes
            .iter()
            .flat_map(|byte| (0..8).rev().map(move |place| byte & (1 << place) != 0))
            .collect();
        for bit in &mut bits[..16] {
            *bit = !*bit;
        }
        bits.extend([false; 16]);
        for first in 0..bits.len() - 16 {
            if bits[first] {
                // x^16, x^12, x^5 and 1.
                for below in [0, 4, 11, 16] {
                    bits[first + below] = !bits[first + below];
                }
            }
        }
        let last = &bits[bits.len() - 16..];
        last.iter().fold(0, |sum, &bit| (sum << 1) | u16::from(bit))
    }

    // The check

    #[test]
    fn checks_of_known_texts() {
        assert_eq!(check(CHECK_START, b""), 0xFFFF);
        assert_eq!(check(CHECK_START, b"A"), 0xB915);
        assert_eq!(check(CHECK_START, b"123456789"), 0x29B1);
        assert_eq!(check(CHECK_START, &[b'A'; 256]), 0xEA0B);
    }

    #[test]
    fn check_is_the_remainder_of_a_division() {
        assert_eq!(remainder(b"123456789"), 0x29B1);
        let mut random = Random(0x1021);
        for length in 2..=300 {
            let bytes: Vec<u8> = (0..length).map(|_| random.next() as u8).collect();
            assert_eq!(check(CHECK_START, &bytes), remainder(&bytes));
        }
    }

    #[test]
    fn check_of_two_parts() {
        let text = b"123456789";
        for middle in 0..=text.len() {
            let (front, rest) = text.split_at(middle);
            assert_eq!(check(check(CHECK_START, front), rest), 0x29B1);
        }
    }

    #[test]
    fn check_over_a_telegram_and_its_check_is_0() {
        for length in 1..=253 {
            assert_eq!(
                check(CHECK_START, &written(0x10, 0x00, &vec![7; length])),
                0
            );
        }
    }

    // Whole telegrams

    #[test]
    fn command_to_10_from_00() {
        assert_eq!(
            written(0x10, 0x00, &[0x01, 0x01, 0x01]),
            [0x55, 0x10, 0x00, 0x03, 0x01, 0x01, 0x01, 0xF7, 0x86]
        );
    }

    #[test]
    fn token_to_01_from_00() {
        assert_eq!(
            written(0x01, 0x00, &[]),
            [0x55, 0x01, 0x00, 0x00, 0x7A, 0x8E]
        );
    }

    #[test]
    fn layout_of_every_length() {
        for length in 1..=253_u8 {
            let data: Vec<u8> = (0..length).map(|byte| byte ^ 0x55).collect();
            let telegram = written(0xFE, 0x0F, &data);
            let (body, sum) = telegram.split_at(telegram.len() - 2);
            assert_eq!(body[..4], [0x55, 0xFE, 0x0F, length]);
            assert_eq!(body[4..], data);
            assert_eq!(sum, remainder(body).to_be_bytes());
        }
    }

    #[test]
    fn longest_telegram_has_259_bytes() {
        assert_eq!(written(0x10, 0x00, &[0x41; 253]).len(), 259);
    }

    #[test]
    fn data_are_not_looked_into() {
        for byte in 0..=u8::MAX {
            assert_eq!(written(0x10, 0x00, &[byte])[4], byte);
        }
    }

    // Addresses

    #[test]
    fn data_go_between_all_addresses_but_the_reserved_one() {
        for destination in 0..=u8::MAX {
            for source in 0..=u8::MAX {
                if destination == 0xFF || source == 0xFF {
                    assert_eq!(refused(destination, source, &[1], 7), 16);
                } else {
                    let telegram = written(destination, source, &[1]);
                    assert_eq!(telegram[..5], [0x55, destination, source, 1, 1]);
                }
            }
        }
    }

    #[test]
    fn token_goes_between_masters_only() {
        for destination in 0..=u8::MAX {
            for source in 0..=u8::MAX {
                if destination > 0x0F || source > 0x0F {
                    assert_eq!(refused(destination, source, &[], 6), 16);
                } else {
                    let telegram = written(destination, source, &[]);
                    assert_eq!(telegram[..4], [0x55, destination, source, 0]);
                }
            }
        }
    }

    // Refusals

    #[test]
    fn data_too_long() {
        for length in [254, 255, 256, 257, 509, 512, 1000, 65536] {
            assert_eq!(refused(0x10, 0x00, &vec![1; length], length + 6), 7);
        }
    }

    #[test]
    fn output_lengths() {
        for length in [0, 1, 3, 252, 253] {
            let data = vec![0x55; length];
            let expected = written(0x01, 0x00, &data);
            for room in 0..length + 6 {
                assert_eq!(refused(0x01, 0x00, &data, room), 11);
            }
            for spare in 0..5 {
                let mut out = vec![FILL; length + 6 + spare];
                assert_eq!(write(0x01, 0x00, &data, &mut out), Ok(length + 6));
                assert_eq!(out[..length + 6], expected);
                assert!(out[length + 6..].iter().all(|&b| b == FILL));
            }
        }
    }

    #[test]
    fn address_comes_before_length_and_length_before_output() {
        for (destination, source) in [(0xFF, 0x00), (0x10, 0xFF), (0xFF, 0xFF)] {
            assert_eq!(refused(destination, source, &[1; 254], 300), 16);
            assert_eq!(refused(destination, source, &[1; 254], 0), 16);
            assert_eq!(refused(destination, source, &[1], 0), 16);
            assert_eq!(refused(destination, source, &[], 0), 16);
        }
        for (destination, source) in [(0x10, 0x00), (0x00, 0x10), (0x10, 0x10)] {
            assert_eq!(refused(destination, source, &[], 0), 16);
        }
        assert_eq!(refused(0x10, 0x00, &[1; 254], 0), 7);
        assert_eq!(refused(0x10, 0x00, &[1; 253], 0), 11);
        assert_eq!(refused(0x01, 0x00, &[], 0), 11);
    }
}
