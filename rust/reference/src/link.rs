//! 3964R: framing of a block, and the receiver of one; the sender is in [`send`].
//!
//! Both functions are total: no argument makes them panic.

pub mod send;

use crate::refusal::{BAD_SETUP, OUTPUT_TOO_SHORT, TOO_LONG};
use std::iter::repeat_n;

/// Opens a block.
pub const STX: u8 = 0x02;
/// Closes a block when it comes right after a `DLE` that is not the second of a pair.
pub const ETX: u8 = 0x03;
/// Escape inside a block; on its own, the positive acknowledgement.
pub const DLE: u8 = 0x10;
/// Negative acknowledgement.
pub const NAK: u8 = 0x15;

/// Most data bytes in one block, counted before any doubling.
pub const MAX_DATA: usize = 1024;

/// Where the receiver stands within a block.
#[derive(Clone, Copy, PartialEq, Eq, Debug)]
pub enum Phase {
    /// No block is open.
    Rest,
    /// A block is open.
    Inside {
        /// The previous byte was a `DLE` whose meaning is still open.
        dle_seen: bool,
    },
    /// The block is closed and its check byte is due.
    Waiting,
}

/// All that the receiver remembers between two events, its buffer aside.
#[derive(Clone, Copy, PartialEq, Eq, Debug)]
pub struct State {
    /// Position within the block.
    pub phase: Phase,
    /// Data bytes stored so far.
    pub count: usize,
    /// Exclusive or of the block's bytes so far, as they were on the line.
    pub check: u8,
}

/// What can happen to the receiver.
#[derive(Clone, Copy, PartialEq, Eq, Debug)]
pub enum Event {
    /// A byte arrived.
    Byte(u8),
    /// The timer ran out.
    Timer,
}

/// What the receiver gives back for one event.
#[derive(Clone, Copy, PartialEq, Eq, Debug)]
pub enum Answer {
    /// Stay silent.
    Nothing,
    /// Send this byte.
    Send(u8),
    /// Send `DLE`; the first so many bytes of the buffer are a message.
    Message(usize),
    /// The call was refused with this number.
    Refused(u8),
}

/// The receiver between blocks.
const RESTING: State = State {
    phase: Phase::Rest,
    count: 0,
    check: 0,
};

/// Writes the frame of `data` to the start of `out` and gives its length.
///
/// The frame holds no `STX`. On a refusal `out` is untouched.
pub fn frame(data: &[u8], out: &mut [u8]) -> Result<usize, u8> {
    if data.len() > MAX_DATA {
        return Err(TOO_LONG);
    }

    let mut block: Vec<u8> = data
        .iter()
        .flat_map(|&byte| repeat_n(byte, if byte == DLE { 2 } else { 1 }))
        .chain([DLE, ETX])
        .collect();
    // The check covers the block as it goes over the line, escapes included.
    let check = block.iter().fold(0, |sum, byte| sum ^ byte);
    block.push(check);

    match out.get_mut(..block.len()) {
        Some(place) => {
            place.copy_from_slice(&block);
            Ok(block.len())
        }
        None => Err(OUTPUT_TOO_SHORT),
    }
}

/// Takes one event and gives the answer and the state that follows.
///
/// Only the place of `buffer` at `state.count` can change, and only when a
/// data byte is stored.
pub fn receive(state: State, event: Event, buffer: &mut [u8]) -> (Answer, State) {
    use Event::{Byte, Timer};
    use Phase::{Inside, Rest, Waiting};

    if state.count > buffer.len().min(MAX_DATA) {
        return (Answer::Refused(BAD_SETUP), state);
    }

    let reject = (Answer::Send(NAK), RESTING);

    match (state.phase, event) {
        (Rest, Byte(STX)) => (
            Answer::Send(DLE),
            State {
                phase: Inside { dle_seen: false },
                ..RESTING
            },
        ),
        (Rest, Byte(NAK) | Timer) => (Answer::Nothing, RESTING),
        (Rest, Byte(_)) => reject,

        (Inside { dle_seen: false }, Byte(DLE)) => (
            Answer::Nothing,
            State {
                phase: Inside { dle_seen: true },
                check: state.check ^ DLE,
                ..state
            },
        ),
        // Plain data, or the second half of a doubled DLE.
        (Inside { dle_seen: false }, Byte(data))
        | (Inside { dle_seen: true }, Byte(data @ DLE)) => {
            match buffer.iter_mut().take(MAX_DATA).nth(state.count) {
                Some(place) => {
                    *place = data;
                    (
                        Answer::Nothing,
                        State {
                            phase: Inside { dle_seen: false },
                            // A place was found, so the count is below MAX_DATA.
                            count: state.count + 1,
                            check: state.check ^ data,
                        },
                    )
                }
                None => reject,
            }
        }
        (Inside { dle_seen: true }, Byte(ETX)) => (
            Answer::Nothing,
            State {
                phase: Waiting,
                check: state.check ^ ETX,
                ..state
            },
        ),
        (Inside { dle_seen: true }, Byte(_)) => reject,

        (Waiting, Byte(byte)) if byte == state.check => (Answer::Message(state.count), RESTING),
        (Waiting, Byte(_)) => reject,

        (Inside { .. } | Waiting, Timer) => reject,
    }
}

#[cfg(test)]
mod tests {
    use super::*;
    use crate::samples::Random;

    const FILL: u8 = 0xA5;

    const PHASES: [Phase; 4] = [
        Phase::Rest,
        Phase::Inside { dle_seen: false },
        Phase::Inside { dle_seen: true },
        Phase::Waiting,
    ];

    const REJECTED: (Answer, State) = (
        Answer::Send(0x15),
        State {
            phase: Phase::Rest,
            count: 0,
            check: 0,
        },
    );

    fn rest(count: usize, check: u8) -> State {
        State {
            phase: Phase::Rest,
            count,
            check,
        }
    }

    fn plain(count: usize, check: u8) -> State {
        State {
            phase: Phase::Inside { dle_seen: false },
            count,
            check,
        }
    }

    fn escaped(count: usize, check: u8) -> State {
        State {
            phase: Phase::Inside { dle_seen: true },
            count,
            check,
        }
    }

    fn waiting(count: usize, check: u8) -> State {
        State {
            phase: Phase::Waiting,
            count,
            check,
        }
    }

    fn every_byte() -> impl Iterator<Item = u8> {
        0..=u8::MAX
    }

    /// Counts that fit a buffer of three, with every check.
    fn counts_and_checks() -> impl Iterator<Item = (usize, u8)> {
        (0..=3).flat_map(|count| every_byte().map(move |check| (count, check)))
    }

    fn every_event() -> impl Iterator<Item = Event> {
        every_byte().map(Event::Byte).chain([Event::Timer])
    }

    /// Feeds one event that must leave the buffer as it was.
    fn step(state: State, event: Event, length: usize) -> (Answer, State) {
        let mut buffer = vec![FILL; length];
        let result = receive(state, event, &mut buffer);
        assert!(
            buffer.iter().all(|&b| b == FILL),
            "{state:?} {event:?} wrote to the buffer"
        );
        result
    }

    /// The frame of `data`, which must not be refused.
    fn framed(data: &[u8]) -> Vec<u8> {
        let mut out = vec![FILL; 2 * data.len() + 3];
        let length = frame(data, &mut out).expect("framed");
        out.truncate(length);
        out
    }

    /// Feeds `STX` and then `bytes` to a resting receiver. Silence is required
    /// until the last byte, whose outcome is given back.
    fn feed(bytes: &[u8], buffer: &mut [u8]) -> (Answer, State) {
        let opened = receive(rest(0, 0), Event::Byte(0x02), buffer);
        assert_eq!(opened, (Answer::Send(0x10), plain(0, 0)));
        let (last, before) = bytes.split_last().expect("at least one byte");
        let mut state = opened.1;
        for &byte in before {
            let (answer, next) = receive(state, Event::Byte(byte), buffer);
            assert_eq!(answer, Answer::Nothing);
            state = next;
        }
        receive(state, Event::Byte(*last), buffer)
    }

    /// Any byte, with the control characters made frequent.
    fn any_byte(random: &mut Random) -> u8 {
        let [kind, which, value, _] = random.next().to_be_bytes();
        if kind < 0x60 {
            [0x02, 0x03, 0x10, 0x15][usize::from(which % 4)]
        } else {
            value
        }
    }

    // Frames

    #[test]
    fn frame_of_60_10() {
        assert_eq!(framed(&[0x60, 0x10]), [0x60, 0x10, 0x10, 0x10, 0x03, 0x73]);
    }

    #[test]
    fn frame_of_no_data() {
        assert_eq!(framed(&[]), [0x10, 0x03, 0x13]);
    }

    #[test]
    fn frame_of_10() {
        assert_eq!(framed(&[0x10]), [0x10, 0x10, 0x10, 0x03, 0x13]);
    }

    #[test]
    fn check_byte_10_is_not_doubled() {
        assert_eq!(framed(&[0x03]), [0x03, 0x10, 0x03, 0x10]);
    }

    #[test]
    fn only_10_is_doubled() {
        for byte in every_byte().filter(|&b| b != 0x10) {
            assert_eq!(framed(&[byte]), [byte, 0x10, 0x03, byte ^ 0x13]);
        }
    }

    #[test]
    fn longest_data() {
        let mut out = [FILL; 3000];
        assert_eq!(frame(&[0x41; 1024], &mut out), Ok(1027));
        assert_eq!(out[..1024], [0x41; 1024]);
        assert_eq!(out[1024..1027], [0x10, 0x03, 0x13]);
        assert_eq!(out[1027..], [FILL; 1973]);
    }

    #[test]
    fn longest_frame() {
        let data = [0x10; 1024];
        let mut short = [FILL; 2050];
        assert_eq!(frame(&data, &mut short), Err(11));
        assert_eq!(short, [FILL; 2050]);

        let mut exact = [FILL; 2051];
        assert_eq!(frame(&data, &mut exact), Ok(2051));
        assert_eq!(exact[..2049], [0x10; 2049]);
        assert_eq!(exact[2049..], [0x03, 0x13]);
    }

    #[test]
    fn data_too_long() {
        for length in [1025, 1026, 5000] {
            let data = vec![0x41; length];
            let mut out = vec![FILL; 2 * length + 3];
            assert_eq!(frame(&data, &mut out), Err(12));
            assert!(out.iter().all(|&b| b == FILL));
        }
    }

    #[test]
    fn data_too_long_comes_before_output_too_short() {
        assert_eq!(frame(&[0x41; 1025], &mut []), Err(12));
        assert_eq!(frame(&[0x41; 1024], &mut []), Err(11));
    }

    #[test]
    fn output_lengths() {
        let samples: [&[u8]; 5] = [&[], &[0x10], &[0x60, 0x10], &[0x03], &[1, 2, 3, 4, 5]];
        for data in samples {
            let expected = framed(data);
            for length in 0..expected.len() {
                let mut out = vec![FILL; length];
                assert_eq!(frame(data, &mut out), Err(11));
                assert!(out.iter().all(|&b| b == FILL));
            }
            for spare in 0..5 {
                let mut out = vec![FILL; expected.len() + spare];
                assert_eq!(frame(data, &mut out), Ok(expected.len()));
                assert_eq!(out[..expected.len()], expected);
                assert!(out[expected.len()..].iter().all(|&b| b == FILL));
            }
        }
    }

    // Receiver, row by row

    #[test]
    fn rest_stx_opens_a_block() {
        for (count, check) in counts_and_checks() {
            assert_eq!(
                step(rest(count, check), Event::Byte(0x02), 3),
                (Answer::Send(0x10), plain(0, 0))
            );
        }
    }

    #[test]
    fn rest_nak_or_timer_is_silent() {
        for check in every_byte() {
            for event in [Event::Byte(0x15), Event::Timer] {
                assert_eq!(
                    step(rest(2, check), event, 3),
                    (Answer::Nothing, rest(0, 0))
                );
            }
        }
    }

    #[test]
    fn rest_other_byte_is_rejected() {
        for byte in every_byte().filter(|b| ![0x02, 0x15].contains(b)) {
            assert_eq!(step(rest(0, 0), Event::Byte(byte), 3), REJECTED);
            assert_eq!(step(rest(3, byte), Event::Byte(byte), 3), REJECTED);
        }
    }

    #[test]
    fn plain_dle_is_noted() {
        for check in every_byte() {
            assert_eq!(
                step(plain(1, check), Event::Byte(0x10), 3),
                (Answer::Nothing, escaped(1, check ^ 0x10))
            );
        }
    }

    #[test]
    fn plain_other_byte_is_stored() {
        for byte in every_byte().filter(|&b| b != 0x10) {
            for check in every_byte() {
                let mut buffer = [FILL; 3];
                assert_eq!(
                    receive(plain(1, check), Event::Byte(byte), &mut buffer),
                    (Answer::Nothing, plain(2, check ^ byte))
                );
                assert_eq!(buffer, [FILL, byte, FILL]);
            }
        }
    }

    #[test]
    fn plain_other_byte_without_room_is_rejected() {
        for byte in every_byte().filter(|&b| b != 0x10) {
            for length in [0, 1, 3, 1024] {
                assert_eq!(step(plain(length, 7), Event::Byte(byte), length), REJECTED);
            }
        }
    }

    #[test]
    fn escaped_dle_is_stored() {
        for check in every_byte() {
            let mut buffer = [FILL; 3];
            assert_eq!(
                receive(escaped(2, check), Event::Byte(0x10), &mut buffer),
                (Answer::Nothing, plain(3, check ^ 0x10))
            );
            assert_eq!(buffer, [FILL, FILL, 0x10]);
        }
    }

    #[test]
    fn escaped_dle_without_room_is_rejected() {
        for length in [0, 1, 3, 1024] {
            assert_eq!(
                step(escaped(length, 7), Event::Byte(0x10), length),
                REJECTED
            );
        }
    }

    #[test]
    fn escaped_etx_closes_the_block() {
        for (count, check) in counts_and_checks() {
            assert_eq!(
                step(escaped(count, check), Event::Byte(0x03), 3),
                (Answer::Nothing, waiting(count, check ^ 0x03))
            );
        }
    }

    #[test]
    fn escaped_other_byte_is_rejected() {
        for byte in every_byte().filter(|b| ![0x03, 0x10].contains(b)) {
            for count in 0..=3 {
                assert_eq!(step(escaped(count, byte), Event::Byte(byte), 3), REJECTED);
            }
        }
    }

    #[test]
    fn waiting_right_check_gives_the_message() {
        for (count, check) in counts_and_checks() {
            assert_eq!(
                step(waiting(count, check), Event::Byte(check), 3),
                (Answer::Message(count), rest(0, 0))
            );
        }
    }

    #[test]
    fn waiting_wrong_check_is_rejected() {
        for check in every_byte() {
            for byte in every_byte().filter(|&b| b != check) {
                assert_eq!(step(waiting(2, check), Event::Byte(byte), 3), REJECTED);
            }
        }
    }

    #[test]
    fn timer_ends_an_open_block() {
        for (count, check) in counts_and_checks() {
            for state in [
                plain(count, check),
                escaped(count, check),
                waiting(count, check),
            ] {
                assert_eq!(step(state, Event::Timer, 3), REJECTED);
            }
        }
    }

    // State against buffer

    /// A state with a count, in each phase.
    fn states(count: usize) -> impl Iterator<Item = State> {
        PHASES.into_iter().map(move |phase| State {
            phase,
            count,
            check: 0x5A,
        })
    }

    #[test]
    fn count_over_the_limit_is_refused() {
        for (length, counts) in [
            (0, [1, 2, usize::MAX]),
            (3, [4, 1024, usize::MAX]),
            (1024, [1025, 1026, usize::MAX]),
            (1025, [1025, 1026, usize::MAX]),
            (3000, [1025, 3000, usize::MAX]),
        ] {
            for state in counts.into_iter().flat_map(states) {
                for event in every_event() {
                    assert_eq!(step(state, event, length), (Answer::Refused(1), state));
                }
            }
        }
    }

    #[test]
    fn count_at_the_limit_is_taken() {
        for (length, count) in [(0, 0), (3, 3), (1024, 1024), (1025, 1024), (3000, 1024)] {
            for state in states(count) {
                for event in every_event() {
                    let (answer, _) = step(state, event, length);
                    assert!(!matches!(answer, Answer::Refused(_)));
                }
            }
        }
    }

    #[test]
    fn what_holds_of_every_event() {
        for length in [0, 1, 2, 1023, 1024, 1025, 2000] {
            for count in [0, 1, 2, 1023, 1024, 1025, usize::MAX - 1, usize::MAX] {
                for phase in PHASES {
                    for check in [0x00, 0x03, 0x10, 0x13, 0xFF] {
                        for event in every_event() {
                            let state = State {
                                phase,
                                count,
                                check,
                            };
                            let mut buffer = vec![FILL; length];
                            let (answer, next) = receive(state, event, &mut buffer);

                            for (place, &value) in buffer.iter().enumerate() {
                                assert!(value == FILL || place == count);
                            }
                            if answer == Answer::Refused(1) {
                                assert_eq!(next, state);
                            } else {
                                assert!(next.count <= length.min(1024));
                                if next.phase == Phase::Rest {
                                    assert_eq!(next, rest(0, 0));
                                }
                            }
                        }
                    }
                }
            }
        }
    }

    // Full buffer

    #[test]
    fn full_buffer_still_notes_a_dle() {
        for length in [0, 1, 3, 1024] {
            assert_eq!(
                step(plain(length, 7), Event::Byte(0x10), length),
                (Answer::Nothing, escaped(length, 7 ^ 0x10))
            );
        }
    }

    #[test]
    fn full_buffer_has_no_room_for_a_doubled_dle() {
        let mut buffer = [FILL; 2];
        assert_eq!(feed(&[0x41, 0x42, 0x10, 0x10], &mut buffer), REJECTED);
        assert_eq!(buffer, [0x41, 0x42]);
    }

    #[test]
    fn full_buffer_can_be_closed() {
        let mut buffer = [FILL; 2];
        assert_eq!(
            feed(&framed(&[0x41, 0x10]), &mut buffer),
            (Answer::Message(2), rest(0, 0))
        );
        assert_eq!(buffer, [0x41, 0x10]);
    }

    #[test]
    fn empty_message_fits_an_empty_buffer() {
        assert_eq!(
            feed(&[0x10, 0x03, 0x13], &mut []),
            (Answer::Message(0), rest(0, 0))
        );
    }

    #[test]
    fn long_buffer_has_room_for_1024() {
        let mut buffer = [FILL; 1030];
        assert_eq!(
            receive(plain(1023, 7), Event::Byte(0x41), &mut buffer),
            (Answer::Nothing, plain(1024, 7 ^ 0x41))
        );
        assert_eq!(buffer[1023], 0x41);
        assert_eq!(buffer[1024..], [FILL; 6]);
        for event in [0x41, 0x02, 0x03, 0x15].map(Event::Byte) {
            assert_eq!(step(plain(1024, 7), event, 1030), REJECTED);
        }
        assert_eq!(step(escaped(1024, 7), Event::Byte(0x10), 1030), REJECTED);
        assert_eq!(
            step(escaped(1024, 7), Event::Byte(0x03), 1030),
            (Answer::Nothing, waiting(1024, 7 ^ 0x03))
        );
    }

    #[test]
    fn stored_bytes_outlive_a_rejection() {
        let mut buffer = [FILL; 4];
        assert_eq!(feed(&[0x41, 0x42, 0x10, 0x41], &mut buffer), REJECTED);
        assert_eq!(buffer, [0x41, 0x42, FILL, FILL]);
    }

    // Whole blocks

    #[test]
    fn running_check_after_each_byte() {
        let mut buffer = [FILL; 2];
        let mut state = plain(0, 0);
        for (byte, expected) in [
            (0x60, plain(1, 0x60)),
            (0x10, escaped(1, 0x70)),
            (0x10, plain(2, 0x60)),
            (0x10, escaped(2, 0x70)),
            (0x03, waiting(2, 0x73)),
        ] {
            let (answer, next) = receive(state, Event::Byte(byte), &mut buffer);
            assert_eq!((answer, next), (Answer::Nothing, expected));
            state = next;
        }
        assert_eq!(
            receive(state, Event::Byte(0x73), &mut buffer),
            (Answer::Message(2), rest(0, 0))
        );
        assert_eq!(buffer, [0x60, 0x10]);
    }

    #[test]
    fn control_characters_as_data() {
        let data = [0x02, 0x03, 0x15, 0x10, 0x03, 0x10, 0x02, 0x10, 0x15];
        let mut buffer = [FILL; 9];
        assert_eq!(
            feed(&framed(&data), &mut buffer),
            (Answer::Message(9), rest(0, 0))
        );
        assert_eq!(buffer, data);
    }

    #[test]
    fn round_trip_of_every_length() {
        let mut random = Random(0x3964);
        for length in 0..=1024 {
            let data: Vec<u8> = (0..length).map(|_| any_byte(&mut random)).collect();
            let block = framed(&data);
            for spare in [0, 1, 40] {
                let mut buffer = vec![FILL; length + spare];
                assert_eq!(
                    feed(&block, &mut buffer),
                    (Answer::Message(length), rest(0, 0))
                );
                assert_eq!(buffer[..length], data);
                assert!(buffer[length..].iter().all(|&b| b == FILL));
            }
        }
    }

    #[test]
    fn round_trip_of_1024_times_10() {
        let mut buffer = [FILL; 1024];
        assert_eq!(
            feed(&framed(&[0x10; 1024]), &mut buffer),
            (Answer::Message(1024), rest(0, 0))
        );
        assert_eq!(buffer, [0x10; 1024]);
    }
}
