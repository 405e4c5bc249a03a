//! The receiver of telegrams, one event at a time.

use super::telegram::between_masters;
use super::{
    check, BAD_ADDRESS, BAD_LENGTH, BAD_SETUP, CHECK_START, MAX_DATA, OUTPUT_TOO_SHORT, RESERVED,
    START, WRONG_CHECK,
};

/// Most bytes that can be left of another's telegram: 255 data bytes and the check.
const MAX_LEFT: usize = 257;

/// What the receiver remembers between two events, its store aside.
///
/// A case is named after the byte that is due.
#[derive(Clone, Copy, PartialEq, Eq, Debug)]
pub enum State {
    /// The start of a telegram; all other bytes are skipped. This is the fresh state.
    Rest,
    /// The destination.
    Destination,
    /// The source of a telegram for us.
    Source {
        /// The destination received.
        destination: u8,
        /// The check so far.
        check: u16,
    },
    /// The length of a telegram for us.
    Length {
        /// The destination received.
        destination: u8,
        /// The source received.
        source: u8,
        /// The check so far.
        check: u16,
    },
    /// A data byte of a telegram for us or, once all are stored, the high byte of its check.
    Data {
        /// The destination received.
        destination: u8,
        /// The source received.
        source: u8,
        /// How many data bytes the telegram has.
        length: usize,
        /// How many of them are stored.
        stored: usize,
        /// The check so far.
        check: u16,
    },
    /// The low byte of the check of a telegram for us.
    LowCheck {
        /// The destination received.
        destination: u8,
        /// The source received.
        source: u8,
        /// How many data bytes the telegram has, all of them stored.
        length: usize,
        /// The check of all bytes before the received one.
        check: u16,
        /// The high byte of the check received.
        high: u8,
    },
    /// The source of another's telegram.
    OtherSource,
    /// The length of another's telegram.
    OtherLength,
    /// The rest of another's telegram, which is dropped.
    Dropping {
        /// How many bytes are left; none counts as one.
        left: usize,
    },
}

/// What can happen to the receiver.
#[derive(Clone, Copy, PartialEq, Eq, Debug)]
pub enum Event {
    /// A byte arrived.
    Byte(u8),
    /// The timer ran out.
    Timer,
}

/// What the receiver gives back for one event.
#[derive(Clone, Copy, PartialEq, Eq, Debug)]
pub enum Answer {
    /// No telegram for us has ended.
    Nothing,
    /// A telegram with data, which are now in the first places of the output.
    Telegram {
        /// The station that sent it.
        source: u8,
        /// How many data bytes it has.
        length: usize,
    },
    /// The token.
    Token {
        /// The master that passed it on.
        source: u8,
    },
    /// The call was refused with this number.
    Refused(u8),
}

/// Takes one event at the station `own` and gives the answer and the state that follows.
///
/// Received data wait in `store`, which has to have 253 places; only the place of the next
/// data byte can change. `out` changes only when a telegram is accepted. A refused call gives
/// back the fresh state, unless the number is `BAD_SETUP`: then the state is kept.
pub fn receive(
    own: u8,
    state: State,
    store: &mut [u8],
    event: Event,
    out: &mut [u8],
) -> (Answer, State) {
    if store.len() != MAX_DATA || !can_be(state) {
        return (Answer::Refused(BAD_SETUP), state);
    }
    if own == RESERVED {
        return (Answer::Refused(BAD_ADDRESS), State::Rest);
    }
    match event {
        Event::Timer => (Answer::Nothing, State::Rest),
        Event::Byte(byte) => take(own, state, store, byte, out),
    }
}

/// Whether the state counts no more bytes than its telegram can have.
fn can_be(state: State) -> bool {
    match state {
        State::Data { length, stored, .. } => length <= MAX_DATA && stored <= length,
        State::LowCheck { length, .. } => length <= MAX_DATA,
        State::Dropping { left } => left <= MAX_LEFT,
        State::Rest
        | State::Destination
        | State::Source { .. }
        | State::Length { .. }
        | State::OtherSource
        | State::OtherLength => true,
    }
}

/// Takes one byte in a state that can be.
fn take(own: u8, state: State, store: &mut [u8], byte: u8, out: &mut [u8]) -> (Answer, State) {
    let next = match state {
        State::Rest if byte == START => State::Destination,
        State::Rest => State::Rest,

        State::Destination if byte == own => State::Source {
            destination: byte,
            check: check(CHECK_START, &[START, byte]),
        },
        State::Destination => State::OtherSource,

        State::Source {
            destination,
            check: sum,
        } => State::Length {
            destination,
            source: byte,
            check: check(sum, &[byte]),
        },

        State::Length {
            destination,
            source,
            check: sum,
        } => {
            let length = usize::from(byte);
            if length > MAX_DATA {
                return (Answer::Refused(BAD_LENGTH), State::Rest);
            }
            State::Data {
                destination,
                source,
                length,
                stored: 0,
                check: check(sum, &[byte]),
            }
        }

        State::Data {
            destination,
            source,
            length,
            stored,
            check: sum,
        } => match store.iter_mut().take(length).nth(stored) {
            Some(place) => {
                *place = byte;
                State::Data {
                    destination,
                    source,
                    length,
                    // A place was found, so the number stored is below the length.
                    stored: stored + 1,
                    check: check(sum, &[byte]),
                }
            }
            None => State::LowCheck {
                destination,
                source,
                length,
                check: sum,
                high: byte,
            },
        },

        State::LowCheck {
            destination,
            source,
            length,
            check: sum,
            high,
        } => {
            let answer = if u16::from_be_bytes([high, byte]) != sum {
                Answer::Refused(WRONG_CHECK)
            } else if length == 0 {
                token(destination, source)
            } else {
                telegram(source, length, store, out)
            };
            return (answer, State::Rest);
        }

        State::OtherSource => State::OtherLength,

        State::OtherLength => State::Dropping {
            left: usize::from(byte) + 2,
        },

        State::Dropping { left } => match left.saturating_sub(1) {
            0 => State::Rest,
            left => State::Dropping { left },
        },
    };
    (Answer::Nothing, next)
}

/// The answer to a token whose check is right.
fn token(destination: u8, source: u8) -> Answer {
    if between_masters(destination, source) {
        Answer::Token { source }
    } else {
        Answer::Refused(BAD_ADDRESS)
    }
}

/// The answer to a telegram with data whose check is right.
fn telegram(source: u8, length: usize, store: &[u8], out: &mut [u8]) -> Answer {
    if source == RESERVED {
        return Answer::Refused(BAD_ADDRESS);
    }
    match out.get_mut(..length) {
        Some(places) => {
            for (place, &byte) in places.iter_mut().zip(store) {
                *place = byte;
            }
            Answer::Telegram { source, length }
        }
        None => Answer::Refused(OUTPUT_TOO_SHORT),
    }
}

#[cfg(test)]
mod tests {
    use super::super::write;
    use super::*;
    use crate::samples::Random;

    const FILL: u8 = 0xA5;

    /// What is in the store before anything is stored.
    const OLD: u8 = 0x5A;

    /// To 10 from 00, with the data 01 01 01.
    const COMMAND: [u8; 9] = [0x55, 0x10, 0x00, 0x03, 0x01, 0x01, 0x01, 0xF7, 0x86];

    /// The answer to it.
    const COMMAND_TAKEN: Answer = Answer::Telegram {
        source: 0x00,
        length: 3,
    };

    /// The token to 01 from 00.
    const TOKEN: [u8; 6] = [0x55, 0x01, 0x00, 0x00, 0x7A, 0x8E];

    /// A receiver with all that is lent to it.
    struct Receiver {
        own: u8,
        state: State,
        store: Vec<u8>,
        out: Vec<u8>,
    }

    impl Receiver {
        fn new(own: u8, room: usize) -> Self {
            Receiver {
                own,
                state: State::Rest,
                store: vec![OLD; 253],
                out: vec![FILL; room],
            }
        }

        fn event(&mut self, event: Event) -> Answer {
            let (answer, next) =
                receive(self.own, self.state, &mut self.store, event, &mut self.out);
            self.state = next;
            answer
        }

        /// Takes bytes that must all be met with silence and leave the output alone.
        fn silent(&mut self, bytes: &[u8]) {
            for &byte in bytes {
                let before = self.out.clone();
                assert_eq!(self.event(Event::Byte(byte)), Answer::Nothing);
                assert_eq!(self.out, before);
            }
        }

        /// Takes a telegram of which only the last byte gets an answer. Nothing but the output
        /// of an accepted one changes then, and the receiver is fresh again.
        fn last(&mut self, bytes: &[u8]) -> Answer {
            let (&last, front) = bytes.split_last().expect("at least one byte");
            self.silent(front);
            let (store, out) = (self.store.clone(), self.out.clone());
            let answer = self.event(Event::Byte(last));
            assert_ne!(answer, Answer::Nothing);
            assert_eq!(self.state, State::Rest);
            assert_eq!(self.store, store);
            let changed = match answer {
                Answer::Telegram { length, .. } => {
                    assert_eq!(self.out[..length], store[..length]);
                    length
                }
                _ => 0,
            };
            assert_eq!(self.out[changed..], out[changed..]);
            answer
        }
    }

    /// A telegram with the right check, whatever its addresses are.
    fn checked(destination: u8, source: u8, data: &[u8]) -> Vec<u8> {
        let length = u8::try_from(data.len()).expect("a length");
        let mut telegram = vec![0x55, destination, source, length];
        telegram.extend(data);
        let sum = check(0xFFFF, &telegram);
        telegram.extend(sum.to_be_bytes());
        telegram
    }

    fn every_byte() -> impl Iterator<Item = u8> {
        0..=u8::MAX
    }

    fn every_event() -> impl Iterator<Item = Event> {
        every_byte().map(Event::Byte).chain([Event::Timer])
    }

    fn data(length: usize, stored: usize) -> State {
        State::Data {
            destination: 0x10,
            source: 0x00,
            length,
            stored,
            check: 0x1234,
        }
    }

    fn low_check(destination: u8, source: u8, length: usize) -> State {
        State::LowCheck {
            destination,
            source,
            length,
            check: 0x1234,
            high: 0x12,
        }
    }

    /// States of every case, at the limits of what can be.
    fn good_states() -> Vec<State> {
        let source = State::Source {
            destination: 0x10,
            check: 0xFE74,
        };
        let length = State::Length {
            destination: 0x10,
            source: 0x00,
            check: 0x7AD1,
        };
        let mut states = vec![State::Rest, State::Destination, source, length];
        for (length, stored) in [
            (0, 0),
            (1, 0),
            (1, 1),
            (3, 2),
            (253, 0),
            (253, 252),
            (253, 253),
        ] {
            states.push(data(length, stored));
        }
        for length in [0, 1, 3, 252, 253] {
            for (destination, source) in [(0x10, 0x00), (0x01, 0x00), (0xFF, 0x10), (0x01, 0xFF)] {
                states.push(low_check(destination, source, length));
            }
        }
        states.extend([State::OtherSource, State::OtherLength]);
        states.extend([0, 1, 2, 3, 255, 256, 257].map(|left| State::Dropping { left }));
        states
    }

    /// States that count more bytes than their telegrams can have.
    fn bad_states() -> Vec<State> {
        let counts = [
            (0, 1),
            (3, 4),
            (3, usize::MAX),
            (253, 254),
            (253, 255),
            (254, 0),
            (254, 254),
            (255, 256),
            (256, 0),
            (usize::MAX, 0),
            (usize::MAX, usize::MAX),
        ];
        let mut states: Vec<State> = counts
            .into_iter()
            .map(|(length, stored)| data(length, stored))
            .collect();
        for length in [254, 255, 256, 509, usize::MAX] {
            states.push(low_check(0x10, 0x00, length));
        }
        for left in [258, 259, 65535, 65536, 65537, usize::MAX] {
            states.push(State::Dropping { left });
        }
        states
    }

    /// One event that must leave store and output as they were.
    fn step(own: u8, state: State, event: Event) -> (Answer, State) {
        let mut store = [OLD; 253];
        let mut out = [FILL; 253];
        let result = receive(own, state, &mut store, event, &mut out);
        assert_eq!(store, [OLD; 253]);
        assert_eq!(out, [FILL; 253]);
        result
    }

    /// One silent byte for the station 10 that must leave store and output as they were.
    fn after(state: State, byte: u8) -> State {
        let (answer, next) = step(0x10, state, Event::Byte(byte));
        assert_eq!(answer, Answer::Nothing);
        next
    }

    // Byte by byte

    #[test]
    fn states_of_a_command() {
        let (destination, source, length) = (0x10, 0x00, 3);
        let part = |stored, check| State::Data {
            destination,
            source,
            length,
            stored,
            check,
        };
        let expected = [
            State::Destination,
            State::Source {
                destination,
                check: 0xFE74,
            },
            State::Length {
                destination,
                source,
                check: 0x7AD1,
            },
            part(0, 0x3EBE),
            part(1, 0x79BC),
            part(2, 0x439F),
            part(3, 0xF786),
            State::LowCheck {
                destination,
                source,
                length,
                check: 0xF786,
                high: 0xF7,
            },
        ];
        let mut receiver = Receiver::new(0x10, 3);
        for (&byte, state) in COMMAND.iter().zip(expected) {
            receiver.silent(&[byte]);
            assert_eq!(receiver.state, state);
        }
        assert_eq!(receiver.last(&[0x86]), COMMAND_TAKEN);
        assert_eq!(receiver.out, [0x01, 0x01, 0x01]);
    }

    #[test]
    fn states_of_a_token() {
        let mut receiver = Receiver::new(0x01, 0);
        receiver.silent(&TOKEN[..4]);
        assert_eq!(
            receiver.state,
            State::Data {
                destination: 0x01,
                source: 0x00,
                length: 0,
                stored: 0,
                check: 0x7A8E,
            }
        );
        receiver.silent(&[0x7A]);
        assert_eq!(receiver.last(&[0x8E]), Answer::Token { source: 0x00 });
    }

    #[test]
    fn states_of_a_telegram_for_another() {
        let mut receiver = Receiver::new(0x11, 253);
        let expected = [
            State::Destination,
            State::OtherSource,
            State::OtherLength,
            State::Dropping { left: 5 },
            State::Dropping { left: 4 },
            State::Dropping { left: 3 },
            State::Dropping { left: 2 },
            State::Dropping { left: 1 },
            State::Rest,
        ];
        for (&byte, state) in COMMAND.iter().zip(expected) {
            receiver.silent(&[byte]);
            assert_eq!(receiver.state, state);
        }
        assert_eq!(receiver.store, [OLD; 253]);
    }

    #[test]
    fn rest_waits_for_55() {
        for byte in every_byte() {
            let expected = if byte == 0x55 {
                State::Destination
            } else {
                State::Rest
            };
            assert_eq!(after(State::Rest, byte), expected);
        }
    }

    #[test]
    fn destination_decides_whose_the_telegram_is() {
        for own in 0..=0xFE {
            for byte in every_byte() {
                let expected = if byte == own {
                    State::Source {
                        destination: own,
                        check: check(0xFFFF, &[0x55, own]),
                    }
                } else {
                    State::OtherSource
                };
                assert_eq!(
                    step(own, State::Destination, Event::Byte(byte)),
                    (Answer::Nothing, expected)
                );
            }
        }
    }

    #[test]
    fn every_source_is_taken_at_first() {
        let state = State::Source {
            destination: 0x10,
            check: 0xFE74,
        };
        for byte in every_byte() {
            assert_eq!(
                after(state, byte),
                State::Length {
                    destination: 0x10,
                    source: byte,
                    check: check(0xFE74, &[byte]),
                }
            );
            assert_eq!(after(State::OtherSource, byte), State::OtherLength);
        }
    }

    #[test]
    fn length_for_us() {
        for (destination, source) in [(0x10, 0x00), (0x01, 0x00), (0x10, 0xFF)] {
            let state = State::Length {
                destination,
                source,
                check: 0x7AD1,
            };
            for byte in 0..=253 {
                assert_eq!(
                    after(state, byte),
                    State::Data {
                        destination,
                        source,
                        length: usize::from(byte),
                        stored: 0,
                        check: check(0x7AD1, &[byte]),
                    }
                );
            }
            for byte in [254, 255] {
                assert_eq!(
                    step(0x10, state, Event::Byte(byte)),
                    (Answer::Refused(7), State::Rest)
                );
            }
        }
    }

    #[test]
    fn length_for_another() {
        for byte in every_byte() {
            assert_eq!(
                after(State::OtherLength, byte),
                State::Dropping {
                    left: usize::from(byte) + 2
                }
            );
        }
    }

    #[test]
    fn data_byte_goes_to_its_place() {
        for length in [1, 2, 3, 100, 252, 253] {
            for stored in 0..length {
                for byte in [0x00, 0x55, 0xFF] {
                    let mut store = [OLD; 253];
                    let (answer, next) = receive(
                        0x10,
                        data(length, stored),
                        &mut store,
                        Event::Byte(byte),
                        &mut [],
                    );
                    assert_eq!(answer, Answer::Nothing);
                    assert_eq!(
                        next,
                        State::Data {
                            destination: 0x10,
                            source: 0x00,
                            length,
                            stored: stored + 1,
                            check: check(0x1234, &[byte]),
                        }
                    );
                    let mut expected = [OLD; 253];
                    expected[stored] = byte;
                    assert_eq!(store, expected);
                }
            }
        }
    }

    #[test]
    fn high_check_byte_alone_decides_nothing() {
        for length in [0, 1, 3, 253] {
            for byte in every_byte() {
                assert_eq!(
                    after(data(length, length), byte),
                    State::LowCheck {
                        destination: 0x10,
                        source: 0x00,
                        length,
                        check: 0x1234,
                        high: byte,
                    }
                );
            }
        }
    }

    #[test]
    fn both_check_bytes_have_to_be_right() {
        for high in every_byte() {
            for low in every_byte() {
                let mut receiver = Receiver::new(0x10, 3);
                receiver.silent(&COMMAND[..7]);
                let expected = if (high, low) == (0xF7, 0x86) {
                    COMMAND_TAKEN
                } else {
                    Answer::Refused(15)
                };
                assert_eq!(receiver.last(&[high, low]), expected);
            }
        }
    }

    #[test]
    fn dropping_counts_down_whatever_comes() {
        for byte in every_byte() {
            for left in 2..=257 {
                assert_eq!(
                    after(State::Dropping { left }, byte),
                    State::Dropping { left: left - 1 }
                );
            }
            assert_eq!(after(State::Dropping { left: 1 }, byte), State::Rest);
        }
    }

    #[test]
    fn nothing_left_to_drop_counts_as_one_left() {
        for byte in every_byte() {
            assert_eq!(after(State::Dropping { left: 0 }, byte), State::Rest);
        }
    }

    #[test]
    fn timer_starts_again() {
        for state in good_states() {
            assert_eq!(
                step(0x10, state, Event::Timer),
                (Answer::Nothing, State::Rest)
            );
        }
    }

    // Refusals and their order

    #[test]
    fn bad_state_is_refused_first_and_kept() {
        for state in bad_states() {
            for own in [0x00, 0x10, 0xFF] {
                for event in every_event() {
                    assert_eq!(step(own, state, event), (Answer::Refused(1), state));
                }
            }
        }
    }

    #[test]
    fn store_of_another_length_is_refused_first() {
        for length in [0, 1, 252, 254, 256, 1000] {
            for state in good_states().into_iter().chain(bad_states()) {
                for own in [0x10, 0xFF] {
                    for event in [Event::Byte(0x55), Event::Byte(0x34), Event::Timer] {
                        let mut store = vec![OLD; length];
                        let mut out = [FILL; 253];
                        assert_eq!(
                            receive(own, state, &mut store, event, &mut out),
                            (Answer::Refused(1), state)
                        );
                        assert!(store.iter().all(|&b| b == OLD));
                        assert_eq!(out, [FILL; 253]);
                    }
                }
            }
        }
    }

    #[test]
    fn good_states_are_not_refused_with_1() {
        for state in good_states() {
            for event in every_event() {
                let mut receiver = Receiver::new(0x10, 253);
                receiver.state = state;
                assert_ne!(receiver.event(event), Answer::Refused(1));
            }
        }
    }

    #[test]
    fn own_address_ff_is_refused_at_every_call() {
        for state in good_states() {
            for event in every_event() {
                assert_eq!(step(0xFF, state, event), (Answer::Refused(16), State::Rest));
            }
        }
    }

    #[test]
    fn own_address_ff_loses_a_telegram() {
        let mut receiver = Receiver::new(0x10, 3);
        receiver.silent(&COMMAND[..8]);
        receiver.own = 0xFF;
        assert_eq!(receiver.event(Event::Byte(0x86)), Answer::Refused(16));
        receiver.own = 0x10;
        receiver.silent(&[0x86]);
        assert_eq!(receiver.state, State::Rest);
        assert_eq!(receiver.out, [FILL; 3]);
    }

    #[test]
    fn too_long_for_us_is_refused_at_once() {
        for length in [254, 255] {
            let mut receiver = Receiver::new(0x10, 253);
            assert_eq!(
                receiver.last(&[0x55, 0x10, 0x00, length]),
                Answer::Refused(7)
            );
            // What comes next is no longer a part of it.
            assert_eq!(receiver.last(&COMMAND), COMMAND_TAKEN);
        }
    }

    #[test]
    fn too_long_for_us_comes_before_its_source() {
        let mut receiver = Receiver::new(0x10, 0);
        assert_eq!(receiver.last(&[0x55, 0x10, 0xFF, 254]), Answer::Refused(7));
    }

    #[test]
    fn source_ff_is_refused() {
        for length in [1, 3, 253] {
            let telegram = checked(0x10, 0xFF, &vec![1; length]);
            assert_eq!(
                Receiver::new(0x10, 253).last(&telegram),
                Answer::Refused(16)
            );
        }
    }

    #[test]
    fn all_other_sources_are_taken() {
        for own in [0x00, 0x0F, 0x10, 0x55, 0xFE] {
            for source in 0..=0xFE {
                let telegram = checked(own, source, &[7]);
                assert_eq!(
                    Receiver::new(own, 1).last(&telegram),
                    Answer::Telegram { source, length: 1 }
                );
            }
        }
    }

    #[test]
    fn token_is_taken_between_masters_only() {
        for own in 0..=0xFE {
            for source in every_byte() {
                let expected = if own <= 0x0F && source <= 0x0F {
                    Answer::Token { source }
                } else {
                    Answer::Refused(16)
                };
                let telegram = checked(own, source, &[]);
                assert_eq!(Receiver::new(own, 0).last(&telegram), expected);
                assert_eq!(Receiver::new(own, 5).last(&telegram), expected);
            }
        }
    }

    #[test]
    fn token_is_judged_by_the_destination_kept() {
        for later in [0x02, 0x0F, 0x10, 0xFE] {
            for before in 2..=5 {
                let mut receiver = Receiver::new(0x01, 0);
                receiver.silent(&TOKEN[..before]);
                receiver.own = later;
                assert_eq!(
                    receiver.last(&TOKEN[before..]),
                    Answer::Token { source: 0x00 }
                );
            }
        }
        let to_slave = checked(0x10, 0x00, &[]);
        for before in 2..=5 {
            let mut receiver = Receiver::new(0x10, 0);
            receiver.silent(&to_slave[..before]);
            receiver.own = 0x01;
            assert_eq!(receiver.last(&to_slave[before..]), Answer::Refused(16));
        }
    }

    #[test]
    fn kept_destination_ff_matters_to_a_token_only() {
        assert_eq!(
            step(0x10, low_check(0xFF, 0x00, 0), Event::Byte(0x34)),
            (Answer::Refused(16), State::Rest)
        );
        let mut receiver = Receiver::new(0x10, 2);
        receiver.state = low_check(0xFF, 0x00, 2);
        assert_eq!(
            receiver.last(&[0x34]),
            Answer::Telegram {
                source: 0x00,
                length: 2
            }
        );
    }

    #[test]
    fn wrong_check_comes_before_address_and_output() {
        for (own, source, length) in [
            (0x10, 0xFF, 3),
            (0x10, 0x00, 0),
            (0x00, 0x10, 0),
            (0x00, 0xFF, 0),
            (0x10, 0x00, 3),
        ] {
            let mut telegram = checked(own, source, &vec![1; length]);
            *telegram.last_mut().expect("a check") ^= 1;
            assert_eq!(Receiver::new(own, 0).last(&telegram), Answer::Refused(15));
        }
    }

    #[test]
    fn address_comes_before_output() {
        let telegram = checked(0x10, 0xFF, &[1, 2, 3]);
        for room in 0..5 {
            assert_eq!(
                Receiver::new(0x10, room).last(&telegram),
                Answer::Refused(16)
            );
        }
    }

    #[test]
    fn output_lengths() {
        for length in [1, 2, 3, 252, 253] {
            let data: Vec<u8> = (1..=length).collect();
            let telegram = checked(0x10, 0x00, &data);
            let length = usize::from(length);
            for room in 0..length {
                let mut receiver = Receiver::new(0x10, room);
                assert_eq!(receiver.last(&telegram), Answer::Refused(11));
                assert!(receiver.out.iter().all(|&b| b == FILL));
                assert_eq!(receiver.store[..length], data);
            }
            for spare in [0, 1, 5, 300] {
                let mut receiver = Receiver::new(0x10, length + spare);
                assert_eq!(
                    receiver.last(&telegram),
                    Answer::Telegram {
                        source: 0x00,
                        length
                    }
                );
                assert_eq!(receiver.out[..length], data);
                assert!(receiver.out[length..].iter().all(|&b| b == FILL));
            }
        }
    }

    #[test]
    fn what_holds_of_every_event() {
        for state in good_states().into_iter().chain(bad_states()) {
            for own in [0x00, 0x01, 0x10, 0x55, 0xFE, 0xFF] {
                for room in [0, 1, 3, 252, 253, 300] {
                    for event in every_event() {
                        let mut store: Vec<u8> = (0..253).map(|place| place ^ 0x5A).collect();
                        let lent = store.clone();
                        let mut out = vec![FILL; room];
                        let (answer, next) = receive(own, state, &mut store, event, &mut out);

                        let count = match state {
                            State::Data { stored, .. } => Some(stored),
                            _ => None,
                        };
                        for place in 0..253 {
                            assert!(store[place] == lent[place] || Some(place) == count);
                        }
                        let mut changed = 0;
                        match answer {
                            Answer::Refused(1) => assert_eq!(next, state),
                            Answer::Refused(number) => {
                                assert!([7, 11, 15, 16].contains(&number));
                                assert_eq!(next, State::Rest);
                            }
                            Answer::Telegram { source, length } => {
                                assert_ne!(source, 0xFF);
                                assert_eq!(out[..length], lent[..length]);
                                assert_eq!(next, State::Rest);
                                changed = length;
                            }
                            Answer::Token { source } => {
                                assert!(source <= 0x0F);
                                assert_eq!(next, State::Rest);
                            }
                            Answer::Nothing => assert!(can_be(next)),
                        }
                        assert!(out[changed..].iter().all(|&b| b == FILL));
                        if answer != Answer::Nothing {
                            assert_eq!(store, lent);
                        }
                    }
                }
            }
        }
    }

    // Streams

    #[test]
    fn bytes_before_a_telegram_are_skipped() {
        let mut receiver = Receiver::new(0x10, 3);
        let junk: Vec<u8> = every_byte().filter(|&b| b != 0x55).collect();
        receiver.silent(&junk);
        assert_eq!(receiver.state, State::Rest);
        assert_eq!(receiver.last(&COMMAND), COMMAND_TAKEN);
        receiver.silent(&[0x10, 0x00, 0xFF]);
        assert_eq!(receiver.last(&COMMAND), COMMAND_TAKEN);
        assert_eq!(receiver.last(&COMMAND), COMMAND_TAKEN);
    }

    #[test]
    fn second_55_is_a_destination() {
        // For 55 from 10 without data, so the next two bytes are dropped.
        let mut receiver = Receiver::new(0x10, 3);
        receiver.silent(&[0x55, 0x55, 0x10, 0x00, 0x55, 0x10]);
        assert_eq!(receiver.state, State::Rest);
        assert_eq!(receiver.last(&COMMAND), COMMAND_TAKEN);
    }

    #[test]
    fn station_55() {
        let data = [0x55; 5];
        let telegram = checked(0x55, 0x55, &data);
        let mut receiver = Receiver::new(0x55, 5);
        assert_eq!(
            receiver.last(&telegram),
            Answer::Telegram {
                source: 0x55,
                length: 5
            }
        );
        assert_eq!(receiver.out, data);
    }

    #[test]
    fn whole_telegram_inside_another_starts_nothing() {
        let mut inner = vec![0x55; 4];
        inner.extend(COMMAND);
        inner.extend([0x55, 0x10]);
        let outer = checked(0x11, 0x00, &inner);
        let mut receiver = Receiver::new(0x10, 3);
        receiver.silent(&outer);
        assert_eq!(receiver.state, State::Rest);
        assert_eq!(receiver.store, [OLD; 253]);
        assert_eq!(receiver.last(&COMMAND), COMMAND_TAKEN);
    }

    #[test]
    fn telegram_for_another_is_dropped_by_its_length() {
        for length in every_byte() {
            for filler in [0x00, 0x10, 0x55] {
                let mut receiver = Receiver::new(0x10, 3);
                receiver.silent(&[0x55, 0x11, 0x55, length]);
                receiver.silent(&vec![filler; usize::from(length) + 1]);
                assert_eq!(receiver.state, State::Dropping { left: 1 });
                receiver.silent(&[filler]);
                assert_eq!(receiver.state, State::Rest);
                assert_eq!(receiver.last(&COMMAND), COMMAND_TAKEN);
            }
        }
    }

    #[test]
    fn faults_of_a_telegram_for_another_do_not_matter() {
        let mut receiver = Receiver::new(0x10, 3);
        let mut broken = checked(0x11, 0x00, &[1, 2, 3]);
        broken[8] ^= 0x40;
        receiver.silent(&broken);
        receiver.silent(&checked(0x11, 0xFF, &[1]));
        receiver.silent(&checked(0x11, 0x10, &[]));
        receiver.silent(&checked(0xFF, 0xFF, &[1, 2]));
        receiver.silent(&checked(0xFF, 0x00, &[]));
        assert_eq!(receiver.state, State::Rest);
        assert_eq!(receiver.last(&COMMAND), COMMAND_TAKEN);
    }

    #[test]
    fn own_address_of_a_later_call_does_not_change_whose_it_is() {
        for before in 2..=8 {
            let mut receiver = Receiver::new(0x10, 3);
            receiver.silent(&COMMAND[..before]);
            receiver.own = 0x22;
            assert_eq!(receiver.last(&COMMAND[before..]), COMMAND_TAKEN);

            let mut receiver = Receiver::new(0x22, 3);
            receiver.silent(&COMMAND[..before]);
            receiver.own = 0x10;
            receiver.silent(&COMMAND[before..]);
            assert_eq!(receiver.state, State::Rest);
        }
    }

    #[test]
    fn timer_ends_every_part_of_a_telegram() {
        for own in [0x10, 0x11] {
            for before in 0..=8 {
                let mut receiver = Receiver::new(own, 3);
                receiver.silent(&COMMAND[..before]);
                assert_eq!(receiver.event(Event::Timer), Answer::Nothing);
                assert_eq!(receiver.state, State::Rest);
                receiver.own = 0x10;
                assert_eq!(receiver.last(&COMMAND), COMMAND_TAKEN);
            }
        }
    }

    #[test]
    fn output_waits_for_the_check_and_the_store_outlives_it() {
        let mut broken = COMMAND;
        broken[4..7].copy_from_slice(&[7, 8, 9]);
        let mut receiver = Receiver::new(0x10, 4);
        assert_eq!(receiver.last(&broken), Answer::Refused(15));
        assert_eq!(receiver.out, [FILL; 4]);
        assert_eq!(receiver.store[..4], [7, 8, 9, OLD]);

        receiver.silent(&COMMAND[..5]);
        assert_eq!(receiver.event(Event::Timer), Answer::Nothing);
        assert_eq!(receiver.out, [FILL; 4]);
        assert_eq!(receiver.store[..4], [1, 8, 9, OLD]);

        assert_eq!(receiver.last(&COMMAND), COMMAND_TAKEN);
        assert_eq!(receiver.out, [1, 1, 1, FILL]);
        assert_eq!(receiver.store[..4], [1, 1, 1, OLD]);
    }

    #[test]
    fn telegram_with_one_bit_wrong_is_never_taken() {
        for place in 0..COMMAND.len() {
            for bit in 0..8 {
                let mut telegram = COMMAND;
                telegram[place] ^= 1 << bit;
                let mut receiver = Receiver::new(0x10, 253);
                for byte in telegram {
                    let answer = receiver.event(Event::Byte(byte));
                    let taken = matches!(answer, Answer::Telegram { .. } | Answer::Token { .. });
                    assert!(!taken);
                }
                assert_eq!(receiver.out, [FILL; 253]);
            }
        }
    }

    // Writing and receiving

    #[test]
    fn round_trip_of_every_length() {
        let mut random = Random(0x55);
        for length in 1..=253 {
            for _ in 0..4 {
                let data: Vec<u8> = (0..length)
                    .map(|_| random.pick(&[0x00, 0x55, 0x10, 0xFF]) ^ random.pick(&[0, 0, 0x81]))
                    .collect();
                let own = random.below(255) as u8;
                let source = random.below(255) as u8;
                let mut written = vec![FILL; length + 6];
                assert_eq!(write(own, source, &data, &mut written), Ok(length + 6));
                let mut receiver = Receiver::new(own, length);
                assert_eq!(receiver.last(&written), Answer::Telegram { source, length });
                assert_eq!(receiver.out, data);
            }
        }
    }

    #[test]
    fn round_trip_of_every_token() {
        for own in 0..=0x0F {
            for source in 0..=0x0F {
                let mut written = [FILL; 6];
                assert_eq!(write(own, source, &[], &mut written), Ok(6));
                let mut receiver = Receiver::new(own, 0);
                assert_eq!(receiver.last(&written), Answer::Token { source });
            }
        }
    }

    /// All answers but silence that a stream gets, each with the number of bytes up to it and
    /// the data given out, found by cutting the stream into telegrams.
    fn cut(own: u8, stream: &[u8], room: usize) -> Vec<(usize, Answer, Vec<u8>)> {
        let mut answers = Vec::new();
        let mut at = 0;
        while let Some(skipped) = stream[at..].iter().position(|&b| b == 0x55) {
            let begin = at + skipped;
            let Some(&[_, destination, source, length]) = stream.get(begin..begin + 4) else {
                break;
            };
            let ours = destination == own;
            if ours && length > 253 {
                at = begin + 4;
                answers.push((at, Answer::Refused(7), vec![]));
                continue;
            }
            let length = usize::from(length);
            let Some(telegram) = stream.get(begin..begin + length + 6) else {
                break;
            };
            at = begin + length + 6;
            if !ours {
                continue;
            }
            let (answer, data) = if check(0xFFFF, telegram) != 0 {
                (Answer::Refused(15), &[][..])
            } else if source == 0xFF || (length == 0 && (own > 0x0F || source > 0x0F)) {
                (Answer::Refused(16), &[][..])
            } else if length == 0 {
                (Answer::Token { source }, &[][..])
            } else if length > room {
                (Answer::Refused(11), &[][..])
            } else {
                (
                    Answer::Telegram { source, length },
                    &telegram[4..4 + length],
                )
            };
            answers.push((at, answer, data.to_vec()));
        }
        answers
    }

    /// A few bytes of a bus: a telegram, good or not, or just bytes.
    fn piece(own: u8, random: &mut Random) -> Vec<u8> {
        let destination = random.pick(&[own, own, own, 0x02, 0x11, 0x55, 0xFE, 0xFF]);
        let source = random.pick(&[0x00, 0x01, 0x0F, 0x10, 0x55, 0xFE, 0xFF]);
        let bytes = [0x00, 0x01, 0x03, 0x10, 0x55, 0xFD, 0xFE, 0xFF];
        let length = random.pick(&[0, 0, 1, 2, 3, 3, 4, 8, 9, 60, 253, 254, 255]);
        let data: Vec<u8> = (0..length).map(|_| random.pick(&bytes)).collect();
        let mut piece = checked(destination, source, &data);
        match random.below(10) {
            0 => {
                let place = random.below(piece.len());
                piece[place] ^= 1 << random.below(8);
            }
            1 => piece.truncate(random.below(piece.len())),
            2 => piece = (0..random.below(6)).map(|_| random.pick(&bytes)).collect(),
            _ => {}
        }
        piece
    }

    #[test]
    fn streams_are_cut_into_their_telegrams() {
        let mut random = Random(0x0485);
        let mut seen = Vec::new();
        for _ in 0..3000 {
            let own = random.pick(&[0x00, 0x01, 0x0F, 0x10, 0x55]);
            let room = random.pick(&[0, 2, 8, 60, 253]);
            let stream: Vec<u8> = (0..20).flat_map(|_| piece(own, &mut random)).collect();

            let mut receiver = Receiver::new(own, room);
            let mut answers = Vec::new();
            for (place, &byte) in stream.iter().enumerate() {
                receiver.out.fill(FILL);
                let answer = receiver.event(Event::Byte(byte));
                let given = match answer {
                    Answer::Telegram { length, .. } => length,
                    _ => 0,
                };
                assert!(receiver.out[given..].iter().all(|&b| b == FILL));
                if answer != Answer::Nothing {
                    answers.push((place + 1, answer, receiver.out[..given].to_vec()));
                    seen.push(answer);
                }
            }
            assert_eq!(answers, cut(own, &stream, room));
        }
        // None of the answers is missing in the streams.
        let count = |wanted: &dyn Fn(&Answer) -> bool| seen.iter().filter(|&a| wanted(a)).count();
        assert!(count(&|a| matches!(a, Answer::Telegram { .. })) > 100);
        assert!(count(&|a| matches!(a, Answer::Token { .. })) > 100);
        for number in [7, 11, 15, 16] {
            assert!(count(&|&a| a == Answer::Refused(number)) > 100);
        }
    }
}
