//! The gate bus: telegrams, operating commands, and answers.

use hanraquin::Event;
use hanraquin::gate::{
    ACTIVATE, ANSWER_MAX, Answer, BA, COMMAND_LENGTH, Commands, DATA_MAX, DEACTIVATE, PULSE,
    REGISTERS, Received, Receiver, Refusal, START, TELEGRAM_MAX, Verdict, read_answer, write,
    write_answer, write_command,
};

/// The telegram with this data, which must not be refused.
fn written(destination: u8, source: u8, data: &[u8]) -> Vec<u8> {
    let mut out = [0; TELEGRAM_MAX];
    let telegram = write(destination, source, data, &mut out);
    telegram.expect("written").to_vec()
}

/// Any bytes, and the check of them.
fn checked(bytes: &[u8]) -> Vec<u8> {
    let mut check = 0xFFFF_u16;
    for &byte in bytes {
        check ^= u16::from(byte) << 8;
        for _ in 0..8 {
            let polynomial = if check & 0x8000 == 0 { 0 } else { 0x1021 };
            check = check << 1 ^ polynomial;
        }
    }
    [bytes, &check.to_be_bytes()].concat()
}

/// Feeds bytes that must be answered by nothing, and leave the output alone.
fn feed(receiver: &mut Receiver, bytes: &[u8]) {
    for &byte in bytes {
        let mut out = [0xA5; 2];
        let received = receiver.event(Event::Byte(byte), &mut out);
        assert_eq!(received, Ok(Received::Nothing), "{byte:02X}");
        assert_eq!(out, [0xA5; 2]);
    }
}

/// Feeds bytes of which all but the last must be answered by nothing, and gives what comes of the
/// last.
fn heard<'a>(
    receiver: &mut Receiver,
    bytes: &[u8],
    out: &'a mut [u8],
) -> Result<Received<'a>, Refusal> {
    let (last, before) = bytes.split_last().expect("a byte");
    feed(receiver, before);
    receiver.event(Event::Byte(*last), out)
}

#[test]
fn telegrams_of_the_rules() {
    assert_eq!(
        written(0x10, 0x00, &[0x01, 0x01, 0x01]),
        [0x55, 0x10, 0x00, 0x03, 0x01, 0x01, 0x01, 0xF7, 0x86]
    );
    let token = [0x55, 0x01, 0x00, 0x00, 0x7A, 0x8E];
    assert_eq!(written(0x01, 0x00, &[]), token);
    assert_eq!(checked(b"123456789")[9..], [0x29, 0xB1]);
    // To itself, and from slave to slave.
    for (destination, source) in [(0x10, 0x10), (0xFE, 0x10), (0x00, 0xFE)] {
        let telegram = checked(&[0x55, destination, source, 0x01, 0x55]);
        assert_eq!(written(destination, source, &[0x55]), telegram);
    }
}

#[test]
fn write_limits() {
    let mut out = [0xA5; TELEGRAM_MAX + 1];
    let (full, long) = ([0x55; DATA_MAX], [0x55; DATA_MAX + 1]);
    assert_eq!(write(0x10, 0x00, &long, &mut out), Err(Refusal::Length));
    assert_eq!(write(0x10, 0x00, &long, &mut []), Err(Refusal::Length));
    let short = &mut out[..TELEGRAM_MAX - 1];
    assert_eq!(write(0x10, 0x00, &full, short), Err(Refusal::OutputShort));
    for (destination, source) in [(0xFF, 0x00), (0x10, 0xFF), (0xFF, 0xFF)] {
        for data in [&[][..], &[0x01], &long] {
            let answer = write(destination, source, data, &mut []);
            assert_eq!(answer, Err(Refusal::Address));
        }
    }
    for (destination, source) in [(0x10, 0x00), (0x00, 0x10), (0xFE, 0xFE)] {
        assert_eq!(
            write(destination, source, &[], &mut out),
            Err(Refusal::Address)
        );
    }
    assert_eq!(write(0x0F, 0x0F, &[], &mut []), Err(Refusal::OutputShort));
    assert_eq!(out, [0xA5; TELEGRAM_MAX + 1]);

    let telegram = write(0x10, 0x00, &full, &mut out).expect("written");
    assert_eq!(telegram.len(), TELEGRAM_MAX);
    assert_eq!(out[TELEGRAM_MAX], 0xA5);
}

#[test]
fn telegrams_are_read_back() {
    let mixed: Vec<u8> = (0..=255).cycle().skip(7).take(DATA_MAX).collect();
    for (destination, source) in [(0x00, 0x10), (0x10, 0x00), (0x55, 0x55), (0xFE, 0xFE)] {
        for data in [&[0x00][..], &[START], &[START; 3], &mixed] {
            let telegram = written(destination, source, data);
            let (mut receiver, mut out) = (Receiver::new(destination), [0xA5; DATA_MAX + 1]);
            match heard(&mut receiver, &telegram, &mut out) {
                Ok(Received::Telegram {
                    source: from,
                    data: came,
                }) => assert_eq!((from, &*came), (source, data)),
                other => panic!("{other:?}"),
            }
            assert_eq!(receiver.state(), [0; 7]);
            assert_eq!(receiver.store()[..data.len()], *data);
            assert!(out[data.len()..].iter().all(|&byte| byte == 0xA5));
        }
    }
}

#[test]
fn tokens_need_no_output() {
    for (destination, source) in [(0x00, 0x00), (0x01, 0x0F), (0x0F, 0x01)] {
        let mut receiver = Receiver::new(destination);
        let token = written(destination, source, &[]);
        let received = heard(&mut receiver, &token, &mut []);
        assert_eq!(received, Ok(Received::Token { source }));
        assert!(receiver.is_at_rest());
    }
}

#[test]
fn wrong_checks() {
    let telegram = written(0x10, 0x00, &[0x01, 0x01, 0x01]);
    // Every bit behind the destination, but for those of the length.
    for place in [2, 4, 5, 6, 7, 8] {
        for bit in 0..8 {
            let mut damaged = telegram.clone();
            damaged[place] ^= 1 << bit;
            let (mut receiver, mut out) = (Receiver::new(0x10), [0xA5; DATA_MAX]);
            // The high check byte alone decides nothing.
            let received = heard(&mut receiver, &damaged, &mut out);
            assert_eq!(received, Err(Refusal::Check), "{damaged:02X?}");
            assert_eq!((receiver.state(), out), ([0; 7], [0xA5; DATA_MAX]));
            // And the next telegram is taken.
            let received = heard(&mut receiver, &telegram, &mut out);
            assert!(matches!(received, Ok(Received::Telegram { .. })));
        }
    }
    // The low byte of the check first.
    let mut swapped = telegram;
    swapped.swap(7, 8);
    let received = heard(&mut Receiver::new(0x10), &swapped, &mut []);
    assert_eq!(received, Err(Refusal::Check));
}

#[test]
fn order_at_the_last_byte() {
    let mut receiver = Receiver::new(0x10);
    let mut judged = |bytes: &[u8]| heard(&mut receiver, bytes, &mut []).map(drop);
    // From FF, with data that the output does not hold.
    let telegram = checked(&[0x55, 0x10, 0xFF, 0x01, 0x00]);
    assert_eq!(judged(&telegram), Err(Refusal::Address));
    let (last, before) = telegram.split_last().expect("a byte");
    let damaged = [before, &[last ^ 1]].concat();
    assert_eq!(judged(&damaged), Err(Refusal::Check));
    // Tokens to a slave.
    for source in [0x00, 0x0F, 0x10, 0xFE, 0xFF] {
        let token = checked(&[0x55, 0x10, source, 0x00]);
        assert_eq!(judged(&token), Err(Refusal::Address));
    }
    let telegram = written(0x10, 0x00, &[0x00]);
    assert_eq!(judged(&telegram), Err(Refusal::OutputShort));

    // Tokens to a master from a slave.
    let mut master = Receiver::new(0x0F);
    for source in 0x10..=0xFF {
        let token = checked(&[0x55, 0x0F, source, 0x00]);
        let received = heard(&mut master, &token, &mut []);
        assert_eq!(received, Err(Refusal::Address));
        assert!(master.is_at_rest());
    }
}

#[test]
fn outputs_that_are_too_short() {
    let data = [0x11, 0x22, 0x33];
    let telegram = written(0x10, 0x00, &data);
    let (mut receiver, mut out) = (Receiver::new(0x10), [0xA5; 3]);
    let received = heard(&mut receiver, &telegram, &mut out[..2]);
    assert_eq!(received, Err(Refusal::OutputShort));
    assert_eq!((receiver.state(), out), ([0; 7], [0xA5; 3]));
    // The store is not cleared.
    assert_eq!(receiver.store()[..3], data);
    match heard(&mut receiver, &telegram, &mut out) {
        Ok(Received::Telegram { source: 0, data }) => assert_eq!(data, [0x11, 0x22, 0x33]),
        other => panic!("{other:?}"),
    }
}

#[test]
fn bytes_before_a_start_byte_are_skipped() {
    let mut receiver = Receiver::new(0x55);
    for byte in (0..=255).filter(|&byte| byte != START) {
        feed(&mut receiver, &[byte]);
        assert_eq!(receiver.state(), [0; 7]);
    }
    // Behind the start byte even 55 is a destination.
    let mut out = [0];
    let received = heard(&mut receiver, &written(0x55, 0x02, &[0x07]), &mut out);
    assert!(matches!(received, Ok(Received::Telegram { source: 2, .. })));
    let mut other = Receiver::new(0x10);
    feed(&mut other, &[START, START, 0x10, 0x00, 0x00]);
    assert_eq!(other.state(), [8, 0, 0, 0, 1, 0, 0]);
}

#[test]
fn telegrams_for_others_are_dropped() {
    let (mut receiver, mut out) = (Receiver::new(0x10), [0xA5; DATA_MAX]);
    let mine = written(0x10, 0x00, &[0x01, 0x01, 0x01]);
    for destination in [0x00, 0x0F, 0x11, 0x55, 0xFE, 0xFF] {
        for length in 0..=255 {
            for source in [START, 0xFF] {
                // With start bytes as data, and a wrong check.
                let mut other = vec![START, destination, source, length];
                other.resize(4 + usize::from(length) + 1, START);
                feed(&mut receiver, &other);
                assert_eq!(receiver.state(), [8, 0, 0, 0, 1, 0, 0]);
                feed(&mut receiver, &[START]);
                assert_eq!(receiver.state(), [0; 7]);
            }
        }
        let received = heard(&mut receiver, &mine, &mut out);
        assert!(matches!(received, Ok(Received::Telegram { source: 0, .. })));
    }
}

#[test]
fn long_telegrams_are_refused_at_the_length() {
    for length in [254, 255] {
        let (mut receiver, mut out) = (Receiver::new(0x10), [0xA5; 300]);
        let received = heard(&mut receiver, &[START, 0x10, 0x00, length], &mut out);
        assert_eq!(received, Err(Refusal::Length));
        assert_eq!((receiver.state(), out), ([0; 7], [0xA5; 300]));
    }
}

#[test]
fn timer_starts_again() {
    let telegram = written(0x10, 0x00, &[0x01, 0x01]);
    let other = written(0x11, 0x00, &[0x01, 0x01]);
    for bytes in [telegram, other] {
        for count in 0..bytes.len() {
            let mut receiver = Receiver::new(0x10);
            feed(&mut receiver, &bytes[..count]);
            assert_eq!(receiver.is_at_rest(), count == 0);
            let received = receiver.event(Event::Timer, &mut []);
            assert_eq!(received, Ok(Received::Nothing));
            assert_eq!(receiver.state(), [0; 7]);
        }
    }
}

#[test]
fn words_of_the_state() {
    let mut receiver = Receiver::new(0x10);
    // The running check over 55 10 00 03 01 01 01, byte by byte.
    let check = |count: usize| {
        let telegram = [0x55, 0x10, 0x00, 0x03, 0x01, 0x01, 0x01];
        match checked(&telegram[..count])[count..] {
            [high, low] => u64::from(u16::from_be_bytes([high, low])),
            _ => unreachable!("two bytes"),
        }
    };
    for (byte, state) in [
        (0x55, [1, 0, 0, 0, 0, 0, 0]),
        (0x10, [2, 0x10, 0, 0, 0, check(2), 0]),
        (0x00, [3, 0x10, 0, 0, 0, check(3), 0]),
        (0x03, [4, 0x10, 0, 3, 0, check(4), 0]),
        (0x01, [4, 0x10, 0, 3, 1, check(5), 0]),
        (0x01, [4, 0x10, 0, 3, 2, check(6), 0]),
        (0x01, [4, 0x10, 0, 3, 3, 0xF786, 0]),
        (0xAB, [5, 0x10, 0, 3, 0, 0xF786, 0xAB]),
    ] {
        feed(&mut receiver, &[byte]);
        assert_eq!(receiver.state(), state);
    }
    let mut other = Receiver::new(0x11);
    for (byte, state) in [
        (0x55, [1, 0, 0, 0, 0, 0, 0]),
        (0x10, [6, 0, 0, 0, 0, 0, 0]),
        (0x00, [7, 0, 0, 0, 0, 0, 0]),
        (0xFF, [8, 0, 0, 0, 257, 0, 0]),
        (0x55, [8, 0, 0, 0, 256, 0, 0]),
    ] {
        feed(&mut other, &[byte]);
        assert_eq!(other.state(), state);
    }
}

#[test]
fn address_ff_is_refused_at_every_event() {
    let states = [
        [0; 7],
        [1, 0, 0, 0, 0, 0, 0],
        [4, 0x10, 0, 3, 1, 0, 0],
        [8, 0, 0, 0, 257, 0, 0],
    ];
    for state in states {
        for event in [Event::Byte(START), Event::Byte(0), Event::Timer] {
            let mut receiver = Receiver::from_state(0xFF, state, [0xA5; DATA_MAX]);
            let received = receiver.event(event, &mut []);
            assert_eq!(received, Err(Refusal::Address));
            assert_eq!(
                receiver,
                Receiver::from_state(0xFF, [0; 7], [0xA5; DATA_MAX])
            );
        }
    }
}

#[test]
fn tokens_are_judged_by_their_own_destination() {
    // Tokens that wait for their low check byte, at a receiver that is now 01.
    let token = |destination| [5, destination, 0x00, 0, 0, 0x1234, 0x12];
    for (destination, expected) in [
        (0x01, Ok(Received::Token { source: 0x00 })),
        (0x0F, Ok(Received::Token { source: 0x00 })),
        (0x10, Err(Refusal::Address)),
    ] {
        let mut receiver = Receiver::from_state(0x01, token(destination), [0; DATA_MAX]);
        let received = receiver.event(Event::Byte(0x34), &mut []);
        assert_eq!(received, expected);
    }
}

#[test]
fn states_that_cannot_be() {
    for state in [
        [9, 0, 0, 0, 0, 0, 0],
        [0, 0, 0, 0, 0, 0, 1],
        [2, 256, 0, 0, 0, 0, 0],
        [4, 0x10, 0, 254, 0, 0, 0],
        [4, 0x10, 0, 3, 4, 0, 0],
        [5, 0x10, 0, 3, 3, 0, 0],
        [8, 0, 0, 0, 258, 0, 0],
    ] {
        for own in [0x10, 0xFF] {
            let before = Receiver::from_state(own, state, [0xA5; DATA_MAX]);
            let (mut receiver, mut out) = (before.clone(), [0xA5; 4]);
            for event in [Event::Byte(START), Event::Timer] {
                let received = receiver.event(event, &mut out);
                assert_eq!(received, Err(Refusal::Setup));
                assert_eq!((&receiver, out), (&before, [0xA5; 4]));
            }
        }
    }
}

#[test]
fn levels_and_edges() {
    // Level before, function, level after, and whether an edge is set.
    let table = [
        (false, PULSE, false, true),
        (false, ACTIVATE, true, true),
        (false, DEACTIVATE, false, false),
        (true, PULSE, true, false),
        (true, ACTIVATE, true, false),
        (true, DEACTIVATE, false, false),
    ];
    for (before, function, after, set) in table {
        for command in 0..REGISTERS {
            for edge in [false, true] {
                for others in [false, true] {
                    let mut commands = Commands {
                        levels: [others; REGISTERS],
                        edges: [others; REGISTERS],
                    };
                    commands.levels[command] = before;
                    commands.edges[command] = edge;
                    let mut expected = commands;
                    expected.levels[command] = after;
                    expected.edges[command] = edge || set;

                    let data = [0x01, command as u8, function];
                    assert_eq!(commands.operate(&data), Ok(Verdict::Ack));
                    assert_eq!(commands, expected);
                }
            }
        }
    }
}

#[test]
fn unknown_commands_and_functions() {
    let before = Commands {
        levels: [
            false, true, false, true, false, true, false, true, false, true,
        ],
        edges: [
            true, true, false, false, true, true, false, false, true, true,
        ],
    };
    for command in 0..=255 {
        for function in 0..=255 {
            let known = command <= 9 && function <= 2;
            let mut commands = before;
            let verdict = commands.operate(&[0x01, command, function]);
            if known {
                assert_eq!(verdict, Ok(Verdict::Ack));
            } else {
                assert_eq!(verdict, Ok(Verdict::Nak));
                assert_eq!(commands, before);
            }
        }
    }
}

#[test]
fn data_that_is_no_command() {
    let mut commands = Commands::new();
    for first in 0..=255 {
        for length in [0, 1, 2, 4, 253] {
            let verdict = commands.operate(&vec![first; length]);
            assert_eq!(verdict, Err(Refusal::Length));
        }
        if first != 0x01 {
            let verdict = commands.operate(&[first, BA, ACTIVATE]);
            assert_eq!(verdict, Err(Refusal::Kind));
        }
    }
    assert_eq!(commands, Commands::new());
}

#[test]
fn commands_are_written_as_they_are_given() {
    for command in [0x00, 0x09, 0x0A, 0xFF] {
        for function in [0x00, 0x02, 0x03, 0xFF] {
            let mut out = [0xA5; COMMAND_LENGTH + 1];
            let written = write_command(command, function, &mut out);
            assert_eq!(written.expect("written"), [0x01, command, function]);
            assert_eq!(out[COMMAND_LENGTH], 0xA5);
        }
    }
    let mut short = [0xA5; COMMAND_LENGTH - 1];
    assert_eq!(
        write_command(BA, ACTIVATE, &mut short),
        Err(Refusal::OutputShort)
    );
    assert_eq!(short, [0xA5; COMMAND_LENGTH - 1]);
}

#[test]
fn answers_are_read_back() {
    let counts = [0, 1, -1, 100, 0x1234_5678, i32::MIN, i32::MAX];
    let plain = [Answer::Ack, Answer::Nak, Answer::Busy, Answer::Syn];
    let answers = (plain.into_iter())
        .chain(counts.map(Answer::Count))
        .chain((-1..=100).map(Answer::Position));
    for answer in answers {
        let mut out = [0xA5; ANSWER_MAX + 1];
        let data = write_answer(answer, &mut out).expect("written").to_vec();
        assert_eq!(read_answer(&data), Ok(answer));
        assert!(out[data.len()..].iter().all(|&byte| byte == 0xA5));

        let mut short = vec![0xA5; data.len() - 1];
        assert_eq!(write_answer(answer, &mut short), Err(Refusal::OutputShort));
        assert!(short.iter().all(|&byte| byte == 0xA5));
    }
}

#[test]
fn answers_of_the_rules() {
    for (answer, data) in [
        (Answer::Ack, &[0x01][..]),
        (Answer::Nak, &[0x02]),
        (Answer::Busy, &[0x03]),
        (Answer::Syn, &[0x04]),
        (Answer::Count(0x1234_5678), &[0x1C, 0x78, 0x56, 0x34, 0x12]),
        (Answer::Count(-1), &[0x1C, 0xFF, 0xFF, 0xFF, 0xFF]),
        (Answer::Count(i32::MIN), &[0x1C, 0x00, 0x00, 0x00, 0x80]),
        (Answer::Position(0), &[0x1D, 0x00]),
        (Answer::Position(100), &[0x1D, 0x64]),
        (Answer::Position(-1), &[0x1D, 0xFF]),
    ] {
        assert_eq!(read_answer(data), Ok(answer));
        let mut out = [0; ANSWER_MAX];
        assert_eq!(write_answer(answer, &mut out).expect("written"), data);
    }
}

#[test]
fn positions_out_of_range() {
    for position in i8::MIN..=i8::MAX {
        let good = (-1..=100).contains(&position);
        // Before an output that is too short.
        let refusal = if good {
            Refusal::OutputShort
        } else {
            Refusal::Position
        };
        assert_eq!(
            write_answer(Answer::Position(position), &mut []),
            Err(refusal)
        );
        let read = read_answer(&[0x1D, position as u8]);
        if good {
            assert_eq!(read, Ok(Answer::Position(position)));
        } else {
            assert_eq!(read, Err(Refusal::Position));
        }
    }
}

#[test]
fn data_that_is_no_answer() {
    assert_eq!(read_answer(&[]), Err(Refusal::Length));
    for kind in 0..=255 {
        let expected = match kind {
            0x01..=0x04 => Some(1),
            0x1C => Some(5),
            0x1D => Some(2),
            _ => None,
        };
        for length in [1, 2, 3, 4, 5, 6, 253] {
            let mut data = vec![0x00; length];
            data[0] = kind;
            let read = read_answer(&data);
            match expected {
                None => assert_eq!(read, Err(Refusal::Kind)),
                Some(good) if good == length => assert!(read.is_ok()),
                Some(_) => assert_eq!(read, Err(Refusal::Length)),
            }
        }
    }
}
