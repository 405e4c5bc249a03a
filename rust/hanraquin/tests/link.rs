//! Frames, and the receiving half.

use hanraquin::{Answer, DATA_MAX, DLE, Event, FRAME_MAX, NAK, Receiver, Refusal, STX, frame};

/// The frame of `data`, which must not be refused.
fn framed(data: &[u8]) -> Vec<u8> {
    frame(data, &mut [0; FRAME_MAX]).expect("framed").to_vec()
}

/// Feeds bytes that must be answered by nothing.
fn feed(receiver: &mut Receiver, bytes: &[u8], buffer: &mut [u8]) {
    for &byte in bytes {
        let answer = receiver.event(Event::Byte(byte), buffer);
        assert_eq!(answer, Ok(Answer::Nothing), "{byte:02X}");
    }
}

#[test]
fn frames_of_the_rules() {
    assert_eq!(framed(&[0x60, 0x10]), [0x60, 0x10, 0x10, 0x10, 0x03, 0x73]);
    assert_eq!(framed(&[]), [0x10, 0x03, 0x13]);
    assert_eq!(framed(&[0x10]), [0x10, 0x10, 0x10, 0x03, 0x13]);
    assert_eq!(framed(&[0x03]), [0x03, 0x10, 0x03, 0x10]);
}

#[test]
fn frame_limits() {
    let mut out = [0xA5; FRAME_MAX + 1];
    assert_eq!(frame(&[DLE; DATA_MAX + 1], &mut out), Err(Refusal::TooLong));
    let mut short = [0xA5; FRAME_MAX - 1];
    assert_eq!(
        frame(&[DLE; DATA_MAX], &mut short),
        Err(Refusal::OutputShort)
    );
    assert_eq!(short, [0xA5; FRAME_MAX - 1]);
    assert_eq!(
        frame(&[DLE; DATA_MAX], &mut out).expect("framed").len(),
        FRAME_MAX
    );
    assert_eq!(out[FRAME_MAX], 0xA5);
}

#[test]
fn frames_are_read_back() {
    let mixed: Vec<u8> = (0..=255).cycle().take(DATA_MAX).collect();
    for data in [
        &[][..],
        &[DLE],
        &[STX, 0x03, DLE, NAK],
        &mixed,
        &[DLE; DATA_MAX],
    ] {
        let framed = framed(data);
        let (last, before) = framed.split_last().expect("a check byte");
        let (mut receiver, mut buffer) = (Receiver::new(), [0xA5; DATA_MAX + 1]);

        let answer = receiver.event(Event::Byte(STX), &mut buffer);
        assert_eq!(answer, Ok(Answer::Send(DLE)));
        feed(&mut receiver, before, &mut buffer);
        match receiver.event(Event::Byte(*last), &mut buffer) {
            Ok(Answer::Message(message)) => assert_eq!(message, data),
            other => panic!("{other:?}"),
        }
        assert_eq!(receiver, Receiver::new());
        assert!(buffer[data.len()..].iter().all(|&byte| byte == 0xA5));
    }
}

#[test]
fn wrong_check_byte() {
    let (mut receiver, mut buffer) = (Receiver::new(), [0; 8]);
    let answer = receiver.event(Event::Byte(STX), &mut buffer);
    assert_eq!(answer, Ok(Answer::Send(DLE)));
    feed(&mut receiver, &[0x60, 0x10, 0x03], &mut buffer);
    // As if the 03 were not in the check.
    let answer = receiver.event(Event::Byte(0x60 ^ 0x10), &mut buffer);
    assert_eq!(answer, Ok(Answer::Send(NAK)));
    assert!(receiver.is_at_rest());
}

#[test]
fn at_rest() {
    let mut receiver = Receiver::default();
    for event in [Event::Timer, Event::Byte(NAK)] {
        assert_eq!(receiver.event(event, &mut []), Ok(Answer::Nothing));
    }
    for byte in [0x00, 0x03, DLE, 0xFF] {
        let answer = receiver.event(Event::Byte(byte), &mut []);
        assert_eq!(answer, Ok(Answer::Send(NAK)));
    }
    assert_eq!(receiver.state(), [0, 0, 0]);
}

#[test]
fn full_buffer() {
    let mut buffer = [0; 2];
    let full = Receiver::from_state([1, 2, 0]);

    let mut receiver = full;
    assert_eq!(
        receiver.event(Event::Byte(0x41), &mut buffer),
        Ok(Answer::Send(NAK))
    );
    assert!(receiver.is_at_rest());

    // A block that fills the buffer can still be closed.
    let mut receiver = full;
    feed(&mut receiver, &[0x10, 0x03], &mut buffer);
    let answer = receiver.event(Event::Byte(0x13), &mut buffer);
    assert_eq!(answer, Ok(Answer::Message(&mut [0, 0])));
}

#[test]
fn empty_message_needs_no_buffer() {
    let mut receiver = Receiver::new();
    assert_eq!(
        receiver.event(Event::Byte(STX), &mut []),
        Ok(Answer::Send(DLE))
    );
    feed(&mut receiver, &[0x10, 0x03], &mut []);
    let answer = receiver.event(Event::Byte(0x13), &mut []);
    assert_eq!(answer, Ok(Answer::Message(&mut [])));
}

#[test]
fn timer_ends_a_block() {
    for phase in 1..=3 {
        let (mut receiver, mut buffer) = (Receiver::from_state([phase, 1, 0x41]), [0x41]);
        assert!(!receiver.is_at_rest());
        let answer = receiver.event(Event::Timer, &mut buffer);
        assert_eq!(answer, Ok(Answer::Send(NAK)));
        assert_eq!(receiver, Receiver::new());
    }
}

#[test]
fn shorter_buffer_than_before() {
    let before = Receiver::from_state([1, 3, 0x41]);
    let (mut receiver, mut buffer) = (before, [0xA5; 2]);
    for event in [Event::Byte(0x41), Event::Timer] {
        assert_eq!(receiver.event(event, &mut buffer), Err(Refusal::Setup));
        assert_eq!((receiver, buffer), (before, [0xA5; 2]));
    }
}
