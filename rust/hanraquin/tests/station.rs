//! Registers, and a station.

use hanraquin::{FACTORY, Handled, NUMBERS, REGISTERS, Refusal, TELEGRAM, handle, place_of};

/// A request to station 55 without a relay.
fn direct(body: &[u8]) -> Vec<u8> {
    [&[0x60, 0xFF, 0x55, 0x00, 0x00, 0x00], body].concat()
}

/// What station 55 answers to the body of a request.
fn answer(registers: &mut [u16], body: &[u8]) -> Result<Vec<u8>, Refusal> {
    match handle(0x55, registers, &direct(body), &mut [0; TELEGRAM])? {
        Handled::Sent(reply) => Ok(reply.to_vec()),
        Handled::NotMine => panic!("not mine"),
    }
}

#[test]
fn places_are_those_of_the_library() {
    let mut registers: [u16; REGISTERS] = std::array::from_fn(|place| 0xC100 + place as u16);
    for number in 0..=u16::MAX {
        let [high, low] = number.to_be_bytes();
        let reply = answer(&mut registers, &[high, low, 1, 0, 0, 0]);
        match place_of(number) {
            Some(place) => {
                let value = 0xC1_u8;
                let reply = reply.expect("a register");
                assert_eq!(reply[6..], [high, low, 1, value, place as u8]);
                assert_eq!(NUMBERS[place], number);
            }
            None => assert_eq!(reply, Err(Refusal::NoRegister), "{number}"),
        }
    }
    assert_eq!(NUMBERS.map(place_of), std::array::from_fn(Some));
}

#[test]
fn factory_values() {
    let value = |number| FACTORY[place_of(number).expect("a register")];
    assert_eq!(
        [952, 953, 957, 958, 959, 960, 961].map(value),
        [15, 2, 65535, 30, 60, 15, 30]
    );
    for number in [2, 300, 931, 936, 955, 956, 962] {
        assert_eq!(value(number), 0);
    }
}

#[test]
fn relay_leaves_body_and_registers_alone() {
    let (mut registers, mut out) = (FACTORY, [0xA5; TELEGRAM]);
    // A body that no destination would take.
    let request = [0x60, 0x07, 0x12, 0x13, 0x55, 0x00, 0xDE, 0xAD];
    let sent = [0x60, 0x07, 0x13, 0x55, 0x00, 0x12, 0xDE, 0xAD];
    match handle(0x12, &mut registers, &request, &mut out) {
        Ok(Handled::Sent(telegram)) => assert_eq!(telegram, sent),
        other => panic!("{other:?}"),
    }
    assert_eq!(registers, FACTORY);
    assert_eq!(out[8..], [0xA5; TELEGRAM - 8]);

    let short = &mut out[..7];
    assert_eq!(
        handle(0x12, &mut registers, &request, short),
        Err(Refusal::OutputShort)
    );
}

#[test]
fn destination_writes_and_then_reads() {
    let mut registers = FACTORY;
    let reply = answer(&mut registers, &[0x01, 0x2C, 1, 0x01, 0x2C, 1, 0, 2]);
    assert_eq!(
        reply.expect("a reply"),
        [0xE0, 0xFF, 0x00, 0x55, 0x00, 0x00, 0x01, 0x2C, 1, 0, 2]
    );
    assert_eq!(registers[1], 2);
}

#[test]
fn mark_of_a_reply_without_relay() {
    let request = [
        0x60, 0xFF, 0xEF, 0xEF, 0xEF, 0xEF, 2, 0x55, 0x00, 0, 0, 0, 0, 0, 0,
    ];
    let reply = [0xE0, 0xFF, 0x00, 0xEF, 0xEF, 0xEF, 2, 0x00, 0x55, 0, 0, 0];
    match handle(0x55, &mut FACTORY.clone(), &request, &mut [0; TELEGRAM]) {
        Ok(Handled::Sent(telegram)) => assert_eq!(telegram, reply),
        other => panic!("{other:?}"),
    }
}

#[test]
fn bodies_that_are_refused() {
    let mut registers = FACTORY;
    for (body, refusal) in [
        (&[0x03, 0xB9, 2, 0, 0, 0][..], Refusal::NoRegister),
        (&[0x03, 0xB9, 2, 0x00, 0x02, 1, 0, 0], Refusal::NoRegister),
        (&[0, 0, 0, 0x00, 0x02, 1, 0, 0], Refusal::NoWrite),
        (&[0, 0, 0, 0x03, 0xB9, 1, 0, 26], Refusal::ValueRange),
        (&[0, 0, 0, 0x03, 0xB8, 2, 0, 20, 0, 26], Refusal::ValueRange),
        (&[0, 0, 0, 0x01, 0x2C, 1, 0], Refusal::BodyLength),
        (&[], Refusal::BodyLength),
    ] {
        assert_eq!(answer(&mut registers, body), Err(refusal), "{body:02X?}");
        assert_eq!(registers, FACTORY);
    }
    assert!(answer(&mut registers, &[0, 0, 0, 0x03, 0xB9, 1, 0, 25]).is_ok());
    assert_eq!(registers[9], 25);
}

#[test]
fn times_of_day() {
    let is_time = |value: u16| value / 256 < 24 && value % 256 < 60;
    for value in 0..=u16::MAX {
        let [high, low] = value.to_be_bytes();
        for (number, good) in [
            (955, is_time(value)),
            (957, is_time(value) || value == 65535),
        ] {
            let (mut registers, place) = (FACTORY, place_of(number).expect("a register"));
            // What is stored before is read, also if it is no time of day.
            registers[place] = 0x084B;
            let before = registers;
            let [first, last] = number.to_be_bytes();
            let reply = answer(&mut registers, &[first, last, 1, first, last, 1, high, low]);
            let read = answer(&mut registers, &[first, last, 1, 0, 0, 0]).expect("a reply");
            if good {
                assert_eq!(reply, Ok(read), "{number} {value}");
                assert_eq!(registers[place], value);
            } else {
                assert_eq!(reply, Err(Refusal::ValueRange), "{number} {value}");
                assert_eq!((registers, &read[9..]), (before, &[0x08, 0x4B][..]));
            }
        }
    }
}

#[test]
fn headers_that_are_refused() {
    for (telegram, refusal) in [
        (&[0x60, 0xFF, 0x12, 0x00, 0x00][..], Refusal::HeaderCut),
        (&[0x61, 0xFF, 0x12, 0x00, 0x00, 0x00], Refusal::Function),
        (
            &[0xE0, 0xFF, 0xEF, 0xEF, 0xEF, 0xEF, 33],
            Refusal::ExtendedCount,
        ),
        (&[0x60, 0xFF, 0x00, 0xEF, 0xEF, 0xEF], Refusal::Block),
        (&[0x60, 0xFF, 0x12, 0x13, 0x14, 0x15], Refusal::Block),
        (&[0x60, 0xFF, 0x12, 0x12, 0x55, 0x00], Refusal::Block),
        (&[0x60, 0xFF, 0x12, 0x00, 0x13, 0x00], Refusal::Block),
        (
            &[0xE0, 0xFF, 0xEF, 0xEF, 0xEF, 0xEF, 2, 0x00, 0x12],
            Refusal::Mark,
        ),
        (&[0; TELEGRAM + 1], Refusal::TooLong),
    ] {
        let answer = handle(0x55, &mut FACTORY.clone(), telegram, &mut []);
        assert_eq!(answer, Err(refusal), "{telegram:02X?}");
    }
}

#[test]
fn own_addresses_and_tables() {
    let to = |own| [0x60, 0xFF, own, 0, 0, 0, 0, 0, 0, 0, 0, 0];
    for own in 0..=255 {
        let mut out = [0; TELEGRAM];
        let answer = handle(own, &mut FACTORY.clone(), &to(own), &mut out);
        if (1..=240).contains(&own) {
            assert!(matches!(answer, Ok(Handled::Sent(_))), "{own}");
        } else {
            assert_eq!(answer, Err(Refusal::Setup), "{own}");
        }
    }
    for length in [0, REGISTERS - 1, REGISTERS + 1] {
        let answer = handle(0x55, &mut vec![0; length], &to(0x55), &mut []);
        assert_eq!(answer, Err(Refusal::Setup));
    }
    let (mut registers, mut out) = (FACTORY, [0xA5; TELEGRAM]);
    let answer = handle(0x12, &mut registers, &to(0x55), &mut out);
    assert_eq!(answer, Ok(Handled::NotMine));
    assert_eq!((registers, out), (FACTORY, [0xA5; TELEGRAM]));
}
