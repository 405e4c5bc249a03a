//! Requests and replies.

use hanraquin::{Accepted, REQUEST_MAX, ROUTE, Refusal, Reply, Request, read_reply, write_request};

/// A reply that must be accepted.
fn accepted(telegram: &[u8]) -> Accepted<'_> {
    match read_reply(telegram) {
        Ok(Reply::Accepted(reply)) => reply,
        other => panic!("{other:?}"),
    }
}

#[test]
fn short_and_long_routes() {
    let mut out = [0xA5; REQUEST_MAX];
    let request = write_request(&[0x12, 0x55], 0, 0, 0, &[], &mut out).expect("written");
    assert_eq!(request, [0x60, 0xFF, 0x12, 0x55, 0, 0, 0, 0, 0, 0, 0, 0]);
    assert_eq!(out[12..], [0xA5; REQUEST_MAX - 12]);

    let route = [0x21, 0x22, 0x23, 0x24, 0x25];
    let request = write_request(&route, 957, 2, 958, &[45], &mut out).expect("written");
    assert_eq!(
        request,
        [
            0x60, 0xFF, 0xEF, 0xEF, 0xEF, 0xEF, 6, 0x21, 0x22, 0x23, 0x24, 0x25, 0x00, //
            0x03, 0xBD, 2, 0x03, 0xBE, 1, 0, 45
        ]
    );
}

#[test]
fn longest_request() {
    let route: Vec<u8> = (1..=ROUTE as u8).collect();
    let values = [0xBEEF; 255];
    let mut out = [0; REQUEST_MAX];
    let request = write_request(&route, 65535, 255, 65535, &values, &mut out).expect("written");
    assert_eq!(request.len(), REQUEST_MAX);
    let answer = write_request(&route, 0, 255, 0, &values, &mut out[1..]);
    assert_eq!(answer, Err(Refusal::OutputShort));
}

#[test]
fn routes_that_are_refused() {
    let long: Vec<u8> = (1..=32).collect();
    for route in [&[][..], &[0x12, 0x12], &[0xF1], &[0x12, 0x00], &long] {
        // Before too many registers, and before an output that is too short.
        let answer = write_request(route, 0, 256, 0, &[], &mut []);
        assert_eq!(answer, Err(Refusal::Block), "{route:02X?}");
    }
}

#[test]
fn too_many_registers() {
    let mut out = [0xA5; REQUEST_MAX];
    for count in [256, 65536, usize::MAX] {
        let answer = write_request(&[0x55], 0, count, 0, &[], &mut out);
        assert_eq!(answer, Err(Refusal::TooLong));
    }
    let answer = write_request(&[0x55], 0, 0, 0, &[0; 256], &mut out);
    assert_eq!(answer, Err(Refusal::TooLong));
    assert_eq!(out, [0xA5; REQUEST_MAX]);
}

#[test]
fn named_parts_are_written_alike() {
    let request = Request {
        route: &[0x12, 0x13, 0x55],
        read_start: 955,
        read_count: 1,
        write_start: 300,
        values: &[1],
    };
    let (mut one, mut other) = ([0; REQUEST_MAX], [0; REQUEST_MAX]);
    assert_eq!(
        request.write(&mut one),
        write_request(&[0x12, 0x13, 0x55], 955, 1, 300, &[1], &mut other)
    );
    assert_eq!(Request::default().write(&mut one), Err(Refusal::Block));
}

#[test]
fn standard_reply() {
    let telegram = [
        0xE0, 0xFF, 0x00, 0x12, 0x13, 0x55, 0x03, 0xBE, 2, 0x00, 0x1E, 0xFF, 0xFE,
    ];
    let reply = accepted(&telegram);
    assert_eq!(reply.route(), [0x12, 0x13, 0x55]);
    assert_eq!((reply.start, reply.count), (958, 2));
    assert_eq!(reply.values().collect::<Vec<_>>(), [30, 0xFFFE]);
    assert_eq!(reply.values().len(), 2);
    assert_eq!(reply.value_bytes().as_ptr(), telegram[9..].as_ptr());
    assert_eq!(reply.value_bytes(), &telegram[9..]);
}

#[test]
fn values_outlive_the_reply() {
    let telegram = [
        0xE0, 0xFF, 0x00, 0x55, 0x00, 0x00, 0x01, 0x2C, 1, 0x00, 0x03,
    ];
    let (values, bytes) = {
        let reply = accepted(&telegram);
        (reply.values(), reply.value_bytes())
    };
    assert!(values.rev().eq([3]));
    assert_eq!(bytes, [0, 3]);
}

#[test]
fn reply_of_31_stations() {
    let stations: Vec<u8> = (1..=31).collect();
    let head = [0xE0, 0xFF, 0x00, 0xEF, 0xEF, 0xEF, 32, 0x00];
    let telegram = [&head[..], &stations, &[0xFF, 0xFF, 0]].concat();
    let reply = accepted(&telegram);
    assert_eq!(reply.route(), stations);
    assert_eq!((reply.start, reply.count), (65535, 0));
    assert_eq!(reply.value_bytes(), []);
    assert_eq!(reply.values().next(), None);
}

#[test]
fn longest_reply() {
    let values = vec![0x5A; 510];
    let telegram = [
        &[0xE0, 0xFF, 0x00, 0x55, 0x00, 0x00, 0, 0, 255],
        &values[..],
    ]
    .concat();
    let reply = accepted(&telegram);
    assert_eq!((reply.count, reply.value_bytes()), (255, &values[..]));
    assert!(reply.values().all(|value| value == 0x5A5A));
}

#[test]
fn what_is_no_reply_for_the_centre() {
    for (telegram, answer) in [
        (&[][..], Err(Refusal::HeaderCut)),
        (
            &[0x60, 0xFF, 0x00, 0x12, 0x13, 0x55],
            Err(Refusal::Function),
        ),
        (
            &[0xE0, 0xFF, 0xEF, 0xEF, 0xEF, 0xEF, 1],
            Err(Refusal::ExtendedCount),
        ),
        (
            &[0xE0, 0xFF, 0x00, 0x00, 0x00, 0x00, 0, 0, 0],
            Err(Refusal::Block),
        ),
        (
            &[0xE0, 0xFF, 0xEF, 0xEF, 0xEF, 0xEF, 2, 0, 0],
            Err(Refusal::Block),
        ),
        (
            &[0xE0, 0xFF, 0xEF, 0xEF, 0xEF, 0xEF, 2, 0, 0x12],
            Err(Refusal::Mark),
        ),
        // For a relay, whatever its body is.
        (&[0xE0, 0xFF, 0x12, 0x55, 0x00, 0x00], Ok(Reply::NotMine)),
        (
            &[0xE0, 0xFF, 0x00, 0x12, 0x55, 0x00, 0, 0, 1, 0],
            Err(Refusal::BodyLength),
        ),
        (
            &[0xE0, 0xFF, 0x00, 0x12, 0x55, 0x00, 0, 0],
            Err(Refusal::BodyLength),
        ),
        (&[0xE0; 1025], Err(Refusal::TooLong)),
    ] {
        assert_eq!(read_reply(telegram), answer, "{telegram:02X?}");
    }
}
