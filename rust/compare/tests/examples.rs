//! A worked example of every call, byte for byte, with all three implementations.

use compare::answer::{done, refused, NOT_MINE};
use compare::call::Call;
use compare::calls::gate::{operate::GateOperate, receive::GateReceive, write::GateWrite};
use compare::calls::gate::{read_answer::GateReadAnswer, write_answer::GateWriteAnswer};
use compare::calls::{dry_run::DryRun, frame::Frame, gate::write_command::GateWriteCommand, read_reply::ReadReply};
use compare::calls::{receive::Receive, send::LinkSend, station::Station, write_request::WriteRequest};
use hanraquin::{FACTORY, REGISTERS};

/// The three implementations of a call.
fn all<C: Call>() -> [C::Function; 3] {
    [C::LIBRARY, C::PLAIN, C::REFERENCE]
}

/// A request to 55 over 12 and 13, which reads register 955 and writes 1 to register 300.
const REQUEST: [u8; 14] = [0x60, 0xFF, 0x12, 0x13, 0x55, 0x00, 0x03, 0xBB, 0x01, 0x01, 0x2C, 0x01, 0x00, 0x01];

/// Its reply, as it comes to the centre.
const REPLY: [u8; 11] = [0xE0, 0xFF, 0x00, 0x12, 0x13, 0x55, 0x03, 0xBB, 0x01, 0x00, 0x00];

/// Master 00 has barrier 10 open itself, and hands the token to master 01.
const COMMAND: [u8; 9] = [0x55, 0x10, 0x00, 0x03, 0x01, 0x01, 0x01, 0xF7, 0x86];
const TOKEN: [u8; 6] = [0x55, 0x01, 0x00, 0x00, 0x7A, 0x8E];

#[test]
fn the_link() {
    let framed = [0x60, 0x10, 0x10, 0x10, 0x03, 0x73];
    for frame in all::<Frame>() {
        let mut out = [0xEE; 7];
        assert_eq!(frame(&[0x60, 0x10], &mut out), done(6));
        assert_eq!((&out[..6], out[6]), (&framed[..], 0xEE));
    }
    for receive in all::<Receive>() {
        let (mut state, mut buffer) = ([0; 3], [0; 2]);
        let answers = [256 + 0x10, 0, 0, 0, 0, 0, 65536 + 2];
        for (event, answer) in [0x02].into_iter().chain(framed).zip(answers) {
            assert_eq!(receive(&mut state, event.into(), &mut buffer), done(answer));
        }
        assert_eq!((state, buffer), ([0; 3], [0x60, 0x10]));
        let mut inside = [1, 1, 0x60];
        for event in [257, 0x103, 0x1_0002, 0xFFFF_FF80, u32::MAX] {
            assert_eq!(receive(&mut inside, event, &mut buffer), refused(1));
            assert_eq!((inside, buffer), ([1, 1, 0x60], [0x60, 0x10]));
        }
        assert_eq!(receive(&mut inside, 256, &mut buffer), done(256 + 0x15));
    }
}

#[test]
fn the_sender() {
    let framed = [0x60, 0x10, 0x10, 0x10, 0x03, 0x73];
    for send in all::<LinkSend>() {
        // Two connections for each block and three blocks, at low priority.
        let (mut state, mut buffer, mut out) = ([0, 2, 3, 0, 0, 0, 0, 0, 0], [0xEE; 2], [0xEE; 7]);
        let mut fed = |event, out: &mut [u8]| {
            let answer = send(&mut state, event, &[0x60, 0x10], &mut buffer, out);
            (answer, state[0], state[4], state[5])
        };
        // The first connection fails, the second one leads to a block that is not acknowledged.
        assert_eq!(fed(257, &mut out), (done(1), 1, 0, 0));
        assert_eq!(fed(256, &mut out), (done(1), 1, 1, 0));
        assert_eq!((out[0], out[1]), (0x02, 0xEE));
        assert_eq!(fed(0x10, &mut out[..5]), (refused(11), 1, 1, 0));
        assert_eq!(fed(0x10, &mut out), (done(6), 2, 1, 0));
        assert_eq!((&out[..6], out[6]), (&framed[..], 0xEE));
        assert_eq!(fed(0x15, &mut out), (done(1), 1, 0, 1));
        // The other end opens too, and is heard first.
        assert_eq!(fed(0x02, &mut out), (done(1), 3, 0, 0));
        assert_eq!((out[0], out[1]), (0x10, framed[1]));
        let heard = framed.map(|byte| fed(byte.into(), &mut out));
        assert_eq!((heard[4], heard[5]), ((done(0), 3, 0, 0), (done(2 + 65536 * 3), 1, 0, 0)));
        assert_eq!((&out[..2], &out[2..6]), (&[0x10, 0x02][..], &framed[2..]));
        // Now the block is acknowledged, and all is over.
        assert_eq!([0x10, 0x10, 257].map(|event| fed(event, &mut out).0), [done(6), done(0), done(0)]);
        assert_eq!((state, buffer), ([4, 2, 3, 0, 0, 0, 0, 0, 0], [0x60, 0x10]));

        let mut told = |mut state: [u64; 9], event, data: &[u8], out: &mut [u8]| {
            let answer = send(&mut state, event, data, &mut buffer, out);
            (answer, state[0])
        };
        // The last attempts of both kinds, and 02 at high priority.
        assert_eq!(told([1, 2, 3, 0, 1, 2, 0, 0, 0], 0x15, &[], &mut []), (done(0), 5));
        assert_eq!(told([2, 2, 3, 0, 0, 2, 0, 0, 0], 0x02, &[], &mut []), (done(0), 5));
        assert_eq!(told([1, 2, 3, 1, 1, 2, 0, 0, 0], 0x02, &[], &mut []), (done(0), 1));
        // A limit, a count, the half at the start, a word that is not there, and an event; then 12 and 11.
        for (state, event) in [
            ([4, 256, 3, 0, 0, 0, 0, 0, 0], 257),
            ([5, 2, 3, 0, 0, 4, 0, 0, 0], 256),
            ([3, 2, 3, 0, 0, 0, 1, 3, 0], 257),
            ([1, 2, 3, 0, 0, 0, 1, 0, 0], 0x10),
            ([0, 2, 3, 0, 0, 0, 0, 0, 0], 258),
        ] {
            assert_eq!(told(state, event, &[0; 1025], &mut []), (refused(1), state[0]));
        }
        assert_eq!(told([3, 2, 3, 0, 0, 0, 3, 2, 0x44], 0x44, &[0; 1025], &mut []), (refused(12), 3));
        assert_eq!(told([3, 2, 3, 0, 0, 0, 3, 2, 0x44], 0x44, &[0; 1024], &mut [0]), (refused(11), 3));
        assert_eq!(told([3, 2, 3, 0, 0, 0, 3, 2, 0x44], 0x44, &[0; 1024], &mut [0; 2]), (done(0x3_0002), 1));
        assert_eq!(buffer, [0x60, 0x10]);
    }
}

#[test]
fn the_centre() {
    for write_request in all::<WriteRequest>() {
        let (route, mut out) = ([0x12, 0x13, 0x55], [0; 14]);
        assert_eq!(write_request(&route, 955, 256, 300, &[1], &mut out), refused(12));
        assert_eq!(write_request(&route, 955, 1, 300, &[1], &mut out), done(14));
        assert_eq!(out, REQUEST);
    }
    for read_reply in all::<ReadReply>() {
        let (mut route, mut run) = ([0xEE; 31], [0xEEEE; 3]);
        assert_eq!(read_reply(&REPLY, &mut route, &mut run), done(2));
        assert_eq!((&route[..4], run), (&[0x12, 0x13, 0x55, 0x00][..], [955, 1, 9]));
        assert_eq!(read_reply(&REQUEST, &mut route, &mut run), refused(3));
        assert_eq!((route, run), ([0; 31], [0; 3]));
    }
}

#[test]
fn the_net() {
    for station in all::<Station>() {
        let (mut registers, mut out) = (FACTORY, [0xEE; 14]);
        assert_eq!(station(0x55, &mut registers, &REQUEST, &mut out), NOT_MINE);
        assert_eq!(station(0x12, &mut registers, &REQUEST, &mut out), done(14));
        assert_eq!((&out[..6], registers), (&[0x60, 0xFF, 0x13, 0x55, 0x00, 0x12][..], FACTORY));
    }
    for dry_run in all::<DryRun>() {
        let mut tables = [FACTORY; 3].concat();
        let (mut out, mut result) = ([0xEE; 1025], [7; 3]);
        let answer = dry_run(&REQUEST, &[0x12, 0x13, 0x55], &mut tables, &mut out, &mut result);
        assert_eq!((answer, result), (done(6), [6, 0, 11]));
        assert_eq!((&out[..12], out[1024]), (&[&REPLY[..], &[0]].concat()[..], 0xEE));
        tables[2 * REGISTERS + 1] -= 1;
        assert_eq!(tables, [FACTORY; 3].concat());
    }
}

#[test]
fn the_gate_bus() {
    for write in all::<GateWrite>() {
        let mut out = [0xEE; 10];
        assert_eq!(write(0x10, 0x00, &[0x01; 3], &mut out), done(9));
        assert_eq!((&out[..9], out[9]), (&COMMAND[..], 0xEE));
        assert_eq!(write(0x01, 0x00, &[], &mut out), done(6));
        assert_eq!((&out[..6], &out[6..9]), (&TOKEN[..], &COMMAND[6..]));
        assert_eq!(write(0x10, 0x00, &[], &mut out), refused(16));
        assert_eq!(write(0x10, 0x00, &[0x01; 254], &mut out), refused(7));
    }
    for receive in all::<GateReceive>() {
        let (mut state, mut store, mut out) = ([0; 7], [0xEE; 253], [0xEE; 4]);
        let mut fed = |own, byte: u8| receive(own, &mut state, &mut store, byte.into(), &mut out);
        // Skipped, a whole telegram, one for another, a token, and one whose low check byte is wrong.
        assert_eq!([0x10, 0x03].map(|byte| fed(0x10, byte)), [done(0); 2]);
        assert_eq!(COMMAND.map(|byte| fed(0x10, byte))[7..], [done(0), done(65536 + 3)]);
        assert_eq!(COMMAND.map(|byte| fed(0x11, byte)), [done(0); 9]);
        assert_eq!(TOKEN.map(|byte| fed(0x01, byte))[4..], [done(0), done(131_072)]);
        assert_eq!([0x55, 0x01, 0x00, 0x00, 0x7A, 0x8F].map(|byte| fed(0x01, byte))[4..], [done(0), refused(15)]);
        assert_eq!((state, out), ([0; 7], [0x01, 0x01, 0x01, 0xEE]));
        assert_eq!((&store[..3], &store[3..]), (&[0x01; 3][..], &[0xEE; 250][..]));
        let mut inside = [4, 0x10, 0x00, 3, 1, 0x1234, 0];
        for (own, event, answer) in [(0x10, 257, refused(1)), (0xFF, u32::MAX, refused(1)), (0xFF, 256, refused(16))] {
            assert_eq!(receive(own, &mut inside, &mut store, event, &mut out), answer);
            assert_eq!(inside[0], if answer == refused(1) { 4 } else { 0 });
        }
    }
}

#[test]
fn a_barrier() {
    for write_command in all::<GateWriteCommand>() {
        let mut out = [0xEE; 4];
        assert_eq!(write_command(1, 2, &mut out[..2]), refused(11));
        assert_eq!(write_command(1, 2, &mut out), done(3));
        assert_eq!(out, [0x01, 0x01, 0x02, 0xEE]);
    }
    for operate in all::<GateOperate>() {
        let (mut levels, mut edges) = ([0; 10], [0; 10]);
        let mut told = |data: &[u8]| operate(data, &mut levels, &mut edges);
        // Activate BA, pulse a relay, deactivate BA; an unknown function, a query, and too few bytes.
        assert_eq!([[1, 1, 1], [1, 4, 0], [1, 1, 2]].map(|data| told(&data)), [done(1); 3]);
        assert_eq!((told(&[1, 1, 3]), told(&[2, 24, 0]), told(&[1, 1])), (done(2), refused(3), refused(7)));
        assert_eq!((levels, edges), ([0; 10], [0, 1, 0, 0, 1, 0, 0, 0, 0, 0]));
        levels[9] = 2;
        assert_eq!(operate(&[1, 1], &mut levels, &mut edges), refused(1));
    }
    let answers = [(0x01, 0, &[0x01][..]), (0x1C, -2, &[0x1C, 0xFE, 0xFF, 0xFF, 0xFF]), (0x1D, -1, &[0x1D, 0xFF])];
    for (kind, number, bytes) in answers {
        for write_answer in all::<GateWriteAnswer>() {
            let mut out = [0xEE; 5];
            assert_eq!(write_answer(kind, number, &mut out[..bytes.len() - 1]), refused(11));
            assert_eq!(write_answer(kind, number, &mut out), done(bytes.len()));
            assert!(out.starts_with(bytes) && out[bytes.len()..].iter().all(|&byte| byte == 0xEE));
            assert_eq!(write_answer(0x1D, 101, &mut []), refused(10));
            assert_eq!(write_answer(0x05, 101, &mut []), refused(3));
        }
        for read_answer in all::<GateReadAnswer>() {
            let mut read = [7, 7];
            assert_eq!(read_answer(bytes, &mut read), refused(1));
            assert_eq!(read_answer(&[0x1D, 0x65], &mut read[..1]), refused(10));
            assert_eq!((read, read_answer(bytes, &mut read[..1])), ([7, 7], done(kind.into())));
            assert_eq!(read, [number, 7]);
        }
    }
}
