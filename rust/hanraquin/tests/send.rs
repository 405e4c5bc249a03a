//! The sending half, row by row, with its limits, and two ends on one cable.

use hanraquin::{
    Answer, DATA_MAX, DLE, Event, FRAME_MAX, NAK, Phase, Priority, Receiver, Refusal, STX, Sender,
    Sending, frame,
};

const DATA: [u8; 2] = [0x60, 0x10];
const BLOCK: [u8; 6] = [0x60, 0x10, 0x10, 0x10, 0x03, 0x73];

/// What a sender is told.
#[derive(Clone, Copy, PartialEq, Debug)]
enum Told {
    Start,
    Byte(u8),
    Timer,
}

/// All there is to be told.
fn everything() -> impl Iterator<Item = Told> {
    let bytes = (0..=255).map(Told::Byte);
    [Told::Start, Told::Timer].into_iter().chain(bytes)
}

/// The timer, and every byte that is not one of these.
fn timer_and_bytes_but(bytes: &[u8]) -> impl Iterator<Item = Told> {
    let others = (0..=255).filter(|byte| !bytes.contains(byte));
    [Told::Timer].into_iter().chain(others.map(Told::Byte))
}

fn tell<'o, 'b>(
    sender: &mut Sender,
    told: Told,
    data: &[u8],
    buffer: &'b mut [u8],
    out: &'o mut [u8],
) -> Result<Sending<'o, 'b>, Refusal> {
    match told {
        Told::Start => sender.start(data, buffer, out),
        Told::Byte(byte) => sender.byte(byte, data, buffer, out),
        Told::Timer => sender.timer(data, buffer, out),
    }
}

/// A sender with this state sends these bytes and no more, has no message, leaves the buffer alone,
/// and then has that state.
fn row(before: [u64; 9], told: Told, sends: &[u8], after: [u64; 9]) {
    let (mut buffer, mut out) = ([0xB6; 4], [0xA5; 16]);
    let mut sender = Sender::from_state(before);
    let sending = tell(&mut sender, told, &DATA, &mut buffer, &mut out).expect("taken");
    assert_eq!(*sending.bytes, *sends, "{before:?} {told:02X?}");
    assert_eq!(sending.message, None, "{before:?} {told:02X?}");
    assert_eq!(sender.state(), after, "{before:?} {told:02X?}");
    assert_eq!(buffer, [0xB6; 4]);
    assert!(out[sends.len()..].iter().all(|&byte| byte == 0xA5));

    // An output of just this length is enough, and none where nothing is sent.
    let mut out = vec![0xA5; sends.len()];
    let mut sender = Sender::from_state(before);
    let sending = tell(&mut sender, told, &DATA, &mut buffer, &mut out).expect("taken");
    assert_eq!(*sending.bytes, *sends);
}

/// An event of which nothing comes.
fn nothing(before: [u64; 9], told: Told) {
    row(before, told, &[], before);
}

#[test]
fn fresh() {
    for priority in [Priority::Low, Priority::High] {
        let word = priority as u64;
        let fresh = Sender::new(3, 2, priority).state();
        assert_eq!(fresh, [0, 3, 2, word, 0, 0, 0, 0, 0]);
        row(fresh, Told::Start, &[STX], [1, 3, 2, word, 0, 0, 0, 0, 0]);
        for told in timer_and_bytes_but(&[]) {
            nothing(fresh, told);
        }
        // Counts that a fresh state may have are 0 after the start.
        let counted = [0, 3, 2, word, 3, 2, 0, 0, 0];
        row(counted, Told::Start, &[STX], [1, 3, 2, word, 0, 0, 0, 0, 0]);
    }
}

#[test]
fn opening() {
    for priority in 0..=1 {
        for failed_blocks in 0..=2 {
            let opening = |c| [1, 3, 2, priority, c, failed_blocks, 0, 0, 0];
            for c in 0..=3 {
                let mut awaiting = opening(c);
                awaiting[0] = 2;
                row(opening(c), Told::Byte(DLE), &BLOCK, awaiting);
                nothing(opening(c), Told::Start);
                for told in timer_and_bytes_but(&[STX, DLE]) {
                    if c + 1 < 3 {
                        row(opening(c), told, &[STX], opening(c + 1));
                    } else {
                        let gave_up = [5, 3, 2, priority, 3, failed_blocks, 0, 0, 0];
                        row(opening(c), told, &[], gave_up);
                    }
                }
            }
        }
    }
}

#[test]
fn opening_together() {
    for (c, b) in [(0, 0), (1, 0), (2, 1), (3, 2)] {
        let low = [1, 3, 2, 0, c, b, 0, 0, 0];
        let yielded = [3, 3, 2, 0, 0, 0, 1, 0, 0];
        row(low, Told::Byte(STX), &[DLE], yielded);
        nothing([1, 3, 2, 1, c, b, 0, 0, 0], Told::Byte(STX));
    }
}

#[test]
fn awaiting() {
    for priority in 0..=1 {
        for c in 0..=3 {
            let awaiting = |b| [2, 3, 2, priority, c, b, 0, 0, 0];
            for b in 0..=2 {
                let mut sent = awaiting(b);
                sent[0] = 4;
                row(awaiting(b), Told::Byte(DLE), &[], sent);
                nothing(awaiting(b), Told::Start);
                // 02 is another byte here, at both priorities.
                for told in timer_and_bytes_but(&[DLE]) {
                    if b + 1 < 2 {
                        let opening = [1, 3, 2, priority, 0, b + 1, 0, 0, 0];
                        row(awaiting(b), told, &[STX], opening);
                    } else {
                        row(awaiting(b), told, &[], [5, 3, 2, priority, c, 2, 0, 0, 0]);
                    }
                }
            }
        }
    }
}

#[test]
fn sent_and_gave_up_are_final() {
    for phase in [4, 5] {
        for told in everything() {
            nothing([phase, 3, 2, 0, 0, 0, 0, 0, 0], told);
            nothing([phase, 3, 2, 1, 3, 2, 0, 0, 0], told);
        }
    }
}

/// While it receives, a sender does what a receiver does, and opens when that is at rest.
#[test]
fn receiving() {
    let halves = [
        [0, 0, 0],
        [0, 2, 0x41],
        [1, 0, 0],
        [1, 1, 0x41],
        [1, 3, 0x41],
        [2, 1, 0x51],
        [2, 3, 0x51],
        [3, 0, 0x13],
        [3, 3, 0x41],
    ];
    for half in halves {
        for priority in 0..=1 {
            // A yield leaves no counts; a state may have some.
            for (c, b) in [(0, 0), (2, 1)] {
                let [phase, count, check] = half;
                let before = [3, 3, 2, priority, c, b, phase, count, check];
                nothing(before, Told::Start);
                for told in timer_and_bytes_but(&[]) {
                    let event = match told {
                        Told::Byte(byte) => Event::Byte(byte),
                        _ => Event::Timer,
                    };
                    let (mut buffer, mut by_receiver) = ([0xB6; 3], [0xB6; 3]);
                    let mut receiver = Receiver::from_state(half);
                    let (mut sends, mut message) = (vec![], None);
                    match receiver.event(event, &mut by_receiver).expect("taken") {
                        Answer::Nothing => {}
                        Answer::Send(byte) => sends.push(byte),
                        Answer::Message(data) => {
                            sends.push(DLE);
                            message = Some(data.to_vec());
                        }
                    }
                    let [phase, count, check] = receiver.state();
                    let mut after = [3, 3, 2, priority, c, b, phase, count, check];
                    if receiver.is_at_rest() {
                        sends.push(STX);
                        after = [1, 3, 2, priority, 0, 0, 0, 0, 0];
                    }

                    let (mut sender, mut out) = (Sender::from_state(before), [0xA5; 3]);
                    let sending = tell(&mut sender, told, &DATA, &mut buffer, &mut out);
                    let sending = sending.expect("taken");
                    assert_eq!(*sending.bytes, *sends, "{half:?} {told:02X?}");
                    assert_eq!(sending.message.map(|data| data.to_vec()), message);
                    assert_eq!((sender.state(), buffer), (after, by_receiver));
                    assert!(out[sends.len()..].iter().all(|&byte| byte == 0xA5));
                }
            }
        }
    }
}

/// A sender at one end of a cable, with its data, its buffer, and the messages that came.
struct End {
    sender: Sender,
    data: Vec<u8>,
    buffer: [u8; DATA_MAX],
    messages: Vec<Vec<u8>>,
}

impl End {
    fn new(sender: Sender, data: &[u8]) -> End {
        End {
            sender,
            data: data.to_vec(),
            buffer: [0; DATA_MAX],
            messages: vec![],
        }
    }

    /// Tells the sender an event that must be taken, and gives what it sends.
    fn tell(&mut self, told: Told) -> Vec<u8> {
        let mut out = [0; FRAME_MAX];
        let sending = tell(
            &mut self.sender,
            told,
            &self.data,
            &mut self.buffer,
            &mut out,
        );
        let sending = sending.expect("taken");
        self.messages
            .extend(sending.message.map(|message| message.to_vec()));
        sending.bytes.to_vec()
    }

    /// Tells the sender several bytes, and gives all that it sends.
    fn hear(&mut self, bytes: &[u8]) -> Vec<u8> {
        let heard = bytes.iter().map(|&byte| self.tell(Told::Byte(byte)));
        heard.collect::<Vec<_>>().concat()
    }
}

#[test]
fn data_of_any_length_is_sent() {
    let mixed: Vec<u8> = (0..=255).cycle().take(DATA_MAX).collect();
    for data in [&[][..], &[STX], &[DLE; DATA_MAX], &mixed] {
        let mut out = [0; FRAME_MAX];
        let block = frame(data, &mut out).expect("framed");
        let mut end = End::new(Sender::new(1, 1, Priority::Low), data);
        assert_eq!(end.tell(Told::Start), [STX]);
        assert_eq!(end.hear(&[DLE]), *block);
        assert_eq!(end.hear(&[DLE]), []);
        assert_eq!(end.sender.phase(), Phase::Sent);
    }
}

#[test]
fn nobody_answers() {
    for connections in [1, 2, 3, 255] {
        for blocks in [1, 2, 255] {
            let mut end = End::new(Sender::new(connections, blocks, Priority::High), &DATA);
            assert_eq!(end.tell(Told::Start), [STX]);
            for failed in 1..connections {
                assert_eq!(end.tell(Told::Timer), [STX]);
                assert_eq!(end.sender.failed_connections(), failed);
                assert_eq!(end.sender.phase(), Phase::Opening);
            }
            assert_eq!(end.tell(Told::Timer), []);
            assert_eq!(end.sender.phase(), Phase::GaveUp);
            let failed = (end.sender.failed_connections(), end.sender.failed_blocks());
            assert_eq!(failed, (connections, 0));
        }
    }
}

/// No block is taken, and only the last connection for each: all is sent that the limits allow.
#[test]
fn no_block_is_taken() {
    for (connections, blocks) in [(1, 1), (1, 3), (4, 1), (3, 2), (2, 255), (255, 255)] {
        let mut end = End::new(Sender::new(connections, blocks, Priority::Low), &DATA);
        let mut bytes = end.tell(Told::Start);
        for failed_blocks in 0..blocks {
            for failed in 0..connections {
                assert_eq!(
                    (&bytes[..], end.sender.phase()),
                    (&[STX][..], Phase::Opening)
                );
                assert_eq!(end.sender.failed_connections(), failed);
                assert_eq!(end.sender.failed_blocks(), failed_blocks);
                let last = failed + 1 == connections;
                bytes = end.hear(if last { &[DLE] } else { &[NAK] });
            }
            assert_eq!(
                (&bytes[..], end.sender.phase()),
                (&BLOCK[..], Phase::Awaiting)
            );
            bytes = end.tell(Told::Timer);
        }
        assert_eq!((&bytes[..], end.sender.phase()), (&[][..], Phase::GaveUp));
        assert_eq!(end.sender.failed_blocks(), blocks);
    }
}

#[test]
fn low_end_yields_to_the_high_end() {
    let mut high = End::new(Sender::new(1, 1, Priority::High), &DATA);
    let mut low = End::new(Sender::new(1, 1, Priority::Low), &[0xE0, 0x05]);
    let (mut receiver, mut buffer) = (Receiver::new(), [0; DATA_MAX]);
    let (by_high, by_low) = (high.tell(Told::Start), low.tell(Told::Start));
    assert_eq!((&by_high[..], &by_low[..]), (&[STX][..], &[STX][..]));

    assert_eq!(high.hear(&by_low), []);
    let answer = low.hear(&by_high);
    assert_eq!(
        (low.sender.phase(), &answer[..]),
        (Phase::Receiving, &[DLE][..])
    );
    let block = high.hear(&answer);
    assert_eq!(block, BLOCK);
    let answer = low.hear(&block);
    assert_eq!(answer, [DLE, STX]);
    assert_eq!(low.messages, [DATA]);

    // The high end is done with the 10, and the 02 is for its receiver.
    assert_eq!(high.hear(&answer[..1]), []);
    assert_eq!(high.sender.phase(), Phase::Sent);
    assert_eq!(high.hear(&answer[1..]), []);
    let opened = receiver.event(Event::Byte(answer[1]), &mut buffer);
    assert_eq!(opened, Ok(Answer::Send(DLE)));
    let mut last = Ok(Answer::Nothing);
    for byte in low.hear(&[DLE]) {
        last = receiver.event(Event::Byte(byte), &mut buffer);
    }
    assert_eq!(last, Ok(Answer::Message(&mut [0xE0, 0x05])));
    assert_eq!(low.hear(&[DLE]), []);
    assert_eq!(low.sender.phase(), Phase::Sent);
}

#[test]
fn a_yield_gives_all_attempts_back() {
    let mut end = End::new(Sender::new(2, 2, Priority::Low), &DATA);
    let _ = end.tell(Told::Start);
    // A block fails, and then a connection.
    let _ = end.hear(&[DLE, NAK, NAK]);
    assert_eq!(end.sender.state(), [1, 2, 2, 0, 1, 1, 0, 0, 0]);
    assert_eq!(end.hear(&[STX]), [DLE]);
    assert_eq!(end.sender.state(), [3, 2, 2, 0, 0, 0, 1, 0, 0]);
    // What comes is damaged: it is refused, and this end opens again.
    assert_eq!(end.hear(&[0x60, 0x10, 0x03, 0x72]), [NAK, STX]);
    assert_eq!(end.sender.state(), [1, 2, 2, 0, 0, 0, 0, 0, 0]);
    // Or it breaks off.
    assert_eq!(end.hear(&[STX, 0x60]), [DLE]);
    assert_eq!(end.tell(Told::Timer), [NAK, STX]);
    assert_eq!(end.sender.state(), [1, 2, 2, 0, 0, 0, 0, 0, 0]);
    assert!(end.messages.is_empty());
}

#[test]
fn messages_of_a_yield() {
    let long = [DLE; DATA_MAX];
    for data in [&[][..], &[STX, NAK], &long] {
        let mut out = [0; FRAME_MAX];
        let block = frame(data, &mut out).expect("framed");
        let mut end = End::new(Sender::new(1, 1, Priority::Low), &DATA);
        let _ = end.tell(Told::Start);
        assert_eq!(end.hear(&[STX]), [DLE]);
        assert_eq!(end.hear(block), [DLE, STX]);
        assert_eq!(end.messages, [data]);
    }
    // A buffer that is too short for the block: it is not taken.
    let mut sender = Sender::from_state([3, 1, 1, 0, 0, 0, 1, 2, 0x41]);
    let (mut buffer, mut out) = ([0xB6; 2], [0; 2]);
    let sending = sender
        .byte(0x41, &DATA, &mut buffer, &mut out)
        .expect("taken");
    assert_eq!((&*sending.bytes, sending.message), (&[NAK, STX][..], None));
    assert_eq!(sender.state(), [1, 1, 1, 0, 0, 0, 0, 0, 0]);
    assert_eq!(buffer, [0xB6; 2]);
}

/// Two ends open together, and from then on each hears what the other sends, so many times. Where
/// nothing is on the cable, the timers of both run out. Gives how often each of them yielded.
fn together(ends: &mut [End; 2], rounds: usize) -> [usize; 2] {
    let mut yields = [0; 2];
    let mut line = ends.each_mut().map(|end| end.tell(Told::Start));
    for _ in 0..rounds {
        let heard = [line[1].clone(), line[0].clone()];
        let quiet = heard.iter().all(Vec::is_empty);
        for (i, end) in ends.iter_mut().enumerate() {
            line[i] = if quiet { end.tell(Told::Timer) } else { vec![] };
            for &byte in &heard[i] {
                let before = end.sender.phase();
                line[i].extend(end.tell(Told::Byte(byte)));
                let yielded = (before, end.sender.phase()) == (Phase::Opening, Phase::Receiving);
                yields[i] += usize::from(yielded);
            }
        }
    }
    yields
}

#[test]
fn two_low_ends_yield_again_and_again() {
    let end = || End::new(Sender::new(2, 2, Priority::Low), &DATA);
    let mut ends = [end(), end()];
    assert_eq!(together(&mut ends, 3000), [1000; 2]);
    assert!(ends.iter().all(|end| end.messages.is_empty()));
    // What one of them hears, from the timer that ends a yield to the next.
    let mut one = end();
    assert_eq!(one.tell(Told::Start), [STX]);
    assert_eq!(one.hear(&[STX, DLE]), [DLE]);
    for _ in 0..3 {
        assert_eq!(one.tell(Told::Timer), [NAK, STX]);
        assert_eq!(one.hear(&[NAK, STX, STX, DLE]), [STX, DLE]);
    }

    // With one connection attempt both give up.
    let end = || End::new(Sender::new(1, 9, Priority::Low), &DATA);
    let mut ends = [end(), end()];
    assert_eq!(together(&mut ends, 3000), [1; 2]);
    assert!(ends.iter().all(|end| end.sender.phase() == Phase::GaveUp));
}

#[test]
fn two_high_ends_give_up() {
    for connections in [1, 2, 255] {
        let end = || End::new(Sender::new(connections, 9, Priority::High), &DATA);
        let mut ends = [end(), end()];
        assert_eq!(together(&mut ends, 3000), [0; 2]);
        for end in &ends {
            assert_eq!(end.sender.phase(), Phase::GaveUp);
            assert_eq!(end.sender.failed_connections(), connections);
        }
    }
}

/// A state for every phase, at both priorities.
fn states() -> impl Iterator<Item = [u64; 9]> {
    (0..=5).flat_map(|phase| {
        let half = if phase == 3 { [1, 2, 0x41] } else { [0; 3] };
        (0..=1).map(move |priority| [phase, 3, 2, priority, 1, 1, half[0], half[1], half[2]])
    })
}

/// The event is refused so, and all is as it was.
fn refused(state: [u64; 9], told: Told, data: &[u8], lengths: [usize; 2], refusal: Refusal) {
    let (mut buffer, mut out) = (vec![0xB6; lengths[0]], vec![0xA5; lengths[1]]);
    let mut sender = Sender::from_state(state);
    let answer = tell(&mut sender, told, data, &mut buffer, &mut out);
    assert_eq!(answer, Err(refusal), "{state:?} {told:02X?}");
    assert_eq!(sender.state(), state);
    assert_eq!(buffer, vec![0xB6; lengths[0]]);
    assert_eq!(out, vec![0xA5; lengths[1]]);
}

#[test]
fn limits_that_are_refused_first() {
    let long = [0; DATA_MAX + 1];
    for state in states() {
        for limit in [0, 256, 257, 511, 1 << 32, (1 << 32) + 1, u64::MAX] {
            for word in [1, 2] {
                let mut bad = state;
                bad[word] = limit;
                for told in everything() {
                    refused(bad, told, &DATA, [4, 16], Refusal::Setup);
                    refused(bad, told, &long, [4, 0], Refusal::Setup);
                }
            }
        }
    }
    for limit in [0, 256, u64::MAX] {
        for (connections, blocks) in [(limit, 1), (1, limit)] {
            let bad = Sender::new(connections, blocks, Priority::Low).state();
            refused(bad, Told::Start, &DATA, [4, 16], Refusal::Setup);
        }
    }
    for limit in [Sender::LIMIT_MIN, Sender::LIMIT_MAX] {
        let fresh = Sender::new(limit, limit, Priority::Low).state();
        row(
            fresh,
            Told::Start,
            &[STX],
            [1, limit, limit, 0, 0, 0, 0, 0, 0],
        );
    }
}

#[test]
fn states_that_are_refused_first() {
    let long = [0; DATA_MAX + 1];
    for state in states() {
        // More failed than the limits, another priority, another phase.
        let mut bad = vec![
            (4, 4),
            (4, 256),
            (5, 3),
            (5, u64::MAX),
            (3, 2),
            (0, 6),
            (0, 1 << 32),
        ];
        if state[0] == 3 {
            // A half with more data than the buffer has places.
            bad.extend([(6, 4), (7, 5), (7, DATA_MAX as u64 + 1), (8, 256)]);
        } else {
            bad.extend([(6, 1), (7, 1), (8, 1)]);
        }
        for (word, number) in bad {
            let mut bad = state;
            bad[word] = number;
            for told in everything() {
                refused(bad, told, &DATA, [4, 16], Refusal::Setup);
                refused(bad, told, &long, [4, 0], Refusal::Setup);
            }
        }
    }
    // More than 1,024, in a buffer that is long enough.
    let full = [3, 3, 2, 0, 0, 0, 1, DATA_MAX as u64 + 1, 0];
    refused(full, Told::Timer, &DATA, [2000, 16], Refusal::Setup);
    assert_eq!(
        Sender::from_state([6, 3, 2, 0, 0, 0, 0, 0, 0]).phase(),
        Phase::Unknown
    );
}

#[test]
fn long_data_is_refused_at_every_event() {
    for length in [DATA_MAX + 1, DATA_MAX + 2, 65536, 65536 + 2] {
        let data = vec![0; length];
        for state in states() {
            for told in everything() {
                refused(state, told, &data, [4, 2051], Refusal::TooLong);
                refused(state, told, &data, [4, 0], Refusal::TooLong);
            }
        }
    }
}

#[test]
fn outputs_that_are_too_short() {
    let waiting = [3, 3, 2, 0, 1, 1, 3, 2, 0x41];
    let last = [3, 3, 2, 0, 0, 0, 1, 4, 0x41];
    for (state, told, sends) in [
        ([0, 3, 2, 0, 0, 0, 0, 0, 0], Told::Start, 1),
        ([1, 3, 2, 0, 0, 0, 0, 0, 0], Told::Byte(DLE), 6),
        ([1, 3, 2, 0, 0, 0, 0, 0, 0], Told::Byte(STX), 1),
        ([1, 3, 2, 0, 1, 0, 0, 0, 0], Told::Timer, 1),
        ([2, 3, 2, 0, 2, 0, 0, 0, 0], Told::Byte(NAK), 1),
        (waiting, Told::Byte(0x41), 2),
        (waiting, Told::Byte(0x40), 2),
        (waiting, Told::Timer, 2),
        // The buffer is full.
        (last, Told::Byte(0x41), 2),
        // A half at rest that stays there, and one that opens.
        ([3, 3, 2, 0, 0, 0, 0, 0, 0], Told::Timer, 1),
        ([3, 3, 2, 0, 0, 0, 0, 0, 0], Told::Byte(STX), 1),
    ] {
        for length in 0..sends {
            refused(state, told, &DATA, [4, length], Refusal::OutputShort);
        }
        // Told again with more room, it goes on as one that was not refused.
        let (mut sender, mut plain) = (Sender::from_state(state), Sender::from_state(state));
        let (mut buffer, mut out) = ([0; 4], vec![0; sends]);
        let short = tell(&mut sender, told, &DATA, &mut buffer, &mut out[1..]);
        assert_eq!(short, Err(Refusal::OutputShort));
        let again = tell(&mut sender, told, &DATA, &mut buffer, &mut out);
        let again = again.expect("taken").bytes.to_vec();
        let sending = tell(&mut plain, told, &DATA, &mut buffer, &mut out).expect("taken");
        assert_eq!((&*again, again.len()), (&*sending.bytes, sends));
        assert_eq!(sender, plain);
    }
}
