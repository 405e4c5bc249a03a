//! The sender: opens the line, sends one block and waits until it is acknowledged. Where both
//! ends open at once, the one of low priority yields and receives first.
//!
//! The function is total: no argument makes it panic.

use super::{frame, receive, DLE, MAX_DATA, RESTING, STX};
use super::{Answer as Heard, Event as HalfEvent, Phase as HalfPhase, State as Half};
use crate::refusal::{BAD_SETUP, OUTPUT_TOO_SHORT, TOO_LONG};

/// The least that a limit can be.
pub const MIN_LIMIT: u64 = 1;
/// The most that a limit can be.
pub const MAX_LIMIT: u64 = 255;

/// What an end does where both open at once.
#[derive(Clone, Copy, PartialEq, Eq, Debug)]
pub enum Priority {
    /// It yields.
    Low,
    /// It keeps waiting.
    High,
}

/// Where the sender stands.
#[derive(Clone, Copy, PartialEq, Eq, Debug)]
pub enum Phase {
    /// Nothing has begun.
    Fresh,
    /// The line was opened and the first `DLE` is due.
    Opening,
    /// The block was sent and the second `DLE` is due.
    Awaiting,
    /// The sender yielded and receives by this half.
    Receiving(Half),
    /// The block was acknowledged.
    Sent,
    /// As many attempts failed as a limit allows.
    GaveUp,
}

/// All that the sender remembers between two events, its data and buffer aside.
#[derive(Clone, Copy, PartialEq, Eq, Debug)]
pub struct Sender {
    /// Where it stands.
    pub phase: Phase,
    /// How many connection attempts each block attempt has.
    pub connections: u64,
    /// How many block attempts there are.
    pub blocks: u64,
    /// What it does where both ends open at once.
    pub priority: Priority,
    /// Connection attempts that failed in this block attempt.
    pub failed_connections: u64,
    /// Block attempts that failed.
    pub failed_blocks: u64,
}

impl Sender {
    /// The fresh sender with these limits, which are judged at each event.
    pub fn new(connections: u64, blocks: u64, priority: Priority) -> Self {
        Sender {
            phase: Phase::Fresh,
            connections,
            blocks,
            priority,
            failed_connections: 0,
            failed_blocks: 0,
        }
    }

    /// The same sender with another phase and other counts.
    fn at(self, phase: Phase, failed_connections: u64, failed_blocks: u64) -> Self {
        Sender {
            phase,
            failed_connections,
            failed_blocks,
            ..self
        }
    }
}

/// What can happen to the sender.
#[derive(Clone, Copy, PartialEq, Eq, Debug)]
pub enum Event {
    /// The caller wants the data sent.
    Start,
    /// A byte arrived.
    Byte(u8),
    /// The timer ran out.
    Timer,
}

/// A part of what goes out.
#[derive(Clone, Copy, PartialEq, Eq, Debug)]
pub enum Part {
    /// `STX`, which opens the line.
    Opening,
    /// What an end that yields or receives answers.
    Answer(u8),
    /// The frame of the data.
    Block,
}

/// What the sender gives back for one event.
#[derive(Clone, PartialEq, Eq, Debug)]
pub enum Answer {
    /// The event was taken.
    Taken {
        /// What goes out, in order.
        parts: Vec<Part>,
        /// How many bytes that is; they are in the first places of the output.
        length: usize,
        /// At the end of a yield: the first so many bytes of the buffer are a message.
        message: Option<usize>,
    },
    /// The call was refused with this number.
    Refused(u8),
}

/// Takes one event and gives the answer and the sender that follows.
///
/// `data` are sent as the block, and `buffer` is that of the receiving half. On a refusal the
/// sender is the same, and `buffer` and `out` are untouched.
pub fn send(
    sender: Sender,
    event: Event,
    data: &[u8],
    buffer: &mut [u8],
    out: &mut [u8],
) -> (Answer, Sender) {
    match take(sender, event, data, buffer, out) {
        Ok(taken) => taken,
        Err(number) => (Answer::Refused(number), sender),
    }
}

/// Takes one event, or gives the number of the refusal.
fn take(
    sender: Sender,
    event: Event,
    data: &[u8],
    buffer: &mut [u8],
    out: &mut [u8],
) -> Result<(Answer, Sender), u8> {
    // The half stores into a copy, since the event may still be refused.
    let mut stored = buffer.to_vec();

    judge(sender, &mut stored)?;
    if data.len() > MAX_DATA {
        return Err(TOO_LONG);
    }
    let step = step(sender, event, &mut stored)?;
    let mut bytes = Vec::new();
    for &part in &step.parts {
        bytes.extend(bytes_of(part, data)?);
    }
    let length = bytes.len();
    let place = out.get_mut(..length).ok_or(OUTPUT_TOO_SHORT)?;

    place.copy_from_slice(&bytes);
    buffer.copy_from_slice(&stored);
    let Step {
        parts,
        message,
        next,
    } = step;
    Ok((
        Answer::Taken {
            parts,
            length,
            message,
        },
        next,
    ))
}

/// Refuses a limit out of its bounds, more failed attempts than a limit, and what the half
/// refuses.
fn judge(sender: Sender, buffer: &mut [u8]) -> Result<(), u8> {
    for (failed, limit) in [
        (sender.failed_connections, sender.connections),
        (sender.failed_blocks, sender.blocks),
    ] {
        if !(MIN_LIMIT..=MAX_LIMIT).contains(&limit) || failed > limit {
            return Err(BAD_SETUP);
        }
    }
    // The half refuses a state at every event. The timer stores nothing.
    if let Phase::Receiving(half) = sender.phase {
        if let (Heard::Refused(number), _) = receive(half, HalfEvent::Timer, buffer) {
            return Err(number);
        }
    }
    Ok(())
}

/// What an event that is taken does.
struct Step {
    parts: Vec<Part>,
    message: Option<usize>,
    next: Sender,
}

impl Step {
    /// Sends these parts and receives no message.
    fn of(parts: &[Part], next: Sender) -> Self {
        Step {
            parts: parts.to_vec(),
            message: None,
            next,
        }
    }
}

/// The table, row by row.
fn step(sender: Sender, event: Event, buffer: &mut [u8]) -> Result<Step, u8> {
    use Event::{Byte, Start, Timer};
    use Phase::{Awaiting, Fresh, GaveUp, Opening, Receiving, Sent};

    let (c, b) = (sender.failed_connections, sender.failed_blocks);

    Ok(match (sender.phase, event) {
        (Fresh, Start) => Step::of(&[Part::Opening], sender.at(Opening, 0, 0)),

        (Opening, Byte(DLE)) => Step::of(&[Part::Block], sender.at(Awaiting, c, b)),
        (Opening, Byte(STX)) => match sender.priority {
            Priority::Low => Step::of(&[Part::Answer(DLE)], sender.at(Receiving(INSIDE), 0, 0)),
            Priority::High => Step::of(&[], sender),
        },
        // The limits are at most 255, and no count is above its limit.
        (Opening, Byte(_) | Timer) if c + 1 < sender.connections => {
            Step::of(&[Part::Opening], sender.at(Opening, c + 1, b))
        }
        (Opening, Byte(_) | Timer) => Step::of(&[], sender.at(GaveUp, sender.connections, b)),

        (Awaiting, Byte(DLE)) => Step::of(&[], sender.at(Sent, c, b)),
        (Awaiting, Byte(_) | Timer) if b + 1 < sender.blocks => {
            Step::of(&[Part::Opening], sender.at(Opening, 0, b + 1))
        }
        (Awaiting, Byte(_) | Timer) => Step::of(&[], sender.at(GaveUp, c, sender.blocks)),

        (Receiving(half), Byte(byte)) => hear(sender, half, HalfEvent::Byte(byte), buffer)?,
        (Receiving(half), Timer) => hear(sender, half, HalfEvent::Timer, buffer)?,

        (Fresh, Byte(_) | Timer) | (Opening | Awaiting | Receiving(_), Start) => {
            Step::of(&[], sender)
        }
        (Sent | GaveUp, _) => Step::of(&[], sender),
    })
}

/// The half of a sender that has just yielded.
const INSIDE: Half = Half {
    phase: HalfPhase::Inside { dle_seen: false },
    ..RESTING
};

/// Hands an event to the half; once that is at rest, the sender begins afresh.
fn hear(sender: Sender, half: Half, event: HalfEvent, buffer: &mut [u8]) -> Result<Step, u8> {
    let (heard, half) = receive(half, event, buffer);
    let (answer, message) = match heard {
        Heard::Nothing => (None, None),
        Heard::Send(byte) => (Some(byte), None),
        Heard::Message(count) => (Some(DLE), Some(count)),
        Heard::Refused(number) => return Err(number),
    };
    let mut parts: Vec<Part> = answer.into_iter().map(Part::Answer).collect();
    let next = if half.phase == HalfPhase::Rest {
        parts.push(Part::Opening);
        sender.at(Phase::Opening, 0, 0)
    } else {
        Sender {
            phase: Phase::Receiving(half),
            ..sender
        }
    };
    Ok(Step {
        parts,
        message,
        next,
    })
}

/// The bytes of a part.
fn bytes_of(part: Part, data: &[u8]) -> Result<Vec<u8>, u8> {
    match part {
        Part::Opening => Ok(vec![STX]),
        Part::Answer(byte) => Ok(vec![byte]),
        Part::Block => {
            let mut block = vec![0; 2 * data.len() + 3];
            let length = frame(data, &mut block)?;
            block.truncate(length);
            Ok(block)
        }
    }
}

#[cfg(test)]
mod tests {
    use super::super::NAK;
    use super::*;
    use crate::samples::Random;
    use Priority::{High, Low};

    const FILL: u8 = 0xA5;

    /// What is in a buffer before anything is stored.
    const OLD: u8 = 0x5A;

    /// An output that takes every block.
    const ROOM: usize = 2051;

    const DATA: [u8; 2] = [0x60, 0x10];

    /// The frame of it.
    const FRAME: [u8; 6] = [0x60, 0x10, 0x10, 0x10, 0x03, 0x73];

    fn every_byte() -> impl Iterator<Item = u8> {
        0..=u8::MAX
    }

    fn every_event() -> impl Iterator<Item = Event> {
        let bytes = every_byte().map(Event::Byte);
        bytes.chain([Event::Timer, Event::Start])
    }

    /// What fails an attempt: the timer and every byte but these.
    fn failures(but: &'static [u8]) -> impl Iterator<Item = Event> {
        let bytes = every_byte().filter(move |byte| !but.contains(byte));
        bytes.map(Event::Byte).chain([Event::Timer])
    }

    fn half(phase: HalfPhase, count: usize, check: u8) -> Half {
        Half {
            phase,
            count,
            check,
        }
    }

    const HALF_PHASES: [HalfPhase; 4] = [
        HalfPhase::Rest,
        HalfPhase::Inside { dle_seen: false },
        HalfPhase::Inside { dle_seen: true },
        HalfPhase::Waiting,
    ];

    /// Halves with counts up to three.
    fn halves() -> Vec<Half> {
        let mut halves = Vec::new();
        for phase in HALF_PHASES {
            for count in 0..=3 {
                for check in [0x00, 0x02, 0x03, 0x10, 0x13, 0x15, 0x5A, 0xFF] {
                    halves.push(half(phase, count, check));
                }
            }
        }
        halves
    }

    /// Every phase; receiving with a few halves.
    fn phases() -> Vec<Phase> {
        let halves = HALF_PHASES.map(|phase| Phase::Receiving(half(phase, 1, 0x44)));
        let others = [
            Phase::Fresh,
            Phase::Opening,
            Phase::Awaiting,
            Phase::Sent,
            Phase::GaveUp,
        ];
        [&others[..], &halves].concat()
    }

    /// A sender in this phase, with its limits and counts.
    fn sender(phase: Phase, priority: Priority, limits: (u64, u64), failed: (u64, u64)) -> Sender {
        Sender::new(limits.0, limits.1, priority).at(phase, failed.0, failed.1)
    }

    /// Limits with counts that they allow.
    fn limits_and_counts() -> Vec<((u64, u64), (u64, u64))> {
        let mut all = Vec::new();
        for c in [1, 2, 3, 255] {
            for b in [1, 2, 3, 255] {
                for failed_c in [0, 1, 2, c - 1, c] {
                    for failed_b in [0, 1, 2, b - 1, b] {
                        if failed_c <= c && failed_b <= b {
                            all.push(((c, b), (failed_c, failed_b)));
                        }
                    }
                }
            }
        }
        all
    }

    /// Every good sender in this phase, with both priorities.
    fn senders(phase: Phase) -> impl Iterator<Item = Sender> {
        limits_and_counts()
            .into_iter()
            .flat_map(move |(limits, failed)| {
                [Low, High].map(|priority| sender(phase, priority, limits, failed))
            })
    }

    /// What a taken event gives.
    #[derive(PartialEq, Eq, Debug)]
    struct Taken {
        parts: Vec<Part>,
        sent: Vec<u8>,
        message: Option<usize>,
        next: Sender,
    }

    /// Feeds an event that must be taken, with data, a buffer, and an output that takes all.
    fn taken(sender: Sender, event: Event, data: &[u8], buffer: &mut [u8]) -> Taken {
        let mut out = vec![FILL; ROOM + 1];
        match send(sender, event, data, buffer, &mut out) {
            (
                Answer::Taken {
                    parts,
                    length,
                    message,
                },
                next,
            ) => {
                assert!(out[length..].iter().all(|&b| b == FILL));
                let limits = |s: Sender| (s.connections, s.blocks, s.priority);
                assert_eq!(limits(next), limits(sender));
                out.truncate(length);
                Taken {
                    parts,
                    sent: out,
                    message,
                    next,
                }
            }
            (Answer::Refused(number), _) => panic!("{sender:?} {event:?} refused {number}"),
        }
    }

    /// Feeds an event that must leave a buffer of three as it was and bring no message; gives
    /// what is sent and the phase and counts that follow.
    fn row(sender: Sender, event: Event) -> (Vec<Part>, Phase, u64, u64) {
        let mut buffer = [OLD; 3];
        let taken = taken(sender, event, &DATA, &mut buffer);
        assert_eq!((buffer, taken.message), ([OLD; 3], None));
        let bytes: Vec<u8> = taken
            .parts
            .iter()
            .flat_map(|part| match part {
                Part::Opening => vec![0x02],
                Part::Answer(byte) => vec![*byte],
                Part::Block => FRAME.to_vec(),
            })
            .collect();
        assert_eq!(taken.sent, bytes);
        let next = taken.next;
        (
            taken.parts,
            next.phase,
            next.failed_connections,
            next.failed_blocks,
        )
    }

    /// Nothing is sent, and the sender is the same.
    fn silent(sender: Sender) -> (Vec<Part>, Phase, u64, u64) {
        let (c, b) = (sender.failed_connections, sender.failed_blocks);
        (vec![], sender.phase, c, b)
    }

    // The table, row by row

    #[test]
    fn fresh_start_opens() {
        for sender in senders(Phase::Fresh) {
            let opens = (vec![Part::Opening], Phase::Opening, 0, 0);
            assert_eq!(row(sender, Event::Start), opens);
        }
    }

    #[test]
    fn opening_dle_sends_the_block() {
        for sender in senders(Phase::Opening) {
            let (c, b) = (sender.failed_connections, sender.failed_blocks);
            let sends = (vec![Part::Block], Phase::Awaiting, c, b);
            assert_eq!(row(sender, Event::Byte(0x10)), sends);
        }
    }

    #[test]
    fn opening_stx_yields_at_low_priority() {
        let inside = half(HalfPhase::Inside { dle_seen: false }, 0, 0);
        let yields = (vec![Part::Answer(0x10)], Phase::Receiving(inside), 0, 0);
        for sender in senders(Phase::Opening).filter(|s| s.priority == Low) {
            assert_eq!(row(sender, Event::Byte(0x02)), yields);
        }
        // That is what a half at rest makes of 02.
        let heard = receive(RESTING, HalfEvent::Byte(0x02), &mut []);
        assert_eq!(heard, (Heard::Send(0x10), inside));
    }

    #[test]
    fn opening_stx_is_waited_out_at_high_priority() {
        for sender in senders(Phase::Opening).filter(|s| s.priority == High) {
            assert_eq!(row(sender, Event::Byte(0x02)), silent(sender));
        }
    }

    #[test]
    fn opening_failed() {
        for sender in senders(Phase::Opening) {
            let (c, b) = (sender.failed_connections, sender.failed_blocks);
            let expected = if c + 1 < sender.connections {
                (vec![Part::Opening], Phase::Opening, c + 1, b)
            } else {
                (vec![], Phase::GaveUp, sender.connections, b)
            };
            for event in failures(&[0x02, 0x10]) {
                assert_eq!(row(sender, event), expected);
            }
        }
    }

    #[test]
    fn awaiting_dle_is_sent() {
        for sender in senders(Phase::Awaiting) {
            let (c, b) = (sender.failed_connections, sender.failed_blocks);
            assert_eq!(row(sender, Event::Byte(0x10)), (vec![], Phase::Sent, c, b));
        }
    }

    #[test]
    fn awaiting_failed() {
        for sender in senders(Phase::Awaiting) {
            let (c, b) = (sender.failed_connections, sender.failed_blocks);
            let expected = if b + 1 < sender.blocks {
                (vec![Part::Opening], Phase::Opening, 0, b + 1)
            } else {
                (vec![], Phase::GaveUp, c, sender.blocks)
            };
            // 02 is no better than another byte.
            for event in failures(&[0x10]) {
                assert_eq!(row(sender, event), expected);
            }
        }
    }

    #[test]
    fn receiving_hands_events_to_the_half() {
        for half in halves() {
            for priority in [Low, High] {
                let sender = sender(Phase::Receiving(half), priority, (3, 5), (2, 4));
                for event in failures(&[]) {
                    let half_event = match event {
                        Event::Byte(byte) => HalfEvent::Byte(byte),
                        _ => HalfEvent::Timer,
                    };
                    let (mut buffer, mut half_buffer) = ([OLD; 3], [OLD; 3]);
                    let (heard, after) = receive(half, half_event, &mut half_buffer);
                    let (mut sent, message) = match heard {
                        Heard::Nothing => (vec![], None),
                        Heard::Send(byte) => (vec![byte], None),
                        Heard::Message(count) => (vec![0x10], Some(count)),
                        Heard::Refused(_) => panic!("{half:?}"),
                    };
                    let mut parts: Vec<Part> = sent.iter().map(|&b| Part::Answer(b)).collect();
                    let mut next = sender.at(Phase::Receiving(after), 2, 4);
                    if after.phase == HalfPhase::Rest {
                        sent.push(0x02);
                        parts.push(Part::Opening);
                        next = sender.at(Phase::Opening, 0, 0);
                        // A half that was not at rest does not go there without an answer.
                        assert!(half.phase == HalfPhase::Rest || sent.len() == 2);
                    }
                    let expected = Taken {
                        parts,
                        sent,
                        message,
                        next,
                    };
                    assert_eq!(taken(sender, event, &DATA, &mut buffer), expected);
                    assert_eq!(buffer, half_buffer);
                }
            }
        }
    }

    #[test]
    fn all_else_is_silent() {
        for phase in phases() {
            for sender in senders(phase) {
                for event in every_event() {
                    let is_in_a_row = match phase {
                        Phase::Fresh => event == Event::Start,
                        Phase::Opening | Phase::Awaiting | Phase::Receiving(_) => {
                            event != Event::Start
                        }
                        Phase::Sent | Phase::GaveUp => false,
                    };
                    if !is_in_a_row {
                        assert_eq!(row(sender, event), silent(sender));
                    }
                }
            }
        }
    }

    #[test]
    fn fresh_sender() {
        for (connections, blocks) in [(1, 1), (3, 2), (255, 255), (0, 256), (u64::MAX, 0)] {
            for priority in [Low, High] {
                assert_eq!(
                    Sender::new(connections, blocks, priority),
                    Sender {
                        phase: Phase::Fresh,
                        connections,
                        blocks,
                        priority,
                        failed_connections: 0,
                        failed_blocks: 0,
                    }
                );
            }
        }
    }

    // Refusals

    /// Feeds an event that must be refused and leave everything as it was.
    fn refused(sender: Sender, event: Event, data: &[u8], places: usize, room: usize) -> u8 {
        let mut buffer = vec![OLD; places];
        let mut out = vec![FILL; room];
        let (answer, next) = send(sender, event, data, &mut buffer, &mut out);
        assert_eq!(next, sender);
        assert!(buffer.iter().all(|&b| b == OLD));
        assert!(out.iter().all(|&b| b == FILL));
        match answer {
            Answer::Refused(number) => number,
            Answer::Taken { .. } => panic!("{sender:?} took {event:?}"),
        }
    }

    /// Events that differ by their rows.
    const EVENTS: [Event; 6] = [
        Event::Start,
        Event::Byte(0x02),
        Event::Byte(0x10),
        Event::Byte(0x15),
        Event::Byte(0x44),
        Event::Timer,
    ];

    /// Every phase with every event of those that differ.
    fn phases_and_events() -> impl Iterator<Item = (Phase, Event)> {
        let phases = phases().into_iter();
        phases.flat_map(|phase| EVENTS.map(|event| (phase, event)))
    }

    #[test]
    fn limits_are_1_to_255() {
        for (phase, event) in phases_and_events() {
            for priority in [Low, High] {
                for wrong in [0, 256, 257, 511, 65537, (1 << 32) + 1, u64::MAX] {
                    for limits in [(wrong, 3), (3, wrong), (wrong, wrong)] {
                        let sender = sender(phase, priority, limits, (0, 0));
                        assert_eq!(refused(sender, event, &DATA, 3, ROOM), 1);
                    }
                }
            }
        }
    }

    #[test]
    fn counts_are_at_most_their_limits() {
        for (phase, event) in phases_and_events() {
            for (c, b) in [(1, 1), (1, 255), (255, 1), (2, 3), (255, 255)] {
                for failed in [
                    (c + 1, 0),
                    (0, b + 1),
                    (c + 1, b + 1),
                    (256 + c, b),
                    (c, u64::MAX),
                    (u64::MAX, 0),
                ] {
                    let sender = sender(phase, Low, (c, b), failed);
                    assert_eq!(refused(sender, event, &DATA, 3, ROOM), 1);
                }
                let mut buffer = [OLD; 3];
                taken(
                    sender(phase, Low, (c, b), (c, b)),
                    event,
                    &DATA,
                    &mut buffer,
                );
            }
        }
    }

    #[test]
    fn what_the_half_refuses() {
        for event in every_event() {
            for phase in HALF_PHASES {
                for (places, count) in [
                    (0, 1),
                    (3, 4),
                    (3, 1024),
                    (1024, 1025),
                    (2000, 1025),
                    (2000, usize::MAX),
                ] {
                    let receiving = Phase::Receiving(half(phase, count, 0x44));
                    let sender = sender(receiving, Low, (2, 2), (0, 0));
                    assert_eq!(refused(sender, event, &DATA, places, ROOM), 1);
                }
                for (places, count) in [(0, 0), (3, 3), (1024, 1024), (2000, 1024)] {
                    let receiving = Phase::Receiving(half(phase, count, 0x44));
                    let sender = sender(receiving, Low, (2, 2), (0, 0));
                    taken(sender, event, &DATA, &mut vec![OLD; places]);
                }
            }
        }
    }

    #[test]
    fn data_is_at_most_1024() {
        let (longest, longer, huge) = ([0x10; 1024], [0x10; 1025], vec![0x10; 100_000]);
        for (phase, event) in phases_and_events() {
            for priority in [Low, High] {
                let sender = sender(phase, priority, (2, 2), (1, 1));
                taken(sender, event, &longest, &mut [OLD; 3]);
                assert_eq!(refused(sender, event, &longer, 3, ROOM), 12);
                assert_eq!(refused(sender, event, &huge, 3, ROOM), 12);
            }
        }
    }

    #[test]
    fn output_takes_what_the_event_sends() {
        let tens = [0x10; 1024];
        let samples: [&[u8]; 4] = [&[], &DATA, &[0x03], &tens];
        let receiving = halves().into_iter().map(Phase::Receiving);
        for phase in phases().into_iter().chain(receiving) {
            for (event, data) in EVENTS
                .into_iter()
                .flat_map(|e| samples.map(|data| (e, data)))
            {
                let sender = sender(phase, Low, (2, 2), (0, 0));
                let mut buffer = [OLD; 3];
                let expected = taken(sender, event, data, &mut buffer);
                let length = expected.sent.len();
                for room in [0, 1, 2, length.saturating_sub(2), length.saturating_sub(1)] {
                    if room < length {
                        assert_eq!(refused(sender, event, data, 3, room), 11);
                    }
                }
                for spare in [0, 1, 7] {
                    let mut again = [OLD; 3];
                    let mut out = vec![FILL; length + spare];
                    let (answer, next) = send(sender, event, data, &mut again, &mut out);
                    assert_eq!(
                        answer,
                        Answer::Taken {
                            parts: expected.parts.clone(),
                            length,
                            message: expected.message
                        }
                    );
                    assert_eq!((next, again), (expected.next, buffer));
                    assert_eq!(out[..length], expected.sent);
                    assert!(out[length..].iter().all(|&b| b == FILL));
                }
            }
        }
    }

    #[test]
    fn longest_block() {
        let opening = sender(Phase::Opening, High, (1, 1), (0, 0));
        let event = Event::Byte(0x10);
        assert_eq!(refused(opening, event, &[0x10; 1024], 0, 2050), 11);
        let sent = taken(opening, event, &[0x10; 1024], &mut []).sent;
        assert_eq!(sent.len(), 2051);
        assert_eq!(sent[2048..], [0x10, 0x03, 0x13]);
    }

    #[test]
    fn order_of_refusals() {
        let long = [0x41; 1025];
        let closing = half(HalfPhase::Waiting, 4, 0x44);
        for (phase, event) in [
            (Phase::Fresh, Event::Start),
            (Phase::Opening, Event::Byte(0x10)),
            (Phase::Opening, Event::Byte(0x02)),
            (Phase::Opening, Event::Timer),
            (Phase::Awaiting, Event::Byte(0x15)),
            (Phase::Receiving(closing), Event::Byte(0x44)),
            (Phase::Receiving(closing), Event::Timer),
        ] {
            let good = sender(phase, Low, (2, 2), (0, 0));
            // Everything is wrong, then one fault after the other is gone.
            for (wrong, places) in [
                (
                    Sender {
                        blocks: 256,
                        ..good
                    },
                    4,
                ),
                (
                    Sender {
                        failed_blocks: 3,
                        ..good
                    },
                    4,
                ),
            ] {
                assert_eq!(refused(wrong, event, &long, places, 0), 1);
            }
            if let Phase::Receiving(_) = phase {
                assert_eq!(refused(good, event, &long, 3, 0), 1);
                assert_eq!(refused(good, Event::Start, &long, 3, 0), 1);
            }
            assert_eq!(refused(good, event, &long, 4, 0), 12);
            assert_eq!(refused(good, event, &long[1..], 4, 0), 11);
            taken(good, event, &long[1..], &mut [OLD; 4]);
        }
    }

    #[test]
    fn one_place_is_too_short_for_the_end_of_a_yield() {
        let closing = half(HalfPhase::Waiting, 3, 0x44);
        let sender = sender(Phase::Receiving(closing), Low, (2, 2), (0, 0));
        for event in [Event::Byte(0x44), Event::Byte(0x45), Event::Timer] {
            for room in [0, 1] {
                assert_eq!(refused(sender, event, &[], 3, room), 11);
            }
        }
        let mut out = [FILL; 2];
        let (answer, _) = send(sender, Event::Byte(0x44), &[], &mut [OLD; 3], &mut out);
        let parts = vec![Part::Answer(0x10), Part::Opening];
        let (length, message) = (2, Some(3));
        assert_eq!(
            answer,
            Answer::Taken {
                parts,
                length,
                message
            }
        );
        assert_eq!(out, [0x10, 0x02]);
    }

    // The bound

    /// Openings and blocks since the sender was fresh or yielded.
    #[derive(Clone, Copy, PartialEq, Eq, Default, Debug)]
    struct Count {
        openings: u64,
        blocks: u64,
    }

    impl Count {
        /// Counts what an event sends; at a yield the count begins again.
        fn add(&mut self, before: Sender, parts: &[Part], after: Sender) {
            let number = |wanted| parts.iter().filter(|&&part| part == wanted).count() as u64;
            self.openings += number(Part::Opening);
            self.blocks += number(Part::Block);
            assert!(self.openings <= before.connections * before.blocks);
            assert!(self.blocks <= before.blocks);
            if before.phase == Phase::Opening && matches!(after.phase, Phase::Receiving(_)) {
                *self = Count::default();
            }
        }
    }

    /// Feeds events that make every attempt fail, as late as can be, until the sender gives up.
    fn fail(mut sender: Sender, count: &mut Count, failure: Event) -> Sender {
        while sender.phase != Phase::GaveUp {
            let is_last = sender.failed_connections + 1 == sender.connections;
            let event = match sender.phase {
                Phase::Fresh => Event::Start,
                Phase::Opening if is_last => Event::Byte(0x10),
                _ => failure,
            };
            let Taken { parts, next, .. } = taken(sender, event, &[], &mut []);
            count.add(sender, &parts, next);
            sender = next;
        }
        sender
    }

    #[test]
    fn bound_is_reached() {
        for (c, b) in [(1, 1), (1, 2), (2, 1), (2, 2), (3, 5), (255, 3), (3, 255)] {
            for failure in [Event::Timer, Event::Byte(0x15)] {
                let mut count = Count::default();
                let end = fail(Sender::new(c, b, Low), &mut count, failure);
                assert_eq!((count.openings, count.blocks), (c * b, b));
                assert_eq!((end.failed_connections, end.failed_blocks), (c - 1, b));

                // Behind a yield, whose 10 is not counted and whose 02 is.
                let inside = Phase::Receiving(half(HalfPhase::Waiting, 0, 0));
                let mut count = Count::default();
                fail(sender(inside, Low, (c, b), (0, 0)), &mut count, failure);
                assert_eq!((count.openings, count.blocks), (c * b, b));
            }
        }
    }

    #[test]
    fn greatest_bound_is_reached() {
        let mut count = Count::default();
        let mut sender = Sender::new(255, 255, High);
        let mut out = [FILL; 3];
        let mut event = Event::Start;
        while sender.phase != Phase::GaveUp {
            let (answer, next) = send(sender, event, &[], &mut [], &mut out);
            let Answer::Taken { parts, .. } = answer else {
                panic!("{answer:?}");
            };
            count.add(sender, &parts, next);
            event = match next.phase {
                Phase::Opening if next.failed_connections == 254 => Event::Byte(0x10),
                _ => Event::Timer,
            };
            sender = next;
        }
        assert_eq!((count.openings, count.blocks), (65025, 255));
    }

    #[test]
    fn failed_connections_end_in_gave_up() {
        for c in [1, 2, 3, 255] {
            for b in [1, 2, 255] {
                let mut sender = taken(Sender::new(c, b, High), Event::Start, &[], &mut []).next;
                for failed in 1..c {
                    let Taken { parts, next, .. } = taken(sender, Event::Timer, &[], &mut []);
                    assert_eq!(parts, [Part::Opening]);
                    assert_eq!(
                        (next.phase, next.failed_connections),
                        (Phase::Opening, failed)
                    );
                    sender = next;
                }
                let Taken { parts, next, .. } = taken(sender, Event::Timer, &[], &mut []);
                assert_eq!((parts, next.phase), (vec![], Phase::GaveUp));
            }
        }
    }

    #[test]
    fn bound_holds_of_any_run() {
        let mut random = Random(0x3964);
        let (mut yields, mut over) = (0, 0);
        for _ in 0..6000 {
            let limits = [1, 1, 2, 2, 3, 4, 255];
            let (c, b) = (random.pick(&limits), random.pick(&limits));
            let mut sender = Sender::new(c, b, random.pick(&[Low, Low, High]));
            let mut count = Count::default();
            for _ in 0..60 {
                let event = match random.below(12) {
                    0..=2 => Event::Byte(0x10),
                    3 | 4 => Event::Byte(0x02),
                    5 => Event::Byte(0x15),
                    6 => Event::Byte(0x03),
                    7 => Event::Byte(random.next() as u8),
                    8 | 9 => Event::Timer,
                    _ => Event::Start,
                };
                // Only the sender is passed on.
                let data = vec![0x10; random.pick(&[0, 0, 1, 2, 1024, 1025])];
                let mut buffer = vec![OLD; random.pick(&[0, 1, 3, 3, 20])];
                let mut out = vec![FILL; random.pick(&[0, 1, 2, 5, 9, 9, 2051, 2051])];
                let (answer, next) = send(sender, event, &data, &mut buffer, &mut out);
                match answer {
                    Answer::Taken { parts, .. } => {
                        count.add(sender, &parts, next);
                        yields += usize::from(count == Count::default());
                    }
                    Answer::Refused(_) => assert_eq!(next, sender),
                }
                sender = next;
            }
            over += usize::from(matches!(sender.phase, Phase::Sent | Phase::GaveUp));
        }
        assert!(yields > 1000 && over > 1000, "{yields} {over}");
    }

    // Both ends of a cable

    /// One end of a cable. What comes while the sender has nothing to do goes to another half.
    struct End {
        sender: Sender,
        data: Vec<u8>,
        half: Half,
        buffer: Vec<u8>,
        messages: Vec<Vec<u8>>,
        yields: usize,
        count: Count,
    }

    impl End {
        fn new(connections: u64, blocks: u64, priority: Priority, data: &[u8]) -> Self {
            End {
                sender: Sender::new(connections, blocks, priority),
                data: data.to_vec(),
                half: RESTING,
                buffer: vec![OLD; 1024],
                messages: vec![],
                yields: 0,
                count: Count::default(),
            }
        }

        fn is_busy(&self) -> bool {
            matches!(
                self.sender.phase,
                Phase::Opening | Phase::Awaiting | Phase::Receiving(_)
            )
        }

        /// Takes an event and gives what is sent.
        fn hear(&mut self, event: Event) -> Vec<u8> {
            if self.is_busy() || event == Event::Start {
                let before = self.sender;
                let taken = taken(before, event, &self.data, &mut self.buffer);
                self.sender = taken.next;
                self.count.add(before, &taken.parts, self.sender);
                let is_yield = before.phase == Phase::Opening
                    && matches!(self.sender.phase, Phase::Receiving(_));
                self.yields += usize::from(is_yield);
                if let Some(count) = taken.message {
                    self.messages.push(self.buffer[..count].to_vec());
                }
                return taken.sent;
            }
            let event = match event {
                Event::Byte(byte) => HalfEvent::Byte(byte),
                _ => HalfEvent::Timer,
            };
            let (heard, next) = receive(self.half, event, &mut self.buffer);
            self.half = next;
            match heard {
                Heard::Nothing => vec![],
                Heard::Send(byte) => vec![byte],
                Heard::Message(count) => {
                    self.messages.push(self.buffer[..count].to_vec());
                    vec![0x10]
                }
                Heard::Refused(number) => panic!("{number}"),
            }
        }
    }

    /// Two ends, and what is on its way to each.
    struct Cable {
        ends: [End; 2],
        coming: [Vec<u8>; 2],
    }

    impl Cable {
        /// Ends that both start, or only the first, before they hear anything.
        fn new(ends: [End; 2], starting: usize) -> Self {
            let mut cable = Cable {
                ends,
                coming: [vec![], vec![]],
            };
            for end in 0..starting {
                cable.tell(end, Event::Start);
            }
            cable
        }

        fn tell(&mut self, end: usize, event: Event) {
            let sent = self.ends[end].hear(event);
            self.coming[1 - end].extend(sent);
        }

        /// Has all bytes heard, until nobody sends any more.
        fn settle(&mut self) {
            while let Some(end) = (0..2).find(|&end| !self.coming[end].is_empty()) {
                let byte = self.coming[end].remove(0);
                self.tell(end, Event::Byte(byte));
            }
        }

        /// The timer runs out at both ends at once; then all is heard.
        fn time_out(&mut self) {
            self.tell(0, Event::Timer);
            self.tell(1, Event::Timer);
            self.settle();
        }

        fn phases(&self) -> [Phase; 2] {
            [self.ends[0].sender.phase, self.ends[1].sender.phase]
        }
    }

    #[test]
    fn data_is_delivered_to_a_half() {
        let every: Vec<u8> = (0..=255).collect();
        let long: Vec<u8> = every.iter().copied().cycle().take(1024).collect();
        let samples: [&[u8]; 8] = [
            &[],
            &DATA,
            &[0x10],
            &[0x02],
            &[0x15; 9],
            &every,
            &long,
            &[0x10; 1024],
        ];
        for data in samples {
            for priority in [Low, High] {
                let ends = [
                    End::new(1, 1, priority, data),
                    End::new(1, 1, priority, &[]),
                ];
                let mut cable = Cable::new(ends, 1);
                cable.settle();
                assert_eq!(cable.phases(), [Phase::Sent, Phase::Fresh]);
                assert_eq!(cable.ends[1].messages, [data]);
                let (openings, blocks) = (1, 1);
                assert_eq!(cable.ends[0].count, Count { openings, blocks });
            }
        }
    }

    #[test]
    fn byte_for_byte() {
        // The low end is told 02 as it opens, and receives 60 10 before it sends 03.
        let mut low = End::new(1, 1, Low, &[0x03]);
        assert_eq!(low.hear(Event::Start), [0x02]);
        assert_eq!(low.hear(Event::Byte(0x02)), [0x10]);
        for byte in [0x60, 0x10, 0x10, 0x10, 0x03] {
            assert_eq!(low.hear(Event::Byte(byte)), []);
        }
        assert_eq!(low.hear(Event::Byte(0x73)), [0x10, 0x02]);
        assert_eq!(low.messages, [DATA]);
        assert_eq!(low.hear(Event::Byte(0x10)), [0x03, 0x10, 0x03, 0x10]);
        assert_eq!(low.hear(Event::Byte(0x10)), []);
        assert_eq!(low.sender, Sender::new(1, 1, Low).at(Phase::Sent, 0, 0));
    }

    #[test]
    fn high_end_goes_first() {
        let data: [&[u8]; 2] = [&[0x01, 0x02, 0x10], &[0x10, 0x03, 0x15, 0x02]];
        for (priorities, high) in [([High, Low], 0), ([Low, High], 1)] {
            for limit in [1, 2, 255] {
                let ends = [0, 1].map(|end| End::new(limit, limit, priorities[end], data[end]));
                let mut cable = Cable::new(ends, 2);
                cable.settle();
                assert_eq!(cable.phases(), [Phase::Sent; 2]);
                assert_eq!(cable.ends[0].messages, [data[1]]);
                assert_eq!(cable.ends[1].messages, [data[0]]);
                assert_eq!(cable.ends[high].yields, 0);
                assert_eq!(cable.ends[1 - high].yields, 1);
                let (openings, blocks) = (1, 1);
                for end in cable.ends {
                    assert_eq!(end.count, Count { openings, blocks });
                }
            }
        }
    }

    #[test]
    fn end_of_a_yield_reaches_the_half_of_the_high_end() {
        let mut high = End::new(1, 1, High, &[]);
        assert_eq!(high.hear(Event::Start), [0x02]);
        assert_eq!(high.hear(Event::Byte(0x02)), []);
        assert_eq!(high.hear(Event::Byte(0x10)), [0x10, 0x03, 0x13]);
        assert_eq!(high.hear(Event::Byte(0x10)), []);
        assert_eq!(high.sender.phase, Phase::Sent);
        assert_eq!(high.hear(Event::Byte(0x02)), [0x10]);
        assert_eq!(high.half, INSIDE);
    }

    #[test]
    fn two_low_ends_yield_again_and_again() {
        for (c, b) in [(2, 1), (2, 2), (3, 1), (255, 255)] {
            let ends = [&[0x01], &[0x02]].map(|data| End::new(c, b, Low, data));
            let mut cable = Cable::new(ends, 2);
            cable.settle();
            // Both hear the other's 10 as that of a block.
            let seen = half(HalfPhase::Inside { dle_seen: true }, 0, 0x10);
            assert_eq!(cable.phases(), [Phase::Receiving(seen); 2]);
            // The 02 of the end of the yield comes behind a NAK, which brings another 02: that
            // is data.
            let seen = half(HalfPhase::Inside { dle_seen: true }, 1, 0x12);
            for round in 2..20 {
                cable.time_out();
                assert_eq!(cable.phases(), [Phase::Receiving(seen); 2]);
                for end in &cable.ends {
                    assert_eq!((end.yields, end.messages.len()), (round, 0));
                    let counts = (end.sender.failed_connections, end.sender.failed_blocks);
                    assert_eq!(counts, (0, 0));
                }
            }
        }
    }

    #[test]
    fn two_low_ends_with_one_attempt_give_up() {
        for b in [1, 2, 255] {
            let mut cable = Cable::new([0x01, 0x02].map(|d| End::new(1, b, Low, &[d])), 2);
            cable.settle();
            cable.time_out();
            assert_eq!(cable.phases(), [Phase::GaveUp; 2]);
            assert!(cable.ends.iter().all(|end| end.messages.is_empty()));
        }
    }

    #[test]
    fn two_high_ends_give_up() {
        for c in [1, 2, 3, 255] {
            let mut cable = Cable::new([0x01, 0x02].map(|d| End::new(c, 2, High, &[d])), 2);
            cable.settle();
            for _ in 1..c {
                assert_eq!(cable.phases(), [Phase::Opening; 2]);
                cable.time_out();
            }
            assert_eq!(cable.phases(), [Phase::Opening; 2]);
            cable.time_out();
            assert_eq!(cable.phases(), [Phase::GaveUp; 2]);
            for end in cable.ends {
                assert_eq!((end.count.openings, end.count.blocks), (c, 0));
                assert_eq!((end.yields, end.messages.len()), (0, 0));
            }
        }
    }

    #[test]
    fn block_is_sent_again_to_a_half_without_room() {
        let (mut sender, mut half) = (Sender::new(1, 3, High), RESTING);
        let mut count = Count::default();
        let mut event = Event::Start;
        while sender.phase != Phase::GaveUp {
            let Taken {
                parts, sent, next, ..
            } = taken(sender, event, &[0x41; 5], &mut []);
            count.add(sender, &parts, next);
            sender = next;
            // What comes while the block goes out is not fed, only the answer to its last byte.
            for byte in sent {
                let heard = receive(half, HalfEvent::Byte(byte), &mut [OLD; 4]);
                half = heard.1;
                if let Heard::Send(answer) = heard.0 {
                    event = Event::Byte(answer);
                }
            }
            let expected = match sender.phase {
                Phase::Opening => DLE,
                _ => NAK,
            };
            assert_eq!(event, Event::Byte(expected));
        }
        assert_eq!((count.openings, count.blocks), (3, 3));
    }
}
