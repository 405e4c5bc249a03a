//! Feeding events to the sender. Both ends of a cable are in `cable`.

use super::frame::length_of;
use super::{receive, MEGABYTE};
use crate::answer::sent::MESSAGE;
use crate::answer::{done, refused};
use crate::call::{arguments, Call, Compare, Kind, Outcome, Stop};
use crate::inputs::link::FILLINGS;
use crate::inputs::Random;
use crate::lent::Lent;
use crate::plain;
use hanraquin::sys::{START, TIMER};
use hanraquin::{DATA_MAX, FRAME_MAX};
use reference::link::send::{Answer, Event, Part, Phase, Priority, Sender};
use reference::link::{self, DLE, ETX, NAK, STX};
use reference::refusal::BAD_SETUP;
use std::ops::RangeInclusive;

arguments!(LinkSend, hanraquin_send {
    state: write u64,
    event: number u32,
    data: read u8,
    buffer: write u8,
    out: write u8,
});

fn reference(words: &mut [u64], event: u32, data: &[u8], buffer: &mut [u8], out: &mut [u8]) -> u64 {
    let (Some(before), Some(event)) = (state_of(words), event_of(event)) else {
        return refused(BAD_SETUP);
    };
    let (answer, after) = link::send::send(before, event, data, buffer, out);
    words.copy_from_slice(&words_of(after));
    match answer {
        Answer::Taken { length, message, .. } => done(length + message.map_or(0, |count| MESSAGE * (count + 1))),
        Answer::Refused(number) => refused(number),
    }
}

/// The event that a number stands for.
fn event_of(event: u32) -> Option<Event> {
    match event {
        0..TIMER => Some(Event::Byte(event as u8)),
        TIMER => Some(Event::Timer),
        START => Some(Event::Start),
        _ => None,
    }
}

/// The sender that words stand for, if they are those of one.
fn state_of(words: &[u64]) -> Option<Sender> {
    let &[phase, connections, blocks, priority, failed_connections, failed_blocks, ref half @ ..] = words else {
        return None;
    };
    let half = receive::state_of(half)?;
    let phase = match phase {
        FRESH => Phase::Fresh,
        OPENING => Phase::Opening,
        AWAITING => Phase::Awaiting,
        RECEIVING => Phase::Receiving(half),
        SENT => Phase::Sent,
        GAVE_UP => Phase::GaveUp,
        _ => return None,
    };
    let priority = match priority {
        LOW => Priority::Low,
        HIGH => Priority::High,
        _ => return None,
    };
    let sender = Sender { phase, connections, blocks, priority, failed_connections, failed_blocks };
    // The words of a half that the sender does not have have to be 0.
    (words_of(sender) == words).then_some(sender)
}

/// The words of a sender.
fn words_of(sender: Sender) -> [u64; WORDS] {
    let (phase, half) = match sender.phase {
        Phase::Fresh => (FRESH, [0; 3]),
        Phase::Opening => (OPENING, [0; 3]),
        Phase::Awaiting => (AWAITING, [0; 3]),
        Phase::Receiving(half) => (RECEIVING, receive::words_of(half)),
        Phase::Sent => (SENT, [0; 3]),
        Phase::GaveUp => (GAVE_UP, [0; 3]),
    };
    let priority = match sender.priority {
        Priority::Low => LOW,
        Priority::High => HIGH,
    };
    let [half_phase, count, check] = half;
    let Sender { connections, blocks, failed_connections, failed_blocks, .. } = sender;
    [phase, connections, blocks, priority, failed_connections, failed_blocks, half_phase, count, check]
}

/// How many words a state has.
pub const WORDS: usize = 9;

/// The words of a state, by their places; the last three are those of the half.
pub const PHASE: usize = 0;
const CONNECTIONS: usize = 1;
const BLOCKS: usize = 2;
pub const PRIORITY: usize = 3;
const FAILED_CONNECTIONS: usize = 4;
const FAILED_BLOCKS: usize = 5;
const HALF: usize = 6;
const COUNT: usize = 7;
const CHECK: usize = 8;

/// The phases by their numbers.
pub const FRESH: u64 = 0;
pub const OPENING: u64 = 1;
pub const AWAITING: u64 = 2;
pub const RECEIVING: u64 = 3;
pub const SENT: u64 = 4;
pub const GAVE_UP: u64 = 5;

/// The phases of the half by their numbers.
pub const REST: u64 = 0;
const INSIDE: u64 = 1;
const AFTER_DLE: u64 = 2;
const WAITING: u64 = 3;

/// The priorities by their numbers.
pub const LOW: u64 = 0;
pub const HIGH: u64 = 1;

/// The bounds of the limits.
const MIN_LIMIT: u64 = 1;
const MAX_LIMIT: u64 = 255;

/// The words of a fresh sender.
pub const fn fresh(connections: u64, blocks: u64, priority: u64) -> [u64; WORDS] {
    [FRESH, connections, blocks, priority, 0, 0, 0, 0, 0]
}

/// An event in a state, with data, and with a buffer and an output of so many places.
pub fn send(state: &[u64], event: u32, data: &[u8], places: usize, room: usize) -> LinkSend {
    LinkSend { state: state.into(), event, data: data.into(), buffer: Lent::output(places), out: Lent::output(room) }
}

/// The words of the half outside the receiving phase.
const NO_HALF: [u64; 3] = [0; 3];

impl LinkSend {
    fn is_byte(&self, byte: u8) -> bool {
        self.event == u32::from(byte)
    }

    /// Whether the event is taken in this phase.
    fn is_taken(&self, outcome: &Outcome<LinkSend>, phase: u64) -> bool {
        outcome.is_done() && self.state[PHASE] == phase
    }

    /// The words of the same sender in another phase, with other counts and another half.
    fn words(&self, phase: u64, failed: [u64; 2], half: [u64; 3]) -> [u64; WORDS] {
        let [connections, blocks, priority] = [CONNECTIONS, BLOCKS, PRIORITY].map(|word| self.state[word]);
        [phase, connections, blocks, priority, failed[0], failed[1], half[0], half[1], half[2]]
    }

    /// The attempts that have failed, of connections and of blocks.
    fn failed(&self) -> [u64; 2] {
        [self.state[FAILED_CONNECTIONS], self.state[FAILED_BLOCKS]]
    }

    /// Whether these bytes are sent, no message has come, and these are the words afterwards.
    fn goes(&self, outcome: &Outcome<LinkSend>, to: [u64; WORDS], bytes: &[u8]) -> bool {
        outcome.answer == done(bytes.len()) && *outcome.after.state == to && outcome.after.out.starts_with(bytes)
    }

    /// Whether nothing is sent in this phase, and all stays as it was.
    fn stays(&self, outcome: &Outcome<LinkSend>, phase: u64) -> bool {
        self.is_taken(outcome, phase) && outcome.value() == 0 && *outcome.after.state == *self.state
    }

    fn starts(&self, outcome: &Outcome<LinkSend>) -> bool {
        let is_start = self.is_taken(outcome, FRESH) && self.event == START;
        is_start && self.goes(outcome, self.words(OPENING, [0, 0], NO_HALF), &[STX])
    }

    fn sends_block(&self, outcome: &Outcome<LinkSend>) -> bool {
        let is_connected = self.is_taken(outcome, OPENING) && self.is_byte(DLE);
        is_connected && outcome.value() == length_of(&self.data) && {
            let block = &outcome.after.out[..outcome.value()];
            self.goes(outcome, self.words(AWAITING, self.failed(), NO_HALF), block)
        }
    }

    fn yields(&self, outcome: &Outcome<LinkSend>) -> bool {
        let is_collision = self.is_taken(outcome, OPENING) && self.is_byte(STX);
        is_collision && self.state[PRIORITY] == LOW && {
            self.goes(outcome, self.words(RECEIVING, [0, 0], [INSIDE, 0, 0]), &[DLE])
        }
    }

    /// Whether a connection attempt fails, and whether there is another one.
    fn fails_to_connect(&self, another: bool) -> bool {
        let is_failure = self.event <= TIMER && !self.is_byte(DLE) && !self.is_byte(STX);
        is_failure && (self.state[FAILED_CONNECTIONS] + 1 < self.state[CONNECTIONS]) == another
    }

    fn connects_again(&self, outcome: &Outcome<LinkSend>) -> bool {
        self.is_taken(outcome, OPENING) && self.fails_to_connect(true) && {
            let [connections, blocks] = self.failed();
            self.goes(outcome, self.words(OPENING, [connections + 1, blocks], NO_HALF), &[STX])
        }
    }

    fn gives_up_connecting(&self, outcome: &Outcome<LinkSend>) -> bool {
        self.is_taken(outcome, OPENING) && self.fails_to_connect(false) && {
            let failed = [self.state[CONNECTIONS], self.state[FAILED_BLOCKS]];
            self.goes(outcome, self.words(GAVE_UP, failed, NO_HALF), &[])
        }
    }

    fn is_sent(&self, outcome: &Outcome<LinkSend>) -> bool {
        let is_acknowledged = self.is_taken(outcome, AWAITING) && self.is_byte(DLE);
        is_acknowledged && self.goes(outcome, self.words(SENT, self.failed(), NO_HALF), &[])
    }

    /// Whether a block attempt fails, and whether there is another one.
    fn fails_to_send(&self, another: bool) -> bool {
        let is_failure = self.event <= TIMER && !self.is_byte(DLE);
        is_failure && (self.state[FAILED_BLOCKS] + 1 < self.state[BLOCKS]) == another
    }

    fn begins_again(&self, outcome: &Outcome<LinkSend>) -> bool {
        self.is_taken(outcome, AWAITING) && self.fails_to_send(true) && {
            let failed = [0, self.state[FAILED_BLOCKS] + 1];
            self.goes(outcome, self.words(OPENING, failed, NO_HALF), &[STX])
        }
    }

    fn gives_up_sending(&self, outcome: &Outcome<LinkSend>) -> bool {
        self.is_taken(outcome, AWAITING) && self.fails_to_send(false) && {
            let failed = [self.state[FAILED_CONNECTIONS], self.state[BLOCKS]];
            self.goes(outcome, self.words(GAVE_UP, failed, NO_HALF), &[])
        }
    }

    /// Whether the half is in this phase, and takes a byte or the timer.
    fn hears(&self, outcome: &Outcome<LinkSend>, half: u64, timer: bool) -> bool {
        let is_heard = self.is_taken(outcome, RECEIVING) && self.event != START;
        is_heard && self.state[HALF] == half && (self.event == TIMER) == timer
    }

    /// Whether a byte leads the half from one phase to another that is not rest, and these bytes are
    /// sent.
    fn listens(&self, outcome: &Outcome<LinkSend>, from: u64, to: u64, bytes: &[u8]) -> bool {
        self.hears(outcome, from, false) && outcome.after.state[HALF] == to && {
            let half = [to, outcome.after.state[COUNT], outcome.after.state[CHECK]];
            self.goes(outcome, self.words(RECEIVING, self.failed(), half), bytes)
        }
    }

    /// Whether the half answers NAK.
    fn is_rejected(&self) -> bool {
        let is_full = self.state[COUNT] >= self.buffer.len().min(DATA_MAX) as u64;
        let (is_timer, is_byte) = (self.event == TIMER, |byte| self.is_byte(byte));
        let is_rejected = match self.state[HALF] {
            REST => !is_timer && !is_byte(STX) && !is_byte(NAK),
            INSIDE => is_timer || is_full && !is_byte(DLE),
            AFTER_DLE => is_timer || !is_byte(ETX) && (is_full || !is_byte(DLE)),
            _ => u64::from(self.event) != self.state[CHECK],
        };
        is_rejected && self.event != START
    }

    /// Whether the half has a message.
    fn is_message(&self) -> bool {
        self.state[HALF] == WAITING && u64::from(self.event) == self.state[CHECK]
    }

    /// Whether the yield ends in this phase of the half, by a byte or by the timer, with these bytes.
    fn ends_yield(&self, outcome: &Outcome<LinkSend>, half: u64, timer: bool, bytes: &[u8]) -> bool {
        let is_end = self.hears(outcome, half, timer);
        is_end && self.goes(outcome, self.words(OPENING, [0, 0], NO_HALF), bytes)
    }

    /// The same with NAK before the opening.
    fn rejects(&self, outcome: &Outcome<LinkSend>, half: u64, timer: bool) -> bool {
        self.ends_yield(outcome, half, timer, &[NAK, STX]) && self.is_rejected()
    }

    /// Whether the yield ends with a message.
    fn brings_message(&self, outcome: &Outcome<LinkSend>) -> bool {
        self.hears(outcome, WAITING, false)
            && self.is_message()
            && outcome.value() == 2 + MESSAGE * (self.state[COUNT] as usize + 1)
            && *outcome.after.state == self.words(OPENING, [0, 0], NO_HALF)
            && outcome.after.out.starts_with(&[DLE, STX])
    }

    /// Whether it is refused with this number, and all is kept.
    fn is_refused(&self, outcome: &Outcome<LinkSend>, number: u8) -> bool {
        outcome.refused(number)
            && *outcome.after.state == *self.state
            && *outcome.after.buffer == *self.buffer
            && *outcome.after.out == *self.out
    }

    /// Whether it is refused with 1 for a word of the half.
    fn has_bad_half(&self, outcome: &Outcome<LinkSend>, word: usize, most: u64) -> bool {
        self.is_refused(outcome, 1) && self.state[PHASE] == RECEIVING && self.state[word] > most
    }

    /// Whether it is refused with 1 for a word of the half in a phase that has none.
    fn has_surplus(&self, outcome: &Outcome<LinkSend>, word: usize) -> bool {
        self.is_refused(outcome, 1) && self.state[PHASE] != RECEIVING && self.state[word] != 0
    }

    /// Whether it is refused with 11 in this phase, with an output of fewer places.
    fn is_short(&self, outcome: &Outcome<LinkSend>, phase: u64, places: usize) -> bool {
        self.is_refused(outcome, 11) && self.state[PHASE] == phase && self.out.len() < places
    }

    /// Whether it is refused with 11 as the half answers in this phase.
    fn is_short_in(&self, outcome: &Outcome<LinkSend>, half: u64, places: usize) -> bool {
        self.is_short(outcome, RECEIVING, places) && self.state[HALF] == half
    }

    /// Whether it is refused with 11 for a block.
    fn is_short_for_block(&self, outcome: &Outcome<LinkSend>) -> bool {
        self.is_byte(DLE) && self.is_short(outcome, OPENING, length_of(&self.data))
    }
}

/// The number of a refusal, and a reason for it.
type Reason = (u8, fn(&LinkSend) -> bool);

/// What a sender can be refused for in each phase.
const REASONS: [Reason; 9] = [
    (1, |s| s.event > START),
    (1, |s| s.state[PRIORITY] > HIGH),
    (1, |s| s.state[CONNECTIONS] < MIN_LIMIT),
    (1, |s| s.state[CONNECTIONS] > MAX_LIMIT),
    (1, |s| s.state[BLOCKS] < MIN_LIMIT),
    (1, |s| s.state[BLOCKS] > MAX_LIMIT),
    (1, |s| s.state[FAILED_CONNECTIONS] > s.state[CONNECTIONS]),
    (1, |s| s.state[FAILED_BLOCKS] > s.state[BLOCKS]),
    (12, |s| s.data.len() > DATA_MAX),
];

/// How many phases there are.
const PHASES: usize = 6;

impl Call for LinkSend {
    const NAME: &'static str = "send";
    const PLAIN: Self::Function = plain::send;
    const REFERENCE: Self::Function = reference;
    const KINDS: &'static [Kind<LinkSend>] = &[
        ("opens, at the start", |s, o| s.starts(o)),
        ("sends the block, no data", |s, o| s.sends_block(o) && s.data.is_empty()),
        ("sends the block, the longest", |s, o| s.sends_block(o) && o.value() == FRAME_MAX),
        ("sends the block", |s, o| s.sends_block(o)),
        ("yields", |s, o| s.yields(o) && s.failed() == [0, 0]),
        ("yields, attempts have failed", |s, o| s.yields(o)),
        ("keeps waiting, 02 at high priority", |s, o| {
            s.stays(o, OPENING) && s.is_byte(STX) && s.state[PRIORITY] == HIGH
        }),
        ("connects again, NAK", |s, o| s.connects_again(o) && s.is_byte(NAK)),
        ("connects again, the timer", |s, o| s.connects_again(o) && s.event == TIMER),
        ("connects again, another byte", |s, o| s.connects_again(o)),
        ("gave up by connections, their limit reached before", |s, o| {
            s.gives_up_connecting(o) && s.state[FAILED_CONNECTIONS] == s.state[CONNECTIONS]
        }),
        ("gave up by connections, NAK", |s, o| s.gives_up_connecting(o) && s.is_byte(NAK)),
        ("gave up by connections, the timer", |s, o| s.gives_up_connecting(o) && s.event == TIMER),
        ("gave up by connections, another byte", |s, o| s.gives_up_connecting(o)),
        ("sent", |s, o| s.is_sent(o)),
        ("begins another block, 02", |s, o| s.begins_again(o) && s.is_byte(STX)),
        ("begins another block, NAK", |s, o| s.begins_again(o) && s.is_byte(NAK)),
        ("begins another block, the timer", |s, o| s.begins_again(o) && s.event == TIMER),
        ("begins another block, another byte", |s, o| s.begins_again(o)),
        ("gave up by blocks, their limit reached before", |s, o| {
            s.gives_up_sending(o) && s.state[FAILED_BLOCKS] == s.state[BLOCKS]
        }),
        ("gave up by blocks, 02", |s, o| s.gives_up_sending(o) && s.is_byte(STX)),
        ("gave up by blocks, NAK", |s, o| s.gives_up_sending(o) && s.is_byte(NAK)),
        ("gave up by blocks, the timer", |s, o| s.gives_up_sending(o) && s.event == TIMER),
        ("gave up by blocks, another byte", |s, o| s.gives_up_sending(o)),
        ("receives, data", |s, o| s.listens(o, INSIDE, INSIDE, &[])),
        ("receives, a DLE", |s, o| s.listens(o, INSIDE, AFTER_DLE, &[]) && s.is_byte(DLE)),
        ("receives, a doubled DLE", |s, o| s.listens(o, AFTER_DLE, INSIDE, &[]) && s.is_byte(DLE)),
        ("receives, the end of data", |s, o| s.listens(o, AFTER_DLE, WAITING, &[]) && s.is_byte(ETX)),
        ("receives, 02 at rest", |s, o| s.listens(o, REST, INSIDE, &[DLE]) && s.is_byte(STX)),
        ("yield ends, 02 alone, NAK at rest", |s, o| s.ends_yield(o, REST, false, &[STX]) && s.is_byte(NAK)),
        ("yield ends, 02 alone, the timer at rest", |s, o| s.ends_yield(o, REST, true, &[STX])),
        ("yield ends, another byte at rest", |s, o| s.rejects(o, REST, false)),
        ("yield ends, no room inside", |s, o| s.rejects(o, INSIDE, false)),
        ("yield ends, no room after a DLE", |s, o| s.rejects(o, AFTER_DLE, false) && s.is_byte(DLE)),
        ("yield ends, another byte after a DLE", |s, o| s.rejects(o, AFTER_DLE, false)),
        ("yield ends, wrong check byte", |s, o| s.rejects(o, WAITING, false)),
        ("yield ends, the timer inside", |s, o| s.rejects(o, INSIDE, true)),
        ("yield ends, the timer after a DLE", |s, o| s.rejects(o, AFTER_DLE, true)),
        ("yield ends, the timer while waiting", |s, o| s.rejects(o, WAITING, true)),
        ("yield ends, message of 0 bytes", |s, o| s.brings_message(o) && s.state[COUNT] == 0),
        ("yield ends, message of the longest", |s, o| s.brings_message(o) && s.state[COUNT] == DATA_MAX as u64),
        ("yield ends, message", |s, o| s.brings_message(o)),
        ("nothing, the timer when fresh", |s, o| s.stays(o, FRESH) && s.event == TIMER),
        ("nothing, a byte when fresh", |s, o| s.stays(o, FRESH) && s.event < TIMER),
        ("nothing, start while opening", |s, o| s.stays(o, OPENING) && s.event == START),
        ("nothing, start while awaiting", |s, o| s.stays(o, AWAITING) && s.event == START),
        ("nothing, start while receiving", |s, o| s.stays(o, RECEIVING) && s.event == START),
        ("nothing, start after sent", |s, o| s.stays(o, SENT) && s.event == START),
        ("nothing, the timer after sent", |s, o| s.stays(o, SENT) && s.event == TIMER),
        ("nothing, a byte after sent", |s, o| s.stays(o, SENT)),
        ("nothing, start after gave up", |s, o| s.stays(o, GAVE_UP) && s.event == START),
        ("nothing, the timer after gave up", |s, o| s.stays(o, GAVE_UP) && s.event == TIMER),
        ("nothing, a byte after gave up", |s, o| s.stays(o, GAVE_UP)),
        ("refused 1, length of the state", |s, o| s.is_refused(o, 1) && s.state.len() != WORDS),
        ("refused 1, event from a signed char", |s, o| s.is_refused(o, 1) && s.event >= 0xFFFF_FF80),
        ("refused 1, event above 257", |s, o| s.is_refused(o, 1) && s.event > START),
        ("refused 1, phase", |s, o| s.is_refused(o, 1) && s.state[PHASE] > GAVE_UP),
        ("refused 1, priority", |s, o| s.is_refused(o, 1) && s.state[PRIORITY] > HIGH),
        ("refused 1, no connections", |s, o| s.is_refused(o, 1) && s.state[CONNECTIONS] < MIN_LIMIT),
        ("refused 1, too many connections", |s, o| s.is_refused(o, 1) && s.state[CONNECTIONS] > MAX_LIMIT),
        ("refused 1, no blocks", |s, o| s.is_refused(o, 1) && s.state[BLOCKS] < MIN_LIMIT),
        ("refused 1, too many blocks", |s, o| s.is_refused(o, 1) && s.state[BLOCKS] > MAX_LIMIT),
        ("refused 1, connections over their limit", |s, o| {
            s.is_refused(o, 1) && s.state[FAILED_CONNECTIONS] > s.state[CONNECTIONS]
        }),
        ("refused 1, blocks over their limit", |s, o| s.is_refused(o, 1) && s.state[FAILED_BLOCKS] > s.state[BLOCKS]),
        ("refused 1, surplus phase of the half", |s, o| s.has_surplus(o, HALF)),
        ("refused 1, surplus count of the half", |s, o| s.has_surplus(o, COUNT)),
        ("refused 1, surplus check of the half", |s, o| s.has_surplus(o, CHECK)),
        ("refused 1, phase of the half", |s, o| s.has_bad_half(o, HALF, WAITING)),
        ("refused 1, check of the half", |s, o| s.has_bad_half(o, CHECK, 0xFF)),
        ("refused 1, count of the half at the start", |s, o| {
            s.has_bad_half(o, COUNT, s.buffer.len().min(DATA_MAX) as u64) && s.event == START
        }),
        ("refused 1, count of the half over 1,024", |s, o| s.has_bad_half(o, COUNT, DATA_MAX as u64)),
        ("refused 1, count of the half over the buffer", |s, o| s.has_bad_half(o, COUNT, s.buffer.len() as u64)),
        ("refused 12, the block is due", |s, o| {
            s.is_refused(o, 12) && s.data.len() > DATA_MAX && s.state[PHASE] == OPENING && s.is_byte(DLE)
        }),
        ("refused 12", |s, o| s.is_refused(o, 12) && s.data.len() > DATA_MAX),
        ("refused 11, at the start", |s, o| s.is_short(o, FRESH, 1) && s.event == START),
        ("refused 11, the block, one place missing", |s, o| {
            s.is_short_for_block(o) && s.out.len() + 1 == length_of(&s.data)
        }),
        ("refused 11, the block, no place", |s, o| s.is_short_for_block(o) && s.out.is_empty()),
        ("refused 11, the block", |s, o| s.is_short_for_block(o)),
        ("refused 11, yields", |s, o| s.is_short(o, OPENING, 1) && s.is_byte(STX) && s.state[PRIORITY] == LOW),
        ("refused 11, connects again", |s, o| s.is_short(o, OPENING, 1) && s.fails_to_connect(true)),
        ("refused 11, begins another block", |s, o| s.is_short(o, AWAITING, 1) && s.fails_to_send(true)),
        ("refused 11, receives, 02 at rest", |s, o| s.is_short_in(o, REST, 1) && s.is_byte(STX)),
        ("refused 11, yield ends, 02 alone, NAK at rest", |s, o| s.is_short_in(o, REST, 1) && s.is_byte(NAK)),
        ("refused 11, yield ends, 02 alone, the timer at rest", |s, o| s.is_short_in(o, REST, 1) && s.event == TIMER),
        ("refused 11, yield ends, no place", |s, o| s.is_short(o, RECEIVING, 1) && s.is_rejected()),
        ("refused 11, yield ends, one place", |s, o| s.is_short(o, RECEIVING, 2) && s.is_rejected()),
        ("refused 11, yield ends, message, no place", |s, o| s.is_short(o, RECEIVING, 1) && s.is_message()),
        ("refused 11, yield ends, message, one place", |s, o| s.is_short(o, RECEIVING, 2) && s.is_message()),
    ];
    /// Every reason in every phase.
    const NUMBERS: RangeInclusive<usize> = 0..=REASONS.len() * PHASES - 1;

    fn number(&self, outcome: &Outcome<LinkSend>) -> Option<usize> {
        let phase = self.state.first().map_or(PHASES, |&phase| phase.min(PHASES as u64) as usize);
        if self.state.len() != WORDS || phase == PHASES {
            return None;
        }
        let reason = REASONS.iter().position(|(_, is_reason)| is_reason(self))?;
        outcome.refused(REASONS[reason].0).then_some(reason * PHASES + phase)
    }

    fn generate(random: &mut Random, compare: &mut Compare<LinkSend>) -> Result<(), Stop> {
        every_event(random, compare)?;
        every_limit(random, compare)?;
        every_data(random, compare)?;
        every_output(random, compare)?;
        every_buffer(random, compare)?;
        wrong_states(random, compare)?;
        wrong_lengths(random, compare)?;
        as_far_as_the_limits(random, compare)?;
        streams(random, compare)
    }
}

impl Random {
    /// A limit that can be, mostly at its bounds.
    pub fn attempts(&mut self) -> u64 {
        let any = 1 + self.below(MAX_LIMIT as usize) as u64;
        self.pick(&[MIN_LIMIT, MIN_LIMIT, 2, 2, 3, MAX_LIMIT - 1, MAX_LIMIT, any])
    }

    /// A count that this limit allows, mostly at its bounds.
    fn failed(&mut self, limit: u64) -> u64 {
        let any = self.below(limit as usize + 1) as u64;
        self.pick(&[0, 1, limit.saturating_sub(2), limit - 1, limit, any]).min(limit)
    }

    /// The words of a sender in this phase; those of its half are in this phase of the half, with a
    /// buffer of so many places.
    fn sender(&mut self, phase: u64, half: u64, places: usize) -> [u64; WORDS] {
        let (connections, blocks) = (self.attempts(), self.attempts());
        let (most, any) = (places.min(DATA_MAX), self.below(places.min(DATA_MAX) + 1));
        let count = self.pick(&[0, any, most.saturating_sub(1), most]) as u64;
        let [half, count, check] = match phase {
            RECEIVING => [half, count, self.byte().into()],
            _ => NO_HALF,
        };
        let (failed_connections, failed_blocks) = (self.failed(connections), self.failed(blocks));
        let priority = self.pick(&[LOW, HIGH]);
        [phase, connections, blocks, priority, failed_connections, failed_blocks, half, count, check]
    }

    /// One event of each kind.
    fn some_events(&mut self) -> [u32; 6] {
        [START, TIMER, STX.into(), DLE.into(), NAK.into(), self.byte().into()]
    }

    /// A few bytes of data, often none or 10.
    fn short_data(&mut self) -> Vec<u8> {
        let (length, filling) = (self.below(5), self.pick(&FILLINGS));
        self.fill(length, filling)
    }
}

/// The phases, each with every phase of its half.
fn phases() -> impl Iterator<Item = (u64, u64)> {
    let halves = |phase| if phase == RECEIVING { REST..=WAITING } else { REST..=REST };
    (FRESH..=GAVE_UP).flat_map(move |phase| halves(phase).map(move |half| (phase, half)))
}

/// Events that there are not; most look like one if they are cut down, or are a byte from a signed
/// char.
#[rustfmt::skip]
const WRONG_EVENTS: [u32; 16] = [
    258, 0x102, 0x110, 0x115, 511, 512, 513, 0xFFFF, 0x1_0000, 0x1_0010, 0x1_0101, 0x8000_0002,
    0xFFFF_FF00, 0xFFFF_FF80, 0xFFFF_FF82, u32::MAX,
];

/// Every event, and numbers that look like one if they are cut down, in every phase, with few data
/// and with short buffers and outputs.
fn every_event(random: &mut Random, compare: &mut Compare<LinkSend>) -> Result<(), Stop> {
    let cut_down = [0x100, 0x200, 0x1_0000, 0x8000_0000, 0xFFFF_FF00];
    let above = cut_down.into_iter().flat_map(|more| more + 1..=more + 0xFF);
    for event in (0..=START).chain(above) {
        let times = if event <= START { 5 } else { 1 };
        for (phase, half) in phases().flat_map(|phases| vec![phases; times]) {
            let (places, room) = (random.below(4), random.pick(&[0, 1, 2, 3, 11]));
            let mut state = random.sender(phase, half, places);
            if (phase, half) == (RECEIVING, WAITING) && random.once_in(2) {
                state[CHECK] = u64::from(event as u8);
            }
            compare(&send(&state, event, &random.short_data(), places, room))?;
        }
    }
    Ok(())
}

/// Limits that can be and that cannot, also such as look well if they are cut down; counts about them.
fn every_limit(random: &mut Random, compare: &mut Compare<LinkSend>) -> Result<(), Stop> {
    #[rustfmt::skip]
    let odd = [
        0, 256, 257, 258, 511, 512, 65535, 65536, 65537, 1 << 32, (1 << 32) + 1, (1 << 32) + 255, 1 << 63,
        u64::MAX - 1, u64::MAX,
    ];
    for limit in (MIN_LIMIT..=MAX_LIMIT).chain(odd) {
        let below = [limit.wrapping_sub(2), limit.wrapping_sub(1), limit, limit.wrapping_add(1)];
        let more = [0, random.pick(&odd), random.below(300) as u64, limit.wrapping_add(1 << 32)];
        for failed in below.into_iter().chain(more) {
            for (limited, counted) in [(CONNECTIONS, FAILED_CONNECTIONS), (BLOCKS, FAILED_BLOCKS)] {
                for phase in FRESH..=GAVE_UP {
                    let mut state = random.sender(phase, INSIDE, 2);
                    (state[limited], state[counted]) = (limit, failed);
                    let events = random.some_events();
                    compare(&send(&state, random.pick(&events), &random.short_data(), 2, 11))?;
                }
            }
        }
    }
    Ok(())
}

/// Data of every length where the block is due, with outputs of lengths about that of the block; and
/// data that is too long, or just not, in every phase.
fn every_data(random: &mut Random, compare: &mut Compare<LinkSend>) -> Result<(), Stop> {
    for length in (0..=1030).chain([2048, 2049, 5_000, 65536, 65540, MEGABYTE]) {
        let filling = random.pick(&FILLINGS);
        let data = random.fill(length, filling);
        let (state, exact) = (random.sender(OPENING, REST, 0), length_of(&data));
        let rooms = [exact, exact - 1, exact + 1, random.below(exact), random.below(3), FRAME_MAX];
        for room in rooms.into_iter().take(if length < MEGABYTE { 6 } else { 1 }) {
            compare(&send(&state, DLE.into(), &data, 0, room))?;
        }
    }
    for room in [FRAME_MAX - 1, FRAME_MAX, FRAME_MAX + 1] {
        let state = random.sender(OPENING, REST, 0);
        compare(&send(&state, DLE.into(), &[DLE; DATA_MAX], 0, room))?;
    }
    for filling in FILLINGS {
        let data = random.fill(DATA_MAX + 2, filling);
        for (length, (phase, half)) in (DATA_MAX - 1..=DATA_MAX + 2).flat_map(|n| phases().map(move |p| (n, p))) {
            for event in random.some_events() {
                let state = random.sender(phase, half, 3);
                let room = random.pick(&[0, 1, 2, FRAME_MAX]);
                compare(&send(&state, event, &data[..length], 3, room))?;
            }
        }
    }
    for (phase, half) in phases() {
        let state = random.sender(phase, half, 3);
        compare(&send(&state, TIMER, &vec![DLE; MEGABYTE], 3, 11))?;
    }
    Ok(())
}

/// Outputs of few places for every event that sends, in every phase and with every end of a yield.
fn every_output(random: &mut Random, compare: &mut Compare<LinkSend>) -> Result<(), Stop> {
    for (phase, half) in phases().flat_map(|phases| [phases; 4]) {
        for (room, priority) in (0..=4).chain([65536]).flat_map(|room| [LOW, HIGH].map(|priority| (room, priority))) {
            let (mut state, data) = (random.sender(phase, half, 3), random.short_data());
            state[PRIORITY] = priority;
            let check = state[CHECK] as u32;
            for event in random.some_events().into_iter().chain([ETX.into(), check]) {
                compare(&send(&state, event, &data, 3, room))?;
            }
        }
    }
    Ok(())
}

/// Numbers that are too great for a count of the half; some do not look so if they are cut down.
const HUGE: [u64; 6] = [65536, 65537, 1 << 32, (1 << 32) + 1, 1 << 63, u64::MAX];

/// Buffers of many lengths while receiving, with counts about them and about 1,024.
fn every_buffer(random: &mut Random, compare: &mut Compare<LinkSend>) -> Result<(), Stop> {
    for places in (0..=20).chain(1015..=1030).chain([300, 2048, 65536, 65537, MEGABYTE]) {
        let length = places as u64;
        let mut counts = vec![0, length, length + 1, length.saturating_sub(1), 1023, 1024, 1025];
        counts.push(random.pick(&HUGE));
        for (count, half) in counts.into_iter().flat_map(|count| [0, 1, 2, 3].map(|half| (count, half))) {
            let mut state = random.sender(RECEIVING, half, places);
            state[COUNT] = count;
            let check = state[CHECK] as u32;
            for event in random.some_events().into_iter().chain([ETX.into(), check]) {
                if places < MEGABYTE || random.once_in(16) {
                    let room = random.pick(&[2, 2, 2, 1, 0, 11]);
                    compare(&send(&state, event, &[], places, room))?;
                }
            }
        }
    }
    Ok(())
}

/// Words that no state has, or few; and what looks like another word if it is cut down.
fn odd_words(word: u64) -> Vec<u64> {
    let mut odd = vec![1, 2, 3, 4, 5, 6, 7, 254, 255, 256, 257, 1023, 1024, 1025, 65536, 1 << 63, u64::MAX];
    odd.extend([1, 8, 9, 15, 16, 31, 32, 33, 48, 63].map(|power| word.wrapping_add(1 << power)));
    odd.extend([word.wrapping_sub(1), word.wrapping_add(1), word | !0xFF, word | !0xFFFF, word | !0xFFFF_FFFF]);
    odd
}

/// States with one odd word, in every phase and for every word, and with several; and phases that
/// there are not. Some of them can be.
fn wrong_states(random: &mut Random, compare: &mut Compare<LinkSend>) -> Result<(), Stop> {
    let mut states = Vec::new();
    for ((phase, half), word) in phases().flat_map(|phases| (0..WORDS).map(move |word| (phases, word))) {
        let state = random.sender(phase, half, 3);
        states.extend(odd_words(state[word]).into_iter().map(|odd| {
            let mut state = state;
            state[word] = odd;
            state
        }));
    }
    for phase in GAVE_UP + 1..=300 {
        states.extend([[phase, 2, 2, 0, 0, 0, 0, 0, 0], [phase; WORDS]]);
    }
    for _ in 0..2_000 {
        let phases: Vec<(u64, u64)> = phases().collect();
        let (phase, half) = random.pick(&phases);
        let mut state = random.sender(phase, half, 3);
        for _ in 0..2 + random.below(3) {
            let word = random.below(WORDS);
            state[word] = random.pick(&odd_words(state[word]));
        }
        states.push(state);
    }
    for state in states {
        let (events, wrong) = (random.some_events(), random.pick(&WRONG_EVENTS));
        for event in [random.pick(&events), random.pick(&events), state[CHECK] as u32 & 0xFF, wrong] {
            let length = random.pick(&[0, 1, 2, DATA_MAX + 1]);
            compare(&send(&state, event, &vec![DLE; length], 3, random.below(9)))?;
        }
    }
    Ok(())
}

/// States of other lengths, in every phase.
fn wrong_lengths(random: &mut Random, compare: &mut Compare<LinkSend>) -> Result<(), Stop> {
    for words in (0..=30).chain([WORDS + 256, WORDS + 65536]) {
        for (phase, half) in phases() {
            let (mut state, events) = (random.sender(phase, half, 3).to_vec(), random.some_events());
            state.resize(words, 0);
            let length = random.pick(&[0, 3, DATA_MAX + 1]);
            compare(&send(&state, random.pick(&events), &vec![DLE; length], 3, random.below(9)))?;
        }
    }
    Ok(())
}

/// The openings and blocks that the reference has sent since a sender was fresh or yielded.
#[derive(Clone, Copy, PartialEq, Default, Debug)]
pub struct Sent {
    pub openings: u64,
    pub blocks: u64,
}

impl Sent {
    /// Adds what an event sends, and checks it against the limits. At a yield it begins anew.
    pub fn add(&mut self, call: &LinkSend) {
        let (Some(before), Some(event)) = (state_of(&call.state), event_of(call.event)) else {
            return;
        };
        let (mut buffer, mut out) = (call.buffer.to_vec(), call.out.to_vec());
        let (answer, after) = link::send::send(before, event, &call.data, &mut buffer, &mut out);
        if let Answer::Taken { parts, .. } = answer {
            self.add_parts(before, &parts, after);
        }
    }

    fn add_parts(&mut self, before: Sender, parts: &[Part], after: Sender) {
        let number = |wanted| parts.iter().filter(|&&part| part == wanted).count() as u64;
        self.openings += number(Part::Opening);
        self.blocks += number(Part::Block);
        assert!(self.openings <= before.connections * before.blocks, "{self:?} of {before:?}");
        assert!(self.blocks <= before.blocks, "{self:?} of {before:?}");
        if let (Phase::Opening, Phase::Receiving(_)) = (before.phase, after.phase) {
            *self = Sent::default();
        }
    }
}

/// Senders whose attempts all fail, as late as they can: all is sent that the limits allow.
fn as_far_as_the_limits(random: &mut Random, compare: &mut Compare<LinkSend>) -> Result<(), Stop> {
    let limits = [(1, 1), (1, MAX_LIMIT), (MAX_LIMIT, 1), (2, 2), (3, 40), (40, 3), (random.attempts(), 2)];
    for (connections, blocks) in limits {
        let state = fresh(connections, blocks, random.pick(&[LOW, HIGH]));
        let mut sender = send(&state, START, &random.short_data(), 0, 11);
        let mut sent = Sent::default();
        while sender.state[PHASE] != GAVE_UP {
            sent.add(&sender);
            sender = compare(&sender)?.after;
            let is_last = sender.state[FAILED_CONNECTIONS] + 1 == connections;
            sender.event = match sender.state[PHASE] {
                OPENING if is_last => DLE.into(),
                _ => random.pick(&[NAK.into(), TIMER, 0x44]),
            };
        }
        assert_eq!(sent, Sent { openings: connections * blocks, blocks }, "by {connections} and {blocks}");
    }
    Ok(())
}

/// Fewest events of all streams.
const EVENTS: usize = 50_000;

/// Senders from their start to their end, and a little further. Events are mostly such as the phase
/// waits for; a sender that yields hears frames, sound and spoilt. Now and then a number comes that is
/// no event, or the output is too short, or there is too much data. State, buffer and output are kept
/// from event to event.
fn streams(random: &mut Random, compare: &mut Compare<LinkSend>) -> Result<(), Stop> {
    let mut events = 0;
    while events < EVENTS {
        let state = fresh(random.attempts(), random.attempts(), random.pick(&[LOW, LOW, HIGH]));
        let places = random.pick(&[DATA_MAX, DATA_MAX, DATA_MAX + 6, 100, 7, 0]);
        let (data, mut sent) = (random.short_data(), Sent::default());
        let (mut line, mut left) = (Vec::new(), 10);
        let mut sender = send(&state, START, &data, places, 11);
        while left > 0 && events < 2 * EVENTS {
            let phase = sender.state[PHASE];
            sender.event = random.event_at(phase, &mut line);
            match random.below(200) {
                0 => _ = compare(&LinkSend { event: random.pick(&WRONG_EVENTS), ..sender.clone() })?,
                1 => _ = compare(&LinkSend { out: Lent::output(random.below(4)), ..sender.clone() })?,
                2 => _ = compare(&LinkSend { data: vec![DLE; DATA_MAX + 1].into(), ..sender.clone() })?,
                _ => {}
            }
            sent.add(&sender);
            sender = compare(&sender)?.after;
            left -= usize::from(phase >= SENT);
            events += 1;
        }
    }
    Ok(())
}

impl Random {
    /// An event for a sender in this phase. While it receives, the bytes are those of a line, from its
    /// end.
    fn event_at(&mut self, phase: u64, line: &mut Vec<u8>) -> u32 {
        let [start, timer, stx, dle, nak, any] = self.some_events();
        if phase != RECEIVING {
            line.clear();
        }
        match phase {
            FRESH => self.pick(&[start, start, start, timer, stx, dle, any]),
            OPENING => self.pick(&[dle, dle, dle, stx, stx, nak, nak, timer, timer, start, any]),
            AWAITING => self.pick(&[dle, stx, nak, nak, nak, timer, timer, start, any]),
            RECEIVING if self.once_in(100) => self.pick(&[start, timer, any]),
            RECEIVING => {
                while line.is_empty() {
                    line.extend(self.part().into_iter().skip(1).rev());
                }
                line.pop().map_or(timer, u32::from)
            }
            _ => self.pick(&[start, timer, stx, dle, nak, any]),
        }
    }
}

#[cfg(test)]
mod tests {
    use super::*;
    use crate::answer::kind;
    use crate::driver::{found, found_in_all};

    /// The words of a sender that takes this event, with data that is not too long.
    fn taken(state: &[u64], event: u32, data: &[u8], buffer: &[u8]) -> Option<[u64; WORDS]> {
        let answer = plain::send(&mut state.to_vec(), event, data, &mut buffer.to_vec(), &mut [0; FRAME_MAX]);
        (kind(answer) == 0).then(|| state.try_into().expect("words"))
    }

    /// Feeds an event with the words of the state changed before they are judged.
    fn changed(
        change: fn(&mut [u64]),
        state: &mut [u64],
        event: u32,
        data: &[u8],
        buffer: &mut [u8],
        out: &mut [u8],
    ) -> u64 {
        let before = state.to_vec();
        if state.len() == WORDS {
            change(state);
        }
        let answer = plain::send(state, event, data, buffer, out);
        if kind(answer) != 0 {
            state.copy_from_slice(&before);
        }
        answer
    }

    #[test]
    fn wrong_states_are_found() {
        // A limit of 256 can be, or of 0.
        let smallest = found::<LinkSend>("the answer", |state, event, data, buffer, out| {
            let more = |words: &mut [u64]| words[CONNECTIONS] -= u64::from(words[CONNECTIONS] == 256);
            changed(more, state, event, data, buffer, out)
        });
        assert_eq!((smallest.state[CONNECTIONS], smallest.state[BLOCKS]), (256, 1));
        let smallest = found::<LinkSend>("the answer", |state, event, data, buffer, out| {
            let fewer = |words: &mut [u64]| words[BLOCKS] += u64::from(words[BLOCKS] == 0);
            changed(fewer, state, event, data, buffer, out)
        });
        assert_eq!((smallest.state[CONNECTIONS], smallest.state[BLOCKS]), (1, 0));
        // A word is cut down before it is judged.
        let smallest = found::<LinkSend>("the answer", |state, event, data, buffer, out| {
            changed(|words| words[PHASE] &= 0xFFFF_FFFF, state, event, data, buffer, out)
        });
        assert_eq!(smallest.state[PHASE], 1 << 32);
        let smallest = found::<LinkSend>("the answer", |state, event, data, buffer, out| {
            changed(|words| words[BLOCKS] &= 0xFFFF_FFFF, state, event, data, buffer, out)
        });
        assert_eq!(smallest.state[BLOCKS], (1 << 32) + 1);
        let smallest = found::<LinkSend>("the answer", |state, event, data, buffer, out| {
            changed(|words| words[CONNECTIONS] &= 0xFF, state, event, data, buffer, out)
        });
        assert_eq!(smallest.state[CONNECTIONS], 257);
        let smallest = found::<LinkSend>("the answer", |state, event, data, buffer, out| {
            changed(|words| words[FAILED_BLOCKS] &= 0xFF, state, event, data, buffer, out)
        });
        assert_eq!(smallest.state[FAILED_BLOCKS], 256);
        let smallest = found::<LinkSend>("the answer", |state, event, data, buffer, out| {
            changed(|words| words[PRIORITY] &= 1, state, event, data, buffer, out)
        });
        assert_eq!(smallest.state[PRIORITY], 2);
        let smallest = found::<LinkSend>("the answer", |state, event, data, buffer, out| {
            changed(|words| words[COUNT] &= 0xFFFF_FFFF, state, event, data, buffer, out)
        });
        assert_eq!(smallest.state[COUNT], 1 << 32);
        // A count of one more than the limit can be.
        let smallest = found::<LinkSend>("the answer", |state, event, data, buffer, out| {
            let more = |words: &mut [u64]| {
                let is_more = words[FAILED_CONNECTIONS] == words[CONNECTIONS].wrapping_add(1);
                words[FAILED_CONNECTIONS] = words[FAILED_CONNECTIONS].wrapping_sub(is_more.into());
            };
            changed(more, state, event, data, buffer, out)
        });
        assert_eq!((smallest.state[CONNECTIONS], smallest.state[FAILED_CONNECTIONS]), (1, 2));
        // The words of the half are not looked at, outside its phase or at the start.
        let smallest = found::<LinkSend>("the answer", |state, event, data, buffer, out| match state.first() {
            Some(&RECEIVING) => plain::send(state, event, data, buffer, out),
            _ => changed(|words| words[HALF..].fill(0), state, event, data, buffer, out),
        });
        assert_eq!(smallest.state[HALF..].iter().sum::<u64>(), 1);
        let smallest =
            found::<LinkSend>("the answer", |state, event, data, buffer, out| match (event, state.first()) {
                (START, Some(&RECEIVING)) => changed(|words| words[COUNT] = 0, state, event, data, buffer, out),
                _ => plain::send(state, event, data, buffer, out),
            });
        assert_eq!((smallest.state[PHASE], smallest.state[COUNT]), (RECEIVING, 1));
        // The limits do not matter once all is over.
        let smallest = found::<LinkSend>("the answer", |state, event, data, buffer, out| match (&*state, data.len()) {
            (&[SENT | GAVE_UP, _, _, ..=HIGH, _, _, 0, 0, 0], ..=DATA_MAX) if event <= START => done(0),
            _ => plain::send(state, event, data, buffer, out),
        });
        assert_eq!(smallest.state[PHASE], SENT);
        // A number above 257 is taken for the start, or for the byte in it.
        let smallest = found::<LinkSend>("the answer", |state, event, data, buffer, out| {
            plain::send(state, event.min(START), data, buffer, out)
        });
        assert_eq!(smallest.event, 258);
        found::<LinkSend>("the answer", |state, event, data, buffer, out| {
            plain::send(state, if event > START { event & 0xFF } else { event }, data, buffer, out)
        });
        // A state of ten words is taken.
        let smallest = found::<LinkSend>("the answer", |state, event, data, buffer, out| match state.len() {
            10 => plain::send(&mut state[..WORDS], event, data, buffer, out),
            _ => plain::send(state, event, data, buffer, out),
        });
        assert_eq!(smallest.state.len(), 10);
    }

    #[test]
    fn wrong_orders_are_found() {
        // 12 comes before 1.
        let smallest = found::<LinkSend>("the answer", |state, event, data, buffer, out| match data.len() {
            ..=DATA_MAX => plain::send(state, event, data, buffer, out),
            _ => refused(12),
        });
        assert_eq!((smallest.state.len(), smallest.data.len()), (0, DATA_MAX + 1));
        // Only a block that is due is refused with 12.
        let smallest = found::<LinkSend>("the answer", |state, event, data, buffer, out| {
            let is_due = state.first() == Some(&OPENING) && event == u32::from(DLE);
            plain::send(state, event, if is_due { data } else { &[] }, buffer, out)
        });
        assert_eq!(smallest.data.len(), DATA_MAX + 1);
        // 11 comes before 12.
        let smallest = found::<LinkSend>("the answer", |state, event, data, buffer, out| {
            let few = &data[..data.len().min(DATA_MAX)];
            let room = out.len();
            let mut copies = (state.to_vec(), buffer.to_vec(), vec![0; room]);
            match plain::send(&mut copies.0, event, few, &mut copies.1, &mut copies.2) {
                answer if kind(answer) == 11 => answer,
                _ => plain::send(state, event, data, buffer, out),
            }
        });
        assert_eq!((smallest.data.len(), smallest.out.len()), (DATA_MAX + 1, 0));
        // An event that sends nothing needs a place.
        let smallest = found::<LinkSend>("the answer", |state, event, data, buffer, out| {
            match plain::send(state, event, data, buffer, out) {
                0 if out.is_empty() => refused(11),
                answer => answer,
            }
        });
        assert_eq!(*smallest.out, []);
        // The end of a yield needs one place.
        let smallest = found::<LinkSend>("the answer", |state, event, data, buffer, out| {
            let is_receiving = state.first() == Some(&RECEIVING);
            match plain::send(state, event, data, buffer, out) {
                answer if kind(answer) == 11 && is_receiving && out.len() == 1 => {
                    let mut longer = [out[0], 0];
                    let answer = plain::send(state, event, data, buffer, &mut longer);
                    out[0] = longer[0];
                    answer
                }
                answer => answer,
            }
        });
        assert_eq!((smallest.state[PHASE], smallest.out.len()), (RECEIVING, 1));
    }

    #[test]
    fn wrong_rows_are_found() {
        // A yield keeps the counts; the end of one does.
        let smallest = found::<LinkSend>("state, first at place 4", |state, event, data, buffer, out| {
            let before = taken(state, event, data, buffer);
            let answer = plain::send(state, event, data, buffer, out);
            if let (Some([OPENING, _, _, _, failed, ..]), Some(&RECEIVING)) = (before, state.first()) {
                state[FAILED_CONNECTIONS] = failed;
            }
            answer
        });
        assert_eq!((smallest.event, smallest.state[FAILED_CONNECTIONS]), (STX.into(), 1));
        let smallest = found::<LinkSend>("state, first at place 5", |state, event, data, buffer, out| {
            let before = taken(state, event, data, buffer);
            let answer = plain::send(state, event, data, buffer, out);
            if let (Some([RECEIVING, _, _, _, _, failed, ..]), Some(&OPENING)) = (before, state.first()) {
                state[FAILED_BLOCKS] = failed;
            }
            answer
        });
        assert_eq!((smallest.state[PHASE], smallest.state[FAILED_BLOCKS]), (RECEIVING, 1));
        // 02 fails an attempt of the high end, or has it yield.
        found::<LinkSend>("state, first at place 0", |state, event, data, buffer, out| {
            let is_waiting = matches!(*state, [OPENING, _, _, HIGH, ..]) && event == u32::from(STX);
            plain::send(state, if is_waiting { TIMER } else { event }, data, buffer, out)
        });
        let smallest = found::<LinkSend>("the answer", |state, event, data, buffer, out| match *state {
            [OPENING, _, _, HIGH, ..] if event == u32::from(STX) => {
                changed(|words| words[PRIORITY] = LOW, state, event, data, buffer, out)
            }
            _ => plain::send(state, event, data, buffer, out),
        });
        assert_eq!((smallest.state[PHASE], smallest.state[PRIORITY]), (OPENING, HIGH));
        // A low end yields while it awaits the second 10.
        let smallest = found::<LinkSend>("the answer", |state, event, data, buffer, out| {
            if let (Some([AWAITING, _, _, LOW, ..]), true) = (taken(state, event, data, buffer), event == STX.into()) {
                state[PHASE] = OPENING;
            }
            plain::send(state, event, data, buffer, out)
        });
        assert_eq!(smallest.state[PHASE], AWAITING);
        // Another block attempt has only the connections that are left.
        let smallest = found::<LinkSend>("state, first at place 4", |state, event, data, buffer, out| {
            let before = taken(state, event, data, buffer);
            let answer = plain::send(state, event, data, buffer, out);
            if let (Some([AWAITING, _, _, _, failed, ..]), Some(&OPENING)) = (before, state.first()) {
                state[FAILED_CONNECTIONS] = failed;
            }
            answer
        });
        assert_eq!(smallest.state[FAILED_CONNECTIONS], 1);
        // The number of failed attempts goes on above the limit.
        let smallest = found::<LinkSend>("state, first at place 4", |state, event, data, buffer, out| {
            let before = taken(state, event, data, buffer);
            let answer = plain::send(state, event, data, buffer, out);
            if let (Some([OPENING, _, _, _, failed, ..]), Some(&GAVE_UP)) = (before, state.first()) {
                state[FAILED_CONNECTIONS] = failed + 1;
            }
            answer
        });
        assert_eq!(smallest.state[FAILED_CONNECTIONS], smallest.state[CONNECTIONS]);
        // A start begins again after all is over, or opens once more.
        found::<LinkSend>("the answer", |state, event, data, buffer, out| {
            if let (Some([SENT, ..]), START) = (taken(state, event, data, buffer), event) {
                state[PHASE] = FRESH;
            }
            plain::send(state, event, data, buffer, out)
        });
        found::<LinkSend>("the answer", |state, event, data, buffer, out| {
            if let (Some([OPENING, ..]), START) = (taken(state, event, data, buffer), event) {
                state[PHASE] = FRESH;
            }
            plain::send(state, event, data, buffer, out)
        });
        // A start is the timer to the half.
        let smallest = found::<LinkSend>("the answer", |state, event, data, buffer, out| {
            let is_receiving = state.first() == Some(&RECEIVING) && event == START;
            plain::send(state, if is_receiving { TIMER } else { event }, data, buffer, out)
        });
        assert_eq!(smallest.state[PHASE], RECEIVING);
        // A half at rest has the yield end only with an answer.
        let smallest = found::<LinkSend>("the answer", |state, event, data, buffer, out| {
            match taken(state, event, data, buffer) {
                Some([RECEIVING, _, _, _, _, _, REST, ..]) if event == TIMER => done(0),
                _ => plain::send(state, event, data, buffer, out),
            }
        });
        assert_eq!((smallest.state[HALF], smallest.event), (REST, TIMER));
        // A message of no bytes is none, or a message is told by its count alone.
        let smallest = found::<LinkSend>("the answer", |state, event, data, buffer, out| {
            match plain::send(state, event, data, buffer, out) {
                0x1_0002 => done(2),
                answer => answer,
            }
        });
        assert_eq!((smallest.state[HALF], smallest.state[COUNT]), (WAITING, 0));
        found::<LinkSend>("the answer", |state, event, data, buffer, out| {
            match plain::send(state, event, data, buffer, out) {
                answer if kind(answer) == 0 && answer > 0x1_0002 => answer - MESSAGE as u64,
                answer => answer,
            }
        });
    }

    #[test]
    fn wrong_memory_is_found() {
        // The state goes on although the output is too short.
        let smallest = found::<LinkSend>("state", |state, event, data, buffer, out| {
            match plain::send(state, event, data, buffer, out) {
                answer if kind(answer) == 11 => {
                    _ = plain::send(state, event, data, buffer, &mut [0; FRAME_MAX]);
                    answer
                }
                answer => answer,
            }
        });
        assert_eq!(*smallest.out, []);
        // The output takes what fits.
        let smallest = found::<LinkSend>("out", |state, event, data, buffer, out| {
            let answer = plain::send(state, event, data, buffer, out);
            if let (11, [place]) = (kind(answer), out) {
                *place = DLE;
            }
            answer
        });
        assert_eq!(smallest.out.len(), 1);
        // The output is cleared behind what is sent.
        found::<LinkSend>("out", |state, event, data, buffer, out| {
            let answer = plain::send(state, event, data, buffer, out);
            if let (0, [_, _, place, ..]) = (kind(answer), &mut *out) {
                if answer == 1 {
                    *place = 0;
                }
            }
            answer
        });
        // The buffer is cleared by a yield, or by its end.
        found::<LinkSend>("buffer", |state, event, data, buffer, out| {
            let before = state.first() == Some(&OPENING);
            let answer = plain::send(state, event, data, buffer, out);
            if before && state.first() == Some(&RECEIVING) {
                buffer.fill(0);
            }
            answer
        });
        found::<LinkSend>("buffer", |state, event, data, buffer, out| {
            let before = state.first() == Some(&RECEIVING);
            let answer = plain::send(state, event, data, buffer, out);
            if before && state.first() == Some(&OPENING) {
                buffer.fill(0);
            }
            answer
        });
        // The half stays in the state behind a yield.
        found::<LinkSend>("state, first at place", |state, event, data, buffer, out| {
            let before = state.to_vec();
            let answer = plain::send(state, event, data, buffer, out);
            if before.first() == Some(&RECEIVING) && state.first() == Some(&OPENING) {
                state[HALF..].copy_from_slice(&before[HALF..]);
            }
            answer
        });
    }

    #[test]
    fn mistakes_of_all_are_found() {
        // One attempt too many is made.
        found_in_all::<LinkSend>("done 1", |state, event, data, buffer, out| {
            let is_last = match taken(state, event, data, buffer) {
                Some([OPENING, limit, _, _, failed, ..]) => failed + 1 == limit && event == TIMER,
                _ => false,
            };
            match out.first_mut() {
                Some(place) if is_last => {
                    *place = STX;
                    state[FAILED_CONNECTIONS] += 1;
                    done(1)
                }
                _ => plain::send(state, event, data, buffer, out),
            }
        });
        // The end of a yield sends no opening.
        found_in_all::<LinkSend>("done 1", |state, event, data, buffer, out| {
            let is_receiving = state.first() == Some(&RECEIVING);
            match plain::send(state, event, data, buffer, out) {
                2 if is_receiving => done(1),
                answer => answer,
            }
        });
        // An event that sends nothing needs a place.
        let smallest = found_in_all::<LinkSend>("refused 11", |state, event, data, buffer, out| {
            let before = state.to_vec();
            match plain::send(state, event, data, buffer, out) {
                0 if out.is_empty() && before.first() == Some(&RECEIVING) => {
                    state.copy_from_slice(&before);
                    refused(11)
                }
                answer => answer,
            }
        });
        assert_eq!(*smallest.out, []);
        // A refusal forgets the counts.
        found_in_all::<LinkSend>("refused 12", |state, event, data, buffer, out| {
            let answer = plain::send(state, event, data, buffer, out);
            if kind(answer) == 12 {
                state[FAILED_CONNECTIONS..HALF].fill(0);
            }
            answer
        });
        // 02 alone is sent as the answer to a yield.
        found_in_all::<LinkSend>("done 1", |state, event, data, buffer, out| {
            let is_opening = state.first() == Some(&OPENING);
            let answer = plain::send(state, event, data, buffer, out);
            if is_opening && state.first() == Some(&RECEIVING) {
                out[0] = STX;
            }
            answer
        });
    }

    #[test]
    #[should_panic(expected = "openings: 3")]
    fn openings_above_the_limits_are_seen() {
        let (sender, mut sent) = (Sender::new(2, 1, Priority::High), Sent::default());
        (0..3).for_each(|_| sent.add_parts(sender, &[Part::Opening], sender));
    }

    #[test]
    #[should_panic(expected = "blocks: 2")]
    fn blocks_above_the_limit_are_seen() {
        let (sender, mut sent) = (Sender::new(2, 1, Priority::High), Sent::default());
        (0..2).for_each(|_| sent.add_parts(sender, &[Part::Block], sender));
    }
}
