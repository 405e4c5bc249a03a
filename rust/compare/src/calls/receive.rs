//! Feeding events to the receiving half.

use super::MEGABYTE;
use crate::answer::heard::{MESSAGE, NOTHING, SEND};
use crate::answer::{done, refused};
use crate::call::{arguments, Call, Compare, Kind, Outcome, Stop};
use crate::inputs::Random;
use crate::lent::Lent;
use crate::plain;
use hanraquin::sys::TIMER;
use hanraquin::DATA_MAX;
use reference::link::{self, Event, Phase, State, DLE, ETX, NAK, STX};
use reference::refusal::BAD_SETUP;

arguments!(Receive, hanraquin_receive {
    state: write u64,
    event: number u32,
    buffer: write u8,
});

/// The phases by their numbers.
const PHASES: [Phase; 4] =
    [Phase::Rest, Phase::Inside { dle_seen: false }, Phase::Inside { dle_seen: true }, Phase::Waiting];

fn reference(words: &mut [u64], event: u32, buffer: &mut [u8]) -> u64 {
    let event = match event {
        0..TIMER => Event::Byte(event as u8),
        TIMER => Event::Timer,
        _ => return refused(BAD_SETUP),
    };
    let Some(before) = state_of(words) else {
        return refused(BAD_SETUP);
    };
    let (answer, after) = link::receive(before, event, buffer);
    words.copy_from_slice(&words_of(after));
    match answer {
        link::Answer::Nothing => done(NOTHING),
        link::Answer::Send(byte) => done(SEND + usize::from(byte)),
        link::Answer::Message(count) => done(MESSAGE + count),
        link::Answer::Refused(number) => refused(number),
    }
}

/// The state that three numbers stand for.
pub(super) fn state_of(words: &[u64]) -> Option<State> {
    let &[phase, count, check] = words else {
        return None;
    };
    Some(State {
        phase: *PHASES.get(usize::try_from(phase).ok()?)?,
        count: usize::try_from(count).ok()?,
        check: u8::try_from(check).ok()?,
    })
}

/// The three numbers of a state.
pub(super) fn words_of(state: State) -> [u64; 3] {
    let phase = PHASES.iter().position(|&phase| phase == state.phase);
    let phase = phase.expect("one of the phases");
    [phase as u64, state.count as u64, u64::from(state.check)]
}

impl Receive {
    /// Whether this is answered in this phase, for a byte or for the timer.
    fn gives(&self, outcome: &Outcome<Receive>, value: usize, phase: u64, timer: bool) -> bool {
        outcome.answer == done(value) && self.state[0] == phase && (self.event == TIMER) == timer
    }
}

/// What is answered to send NAK.
const REJECTED: usize = SEND + NAK as usize;

impl Call for Receive {
    const NAME: &'static str = "receive";
    const PLAIN: Self::Function = plain::receive;
    const REFERENCE: Self::Function = reference;
    const KINDS: &'static [Kind<Receive>] = &[
        ("nothing, a byte at rest", |r, o| r.gives(o, NOTHING, 0, false)),
        ("nothing, the timer at rest", |r, o| r.gives(o, NOTHING, 0, true)),
        ("nothing, a byte inside", |r, o| r.gives(o, NOTHING, 1, false)),
        ("nothing, a byte after a DLE", |r, o| r.gives(o, NOTHING, 2, false)),
        ("sends 10", |_, o| o.answer == done(SEND + usize::from(DLE))),
        ("sends 15, at rest", |r, o| r.gives(o, REJECTED, 0, false)),
        ("sends 15, no room inside", |r, o| r.gives(o, REJECTED, 1, false)),
        ("sends 15, no room after a DLE", |r, o| r.gives(o, REJECTED, 2, false) && r.event == u32::from(DLE)),
        ("sends 15, another byte after a DLE", |r, o| r.gives(o, REJECTED, 2, false)),
        ("sends 15, wrong check byte", |r, o| r.gives(o, REJECTED, 3, false)),
        ("sends 15, the timer inside", |r, o| r.gives(o, REJECTED, 1, true)),
        ("sends 15, the timer after a DLE", |r, o| r.gives(o, REJECTED, 2, true)),
        ("sends 15, the timer while waiting", |r, o| r.gives(o, REJECTED, 3, true)),
        ("message of 0 bytes", |_, o| o.answer == done(MESSAGE)),
        ("message of the longest", |_, o| o.answer == done(MESSAGE + DATA_MAX)),
        ("message", |_, o| o.is_done() && o.value() > MESSAGE),
        ("refused 1, length of the state", |r, o| o.refused(1) && r.state.len() != 3),
        ("refused 1, phase", |r, o| o.refused(1) && r.state[0] > 3),
        ("refused 1, check", |r, o| o.refused(1) && r.state[2] > 255),
        ("refused 1, count over 1,024", |r, o| o.refused(1) && r.state[1] > DATA_MAX as u64),
        ("refused 1, count over the buffer", |r, o| o.refused(1) && r.state[1] > r.buffer.len() as u64),
        ("refused 1, event from a signed char", |r, o| o.refused(1) && r.event >= 0xFFFF_FF80),
        ("refused 1, event above 256", |r, o| o.refused(1) && r.event > TIMER),
    ];

    fn generate(random: &mut Random, compare: &mut Compare<Receive>) -> Result<(), Stop> {
        every_event(compare)?;
        every_buffer(random, compare)?;
        wrong_states(random, compare)?;
        streams(random, compare)
    }
}

/// An event in a state, with a buffer of so many places.
fn receive(state: &[u64], event: u32, places: usize) -> Receive {
    Receive { state: state.into(), event, buffer: Lent::output(places) }
}

/// Events that there are not; most look like one if they are cut down, or are a byte from a signed
/// char.
#[rustfmt::skip]
const WRONG_EVENTS: [u32; 16] = [
    257, 0x102, 0x103, 0x110, 0x115, 511, 512, 0xFFFF, 0x1_0000, 0x1_0003, 0x1_0100, 0x8000_0010,
    0xFFFF_FF00, 0xFFFF_FF80, 0xFFFF_FFE0, u32::MAX,
];

/// Numbers that are too great for a count, a phase or a check; some do not look so if they are
/// cut down.
#[rustfmt::skip]
const HUGE: [u64; 9] = [
    1025, 65536, 65537, 1 << 32, (1 << 32) + 1, (1 << 32) + 2, 1 << 63, u64::MAX - 1, u64::MAX,
];

/// Every event, and numbers that look like one if they are cut down, in every phase, with short
/// buffers and every count.
fn every_event(compare: &mut Compare<Receive>) -> Result<(), Stop> {
    let cut_down = [0x100, 0x200, 0x1_0000, 0x8000_0000, 0xFFFF_FF00];
    let above = cut_down.into_iter().flat_map(|more| more + 1..=more + 0xFF);
    for event in (0..=TIMER).chain(above) {
        for (phase, places) in (0..4).flat_map(|phase| [0, 2, 5].map(|n| (phase, n))) {
            for count in 0..=places as u64 + 1 {
                for check in [0, 0x44, u64::from(event as u8)] {
                    compare(&receive(&[phase, count, check], event, places))?;
                }
            }
        }
    }
    Ok(())
}

/// Buffers of every length, with counts about it and about 1,024.
fn every_buffer(random: &mut Random, compare: &mut Compare<Receive>) -> Result<(), Stop> {
    for places in (0..=1030).chain([2048, 65536, 65537, MEGABYTE]) {
        let length = places as u64;
        let mut counts = vec![0, length, length + 1, 1023, 1024, 1025];
        counts.extend([length.saturating_sub(1), random.below(places + 1) as u64]);
        counts.push(random.pick(&HUGE));
        for (count, phase) in counts.into_iter().flat_map(|count| [0, 1, 2, 3].map(|phase| (count, phase))) {
            let (check, any) = (random.byte(), random.byte());
            let bytes = [any, DLE, random.pick(&[STX, ETX, NAK]), check].map(u32::from);
            for event in bytes.into_iter().chain([TIMER, random.pick(&WRONG_EVENTS)]) {
                compare(&receive(&[phase, count, check.into()], event, places))?;
            }
        }
    }
    Ok(())
}

/// States that cannot be, one fault at a time and several, and of wrong lengths.
fn wrong_states(random: &mut Random, compare: &mut Compare<Receive>) -> Result<(), Stop> {
    let mut states = Vec::new();
    for odd in (4..=9).chain([255, 256, 257, 258, 259, 0x110, 0x113, 511]).chain(HUGE) {
        states.extend([vec![odd, 0, 0], vec![odd, 1, 0x13], vec![odd; 3]]);
        for phase in 0..4 {
            states.extend([vec![phase, 0, odd], vec![phase, 9, odd], vec![phase, odd, 0]]);
        }
    }
    for length in [0, 1, 2, 4, 5, 6, 30] {
        states.extend((0..4).map(|phase| vec![phase; length]));
    }
    for state in states {
        let (any, odd) = (u32::from(random.byte()), random.pick(&WRONG_EVENTS));
        for event in [0x02, 0x03, 0x10, 0x15, 0x13, any, TIMER, odd] {
            for places in [0, 3, 1024] {
                compare(&receive(&state, event, places))?;
            }
        }
    }
    Ok(())
}

/// Streams of frames, sound and spoilt, and of any bytes; now and then the timer runs out, or a
/// number comes that is no event. State and buffer are kept from event to event.
fn streams(random: &mut Random, compare: &mut Compare<Receive>) -> Result<(), Stop> {
    for places in [1024, 1024, 1024, 1023, 1025, 1030, 500, 100, 30, 7, 1, 0] {
        let mut half = receive(&[0; 3], 0, places);
        for byte in random.stream(20_000) {
            let mut events = vec![u32::from(byte)];
            match random.below(300) {
                0 => events.push(TIMER),
                1 => events.insert(0, random.pick(&WRONG_EVENTS)),
                _ => {}
            }
            for event in events {
                half.event = event;
                half = compare(&half)?.after;
            }
        }
    }
    Ok(())
}

#[cfg(test)]
mod tests {
    use super::*;
    use crate::driver::found;

    #[test]
    fn mistakes_are_found() {
        // The buffer is erased with a NAK.
        found::<Receive>("buffer", |state, event, buffer| {
            let answer = plain::receive(state, event, buffer);
            if answer == done(SEND + usize::from(NAK)) {
                buffer.fill(0);
            }
            answer
        });
        // A count is cut down to 32 bits before it is judged.
        let smallest = found::<Receive>("the answer", |state, event, buffer| {
            if let [_, count @ ..=0xFF_FFFF_FFFF_FFFF, _] = state {
                *count &= 0xFFFF_FFFF;
            }
            plain::receive(state, event, buffer)
        });
        assert_eq!(smallest.state[1], 1 << 32);
        // A number above 256 is taken for the timer, or for the byte in it.
        let smallest =
            found::<Receive>("the answer", |state, event, buffer| plain::receive(state, event.min(TIMER), buffer));
        assert_eq!(smallest.event, 257);
        found::<Receive>("the answer", |state, event, buffer| {
            plain::receive(state, if event > TIMER { event & 0xFF } else { event }, buffer)
        });
        // The state is changed although a byte from a signed char is refused.
        found::<Receive>("state, first at place 2", |state, event, buffer| {
            if let ([1..=3, _, check], 0xFFFF_FF80..) = (&mut *state, event) {
                *check = 0;
            }
            plain::receive(state, event, buffer)
        });
    }
}
