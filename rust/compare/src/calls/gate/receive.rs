//! Feeding events to a receiver on the gate bus.

use crate::answer::received::{NOTHING, TELEGRAM, TOKEN};
use crate::answer::{done, refused};
use crate::call::{arguments, Call, Compare, Kind, Outcome, Stop};
use crate::calls::MEGABYTE;
use crate::inputs::Random;
use crate::lent::Lent;
use crate::plain::gate as plain;
use hanraquin::sys::TIMER;
use reference::gate::{self, Answer, Event, State, BAD_SETUP, LAST_MASTER, MAX_DATA, RESERVED, START};
use std::array::from_fn;
use std::ops::RangeInclusive;

arguments!(GateReceive, hanraquin_gate_receive {
    own: number u8,
    state: write u64,
    store: write u8,
    event: number u32,
    out: write u8,
});

fn reference(own: u8, words: &mut [u64], store: &mut [u8], event: u32, out: &mut [u8]) -> u64 {
    let event = match event {
        0..TIMER => Event::Byte(event as u8),
        TIMER => Event::Timer,
        _ => return refused(BAD_SETUP),
    };
    let Some(before) = state_of(words) else {
        return refused(BAD_SETUP);
    };
    let (answer, after) = gate::receive(own, before, store, event, out);
    words.copy_from_slice(&words_of(after));
    match answer {
        Answer::Nothing => done(NOTHING),
        Answer::Telegram { source, length } => done(TELEGRAM + 256 * usize::from(source) + length),
        Answer::Token { source } => done(TOKEN + usize::from(source)),
        Answer::Refused(number) => refused(number),
    }
}

/// How many words a state has.
pub const WORDS: usize = 7;

/// The state that words stand for, if they are those of a state.
fn state_of(words: &[u64]) -> Option<State> {
    let &[phase, destination, source, length, count, check, high] = words else {
        return None;
    };
    let byte = |word: u64| u8::try_from(word).ok();
    let (destination, source, high) = (byte(destination)?, byte(source)?, byte(high)?);
    let (length, count) = (usize::try_from(length).ok()?, usize::try_from(count).ok()?);
    let check = u16::try_from(check).ok()?;
    let state = match phase {
        0 => State::Rest,
        1 => State::Destination,
        2 => State::Source { destination, check },
        3 => State::Length { destination, source, check },
        4 => State::Data { destination, source, length, stored: count, check },
        5 => State::LowCheck { destination, source, length, check, high },
        6 => State::OtherSource,
        7 => State::OtherLength,
        8 => State::Dropping { left: count },
        _ => return None,
    };
    // A word that the state does not have has to be 0.
    (words_of(state) == words).then_some(state)
}

/// The words of a state.
fn words_of(state: State) -> [u64; WORDS] {
    let (phase, destination, source, length, count, check, high) = match state {
        State::Rest => (0, 0, 0, 0, 0, 0, 0),
        State::Destination => (1, 0, 0, 0, 0, 0, 0),
        State::Source { destination, check } => (2, destination, 0, 0, 0, check, 0),
        State::Length { destination, source, check } => (3, destination, source, 0, 0, check, 0),
        State::Data { destination, source, length, stored, check } => {
            (4, destination, source, length, stored, check, 0)
        }
        State::LowCheck { destination, source, length, check, high } => {
            (5, destination, source, length, 0, check, high)
        }
        State::OtherSource => (6, 0, 0, 0, 0, 0, 0),
        State::OtherLength => (7, 0, 0, 0, 0, 0, 0),
        State::Dropping { left } => (8, 0, 0, 0, left, 0, 0),
    };
    let [destination, source, high] = [destination, source, high].map(u64::from);
    [phase, destination, source, length as u64, count as u64, check.into(), high]
}

/// The words of a state, by their places.
const PHASE: usize = 0;
const DESTINATION: usize = 1;
const SOURCE: usize = 2;
const LENGTH: usize = 3;
const COUNT: usize = 4;
const CHECK: usize = 5;
const HIGH: usize = 6;

/// The words that each phase has, beside its own.
const HAS: [&[usize]; 9] = [
    &[],
    &[],
    &[DESTINATION, CHECK],
    &[DESTINATION, SOURCE, CHECK],
    &[DESTINATION, SOURCE, LENGTH, COUNT, CHECK],
    &[DESTINATION, SOURCE, LENGTH, CHECK, HIGH],
    &[],
    &[],
    &[COUNT],
];

impl GateReceive {
    /// Whether nothing is answered to a byte, which leads from one phase to another.
    fn goes(&self, outcome: &Outcome<GateReceive>, from: u64, to: u64) -> bool {
        outcome.answer == done(NOTHING)
            && self.event != TIMER
            && (self.state[PHASE], outcome.after.state[PHASE]) == (from, to)
    }

    /// Whether nothing is answered to the timer in this phase.
    fn ends(&self, outcome: &Outcome<GateReceive>, phase: u64) -> bool {
        outcome.answer == done(NOTHING) && self.event == TIMER && self.state[PHASE] == phase
    }

    fn is_byte(&self, byte: u8) -> bool {
        self.event == u32::from(byte)
    }

    /// Whether the own address is no longer the one that the telegram is for.
    fn is_another_by_now(&self) -> bool {
        self.state[DESTINATION] != u64::from(self.own)
    }

    /// Whether the state has a word that its phase does not have.
    fn has_surplus(&self, outcome: &Outcome<GateReceive>, word: usize) -> bool {
        outcome.refused(1) && self.state[word] != 0 && !HAS[self.state[PHASE] as usize].contains(&word)
    }

    /// Whether a word is above a limit.
    fn is_above(&self, outcome: &Outcome<GateReceive>, word: usize, limit: u64) -> bool {
        outcome.refused(1) && self.state[word] > limit
    }

    /// Whether it is refused as the own address is FF, by the timer or by a byte.
    fn is_nobody(&self, outcome: &Outcome<GateReceive>, timer: bool) -> bool {
        outcome.refused(16) && self.own == RESERVED && (self.event == TIMER) == timer
    }

    /// Whether the high byte of the check is right, and the low one.
    fn check_bytes(&self) -> (bool, bool) {
        (self.state[CHECK] >> 8 == self.state[HIGH], self.state[CHECK] as u8 == self.event as u8)
    }

    /// Whether a token is refused.
    fn is_bad_token(&self, outcome: &Outcome<GateReceive>) -> bool {
        outcome.refused(16) && self.state[LENGTH] == 0
    }
}

/// Whether a telegram with data is accepted.
fn is_telegram(outcome: &Outcome<GateReceive>) -> bool {
    outcome.is_done() && (TELEGRAM..TOKEN).contains(&outcome.value())
}

/// Whether a token is accepted.
fn is_token(outcome: &Outcome<GateReceive>) -> bool {
    outcome.is_done() && outcome.value() >= TOKEN
}

impl Call for GateReceive {
    const NAME: &'static str = "gate_receive";
    const PLAIN: Self::Function = plain::receive;
    const REFERENCE: Self::Function = reference;
    const KINDS: &'static [Kind<GateReceive>] = &[
        ("nothing, the start", |r, o| r.goes(o, 0, 1)),
        ("nothing, another byte at rest", |r, o| r.goes(o, 0, 0)),
        ("nothing, our address, 55", |r, o| r.goes(o, 1, 2) && r.is_byte(START)),
        ("nothing, our address", |r, o| r.goes(o, 1, 2)),
        ("nothing, another's address, 55", |r, o| r.goes(o, 1, 6) && r.is_byte(START)),
        ("nothing, another's address, FF", |r, o| r.goes(o, 1, 6) && r.is_byte(RESERVED)),
        ("nothing, another's address", |r, o| r.goes(o, 1, 6)),
        ("nothing, the source", |r, o| r.goes(o, 2, 3)),
        ("nothing, the length of a token", |r, o| r.goes(o, 3, 4) && r.is_byte(0)),
        ("nothing, the longest length", |r, o| r.goes(o, 3, 4) && r.is_byte(253)),
        ("nothing, a length", |r, o| r.goes(o, 3, 4)),
        ("nothing, the last byte of data", |r, o| r.goes(o, 4, 4) && o.after.state[COUNT] == r.state[LENGTH]),
        ("nothing, a byte of data", |r, o| r.goes(o, 4, 4)),
        ("nothing, the right high check byte", |r, o| r.goes(o, 4, 5) && u64::from(r.event) == r.state[CHECK] >> 8),
        ("nothing, a wrong high check byte", |r, o| r.goes(o, 4, 5)),
        ("nothing, another's source", |r, o| r.goes(o, 6, 7)),
        ("nothing, another's length, above 253", |r, o| r.goes(o, 7, 8) && r.event > 253),
        ("nothing, another's length", |r, o| r.goes(o, 7, 8)),
        ("nothing, 55 dropped", |r, o| r.goes(o, 8, 8) && r.is_byte(START)),
        ("nothing, a byte dropped", |r, o| r.goes(o, 8, 8)),
        ("nothing, the last byte dropped", |r, o| r.goes(o, 8, 0) && r.state[COUNT] == 1),
        ("nothing, a byte dropped with none left", |r, o| r.goes(o, 8, 0)),
        ("nothing, the timer at rest", |r, o| r.ends(o, 0)),
        ("nothing, the timer before the destination", |r, o| r.ends(o, 1)),
        ("nothing, the timer before the source", |r, o| r.ends(o, 2)),
        ("nothing, the timer before the length", |r, o| r.ends(o, 3)),
        ("nothing, the timer before data", |r, o| r.ends(o, 4) && r.state[COUNT] < r.state[LENGTH]),
        ("nothing, the timer before the high check byte", |r, o| r.ends(o, 4)),
        ("nothing, the timer before the low check byte", |r, o| r.ends(o, 5)),
        ("nothing, the timer before another's source", |r, o| r.ends(o, 6)),
        ("nothing, the timer before another's length", |r, o| r.ends(o, 7)),
        ("nothing, the timer while dropping", |r, o| r.ends(o, 8)),
        ("token, own address changed", |r, o| is_token(o) && r.is_another_by_now()),
        ("token", |_, o| is_token(o)),
        ("telegram, own address changed", |r, o| is_telegram(o) && r.is_another_by_now()),
        ("telegram of the longest", |r, o| is_telegram(o) && r.state[LENGTH] == MAX_DATA as u64),
        ("telegram", |_, o| is_telegram(o)),
        ("refused 1, length of the state", |r, o| o.refused(1) && r.state.len() != WORDS),
        ("refused 1, length of the store", |r, o| o.refused(1) && r.store.len() != MAX_DATA),
        ("refused 1, event from a signed char", |r, o| o.refused(1) && r.event >= 0xFFFF_FF80),
        ("refused 1, event above 256", |r, o| o.refused(1) && r.event > TIMER),
        ("refused 1, phase", |r, o| o.refused(1) && r.state[PHASE] > 8),
        ("refused 1, surplus destination", |r, o| r.has_surplus(o, DESTINATION)),
        ("refused 1, surplus source", |r, o| r.has_surplus(o, SOURCE)),
        ("refused 1, surplus length", |r, o| r.has_surplus(o, LENGTH)),
        ("refused 1, surplus count", |r, o| r.has_surplus(o, COUNT)),
        ("refused 1, surplus check", |r, o| r.has_surplus(o, CHECK)),
        ("refused 1, surplus high check byte", |r, o| r.has_surplus(o, HIGH)),
        ("refused 1, destination", |r, o| r.is_above(o, DESTINATION, 255)),
        ("refused 1, source", |r, o| r.is_above(o, SOURCE, 255)),
        ("refused 1, length before data", |r, o| r.state[PHASE] == 4 && r.is_above(o, LENGTH, 253)),
        ("refused 1, length before the low check byte", |r, o| r.is_above(o, LENGTH, 253)),
        ("refused 1, more stored than the length", |r, o| r.state[PHASE] == 4 && r.is_above(o, COUNT, r.state[LENGTH])),
        ("refused 1, more than 257 left to drop", |r, o| r.is_above(o, COUNT, 257)),
        ("refused 1, check", |r, o| r.is_above(o, CHECK, 65535)),
        ("refused 1, high check byte", |r, o| r.is_above(o, HIGH, 255)),
        ("refused 16, own address FF, a byte at rest", |r, o| r.is_nobody(o, false) && r.state[PHASE] == 0),
        ("refused 16, own address FF, a byte", |r, o| r.is_nobody(o, false)),
        ("refused 16, own address FF, the timer at rest", |r, o| r.is_nobody(o, true) && r.state[PHASE] == 0),
        ("refused 16, own address FF, the timer", |r, o| r.is_nobody(o, true)),
        ("refused 7, 254", |r, o| o.refused(7) && r.is_byte(254)),
        ("refused 7, 255", |r, o| o.refused(7) && r.is_byte(255)),
        ("refused 15, both check bytes", |r, o| o.refused(15) && r.check_bytes() == (false, false)),
        ("refused 15, the high check byte", |r, o| o.refused(15) && r.check_bytes() == (false, true)),
        ("refused 15, the low check byte", |r, o| o.refused(15) && r.check_bytes() == (true, false)),
        ("refused 16, a token from FF", |r, o| r.is_bad_token(o) && r.state[SOURCE] == u64::from(RESERVED)),
        ("refused 16, a token from a slave", |r, o| r.is_bad_token(o) && r.state[SOURCE] > u64::from(LAST_MASTER)),
        ("refused 16, a token to a slave", |r, o| r.is_bad_token(o)),
        ("refused 16, data from FF", |_, o| o.refused(16)),
        ("refused 11, one place missing", |r, o| o.refused(11) && r.out.len() as u64 + 1 == r.state[LENGTH]),
        ("refused 11", |_, o| o.refused(11)),
    ];
    /// The lengths of accepted telegrams.
    const NUMBERS: RangeInclusive<usize> = 1..=MAX_DATA;

    fn number(&self, outcome: &Outcome<GateReceive>) -> Option<usize> {
        is_telegram(outcome).then(|| outcome.value() % 256)
    }

    fn generate(random: &mut Random, compare: &mut Compare<GateReceive>) -> Result<(), Stop> {
        every_event(random, compare)?;
        every_length(random, compare)?;
        every_address(random, compare)?;
        wrong_states(random, compare)?;
        wrong_lengths(random, compare)?;
        streams(random, compare)
    }
}

/// An event in a state, with an output of so many places.
pub fn receive(own: u8, state: &[u64], event: u32, places: usize) -> GateReceive {
    let store: Vec<u8> = (0..MAX_DATA).map(|place| (place * 31 + 0x17) as u8).collect();
    GateReceive { own, state: state.into(), store: store.into(), event, out: Lent::output(places) }
}

/// Events that there are not; most look like one if they are cut down, or are a byte from a signed
/// char.
#[rustfmt::skip]
const WRONG_EVENTS: [u32; 16] = [
    257, 0x110, 0x155, 0x1FF, 511, 512, 0xFFFF, 0x1_0000, 0x1_0055, 0x1_0100, 0x8000_0010, 0x8000_0100,
    0xFFFF_FF00, 0xFFFF_FF80, 0xFFFF_FFD5, u32::MAX,
];

impl Random {
    /// The words of a state in this phase, with most of them at their limits.
    fn gate_state(&mut self, phase: u64) -> [u64; WORDS] {
        let (any, check) = (self.below(MAX_DATA + 1) as u64, u64::from(self.word()));
        let length = self.pick(&[0, 1, 2, 252, 253, any]);
        let some = self.below(length as usize + 1) as u64;
        let count = match phase {
            8 => self.pick(&[0, 1, 2, 255, 256, 257, any]),
            _ => self.pick(&[0, length.saturating_sub(1), length, some]),
        };
        let high = self.pick(&[check >> 8, check >> 8, check & 0xFF, any]);
        let [destination, source] = [0; 2].map(|_: u8| u64::from(self.gate_address()));
        let words = [phase, destination, source, length, count, check, high];
        from_fn(|word| if word == PHASE || HAS[phase as usize].contains(&word) { words[word] } else { 0 })
    }

    /// An output that often has just as many places as a telegram has data.
    fn room(&mut self, state: &[u64]) -> usize {
        let length = state.get(LENGTH).map_or(0, |&length| length.min(300) as usize);
        self.pick(&[MAX_DATA, MAX_DATA, length, length + 1, length.saturating_sub(1), 0])
    }
}

/// Every event, and numbers that look like one if they are cut down, in every phase, for a telegram's
/// own address and for others.
fn every_event(random: &mut Random, compare: &mut Compare<GateReceive>) -> Result<(), Stop> {
    let cut_down = [0x100, 0x200, 0x1_0000, 0x8000_0000, 0xFFFF_FF00];
    let above = cut_down.into_iter().flat_map(|more| more + 1..=more + 0xFF);
    for event in (0..=TIMER).chain(above) {
        let times = if event <= TIMER { 4 } else { 1 };
        for phase in (0..9).flat_map(|phase| vec![phase; times]) {
            let mut state = random.gate_state(phase);
            if phase == 5 && random.once_in(2) {
                state[CHECK] = state[CHECK] & 0xFF00 | u64::from(event as u8);
            }
            for own in [event as u8, state[DESTINATION] as u8, random.gate_address(), RESERVED] {
                compare(&receive(own, &state, event, random.room(&state)))?;
            }
        }
    }
    Ok(())
}

/// Telegrams of every length, with outputs of this length and of lengths about it, before data and
/// before both check bytes; and every number of bytes left to drop.
fn every_length(random: &mut Random, compare: &mut Compare<GateReceive>) -> Result<(), Stop> {
    for length in 0..=300 {
        let (own, any) = (random.byte() & 0x7F, random.below(300) as u64);
        let (address, source, check) = (u64::from(own), u64::from(random.byte() & 0x7F), random.word());
        let [high, low] = check.to_be_bytes();
        for count in [0, 1, 252, 253, 254, 257, any, length + 1, length, length.saturating_sub(1)] {
            let state = [4, address, source, length, count, check.into(), 0];
            for event in [high, low, random.byte()].map(u32::from).into_iter().chain([TIMER]) {
                compare(&receive(own, &state, event, random.room(&state)))?;
            }
        }
        let state = [5, address, source, length, 0, check.into(), high.into()];
        let (exact, fewer) = (length as usize, random.below(length as usize + 1));
        for places in [exact, exact + 1, exact.saturating_sub(1), fewer, 0, MAX_DATA, MAX_DATA + 1, 1000] {
            for event in [low, low, !low, high].map(u32::from) {
                compare(&receive(own, &state, event, places))?;
            }
        }
        for event in [u32::from(START), random.byte().into(), own.into(), TIMER] {
            compare(&receive(own, &[8, 0, 0, 0, length, 0, 0], event, MAX_DATA))?;
        }
    }
    Ok(())
}

/// The last byte of a token and of a telegram with data, to and from addresses at their limits, at
/// stations with such addresses, with outputs that are long enough and too short.
fn every_address(random: &mut Random, compare: &mut Compare<GateReceive>) -> Result<(), Stop> {
    let addresses = [0x00, 0x01, LAST_MASTER, LAST_MASTER + 1, 0x11, START, 0x7F, 0x80, 0xFE, RESERVED];
    for (own, destination) in addresses.into_iter().flat_map(|own| addresses.map(|to| (own, to))) {
        for source in addresses.into_iter().chain([random.byte()]) {
            let [high, low] = random.word().to_be_bytes();
            let check = u16::from_be_bytes([high, low]);
            for (length, places) in [(0, 0), (0, MAX_DATA), (3, 3), (3, 2)] {
                let state = [5, destination.into(), source.into(), length, 0, check.into(), high.into()];
                for event in [low.into(), u32::from(low ^ 1), TIMER] {
                    compare(&receive(own, &state, event, places))?;
                }
            }
        }
    }
    Ok(())
}

/// Words that no state has, or few; and what looks like another word if it is cut down.
fn odd_words(word: u64) -> Vec<u64> {
    let mut odd = vec![1, 8, 9, 253, 254, 255, 256, 257, 258, 259, 65535, 65536, 65537, 1 << 63, u64::MAX];
    odd.extend([8, 9, 15, 16, 31, 32, 33, 48, 63].map(|power| word.wrapping_add(1 << power)));
    odd.extend([word.wrapping_sub(1), word.wrapping_add(1), word | !0xFF, word | !0xFFFF, word | !0xFFFF_FFFF]);
    odd
}

/// States with one odd word, in every phase and for every word, and with several; and phases that
/// there are not. Some of them can be.
fn wrong_states(random: &mut Random, compare: &mut Compare<GateReceive>) -> Result<(), Stop> {
    let mut states = Vec::new();
    for (phase, word) in (0..9).flat_map(|phase| (0..WORDS).map(move |word| (phase, word))) {
        for state in [random.gate_state(phase), random.gate_state(phase)] {
            states.extend(odd_words(state[word]).into_iter().map(|odd| {
                let mut state = state;
                state[word] = odd;
                state
            }));
        }
    }
    for phase in 9..=300 {
        states.extend([[phase, 0, 0, 0, 0, 0, 0], [phase; WORDS]]);
    }
    for _ in 0..3_000 {
        let phase = random.below(9) as u64;
        let mut state = random.gate_state(phase);
        for _ in 0..2 + random.below(3) {
            let word = random.below(WORDS);
            state[word] = random.pick(&odd_words(state[word]));
        }
        states.push(state);
    }
    for state in states {
        let (own, low) = (random.gate_address(), state[CHECK] as u8);
        let events = [low.into(), u32::from(random.byte()), TIMER, random.pick(&WRONG_EVENTS)];
        for event in events {
            compare(&receive(own, &state, event, random.room(&state)))?;
        }
    }
    Ok(())
}

/// States, stores and outputs of other lengths, in every phase.
fn wrong_lengths(random: &mut Random, compare: &mut Compare<GateReceive>) -> Result<(), Stop> {
    let states = (0..=20).chain([WORDS + 256, WORDS + 65536]);
    let stores = (0..=16).chain(230..=270).chain([509, 512, 65536, MAX_DATA + 65536, MEGABYTE]);
    let lengths = states.map(|words| (words, MAX_DATA)).chain(stores.map(|places| (WORDS, places)));
    for (words, places) in lengths.chain([(6, 252), (8, 254), (0, 0)]) {
        for phase in 0..9 {
            let mut call = receive(random.gate_address(), &random.gate_state(phase), 0, random.below(300));
            call.event = random.pick(&[call.state[CHECK] as u32 & 0xFF, START.into(), TIMER, 257]);
            call.state.edit(|state| state.resize(words, 0));
            call.store.edit(|store| store.resize(places, 0x77));
            compare(&call)?;
        }
    }
    for places in [65536, MEGABYTE] {
        let state = [5, 0x10, 0x01, 200, 0, 0x1234, 0x12];
        compare(&receive(0x10, &state, 0x34, places))?;
    }
    Ok(())
}

/// Streams of telegrams, sound and spoilt, for the station and for others, and of any bytes; now and
/// then the timer runs out, a number comes that is no event, or the own address is another for a
/// while. State, store and output are kept from event to event.
fn streams(random: &mut Random, compare: &mut Compare<GateReceive>) -> Result<(), Stop> {
    let any = random.byte() & 0x7F;
    let stations = [0x00, 0x03, LAST_MASTER, LAST_MASTER + 1, START, 0xFE, 0xAA, any];
    for (own, places) in stations.into_iter().zip([253, 253, 300, 253, 254, 252, 253, 5]) {
        let mut station = receive(own, &[0; WORDS], 0, places);
        for event in random.gate_stream(own, 25_000) {
            let mut events = vec![event];
            match random.below(300) {
                0 => events.push(TIMER),
                1 => events.insert(0, random.pick(&WRONG_EVENTS)),
                2 | 3 => station.own = random.gate_address(),
                4..40 => station.own = own,
                _ => {}
            }
            for event in events {
                station.event = event;
                station = compare(&station)?.after;
            }
        }
    }
    Ok(())
}

#[cfg(test)]
mod tests {
    use super::*;
    use crate::driver::found;

    /// The state in which a byte comes that is not refused for what is lent or for the own address.
    fn fed(own: u8, state: &[u64], store: &[u8], event: u32) -> Option<[u64; WORDS]> {
        let setup = store.len() == MAX_DATA && own != RESERVED && event < TIMER;
        let words: [u64; WORDS] = state.try_into().ok()?;
        let counts = words[LENGTH] <= 253 && words[COUNT] <= if words[PHASE] == 4 { words[LENGTH] } else { 257 };
        (setup && counts && state_of(state).is_some()).then_some(words)
    }

    #[test]
    fn wrong_ways_are_found() {
        // A 55 in another's telegram starts one, or a 55 for the destination does.
        let smallest = found::<GateReceive>("state", |own, state, store, event, out| {
            if let (Some([8, ..]), 0x55) = (fed(own, state, store, event), event) {
                state.fill(0);
            }
            plain::receive(own, state, store, event, out)
        });
        assert_eq!(*smallest.state, [8, 0, 0, 0, 0, 0, 0]);
        let smallest = found::<GateReceive>("state, first at place 0", |own, state, store, event, out| {
            match (fed(own, state, store, event), event) {
                (Some([1, ..]), 0x55) if own != START => done(NOTHING),
                _ => plain::receive(own, state, store, event, out),
            }
        });
        assert_eq!((smallest.own, &*smallest.state), (0, &[1, 0, 0, 0, 0, 0, 0][..]));
        // One byte too few is dropped, or one too many.
        found::<GateReceive>("state, first at place 4", |own, state, store, event, out| {
            let before = fed(own, state, store, event);
            let answer = plain::receive(own, state, store, event, out);
            if let Some([7, ..]) = before {
                state[COUNT] -= 1;
            }
            answer
        });
        found::<GateReceive>("state, first at place 4", |own, state, store, event, out| {
            let before = fed(own, state, store, event);
            let answer = plain::receive(own, state, store, event, out);
            if let Some([7, ..]) = before {
                state[COUNT] += 1;
            }
            answer
        });
        // With none left to drop, nothing is dropped.
        let smallest = found::<GateReceive>("state", |own, state, store, event, out| {
            if let Some([8, _, _, _, 0, ..]) = fed(own, state, store, event) {
                state[PHASE] = 0;
            }
            plain::receive(own, state, store, event, out)
        });
        assert_eq!((&*smallest.state, smallest.event), (&[8, 0, 0, 0, 0, 0, 0][..], 0x55));
        // Another's length above 253 is refused.
        found::<GateReceive>("the answer", |own, state, store, event, out| {
            match (fed(own, state, store, event), event) {
                (Some([7, ..]), 254..) => {
                    state.fill(0);
                    refused(7)
                }
                _ => plain::receive(own, state, store, event, out),
            }
        });
        // Whether a telegram is ours is decided again at the source.
        found::<GateReceive>("state", |own, state, store, event, out| {
            match fed(own, state, store, event) {
                Some([2, destination, ..]) if destination != own.into() => {
                    state.copy_from_slice(&[6, 0, 0, 0, 0, 0, 0])
                }
                _ => {}
            }
            plain::receive(own, state, store, event, out)
        });
    }

    #[test]
    fn wrong_judgements_are_found() {
        // 254 is taken for a length.
        let smallest = found::<GateReceive>("the answer", |own, state, store, event, out| {
            let taken = matches!((fed(own, state, store, event), event), (Some([3, ..]), 254));
            plain::receive(own, state, store, if taken { 253 } else { event }, out)
        });
        assert_eq!((smallest.state[PHASE], smallest.event), (3, 254));
        // The high check byte is judged alone.
        let smallest =
            found::<GateReceive>("the answer", |own, state, store, event, out| match fed(own, state, store, event) {
                Some([4, _, _, length, count, check, _]) if count == length && check >> 8 != event.into() => {
                    state.fill(0);
                    refused(15)
                }
                _ => plain::receive(own, state, store, event, out),
            });
        assert_eq!(*smallest.state, [4, 0, 0, 0, 0, smallest.state[CHECK], 0]);
        // Only the low check byte is judged.
        let smallest = found::<GateReceive>("the answer", |own, state, store, event, out| {
            if let Some([5, _, _, _, _, check, _]) = fed(own, state, store, event) {
                state[HIGH] = check >> 8;
            }
            plain::receive(own, state, store, event, out)
        });
        assert_eq!(smallest.state[PHASE], 5);
        // A token is judged by the own address of its last byte.
        let smallest = found::<GateReceive>("the answer", |own, state, store, event, out| {
            if let Some([5, _, _, 0, ..]) = fed(own, state, store, event) {
                state[DESTINATION] = own.into();
            }
            plain::receive(own, state, store, event, out)
        });
        assert_ne!(smallest.state[DESTINATION], u64::from(smallest.own));
        // A token needs a place, or comes from a slave.
        let smallest = found::<GateReceive>("the answer", |own, state, store, event, out| {
            match plain::receive(own, state, store, event, out) {
                answer if answer >= done(TOKEN) && answer < refused(1) && out.is_empty() => refused(11),
                answer => answer,
            }
        });
        assert_eq!((smallest.state[LENGTH], smallest.out.len()), (0, 0));
        found::<GateReceive>("the answer", |own, state, store, event, out| {
            if let Some([5, _, 0x10, 0, ..]) = fed(own, state, store, event) {
                state[SOURCE] = 0x0F;
            }
            plain::receive(own, state, store, event, out)
        });
        // Data comes from FF.
        let smallest = found::<GateReceive>("the answer", |own, state, store, event, out| {
            if let Some([5, _, 0xFF, 1..=253, ..]) = fed(own, state, store, event) {
                state[SOURCE] = 0xFE;
            }
            plain::receive(own, state, store, event, out)
        });
        assert_eq!(smallest.state[SOURCE], 0xFF);
        // 11 comes before 15.
        found::<GateReceive>("the answer", |own, state, store, event, out| {
            let before = fed(own, state, store, event);
            match (plain::receive(own, state, store, event, out), before) {
                (answer, Some([5, _, _, length, ..])) if answer == refused(15) && length > out.len() as u64 => {
                    refused(11)
                }
                (answer, _) => answer,
            }
        });
        // The own address FF does not matter to the timer, or at rest.
        found::<GateReceive>("the answer", |own, state, store, event, out| {
            plain::receive(if event == TIMER { own & 0x7F } else { own }, state, store, event, out)
        });
        let smallest = found::<GateReceive>("the answer", |own, state, store, event, out| {
            let rests = state.first() == Some(&0) && event != u32::from(START);
            plain::receive(if rests { own & 0x7F } else { own }, state, store, event, out)
        });
        assert_eq!((smallest.own, &*smallest.state), (RESERVED, &[0; WORDS][..]));
        // The own address FF comes before 1.
        found::<GateReceive>("the answer", |own, state, store, event, out| match own {
            RESERVED => {
                state.fill(0);
                refused(16)
            }
            _ => plain::receive(own, state, store, event, out),
        });
    }

    #[test]
    fn wrong_memory_is_found() {
        // The output is the working store.
        found::<GateReceive>("out", |own, state, store, event, out| {
            if let Some([4, _, _, length, count, ..]) = fed(own, state, store, event) {
                if let Some(place) = out.get_mut(count as usize).filter(|_| count < length) {
                    *place = event as u8;
                }
            }
            plain::receive(own, state, store, event, out)
        });
        // The output takes what fits.
        found::<GateReceive>("out", |own, state, store, event, out| {
            let answer = plain::receive(own, state, store, event, out);
            if answer == refused(11) {
                out.copy_from_slice(&store[..out.len()]);
            }
            answer
        });
        // The output takes the whole store.
        found::<GateReceive>("out", |own, state, store, event, out| {
            let answer = plain::receive(own, state, store, event, out);
            if (done(TELEGRAM)..done(TOKEN)).contains(&answer) && out.len() >= MAX_DATA {
                out[..MAX_DATA].copy_from_slice(store);
            }
            answer
        });
        // The store is cleared with an accepted telegram, or by the timer.
        found::<GateReceive>("store", |own, state, store, event, out| {
            let answer = plain::receive(own, state, store, event, out);
            if (done(TELEGRAM)..done(TOKEN)).contains(&answer) {
                store.fill(0);
            }
            answer
        });
        found::<GateReceive>("store", |own, state, store, event, out| {
            let answer = plain::receive(own, state, store, event, out);
            if (answer, event) == (done(NOTHING), TIMER) {
                store.fill(0);
            }
            answer
        });
        // A check byte is stored.
        found::<GateReceive>("store", |own, state, store, event, out| {
            if let Some([4, _, _, length @ ..253, count, ..]) = fed(own, state, store, event) {
                if count == length {
                    store[count as usize] = event as u8;
                }
            }
            plain::receive(own, state, store, event, out)
        });
        // The state is not cleared with 15, or is with 1.
        found::<GateReceive>("state", |own, state, store, event, out| {
            let before = state.to_vec();
            let answer = plain::receive(own, state, store, event, out);
            if answer == refused(15) {
                state.copy_from_slice(&before);
            }
            answer
        });
        found::<GateReceive>("state", |own, state, store, event, out| {
            let answer = plain::receive(own, state, store, event, out);
            if answer == refused(1) {
                state.fill(0);
            }
            answer
        });
    }

    /// Feeds an event with the words of the state changed before they are judged.
    fn changed(words: fn(&mut [u64]), own: u8, state: &mut [u64], store: &mut [u8], event: u32, out: &mut [u8]) -> u64 {
        let before = state.to_vec();
        if state.len() == WORDS {
            words(state);
        }
        let answer = plain::receive(own, state, store, event, out);
        if answer == refused(1) {
            state.copy_from_slice(&before);
        }
        answer
    }

    #[test]
    fn wrong_states_are_found() {
        // A word is cut down before it is judged.
        let smallest = found::<GateReceive>("the answer", |own, state, store, event, out| {
            changed(|words| words[PHASE] &= 0xFFFF_FFFF, own, state, store, event, out)
        });
        assert_eq!(smallest.state[PHASE], 1 << 32);
        let smallest = found::<GateReceive>("the answer", |own, state, store, event, out| {
            changed(|words| words[DESTINATION] &= 0xFF, own, state, store, event, out)
        });
        assert_eq!(smallest.state[DESTINATION], 256);
        let smallest = found::<GateReceive>("the answer", |own, state, store, event, out| {
            changed(|words| words[LENGTH] &= 0xFFFF, own, state, store, event, out)
        });
        assert_eq!(smallest.state[LENGTH], 65536);
        let smallest = found::<GateReceive>("the answer", |own, state, store, event, out| {
            changed(|words| words[COUNT] &= 0xFFFF_FFFF, own, state, store, event, out)
        });
        assert_eq!(smallest.state[COUNT], 1 << 32);
        let smallest = found::<GateReceive>("the answer", |own, state, store, event, out| {
            changed(|words| words[CHECK] &= 0xFFFF, own, state, store, event, out)
        });
        assert_eq!(smallest.state[CHECK], 65536);
        // A word that the phase does not have is not looked at.
        let smallest = found::<GateReceive>("the answer", |own, state, store, event, out| {
            let without = |words: &mut [u64]| words[COUNT] = if words[PHASE] == 5 { 0 } else { words[COUNT] };
            changed(without, own, state, store, event, out)
        });
        assert_eq!((smallest.state[PHASE], smallest.state[COUNT]), (5, 1));
        // A length of 254 can be, one more stored than the length, or 258 left to drop.
        let smallest = found::<GateReceive>("the answer", |own, state, store, event, out| {
            let longer = |words: &mut [u64]| words[LENGTH] -= u64::from(words[LENGTH] == 254);
            changed(longer, own, state, store, event, out)
        });
        assert_eq!(smallest.state[LENGTH], 254);
        let smallest = found::<GateReceive>("the answer", |own, state, store, event, out| {
            let more =
                |words: &mut [u64]| words[COUNT] -= u64::from(words[PHASE] == 4 && words[COUNT] == words[LENGTH] + 1);
            changed(more, own, state, store, event, out)
        });
        assert_eq!(*smallest.state, [4, 0, 0, 0, 1, 0, 0]);
        let smallest = found::<GateReceive>("the answer", |own, state, store, event, out| {
            changed(|words| words[COUNT] -= u64::from(words[COUNT] == 258), own, state, store, event, out)
        });
        assert_eq!(*smallest.state, [8, 0, 0, 0, 258, 0, 0]);
        // A store of 254 places is taken.
        let smallest = found::<GateReceive>("the answer", |own, state, store, event, out| match store.len() {
            254 => plain::receive(own, state, &mut store[..253], event, out),
            _ => plain::receive(own, state, store, event, out),
        });
        assert_eq!(smallest.store.len(), 254);
        // A number above 256 is taken for the timer, or for the byte in it.
        let smallest = found::<GateReceive>("the answer", |own, state, store, event, out| {
            plain::receive(own, state, store, event.min(TIMER), out)
        });
        assert_eq!(smallest.event, 257);
        found::<GateReceive>("the answer", |own, state, store, event, out| {
            plain::receive(own, state, store, if event > TIMER { event & 0xFF } else { event }, out)
        });
    }
}
