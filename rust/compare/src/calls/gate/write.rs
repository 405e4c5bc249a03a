//! Writing a telegram of the gate bus.

use crate::answer::done;
use crate::call::{arguments, Call, Compare, Kind, Outcome, Stop};
use crate::calls::{given, MEGABYTE};
use crate::inputs::gate::FILLINGS;
use crate::inputs::Random;
use crate::lent::Lent;
use crate::plain::gate as plain;
use hanraquin::gate::TELEGRAM_MAX;
use reference::gate::{self, LAST_MASTER, MAX_DATA, RESERVED};
use std::ops::RangeInclusive;

arguments!(GateWrite, hanraquin_gate_write {
    destination: number u8,
    source: number u8,
    data: read u8,
    out: write u8,
});

impl Call for GateWrite {
    const NAME: &'static str = "gate_write";
    const PLAIN: Self::Function = plain::write;
    const REFERENCE: Self::Function = |to, from, data, out| given(gate::write(to, from, data, out));
    const KINDS: &'static [Kind<GateWrite>] = &[
        ("written, a token", |w, o| o.is_done() && w.data.is_empty()),
        ("written, the longest", |_, o| o.answer == done(TELEGRAM_MAX)),
        ("written, to itself", |w, o| o.is_done() && w.destination == w.source),
        ("written, from slave to slave", |w, o| o.is_done() && w.destination.min(w.source) > LAST_MASTER),
        ("written", |_, o| o.is_done()),
        ("refused 16, destination FF", |w, o| o.refused(16) && w.destination == RESERVED),
        ("refused 16, source FF", |w, o| o.refused(16) && w.source == RESERVED),
        ("refused 16, a token from slave to slave", |w, o| o.refused(16) && w.destination.min(w.source) > LAST_MASTER),
        ("refused 16, a token to a slave", |w, o| o.refused(16) && w.destination > LAST_MASTER),
        ("refused 16, a token from a slave", |_, o| o.refused(16)),
        ("refused 7", |_, o| o.refused(7)),
        ("refused 11, a token", |w, o| o.refused(11) && w.data.is_empty()),
        ("refused 11", |_, o| o.refused(11)),
    ];
    /// The lengths of data.
    const NUMBERS: RangeInclusive<usize> = 0..=MAX_DATA;

    fn number(&self, outcome: &Outcome<GateWrite>) -> Option<usize> {
        outcome.is_done().then_some(self.data.len())
    }

    fn generate(random: &mut Random, compare: &mut Compare<GateWrite>) -> Result<(), Stop> {
        every_address(random, compare)?;
        every_length(random, compare)?;
        every_check(random, compare)
    }
}

/// A telegram to write, with an output of so many places.
pub fn write(destination: u8, source: u8, data: &[u8], places: usize) -> GateWrite {
    GateWrite { destination, source, data: data.into(), out: Lent::output(places) }
}

/// Every address to every address, with a token and with a byte of data.
fn every_address(random: &mut Random, compare: &mut Compare<GateWrite>) -> Result<(), Stop> {
    for (destination, source) in (0..=u8::MAX).flat_map(|to| (0..=u8::MAX).map(move |from| (to, from))) {
        for data in [&[][..], &[random.byte()]] {
            let places = data.len() + random.pick(&[0, 5, 6, 6, 6, 7]);
            compare(&write(destination, source, data, places))?;
        }
    }
    Ok(())
}

/// Data of every length, with outputs of the exact length and of lengths around it, and short data
/// with outputs of every length.
fn every_length(random: &mut Random, compare: &mut Compare<GateWrite>) -> Result<(), Stop> {
    let long = [300, 508, 509, 510, 512, 520, 1024, 65536, 65537, 65536 + MAX_DATA, MEGABYTE, MEGABYTE + 3];
    for length in (0..=260).chain(long) {
        for filling in FILLINGS.into_iter().take(if length < MEGABYTE { FILLINGS.len() } else { 1 }) {
            let data = random.fill(length, filling);
            let exact = length + 6;
            let every = if length <= 20 { 0..exact } else { 0..0 };
            let some = [exact, exact - 1, exact + 1, random.below(exact), TELEGRAM_MAX, 300];
            for places in some.into_iter().chain(every) {
                let addresses = [random.gate_address(), random.gate_address()];
                let masters = addresses.map(|address| address & LAST_MASTER);
                let [destination, source] = random.pick(&[addresses, masters, masters]);
                compare(&write(destination, source, &data, places))?;
            }
        }
    }
    Ok(())
}

/// Good telegrams, short and long, so that checks of all kinds come about.
fn every_check(random: &mut Random, compare: &mut Compare<GateWrite>) -> Result<(), Stop> {
    for _ in 0..10_000 {
        let any = random.below(MAX_DATA + 1);
        let length = random.pick(&[1, 2, 3, 5, any, MAX_DATA]);
        let data = random.bytes(length);
        compare(&write(random.byte() & 0x7F, random.byte() & 0x7F, &data, data.len() + 6))?;
    }
    Ok(())
}

#[cfg(test)]
mod tests {
    use super::*;
    use crate::answer::{kind, refused, value};
    use crate::driver::found;

    #[test]
    fn mistakes_are_found() {
        // A token to a slave is written, or one from a slave.
        let smallest = found::<GateWrite>("the answer", |to, from, data, out| {
            plain::write(if data.is_empty() && to == 0x10 { 0x0F } else { to }, from, data, out)
        });
        assert_eq!(smallest, write(0x10, 0, &[], 0));
        let smallest = found::<GateWrite>("the answer", |to, from, data, out| {
            plain::write(to, if data.is_empty() && from == 0xFE { 0x00 } else { from }, data, out)
        });
        assert_eq!(smallest, write(0, 0xFE, &[], 0));
        // 254 bytes of data are taken, or a length is judged when it is cut down.
        let smallest = found::<GateWrite>("the answer", |to, from, data, out| {
            plain::write(to, from, if data.len() == 254 { &data[1..] } else { data }, out)
        });
        assert_eq!(smallest.data.len(), 254);
        let smallest = found::<GateWrite>("the answer", |to, from, data, out| match data.len() {
            256.. => plain::write(to, from, &data[..data.len() % 256], out),
            _ => plain::write(to, from, data, out),
        });
        assert_eq!(smallest.data.len(), 256);
        // 7 comes before 16.
        found::<GateWrite>("the answer", |to, from, data, out| match data.len() {
            254.. => refused(7),
            _ => plain::write(to, from, data, out),
        });
        // The check is sent with its low byte first.
        found::<GateWrite>("out", |to, from, data, out| {
            let answer = plain::write(to, from, data, out);
            if kind(answer) == 0 {
                out.swap(value(answer) - 2, value(answer) - 1);
            }
            answer
        });
        // The start byte is not in the check.
        found::<GateWrite>("out", |to, from, data, out| {
            let answer = plain::write(to, from, data, out);
            if let Some((front, end)) = out[..value(answer)].split_last_chunk_mut::<2>() {
                *end = gate::check(gate::CHECK_START, &front[1..]).to_be_bytes();
            }
            answer
        });
    }
}
