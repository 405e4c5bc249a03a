//! Reading an answer of a barrier.

use super::{limits, ANSWERS};
use crate::answer::{done, refused};
use crate::call::{arguments, Call, Compare, Kind, Outcome, Stop};
use crate::calls::{given, MEGABYTE};
use crate::inputs::Random;
use crate::lent::Lent;
use crate::plain::gate as plain;
use reference::gate::{self, BarrierAnswer, ACK, BAD_SETUP, BUSY, COUNT, NAK, POSITION, SYN};
use std::ops::RangeInclusive;

arguments!(GateReadAnswer, hanraquin_gate_read_answer {
    data: read u8,
    number: write i32,
});

fn reference(data: &[u8], number: &mut [i32]) -> u64 {
    let [number] = number else {
        return refused(BAD_SETUP);
    };
    let (kind, read) = match gate::read_answer(data) {
        Ok(BarrierAnswer::Ack) => (ACK, 0),
        Ok(BarrierAnswer::Nak) => (NAK, 0),
        Ok(BarrierAnswer::Busy) => (BUSY, 0),
        Ok(BarrierAnswer::Syn) => (SYN, 0),
        Ok(BarrierAnswer::Count(count)) => (COUNT, count),
        Ok(BarrierAnswer::Position(position)) => (POSITION, position),
        Err(refusal) => return given(Err(refusal)),
    };
    *number = read;
    done(kind.into())
}

impl GateReadAnswer {
    /// Whether an answer of this kind is read.
    fn reads(&self, outcome: &Outcome<GateReadAnswer>, kind: u8) -> bool {
        outcome.answer == done(kind.into()) && self.data[0] == kind
    }

    /// The length of an answer that begins as the data does.
    fn right_length(&self) -> Option<usize> {
        let known = ANSWERS.into_iter().find(|(kind, _)| self.data.first() == Some(kind));
        known.map(|(_, length)| length)
    }
}

impl Call for GateReadAnswer {
    const NAME: &'static str = "gate_read_answer";
    const PLAIN: Self::Function = plain::read_answer;
    const REFERENCE: Self::Function = reference;
    const KINDS: &'static [Kind<GateReadAnswer>] = &[
        ("ack", |r, o| r.reads(o, ACK)),
        ("nak", |r, o| r.reads(o, NAK)),
        ("busy", |r, o| r.reads(o, BUSY)),
        ("syn", |r, o| r.reads(o, SYN)),
        ("count, below 0", |r, o| r.reads(o, COUNT) && o.after.number[0] < 0),
        ("count", |r, o| r.reads(o, COUNT)),
        ("position, unknown", |r, o| r.reads(o, POSITION) && o.after.number[0] == -1),
        ("position", |r, o| r.reads(o, POSITION)),
        ("refused 1, no place", |r, o| o.refused(1) && r.number.is_empty()),
        ("refused 1, more places", |_, o| o.refused(1)),
        ("refused 7, no byte", |r, o| o.refused(7) && r.data.is_empty()),
        ("refused 3", |_, o| o.refused(3)),
        ("refused 7, too short", |r, o| o.refused(7) && Some(r.data.len()) < r.right_length()),
        ("refused 7, too long", |_, o| o.refused(7)),
        ("refused 10", |_, o| o.refused(10)),
    ];
    /// The positions, each with 1 added.
    const NUMBERS: RangeInclusive<usize> = 0..=101;

    fn number(&self, outcome: &Outcome<GateReadAnswer>) -> Option<usize> {
        self.reads(outcome, POSITION).then(|| (outcome.after.number[0] + 1) as usize)
    }

    fn generate(random: &mut Random, compare: &mut Compare<GateReadAnswer>) -> Result<(), Stop> {
        every_kind(random, compare)?;
        every_number(random, compare)?;
        lengths(random, compare)
    }
}

/// Data to read, with so many places for the number.
fn read_answer(data: &[u8], places: usize) -> GateReadAnswer {
    GateReadAnswer { data: data.into(), number: Lent::output(places) }
}

impl Random {
    /// Data of so many bytes that begins with this one.
    fn beginning(&mut self, first: u8, length: usize) -> Vec<u8> {
        let mut data = self.bytes(length);
        data.iter_mut().take(1).for_each(|place| *place = first);
        data
    }
}

/// Every first byte at short lengths, and every kind of answer with every second byte.
fn every_kind(random: &mut Random, compare: &mut Compare<GateReadAnswer>) -> Result<(), Stop> {
    for (kind, length) in (0..=u8::MAX).flat_map(|kind| (0..=8).map(move |length| (kind, length))) {
        compare(&read_answer(&random.beginning(kind, length), 1))?;
    }
    for (second, (kind, _)) in (0..=u8::MAX).flat_map(|second| ANSWERS.map(|answer| (second, answer))) {
        for length in 2..=8 {
            let mut data = random.beginning(kind, length);
            data[1] = second;
            compare(&read_answer(&data, 1))?;
        }
    }
    Ok(())
}

/// Counts about all limits and any counts, the lowest byte first, and positions in more than a byte.
fn every_number(random: &mut Random, compare: &mut Compare<GateReadAnswer>) -> Result<(), Stop> {
    let any = (0..5_000).map(|_| random.number()).collect();
    for number in [limits(), any].concat() {
        let [b0, b1, b2, b3] = number.to_le_bytes();
        for data in [&[COUNT, b0, b1, b2, b3][..], &[COUNT, b3, b2, b1, b0], &[POSITION, b0], &[POSITION, b0, b1]] {
            compare(&read_answer(data, 1))?;
        }
    }
    Ok(())
}

/// Data of every length, lengths that look right if they are cut down, and wrong numbers of places for
/// the number.
fn lengths(random: &mut Random, compare: &mut Compare<GateReadAnswer>) -> Result<(), Stop> {
    for (length, (kind, _)) in (1..=260).flat_map(|length| ANSWERS.map(|answer| (length, answer))) {
        for first in [kind, random.byte()] {
            compare(&read_answer(&random.beginning(first, length), 1))?;
        }
    }
    for (more, (kind, right)) in [256, 65536, MEGABYTE].into_iter().flat_map(|more| ANSWERS.map(|a| (more, a))) {
        compare(&read_answer(&random.beginning(kind, right + more), 1))?;
    }
    for places in [0, 1, 2, 3, 4, 8, 256, 257, 65536, 65537] {
        for (kind, right) in ANSWERS.into_iter().chain([(0x00, 1), (0x1E, 2)]) {
            for length in [0, 1, right, right + 1] {
                compare(&read_answer(&random.beginning(kind, length), places))?;
            }
        }
    }
    Ok(())
}

#[cfg(test)]
mod tests {
    use super::*;
    use crate::answer::kind;
    use crate::driver::found;

    #[test]
    fn mistakes_are_found() {
        // A position of 101 is taken, or of -2.
        let smallest = found::<GateReadAnswer>("the answer", |data, number| match data {
            [POSITION, 101] => plain::read_answer(&[POSITION, 100], number),
            _ => plain::read_answer(data, number),
        });
        assert_eq!(smallest, read_answer(&[POSITION, 101], 1));
        let smallest = found::<GateReadAnswer>("the answer", |data, number| match data {
            [POSITION, 0xFE] => plain::read_answer(&[POSITION, 0xFF], number),
            _ => plain::read_answer(data, number),
        });
        assert_eq!(smallest, read_answer(&[POSITION, 0xFE], 1));
        // An unknown position is 255.
        let smallest = found::<GateReadAnswer>("number", |data, number| {
            let answer = plain::read_answer(data, number);
            if let (&[POSITION, 0xFF], [position]) = (data, number) {
                *position = 255;
            }
            answer
        });
        assert_eq!(smallest, read_answer(&[POSITION, 0xFF], 1));
        // The count is read with its highest byte first, or without its sign.
        let smallest = found::<GateReadAnswer>("number", |data, number| match *data {
            [COUNT, b0, b1, b2, b3] => plain::read_answer(&[COUNT, b3, b2, b1, b0], number),
            _ => plain::read_answer(data, number),
        });
        assert_eq!(smallest.data[0], COUNT);
        found::<GateReadAnswer>("number", |data, number| {
            let answer = plain::read_answer(data, number);
            if let ([COUNT, ..], 0, [count]) = (data, kind(answer), number) {
                *count = count.saturating_abs();
            }
            answer
        });
        // A number stays as it was with an ack, or is 0 where it is refused.
        found::<GateReadAnswer>("number", |data, number| match data {
            [ACK] if number.len() == 1 => done(ACK.into()),
            _ => plain::read_answer(data, number),
        });
        found::<GateReadAnswer>("number", |data, number| {
            let answer = plain::read_answer(data, number);
            if kind(answer) == 10 {
                number[0] = 0;
            }
            answer
        });
        // Another length is judged before an unknown kind, or not at all.
        found::<GateReadAnswer>("the answer", |data, number| match plain::read_answer(data, number) {
            answer if kind(answer) == 3 && data.len() > 5 => refused(7),
            answer => answer,
        });
        let smallest = found::<GateReadAnswer>("the answer", |data, number| {
            plain::read_answer(if let [ACK, 0] = data { &[ACK] } else { data }, number)
        });
        assert_eq!(smallest, read_answer(&[ACK, 0], 1));
    }
}
