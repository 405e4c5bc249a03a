//! Writing an answer of a barrier.

use super::{limits, ANSWERS};
use crate::call::{arguments, Call, Compare, Kind, Outcome, Stop};
use crate::calls::{given, MEGABYTE};
use crate::inputs::Random;
use crate::lent::Lent;
use crate::plain::gate as plain;
use reference::gate::{self, BarrierAnswer, ACK, BUSY, COUNT, NAK, OTHER_KIND, POSITION, SYN};
use std::ops::RangeInclusive;

arguments!(GateWriteAnswer, hanraquin_gate_write_answer {
    kind: number u8,
    number: number i32,
    out: write u8,
});

fn reference(kind: u8, number: i32, out: &mut [u8]) -> u64 {
    let answer = match kind {
        ACK => BarrierAnswer::Ack,
        NAK => BarrierAnswer::Nak,
        BUSY => BarrierAnswer::Busy,
        SYN => BarrierAnswer::Syn,
        COUNT => BarrierAnswer::Count(number),
        POSITION => BarrierAnswer::Position(number),
        _ => return given(Err(OTHER_KIND)),
    };
    given(gate::write_answer(answer, out))
}

impl GateWriteAnswer {
    /// Whether an answer of this kind is written.
    fn writes(&self, outcome: &Outcome<GateWriteAnswer>, kind: u8) -> bool {
        outcome.is_done() && self.kind == kind
    }

    /// Whether there is no room for an answer of so many bytes.
    fn is_short(&self, outcome: &Outcome<GateWriteAnswer>, length: usize) -> bool {
        outcome.refused(11) && ANSWERS.contains(&(self.kind, length))
    }
}

impl Call for GateWriteAnswer {
    const NAME: &'static str = "gate_write_answer";
    const PLAIN: Self::Function = plain::write_answer;
    const REFERENCE: Self::Function = reference;
    const KINDS: &'static [Kind<GateWriteAnswer>] = &[
        ("ack", |w, o| w.writes(o, ACK)),
        ("nak", |w, o| w.writes(o, NAK)),
        ("busy", |w, o| w.writes(o, BUSY)),
        ("syn", |w, o| w.writes(o, SYN)),
        ("count, below 0", |w, o| w.writes(o, COUNT) && w.number < 0),
        ("count", |w, o| w.writes(o, COUNT)),
        ("position, unknown", |w, o| w.writes(o, POSITION) && w.number == -1),
        ("position", |w, o| w.writes(o, POSITION)),
        ("refused 3", |_, o| o.refused(3)),
        ("refused 10, a position if cut down", |w, o| o.refused(10) && (-1..=100).contains(&(w.number as i8))),
        ("refused 10, below -1", |w, o| o.refused(10) && w.number < -1),
        ("refused 10, above 100", |_, o| o.refused(10)),
        ("refused 11, one byte", |w, o| w.is_short(o, 1)),
        ("refused 11, count", |w, o| w.is_short(o, 5)),
        ("refused 11, position", |w, o| w.is_short(o, 2)),
    ];
    /// The positions, each with 1 added.
    const NUMBERS: RangeInclusive<usize> = 0..=101;

    fn number(&self, outcome: &Outcome<GateWriteAnswer>) -> Option<usize> {
        self.writes(outcome, POSITION).then(|| (self.number + 1) as usize)
    }

    fn generate(random: &mut Random, compare: &mut Compare<GateWriteAnswer>) -> Result<(), Stop> {
        every_kind(random, compare)?;
        every_number(random, compare)
    }
}

/// An answer to write, with an output of so many places.
fn write_answer(kind: u8, number: i32, places: usize) -> GateWriteAnswer {
    GateWriteAnswer { kind, number, out: Lent::output(places) }
}

/// Every first byte, with numbers at their limits, and outputs of every length.
fn every_kind(random: &mut Random, compare: &mut Compare<GateWriteAnswer>) -> Result<(), Stop> {
    let limits = limits();
    for (kind, places) in (0..=u8::MAX).flat_map(|kind| (0..=8).map(move |places| (kind, places))) {
        for number in [0, -1, 100, -2, 101, random.pick(&limits), random.number()] {
            compare(&write_answer(kind, number, places))?;
        }
    }
    for (places, kind) in [9, 260, 65536, MEGABYTE].into_iter().flat_map(|n| ANSWERS.map(|(kind, _)| (n, kind))) {
        compare(&write_answer(kind, random.pick(&limits), places))?;
    }
    Ok(())
}

/// Every kind of answer with numbers about all limits and with any numbers.
fn every_number(random: &mut Random, compare: &mut Compare<GateWriteAnswer>) -> Result<(), Stop> {
    let any = (0..5_000).map(|_| random.number()).collect();
    for number in [limits(), any].concat() {
        for (kind, length) in ANSWERS {
            compare(&write_answer(kind, number, length))?;
            compare(&write_answer(kind, number, random.pick(&[0, length - 1, length + 1])))?;
        }
    }
    Ok(())
}

#[cfg(test)]
mod tests {
    use super::*;
    use crate::answer::{kind, refused};
    use crate::driver::found;

    #[test]
    fn mistakes_are_found() {
        // A position of 101 is taken, or of -2.
        let smallest = found::<GateWriteAnswer>("the answer", |kind, number, out| {
            plain::write_answer(kind, if kind == POSITION && number == 101 { 100 } else { number }, out)
        });
        assert_eq!(smallest, write_answer(POSITION, 101, 0));
        let smallest = found::<GateWriteAnswer>("the answer", |kind, number, out| {
            plain::write_answer(kind, if kind == POSITION && number == -2 { -1 } else { number }, out)
        });
        assert_eq!(smallest, write_answer(POSITION, -2, 0));
        // A position is cut down to a byte before it is judged, or to 16 bits.
        let smallest = found::<GateWriteAnswer>("the answer", |kind, number, out| {
            plain::write_answer(kind, if kind == POSITION { (number as i8).into() } else { number }, out)
        });
        assert_eq!(smallest, write_answer(POSITION, 255, 0));
        let smallest = found::<GateWriteAnswer>("the answer", |kind, number, out| {
            plain::write_answer(kind, if kind == POSITION { (number as i16).into() } else { number }, out)
        });
        assert!(smallest.kind == POSITION && (-1..=100).contains(&(smallest.number as i16)));
        // The count is written with its highest byte first.
        found::<GateWriteAnswer>("out, first at place 1 of 5", |kind, number, out| {
            plain::write_answer(kind, if kind == COUNT { number.swap_bytes() } else { number }, out)
        });
        // A number that is not needed is judged.
        let smallest = found::<GateWriteAnswer>("the answer", |kind, number, out| match (kind, number) {
            (ACK, 1..) => refused(10),
            _ => plain::write_answer(kind, number, out),
        });
        assert_eq!(smallest, write_answer(ACK, 1, 0));
        // 11 comes before 10.
        found::<GateWriteAnswer>("the answer", |first, number, out| match plain::write_answer(first, number, out) {
            answer if kind(answer) == 10 && out.len() < 2 => refused(11),
            answer => answer,
        });
    }
}
