//! Writing a frame.

use super::{given, MEGABYTE};
use crate::answer::done;
use crate::call::{arguments, Call, Compare, Kind, Stop};
use crate::inputs::link::FILLINGS;
use crate::inputs::Random;
use crate::lent::Lent;
use crate::plain;
use hanraquin::FRAME_MAX;
use reference::link::{self, DLE};

arguments!(Frame, hanraquin_frame {
    data: read u8,
    out: write u8,
});

impl Call for Frame {
    const NAME: &'static str = "frame";
    const PLAIN: Self::Function = plain::frame;
    const REFERENCE: Self::Function = |data, out| given(link::frame(data, out));
    const KINDS: &'static [Kind<Frame>] = &[
        ("written, no data", |frame, outcome| outcome.is_done() && frame.data.is_empty()),
        ("written, the longest", |_, outcome| outcome.answer == done(FRAME_MAX)),
        ("written", |_, outcome| outcome.is_done()),
        ("refused 11", |_, outcome| outcome.refused(11)),
        ("refused 12", |_, outcome| outcome.refused(12)),
    ];

    fn generate(random: &mut Random, compare: &mut Compare<Frame>) -> Result<(), Stop> {
        every_length(random, compare)?;
        tens(compare)
    }
}

/// Data to frame, with an output of so many places.
pub fn frame(data: &[u8], places: usize) -> Frame {
    Frame { data: data.into(), out: Lent::output(places) }
}

/// The length of the frame of data.
pub(super) fn length_of(data: &[u8]) -> usize {
    data.len() + data.iter().filter(|&&byte| byte == DLE).count() + 3
}

/// Data of every length, with outputs of the exact length and of lengths around it, and short data
/// with outputs of every length.
fn every_length(random: &mut Random, compare: &mut Compare<Frame>) -> Result<(), Stop> {
    let long = [1100, 2048, 2049, 5_000, 65536, 65540, 131_072, 200_000];
    for length in (0..=1030).chain(long).chain([MEGABYTE, MEGABYTE + 1000]) {
        for filling in FILLINGS.into_iter().take(if length < MEGABYTE { FILLINGS.len() } else { 1 }) {
            let data = random.fill(length, filling);
            let exact = length_of(&data);
            let (shorter, ample) = (random.below(exact), 2 * length + 3);
            let every = if length <= 40 { 0..exact } else { 0..0 };
            let some = [exact, exact - 1, exact + 1, shorter, ample, ample - 1];
            for places in some.into_iter().chain(every) {
                compare(&frame(&data, places))?;
            }
        }
    }
    Ok(())
}

/// One and two bytes 10 at every place of short data.
fn tens(compare: &mut Compare<Frame>) -> Result<(), Stop> {
    for (length, first) in (1..=52).flat_map(|length| (0..length).map(move |first| (length, first))) {
        for second in first..length {
            let mut data: Vec<u8> = (0x40..).take(length).collect();
            (data[first], data[second]) = (DLE, DLE);
            compare(&frame(&data, length_of(&data)))?;
            compare(&frame(&data, 2 * length + 3))?;
        }
    }
    Ok(())
}

#[cfg(test)]
mod tests {
    use super::*;
    use crate::answer::{kind, refused, value};
    use crate::driver::found;

    #[test]
    fn mistakes_are_found() {
        // A doubled 10 counts once in the check byte.
        let smallest = found::<Frame>("out", |data, out| {
            let answer = plain::frame(data, out);
            if kind(answer) == 0 {
                out[value(answer) - 1] = data.iter().fold(0x10 ^ 0x03, |sum, byte| sum ^ byte);
            }
            answer
        });
        assert_eq!(smallest, frame(&[0x10], 5));
        // The frame is written as far as it fits.
        found::<Frame>("out", |data, out| {
            let answer = plain::frame(data, out);
            if kind(answer) == 11 {
                let fits = data.len().min(out.len());
                out[..fits].copy_from_slice(&data[..fits]);
            }
            answer
        });
        // Data is framed only where it lies at an even place of memory.
        found::<Frame>("the answer", |data, out| match data.as_ptr().addr() % 2 {
            0 => plain::frame(data, out),
            _ => refused(1),
        });
        // The answer has a bit that it must not have.
        let smallest = found::<Frame>("the answer", |data, out| {
            plain::frame(data, out) | if data.len() == 777 { 1 << 40 } else { 0 }
        });
        assert_eq!(smallest, frame(&[0; 777], 0));
    }
}
