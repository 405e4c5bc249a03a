//! Measures two implementations, in turn.

use crate::rows::Row;
use std::hint::black_box;
use std::time::{Duration, Instant};

/// The middle of several numbers, and the quartiles around it.
pub struct Spread {
    pub low: f64,
    pub median: f64,
    pub high: f64,
}

impl Spread {
    fn of(mut numbers: Vec<f64>) -> Spread {
        numbers.sort_by(f64::total_cmp);
        let [low, median, high] = [1, 2, 3].map(|part| numbers[(numbers.len() - 1) * part / 4]);
        Spread { low, median, high }
    }

    /// Half the distance between the quartiles, in percent of the median.
    pub fn percent(&self) -> f64 {
        50.0 * (self.high - self.low) / self.median
    }
}

/// How long the calls of a row take.
pub struct Measured {
    /// Nanoseconds for one call.
    pub library: Spread,
    pub plain: Spread,
    /// What the samples of plain Rust took, each divided by the sample of the library before it.
    pub ratio: Spread,
}

/// How often and how long is measured.
#[derive(Clone, Copy)]
pub struct Plan {
    pub samples: usize,
    pub sample: Duration,
}

/// How many depths of the stack there are. Together they go through a page of memory.
const DEPTHS: usize = 32;

/// Takes samples of both implementations, one after the other.
pub fn measure(row: &mut Row, plan: Plan) -> Measured {
    let once: [fn(&mut Row) -> u64; 2] = [|row| row.work.library(), |row| row.work.plain()];
    let times = once.map(|once| calibrate(once, row, plan.sample));
    let (mut library, mut plain, mut ratio) = (Vec::new(), Vec::new(), Vec::new());
    for number in 0..plan.samples {
        let mut taken = [0.0; 2];
        deeper(number % DEPTHS, &mut || {
            taken = [0, 1].map(|i| sample(once[i], row, times[i]));
        });
        for (taken, times) in taken.iter_mut().zip(times) {
            *taken /= (times * row.calls) as f64;
        }
        library.push(taken[0]);
        plain.push(taken[1]);
        ratio.push(taken[1] / taken[0]);
    }
    Measured { library: Spread::of(library), plain: Spread::of(plain), ratio: Spread::of(ratio) }
}

/// How often the calls are to be made for a sample of this length. Warms up on the way.
fn calibrate(once: fn(&mut Row) -> u64, row: &mut Row, length: Duration) -> usize {
    let length = length.as_nanos() as f64;
    let mut times = 1;
    loop {
        let taken = sample(once, row, times);
        if taken >= length / 2.0 {
            return (times as f64 * length / taken).ceil() as usize;
        }
        times *= 2;
    }
}

/// Runs a function so many frames deeper in the stack. How the stack lies against the buffers can
/// make a call half as slow again, and is left to chance at the start of a process.
#[inline(never)]
fn deeper(frames: usize, function: &mut dyn FnMut()) {
    let place = black_box([0u8; 96]);
    match frames {
        0 => function(),
        _ => deeper(frames - 1, function),
    }
    black_box(place);
}

/// Makes the calls so many times, and gives the nanoseconds that it took.
#[inline(never)]
fn sample(once: fn(&mut Row) -> u64, row: &mut Row, times: usize) -> f64 {
    let start = Instant::now();
    for _ in 0..times {
        black_box(once(row));
    }
    start.elapsed().as_nanos() as f64
}

#[cfg(test)]
mod tests {
    use super::*;

    #[test]
    fn middle_and_quartiles() {
        let spread = Spread::of(vec![50.0, 10.0, 30.0, 20.0, 40.0]);
        assert_eq!((spread.low, spread.median, spread.high), (20.0, 30.0, 40.0));
        assert_eq!(spread.percent().round(), 33.0);
        assert_eq!(Spread::of(vec![7.0]).percent(), 0.0);
    }
}
