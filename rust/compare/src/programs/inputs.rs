//! Inputs for the programs, made from a seed.

use super::Input;
use crate::inputs::link::FILLINGS;
use crate::inputs::telegrams::{faulty_bodies, mark_of, marked, telegram, FUNCTIONS, REPLY, REQUEST};
use crate::inputs::Random;
use reference::report::ADDRESSES;

/// Data to frame.
pub fn framing(random: &mut Random) -> Vec<Input> {
    let mut sizes = Vec::new();
    for length in (0..=70).chain(1000..=1030) {
        sizes.extend([(length, 1), (length, 1), (random.below(1100), 1)]);
    }
    for length in [1, 2, 40, 1023, 1024, 1025, 1026, 5_000, 200_000] {
        sizes.extend([1, 2, 5].map(|pieces| (length, pieces)));
    }
    let mut inputs = Vec::new();
    for (length, pieces) in sizes {
        for filling in FILLINGS {
            inputs.push(Input { bytes: random.fill(length, filling), piece: length.div_ceil(pieces).max(1) });
        }
    }
    inputs
}

/// Streams to listen to.
pub fn listening(random: &mut Random) -> Vec<Input> {
    let mut sizes = vec![(250_000, 300_000); 4];
    sizes.push((30_000, 997));
    let stream = |(length, piece)| Input { bytes: random.stream(length), piece };
    sizes.into_iter().map(stream).collect()
}

/// A request over all the program's stations, which writes a register and reads another.
const EXAMPLE: [u8; 14] = [0x60, 0xFF, 0x12, 0x13, 0x55, 0x00, 0x03, 0xBB, 0x01, 0x01, 0x2C, 0x01, 0x00, 0x01];

/// Lengths of input about the most that is read, and much longer ones.
const LENGTHS: [usize; 7] = [1023, 1024, 1025, 1026, 2048, 5_000, 200_000];

/// Telegrams to play; some are written in several pieces.
pub fn telegrams(random: &mut Random) -> Vec<Input> {
    let mut inputs = Vec::new();
    let mut add = |bytes: &[u8], piece: usize| {
        inputs.push(Input { bytes: bytes.to_vec(), piece });
    };
    for piece in [1, 2, 5, 7, 13, EXAMPLE.len()] {
        add(&EXAMPLE, piece);
    }
    for length in 0..EXAMPLE.len() {
        add(&EXAMPLE[..length], 1024);
    }
    for (function, length) in FUNCTIONS.into_iter().flat_map(|f| LENGTHS.map(|l| (f, l))) {
        let mut bytes = telegram(function, false, &[0x13, 0x55, 0, 0x12], &[0; 6]);
        bytes.resize(length, 0);
        for pieces in [1, 2, 3] {
            add(&bytes, length.div_ceil(pieces));
        }
    }
    for (i, bytes) in played(random).iter().enumerate() {
        let pieces = if i % 8 == 0 { 2 + random.below(2) } else { 1 };
        add(bytes, bytes.len().div_ceil(pieces).max(1));
    }
    inputs
}

/// Telegrams of all kinds over the program's stations and over others.
fn played(random: &mut Random) -> Vec<Vec<u8>> {
    let mut telegrams = Vec::new();
    for body in faulty_bodies() {
        let to = random.pick(&ADDRESSES);
        telegrams.push(telegram(REQUEST, false, &[to, 0, 0, 0], &body));
    }
    for block in [[0x12, 0x13, 0], [0, 0x12, 0x13]] {
        telegrams.push(marked(REPLY, 0xEF - mark_of(REPLY, &block), &block, &[0; 6]));
    }
    for _ in 0..450 {
        let mut telegram = random.program_telegram();
        for _ in 0..random.below(3) {
            random.change(&mut telegram);
        }
        telegrams.push(telegram);
    }
    telegrams
}

impl Random {
    /// A telegram over stations of the program and, now and then, another.
    fn program_telegram(&mut self) -> Vec<u8> {
        let (extended, n) = self.some_form();
        let mut block = ADDRESSES.to_vec();
        if self.once_in(4) {
            block.push(0x99);
        }
        self.shuffle(&mut block);
        block.truncate(self.below(n.min(5)));
        block.resize(n, 0);
        if self.once_in(2) {
            block.rotate_left(self.below(n));
        }
        let function = self.pick(&[REQUEST, REQUEST, REPLY]);
        telegram(function, extended, &block, &self.some_body())
    }
}
