//! Data to frame, and streams to receive.

use super::Random;
use reference::link::{DLE, ETX, MAX_DATA, NAK, STX};

/// Gives the next byte of some data; the byte it takes is drawn once for the data.
pub type Filling = fn(&mut Random, u8) -> u8;

/// The kinds of data.
pub const FILLINGS: [Filling; 6] = [
    |random, _| random.byte(),
    |_, _| DLE,
    |random, _| match random.below(8) {
        0 => random.byte(),
        _ => DLE,
    },
    control,
    |random, _| match random.below(3) {
        0 => control(random, 0),
        _ => random.byte(),
    },
    |_, byte| byte,
];

fn control(random: &mut Random, _: u8) -> u8 {
    random.pick(&[STX, ETX, DLE, NAK])
}

impl Random {
    /// Data of so many bytes.
    pub fn fill(&mut self, length: usize, filling: Filling) -> Vec<u8> {
        let constant = self.byte();
        (0..length).map(|_| filling(self, constant)).collect()
    }

    /// A stream of at least so many bytes.
    pub fn stream(&mut self, length: usize) -> Vec<u8> {
        let mut bytes = Vec::new();
        while bytes.len() < length {
            bytes.extend(self.part());
        }
        bytes
    }

    /// A part of a stream: STX and a frame, sound or spoilt, or a burst of bytes.
    pub fn part(&mut self) -> Vec<u8> {
        let length = match self.below(8) {
            0 => 0,
            1 => MAX_DATA,
            2 => 1000 + self.below(25),
            _ => self.below(60),
        };
        let filling = self.pick(&FILLINGS);
        let data = self.fill(length, filling);
        let mut frame = framed(&data);
        let at = self.below(frame.len());
        let more = 1 + self.below(200);
        match self.below(9) {
            0 => frame[at] ^= 1 + self.below(255) as u8,
            1 => drop(frame.remove(at)),
            2 => frame.insert(at, frame[at]),
            3 => frame.insert(at, self.byte()),
            // Each doubled 10 counts once in the check byte, which is wrong for an odd number of
            // them.
            4 => *frame.last_mut().expect("a check byte") = xor(&data) ^ DLE ^ ETX,
            5 => frame = framed(&self.fill(MAX_DATA + more, filling)),
            6 => frame = self.bytes(more),
            7 => frame = self.fill(more, control),
            _ => {}
        }
        frame
    }
}

/// STX and the frame of data of any length.
fn framed(data: &[u8]) -> Vec<u8> {
    let mut frame = vec![STX];
    for &byte in data {
        frame.push(byte);
        if byte == DLE {
            frame.push(DLE);
        }
    }
    frame.extend([DLE, ETX]);
    frame.push(xor(&frame[1..]));
    frame
}

fn xor(bytes: &[u8]) -> u8 {
    bytes.iter().fold(0, |sum, byte| sum ^ byte)
}
