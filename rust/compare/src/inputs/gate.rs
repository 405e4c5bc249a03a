//! Data for telegrams of the gate bus, and streams to receive.

use super::link::Filling;
use super::Random;
use hanraquin::sys::TIMER;
use reference::gate::{check, CHECK_START, LAST_MASTER, MAX_DATA, RESERVED, START};

/// The kinds of data.
pub const FILLINGS: [Filling; 4] = [
    |random, _| random.byte(),
    |_, _| START,
    |random, byte| match random.below(3) {
        0 => START,
        1 => byte,
        _ => random.byte(),
    },
    |_, byte| byte,
];

/// A telegram with up to 255 bytes of data, and with the right check.
fn telegram(destination: u8, source: u8, data: &[u8]) -> Vec<u8> {
    let mut telegram = vec![START, destination, source, data.len() as u8];
    telegram.extend(data);
    telegram.extend(check(CHECK_START, &telegram).to_be_bytes());
    telegram
}

impl Random {
    /// An address, mostly one at a limit.
    pub fn gate_address(&mut self) -> u8 {
        let any = self.byte();
        self.pick(&[0x00, 0x01, LAST_MASTER, LAST_MASTER + 1, START, 0xFE, RESERVED, any, any])
    }

    /// A stream of at least so many events at a station with this address. Now and then the timer runs
    /// out behind a part.
    pub fn gate_stream(&mut self, own: u8, length: usize) -> Vec<u32> {
        let mut events = Vec::new();
        while events.len() < length {
            events.extend(self.gate_part(own).into_iter().map(u32::from));
            if self.once_in(4) {
                events.push(TIMER);
            }
        }
        events
    }

    /// A part of a stream: a telegram, sound or spoilt, or a burst of bytes.
    fn gate_part(&mut self, own: u8) -> Vec<u8> {
        let length = match self.below(32) {
            0..8 => 0,
            8 => MAX_DATA,
            9 => 248 + self.below(8),
            _ => 1 + self.below(20),
        };
        let another = self.gate_address();
        let destination = self.pick(&[own, own, another]);
        let source = match self.once_in(3) {
            true => self.gate_address(),
            false => self.below(usize::from(LAST_MASTER) + 1) as u8,
        };
        let filling = self.pick(&FILLINGS);
        let data = self.fill(length, filling);
        let mut part = telegram(destination, source, &data);
        let end = part.len();
        let (at, changed) = (self.below(end), 1 + self.below(255) as u8);
        match self.below(20) {
            0 => part[at] ^= changed,
            1 => drop(part.remove(at)),
            2 => part.insert(at, part[at]),
            3 => part.insert(at, self.byte()),
            4 => part[end - 2] ^= changed,
            5 => part[end - 1] ^= changed,
            6 => part.swap(end - 2, end - 1),
            // The next part begins in the midst of this one.
            7 => part.truncate(at),
            // A telegram for the station is the data of another's.
            8 => part = telegram(!own, source, &telegram(own, source, &data[..length.min(20)])),
            9 => part = self.bytes(1 + usize::from(changed) / 4),
            10 => part = (0..changed % 8).map(|_| self.pick(&[START, own])).collect(),
            // What comes before the start is skipped.
            11 => drop(part.splice(0..0, [changed, 0x00, !START, own].into_iter().filter(|&byte| byte != START))),
            _ => {}
        }
        part
    }
}
