//! Telegrams and their parts, good ones and others, made from a seed.

use super::Random;
use reference::registers::{factory, time, Range, Row, LAST_HOUR, LAST_MINUTE, ROWS};

pub const REQUEST: u8 = 0x60;
pub const REPLY: u8 = 0xE0;
pub const FUNCTIONS: [u8; 2] = [REQUEST, REPLY];

/// The control byte of a telegram, unlike that of a newly written one.
const CONTROL: u8 = 0x5A;

/// The first mark byte that belongs to a block.
pub fn mark_of(function: u8, block: &[u8]) -> u8 {
    if function == REPLY && block.first() == Some(&0) {
        0x00
    } else {
        0xEF
    }
}

/// A telegram in the extended form, with any mark.
pub fn marked(function: u8, mark: u8, block: &[u8], body: &[u8]) -> Vec<u8> {
    let count = block.len() as u8;
    let front = [function, CONTROL, mark, 0xEF, 0xEF, 0xEF, count];
    [&front, block, body].concat()
}

/// A telegram in the extended form, or else in the standard one.
pub fn telegram(function: u8, extended: bool, block: &[u8], body: &[u8]) -> Vec<u8> {
    if extended {
        marked(function, mark_of(function, block), block, body)
    } else {
        [&[function, CONTROL], block, body].concat()
    }
}

/// Whether a telegram is in the extended form.
pub fn is_extended(telegram: &[u8]) -> bool {
    matches!(telegram, [_, _, 0xEF, 0xEF, 0xEF, 0xEF, ..] | [REPLY, _, 0x00, 0xEF, 0xEF, 0xEF, ..])
}

/// The entries of the block, as far as they are there.
pub fn block_of(telegram: &[u8]) -> &[u8] {
    let (start, count) = match is_extended(telegram) {
        true => (7, telegram.get(6).map_or(0, |&count| usize::from(count).min(32))),
        false => (2, 4),
    };
    let block = telegram.get(start..).unwrap_or(&[]);
    &block[..count.min(block.len())]
}

/// The first entry of the block; 00 where it is missing.
pub fn first_entry(telegram: &[u8]) -> u8 {
    block_of(telegram).first().copied().unwrap_or(0)
}

/// The body of a request; the write count is that of the values.
pub fn body(read: (u16, u8), start: u16, values: &[u16]) -> Vec<u8> {
    let mut body = read.0.to_be_bytes().to_vec();
    body.push(read.1);
    body.extend(start.to_be_bytes());
    body.push(values.len() as u8);
    body.extend(values.iter().flat_map(|value| value.to_be_bytes()));
    body
}

/// Every form: standard, and extended with so many entries.
pub fn forms() -> impl Iterator<Item = (bool, usize)> {
    [(false, 4)].into_iter().chain((2..=32).map(|n| (true, n)))
}

/// The register of a number.
pub fn row(number: u16) -> Option<Row> {
    ROWS.into_iter().find(|row| row.number == number)
}

/// The lowest and the highest value of a range.
pub fn ends(range: Range) -> [u16; 2] {
    match range {
        Range::Interval(low, high) => [low, high],
        Range::TimeOfDay => [0, time(LAST_HOUR, LAST_MINUTE)],
    }
}

/// Every run that exists: its start and its count.
pub fn all_runs() -> Vec<(u16, u8)> {
    let mut runs = Vec::new();
    for start in ROWS.map(|row| row.number) {
        let exists = |&number: &u16| row(number).is_some();
        let longest = (start..=u16::MAX).take_while(exists).count();
        runs.extend((1..=longest).map(|count| (start, count as u8)));
    }
    runs
}

/// The runs that may be written.
pub fn writable_runs() -> Vec<(u16, u8)> {
    let mut runs = all_runs();
    runs.retain(|&(start, _)| row(start).is_some_and(|row| row.write));
    runs
}

/// Bodies with none, one or several of a destination's refusals, in every combination.
pub fn faulty_bodies() -> Vec<Vec<u8>> {
    let reads = [(955, 8), (953, 2), (0, 1), (65535, 0), (65535, 2)];
    #[rustfmt::skip]
    let writes: [(u16, &[u16]); 12] = [
        (0, &[]), (952, &[1440, 25]), (952, &[1440, 26]), (952, &[0, 25]), (953, &[26, 0]),
        (931, &[0, 0]), (935, &[0, 0, 0]), (936, &[65535]), (65535, &[1, 1]),
        (955, &[0x173B, 59, 65535]), (955, &[0x084B, 59, 0]), (957, &[0x173C, 1, 1, 1, 1, 0, 1]),
    ];
    let mut bodies = Vec::new();
    for read in reads {
        for (start, values) in writes {
            let mut bytes = body(read, start, values);
            let right = bytes.len();
            bytes.push(0);
            bodies.extend([right - 1, right, right + 1].map(|length| bytes[..length].to_vec()));
        }
    }
    bodies
}

impl Random {
    /// An address, often one at an end of the range, or one that looks like a mark.
    pub fn address(&mut self) -> u8 {
        if self.once_in(8) {
            self.pick(&[0x01, 0xEF, 0xF0])
        } else {
            1 + self.below(240) as u8
        }
    }

    /// A good block of so many stations and entries, rolled left by so many places.
    pub fn block(&mut self, stations: usize, entries: usize, by: usize) -> Vec<u8> {
        let mut block = Vec::new();
        while block.len() < stations {
            let address = self.address();
            if !block.contains(&address) {
                block.push(address);
            }
        }
        block.resize(entries, 0);
        block.rotate_left(by);
        block
    }

    /// A good block of so many entries. Half of those that name a station begin with the
    /// destination of a request.
    pub fn some_block(&mut self, entries: usize) -> Vec<u8> {
        let stations = self.below(entries);
        let by = if stations > 0 && self.once_in(2) { stations - 1 } else { self.below(entries) };
        self.block(stations, entries, by)
    }

    /// A good block that names a station and begins with an empty entry.
    pub fn home_block(&mut self, entries: usize) -> Vec<u8> {
        let stations = 1 + self.below(entries - 1);
        let by = stations + self.below(entries - stations);
        self.block(stations, entries, by)
    }

    /// A good block with one entry changed, in many ways at every place.
    pub fn damaged(&mut self, good: &[u8]) -> Vec<Vec<u8>> {
        let mut blocks = Vec::new();
        for place in 0..good.len() {
            let (next, any) = (good[(place + 1) % good.len()], self.pick(good));
            for entry in [0x00, 0x01, 0xEF, 0xF0, 0xF1, 0xFF, next, any] {
                let mut block = good.to_vec();
                block[place] = entry;
                blocks.push(block);
            }
        }
        blocks
    }

    /// So many different addresses, in any order and without the given ones.
    pub fn others(&mut self, count: usize, without: &[u8]) -> Vec<u8> {
        let mut addresses: Vec<u8> = (1..=240).filter(|a| !without.contains(a)).collect();
        self.shuffle(&mut addresses);
        addresses.truncate(count);
        addresses
    }

    /// Values for registers: those of new stations, one value, or any.
    pub fn tables(&mut self, count: usize) -> Vec<u16> {
        let one = self.word();
        match self.below(4) {
            0 => factory().into_iter().cycle().take(count).collect(),
            1 => vec![one; count],
            _ => (0..count).map(|_| self.word()).collect(),
        }
    }

    /// A number from the lowest to the highest, often one of these.
    fn between(&mut self, low: u16, high: u16) -> u16 {
        match self.below(4) {
            0 => low,
            1 => high,
            _ => low + self.below(usize::from(high - low) + 1) as u16,
        }
    }

    /// A value that a register takes, often one at an end of its range.
    pub fn good_value(&mut self, row: Row) -> u16 {
        match (row.also, row.range) {
            (Some(also), _) if self.once_in(4) => also,
            (_, Range::Interval(low, high)) => self.between(low, high),
            (_, Range::TimeOfDay) => time(self.between(0, LAST_HOUR), self.between(0, LAST_MINUTE)),
        }
    }

    /// A value that a register does not take; any value where it takes all. Of a time of day the
    /// minute is wrong more often than the hour.
    pub fn bad_value(&mut self, row: Row) -> u16 {
        let ([low, high], any) = (ends(row.range), self.word());
        let mut values = vec![low.wrapping_sub(1), high.wrapping_add(1), high | 0x8000, 65534, 65535, any];
        if row.range == Range::TimeOfDay {
            let minutes = [LAST_MINUTE + 1, self.between(LAST_MINUTE + 1, 255), 255];
            values.extend(minutes.map(|minute| time(self.between(0, LAST_HOUR), minute)));
            values.push(time(LAST_HOUR + 1, self.between(0, LAST_MINUTE)));
        }
        values.retain(|&value| !row.takes(value));
        if values.is_empty() {
            any
        } else {
            self.pick(&values)
        }
    }

    /// Values that the registers of a run take; anything for a number without one.
    pub fn good_values(&mut self, start: u16, count: u8) -> Vec<u16> {
        (0..u16::from(count))
            .map(|i| match row(start.wrapping_add(i)) {
                Some(row) => self.good_value(row),
                None => self.word(),
            })
            .collect()
    }

    /// A run to read and a run to write; one in four is empty, and may begin anywhere.
    pub fn runs(&mut self) -> [(u16, u8); 2] {
        let runs = [self.pick(&all_runs()), self.pick(&writable_runs())];
        runs.map(|run| if self.once_in(4) { (self.word(), 0) } else { run })
    }

    /// A body that a destination accepts.
    pub fn good_body(&mut self) -> Vec<u8> {
        let [read, (start, count)] = self.runs();
        body(read, start, &self.good_values(start, count))
    }

    /// A body, most often one that is accepted.
    pub fn some_body(&mut self) -> Vec<u8> {
        let mut body = self.good_body();
        let at = self.below(body.len());
        match self.below(12) {
            0 => body[at] ^= 1 << self.below(8),
            1 => body = self.bytes(at),
            2 | 3 => self.change(&mut body),
            _ => {}
        }
        body
    }

    /// A body that goes with a function, most often one of the right length.
    pub fn body_for(&mut self, function: u8) -> Vec<u8> {
        if function != REPLY {
            return self.some_body();
        }
        let count = match self.below(16) {
            0 => self.byte(),
            1 => self.pick(&[254, 255]),
            2..=5 => 0,
            _ => self.below(5) as u8,
        };
        let mut body = self.bytes(3 + 2 * usize::from(count));
        body[2] = count;
        match self.below(8) {
            0 => body.push(self.byte()),
            1 => body.truncate(self.pick(&[0, 1, 2, body.len() - 1])),
            _ => {}
        }
        body
    }

    /// Whether a telegram is extended, and how many entries its block has.
    pub fn some_form(&mut self) -> (bool, usize) {
        match self.below(4) {
            0 | 1 => (false, 4),
            2 => (true, 2 + self.below(7)),
            _ => (true, 2 + self.below(31)),
        }
    }

    /// A telegram with a good header.
    pub fn some_telegram(&mut self) -> Vec<u8> {
        let (extended, entries) = self.some_form();
        let function = self.pick(&[REQUEST, REPLY]);
        let block = self.some_block(entries);
        let mut telegram = telegram(function, extended, &block, &self.body_for(function));
        telegram[1] = self.byte();
        telegram
    }

    /// Changes a telegram at one place or at its end.
    pub fn change(&mut self, telegram: &mut Vec<u8>) {
        let byte = match self.below(3) {
            0 => self.byte(),
            _ => self.pick(&[0x00, 0x01, 0x60, 0xE0, 0xEF, 0xF0, 0xF1, 0xFF]),
        };
        let at = self.below(telegram.len() + 1);
        match self.below(8) {
            0 if at < telegram.len() => drop(telegram.remove(at)),
            1 => telegram.insert(at, byte),
            2 => telegram.truncate(at),
            3 => {
                let length = self.pick(&[at, 1023, 1024, 1025]);
                let more = length.saturating_sub(telegram.len());
                telegram.extend(self.bytes(more));
            }
            _ if at < telegram.len() => telegram[at] = byte,
            _ => telegram.push(byte),
        }
    }
}

/// Smaller telegrams: without one of the entries that its header counts, or without one of the
/// values that its body counts.
pub fn smaller(telegram: &[u8]) -> Vec<Vec<u8>> {
    let without = |counter: usize, from: usize, length: usize| {
        let mut smaller = telegram.to_vec();
        smaller[counter] = smaller[counter].checked_sub(1)?;
        smaller.drain(from..from + length);
        Some(smaller)
    };
    let mut telegrams = Vec::new();
    let mut body = 6;
    if is_extended(telegram) && telegram.len() > 6 {
        body = 7 + usize::from(telegram[6]);
        let entries = 7..body.min(telegram.len());
        telegrams.extend(entries.filter_map(|entry| without(6, entry, 1)));
    }
    // A reply counts its values in the third byte of its body, a request in the sixth.
    for counter in [body + 2, body + 5] {
        let values = (counter + 1..telegram.len().saturating_sub(1)).step_by(2);
        telegrams.extend(values.filter_map(|value| without(counter, value, 2)));
    }
    telegrams
}

#[cfg(test)]
mod tests {
    use super::*;

    #[test]
    fn runs_and_values() {
        assert_eq!((all_runs().len(), writable_runs().len()), (1 + 1 + 21 + 3 + 36, 1 + 3 + 36));
        let mut random = Random::new(1);
        for row in ROWS.into_iter().filter(|row| row.write) {
            for _ in 0..100 {
                assert!(row.takes(random.good_value(row)) && !row.takes(random.bad_value(row)));
            }
        }
        // Of the times of day that are none, many have a good hour.
        for row in ROWS.into_iter().filter(|row| row.range == Range::TimeOfDay) {
            let hours = (0..1000).map(|_| random.bad_value(row) / 256);
            assert!(hours.filter(|&hour| hour <= LAST_HOUR).count() > 300);
        }
    }
}
