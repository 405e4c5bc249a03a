//! Telegrams and numbers for the tests of several modules.

/// Nothing to read and nothing to write.
pub(crate) const IDLE: [u8; 6] = [0; 6];

/// A telegram in the short form.
pub(crate) fn short(function: u8, block: [u8; 4], body: &[u8]) -> Vec<u8> {
    [&[function, 0xFF], &block[..], body].concat()
}

/// A telegram in the extended form.
pub(crate) fn long(function: u8, mark: u8, block: &[u8], body: &[u8]) -> Vec<u8> {
    let count = u8::try_from(block.len()).expect("a count");
    let front = [function, 0xFF, mark, 0xEF, 0xEF, 0xEF, count];
    [&front[..], block, body].concat()
}

/// A request's body; the write count is that of the values.
pub(crate) fn body(read: (u16, u8), start: u16, values: &[u16]) -> Vec<u8> {
    let count = u8::try_from(values.len()).expect("a count");
    let [read_high, read_low] = read.0.to_be_bytes();
    let [write_high, write_low] = start.to_be_bytes();
    let mut body = vec![read_high, read_low, read.1, write_high, write_low, count];
    body.extend(values.iter().flat_map(|value| value.to_be_bytes()));
    body
}

/// Xorshift; the seed must not be 0.
pub(crate) struct Random(pub(crate) u32);

impl Random {
    pub(crate) fn next(&mut self) -> u32 {
        self.0 ^= self.0 << 13;
        self.0 ^= self.0 >> 17;
        self.0 ^= self.0 << 5;
        self.0
    }

    /// A number below `limit`.
    pub(crate) fn below(&mut self, limit: usize) -> usize {
        (self.next() >> 3) as usize % limit
    }

    pub(crate) fn pick<T: Copy>(&mut self, from: &[T]) -> T {
        from[self.below(from.len())]
    }

    pub(crate) fn shuffle<T>(&mut self, items: &mut [T]) {
        for i in (1..items.len()).rev() {
            items.swap(i, self.below(i + 1));
        }
    }

    /// A telegram with one of these functions and with these entries in its block, good or not.
    pub(crate) fn telegram(&mut self, functions: &[u8], entries: &[u8]) -> Vec<u8> {
        let starts = [0x0002, 0x012C, 0x03A3, 0x03B8, 0x03B9, 0x03BB, 0xFFFF];
        let mut telegram = vec![self.pick(functions), self.next() as u8];
        let mut n = 4;
        if self.below(2) == 0 {
            telegram.push(self.pick(&[0x00, 0xEF]));
            telegram.extend([0xEF; 3]);
            n = self.pick(&[0, 1, 2, 2, 3, 3, 4, 5, 32, 33, 255]);
            telegram.push(n);
        }
        for _ in 0..n {
            telegram.push(self.pick(entries));
        }
        let values: Vec<u16> = (0..self.below(4))
            .map(|_| self.pick(&[0, 1, 2, 26, 65535]))
            .collect();
        let read = (self.pick(&starts), self.pick(&[0, 1, 2, 8]));
        telegram.extend(body(read, self.pick(&starts), &values));
        match self.below(8) {
            0 => telegram.truncate(self.below(30)),
            1 => telegram.push(0),
            2 => telegram.resize(self.pick(&[1024, 1025]), 0),
            _ => {}
        }
        telegram
    }
}
