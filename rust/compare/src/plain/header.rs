//! The header of a telegram.

pub const REQUEST: u8 = 0x60;
pub const REPLY: u8 = 0xE0;
/// The control byte of a telegram that is newly written.
pub const FRESH: u8 = 0xFF;
pub const MARK: u8 = 0xEF;
/// The highest address.
pub const HIGHEST: u8 = 0xF0;
/// Most bytes of a telegram.
pub const MOST: usize = 1024;

/// Where the block of a good telegram lies, and what is known of it.
#[derive(Clone, Copy)]
pub struct Header {
    pub reply: bool,
    pub extended: bool,
    /// The place of the first entry.
    pub start: usize,
    /// The number of entries.
    pub entries: usize,
}

impl Header {
    /// The length of the header, which is the place of the body.
    #[inline(always)]
    pub fn end(self) -> usize {
        self.start + self.entries
    }
}

/// Reads a header, for a station or else for the centre; the refusal's number otherwise.
#[inline(always)]
pub fn read(telegram: &[u8], at_station: bool) -> Result<Header, u8> {
    if telegram.len() > MOST {
        return Err(12);
    }
    let Some(&[function, _, a, b, c, d]) = telegram.first_chunk() else {
        return Err(2);
    };
    let reply = function == REPLY;
    let request = at_station && function == REQUEST;
    if !reply && !request {
        return Err(3);
    }
    let extended = [b, c, d] == [MARK; 3] && (a == MARK || (a == 0 && reply));
    if !extended {
        let somebody = short_block([a, b, c, d]).ok_or(5)?;
        if !at_station && !somebody {
            return Err(5);
        }
        return Ok(Header { reply, extended, start: 2, entries: 4 });
    }
    let Some(&count) = telegram.get(6) else {
        return Err(2);
    };
    if !(2..=32).contains(&count) {
        return Err(4);
    }
    let entries = usize::from(count);
    let Some(block) = telegram.get(7..7 + entries) else {
        return Err(2);
    };
    let somebody = long_block(block).ok_or(5)?;
    if !at_station && !somebody {
        return Err(5);
    }
    if reply && (a == 0) != (block[0] == 0) {
        return Err(6);
    }
    Ok(Header { reply, extended, start: 7, entries })
}

/// Whether a good block of four entries names a station; nothing for one that is not good.
#[inline(always)]
fn short_block(block: [u8; 4]) -> Option<bool> {
    let [a, b, c, d] = block;
    if a.max(b).max(c).max(d) > HIGHEST {
        return None;
    }
    let twice = |x: u8, y: u8| x == y && x != 0;
    let repeated = twice(a, b) || twice(a, c) || twice(a, d) || twice(b, c) || twice(b, d) || twice(c, d);
    let zeros = u8::from(a == 0) | u8::from(b == 0) << 1 | u8::from(c == 0) << 2 | u8::from(d == 0) << 3;
    // The 00s are one stretch in all patterns but two, in which they and stations alternate.
    let together = !matches!(zeros, 0b0000 | 0b0101 | 0b1010);
    (together && !repeated).then_some(zeros != 0b1111)
}

/// The same for a block of two to 32 entries.
#[inline(always)]
fn long_block(block: &[u8]) -> Option<bool> {
    let mut seen = [false; 256];
    let mut bad = false;
    let mut stretches = 0;
    let mut named = 0;
    let mut before = block.last().is_some_and(|&entry| entry == 0);
    for &entry in block {
        let zero = entry == 0;
        bad |= seen[usize::from(entry)] | (entry > HIGHEST);
        seen[usize::from(entry)] = !zero;
        stretches += u32::from(before & !zero);
        named += usize::from(!zero);
        before = zero;
    }
    (!bad && stretches <= 1 && named < block.len()).then_some(named > 0)
}
