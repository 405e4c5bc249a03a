//! The station.

use super::header::{self, Header, FRESH, HIGHEST, MARK, REPLY};
use super::registers::{self, COUNT};
use super::{done, refused, NOT_MINE};

/// Lets a station handle a telegram.
#[inline(never)]
pub fn station(own: u8, registers: &mut [u16], telegram: &[u8], out: &mut [u8]) -> u64 {
    let Ok(table) = <&mut [u16; COUNT]>::try_from(registers) else {
        return refused(1);
    };
    if own == 0 || own > HIGHEST {
        return refused(1);
    }
    let header = match header::read(telegram, true) {
        Ok(header) => header,
        Err(number) => return refused(number),
    };
    let block = &telegram[header.start..header.end()];
    if block[0] != own {
        return NOT_MINE;
    }
    if !header.reply && block[1] == 0 {
        return match answer(header, table, telegram, out) {
            Ok(length) => done(length),
            Err(number) => refused(number),
        };
    }
    let Some(out) = out.get_mut(..telegram.len()) else {
        return refused(11);
    };
    out.copy_from_slice(telegram);
    roll(header, block, !header.reply, out);
    done(telegram.len())
}

/// Writes the block rolled to the left, or else to the right, and the mark that it asks for.
#[inline(always)]
fn roll(header: Header, block: &[u8], left: bool, out: &mut [u8]) {
    if !header.extended {
        let block = u32::from_be_bytes([block[0], block[1], block[2], block[3]]);
        let rolled = if left { block.rotate_left(8) } else { block.rotate_right(8) };
        out[2..6].copy_from_slice(&rolled.to_be_bytes());
        return;
    }
    let last = block.len() - 1;
    let rolled = &mut out[7..7 + block.len()];
    if left {
        rolled[..last].copy_from_slice(&block[1..]);
        rolled[last] = block[0];
    } else {
        rolled[1..].copy_from_slice(&block[..last]);
        rolled[0] = block[last];
        out[2] = if block[last] == 0 { 0 } else { MARK };
    }
}

/// The destination: carries out the body and writes the reply.
#[inline(always)]
fn answer(header: Header, table: &mut [u16; COUNT], telegram: &[u8], out: &mut [u8]) -> Result<usize, u8> {
    let body = Body::read(&telegram[header.end()..])?;
    let length = header.end() + body.reply_length();
    let out = out.get_mut(..length).ok_or(11)?;
    body.write(table);
    out[..header.end()].copy_from_slice(&telegram[..header.end()]);
    out[0] = REPLY;
    out[1] = FRESH;
    roll(header, &telegram[header.start..header.end()], false, out);
    body.put_reply(table, &mut out[header.end()..]);
    Ok(length)
}

/// The body of a request that a destination accepts.
#[derive(Clone, Copy)]
pub struct Body<'a> {
    /// The first three bytes, which the reply repeats.
    read: [u8; 3],
    /// The place of the first register that is read.
    from: usize,
    /// The place of the first register that is written.
    to: usize,
    values: &'a [[u8; 2]],
}

impl<'a> Body<'a> {
    /// Reads a body; the refusal's number otherwise.
    #[inline(always)]
    pub fn read(body: &'a [u8]) -> Result<Body<'a>, u8> {
        let Some((&[high, low, reads, start, start_low, writes], values)) = body.split_first_chunk() else {
            return Err(7);
        };
        if values.len() != 2 * usize::from(writes) {
            return Err(7);
        }
        let (values, _) = values.as_chunks();
        let mut from = 0;
        if reads > 0 {
            from = registers::run(u16::from_be_bytes([high, low]), reads).ok_or(8)?;
        }
        let mut to = 0;
        if writes > 0 {
            to = registers::run(u16::from_be_bytes([start, start_low]), writes).ok_or(8)?;
            if !registers::writable(to) {
                return Err(9);
            }
            if !registers::take(to, values) {
                return Err(10);
            }
        }
        Ok(Body { read: [high, low, reads], from, to, values })
    }

    /// The length of the reply's body.
    #[inline(always)]
    pub fn reply_length(self) -> usize {
        3 + 2 * usize::from(self.read[2])
    }

    /// Writes the values to a station's registers.
    #[inline(always)]
    pub fn write(self, table: &mut [u16; COUNT]) {
        for (register, &value) in table[self.to..].iter_mut().zip(self.values) {
            *register = u16::from_be_bytes(value);
        }
    }

    /// Puts the reply's body into just as many places.
    #[inline(always)]
    pub fn put_reply(self, table: &[u16; COUNT], out: &mut [u8]) {
        let Some((read, values)) = out.split_first_chunk_mut() else {
            return;
        };
        *read = self.read;
        let (values, _) = values.as_chunks_mut();
        for (value, register) in values.iter_mut().zip(&table[self.from..]) {
            *value = register.to_be_bytes();
        }
    }
}
