//! The frame, the receiving half, and the sender.

use super::{done, refused};
use crate::answer::heard::{MESSAGE, NOTHING, SEND};
use crate::answer::{kind, sent};

const STX: u8 = 0x02;
const ETX: u8 = 0x03;
const DLE: u8 = 0x10;
const NAK: u8 = 0x15;
const MOST: usize = 1024;
/// The events that are no bytes. A receiving half has only the timer.
const TIMER: u32 = 256;
const START: u32 = 257;

/// Data is looked at in pieces of so many bytes.
const PIECE: usize = 16;

/// Writes the frame of data.
#[inline(never)]
pub fn frame(data: &[u8], out: &mut [u8]) -> u64 {
    if data.len() > MOST {
        return refused(12);
    }
    // Only where the output might be too short are the 10s counted beforehand.
    if out.len() < 2 * data.len() + 3 {
        let tens = data.iter().filter(|&&byte| byte == DLE).count();
        if out.len() < data.len() + tens + 3 {
            return refused(11);
        }
    }
    // Pieces with no 10 in them, and pieces of nothing but 10s, are written as a whole.
    let (pieces, rest) = data.as_chunks::<PIECE>();
    let mut sums = [0; PIECE];
    let mut n = 0;
    for piece in pieces {
        let mut ten = [0; PIECE];
        for i in 0..PIECE {
            sums[i] ^= piece[i];
            ten[i] = u8::from(piece[i] == DLE);
        }
        if ten.iter().fold(0, |some, ten| some | ten) == 0 {
            out[n..n + PIECE].copy_from_slice(piece);
            n += PIECE;
        } else if *piece == [DLE; PIECE] {
            out[n..n + 2 * PIECE].fill(DLE);
            n += 2 * PIECE;
        } else {
            n = put(piece, n, out);
        }
    }
    n = put(rest, n, out);
    // A doubled 10 cancels itself; of an odd number of them one is in the sum of the data.
    let odd = (n - data.len()) % 2 == 1;
    let sum = sums.iter().chain(rest).fold(0, |sum, byte| sum ^ byte);
    let check = sum ^ DLE ^ ETX ^ if odd { DLE } else { 0 };
    out[n..n + 3].copy_from_slice(&[DLE, ETX, check]);
    done(n + 3)
}

/// Writes bytes one by one, from a place on, and gives the place behind them.
#[inline(always)]
fn put(bytes: &[u8], mut n: usize, out: &mut [u8]) -> usize {
    for &byte in bytes {
        out[n] = byte;
        n += 1;
        if byte == DLE {
            out[n] = DLE;
            n += 1;
        }
    }
    n
}

/// Phases of the receiving half.
const REST: u64 = 0;
const INSIDE: u64 = 1;
const AFTER_DLE: u64 = 2;
const WAITING: u64 = 3;

const AT_REST: [u64; 3] = [REST, 0, 0];

/// Feeds one event to a receiving half.
#[inline(never)]
pub fn receive(state: &mut [u64], event: u32, buffer: &mut [u8]) -> u64 {
    let Ok(state) = <&mut [u64; 3]>::try_from(state) else {
        return refused(1);
    };
    if !can_be(state, buffer) || event > TIMER {
        return refused(1);
    }
    done(hear(state, event, buffer))
}

/// Whether the words are those of a half whose buffer can hold its count.
#[inline(always)]
fn can_be(&[phase, count, check]: &[u64; 3], buffer: &[u8]) -> bool {
    let fits = count <= MOST as u64 && count <= buffer.len() as u64;
    phase <= WAITING && check <= 0xFF && fits
}

/// Takes an event in a half that can be, and gives what it answers.
#[inline(always)]
fn hear(state: &mut [u64; 3], event: u32, buffer: &mut [u8]) -> usize {
    let [phase, count, check] = *state;
    // What comes most often is looked for first.
    let next = match (phase, event) {
        (INSIDE, 0x10) => [AFTER_DLE, count, check ^ u64::from(DLE)],
        (INSIDE, 0x00..=0xFF) | (AFTER_DLE, 0x10) if count < MOST as u64 => {
            let Some(place) = buffer.get_mut(count as usize) else {
                return reject(state);
            };
            *place = event as u8;
            [INSIDE, count + 1, check ^ u64::from(event)]
        }
        (AFTER_DLE, 0x03) => [WAITING, count, check ^ u64::from(ETX)],
        (WAITING, _) if u64::from(event) == check => {
            *state = AT_REST;
            return MESSAGE + count as usize;
        }
        (REST, 0x02) => {
            *state = [INSIDE, 0, 0];
            return SEND + usize::from(DLE);
        }
        (REST, 0x15 | TIMER) => AT_REST,
        _ => return reject(state),
    };
    *state = next;
    NOTHING
}

/// Sends NAK and rests.
#[inline(always)]
fn reject(state: &mut [u64; 3]) -> usize {
    *state = AT_REST;
    SEND + usize::from(NAK)
}

/// Phases of the sender.
const FRESH: u64 = 0;
const OPENING: u64 = 1;
const AWAITING: u64 = 2;
const RECEIVING: u64 = 3;
const SENT: u64 = 4;
const GAVE_UP: u64 = 5;

const LOW: u64 = 0;
const HIGH: u64 = 1;

/// The greatest limit; the least is 1.
const MOST_ATTEMPTS: u64 = 255;

/// Feeds one event to a sender.
#[inline(never)]
pub fn send(state: &mut [u64], event: u32, data: &[u8], buffer: &mut [u8], out: &mut [u8]) -> u64 {
    let Ok(state) = <&mut [u64; 9]>::try_from(state) else {
        return refused(1);
    };
    if event > START || !can_send(state, buffer) {
        return refused(1);
    }
    if data.len() > MOST {
        return refused(12);
    }
    match (state[0], event) {
        (RECEIVING, ..=TIMER) => yielded(state, event, buffer, out),
        (FRESH, START) => open(state, [0, 0], out),
        (OPENING | AWAITING, ..=TIMER) => take(state, event, data, out),
        _ => done(0),
    }
}

/// Whether the words are those of a sender whose buffer can hold the count of its half.
#[inline(always)]
fn can_send(state: &[u64; 9], buffer: &[u8]) -> bool {
    let &[phase, connections, blocks, priority, failed_connections, failed_blocks, half, count, check] = state;
    // One less than a limit of 0 is the greatest number.
    let limits = connections.wrapping_sub(1).max(blocks.wrapping_sub(1)) < MOST_ATTEMPTS;
    let counts = failed_connections <= connections && failed_blocks <= blocks;
    let halves = match phase {
        RECEIVING => can_be(&[half, count, check], buffer),
        _ => half | count | check == 0,
    };
    phase <= GAVE_UP && priority <= HIGH && limits && counts && halves
}

/// Takes a byte or the timer in a sender that waits for one of the two 10s.
#[inline(never)]
fn take(state: &mut [u64; 9], event: u32, data: &[u8], out: &mut [u8]) -> u64 {
    let [phase, connections, blocks, priority, failed_connections, failed_blocks, ..] = *state;
    match (phase, event) {
        (OPENING, 0x10) => {
            let answer = frame(data, out);
            if kind(answer) == 0 {
                state[0] = AWAITING;
            }
            return answer;
        }
        (OPENING, 0x02) if priority == LOW => {
            if !put_all([DLE], out) {
                return refused(11);
            }
            *state = [RECEIVING, connections, blocks, LOW, 0, 0, INSIDE, 0, 0];
            return done(1);
        }
        (OPENING, 0x02) => {}
        (OPENING, _) if failed_connections + 1 < connections => {
            return open(state, [failed_connections + 1, failed_blocks], out);
        }
        (OPENING, _) => [state[0], state[4]] = [GAVE_UP, connections],
        (_, 0x10) => state[0] = SENT,
        _ if failed_blocks + 1 < blocks => return open(state, [0, failed_blocks + 1], out),
        _ => [state[0], state[5]] = [GAVE_UP, blocks],
    }
    done(0)
}

/// Opens the line, with these counts of failed attempts.
#[inline(always)]
fn open(state: &mut [u64; 9], failed: [u64; 2], out: &mut [u8]) -> u64 {
    if !put_all([STX], out) {
        return refused(11);
    }
    [state[0], state[4], state[5]] = [OPENING, failed[0], failed[1]];
    done(1)
}

/// Takes a byte or the timer in the half of a sender that yielded. Once that is at rest, the line is
/// opened.
#[inline(always)]
fn yielded(state: &mut [u64; 9], event: u32, buffer: &mut [u8], out: &mut [u8]) -> u64 {
    let mut half = [state[6], state[7], state[8]];
    let heard = hear(&mut half, event, buffer);
    let rests = half[0] == REST;
    // Where anything is sent, nothing was stored.
    let (fits, value) = match (rests, heard) {
        (false, NOTHING) => (true, 0),
        (false, _) => (put_all([DLE], out), 1),
        (true, NOTHING) => (put_all([STX], out), 1),
        (true, MESSAGE..) => (put_all([DLE, STX], out), 2 + sent::MESSAGE * (heard - MESSAGE + 1)),
        (true, _) => (put_all([(heard - SEND) as u8, STX], out), 2),
    };
    if !fits {
        return refused(11);
    }
    if rests {
        [state[0], state[4], state[5]] = [OPENING, 0, 0];
    }
    [state[6], state[7], state[8]] = half;
    done(value)
}

/// Writes all bytes to the start of an output, or none.
#[inline(always)]
fn put_all<const N: usize>(bytes: [u8; N], out: &mut [u8]) -> bool {
    out.first_chunk_mut().map(|place| *place = bytes).is_some()
}
