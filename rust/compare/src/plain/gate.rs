//! The gate bus: its telegrams and their receiver, operating commands, and the answers of barriers.

use super::{done, refused};
use crate::answer::received::{NOTHING, TELEGRAM, TOKEN};

const START: u8 = 0x55;
const LAST_MASTER: u8 = 0x0F;
/// The address that nobody has.
const RESERVED: u8 = 0xFF;
const MOST: usize = 253;
/// The event that is no byte.
const TIMER: u32 = 256;

/// The check of no bytes.
const CHECK_START: u16 = 0xFFFF;

/// So many bytes are taken into a check at once.
const PIECE: usize = 8;

/// The check of every byte, carried on from 0, with 0 to 7 bytes of 00 behind it.
static CHECKS: [[u16; 256]; PIECE] = checks();

const fn checks() -> [[u16; 256]; PIECE] {
    let mut checks = [[0; 256]; PIECE];
    let mut byte = 0;
    while byte < 256 {
        let mut check = (byte as u16) << 8;
        let mut bits = 0;
        while bits < 8 * PIECE {
            check = check << 1 ^ if check >= 0x8000 { 0x1021 } else { 0 };
            checks[bits / 8][byte] = check;
            bits += 1;
        }
        byte += 1;
    }
    checks
}

/// Carries a check on over one byte.
#[inline(always)]
fn check_byte(check: u16, byte: u8) -> u16 {
    check << 8 ^ CHECKS[0][usize::from((check >> 8) as u8 ^ byte)]
}

/// The check of bytes.
#[inline(always)]
fn check(bytes: &[u8]) -> u16 {
    let (pieces, rest) = bytes.as_chunks::<PIECE>();
    let mut check = CHECK_START;
    for &[first, second, ref others @ ..] in pieces {
        let others = others.iter().zip(CHECKS[..PIECE - 2].iter().rev());
        let others = others.fold(0, |sum, (&byte, behind)| sum ^ behind[usize::from(byte)]);
        // The check so far goes into the first two bytes.
        let [high, low] = check.to_be_bytes();
        let first = CHECKS[PIECE - 1][usize::from(first ^ high)];
        let second = CHECKS[PIECE - 2][usize::from(second ^ low)];
        check = others ^ (first ^ second);
    }
    rest.iter().fold(check, |check, &byte| check_byte(check, byte))
}

/// Writes bytes to the start of an output.
#[inline(always)]
fn put(bytes: &[u8], out: &mut [u8]) -> u64 {
    let Some(out) = out.get_mut(..bytes.len()) else {
        return refused(11);
    };
    out.copy_from_slice(bytes);
    done(bytes.len())
}

/// Writes a telegram.
#[inline(never)]
pub fn write(destination: u8, source: u8, data: &[u8], out: &mut [u8]) -> u64 {
    let highest = destination.max(source);
    if highest == RESERVED || data.is_empty() && highest > LAST_MASTER {
        return refused(16);
    }
    if data.len() > MOST {
        return refused(7);
    }
    let Some(out) = out.get_mut(..data.len() + 6) else {
        return refused(11);
    };
    let (front, end) = out.split_at_mut(data.len() + 4);
    front[..4].copy_from_slice(&[START, destination, source, data.len() as u8]);
    front[4..].copy_from_slice(data);
    end.copy_from_slice(&check(front).to_be_bytes());
    done(data.len() + 6)
}

/// Phases of the receiver: the byte that is due, in a telegram for us or in another's.
const REST: u64 = 0;
const DESTINATION: u64 = 1;
const SOURCE: u64 = 2;
const LENGTH: u64 = 3;
const DATA: u64 = 4;
const LOW_CHECK: u64 = 5;
const OTHER_SOURCE: u64 = 6;
const OTHER_LENGTH: u64 = 7;
const DROPPING: u64 = 8;

const AT_REST: [u64; 7] = [REST, 0, 0, 0, 0, 0, 0];

/// The greatest length of a telegram for us, and most bytes that can be left to drop of another's.
const MOST_LENGTH: u64 = MOST as u64;
const MOST_LEFT: u64 = 257;

/// Feeds one event to a receiver.
#[inline(never)]
pub fn receive(own: u8, state: &mut [u64], store: &mut [u8], event: u32, out: &mut [u8]) -> u64 {
    let (Ok(state), Ok(store)) = (<&mut [u64; 7]>::try_from(state), <&mut [u8; MOST]>::try_from(store)) else {
        return refused(1);
    };
    // What comes most often is looked for first.
    match *state {
        [DATA, ..=0xFF, ..=0xFF, length @ ..=MOST_LENGTH, count, check @ ..=0xFFFF, 0]
            if count < length && event < TIMER && own != RESERVED =>
        {
            store[count as usize] = event as u8;
            state[4] = count + 1;
            state[5] = check_byte(check as u16, event as u8).into();
            done(NOTHING)
        }
        _ if event > TIMER || !can_be(state) => refused(1),
        words => {
            *state = AT_REST;
            match (own, u8::try_from(event)) {
                (RESERVED, _) => refused(16),
                (_, Ok(byte)) => take(own, words, byte, state, store, out),
                (_, Err(_)) => done(NOTHING),
            }
        }
    }
}

/// Whether the words are those of a state.
fn can_be(&[phase, destination, source, length, count, check, high]: &[u64; 7]) -> bool {
    let bytes = destination | source | high;
    let widths = bytes <= 0xFF && check <= 0xFFFF && length <= MOST_LENGTH;
    // The words that a phase does not have are 0.
    let words = match phase {
        REST | DESTINATION | OTHER_SOURCE | OTHER_LENGTH => bytes | length | count | check == 0,
        SOURCE => source | length | count | high == 0,
        LENGTH => length | count | high == 0,
        DATA => count <= length && high == 0,
        LOW_CHECK => count == 0,
        DROPPING => count <= MOST_LEFT && bytes | length | check == 0,
        _ => false,
    };
    widths && words
}

/// Takes a byte with the words of a state that can be; the state itself is at rest by now.
fn take(own: u8, words: [u64; 7], byte: u8, state: &mut [u64; 7], store: &[u8; MOST], out: &mut [u8]) -> u64 {
    let [phase, destination, source, length, count, check, high] = words;
    let (word, carried_on) = (u64::from(byte), u64::from(check_byte(check as u16, byte)));
    match phase {
        REST if byte == START => state[0] = DESTINATION,
        REST => {}
        DESTINATION if byte == own => {
            let check = check_byte(check_byte(CHECK_START, START), byte);
            *state = [SOURCE, word, 0, 0, 0, check.into(), 0];
        }
        DESTINATION => state[0] = OTHER_SOURCE,
        SOURCE => *state = [LENGTH, destination, word, 0, 0, carried_on, 0],
        LENGTH if word > MOST_LENGTH => return refused(7),
        LENGTH => *state = [DATA, destination, source, word, 0, carried_on, 0],
        // All data is stored.
        DATA => *state = [LOW_CHECK, destination, source, length, 0, check, word],
        LOW_CHECK if check != high << 8 | word => return refused(15),
        LOW_CHECK => return accept(destination, source, &store[..length as usize], out),
        OTHER_SOURCE => state[0] = OTHER_LENGTH,
        OTHER_LENGTH => [state[0], state[4]] = [DROPPING, word + 2],
        DROPPING if count > 1 => [state[0], state[4]] = [DROPPING, count - 1],
        // The last byte is dropped.
        _ => {}
    }
    done(NOTHING)
}

/// Accepts a telegram whose check is right, if its addresses are and its data fits.
#[inline(always)]
fn accept(destination: u64, source: u64, data: &[u8], out: &mut [u8]) -> u64 {
    let is_token = data.is_empty();
    if source == RESERVED.into() || is_token && destination.max(source) > LAST_MASTER.into() {
        return refused(16);
    }
    if is_token {
        return done(TOKEN + source as usize);
    }
    let Some(out) = out.get_mut(..data.len()) else {
        return refused(11);
    };
    out.copy_from_slice(data);
    done(TELEGRAM + 256 * source as usize + data.len())
}

/// The first byte of an operating command.
const OPERATE: u8 = 0x01;
/// How many commands there are.
const COMMANDS: usize = 10;
const ACTIVATE: u8 = 0x01;
const DEACTIVATE: u8 = 0x02;

/// Whether every register is 0 or 1.
#[inline(always)]
fn are_bits(&[a, b, c, d, e, f, g, h, i, j]: &[u8; COMMANDS]) -> bool {
    let first = u64::from_ne_bytes([a, b, c, d, e, f, g, h]);
    first & !0x0101_0101_0101_0101 == 0 && i | j <= 1
}

/// Carries out an operating command.
#[inline(never)]
pub fn operate(data: &[u8], levels: &mut [u8], edges: &mut [u8]) -> u64 {
    let lent = (<&mut [u8; COMMANDS]>::try_from(levels), <&mut [u8; COMMANDS]>::try_from(edges));
    let (Ok(levels), Ok(edges)) = lent else {
        return refused(1);
    };
    if !are_bits(levels) || !are_bits(edges) {
        return refused(1);
    }
    let &[kind, command, function] = data else {
        return refused(7);
    };
    if kind != OPERATE {
        return refused(3);
    }
    let command = usize::from(command);
    if command >= COMMANDS || function > DEACTIVATE {
        return done(NAK.into());
    }
    let (level, edge) = (&mut levels[command], &mut edges[command]);
    *edge |= u8::from(*level == 0 && function != DEACTIVATE);
    match function {
        ACTIVATE => *level = 1,
        DEACTIVATE => *level = 0,
        _ => {}
    }
    done(ACK.into())
}

/// Writes an operating command.
#[inline(never)]
pub fn write_command(command: u8, function: u8, out: &mut [u8]) -> u64 {
    put(&[OPERATE, command, function], out)
}

/// Kinds of answers.
const ACK: u8 = 0x01;
const NAK: u8 = 0x02;
const SYN: u8 = 0x04;
const COUNT: u8 = 0x1C;
const POSITION: u8 = 0x1D;

/// Writes an answer.
#[inline(never)]
pub fn write_answer(kind: u8, number: i32, out: &mut [u8]) -> u64 {
    // The lowest byte comes first: it is all that a position needs.
    let [byte, b1, b2, b3] = number.to_le_bytes();
    match kind {
        ACK..=SYN => put(&[kind], out),
        COUNT => put(&[kind, byte, b1, b2, b3], out),
        POSITION if (-1..=100).contains(&number) => put(&[kind, byte], out),
        POSITION => refused(10),
        _ => refused(3),
    }
}

/// Reads an answer.
#[inline(never)]
pub fn read_answer(data: &[u8], number: &mut [i32]) -> u64 {
    let [number] = number else {
        return refused(1);
    };
    let Some((&kind, value)) = data.split_first() else {
        return refused(7);
    };
    *number = match (kind, value) {
        (ACK..=SYN, []) => 0,
        (COUNT, &[b0, b1, b2, b3]) => i32::from_le_bytes([b0, b1, b2, b3]),
        (POSITION, &[byte]) => match byte as i8 {
            position @ -1..=100 => position.into(),
            _ => return refused(10),
        },
        (ACK..=SYN | COUNT | POSITION, _) => return refused(7),
        _ => return refused(3),
    };
    done(kind.into())
}
