//! The dry run.

use super::header::{self, Header, FRESH, HIGHEST, MARK, MOST, REPLY};
use super::registers::COUNT;
use super::station::Body;
use super::{done, refused};

/// Most stations of a net.
const STATIONS: usize = 64;

/// The endings of a journey that are no refusals.
const AT_ZERO: u8 = 0;
const AT_NOBODY: u8 = 1;

/// Plays the journey of a telegram.
#[inline(never)]
pub fn dry_run(telegram: &[u8], addresses: &[u8], tables: &mut [u16], out: &mut [u8], result: &mut [u32]) -> u64 {
    let Ok(result) = <&mut [u32; 3]>::try_from(result) else {
        return refused(1);
    };
    let (tables, rest) = tables.as_chunks_mut::<COUNT>();
    if addresses.len() > STATIONS || tables.len() != addresses.len() || !rest.is_empty() {
        return refused(1);
    }
    let Some(places) = places(addresses) else {
        return refused(1);
    };
    if telegram.len() > MOST {
        return refused(12);
    }
    let Some(out) = out.first_chunk_mut::<MOST>() else {
        return refused(11);
    };
    let header = match header::read(telegram, true) {
        Ok(header) => header,
        Err(number) => return refused(number),
    };
    let journey = play(header, telegram, &places, tables);
    let length = journey.put_last(header, telegram, tables, out);
    *result = [journey.count, u32::from(journey.ending), length as u32];
    done(journey.count as usize)
}

/// For every address its place in the net, from 1 on; 0 where it is nobody's. Nothing where
/// the addresses do not make a net.
#[inline(always)]
fn places(addresses: &[u8]) -> Option<[u8; 256]> {
    let mut places = [0; 256];
    let mut bad = false;
    for (place, &address) in (1..).zip(addresses) {
        bad |= address == 0 || address > HIGHEST || places[usize::from(address)] != 0;
        places[usize::from(address)] = place;
    }
    (!bad).then_some(places)
}

/// What a journey came to.
struct Journey<'a> {
    count: u32,
    ending: u8,
    /// The entry of the first telegram's block with which the last one's begins.
    first: usize,
    /// The destination's place in the net, and what it carried out.
    answered: Option<(usize, Body<'a>)>,
}

/// Plays a journey. The block stays where it is; what moves is its beginning.
#[inline(always)]
fn play<'a>(header: Header, telegram: &'a [u8], places: &[u8; 256], tables: &mut [[u16; COUNT]]) -> Journey<'a> {
    let block = &telegram[header.start..header.end()];
    let last = block.len() - 1;
    let mut journey = Journey { count: 1, ending: AT_ZERO, first: 0, answered: None };
    let mut reply = header.reply;
    loop {
        let first = block[journey.first];
        if first == 0 {
            return journey;
        }
        let place = usize::from(places[usize::from(first)]);
        if place == 0 {
            journey.ending = AT_NOBODY;
            return journey;
        }
        if !reply {
            let next = if journey.first == last { 0 } else { journey.first + 1 };
            if block[next] != 0 {
                journey.first = next;
                journey.count += 1;
                continue;
            }
            match Body::read(&telegram[header.end()..]) {
                Ok(body) => {
                    body.write(&mut tables[place - 1]);
                    journey.answered = Some((place - 1, body));
                    reply = true;
                }
                Err(number) => {
                    journey.ending = number;
                    return journey;
                }
            }
        }
        journey.first = if journey.first == 0 { last } else { journey.first - 1 };
        journey.count += 1;
    }
}

impl Journey<'_> {
    /// Writes the last telegram, and 00 behind it.
    #[inline(always)]
    fn put_last(&self, header: Header, telegram: &[u8], tables: &[[u16; COUNT]], out: &mut [u8; MOST]) -> usize {
        let end = header.end();
        let length = match self.answered {
            Some((place, body)) => {
                out[..end].copy_from_slice(&telegram[..end]);
                out[0] = REPLY;
                out[1] = FRESH;
                let length = end + body.reply_length();
                body.put_reply(&tables[place], &mut out[end..length]);
                length
            }
            None => {
                out[..telegram.len()].copy_from_slice(telegram);
                telegram.len()
            }
        };
        let block = &telegram[header.start..end];
        let (before, from) = block.split_at(self.first);
        out[header.start..header.start + from.len()].copy_from_slice(from);
        out[header.start + from.len()..end].copy_from_slice(before);
        if header.extended && out[0] == REPLY {
            out[2] = if out[7] == 0 { 0 } else { MARK };
        }
        out[length..].fill(0);
        length
    }
}
