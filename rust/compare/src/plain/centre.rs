//! The centre.

use super::header::{self, FRESH, HIGHEST, MARK, REQUEST};
use super::{done, refused, NOT_MINE};

/// Most stations of a route.
const ROUTE: usize = 31;

/// Writes a request.
#[inline(never)]
pub fn write_request(
    route: &[u8],
    read_start: u16,
    read_count: usize,
    write_start: u16,
    values: &[u16],
    out: &mut [u8],
) -> u64 {
    if !good(route) {
        return refused(5);
    }
    if read_count > 255 || values.len() > 255 {
        return refused(12);
    }
    let header = if route.len() < 4 { 6 } else { route.len() + 8 };
    let length = header + 6 + 2 * values.len();
    let Some(out) = out.get_mut(..length) else {
        return refused(11);
    };
    if route.len() < 4 {
        out[..6].copy_from_slice(&[REQUEST, FRESH, 0, 0, 0, 0]);
        out[2..2 + route.len()].copy_from_slice(route);
    } else {
        let count = (route.len() + 1) as u8;
        out[..7].copy_from_slice(&[REQUEST, FRESH, MARK, MARK, MARK, MARK, count]);
        out[7..7 + route.len()].copy_from_slice(route);
        out[7 + route.len()] = 0;
    }
    let body = &mut out[header..];
    let [high, low] = read_start.to_be_bytes();
    let [start, start_low] = write_start.to_be_bytes();
    let counts = [read_count as u8, values.len() as u8];
    body[..6].copy_from_slice(&[high, low, counts[0], start, start_low, counts[1]]);
    let (places, _) = body[6..].as_chunks_mut();
    for (place, value) in places.iter_mut().zip(values) {
        *place = value.to_be_bytes();
    }
    done(length)
}

/// Whether these are one to 31 different stations.
#[inline(always)]
fn good(route: &[u8]) -> bool {
    if route.is_empty() || route.len() > ROUTE {
        return false;
    }
    let mut seen = [false; 256];
    let mut bad = false;
    for &station in route {
        bad |= seen[usize::from(station)] | (station == 0) | (station > HIGHEST);
        seen[usize::from(station)] = true;
    }
    !bad
}

/// Reads a reply.
#[inline(never)]
pub fn read_reply(telegram: &[u8], route: &mut [u8], run: &mut [u16]) -> u64 {
    let (Ok(route), Ok(run)) = (<&mut [u8; ROUTE]>::try_from(route), <&mut [u16; 3]>::try_from(run)) else {
        return refused(1);
    };
    *route = [0; ROUTE];
    *run = [0; 3];
    let header = match header::read(telegram, false) {
        Ok(header) => header,
        Err(number) => return refused(number),
    };
    let (front, body) = telegram.split_at(header.end());
    let block = &front[header.start..];
    if block[0] != 0 {
        return NOT_MINE;
    }
    let Some((&[high, low, count], values)) = body.split_first_chunk() else {
        return refused(7);
    };
    if values.len() != 2 * usize::from(count) {
        return refused(7);
    }
    // In a good block that begins with 00 all stations stand next to each other.
    let stations = block.iter().filter(|&&entry| entry != 0);
    for (place, &station) in route.iter_mut().zip(stations) {
        *place = station;
    }
    *run = [u16::from_be_bytes([high, low]), u16::from(count), (header.end() + 3) as u16];
    done(values.len())
}
