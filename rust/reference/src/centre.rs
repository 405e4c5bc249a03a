//! The centre: the requests that it writes and the replies that it reads.
//!
//! Both functions are total: no argument makes them panic.

use crate::header::{self, Function, Header, FRESH_CONTROL, NOBODY};
use crate::refusal::{Refusal, BAD_BLOCK, BAD_BODY_LENGTH, OUTPUT_TOO_SHORT, TOO_LONG};

/// Most stations of one route.
pub const MAX_ROUTE: usize = 31;

/// Entries of a block in the short form.
const SHORT_BLOCK: usize = 4;

/// What the centre makes of a telegram.
#[derive(Clone, Copy, PartialEq, Eq, Debug)]
pub enum Verdict {
    /// It is a reply, and the centre is the next to handle it.
    Accepted,
    /// It is a reply that a station has to handle.
    NotMine,
    /// The call was refused with this number.
    Refused(Refusal),
}

/// What the centre reads in a telegram.
///
/// Only an accepted one has a route, numbers and values.
#[derive(Clone, Copy, PartialEq, Eq, Debug)]
pub struct Reply<'a> {
    /// Whether there is anything to read.
    pub verdict: Verdict,
    /// The stations of the block, the destination last; places that are left over are 0.
    pub route: [u8; MAX_ROUTE],
    /// The number of the first register that was read.
    pub start: u16,
    /// How many registers were read.
    pub count: u8,
    /// The part of the telegram that holds their values, each with its high byte first.
    pub values: &'a [u8],
}

/// Writes a request to the start of `out` and gives its length.
///
/// The last station of the route is the destination. Which registers there are is not
/// judged. On a refusal `out` is untouched.
pub fn write_request(
    route: &[u8],
    read_start: u16,
    read_count: usize,
    write_start: u16,
    values: &[u16],
    out: &mut [u8],
) -> Result<usize, Refusal> {
    if !is_good_route(route) {
        return Err(BAD_BLOCK);
    }
    // A count that does not fit its byte is never cut down to it.
    let (Ok(read_count), Ok(write_count)) = (u8::try_from(read_count), u8::try_from(values.len()))
    else {
        return Err(TOO_LONG);
    };

    let mut request = header_for(route).to_bytes();
    request.extend(read_start.to_be_bytes());
    request.push(read_count);
    request.extend(write_start.to_be_bytes());
    request.push(write_count);
    request.extend(values.iter().flat_map(|value| value.to_be_bytes()));

    let Some(place) = out.get_mut(..request.len()) else {
        return Err(OUTPUT_TOO_SHORT);
    };
    place.copy_from_slice(&request);
    Ok(request.len())
}

/// Whether a request can be sent along these stations.
fn is_good_route(route: &[u8]) -> bool {
    let addresses = route.iter().all(|&station| header::is_address(station));
    let repeated = (0..route.len()).any(|i| route[..i].contains(&route[i]));

    (1..=MAX_ROUTE).contains(&route.len()) && addresses && !repeated
}

/// The header of a new request along a good route.
fn header_for(route: &[u8]) -> Header {
    // At least one empty entry follows the stations.
    let entries = route.len() + 1;
    let mut block = route.to_vec();
    block.resize(entries.max(SHORT_BLOCK), NOBODY);
    Header {
        function: Function::Request,
        control: FRESH_CONTROL,
        extended: entries > SHORT_BLOCK,
        block,
    }
}

/// Reads a telegram that the centre hears.
pub fn read_reply(telegram: &[u8]) -> Reply<'_> {
    let verdict = match content(telegram) {
        Ok(Some(reply)) => return reply,
        Ok(None) => Verdict::NotMine,
        Err(number) => Verdict::Refused(number),
    };
    Reply {
        verdict,
        route: [NOBODY; MAX_ROUTE],
        start: 0,
        count: 0,
        values: &telegram[..0],
    }
}

/// What an accepted reply holds, or nothing if it is not the centre's turn.
fn content(telegram: &[u8]) -> Result<Option<Reply<'_>>, Refusal> {
    let (header, body) = header::read(header::CENTRE, telegram)?;

    // A block that was read has at least two entries.
    if header.block[0] != NOBODY {
        return Ok(None);
    }

    let &[high, low, count, ref values @ ..] = body else {
        return Err(BAD_BODY_LENGTH);
    };
    if values.len() != 2 * usize::from(count) {
        return Err(BAD_BODY_LENGTH);
    }

    // One of at most 32 entries is empty, so the stations fit.
    let stations = header::named(&header.block);
    let mut route = [NOBODY; MAX_ROUTE];
    route[..stations.len()].copy_from_slice(&stations);

    Ok(Some(Reply {
        verdict: Verdict::Accepted,
        route,
        start: u16::from_be_bytes([high, low]),
        count,
        values,
    }))
}

#[cfg(test)]
mod tests {
    use super::*;
    use crate::net::{self, Ending};
    use crate::registers::{self, factory, COUNT};
    use crate::samples::{body, long, short, Random};

    const FILL: u8 = 0xA5;

    /// A request to write.
    #[derive(Clone, Debug)]
    struct Request {
        route: Vec<u8>,
        read: (u16, usize),
        start: u16,
        values: Vec<u16>,
    }

    impl Request {
        /// Nothing to read and nothing to write.
        fn idle(route: &[u8]) -> Request {
            Request {
                route: route.to_vec(),
                read: (0, 0),
                start: 0,
                values: vec![],
            }
        }

        /// Writes the request to an output of `room` bytes. Whatever must not change is
        /// checked; what was written is given back.
        fn write(&self, room: usize) -> Result<Vec<u8>, u8> {
            let mut out = vec![FILL; room];
            let (start, count) = self.read;
            let written = write_request(
                &self.route,
                start,
                count,
                self.start,
                &self.values,
                &mut out,
            );
            let length = *written.as_ref().unwrap_or(&0);
            assert!(out[length..].iter().all(|&b| b == FILL), "{written:?}");
            out.truncate(length);
            written.map(|_| out)
        }

        /// The telegram, which must be written. An output just as long holds it, and no
        /// shorter one does.
        fn written(&self) -> Vec<u8> {
            let telegram = self.write(2000).expect("a request");
            assert_ne!(telegram, []);
            for room in [telegram.len(), telegram.len() + 1] {
                assert_eq!(self.write(room).as_ref(), Ok(&telegram));
            }
            for room in [0, 1, 6, telegram.len() - 1] {
                assert_eq!(self.write(room), Err(11), "{room}");
            }
            telegram
        }

        /// The refusal, which must come and must not depend on the output.
        fn refusal(&self) -> u8 {
            let number = self.write(2000).expect_err("a refusal");
            for room in [0, 1, 12, 1024] {
                assert_eq!(self.write(room), Err(number), "{room}");
            }
            number
        }
    }

    /// So many different addresses, up and down; more than 240 cannot all be different.
    fn route(stations: usize) -> Vec<u8> {
        (0..stations).map(|i| (i * 77 % 240) as u8 + 1).collect()
    }

    /// The places of a route in an answer.
    fn places(stations: &[u8]) -> [u8; 31] {
        let mut places = [0; 31];
        places[..stations.len()].copy_from_slice(stations);
        places
    }

    /// Reads a telegram. An answer without content must be empty in all its parts, and
    /// the values of any other must lie at the telegram's end.
    fn read(telegram: &[u8]) -> Reply<'_> {
        let reply = read_reply(telegram);
        match reply.verdict {
            Verdict::Accepted => {
                let from = telegram.len() - 2 * usize::from(reply.count);
                assert!(std::ptr::eq(reply.values, &telegram[from..]));
            }
            Verdict::NotMine | Verdict::Refused(_) => {
                assert_eq!(reply.route, [0; 31]);
                assert_eq!((reply.start, reply.count), (0, 0));
                assert!(reply.values.is_empty());
            }
        }
        reply
    }

    /// The number with which a telegram is refused, if it is.
    fn refusal(telegram: &[u8]) -> Option<u8> {
        match read(telegram).verdict {
            Verdict::Refused(number) => Some(number),
            Verdict::Accepted | Verdict::NotMine => None,
        }
    }

    /// Checks that a telegram is accepted with this content.
    fn check_accepted(telegram: &[u8], stations: &[u8], start: u16, values: &[u8]) {
        let expected = Reply {
            verdict: Verdict::Accepted,
            route: places(stations),
            start,
            count: u8::try_from(values.len() / 2).expect("a count"),
            values,
        };
        assert_eq!(read(telegram), expected, "{telegram:02X?}");
    }

    /// The body of a reply with one value.
    const ONE: [u8; 5] = [0x03, 0xBB, 1, 0x12, 0x34];

    /// A reply's body of so many values, none of them like another.
    fn reply_body(start: u16, count: u8) -> Vec<u8> {
        let [high, low] = start.to_be_bytes();
        let values = (0..u16::from(count)).flat_map(|i| (0x5A00 + i).to_be_bytes());
        [high, low, count].into_iter().chain(values).collect()
    }

    // Requests

    #[test]
    fn request_over_two_relays() {
        let request = Request {
            route: vec![0x12, 0x13, 0x55],
            read: (955, 1),
            start: 300,
            values: vec![1],
        };
        assert_eq!(
            request.written(),
            [0x60, 0xFF, 0x12, 0x13, 0x55, 0x00, 0x03, 0xBB, 0x01, 0x01, 0x2C, 0x01, 0x00, 0x01]
        );
    }

    #[test]
    fn request_over_one_relay() {
        assert_eq!(
            Request::idle(&[0x12, 0x55]).written(),
            [0x60, 0xFF, 0x12, 0x55, 0x00, 0x00, 0, 0, 0, 0, 0, 0]
        );
    }

    #[test]
    fn request_over_three_relays() {
        let request = Request {
            route: vec![0x12, 0x13, 0x14, 0x55],
            read: (0x0102, 3),
            start: 0x0405,
            values: vec![0x0708, 0x090A],
        };
        assert_eq!(
            request.written(),
            [
                0x60, 0xFF, 0xEF, 0xEF, 0xEF, 0xEF, 5, 0x12, 0x13, 0x14, 0x55, 0x00, 0x01, 0x02, 3,
                0x04, 0x05, 2, 0x07, 0x08, 0x09, 0x0A
            ]
        );
    }

    #[test]
    fn lengths_of_routes() {
        for stations in 0..=300 {
            let request = Request {
                read: (955, 8),
                start: 300,
                values: vec![3],
                ..Request::idle(&route(stations))
            };
            let body = body((955, 8), 300, &[3]);
            let mut block = request.route.clone();
            match stations {
                1..=3 => {
                    block.resize(4, 0x00);
                    let block = block.try_into().expect("four entries");
                    assert_eq!(request.written(), short(0x60, block, &body));
                }
                4..=31 => {
                    block.push(0x00);
                    assert_eq!(request.written(), long(0x60, 0xEF, &block, &body));
                }
                _ => assert_eq!(request.refusal(), 5, "{stations}"),
            }
        }
        // One station too many, and then other faults besides.
        assert_eq!(Request::idle(&(1..=32).collect::<Vec<_>>()).refusal(), 5);
        assert_eq!(Request::idle(&(1..=255).collect::<Vec<_>>()).refusal(), 5);
        assert_eq!(Request::idle(&[1; 65536]).refusal(), 5);
    }

    #[test]
    fn routes_of_one_station() {
        for station in 0..=u8::MAX {
            let request = Request::idle(&[station]);
            if (1..=240).contains(&station) {
                let expected = short(0x60, [station, 0x00, 0x00, 0x00], &[0; 6]);
                assert_eq!(request.written(), expected);
            } else {
                assert_eq!(request.refusal(), 5, "{station}");
            }
        }
    }

    #[test]
    fn bad_stations_at_every_place() {
        for stations in 1..=32 {
            let good = route(stations);
            for place in 0..stations {
                let with = |entry: u8| {
                    let mut route = good.clone();
                    route[place] = entry;
                    Request::idle(&route)
                };
                for entry in [0x00, 0xF1, 0xFF] {
                    assert_eq!(with(entry).refusal(), 5, "{stations} {place} {entry}");
                }
                // The station of any other place, before and behind.
                for other in (0..stations).filter(|&other| other != place) {
                    assert_eq!(with(good[other]).refusal(), 5, "{stations} {place} {other}");
                }
                for entry in [0x01, 0xEF, 0xF0] {
                    let free = !good
                        .iter()
                        .enumerate()
                        .any(|(i, &e)| i != place && e == entry);
                    let taken = with(entry).write(1024).is_ok();
                    assert_eq!(taken, free && stations < 32);
                }
            }
        }
    }

    #[test]
    fn two_and_three_stations_of_few_kinds() {
        let entries = [0x00, 0x01, 0x12, 0xEF, 0xF0, 0xF1, 0xFF];
        let good = |entry: u8| entry != 0x00 && entry <= 0xF0;
        for a in entries {
            for b in entries {
                let taken = Request::idle(&[a, b]).write(12).is_ok();
                assert_eq!(taken, good(a) && good(b) && a != b);
                for c in entries {
                    let taken = Request::idle(&[a, b, c]).write(12).is_ok();
                    let different = a != b && b != c && c != a;
                    assert_eq!(taken, good(a) && good(b) && good(c) && different);
                }
            }
        }
    }

    #[test]
    fn read_counts() {
        for stations in [1, 3, 4, 31] {
            for count in 0..=255 {
                let request = Request {
                    read: (0xABCD, count),
                    ..Request::idle(&route(stations))
                };
                let telegram = request.written();
                let body = &telegram[telegram.len() - 6..];
                assert_eq!(body, [0xAB, 0xCD, count as u8, 0, 0, 0]);
            }
            // The low byte of many of these would be a good count.
            let more = [256, 257, 511, 512, 65535, 65536, 65537, usize::MAX];
            let wide = [31, 32, 63].map(|bits| 1_usize << bits);
            for count in more.into_iter().chain(wide) {
                let request = Request {
                    read: (955, count),
                    ..Request::idle(&route(stations))
                };
                assert_eq!(request.refusal(), 12, "{count}");
            }
        }
    }

    #[test]
    fn numbers_of_values() {
        for stations in [1, 3, 4, 31] {
            for count in (0..=260).chain([511, 512, 65535, 65536, 65537]) {
                let values: Vec<u16> = (0..count).map(|i| (i * 259 + 7) as u16).collect();
                let request = Request {
                    start: 0x1234,
                    values: values.clone(),
                    ..Request::idle(&route(stations))
                };
                if count > 255 {
                    assert_eq!(request.refusal(), 12, "{count}");
                    continue;
                }
                let telegram = request.written();
                let expected = body((0, 0), 0x1234, &values);
                assert_eq!(expected.len(), 6 + 2 * count);
                assert!(telegram.ends_with(&expected));
                let front = match stations {
                    4.. => 7 + stations + 1,
                    _ => 6,
                };
                assert_eq!(telegram.len(), front + expected.len());
            }
        }
    }

    #[test]
    fn longest_request() {
        let request = Request {
            route: route(31),
            read: (65535, 255),
            start: 65535,
            values: vec![65535; 255],
        };
        let telegram = request.written();
        assert_eq!(telegram.len(), 555);
        assert_eq!(telegram[..7], [0x60, 0xFF, 0xEF, 0xEF, 0xEF, 0xEF, 32]);
        assert_eq!(telegram[7..38], route(31));
        assert_eq!(telegram[38..45], [0x00, 0xFF, 0xFF, 255, 0xFF, 0xFF, 255]);
        assert!(telegram[45..].iter().all(|&b| b == 0xFF));
    }

    #[test]
    fn registers_are_not_judged() {
        for number in (0..=u16::MAX).step_by(97).chain([954, 65535]) {
            for (count, values) in [(0, vec![]), (2, vec![65535, 0])] {
                let request = Request {
                    route: vec![0x55],
                    read: (number, usize::from(count)),
                    start: number,
                    values: values.clone(),
                };
                let body = body((number, count), number, &values);
                let expected = short(0x60, [0x55, 0x00, 0x00, 0x00], &body);
                assert_eq!(request.write(1024), Ok(expected));
            }
        }
    }

    #[test]
    fn outputs_of_every_length() {
        for stations in [1, 3, 4, 31] {
            for count in [0, 1, 255] {
                let request = Request {
                    values: vec![0x0102; count],
                    ..Request::idle(&route(stations))
                };
                let telegram = request.written();
                for room in 0..=600 {
                    let written = request.write(room);
                    if room < telegram.len() {
                        assert_eq!(written, Err(11));
                    } else {
                        assert_eq!(written.as_ref(), Ok(&telegram));
                    }
                }
            }
        }
    }

    #[test]
    fn order_of_refusals_of_a_request() {
        let routes: [(&[u8], bool); 8] = [
            (&[0x12], true),
            (&[0x12, 0x13, 0x14, 0x55], true),
            (&[], false),
            (&[0x00], false),
            (&[0x12, 0xF1], false),
            (&[0x12, 0x13, 0x12], false),
            (&[0x12, 0x13, 0x14, 0x00], false),
            (&[0x55; 32], false),
        ];
        for (route, good) in routes {
            for (count, values) in [(0, 0), (255, 255), (256, 0), (0, 256), (usize::MAX, 300)] {
                let request = Request {
                    read: (0, count),
                    values: vec![0; values],
                    ..Request::idle(route)
                };
                let front = if route.len() > 3 { 7 + 5 } else { 6 };
                let length = front + 6 + 2 * values;
                for room in [0, length - 1, length, length + 1] {
                    let expected = if !good {
                        Err(5)
                    } else if count > 255 || values > 255 {
                        Err(12)
                    } else if room < length {
                        Err(11)
                    } else {
                        Ok(length)
                    };
                    assert_eq!(request.write(room).map(|t| t.len()), expected);
                }
            }
        }
    }

    #[test]
    fn stations_understand_every_request() {
        for stations in 1..=31 {
            let request = Request {
                read: (931, 6),
                start: 952,
                values: vec![1440, 25],
                ..Request::idle(&route(stations))
            };
            let telegram = request.written();
            let (header, rest) = header::read(header::STATION, &telegram).expect("a header");
            assert_eq!(header.function, Function::Request);
            assert_eq!(header.control, 0xFF);
            assert_eq!(header.extended, stations > 3);
            assert_eq!(header.block[..stations], route(stations));
            assert!(header.block[stations..].iter().all(|&e| e == 0x00));
            assert_eq!(header.block.len(), (stations + 1).max(4));
            assert_eq!(rest, body((931, 6), 952, &[1440, 25]));
        }
    }

    // Replies

    #[test]
    fn reply_over_two_relays() {
        let telegram = [
            0xE0, 0xFF, 0x00, 0x12, 0x13, 0x55, 0x03, 0xBB, 0x01, 0x00, 0x07,
        ];
        check_accepted(&telegram, &[0x12, 0x13, 0x55], 955, &[0x00, 0x07]);
        let reply = read(&telegram);
        assert!(std::ptr::eq(reply.values, &telegram[9..11]));
    }

    #[test]
    fn reply_over_one_relay() {
        let telegram = short(0xE0, [0x00, 0x12, 0x55, 0x00], &ONE);
        check_accepted(&telegram, &[0x12, 0x55], 955, &[0x12, 0x34]);
    }

    #[test]
    fn replies_of_one_station() {
        for station in 0x01..=0xF0 {
            for block in [
                [0x00, station, 0x00, 0x00],
                [0x00, 0x00, station, 0x00],
                [0x00, 0x00, 0x00, station],
            ] {
                let telegram = short(0xE0, block, &ONE);
                check_accepted(&telegram, &[station], 955, &[0x12, 0x34]);
            }
        }
    }

    #[test]
    fn replies_in_the_extended_form() {
        // Blocks, and what they name.
        let cases: [(&[u8], &[u8]); 8] = [
            (&[0x00, 0x55], &[0x55]),
            (&[0x00, 0x12, 0x55], &[0x12, 0x55]),
            (&[0x00, 0x55, 0x00], &[0x55]),
            (&[0x00, 0x00, 0x55], &[0x55]),
            (&[0x00, 0x12, 0x13, 0x55], &[0x12, 0x13, 0x55]),
            (&[0x00, 0xEF, 0x55, 0x00], &[0xEF, 0x55]),
            (&[0x00, 0x12, 0x13, 0x14, 0x55], &[0x12, 0x13, 0x14, 0x55]),
            (&[0x00, 0x00, 0x00, 0x55, 0x00], &[0x55]),
        ];
        for (block, stations) in cases {
            let telegram = long(0xE0, 0x00, block, &ONE);
            check_accepted(&telegram, stations, 955, &[0x12, 0x34]);
            let reply = read(&telegram);
            let from = 7 + block.len() + 3;
            assert!(std::ptr::eq(reply.values, &telegram[from..from + 2]));
        }

        let mut block = route(31);
        block.insert(0, 0x00);
        let telegram = long(0xE0, 0x00, &block, &ONE);
        check_accepted(&telegram, &route(31), 955, &[0x12, 0x34]);
        assert!(std::ptr::eq(read(&telegram).values, &telegram[42..44]));
    }

    /// Every good block: its form, the stations that it names, and the block.
    fn good_blocks() -> Vec<(bool, Vec<u8>, Vec<u8>)> {
        let mut blocks = vec![];
        for (extended, n) in [(false, 4)].into_iter().chain((2..=32).map(|n| (true, n))) {
            for stations in 0..n {
                let mut block = route(stations);
                block.resize(n, 0x00);
                let times = if stations == 0 { 1 } else { n };
                for _ in 0..times {
                    blocks.push((extended, route(stations), block.clone()));
                    block.rotate_left(1);
                }
            }
        }
        blocks
    }

    /// A reply in either form under a mark that may be wrong.
    fn reply(extended: bool, mark: u8, block: &[u8], body: &[u8]) -> Vec<u8> {
        if extended {
            long(0xE0, mark, block, body)
        } else {
            short(0xE0, block.try_into().expect("four entries"), body)
        }
    }

    #[test]
    fn every_good_block_under_both_marks() {
        let mut accepted = 0;
        for (extended, stations, block) in good_blocks() {
            for mark in [0x00, 0xEF] {
                for (body, fits) in [
                    (&ONE[..], true),
                    (&[0xFF, 0xFF, 0], true),
                    (&ONE[..4], false),
                    (&[0, 0, 0, 0], false),
                    (&[], false),
                ] {
                    let telegram = reply(extended, mark, &block, body);
                    let home = block[0] == 0x00;
                    if stations.is_empty() {
                        assert_eq!(refusal(&telegram), Some(5), "{telegram:02X?}");
                    } else if extended && home != (mark == 0x00) {
                        assert_eq!(refusal(&telegram), Some(6), "{telegram:02X?}");
                    } else if !home {
                        assert_eq!(read(&telegram).verdict, Verdict::NotMine);
                    } else if !fits {
                        assert_eq!(refusal(&telegram), Some(7), "{telegram:02X?}");
                    } else {
                        let start = u16::from_be_bytes([body[0], body[1]]);
                        check_accepted(&telegram, &stations, start, &body[3..]);
                        accepted += 1;
                    }
                }
            }
        }
        // A block of n entries and m stations can begin with each of its n - m empty ones;
        // the standard one is tried twice, and all with two bodies.
        let extended: usize = (2..=32).map(|n: usize| n * (n - 1) / 2).sum();
        assert_eq!(accepted, 2 * (extended + 2 * 6));
    }

    #[test]
    fn cut_at_every_length() {
        for (block, extended) in [
            (vec![0x00, 0x12, 0x13, 0x55], false),
            (vec![0x00, 0x55], true),
            (vec![0x00, 0x12, 0x55], true),
            (vec![0x00, 0x12, 0x13, 0x55], true),
            (vec![0x00, 0x12, 0x13, 0x14, 0x55], true),
            ([&[0x00], &route(31)[..]].concat(), true),
        ] {
            for count in [0, 1, 2, 255] {
                let body = reply_body(955, count);
                let telegram = reply(extended, 0x00, &block, &body);
                let header = telegram.len() - body.len();
                assert_eq!(header, if extended { 7 + block.len() } else { 6 });
                for length in 0..telegram.len() {
                    let expected = if length < header { 2 } else { 7 };
                    let number = refusal(&telegram[..length]);
                    assert_eq!(number, Some(expected), "{length}");
                }
                let stations = header::named(&block);
                check_accepted(&telegram, &stations, 955, &body[3..]);
            }
        }
    }

    #[test]
    fn lengths_of_telegrams() {
        for extended in [false, true] {
            for length in (0..=1030).chain([2048, 65536, 200_000]) {
                let mut telegram = reply(extended, 0x00, &[0x00, 0x12, 0x13, 0x55], &ONE);
                let whole = telegram.len();
                telegram.resize(length, 0x00);
                let expected = match length {
                    1025.. => Some(12),
                    _ if length == whole => None,
                    _ if length < whole - 5 => Some(2),
                    _ => Some(7),
                };
                assert_eq!(refusal(&telegram), expected, "{length}");
            }
        }
    }

    #[test]
    fn longest_reply() {
        let block = [&[0x00], &route(31)[..]].concat();
        let telegram = long(0xE0, 0x00, &block, &reply_body(65535, 255));
        assert_eq!(telegram.len(), 552);
        check_accepted(&telegram, &route(31), 65535, &telegram[42..]);
    }

    #[test]
    fn function_bytes() {
        let bodies: [&[u8]; 3] = [&ONE, &[0; 6], &[]];
        for function in 0..=u8::MAX {
            for body in bodies {
                for telegram in [
                    short(function, [0x00, 0x12, 0x13, 0x55], body),
                    short(function, [0x12, 0x13, 0x55, 0x00], body),
                    short(function, [0x00; 4], body),
                    short(function, [0xF1; 4], body),
                    short(function, [0x00, 0xEF, 0xEF, 0xEF], body),
                    long(function, 0x00, &[0x00, 0x55], body),
                    long(function, 0xEF, &[0x55, 0x00], body),
                    long(function, 0xEF, &[0x00; 33], body),
                ] {
                    let refused = refusal(&telegram) == Some(3);
                    assert_eq!(refused, function != 0xE0, "{telegram:02X?}");
                    // Under 6 bytes and over 1,024 come before.
                    assert_eq!(refusal(&telegram[..5]), Some(2));
                    let mut telegram = telegram;
                    telegram.resize(1025, 0x00);
                    assert_eq!(refusal(&telegram), Some(12));
                }
            }
        }
    }

    #[test]
    fn control_bytes() {
        for control in 0..=u8::MAX {
            for extended in [false, true] {
                let mut telegram = reply(extended, 0x00, &[0x00, 0x12, 0x13, 0x55], &ONE);
                telegram[1] = control;
                check_accepted(&telegram, &[0x12, 0x13, 0x55], 955, &[0x12, 0x34]);
            }
        }
    }

    #[test]
    fn extended_counts() {
        for mark in [0x00, 0xEF] {
            for count in 0..=u8::MAX {
                let mut block = vec![0x00; usize::from(count)];
                if let Some(last) = block.last_mut() {
                    *last = 0x55;
                }
                let telegram = long(0xE0, mark, &block, &ONE);
                assert_eq!(refusal(&telegram[..6]), Some(2));
                let front = 7 + usize::from(count);
                for length in 7..=telegram.len() {
                    let expected = if !(2..=32).contains(&count) {
                        Some(4)
                    } else if length < front {
                        Some(2)
                    } else if mark == 0xEF {
                        Some(6)
                    } else if length < telegram.len() {
                        Some(7)
                    } else {
                        None
                    };
                    assert_eq!(refusal(&telegram[..length]), expected, "{count} {length}");
                }
            }
        }
    }

    #[test]
    fn naming_nobody() {
        for body in [&ONE[..], &[0, 0, 0], &[]] {
            assert_eq!(refusal(&short(0xE0, [0x00; 4], body)), Some(5));
            for n in 2..=32 {
                // Before the mark is looked at.
                for mark in [0x00, 0xEF] {
                    let telegram = long(0xE0, mark, &vec![0x00; n], body);
                    assert_eq!(refusal(&telegram), Some(5), "{n} {mark}");
                }
                // Behind a cut.
                let telegram = long(0xE0, 0x00, &vec![0x00; n], &[]);
                assert_eq!(refusal(&telegram[..6 + n]), Some(2));
            }
        }
    }

    #[test]
    fn bad_blocks() {
        for body in [&ONE[..], &[]] {
            for block in [
                [0x12, 0x13, 0x14, 0x15],
                [0x12, 0x12, 0x55, 0x00],
                [0x12, 0x00, 0x13, 0x00],
                [0x00, 0x12, 0x00, 0x13],
                [0x00, 0x12, 0x12, 0x00],
                [0x00, 0x12, 0xF1, 0x00],
                [0x00, 0x00, 0x00, 0xFF],
            ] {
                assert_eq!(refusal(&short(0xE0, block, body)), Some(5));
                for mark in [0x00, 0xEF] {
                    let telegram = long(0xE0, mark, &block, body);
                    assert_eq!(refusal(&telegram), Some(5), "{block:02X?} {mark}");
                }
            }
        }
        // A bad entry at each place behind the first.
        for stations in 1..=31 {
            let good = [&[0x00], &route(stations)[..]].concat();
            for place in 1..=stations {
                for entry in [0xF1, 0xFF, good[place % stations + 1]] {
                    let mut block = good.clone();
                    block[place] = entry;
                    let bad = block != good;
                    let number = refusal(&long(0xE0, 0x00, &block, &ONE));
                    assert_eq!(number, bad.then_some(5), "{block:02X?}");
                }
            }
        }
    }

    #[test]
    fn wrong_marks() {
        for body in [&ONE[..], &[]] {
            for block in [&[0x00, 0x55][..], &[0x00, 0x12, 0x13, 0x14, 0x55]] {
                assert_eq!(refusal(&long(0xE0, 0xEF, block, body)), Some(6));
            }
            for block in [
                &[0x55, 0x00][..],
                &[0xEF, 0x00, 0x00],
                &[0x12, 0x13, 0x14, 0x55, 0x00],
            ] {
                assert_eq!(refusal(&long(0xE0, 0x00, block, body)), Some(6));
            }
        }
    }

    #[test]
    fn replies_for_somebody_else() {
        // Whether the body fits does not matter.
        for body in [&ONE[..], &ONE[..4], &[0; 6], &[0; 2], &[]] {
            for telegram in [
                short(0xE0, [0x12, 0x13, 0x55, 0x00], body),
                short(0xE0, [0x13, 0x55, 0x00, 0x12], body),
                short(0xE0, [0x55, 0x00, 0x00, 0x00], body),
                short(0xE0, [0xEF, 0x00, 0x00, 0x00], body),
                long(0xE0, 0xEF, &[0x55, 0x00], body),
                long(0xE0, 0xEF, &[0x55, 0x00, 0x12], body),
                long(0xE0, 0xEF, &[0xEF, 0x00, 0x00, 0x00], body),
                long(0xE0, 0xEF, &[0x14, 0x55, 0x00, 0x12, 0x13], body),
            ] {
                assert_eq!(read(&telegram).verdict, Verdict::NotMine);
            }
        }
        // The mark is not the first entry.
        let telegram = long(0xE0, 0x00, &[0x55, 0x00], &ONE);
        assert_eq!(refusal(&telegram), Some(6));
    }

    #[test]
    fn lengths_of_bodies() {
        for (block, extended) in [
            (&[0x00, 0x12, 0x13, 0x55][..], false),
            (&[0x00, 0x55], true),
            (&[0x00, 0x12, 0x55], true),
            (&[0x00, 0x12, 0x13, 0x55], true),
            (&[0x00, 0x12, 0x13, 0x14, 0x55], true),
        ] {
            let telegram = |body: &[u8]| reply(extended, 0x00, block, body);
            for length in 0..3 {
                assert_eq!(refusal(&telegram(&[0x00; 3][..length])), Some(7));
                assert_eq!(refusal(&telegram(&[0xFF; 3][..length])), Some(7));
            }
            for count in 0..=u8::MAX {
                let exact = reply_body(0x0304, count);
                assert_eq!(exact.len(), 3 + 2 * usize::from(count));
                check_accepted(
                    &telegram(&exact),
                    &header::named(block),
                    0x0304,
                    &exact[3..],
                );
                for less in 1..=2 {
                    let short = &exact[..exact.len() - less];
                    assert_eq!(refusal(&telegram(short)), Some(7), "{count}");
                    let long = [&exact[..], &[0; 2][..less]].concat();
                    assert_eq!(refusal(&telegram(&long)), Some(7), "{count}");
                }
            }
        }
    }

    #[test]
    fn numbers_and_values_are_not_judged() {
        for start in (0..=u16::MAX).step_by(97).chain([954, 65535]) {
            let [high, low] = start.to_be_bytes();
            for values in [&[][..], &[0xFF, 0xFF, 0x00, 0x00]] {
                let count = (values.len() / 2) as u8;
                let body = [&[high, low, count], values].concat();
                let telegram = short(0xE0, [0x00, 0x55, 0x00, 0x00], &body);
                check_accepted(&telegram, &[0x55], start, values);
            }
        }
    }

    #[test]
    fn order_of_refusals_of_a_reply() {
        // One fault after the other is mended, in the order in which they are looked for.
        let mut telegram = vec![0x60, 0xFF, 0xEF, 0xEF, 0xEF, 0xEF, 33];
        telegram.extend([0x55, 0x55, 0x00]);
        telegram.resize(1025, 0x00);
        assert_eq!(refusal(&telegram), Some(12));
        telegram.truncate(5);
        assert_eq!(refusal(&telegram), Some(2));
        telegram.push(0xEF);
        assert_eq!(refusal(&telegram), Some(3));
        telegram[0] = 0xE0;
        assert_eq!(refusal(&telegram), Some(2));
        telegram.push(33);
        assert_eq!(refusal(&telegram), Some(4));
        telegram[6] = 3;
        telegram.extend([0x00, 0x55]);
        assert_eq!(refusal(&telegram), Some(2));
        telegram.push(0x55);
        assert_eq!(refusal(&telegram), Some(5));
        telegram[7..10].copy_from_slice(&[0x00, 0x00, 0x00]);
        assert_eq!(refusal(&telegram), Some(5));
        telegram[7..10].copy_from_slice(&[0x00, 0x12, 0x55]);
        assert_eq!(refusal(&telegram), Some(6));
        telegram[7..10].copy_from_slice(&[0x12, 0x55, 0x00]);
        assert_eq!(read(&telegram).verdict, Verdict::NotMine);
        telegram[2] = 0x00;
        telegram[7..10].copy_from_slice(&[0x00, 0x12, 0x55]);
        assert_eq!(refusal(&telegram), Some(7));
        telegram.extend([0x03, 0xBB, 0]);
        check_accepted(&telegram, &[0x12, 0x55], 955, &[]);
    }

    // Requests and their replies

    /// Different values, none of them the factory's.
    fn odd_tables(stations: usize) -> Vec<u16> {
        (0xC000..).take(COUNT * stations).collect()
    }

    /// Writes a request, plays it in a net of the route's stations and reads the reply.
    fn check_exchange(request: &Request) {
        let stations = &request.route;
        let mut addresses = stations.clone();
        addresses.reverse();
        let before = odd_tables(stations.len());
        let mut tables = before.clone();
        let journey = net::journey(&request.written(), &addresses, &mut tables).expect("good");
        assert_eq!(journey.ending, Ending::EmptyEntry);
        assert_eq!(journey.telegrams.len(), 2 * stations.len());

        let (last, others) = journey.telegrams.split_last().expect("a telegram");
        let (out, back) = others.split_at(stations.len());
        for telegram in out {
            assert_eq!(refusal(telegram), Some(3));
        }
        for telegram in back {
            assert_eq!(read(telegram).verdict, Verdict::NotMine);
        }

        // The destination is the first in the net; its registers after the writes.
        let mut table = before[..COUNT].to_vec();
        let write_count = request.values.len() as u8;
        let written = registers::run(request.start, write_count).expect("registers");
        for (place, &value) in written.into_iter().zip(&request.values) {
            table[place] = value;
        }
        assert_eq!(tables[..COUNT], table);
        assert_eq!(tables[COUNT..], before[COUNT..]);

        let (start, count) = request.read;
        let values: Vec<u8> = registers::run(start, count as u8)
            .expect("registers")
            .into_iter()
            .flat_map(|place| table[place].to_be_bytes())
            .collect();
        check_accepted(last, stations, start, &values);
        assert_eq!(usize::from(read(last).count), count);
    }

    #[test]
    fn exchanges_over_every_number_of_stations() {
        let bodies: [((u16, usize), u16, &[u16]); 6] = [
            ((0, 0), 0, &[]),
            ((65535, 0), 65535, &[]),
            ((2, 1), 300, &[3]),
            ((931, 6), 65535, &[]),
            ((955, 3), 955, &[0x0102, 59]),
            (
                (955, 8),
                955,
                &[5947, 59, 65535, 1440, 65535, 1440, 1440, 1],
            ),
        ];
        for stations in 1..=31 {
            for (read, start, values) in bodies {
                check_exchange(&Request {
                    route: route(stations),
                    read,
                    start,
                    values: values.to_vec(),
                });
            }
        }
    }

    #[test]
    fn exchanges_of_every_run() {
        for row in registers::ROWS {
            let exists = |count: &u8| registers::run(row.number, *count).is_some();
            for count in (1..=u8::MAX).take_while(exists) {
                check_exchange(&Request {
                    route: route(1 + usize::from(count) % 5),
                    read: (row.number, usize::from(count)),
                    start: 958,
                    values: vec![1440, 65535],
                });
            }
        }
    }

    #[test]
    fn example_exchange() {
        let request = Request {
            route: vec![0x12, 0x13, 0x55],
            read: (955, 1),
            start: 300,
            values: vec![1],
        };
        let mut tables = factory().repeat(3);
        let telegram = request.written();
        let journey = net::journey(&telegram, &[0x12, 0x13, 0x55], &mut tables).expect("good");
        assert_eq!(journey.telegrams.len(), 6);
        let last = &journey.telegrams[5];
        check_accepted(last, &[0x12, 0x13, 0x55], 955, &[0x00, 0x00]);
        assert_eq!(tables[2 * COUNT + 1], 1);
    }

    // Anything at all

    #[test]
    fn what_holds_of_every_telegram() {
        let mut random = Random(0x0060_00E0);
        let entries = [0x00, 0x00, 0x00, 0x01, 0x12, 0x55, 0xEF, 0xEF, 0xF0, 0xF1];
        let mut kinds = [0; 14];
        for _ in 0..300_000 {
            let mut telegram = random.telegram(&[0xE0, 0xE0, 0xE0, 0xE0, 0x60, 0x61], &entries);
            // The body is that of a request; a reply's takes its place half of the time.
            if let (true, Ok((header, _))) = (
                random.below(2) == 0,
                header::read(header::STATION, &telegram),
            ) {
                telegram = header.to_bytes();
                let count = random.pick(&[0, 1, 3]);
                telegram.extend(reply_body(random.next() as u16, count));
            }

            let reply = read(&telegram);
            kinds[match reply.verdict {
                Verdict::Accepted => 0,
                Verdict::NotMine => 13,
                Verdict::Refused(number) => usize::from(number),
            }] += 1;

            // What the centre looks at differently from a station.
            let at_a_station = header::read(header::STATION, &telegram);
            let expected = match &at_a_station {
                _ if (6..=1024).contains(&telegram.len()) && telegram[0] == 0x60 => Some(3),
                Err(6) if header::named(&telegram[7..7 + usize::from(telegram[6])]).is_empty() => {
                    Some(5)
                }
                Err(number) => Some(*number),
                Ok((header, _)) if header.block.iter().all(|&e| e == 0x00) => Some(5),
                Ok(_) => None,
            };
            match reply.verdict {
                Verdict::Refused(7) => assert_eq!(expected, None),
                Verdict::Refused(number) => assert_eq!(expected, Some(number)),
                Verdict::Accepted | Verdict::NotMine => assert_eq!(expected, None),
            }

            // An accepted reply can be put together again from what was read.
            if reply.verdict == Verdict::Accepted {
                let (header, _) = at_a_station.expect("a header");
                let mut again = header.to_bytes();
                again.extend(reply.start.to_be_bytes());
                again.push(reply.count);
                again.extend(reply.values);
                assert_eq!(again, telegram);
                assert_eq!(header.block[0], 0x00);
                assert_eq!(header::named(&reply.route), header::named(&header.block));
            }
        }
        let seen: Vec<usize> = (0..kinds.len()).filter(|&kind| kinds[kind] > 0).collect();
        assert_eq!(seen, [0, 2, 3, 4, 5, 6, 7, 12, 13]);
    }
}
