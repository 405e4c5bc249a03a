//! A station: what it does with a telegram that it hears.
//!
//! The one public function is total: no argument makes it panic.

use crate::header::{self, Function, FRESH_CONTROL, NOBODY};
use crate::refusal::{
    BAD_BODY_LENGTH, BAD_SETUP, NOT_WRITABLE, NO_SUCH_REGISTER, OUTPUT_TOO_SHORT, OUT_OF_RANGE,
};
use crate::registers::{self, Table, ROWS};

/// What a station gives back for one telegram.
#[derive(Debug, Clone, Copy, PartialEq, Eq)]
pub enum Answer {
    /// A telegram goes out; it is this long and lies at the start of the output.
    Sent(usize),
    /// Somebody else, or nobody, has to handle the telegram.
    NotMine,
    /// The call was refused with this number.
    Refused(u8),
}

/// Lets the station with address `own` handle a telegram.
///
/// `registers` and `out` change only if something is sent.
pub fn handle(own: u8, registers: &mut [u16], telegram: &[u8], out: &mut [u8]) -> Answer {
    if !header::is_address(own) {
        return Answer::Refused(BAD_SETUP);
    }
    // All work is done on a copy, so that a refusal can simply drop it.
    let Ok(mut table) = Table::try_from(&*registers) else {
        return Answer::Refused(BAD_SETUP);
    };

    let sent = match answer(own, &mut table, telegram) {
        Ok(Some(sent)) => sent,
        Ok(None) => return Answer::NotMine,
        Err(number) => return Answer::Refused(number),
    };

    match out.get_mut(..sent.len()) {
        Some(place) => {
            place.copy_from_slice(&sent);
            registers.copy_from_slice(&table);
            Answer::Sent(sent.len())
        }
        None => Answer::Refused(OUTPUT_TOO_SHORT),
    }
}

/// The telegram that the station sends, or nothing if it is not its turn.
fn answer(own: u8, table: &mut Table, telegram: &[u8]) -> Result<Option<Vec<u8>>, u8> {
    let (mut header, body) = header::read(header::STATION, telegram)?;

    // A block that was read has at least two entries.
    let (first, second) = (header.block[0], header.block[1]);
    if first != own {
        return Ok(None);
    }

    let sent = match header.function {
        // Nobody comes next, so the request is for this station.
        Function::Request if second == NOBODY => {
            let reply = carry_out(table, body)?;
            header.function = Function::Reply;
            header.control = FRESH_CONTROL;
            [header.roll_right().to_bytes(), reply].concat()
        }
        Function::Request => [&header.roll_left().to_bytes(), body].concat(),
        Function::Reply => [&header.roll_right().to_bytes(), body].concat(),
    };
    Ok(Some(sent))
}

/// Carries out the body of a request and gives the body of its reply.
///
/// The table is changed only after the last reason to refuse.
fn carry_out(table: &mut Table, body: &[u8]) -> Result<Vec<u8>, u8> {
    let &[read_high, read_low, read_count, write_high, write_low, write_count, ref data @ ..] =
        body
    else {
        return Err(BAD_BODY_LENGTH);
    };
    if data.len() != 2 * usize::from(write_count) {
        return Err(BAD_BODY_LENGTH);
    }

    let read_start = u16::from_be_bytes([read_high, read_low]);
    let write_start = u16::from_be_bytes([write_high, write_low]);
    let (Some(to_read), Some(to_write)) = (
        registers::run(read_start, read_count),
        registers::run(write_start, write_count),
    ) else {
        return Err(NO_SUCH_REGISTER);
    };

    if !to_write.iter().all(|&place| ROWS[place].write) {
        return Err(NOT_WRITABLE);
    }

    let values = data
        .chunks_exact(2)
        .map(|pair| u16::from_be_bytes([pair[0], pair[1]]));
    let writes: Vec<(usize, u16)> = to_write.into_iter().zip(values).collect();
    if !writes
        .iter()
        .all(|&(place, value)| ROWS[place].takes(value))
    {
        return Err(OUT_OF_RANGE);
    }

    for (place, value) in writes {
        table[place] = value;
    }

    let mut reply = vec![read_high, read_low, read_count];
    for place in to_read {
        reply.extend(table[place].to_be_bytes());
    }
    Ok(reply)
}

#[cfg(test)]
mod tests {
    use super::*;
    use crate::registers::{factory, time, COUNT};
    use crate::samples::{body, long, short, Random, IDLE};

    const FILL: u8 = 0xA5;

    /// Values that differ from each other and from the factory's; no setting may be
    /// given one of them.
    fn odd_table() -> Table {
        std::array::from_fn(|place| 0xC100 + place as u16)
    }

    /// Calls the station with an output of `room` bytes. Whatever must not change is
    /// checked; what was sent is given back with the answer.
    fn call(own: u8, table: &mut [u16], telegram: &[u8], room: usize) -> (Answer, Vec<u8>) {
        let before = table.to_vec();
        let mut out = vec![FILL; room];
        let answer = handle(own, table, telegram, &mut out);
        let length = match answer {
            Answer::Sent(length) => length,
            Answer::NotMine | Answer::Refused(_) => {
                assert_eq!(table, before, "{answer:?} and a register changed");
                0
            }
        };
        assert!(out[length..].iter().all(|&b| b == FILL));
        out.truncate(length);
        (answer, out)
    }

    /// What a station sends, which must be something. One byte less of room is tried
    /// before, and just enough after, with the same telegram and table.
    fn sent(own: u8, table: &mut [u16], telegram: &[u8]) -> Vec<u8> {
        let mut again = table.to_vec();
        let (answer, bytes) = call(own, table, telegram, 1024);
        assert_eq!(answer, Answer::Sent(bytes.len()));
        assert_ne!(bytes, []);
        for room in [0, 1, bytes.len() - 1] {
            let (answer, _) = call(own, &mut again, telegram, room);
            assert_eq!(answer, Answer::Refused(11));
        }
        for room in [bytes.len(), bytes.len() + 1] {
            let mut again = again.clone();
            let outcome = call(own, &mut again, telegram, room);
            assert_eq!(outcome, (Answer::Sent(bytes.len()), bytes.clone()));
            assert_eq!(again, table);
        }
        bytes
    }

    /// The answer of a station which must not send, whatever the output and the table.
    fn silent(own: u8, telegram: &[u8]) -> Answer {
        let (first, _) = call(own, &mut factory(), telegram, 1024);
        for room in [0, 1, 6, 2000] {
            for mut table in [factory(), odd_table()] {
                assert_eq!(call(own, &mut table, telegram, room).0, first);
            }
        }
        assert!(!matches!(first, Answer::Sent(_)));
        first
    }

    /// A request to station 55 in the short form, without a relay.
    fn direct(body: &[u8]) -> Vec<u8> {
        short(0x60, [0x55, 0x00, 0x00, 0x00], body)
    }

    /// The reply to it.
    fn direct_reply(body: &[u8]) -> Vec<u8> {
        short(0xE0, [0x00, 0x55, 0x00, 0x00], body)
    }

    /// The reply to it that shows these values, from this number on.
    fn shown(start: u16, values: &[u16]) -> Vec<u8> {
        let mut body = start.to_be_bytes().to_vec();
        body.push(u8::try_from(values.len()).expect("a count"));
        body.extend(values.iter().flat_map(|value| value.to_be_bytes()));
        direct_reply(&body)
    }

    /// Refusal of a body by station 55.
    fn refusal(body: &[u8]) -> Answer {
        silent(0x55, &direct(body))
    }

    // Whole journeys

    /// Hands a telegram from station to station until nobody has to handle it.
    fn journey(stations: &mut [(u8, Table)], first: Vec<u8>) -> Vec<Vec<u8>> {
        let mut telegrams = vec![first];
        loop {
            let last = telegrams.last().expect("the first at least").clone();
            let mut next = None;
            for (own, table) in stations.iter_mut() {
                match call(*own, table, &last, 1024) {
                    (Answer::Sent(_), bytes) => {
                        assert_eq!(next, None, "two stations sent");
                        next = Some(bytes);
                    }
                    (answer, _) => assert_eq!(answer, Answer::NotMine),
                }
            }
            match next {
                Some(next) => telegrams.push(next),
                None => return telegrams,
            }
        }
    }

    #[test]
    fn journey_over_two_relays() {
        let mut stations = [0x12, 0x13, 0x55].map(|own| (own, factory()));
        let first = [
            0x60, 0xFF, 0x12, 0x13, 0x55, 0x00, 0x03, 0xBB, 0x01, 0x01, 0x2C, 0x01, 0x00, 0x01,
        ];
        let telegrams = journey(&mut stations, first.to_vec());

        let heads: Vec<_> = telegrams.iter().map(|t| (t[0], &t[2..6])).collect();
        assert_eq!(
            heads,
            [
                (0x60, &[0x12, 0x13, 0x55, 0x00][..]),
                (0x60, &[0x13, 0x55, 0x00, 0x12]),
                (0x60, &[0x55, 0x00, 0x12, 0x13]),
                (0xE0, &[0x13, 0x55, 0x00, 0x12]),
                (0xE0, &[0x12, 0x13, 0x55, 0x00]),
                (0xE0, &[0x00, 0x12, 0x13, 0x55]),
            ]
        );
        assert_eq!(
            telegrams[5],
            [0xE0, 0xFF, 0x00, 0x12, 0x13, 0x55, 0x03, 0xBB, 0x01, 0x00, 0x00]
        );
        assert_eq!(stations[0].1, factory());
        assert_eq!(stations[1].1, factory());
        let mut expected = factory();
        expected[1] = 1;
        assert_eq!(stations[2].1, expected);
    }

    #[test]
    fn journey_over_one_relay() {
        let mut stations = [0x12, 0x55].map(|own| (own, factory()));
        let first = short(0x60, [0x12, 0x55, 0x00, 0x00], &IDLE);
        let telegrams = journey(&mut stations, first);
        let blocks: Vec<_> = telegrams.iter().map(|t| (t[0], &t[2..6])).collect();
        assert_eq!(
            blocks,
            [
                (0x60, &[0x12, 0x55, 0x00, 0x00][..]),
                (0x60, &[0x55, 0x00, 0x00, 0x12]),
                (0xE0, &[0x12, 0x55, 0x00, 0x00]),
                (0xE0, &[0x00, 0x12, 0x55, 0x00]),
            ]
        );
    }

    #[test]
    fn journey_without_relay() {
        let mut stations = [(0x55, factory())];
        let telegrams = journey(&mut stations, direct(&IDLE));
        assert_eq!(telegrams, [direct(&IDLE), direct_reply(&[0, 0, 0])]);
    }

    /// Plays a good request of this form at 31 stations and checks every transmission.
    /// The block has `m` stations in `n` entries.
    fn check_journey(m: usize, n: usize, extended: bool) {
        // The addresses go up and down along the route.
        let route: Vec<u8> = (0..31).map(|i| (i * 7 % 31) * 7 + 29).collect();
        let mut stations: Vec<_> = route.iter().map(|&own| (own, odd_table())).collect();
        let mut block = route[..m].to_vec();
        block.resize(n, 0x00);
        let request = body((952, 2), 955, &[0x0102, 59]);
        let reply = [0x03, 0xB8, 0x02, 0xC1, 0x08, 0xC1, 0x09];

        let build = |function: u8, mark: u8, block: &[u8], body: &[u8]| {
            if extended {
                long(function, mark, block, body)
            } else {
                short(function, block.try_into().expect("four entries"), body)
            }
        };
        // The block starts with station 1, 2, up to m; then m - 1, m - 2, down to 1;
        // then with the last 00.
        let mut expected = vec![];
        for i in 0..m {
            let mut block = block.clone();
            block.rotate_left(i);
            expected.push(build(0x60, 0xEF, &block, &request));
        }
        for i in (0..m - 1).rev() {
            let mut block = block.clone();
            block.rotate_left(i);
            expected.push(build(0xE0, 0xEF, &block, &reply));
        }
        let mut last = block.clone();
        last.rotate_right(1);
        expected.push(build(0xE0, 0x00, &last, &reply));
        assert_eq!(expected.len(), 2 * m);

        assert_eq!(journey(&mut stations, expected[0].clone()), expected);
        for (own, table) in stations {
            let mut expected = odd_table();
            if own == route[m - 1] {
                expected[10] = 0x0102;
                expected[11] = 59;
            }
            assert_eq!(table, expected);
        }
    }

    #[test]
    fn journeys_in_the_short_form() {
        for m in 1..=3 {
            check_journey(m, 4, false);
        }
    }

    #[test]
    fn journeys_in_the_extended_form() {
        for n in 2..=32 {
            for m in 1..n {
                check_journey(m, n, true);
            }
        }
    }

    // Address and table

    #[test]
    fn own_addresses() {
        for own in 0..=u8::MAX {
            let telegram = short(0x60, [own, 0x00, 0x00, 0x00], &IDLE);
            if (1..=240).contains(&own) {
                let reply = sent(own, &mut factory(), &telegram);
                assert_eq!(reply, short(0xE0, [0x00, own, 0x00, 0x00], &[0, 0, 0]));
            } else {
                assert_eq!(silent(own, &telegram), Answer::Refused(1), "{own}");
            }
        }
        for own in [0, 241, 255] {
            assert_eq!(silent(own, &direct(&IDLE)), Answer::Refused(1));
        }
        for own in [1, 240] {
            assert_eq!(silent(own, &direct(&IDLE)), Answer::NotMine);
        }
    }

    #[test]
    fn table_lengths() {
        for length in (0..=2 * COUNT + 4).chain([COUNT * COUNT, 65536]) {
            let mut table = vec![0; length];
            let (answer, bytes) = call(0x55, &mut table, &direct(&IDLE), 1024);
            if length == COUNT {
                assert_eq!(answer, Answer::Sent(9));
                assert_eq!(bytes, direct_reply(&[0, 0, 0]));
            } else {
                assert_eq!(answer, Answer::Refused(1), "{length}");
            }
        }
    }

    #[test]
    fn refusal_1_comes_first() {
        let too_long = vec![0; 1025];
        let faulty: [&[u8]; 6] = [
            &[],
            &[0x60; 5],
            &[0x00; 6],
            &[0x60, 0xFF, 0xEF, 0xEF, 0xEF, 0xEF, 33],
            &[0x60, 0xFF, 0x12, 0x12, 0x12, 0x12],
            &too_long,
        ];
        for telegram in faulty {
            for own in [0, 241, 242, 255] {
                assert_eq!(silent(own, telegram), Answer::Refused(1));
            }
            for length in [0, COUNT - 1, COUNT + 1] {
                let mut table = vec![7; length];
                for room in [0, 1024] {
                    let (answer, _) = call(0x55, &mut table, telegram, room);
                    assert_eq!(answer, Answer::Refused(1));
                }
            }
            assert_ne!(silent(0x55, telegram), Answer::Refused(1));
        }
    }

    // Header

    #[test]
    fn telegram_lengths_at_a_relay() {
        for function in [0x60, 0xE0] {
            for length in 0..=1025 {
                let mut telegram = short(function, [0x55, 0x13, 0x00, 0x12], &[]);
                telegram.resize(length, 0x41);
                let room = if length == 1025 { 2000 } else { length };
                let (answer, _) = call(0x55, &mut factory(), &telegram, room);
                let expected = match length {
                    0..=5 => Answer::Refused(2),
                    6..=1024 => Answer::Sent(length),
                    _ => Answer::Refused(12),
                };
                assert_eq!(answer, expected, "{length}");
            }
        }
    }

    #[test]
    fn telegram_lengths_at_a_relay_of_the_extended_form() {
        for function in [0x60, 0xE0] {
            for length in 0..=1025 {
                let mut block = [0; 32];
                block[..3].copy_from_slice(&[0x55, 0x13, 0x12]);
                let mut telegram = long(function, 0xEF, &block, &[]);
                telegram.resize(length, 0x41);
                let (answer, _) = call(0x55, &mut factory(), &telegram, 2000);
                let expected = match length {
                    0..=38 => Answer::Refused(2),
                    39..=1024 => Answer::Sent(length),
                    _ => Answer::Refused(12),
                };
                assert_eq!(answer, expected, "{length}");
            }
        }
    }

    #[test]
    fn telegram_lengths_at_the_destination() {
        for length in 0..=1025 {
            let mut telegram = direct(&body((2, 1), 300, &[1]));
            telegram.resize(length, 0x00);
            let (answer, _) = call(0x55, &mut factory(), &telegram, 2000);
            let expected = match length {
                0..=5 => Answer::Refused(2),
                6..=13 => Answer::Refused(7),
                14 => Answer::Sent(11),
                15..=1024 => Answer::Refused(7),
                _ => Answer::Refused(12),
            };
            assert_eq!(answer, expected, "{length}");
        }
    }

    #[test]
    fn function_bytes() {
        for function in 0..=u8::MAX {
            let telegram = short(function, [0x55, 0x00, 0x00, 0x00], &IDLE);
            let (answer, _) = call(0x55, &mut factory(), &telegram, 1024);
            let expected = match function {
                0x60 => Answer::Sent(9),
                0xE0 => Answer::Sent(12),
                _ => Answer::Refused(3),
            };
            assert_eq!(answer, expected, "{function:02X}");
        }
    }

    #[test]
    fn extended_counts() {
        for count in 0..=u8::MAX {
            let mut block = vec![0x00; usize::from(count)];
            if let Some(first) = block.first_mut() {
                *first = 0x55;
            }
            let whole = long(0x60, 0xEF, &block, &IDLE);
            let (answer, _) = call(0x55, &mut factory(), &whole, 1024);
            let front = 7 + usize::from(count);
            if (2..=32).contains(&count) {
                assert_eq!(answer, Answer::Sent(front + 3));
                for length in 6..front {
                    assert_eq!(silent(0x55, &whole[..length]), Answer::Refused(2));
                }
            } else {
                assert_eq!(answer, Answer::Refused(4));
                assert_eq!(silent(0x55, &whole[..6]), Answer::Refused(2));
                for length in 7..front {
                    assert_eq!(silent(0x55, &whole[..length]), Answer::Refused(4));
                }
            }
        }
    }

    #[test]
    fn count_of_33_in_a_cut_telegram() {
        let cut = [0x60, 0xFF, 0xEF, 0xEF, 0xEF, 0xEF, 33];
        assert_eq!(silent(0x55, &cut), Answer::Refused(4));
        let cut = [0x60, 0xFF, 0xEF, 0xEF, 0xEF, 0xEF, 32];
        assert_eq!(silent(0x55, &cut), Answer::Refused(2));
    }

    #[test]
    fn bad_blocks() {
        for block in [
            [0x12, 0x13, 0x14, 0x15],
            [0x12, 0x12, 0x55, 0x00],
            [0x12, 0x00, 0x13, 0x00],
            [0x55, 0xF1, 0x00, 0x00],
            [0x55, 0x00, 0x00, 0xFF],
            [0x55, 0x55, 0x00, 0x00],
            [0x55, 0x00, 0x00, 0x55],
        ] {
            for function in [0x60, 0xE0] {
                for own in [0x12, 0x13, 0x55, 0xF0] {
                    let telegram = short(function, block, &IDLE);
                    assert_eq!(silent(own, &telegram), Answer::Refused(5));
                }
            }
        }
    }

    #[test]
    fn empty_first_entry_before_ef() {
        // In a request these are entries, and two of them are equal.
        for own in [0x12, 0xEF] {
            let entries = [0x00, 0xEF, 0xEF, 0xEF];
            assert_eq!(
                silent(own, &short(0x60, entries, &IDLE)),
                Answer::Refused(5)
            );
            assert_eq!(silent(own, &short(0x60, entries, &[])), Answer::Refused(5));
            assert_eq!(
                silent(own, &long(0x60, 0x00, &[0x12, 0x00], &IDLE)),
                Answer::Refused(5)
            );
        }
        // In a reply they announce a count.
        let entries = [0x00, 0xEF, 0xEF, 0xEF];
        assert_eq!(silent(0xEF, &short(0xE0, entries, &[])), Answer::Refused(2));
        assert_eq!(
            silent(0xEF, &short(0xE0, entries, &[1])),
            Answer::Refused(4)
        );
        assert_eq!(
            silent(0xEF, &short(0xE0, entries, &[2])),
            Answer::Refused(2)
        );
        assert_eq!(
            silent(0xEF, &short(0xE0, entries, &[2, 0x00, 0xEF])),
            Answer::NotMine
        );
    }

    #[test]
    fn ef_is_an_address() {
        let telegram = short(0x60, [0xEF, 0x00, 0x00, 0x00], &IDLE);
        let reply = sent(0xEF, &mut factory(), &telegram);
        assert_eq!(reply, short(0xE0, [0x00, 0xEF, 0x00, 0x00], &[0, 0, 0]));
        let telegram = long(0x60, 0xEF, &[0xEF, 0x00], &IDLE);
        let reply = sent(0xEF, &mut factory(), &telegram);
        assert_eq!(reply, long(0xE0, 0x00, &[0x00, 0xEF], &[0, 0, 0]));
    }

    #[test]
    fn mark_that_disagrees() {
        for own in [0x12, 0x13, 0x55] {
            let telegram = long(0xE0, 0x00, &[0x12, 0x13, 0x00], &[]);
            assert_eq!(silent(own, &telegram), Answer::Refused(6));
            let telegram = long(0xE0, 0xEF, &[0x00, 0x12, 0x13], &[]);
            assert_eq!(silent(own, &telegram), Answer::Refused(6));
            // The block is looked at before the mark.
            let telegram = long(0xE0, 0x00, &[0x12, 0x13, 0x12, 0x00], &[]);
            assert_eq!(silent(own, &telegram), Answer::Refused(5));
            // A request has one mark only.
            let telegram = long(0x60, 0xEF, &[0x00, 0x12, 0x13], &[]);
            assert_eq!(silent(own, &telegram), Answer::NotMine);
        }
    }

    #[test]
    fn not_mine() {
        for function in [0x60, 0xE0] {
            for block in [
                [0x00, 0x00, 0x00, 0x00],
                [0x00, 0x55, 0x00, 0x00],
                [0x12, 0x55, 0x00, 0x00],
                [0x12, 0x00, 0x00, 0x55],
            ] {
                // Whatever the body is like.
                for body in [&[][..], &[0xFF], &IDLE, &[0xFF; 6], &[0xFF; 1018]] {
                    let telegram = short(function, block, body);
                    assert_eq!(silent(0x55, &telegram), Answer::NotMine);
                }
            }
            for n in 2..=32 {
                let mark = if function == 0x60 { 0xEF } else { 0x00 };
                let telegram = long(function, mark, &vec![0x00; n], &[0xFF; 9]);
                assert_eq!(silent(0x55, &telegram), Answer::NotMine);
            }
        }
    }

    // Relays

    #[test]
    fn relay_of_a_request() {
        for control in 0..=u8::MAX {
            // A body that the destination would refuse is carried on all the same.
            let telegram = [0x60, control, 0x12, 0x13, 0x00, 0x55, 0xFF, 0xFF, 0xFF];
            assert_eq!(
                sent(0x12, &mut odd_table(), &telegram),
                [0x60, control, 0x13, 0x00, 0x55, 0x12, 0xFF, 0xFF, 0xFF]
            );
        }
    }

    #[test]
    fn relay_of_a_reply() {
        for control in 0..=u8::MAX {
            let telegram = [0xE0, control, 0x12, 0x13, 0x00, 0x55, 0xFF, 0xFF, 0xFF];
            assert_eq!(
                sent(0x12, &mut odd_table(), &telegram),
                [0xE0, control, 0x55, 0x12, 0x13, 0x00, 0xFF, 0xFF, 0xFF]
            );
        }
    }

    #[test]
    fn relay_changes_no_register() {
        for function in [0x60, 0xE0] {
            let telegram = short(function, [0x12, 0x55, 0x00, 0x00], &body((2, 1), 300, &[1]));
            let mut table = factory();
            sent(0x12, &mut table, &telegram);
            assert_eq!(table, factory());
        }
    }

    #[test]
    fn reply_is_never_carried_out() {
        // The next entry is empty, and the body would do for a request.
        let request = body((2, 1), 300, &[1]);
        let mut table = factory();
        assert_eq!(
            sent(
                0x55,
                &mut table,
                &short(0xE0, [0x55, 0x00, 0x12, 0x13], &request)
            ),
            short(0xE0, [0x13, 0x55, 0x00, 0x12], &request)
        );
        assert_eq!(
            sent(
                0x55,
                &mut table,
                &short(0xE0, [0x55, 0x00, 0x00, 0x00], &request)
            ),
            short(0xE0, [0x00, 0x55, 0x00, 0x00], &request)
        );
        assert_eq!(table, factory());
    }

    #[test]
    fn relays_with_an_empty_body() {
        for function in [0x60, 0xE0] {
            let block = if function == 0x60 {
                [0x13, 0x00, 0x00, 0x12]
            } else {
                [0x00, 0x12, 0x13, 0x00]
            };
            assert_eq!(
                sent(
                    0x12,
                    &mut factory(),
                    &short(function, [0x12, 0x13, 0x00, 0x00], &[])
                ),
                short(function, block, &[])
            );
        }
    }

    #[test]
    fn longest_telegram_at_a_relay() {
        let telegram = short(0x60, [0x12, 0x13, 0x00, 0x00], &[0x10; 1018]);
        let relayed = sent(0x12, &mut factory(), &telegram);
        assert_eq!(
            relayed,
            short(0x60, [0x13, 0x00, 0x00, 0x12], &[0x10; 1018])
        );
    }

    #[test]
    fn relay_of_an_extended_request_keeps_the_mark() {
        let telegram = long(0x60, 0xEF, &[0x12, 0x13, 0x14, 0x15, 0x00], &[0xAA]);
        assert_eq!(
            sent(0x12, &mut factory(), &telegram),
            long(0x60, 0xEF, &[0x13, 0x14, 0x15, 0x00, 0x12], &[0xAA])
        );
    }

    #[test]
    fn relay_of_an_extended_reply_sets_the_mark() {
        let telegram = long(0xE0, 0xEF, &[0x13, 0x14, 0x15, 0x00, 0x12], &[0xAA]);
        let telegram = sent(0x13, &mut factory(), &telegram);
        assert_eq!(
            telegram,
            long(0xE0, 0xEF, &[0x12, 0x13, 0x14, 0x15, 0x00], &[0xAA])
        );
        let telegram = sent(0x12, &mut factory(), &telegram);
        assert_eq!(
            telegram,
            long(0xE0, 0x00, &[0x00, 0x12, 0x13, 0x14, 0x15], &[0xAA])
        );
        for own in [0x12, 0x13, 0x14, 0x15] {
            assert_eq!(silent(own, &telegram), Answer::NotMine);
        }
    }

    #[test]
    fn smallest_extended_block() {
        assert_eq!(
            sent(
                0x12,
                &mut factory(),
                &long(0xE0, 0xEF, &[0x12, 0x00], &[0xAA])
            ),
            long(0xE0, 0x00, &[0x00, 0x12], &[0xAA])
        );
        assert_eq!(
            sent(
                0x12,
                &mut factory(),
                &long(0x60, 0xEF, &[0x12, 0x00], &IDLE)
            ),
            long(0xE0, 0x00, &[0x00, 0x12], &[0, 0, 0])
        );
    }

    // The destination

    #[test]
    fn reply_has_a_fresh_control_byte() {
        for control in 0..=u8::MAX {
            let mut telegram = direct(&IDLE);
            telegram[1] = control;
            assert_eq!(
                sent(0x55, &mut factory(), &telegram),
                direct_reply(&[0, 0, 0])
            );
        }
    }

    #[test]
    fn destination_between_relays() {
        // Behind it the ring goes on, and its last entry comes first.
        assert_eq!(
            sent(
                0x55,
                &mut factory(),
                &short(0x60, [0x55, 0x00, 0x12, 0x13], &IDLE)
            ),
            short(0xE0, [0x13, 0x55, 0x00, 0x12], &[0, 0, 0])
        );
        assert_eq!(
            sent(
                0x55,
                &mut factory(),
                &short(0x60, [0x55, 0x00, 0x00, 0x12], &IDLE)
            ),
            short(0xE0, [0x12, 0x55, 0x00, 0x00], &[0, 0, 0])
        );
    }

    #[test]
    fn destination_with_a_relay_ahead_leaves_the_mark() {
        let telegram = long(0x60, 0xEF, &[0x55, 0x00, 0x12, 0x13, 0x14], &IDLE);
        assert_eq!(
            sent(0x55, &mut factory(), &telegram),
            long(0xE0, 0xEF, &[0x14, 0x55, 0x00, 0x12, 0x13], &[0, 0, 0])
        );
        let telegram = long(0x60, 0xEF, &[0x55, 0x00, 0x00, 0x00, 0x00], &IDLE);
        assert_eq!(
            sent(0x55, &mut factory(), &telegram),
            long(0xE0, 0x00, &[0x00, 0x55, 0x00, 0x00, 0x00], &[0, 0, 0])
        );
    }

    #[test]
    fn body_lengths() {
        for length in 0..6 {
            // Also where the counts that are there are good.
            assert_eq!(refusal(&[0x00; 6][..length]), Answer::Refused(7));
            assert_eq!(refusal(&[0xFF; 6][..length]), Answer::Refused(7));
        }
        for count in 0..=u8::MAX {
            let values = vec![1; usize::from(count)];
            let exact = body((2, 1), 300, &values);
            assert_eq!(exact.len(), 6 + 2 * usize::from(count));

            let (answer, _) = call(0x55, &mut factory(), &direct(&exact), 1024);
            let expected = match count {
                0 | 1 => Answer::Sent(11),
                _ => Answer::Refused(8),
            };
            assert_eq!(answer, expected, "{count}");

            let mut short = exact.clone();
            short.pop();
            assert_eq!(refusal(&short), Answer::Refused(7));
            short.pop();
            assert_eq!(refusal(&short), Answer::Refused(7));
            for more in [1, 2] {
                let mut long = exact.clone();
                long.extend(vec![0; more]);
                assert_eq!(refusal(&long), Answer::Refused(7));
            }
        }
    }

    #[test]
    fn body_lengths_in_the_extended_form() {
        for n in 2..=32 {
            let mut block = vec![0x00; n];
            block[0] = 0x55;
            let whole = long(0x60, 0xEF, &block, &body((2, 1), 300, &[1]));
            assert_eq!(sent(0x55, &mut factory(), &whole).len(), 7 + n + 5);
            assert_eq!(silent(0x55, &whole[..whole.len() - 1]), Answer::Refused(7));
            assert_eq!(
                silent(0x55, &[&whole[..], &[0]].concat()),
                Answer::Refused(7)
            );
            assert_eq!(silent(0x55, &whole[..7 + n]), Answer::Refused(7));
        }
    }

    #[test]
    fn length_comes_before_registers_and_values() {
        // Unknown registers in both runs, and a minute that is none.
        for (number, mut body) in [
            (8, body((4, 1), 5, &[0])),
            (10, body((955, 1), 955, &[time(8, 75)])),
        ] {
            assert_eq!(refusal(&body), Answer::Refused(number));
            assert_eq!(refusal(&body[..7]), Answer::Refused(7));
            body.push(0);
            assert_eq!(refusal(&body), Answer::Refused(7));
        }
    }

    #[test]
    fn every_register_is_read() {
        for (place, number) in ROWS.map(|row| row.number).into_iter().enumerate() {
            let telegram = direct(&body((number, 1), 0, &[]));
            let mut table = odd_table();
            assert_eq!(
                sent(0x55, &mut table, &telegram),
                shown(number, &odd_table()[place..=place])
            );
            assert_eq!(table, odd_table());
        }
    }

    #[test]
    fn unknown_registers() {
        for number in (0..=u16::MAX).filter(|&number| registers::place(number).is_none()) {
            let mut table = factory();
            for body in [body((number, 1), 0, &[]), body((0, 0), number, &[1])] {
                let (answer, _) = call(0x55, &mut table, &direct(&body), 1024);
                assert_eq!(answer, Answer::Refused(8), "{number}");
            }
        }
    }

    #[test]
    fn runs_over_the_gap() {
        assert_eq!(refusal(&body((953, 2), 0, &[])), Answer::Refused(8));
        assert_eq!(refusal(&body((0, 0), 953, &[2, 2])), Answer::Refused(8));
        assert_eq!(refusal(&body((952, 3), 0, &[])), Answer::Refused(8));
        assert_eq!(refusal(&body((955, 9), 0, &[])), Answer::Refused(8));
        let telegram = direct(&body((952, 2), 0, &[]));
        assert_eq!(
            sent(0x55, &mut factory(), &telegram),
            direct_reply(&[0x03, 0xB8, 2, 0, 15, 0, 2])
        );
    }

    #[test]
    fn longest_runs() {
        let values = [5947, 59, 65535, 1440, 65535, 1440, 1440, 1];
        let telegram = direct(&body((955, 8), 955, &values));
        let mut table = odd_table();
        assert_eq!(sent(0x55, &mut table, &telegram), shown(955, &values));
        let mut expected = odd_table();
        expected[10..=17].copy_from_slice(&values);
        assert_eq!(table, expected);

        let telegram = direct(&body((931, 6), 0, &[]));
        assert_eq!(
            sent(0x55, &mut odd_table(), &telegram),
            direct_reply(&[0x03, 0xA3, 6, 0xC1, 2, 0xC1, 3, 0xC1, 4, 0xC1, 5, 0xC1, 6, 0xC1, 7])
        );
    }

    #[test]
    fn counts_of_255() {
        for start in [0, 2, 300, 931, 955, 65281, 65535] {
            let mut read = body((start, 255), 0, &[]);
            assert_eq!(refusal(&read), Answer::Refused(8));
            read.push(0);
            assert_eq!(refusal(&read), Answer::Refused(7));

            let write = body((0, 0), start, &[1; 255]);
            assert_eq!(write.len(), 516);
            assert_eq!(refusal(&write), Answer::Refused(8));
            assert_eq!(refusal(&write[..515]), Answer::Refused(7));

            let both = body((start, 255), start, &[1; 255]);
            assert_eq!(refusal(&both), Answer::Refused(8));
        }
    }

    #[test]
    fn start_of_an_empty_run_is_free() {
        for start in 0..=u16::MAX {
            let [high, low] = start.to_be_bytes();
            let telegram = direct(&body((start, 0), start, &[]));
            let mut table = factory();
            let (answer, reply) = call(0x55, &mut table, &telegram, 1024);
            assert_eq!(answer, Answer::Sent(9));
            assert_eq!(reply, direct_reply(&[high, low, 0]));
            assert_eq!(table, factory());
        }
    }

    #[test]
    fn runs_at_65535() {
        let telegram = direct(&body((65535, 0), 65535, &[]));
        assert_eq!(
            sent(0x55, &mut factory(), &telegram),
            direct_reply(&[0xFF, 0xFF, 0])
        );
        // Up to 5 would reach number 3 if the numbers went round.
        for count in 1..=5 {
            assert_eq!(refusal(&body((65535, count), 0, &[])), Answer::Refused(8));
            let values = vec![1; usize::from(count)];
            assert_eq!(refusal(&body((0, 0), 65535, &values)), Answer::Refused(8));
        }
    }

    #[test]
    fn inputs_are_not_written() {
        for number in [2, 931, 932, 933, 934, 935, 936] {
            for value in [0, 1, 65535] {
                assert_eq!(refusal(&body((0, 0), number, &[value])), Answer::Refused(9));
            }
        }
        assert_eq!(refusal(&body((0, 0), 931, &[0; 6])), Answer::Refused(9));
    }

    #[test]
    fn values_at_the_limits() {
        // No times of day; 957 takes 65535 as well, and 955 does not.
        let bad_ends = [
            60,
            255,
            time(8, 75),
            5948,
            time(24, 0),
            time(255, 59),
            65534,
        ];
        let bad_starts = [&bad_ends[..], &[65535]].concat();
        // Number, place, and values that are taken, then ones that are not.
        let cases: [(u16, usize, &[u16], &[u16]); 11] = [
            (300, 1, &[0, 1, 2, 3], &[4, 255, 256, 65535]),
            (952, 8, &[1, 15, 1440], &[0, 1441, 65535]),
            (953, 9, &[2, 25], &[0, 1, 26, 65535]),
            (955, 10, &[0, 59, 256, time(8, 15), 5947], &bad_starts),
            (956, 11, &[0, 59], &[60, 256, time(1, 59), 65535]),
            (957, 12, &[0, 59, 256, time(8, 15), 5947, 65535], &bad_ends),
            (958, 13, &[1, 1440], &[0, 1441, 65535]),
            (959, 14, &[1, 3600, 65535], &[0, 3601, 65534]),
            (960, 15, &[1, 1440], &[0, 1441, 65535]),
            (961, 16, &[1, 1440], &[0, 1441, 65535]),
            (962, 17, &[0, 1], &[2, 256, 65535]),
        ];
        for (number, place, good, bad) in cases {
            for &value in good {
                let telegram = direct(&body((number, 1), number, &[value]));
                let mut table = odd_table();
                assert_eq!(sent(0x55, &mut table, &telegram), shown(number, &[value]));
                let mut expected = odd_table();
                expected[place] = value;
                assert_eq!(table, expected);
            }
            for &value in bad {
                assert_eq!(
                    refusal(&body((0, 0), number, &[value])),
                    Answer::Refused(10),
                    "{value} to {number}"
                );
            }
        }
    }

    #[test]
    fn every_value_to_every_register() {
        for (place, row) in ROWS.into_iter().enumerate() {
            for value in 0..=u16::MAX {
                let telegram = direct(&body((0, 0), row.number, &[value]));
                let mut table = factory();
                let (answer, _) = call(0x55, &mut table, &telegram, 9);
                let expected = if !row.write {
                    Answer::Refused(9)
                } else if !row.takes(value) {
                    Answer::Refused(10)
                } else {
                    assert_eq!(table[place], value);
                    Answer::Sent(9)
                };
                assert_eq!(answer, expected);
            }
        }
    }

    #[test]
    fn registers_before_writability_before_range() {
        // 8 in the read run although the write run is at fault too.
        assert_eq!(refusal(&body((954, 1), 931, &[0])), Answer::Refused(8));
        assert_eq!(refusal(&body((954, 1), 953, &[26])), Answer::Refused(8));
        // 8 at the end of a write run that begins with inputs.
        assert_eq!(refusal(&body((0, 0), 931, &[0; 7])), Answer::Refused(8));
        assert_eq!(refusal(&body((0, 0), 2, &[0; 2])), Answer::Refused(8));
        // 8 at the end of a write run that begins with a bad value.
        assert_eq!(refusal(&body((0, 0), 953, &[26, 0])), Answer::Refused(8));
        // The same with times of day that are none.
        let bad = [time(8, 75); 9];
        assert_eq!(refusal(&body((954, 1), 955, &bad[..3])), Answer::Refused(8));
        assert_eq!(refusal(&body((0, 0), 955, &bad)), Answer::Refused(8));
        assert_eq!(refusal(&body((0, 0), 957, &bad[..7])), Answer::Refused(8));
        // An input's range is never the reason.
        assert_eq!(refusal(&body((955, 3), 931, &bad[..6])), Answer::Refused(9));
        assert_eq!(refusal(&body((2, 1), 936, &[65535])), Answer::Refused(9));
        // 10 with a good read run.
        assert_eq!(refusal(&body((955, 8), 953, &[26])), Answer::Refused(10));
    }

    #[test]
    fn range_comes_before_output() {
        for (number, value) in [(953, 26), (955, time(8, 75)), (957, time(8, 75))] {
            let telegram = direct(&body((2, 1), number, &[value]));
            for room in 0..=11 {
                let (answer, _) = call(0x55, &mut factory(), &telegram, room);
                assert_eq!(answer, Answer::Refused(10), "{value} to {number}");
            }
        }
        let mut table = factory();
        let telegram = direct(&body((2, 1), 953, &[25]));
        let (answer, _) = call(0x55, &mut table, &telegram, 10);
        assert_eq!(answer, Answer::Refused(11));
        assert_eq!(table, factory());
        let (answer, reply) = call(0x55, &mut table, &telegram, 11);
        assert_eq!(answer, Answer::Sent(11));
        assert_eq!(reply, direct_reply(&[0x00, 0x02, 1, 0, 0]));
        assert_eq!(table[9], 25);
    }

    #[test]
    fn output_is_measured_by_the_reply() {
        // The request is longer than its reply, and the other way round.
        let telegram = direct(&body((0, 0), 955, &[0, 0, 0, 1, 1, 1, 1, 0]));
        assert_eq!(telegram.len(), 28);
        let (answer, _) = call(0x55, &mut factory(), &telegram, 9);
        assert_eq!(answer, Answer::Sent(9));
        let telegram = direct(&body((955, 8), 0, &[]));
        assert_eq!(telegram.len(), 12);
        let (answer, _) = call(0x55, &mut factory(), &telegram, 24);
        assert_eq!(answer, Answer::Refused(11));
        let (answer, _) = call(0x55, &mut factory(), &telegram, 25);
        assert_eq!(answer, Answer::Sent(25));
    }

    #[test]
    fn all_values_or_none() {
        // For each register from 955 on, a value that it takes and one that it does not.
        let pairs = [
            [time(8, 15), time(8, 75)],
            [59, 60],
            [time(17, 45), time(17, 60)],
            [1440, 1441],
            [3600, 3601],
            [1, 0],
            [1440, 1441],
            [1, 2],
        ];
        for from in 0..pairs.len() {
            for to in from + 1..=pairs.len() {
                // Each bit stands for a place of the run; it is 1 if the value there is bad.
                for bad in 0..1_usize << (to - from) {
                    let value = |i: usize| pairs[i][(bad >> (i - from)) & 1];
                    let values: Vec<u16> = (from..to).map(value).collect();
                    let body = body((955, 8), 955 + from as u16, &values);
                    if bad == 0 {
                        let mut table = odd_table();
                        let reply = sent(0x55, &mut table, &direct(&body));
                        let mut expected = odd_table();
                        expected[10 + from..10 + to].copy_from_slice(&values);
                        assert_eq!(table, expected);
                        assert_eq!(reply, shown(955, &expected[10..]));
                    } else {
                        assert_eq!(refusal(&body), Answer::Refused(10), "{values:?}");
                    }
                }
            }
        }
    }

    #[test]
    fn writes_come_before_reads() {
        let telegram = direct(&body((957, 3), 958, &[77, 88]));
        assert_eq!(
            sent(0x55, &mut factory(), &telegram),
            direct_reply(&[0x03, 0xBD, 3, 0xFF, 0xFF, 0, 77, 0, 88])
        );
    }

    #[test]
    fn values_in_the_table_are_not_judged() {
        let mut table = [0xFFFF; COUNT];
        let telegram = direct(&body((952, 2), 300, &[3]));
        assert_eq!(
            sent(0x55, &mut table, &telegram),
            direct_reply(&[0x03, 0xB8, 2, 0xFF, 0xFF, 0xFF, 0xFF])
        );
        let mut expected = [0xFFFF; COUNT];
        expected[1] = 3;
        assert_eq!(table, expected);
    }

    #[test]
    fn bad_minute_in_the_table() {
        let bad = time(8, 75);
        let mut before = factory();
        (before[10], before[12]) = (bad, bad);
        let mut table = before;
        // It is read, and other registers are written beside it.
        let telegram = direct(&body((955, 3), 956, &[7]));
        before[11] = 7;
        assert_eq!(
            sent(0x55, &mut table, &telegram),
            shown(955, &[bad, 7, bad])
        );
        assert_eq!(table, before);
        // What was read is not taken back, alone or with the others.
        for (start, values) in [(955, &[bad][..]), (957, &[bad]), (955, &[bad, 7, bad])] {
            let telegram = direct(&body((955, 3), start, values));
            let (answer, _) = call(0x55, &mut table, &telegram, 1024);
            assert_eq!(answer, Answer::Refused(10));
        }
        // Good values replace it.
        let times = [time(8, 15), 7, 65535];
        let telegram = direct(&body((955, 3), 955, &times));
        assert_eq!(sent(0x55, &mut table, &telegram), shown(955, &times));
    }

    // Anything at all

    #[test]
    fn what_holds_of_every_telegram() {
        let mut random = Random(0x0003_0964);
        let entries = [0x00, 0x00, 0x00, 0x01, 0x12, 0x55, 0xEF, 0xEF, 0xF0, 0xF1];
        let mut kinds = [0; 14];
        for _ in 0..300_000 {
            let telegram = random.telegram(&[0x60, 0x60, 0xE0, 0xE0, 0x61], &entries);

            let own = random.pick(&[0x00, 0x01, 0x12, 0x12, 0x55, 0x55, 0xEF, 0xF0, 0xF1]);
            let room = random.pick(&[0, 8, 9, 10, 11, 12, 13, 14, 1024, 1024, 1024]);
            let mut table = odd_table();
            let (answer, bytes) = call(own, &mut table, &telegram, room);
            kinds[match answer {
                Answer::Sent(_) => 0,
                Answer::NotMine => 13,
                Answer::Refused(number) => usize::from(number),
            }] += 1;

            if let Answer::Sent(_) = answer {
                // What is sent has a good header in the same form, and names the same.
                let (before, body) = header::read(header::STATION, &telegram).expect("good");
                let (after, reply) = header::read(header::STATION, &bytes).expect("good");
                assert_eq!(before.block[0], own);
                assert_eq!(before.extended, after.extended);
                assert_eq!(before.block.len(), after.block.len());
                if before.function == after.function {
                    assert_eq!(before.control, after.control);
                    assert_eq!(body, reply);
                    assert_eq!(table, odd_table());
                } else {
                    assert_eq!(after.function, Function::Reply);
                    assert_eq!(after.control, 0xFF);
                    assert_eq!(body[..3], reply[..3]);
                    assert_eq!(reply.len(), 3 + 2 * usize::from(body[2]));
                    assert_eq!(before.block[1], 0x00);
                }
            }
        }
        assert!(kinds.iter().all(|&seen| seen > 0), "{kinds:?}");
    }
}
