//! A net: the journey of a telegram from station to station.
//!
//! The public functions are total: no argument makes them panic.

use crate::header::{self, MAX_TELEGRAM, NOBODY};
use crate::refusal::{Refusal, BAD_SETUP, OUTPUT_TOO_SHORT, TOO_LONG};
use crate::registers::COUNT;
use crate::station::{self, Answer};

/// Most stations in one net.
pub const MAX_STATIONS: usize = 64;

/// Why a journey goes no further.
#[derive(Clone, Copy, PartialEq, Eq, Debug)]
pub enum Ending {
    /// The last block begins with an entry that names no station.
    EmptyEntry,
    /// The last block begins with an address that is not in the net.
    UnknownAddress,
    /// The station that was to handle the last telegram refused it with this number.
    Refused(Refusal),
}

/// What a dry run gives back.
#[derive(Clone, Copy, PartialEq, Eq, Debug)]
pub struct DryRun {
    /// How many telegrams went over the air, counting the given one.
    pub count: usize,
    /// Why no more followed.
    pub ending: Ending,
    /// Length of the last telegram, which lies at the start of the output.
    pub length: usize,
}

/// Everything that went over the air in one journey.
#[derive(Clone, PartialEq, Eq, Debug)]
pub struct Journey {
    /// The given telegram, and then those that stations sent; at least one.
    pub telegrams: Vec<Vec<u8>>,
    /// Why no more followed.
    pub ending: Ending,
}

impl Journey {
    /// The telegram at which the journey ended.
    fn last(&self) -> &[u8] {
        &self.telegrams[self.telegrams.len() - 1]
    }
}

/// Plays the journey of a telegram and writes its last telegram to the start of `out`.
///
/// The registers of station `i` of `addresses` are the `i`th [`COUNT`] values of `tables`. What
/// the last telegram leaves free of the first [`MAX_TELEGRAM`] places of `out` becomes 0.
/// On a refusal `tables` and `out` are untouched.
pub fn dry_run(
    telegram: &[u8],
    addresses: &[u8],
    tables: &mut [u16],
    out: &mut [u8],
) -> Result<DryRun, Refusal> {
    check(telegram, addresses, tables, out.len())?;
    let journey = play(telegram, addresses, tables);

    // No telegram is longer than MAX_TELEGRAM, and no shorter output passes the check.
    let last = journey.last();
    out[..MAX_TELEGRAM].fill(0);
    out[..last.len()].copy_from_slice(last);

    Ok(DryRun {
        count: journey.telegrams.len(),
        ending: journey.ending,
        length: last.len(),
    })
}

/// Plays the same journey, and gives all of its telegrams instead of writing one.
///
/// There is no output that could be too short.
pub fn journey(telegram: &[u8], addresses: &[u8], tables: &mut [u16]) -> Result<Journey, Refusal> {
    check(telegram, addresses, tables, MAX_TELEGRAM)?;
    Ok(play(telegram, addresses, tables))
}

/// Looks for a reason not to play at all, with an output of `room` bytes.
fn check(telegram: &[u8], addresses: &[u8], tables: &[u16], room: usize) -> Result<(), Refusal> {
    if !is_good_net(addresses, tables.len()) {
        return Err(BAD_SETUP);
    }
    if telegram.len() > MAX_TELEGRAM {
        return Err(TOO_LONG);
    }
    if room < MAX_TELEGRAM {
        return Err(OUTPUT_TOO_SHORT);
    }
    header::read(header::STATION, telegram)?;
    Ok(())
}

/// Whether stations with these addresses and so many registers in all make up a net.
fn is_good_net(addresses: &[u8], registers: usize) -> bool {
    // Judged before the multiplication below, which could overflow with more.
    if addresses.len() > MAX_STATIONS {
        return false;
    }
    let in_range = addresses.iter().all(|&address| header::is_address(address));
    let repeated = (0..addresses.len()).any(|i| addresses[..i].contains(&addresses[i]));

    in_range && !repeated && registers == COUNT * addresses.len()
}

/// Plays the journey of a telegram in a good net.
fn play(telegram: &[u8], addresses: &[u8], tables: &mut [u16]) -> Journey {
    let most = most(telegram);
    let mut telegrams = vec![];
    let mut last = telegram.to_vec();
    loop {
        let next = hop(&last, addresses, tables);
        telegrams.push(last);
        // Only an ending stops the loop; no limit takes the place of one.
        debug_assert!(telegrams.len() <= most, "more than {most} transmissions");
        match next {
            Ok(next) => last = next,
            Err(ending) => return Journey { telegrams, ending },
        }
    }
}

/// The telegram that follows this one in a good net, or the reason why none does.
fn hop(telegram: &[u8], addresses: &[u8], tables: &mut [u16]) -> Result<Vec<u8>, Ending> {
    // A fault of the header makes every station refuse.
    let (header, _) = header::read(header::STATION, telegram).map_err(Ending::Refused)?;

    let first = header.block[0];
    if first == NOBODY {
        return Err(Ending::EmptyEntry);
    }
    let mut stations = addresses.iter().zip(tables.chunks_exact_mut(COUNT));
    let Some((&own, registers)) = stations.find(|(&address, _)| address == first) else {
        return Err(Ending::UnknownAddress);
    };

    let mut sent = vec![0; MAX_TELEGRAM];
    match station::handle(own, registers, telegram, &mut sent) {
        Answer::Sent(length) => {
            sent.truncate(length);
            Ok(sent)
        }
        Answer::Refused(number) => Err(Ending::Refused(number)),
        Answer::NotMine => unreachable!("the first entry is the station's own"),
    }
}

/// A number of transmissions that the journey of this telegram never exceeds.
fn most(telegram: &[u8]) -> usize {
    match header::read(header::STATION, telegram) {
        Ok((header, _)) => (2 * header::named(&header.block).len()).max(1),
        Err(_) => 1,
    }
}

#[cfg(test)]
mod tests {
    use super::*;
    use crate::header::Function;
    use crate::registers::{factory, time};
    use crate::samples::{body, long, short, Random, IDLE};

    const FILL: u8 = 0xA5;

    /// Tables without two equal values, none of which a setting may be given.
    fn odd_tables(stations: usize) -> Vec<u16> {
        (0xC000..).take(COUNT * stations).collect()
    }

    /// So many different addresses, neither sorted nor without gaps; 64 at most.
    fn scattered(stations: usize) -> Vec<u8> {
        (0..stations)
            .map(|i| (i * 27 % 64 * 3 + 49) as u8)
            .collect()
    }

    /// Makes a dry run with an output of `room` bytes and checks what is left in there.
    /// The last telegram is given back with the answer.
    fn dry(
        telegram: &[u8],
        addresses: &[u8],
        tables: &mut [u16],
        room: usize,
    ) -> Result<(DryRun, Vec<u8>), u8> {
        let before = tables.to_vec();
        let mut out = vec![FILL; room];
        match dry_run(telegram, addresses, tables, &mut out) {
            Ok(run) => {
                assert!(out[1024..].iter().all(|&b| b == FILL));
                assert!(out[run.length..1024].iter().all(|&b| b == 0));
                out.truncate(run.length);
                Ok((run, out))
            }
            Err(number) => {
                assert!(
                    out.iter().all(|&b| b == FILL),
                    "{number} and output changed"
                );
                assert_eq!(tables, before, "{number} and a register changed");
                Err(number)
            }
        }
    }

    /// The journey of a telegram which must not be refused. Dry runs with outputs of
    /// several lengths must give the same.
    fn played(telegram: &[u8], addresses: &[u8], tables: &mut [u16]) -> Journey {
        let before = tables.to_vec();
        let journey = journey(telegram, addresses, tables).expect("a journey");
        assert_eq!(journey.telegrams[0], telegram);
        let expected = DryRun {
            count: journey.telegrams.len(),
            ending: journey.ending,
            length: journey.last().len(),
        };
        for room in [1024, 1025, 1500] {
            let mut again = before.clone();
            let (run, last) = dry(telegram, addresses, &mut again, room).expect("a dry run");
            assert_eq!(run, expected);
            assert_eq!(last, journey.last());
            assert_eq!(again, tables);
        }
        journey
    }

    /// The number with which a call is refused, if it is; more room must not matter.
    fn refusal(telegram: &[u8], addresses: &[u8], length: usize) -> Option<u8> {
        let tables: Vec<u16> = (0..=u16::MAX).cycle().take(length).collect();
        let number = dry(telegram, addresses, &mut tables.clone(), 1024).err();
        let more = dry(telegram, addresses, &mut tables.clone(), 2000).err();
        assert_eq!(number, more);
        let mut kept = tables.clone();
        assert_eq!(journey(telegram, addresses, &mut kept).err(), number);
        if number.is_some() {
            assert_eq!(kept, tables);
        }
        number
    }

    // Journeys by the rule

    /// A telegram of which the whole journey can be told beforehand.
    #[derive(Clone, Debug)]
    struct Case {
        function: u8,
        control: u8,
        extended: bool,
        /// The stations around the ring, the one before the empty entries last.
        route: Vec<u8>,
        /// Entries of the block.
        n: usize,
        /// The entry of the ring that comes first.
        at: usize,
        /// What the destination refuses the body with, if it does.
        refused: Option<u8>,
    }

    impl Case {
        /// A request from the centre.
        fn fresh(route: &[u8], n: usize, extended: bool) -> Case {
            Case {
                function: 0x60,
                control: 0xFF,
                extended,
                route: route.to_vec(),
                n,
                at: 0,
                refused: None,
            }
        }

        /// A body that is refused as the case wants it. A good one writes 955 and 956
        /// and reads from 955 to 957.
        fn body(&self) -> Vec<u8> {
            match self.refused {
                None => body((955, 3), 955, &[0x0102, 59]),
                Some(7) => [&IDLE[..], &[0]].concat(),
                Some(8) => body((953, 2), 0, &[]),
                Some(9) => body((955, 3), 936, &[0]),
                Some(10) => body((955, 3), 953, &[26]),
                Some(number) => panic!("{number} is not a destination's"),
            }
        }

        /// A telegram of this form that begins with the given entry of the ring.
        fn telegram(&self, function: u8, control: u8, at: usize, body: &[u8]) -> Vec<u8> {
            let mut block = self.route.clone();
            block.resize(self.n, 0x00);
            block.rotate_left(at);
            let mut telegram = if self.extended {
                let home = function == 0xE0 && block[0] == 0x00;
                long(function, if home { 0x00 } else { 0xEF }, &block, body)
            } else {
                short(function, block.try_into().expect("four entries"), body)
            };
            telegram[1] = control;
            telegram
        }

        fn first(&self) -> Vec<u8> {
            self.telegram(self.function, self.control, self.at, &self.body())
        }

        /// Every transmission, the ending, and the tables that were odd before.
        fn expected(&self, addresses: &[u8]) -> (Journey, Vec<u16>) {
            let mut tables = odd_tables(addresses.len());
            let mut telegrams = vec![self.first()];
            let ending = self.outward(addresses, &mut tables, &mut telegrams);
            (Journey { telegrams, ending }, tables)
        }

        /// From the first telegram on.
        fn outward(
            &self,
            addresses: &[u8],
            tables: &mut [u16],
            telegrams: &mut Vec<Vec<u8>>,
        ) -> Ending {
            let m = self.route.len();
            if self.at >= m {
                return Ending::EmptyEntry;
            }
            if self.function == 0xE0 {
                return self.backward(addresses, self.at, self.control, &self.body(), telegrams);
            }
            // The relays.
            for place in self.at..m - 1 {
                if !addresses.contains(&self.route[place]) {
                    return Ending::UnknownAddress;
                }
                telegrams.push(self.telegram(0x60, self.control, place + 1, &self.body()));
            }
            // The destination.
            let Some(index) = addresses.iter().position(|&a| a == self.route[m - 1]) else {
                return Ending::UnknownAddress;
            };
            if let Some(number) = self.refused {
                return Ending::Refused(number);
            }
            tables[COUNT * index + 10] = 0x0102;
            tables[COUNT * index + 11] = 59;
            let [high, low] = tables[COUNT * index + 12].to_be_bytes();
            let reply = [0x03, 0xBB, 3, 0x01, 0x02, 0, 59, high, low];
            let next = if m == 1 { self.n - 1 } else { m - 2 };
            telegrams.push(self.telegram(0xE0, 0xFF, next, &reply));
            if m == 1 {
                return Ending::EmptyEntry;
            }
            self.backward(addresses, next, 0xFF, &reply, telegrams)
        }

        /// From a reply on that begins with the station at the given place.
        fn backward(
            &self,
            addresses: &[u8],
            from: usize,
            control: u8,
            body: &[u8],
            telegrams: &mut Vec<Vec<u8>>,
        ) -> Ending {
            for place in (0..=from).rev() {
                if !addresses.contains(&self.route[place]) {
                    return Ending::UnknownAddress;
                }
                let next = if place == 0 { self.n - 1 } else { place - 1 };
                telegrams.push(self.telegram(0xE0, control, next, body));
            }
            Ending::EmptyEntry
        }

        /// Plays the case in this net, compares all of it, and gives it back.
        fn check(&self, addresses: &[u8]) -> Journey {
            let mut tables = odd_tables(addresses.len());
            let journey = played(&self.first(), addresses, &mut tables);
            let expected = self.expected(addresses);
            assert_eq!((&journey, &tables), (&expected.0, &expected.1), "{self:?}");
            journey
        }
    }

    #[test]
    fn example_over_two_relays() {
        let telegram = [
            0x60, 0xFF, 0x12, 0x13, 0x55, 0x00, 0x03, 0xBB, 0x01, 0x01, 0x2C, 0x01, 0x00, 0x01,
        ];
        let mut tables = [factory(); 3].concat();
        let journey = played(&telegram, &[0x12, 0x13, 0x55], &mut tables);
        assert_eq!(
            journey.telegrams[1..3],
            [
                [0x60, 0xFF, 0x13, 0x55, 0x00, 0x12, 0x03, 0xBB, 0x01, 0x01, 0x2C, 0x01, 0, 1],
                [0x60, 0xFF, 0x55, 0x00, 0x12, 0x13, 0x03, 0xBB, 0x01, 0x01, 0x2C, 0x01, 0, 1],
            ]
        );
        assert_eq!(
            journey.telegrams[3..],
            [
                [0xE0, 0xFF, 0x13, 0x55, 0x00, 0x12, 0x03, 0xBB, 0x01, 0x00, 0x00],
                [0xE0, 0xFF, 0x12, 0x13, 0x55, 0x00, 0x03, 0xBB, 0x01, 0x00, 0x00],
                [0xE0, 0xFF, 0x00, 0x12, 0x13, 0x55, 0x03, 0xBB, 0x01, 0x00, 0x00],
            ]
        );
        let mut expected = [factory(); 3];
        expected[2][1] = 1;
        assert_eq!(tables, expected.concat());

        let mut tables = [factory(); 3].concat();
        let (run, last) = dry(&telegram, &[0x12, 0x13, 0x55], &mut tables, 1024).expect("a run");
        assert_eq!(
            run,
            DryRun {
                count: 6,
                ending: Ending::EmptyEntry,
                length: 11,
            }
        );
        assert_eq!(
            last,
            [0xE0, 0xFF, 0x00, 0x12, 0x13, 0x55, 0x03, 0xBB, 0x01, 0x00, 0x00]
        );
        assert_eq!(tables, expected.concat());
    }

    #[test]
    fn example_over_one_relay() {
        let telegram = short(0x60, [0x12, 0x55, 0x00, 0x00], &IDLE);
        let mut tables = odd_tables(3);
        let journey = played(&telegram, &[0x12, 0x13, 0x55], &mut tables);
        assert_eq!(
            journey,
            Journey {
                telegrams: vec![
                    telegram,
                    short(0x60, [0x55, 0x00, 0x00, 0x12], &IDLE),
                    short(0xE0, [0x12, 0x55, 0x00, 0x00], &[0, 0, 0]),
                    short(0xE0, [0x00, 0x12, 0x55, 0x00], &[0, 0, 0]),
                ],
                ending: Ending::EmptyEntry,
            }
        );
        assert_eq!(tables, odd_tables(3));
    }

    #[test]
    fn without_a_relay() {
        let telegram = short(0x60, [0x55, 0x00, 0x00, 0x00], &body((952, 2), 300, &[3]));
        let mut tables = odd_tables(3);
        let journey = played(&telegram, &[0x12, 0x55, 0x13], &mut tables);
        // The values of 952 and 953, at places 8 and 9 of the second table.
        let low = COUNT as u8 + 8;
        assert_eq!(
            journey,
            Journey {
                telegrams: vec![
                    telegram,
                    short(
                        0xE0,
                        [0x00, 0x55, 0x00, 0x00],
                        &[0x03, 0xB8, 2, 0xC0, low, 0xC0, low + 1]
                    ),
                ],
                ending: Ending::EmptyEntry,
            }
        );
        let mut expected = odd_tables(3);
        expected[COUNT + 1] = 3;
        assert_eq!(tables, expected);
    }

    #[test]
    fn extended_route_of_five() {
        let route = [0x12, 0xF0, 0x01, 0xEF, 0x55];
        let mut tables = odd_tables(5);
        let telegram = long(
            0x60,
            0xEF,
            &[0x12, 0xF0, 0x01, 0xEF, 0x55, 0x00],
            &body((953, 1), 953, &[25]),
        );
        let addresses = [0xEF, 0x55, 0x01, 0x12, 0xF0];
        let journey = played(&telegram, &addresses, &mut tables);
        assert_eq!(journey.ending, Ending::EmptyEntry);
        assert_eq!(journey.telegrams.len(), 10);
        assert_eq!(
            journey.telegrams[5],
            long(
                0xE0,
                0xEF,
                &[0xEF, 0x55, 0x00, 0x12, 0xF0, 0x01],
                &[0x03, 0xB9, 1, 0, 25]
            )
        );
        assert_eq!(
            journey.telegrams[8],
            long(
                0xE0,
                0xEF,
                &[0x12, 0xF0, 0x01, 0xEF, 0x55, 0x00],
                &[0x03, 0xB9, 1, 0, 25]
            )
        );
        assert_eq!(
            journey.last(),
            long(
                0xE0,
                0x00,
                &[0x00, 0x12, 0xF0, 0x01, 0xEF, 0x55],
                &[0x03, 0xB9, 1, 0, 25]
            )
        );
        let mut expected = odd_tables(5);
        expected[COUNT + 9] = 25;
        assert_eq!(tables, expected);

        // The same route in the longest block.
        let journey = Case::fresh(&route, 32, true).check(&addresses);
        assert_eq!(journey.telegrams.len(), 10);
    }

    #[test]
    fn extended_routes_in_nets_of_every_size() {
        for size in 5..=64 {
            let addresses = scattered(size);
            // Some stations are not on the route, and may lie before and behind it.
            let five: Vec<u8> = (0..5)
                .map(|i| addresses[size - 1 - i * (size / 5)])
                .collect();
            let journey = Case::fresh(&five, 6, true).check(&addresses);
            assert_eq!(journey.telegrams.len(), 10);
            if size >= 31 {
                let mut most = addresses[size - 31..].to_vec();
                most.reverse();
                let journey = Case::fresh(&most, 32, true).check(&addresses);
                assert_eq!(journey.telegrams.len(), 62);
                assert_eq!(journey.ending, Ending::EmptyEntry);
            }
        }
    }

    #[test]
    fn twice_as_many_transmissions_as_stations() {
        let addresses = scattered(64);
        for m in 1..=3 {
            let journey = Case::fresh(&addresses[9..9 + m], 4, false).check(&addresses);
            assert_eq!(journey.telegrams.len(), 2 * m);
        }
        for n in 2..=32 {
            for m in 1..n {
                let journey = Case::fresh(&addresses[20..20 + m], n, true).check(&addresses);
                assert_eq!(journey.telegrams.len(), 2 * m);
                assert_eq!(journey.ending, Ending::EmptyEntry);
            }
        }
    }

    /// Some blocks with room for `m` stations: how many entries, and whether extended.
    fn forms(m: usize) -> impl Iterator<Item = (usize, bool)> {
        let standard = (m <= 3).then_some((4, false));
        let lengths = (2..=6).chain([31, 32]).filter(move |&n| n > m);
        standard.into_iter().chain(lengths.map(|n| (n, true)))
    }

    #[test]
    fn every_rotation() {
        let addresses = scattered(40);
        for m in [0, 1, 2, 3, 4, 5, 12, 30, 31] {
            for (n, extended) in forms(m) {
                for at in 0..n {
                    for function in [0x60, 0xE0] {
                        let case = Case {
                            function,
                            control: 0x77,
                            at,
                            ..Case::fresh(&addresses[3..3 + m], n, extended)
                        };
                        let journey = case.check(&addresses);
                        let count = match (at < m, function) {
                            (true, 0x60) => m - at + m,
                            (true, _) => at + 2,
                            (false, _) => 1,
                        };
                        assert_eq!(journey.telegrams.len(), count, "{case:?}");
                        assert_eq!(journey.ending, Ending::EmptyEntry);
                    }
                }
            }
        }
    }

    #[test]
    fn rotations_of_the_example() {
        let addresses = [0x12, 0x13, 0x55];
        let block = [0x12, 0x13, 0x55, 0x00];
        let write = body((955, 1), 300, &[1]);
        // How long the journey is, and what 300 of station 55 is afterwards.
        let requests = [(6, 1), (5, 1), (4, 1), (1, 0)];
        let replies = [(2, 0), (3, 0), (4, 0), (1, 0)];
        for (function, outcomes) in [(0x60, requests), (0xE0, replies)] {
            for (by, (count, value)) in outcomes.into_iter().enumerate() {
                let mut block = block;
                block.rotate_left(by);
                let telegram = short(function, block, &write);
                let mut tables = [factory(); 3].concat();
                let journey = played(&telegram, &addresses, &mut tables);
                assert_eq!(journey.telegrams.len(), count);
                assert_eq!(journey.ending, Ending::EmptyEntry);
                let mut expected = [factory(); 3];
                expected[2][1] = value;
                assert_eq!(tables, expected.concat());
            }
        }
    }

    // Endings

    #[test]
    fn blocks_that_name_nobody() {
        for addresses in [vec![], vec![0x12], scattered(64)] {
            for function in [0x60, 0xE0] {
                let mark = if function == 0x60 { 0xEF } else { 0x00 };
                // Whatever the body is like.
                for body in [&[][..], &[0xFF], &IDLE, &body((2, 1), 300, &[1])] {
                    let mut telegrams = vec![short(function, [0x00; 4], body)];
                    for n in 2..=32 {
                        telegrams.push(long(function, mark, &vec![0x00; n], body));
                    }
                    for telegram in telegrams {
                        let mut tables = odd_tables(addresses.len());
                        let journey = played(&telegram, &addresses, &mut tables);
                        assert_eq!(journey.telegrams, [telegram]);
                        assert_eq!(journey.ending, Ending::EmptyEntry);
                        assert_eq!(tables, odd_tables(addresses.len()));
                    }
                }
            }
        }
    }

    #[test]
    fn empty_first_entry() {
        let write = body((2, 1), 300, &[1]);
        for telegram in [
            short(0x60, [0x00, 0x12, 0x13, 0x55], &write),
            short(0x60, [0x00, 0x00, 0x00, 0x55], &write),
            short(0x60, [0x00, 0x55, 0x00, 0x00], &write),
            short(0xE0, [0x00, 0x12, 0x13, 0x55], &write),
            short(0xE0, [0x00, 0x55, 0x00, 0x00], &[]),
            long(0x60, 0xEF, &[0x00, 0x55], &write),
            long(0xE0, 0x00, &[0x00, 0x55], &write),
            long(0xE0, 0x00, &[0x00, 0x12, 0x13, 0x55, 0x00], &[0xFF]),
        ] {
            let mut tables = odd_tables(3);
            let journey = played(&telegram, &[0x12, 0x13, 0x55], &mut tables);
            assert_eq!(journey.telegrams, [telegram]);
            assert_eq!(journey.ending, Ending::EmptyEntry);
            assert_eq!(tables, odd_tables(3));
        }
    }

    #[test]
    fn unknown_first_address() {
        let write = body((2, 1), 300, &[1]);
        for telegram in [
            short(0x60, [0x14, 0x13, 0x55, 0x00], &write),
            short(0x60, [0x14, 0x00, 0x12, 0x13], &write),
            short(0xE0, [0x14, 0x13, 0x55, 0x00], &write),
            long(0x60, 0xEF, &[0x14, 0x00], &write),
            long(0xE0, 0xEF, &[0xF0, 0x00, 0x12], &write),
            // EF is an address like others.
            short(0x60, [0xEF, 0x00, 0x00, 0x00], &write),
            long(0xE0, 0xEF, &[0xEF, 0x00], &write),
        ] {
            let mut tables = odd_tables(3);
            let journey = played(&telegram, &[0x12, 0x13, 0x55], &mut tables);
            assert_eq!(journey.telegrams, [telegram]);
            assert_eq!(journey.ending, Ending::UnknownAddress);
            assert_eq!(tables, odd_tables(3));
        }
    }

    #[test]
    fn unknown_address_on_the_way_out() {
        let write = body((955, 1), 300, &[1]);
        for (addresses, count, block) in [
            ([0x13, 0x55], 1, [0x12, 0x13, 0x55, 0x00]),
            ([0x12, 0x55], 2, [0x13, 0x55, 0x00, 0x12]),
            ([0x12, 0x13], 3, [0x55, 0x00, 0x12, 0x13]),
        ] {
            let mut tables = odd_tables(2);
            let telegram = short(0x60, [0x12, 0x13, 0x55, 0x00], &write);
            let journey = played(&telegram, &addresses, &mut tables);
            assert_eq!(journey.telegrams.len(), count);
            assert_eq!(journey.ending, Ending::UnknownAddress);
            assert_eq!(journey.last(), short(0x60, block, &write));
            assert_eq!(tables, odd_tables(2));
        }
    }

    #[test]
    fn unknown_address_on_the_way_back() {
        // The request starts behind the missing station, so it gets to its destination.
        let write = body((300, 1), 300, &[1]);
        let telegram = short(0x60, [0x13, 0x55, 0x00, 0x12], &write);
        let mut tables = odd_tables(2);
        let journey = played(&telegram, &[0x55, 0x13], &mut tables);
        assert_eq!(journey.telegrams.len(), 4);
        assert_eq!(journey.ending, Ending::UnknownAddress);
        assert_eq!(
            journey.last(),
            short(0xE0, [0x12, 0x13, 0x55, 0x00], &[0x01, 0x2C, 1, 0, 1])
        );
        let mut expected = odd_tables(2);
        expected[1] = 1;
        assert_eq!(tables, expected);

        // A reply from somewhere.
        let telegram = short(0xE0, [0x55, 0x00, 0x12, 0x13], &write);
        let mut tables = odd_tables(2);
        let journey = played(&telegram, &[0x55, 0x13], &mut tables);
        assert_eq!(journey.telegrams.len(), 3);
        assert_eq!(journey.ending, Ending::UnknownAddress);
        assert_eq!(
            journey.last(),
            short(0xE0, [0x12, 0x13, 0x55, 0x00], &write)
        );
        assert_eq!(tables, odd_tables(2));
    }

    #[test]
    fn every_set_of_missing_stations() {
        let route = [0x34, 0x12, 0xEF, 0x13, 0x55];
        for m in 1..=5 {
            for present in 0..1 << m {
                let mut addresses: Vec<u8> = (0..m)
                    .filter(|i| present & (1 << i) != 0)
                    .map(|i| route[i])
                    .collect();
                // One that is not on the route.
                addresses.insert(addresses.len() / 2, 0x99);
                for (n, extended) in forms(m).filter(|&(n, _)| n < 10) {
                    for at in 0..n {
                        for function in [0x60, 0xE0] {
                            Case {
                                function,
                                at,
                                ..Case::fresh(&route[..m], n, extended)
                            }
                            .check(&addresses);
                        }
                    }
                }
            }
        }
    }

    #[test]
    fn destination_refuses() {
        let addresses = [0x12, 0x13, 0x55];
        for (number, body) in [
            (7, vec![]),
            (7, vec![0; 5]),
            (7, vec![0; 7]),
            (7, vec![0xFF; 1018]),
            (8, body((953, 2), 0, &[])),
            (8, body((2, 1), 301, &[1])),
            (9, body((2, 1), 2, &[1])),
            (10, body((2, 1), 953, &[26])),
            (10, body((2, 1), 955, &[time(8, 75)])),
            (10, body((2, 1), 955, &[0, 0, time(23, 60)])),
        ] {
            // Called third, second and at once.
            for (block, count) in [
                ([0x12, 0x13, 0x55, 0x00], 3),
                ([0x13, 0x55, 0x00, 0x12], 2),
                ([0x55, 0x00, 0x12, 0x13], 1),
            ] {
                let mut telegram = short(0x60, block, &body);
                telegram[1] = 0x41;
                let mut refused = short(0x60, [0x55, 0x00, 0x12, 0x13], &body);
                refused[1] = 0x41;
                let mut tables = odd_tables(3);
                let journey = played(&telegram, &addresses, &mut tables);
                assert_eq!(journey.telegrams.len(), count);
                assert_eq!(journey.ending, Ending::Refused(number));
                assert_eq!(journey.last(), refused);
                assert_eq!(tables, odd_tables(3));
            }
        }
    }

    #[test]
    fn destination_refuses_in_every_form() {
        let addresses = scattered(64);
        for refused in [7, 8, 9, 10] {
            for m in [1, 2, 3, 4, 5, 31] {
                for (n, extended) in forms(m) {
                    let case = Case {
                        refused: Some(refused),
                        ..Case::fresh(&addresses[33..33 + m], n, extended)
                    };
                    let journey = case.check(&addresses);
                    assert_eq!(journey.telegrams.len(), m);
                    assert_eq!(journey.ending, Ending::Refused(refused));

                    // A reply with the same body gets home.
                    let case = Case {
                        function: 0xE0,
                        at: m - 1,
                        ..case
                    };
                    let journey = case.check(&addresses);
                    assert_eq!(journey.telegrams.len(), m + 1);
                    assert_eq!(journey.ending, Ending::EmptyEntry);
                }
            }
        }
    }

    #[test]
    fn missing_destination_cannot_refuse() {
        for refused in [7, 8, 9, 10] {
            let case = Case {
                refused: Some(refused),
                ..Case::fresh(&[0x12, 0x13, 0x55], 4, false)
            };
            let journey = case.check(&[0x12, 0x13]);
            assert_eq!(journey.telegrams.len(), 3);
            assert_eq!(journey.ending, Ending::UnknownAddress);
        }
    }

    // Tables and output

    #[test]
    fn tables_belong_to_addresses_by_place() {
        let mut addresses = [0x12, 0x13, 0x55, 0xF0, 0x01];
        for _ in 0..addresses.len() {
            addresses.rotate_left(1);
            for destination in addresses {
                let case = Case::fresh(&[destination], 4, false);
                let journey = case.check(&addresses);
                assert_eq!(journey.telegrams.len(), 2);
            }
        }
    }

    #[test]
    fn values_stay_for_the_next_call() {
        let addresses = [0x13, 0x55, 0x12];
        let mut tables = [factory(); 3].concat();
        let mut expected = [factory(); 3];
        let mut out = [FILL; 1024];
        let mut run = |block: [u8; 4], body: &[u8], tables: &mut [u16]| {
            let run = dry_run(&short(0x60, block, body), &addresses, tables, &mut out);
            let run = run.expect("a dry run");
            (run.ending, out[6..run.length].to_vec())
        };

        let write = body((300, 1), 300, &[2]);
        let (ending, reply) = run([0x12, 0x13, 0x55, 0x00], &write, &mut tables);
        assert_eq!(ending, Ending::EmptyEntry);
        assert_eq!(reply, [0x01, 0x2C, 1, 0, 2]);
        expected[1][1] = 2;
        assert_eq!(tables, expected.concat());

        // What one journey wrote, another one reads, along another way.
        let read = body((300, 1), 0, &[]);
        let (_, reply) = run([0x13, 0x55, 0x00, 0x00], &read, &mut tables);
        assert_eq!(reply, [0x01, 0x2C, 1, 0, 2]);
        assert_eq!(tables, expected.concat());

        // A relay of one journey is the destination of the next.
        let write = body((952, 2), 952, &[1440, 25]);
        let (_, reply) = run([0x55, 0x13, 0x00, 0x00], &write, &mut tables);
        assert_eq!(reply, [0x03, 0xB8, 2, 0x05, 0xA0, 0, 25]);
        expected[0][8] = 1440;
        expected[0][9] = 25;
        assert_eq!(tables, expected.concat());

        // A refused request leaves all of it.
        let write = body((300, 1), 952, &[1, 26]);
        let (ending, _) = run([0x55, 0x13, 0x00, 0x00], &write, &mut tables);
        assert_eq!(ending, Ending::Refused(10));
        assert_eq!(tables, expected.concat());

        let (_, reply) = run(
            [0x13, 0x55, 0x00, 0x00],
            &body((300, 1), 0, &[]),
            &mut tables,
        );
        assert_eq!(reply, [0x01, 0x2C, 1, 0, 2]);
        assert_eq!(tables, expected.concat());
    }

    #[test]
    fn values_in_the_tables_are_not_judged() {
        let mut tables = vec![0xFFFF; 3 * COUNT];
        let telegram = short(0x60, [0x12, 0x55, 0x00, 0x00], &body((955, 2), 300, &[0]));
        let journey = played(&telegram, &[0x12, 0x13, 0x55], &mut tables);
        assert_eq!(
            journey.last(),
            short(
                0xE0,
                [0x00, 0x12, 0x55, 0x00],
                &[0x03, 0xBB, 2, 0xFF, 0xFF, 0xFF, 0xFF]
            )
        );
        let mut expected = vec![0xFFFF; 3 * COUNT];
        expected[2 * COUNT + 1] = 0;
        assert_eq!(tables, expected);
    }

    #[test]
    fn output_after_a_longer_telegram() {
        // The reply is shorter than the request, and nothing of that shows behind it.
        let write = body((2, 0), 955, &[1, 2, 3, 4, 5, 6, 7, 1]);
        let telegram = short(0x60, [0x12, 0x55, 0x00, 0x00], &write);
        for room in [1024, 1025, 4000] {
            let mut out = vec![FILL; room];
            let mut tables = odd_tables(2);
            let run = dry_run(&telegram, &[0x12, 0x55], &mut tables, &mut out);
            assert_eq!(
                run,
                Ok(DryRun {
                    count: 4,
                    ending: Ending::EmptyEntry,
                    length: 9,
                })
            );
            let mut expected = short(0xE0, [0x00, 0x12, 0x55, 0x00], &[0, 2, 0]);
            expected.resize(1024, 0);
            expected.resize(room, FILL);
            assert_eq!(out, expected);
        }
    }

    #[test]
    fn longest_telegrams() {
        let addresses = [0x12, 0x13, 0x55];
        for (function, block, count, ending) in [
            (0x60, [0x12, 0x13, 0x55, 0x00], 3, Ending::Refused(7)),
            (0xE0, [0x55, 0x00, 0x12, 0x13], 4, Ending::EmptyEntry),
            (0xE0, [0x13, 0x14, 0x00, 0x15], 2, Ending::UnknownAddress),
            (0x60, [0x00, 0x12, 0x13, 0x55], 1, Ending::EmptyEntry),
            (0x60, [0x54, 0x12, 0x13, 0x00], 1, Ending::UnknownAddress),
        ] {
            for length in [1023, 1024] {
                let mut telegram = short(function, block, &[]);
                telegram.resize(length, 0x41);
                let mut tables = odd_tables(3);
                let journey = played(&telegram, &addresses, &mut tables);
                assert_eq!(journey.telegrams.len(), count);
                assert_eq!(journey.ending, ending);
                assert_eq!(journey.last().len(), length);
                assert_eq!(journey.last()[6..], telegram[6..]);
                assert_eq!(tables, odd_tables(3));
            }
        }
    }

    #[test]
    fn no_stations_at_all() {
        for body in [&[][..], &IDLE] {
            for (telegram, ending) in [
                (
                    short(0x60, [0x12, 0x00, 0x00, 0x00], body),
                    Ending::UnknownAddress,
                ),
                (
                    short(0xE0, [0x12, 0x00, 0x00, 0x00], body),
                    Ending::UnknownAddress,
                ),
                (
                    short(0x60, [0x00, 0x12, 0x00, 0x00], body),
                    Ending::EmptyEntry,
                ),
                (
                    short(0xE0, [0x00, 0x00, 0x00, 0x00], body),
                    Ending::EmptyEntry,
                ),
                (
                    long(0x60, 0xEF, &[0xF0, 0x00], body),
                    Ending::UnknownAddress,
                ),
                (long(0xE0, 0x00, &[0x00, 0xF0], body), Ending::EmptyEntry),
            ] {
                let journey = played(&telegram, &[], &mut []);
                assert_eq!(journey.telegrams, [telegram]);
                assert_eq!(journey.ending, ending);
            }
        }
        assert_eq!(refusal(&[], &[], 0), Some(2));
        assert_eq!(refusal(&[0x00; 6], &[], 0), Some(3));
        assert_eq!(refusal(&[0x60; 1025], &[], 0), Some(12));
        assert_eq!(refusal(&short(0x60, [0x12; 4], &IDLE), &[], 0), Some(5));
        assert_eq!(
            refusal(&short(0x60, [0x12, 0, 0, 0], &IDLE), &[], 1),
            Some(1)
        );
        assert_eq!(
            refusal(&short(0x60, [0x12, 0, 0, 0], &IDLE), &[], COUNT),
            Some(1)
        );
    }

    // Refused outright

    /// A telegram that can be played everywhere.
    fn fine() -> Vec<u8> {
        short(0x60, [0x12, 0x13, 0x55, 0x00], &IDLE)
    }

    #[test]
    fn numbers_of_stations() {
        for stations in 0..=240 {
            let addresses: Vec<u8> = (1..=240).take(stations).collect();
            let expected = (stations > 64).then_some(1);
            assert_eq!(refusal(&fine(), &addresses, COUNT * stations), expected);
            for length in [0, COUNT * 64, COUNT * 65] {
                if length != COUNT * stations {
                    assert_eq!(refusal(&fine(), &addresses, length), Some(1));
                }
            }
        }
        // Many more, with nothing else or everything wrong.
        let addresses: Vec<u8> = (1..=240).cycle().take(100_000).collect();
        assert_eq!(refusal(&fine(), &addresses, 0), Some(1));
        assert_eq!(refusal(&fine(), &addresses, 100_000 * COUNT), Some(1));
        assert_eq!(refusal(&[], &[0; 65], 65 * COUNT), Some(1));
    }

    #[test]
    fn range_of_addresses() {
        for address in 0..=u8::MAX {
            let expected = (!(1..=240).contains(&address)).then_some(1);
            assert_eq!(refusal(&fine(), &[address], COUNT), expected, "{address}");
            // At every place, and although nobody asks for it.
            for place in 0..64 {
                let mut addresses: Vec<u8> = (100..164).collect();
                if (100..164).contains(&address) {
                    continue;
                }
                addresses[place] = address;
                assert_eq!(refusal(&fine(), &addresses, 64 * COUNT), expected);
            }
        }
    }

    #[test]
    fn addresses_that_are_equal() {
        for i in 0..64 {
            for j in 0..i {
                let mut addresses = scattered(64);
                addresses[i] = addresses[j];
                assert_eq!(refusal(&fine(), &addresses, 64 * COUNT), Some(1));
            }
        }
        assert_eq!(refusal(&fine(), &[0x12, 0x12], 2 * COUNT), Some(1));
        assert_eq!(refusal(&fine(), &[0x12, 0x12], COUNT), Some(1));
        assert_eq!(refusal(&fine(), &[0x12, 0x13], 2 * COUNT), None);
        assert_eq!(refusal(&fine(), &scattered(64), 64 * COUNT), None);
    }

    #[test]
    fn lengths_of_tables() {
        for stations in 0..=64 {
            let addresses = scattered(stations);
            let right = COUNT * stations;
            assert_eq!(refusal(&fine(), &addresses, right), None);
            for wrong in [
                right + 1,
                right + COUNT - 1,
                right + COUNT,
                right + COUNT + 1,
                2 * right + 2 * COUNT,
            ] {
                assert_eq!(refusal(&fine(), &addresses, wrong), Some(1));
            }
            for less in [1, COUNT - 1, COUNT, COUNT + 1] {
                if less <= right {
                    assert_eq!(refusal(&fine(), &addresses, right - less), Some(1));
                }
            }
        }
        for length in 0..=100 {
            let expected = (length != 3 * COUNT).then_some(1);
            assert_eq!(refusal(&fine(), &[0x12, 0x13, 0x55], length), expected);
        }
    }

    #[test]
    fn lengths_of_output() {
        // It is measured by its limit and not by what the journey needs.
        for room in (0..=1026).chain([2000, 65536]) {
            let mut tables = [factory(); 3].concat();
            let answer = dry(&fine(), &[0x12, 0x13, 0x55], &mut tables, room);
            if room < 1024 {
                assert_eq!(answer, Err(11));
            } else {
                let (run, last) = answer.expect("a dry run");
                assert_eq!(run.count, 6);
                assert_eq!(last, short(0xE0, [0x00, 0x12, 0x13, 0x55], &[0; 3]));
            }
        }
        // Nothing was written before 11 is given.
        let write = short(0x60, [0x55, 0x00, 0x00, 0x00], &body((2, 1), 300, &[1]));
        let mut tables = factory();
        assert_eq!(dry(&write, &[0x55], &mut tables, 1023), Err(11));
        assert_eq!(tables, factory());
        assert!(dry(&write, &[0x55], &mut tables, 1024).is_ok());
        assert_eq!(tables[1], 1);
    }

    #[test]
    fn lengths_of_telegrams() {
        for function in [0x60, 0xE0] {
            for length in (0..=1030).chain([4096, 200_000]) {
                let mut telegram = short(function, [0x12, 0x13, 0x55, 0x00], &[]);
                telegram.resize(length, 0x41);
                let expected = match length {
                    0..=5 => Some(2),
                    6..=1024 => None,
                    _ => Some(12),
                };
                assert_eq!(refusal(&telegram, &[0x12, 0x13, 0x55], 3 * COUNT), expected);
                assert_eq!(refusal(&telegram, &[], 0), expected);
            }
        }
    }

    /// Telegrams with a fault of the header, and its number.
    fn faulty() -> Vec<(Vec<u8>, u8)> {
        let mut faulty = vec![
            (vec![], 2),
            (vec![0x60; 5], 2),
            (vec![0x60, 0xFF, 0xEF, 0xEF, 0xEF, 0xEF], 2),
            (vec![0xE0, 0xFF, 0x00, 0xEF, 0xEF, 0xEF], 2),
            (vec![0x60, 0xFF, 0xEF, 0xEF, 0xEF, 0xEF, 2, 0x12], 2),
            (vec![0x61, 0xFF, 0x12, 0x13, 0x55, 0x00], 3),
            (vec![0x00; 12], 3),
            (vec![0x60, 0xFF, 0xEF, 0xEF, 0xEF, 0xEF, 33], 4),
            (long(0x60, 0xEF, &[0x12], &IDLE), 4),
            (long(0x60, 0xEF, &[0x00; 33], &IDLE), 4),
            (long(0xE0, 0x00, &[], &IDLE), 4),
            (short(0x60, [0x00, 0xEF, 0xEF, 0xEF], &IDLE), 5),
            (short(0x60, [0x12, 0x13, 0xF1, 0x00], &IDLE), 5),
            (long(0x60, 0xEF, &[0x12, 0x13, 0x14, 0x55], &IDLE), 5),
            (long(0xE0, 0x00, &[0x12, 0x12, 0x00], &IDLE), 5),
            (long(0xE0, 0x00, &[0x12, 0x00], &IDLE), 6),
            (long(0xE0, 0xEF, &[0x00, 0x12], &IDLE), 6),
            (long(0xE0, 0xEF, &[0x00, 0x00], &IDLE), 6),
        ];
        for block in [
            [0x12, 0x13, 0x14, 0x15],
            [0x12, 0x12, 0x55, 0x00],
            [0x12, 0x00, 0x13, 0x00],
        ] {
            faulty.push((short(0x60, block, &IDLE), 5));
            faulty.push((short(0xE0, block, &IDLE), 5));
        }
        faulty
    }

    #[test]
    fn faults_of_the_header() {
        for (telegram, number) in faulty() {
            for addresses in [vec![], vec![0x12, 0x13, 0x55], vec![0xEF], scattered(64)] {
                let length = COUNT * addresses.len();
                assert_eq!(refusal(&telegram, &addresses, length), Some(number));
            }
        }
    }

    #[test]
    fn order_of_refusals() {
        // Addresses and registers, and whether these go together.
        let mut nets = vec![
            (vec![], 0, true),
            (vec![0x12, 0x13, 0x55], 3 * COUNT, true),
            (scattered(64), 64 * COUNT, true),
            (vec![], 1, false),
            (vec![0x12, 0x13, 0x55], 3 * COUNT - 1, false),
            (vec![0x12, 0x13, 0x55], 3 * COUNT + 1, false),
            (vec![0x12, 0x12, 0x55], 3 * COUNT, false),
            (vec![0x12, 0x00, 0x55], 3 * COUNT, false),
            (vec![0x12, 0x13, 0xF1], 3 * COUNT, false),
        ];
        nets.push(((1..=65).collect(), 65 * COUNT, false));

        // Telegrams with their own number; the long ones have a second fault mostly.
        let mut telegrams: Vec<(Vec<u8>, Option<u8>)> = vec![
            (fine(), None),
            (short(0x60, [0x00; 4], &IDLE), None),
            (short(0x60, [0x12, 0x00, 0x00, 0x00], &[]), None),
        ];
        for (telegram, number) in faulty() {
            let mut too_long = telegram.clone();
            too_long.resize(1025, 0x00);
            telegrams.push((telegram, Some(number)));
            telegrams.push((too_long, Some(12)));
        }

        for (addresses, length, good) in &nets {
            for (telegram, fault) in &telegrams {
                for room in [0, 1023, 1024, 1025] {
                    let mut tables = vec![7; *length];
                    let answer = dry(telegram, addresses, &mut tables, room);
                    let expected = if !good {
                        Some(1)
                    } else if *fault == Some(12) {
                        Some(12)
                    } else if room < 1024 {
                        Some(11)
                    } else {
                        *fault
                    };
                    assert_eq!(answer.err(), expected);

                    // Without an output 11 drops out.
                    let expected = if *good { *fault } else { Some(1) };
                    let answer = journey(telegram, addresses, &mut tables);
                    assert_eq!(answer.err(), expected);
                }
            }
        }
    }

    // What holds of every journey

    /// The station before the empty entries, the block seen as a ring.
    fn before_the_empty(block: &[u8]) -> Option<u8> {
        (0..block.len())
            .find(|&i| block[i] != 0x00 && block[(i + 1) % block.len()] == 0x00)
            .map(|i| block[i])
    }

    /// Plays a telegram and checks what must hold of every journey.
    fn check_any(telegram: &[u8], addresses: &[u8]) -> Result<Journey, u8> {
        let before = odd_tables(addresses.len());
        let mut tables = before.clone();
        let (header, _) = match header::read(header::STATION, telegram) {
            Ok(parts) => parts,
            Err(number) => {
                assert_eq!(dry(telegram, addresses, &mut tables, 1024), Err(number));
                return Err(number);
            }
        };
        let journey = journey(telegram, addresses, &mut tables).expect("a journey");
        let mut again = before.clone();
        let (run, last) = dry(telegram, addresses, &mut again, 1024).expect("a dry run");
        assert_eq!(run.count, journey.telegrams.len());
        assert_eq!(run.ending, journey.ending);
        assert_eq!(last, journey.last());
        assert_eq!(again, tables);

        // How many, by the stations that are named.
        let m = header.block.iter().filter(|&&entry| entry != 0x00).count();
        assert!(journey.telegrams.len() <= if m == 0 { 1 } else { 2 * m });
        let fresh = header.function == Function::Request
            && header.block[0] != 0x00
            && header.block.ends_with(&[0x00]);
        let all_there = header
            .block
            .iter()
            .all(|entry| *entry == 0x00 || addresses.contains(entry));
        if fresh && all_there && !matches!(journey.ending, Ending::Refused(_)) {
            assert_eq!(journey.telegrams.len(), 2 * m);
            assert_eq!(journey.ending, Ending::EmptyEntry);
        }

        // The ending, by the last telegram.
        let (end, _) = header::read(header::STATION, &last).expect("a header");
        match journey.ending {
            Ending::EmptyEntry => assert_eq!(end.block[0], 0x00),
            Ending::UnknownAddress => {
                assert_ne!(end.block[0], 0x00);
                assert!(!addresses.contains(&end.block[0]));
            }
            Ending::Refused(number) => {
                assert!((7..=10).contains(&number));
                assert_eq!(end.function, Function::Request);
                assert!(addresses.contains(&end.block[0]));
                assert_eq!(end.block[1], 0x00);
                assert_eq!(tables, before);
            }
        }

        // No other table changes.
        let destination = before_the_empty(&header.block);
        for (i, &address) in addresses.iter().enumerate() {
            if Some(address) != destination {
                let own = COUNT * i..COUNT * (i + 1);
                assert_eq!(tables[own.clone()], before[own]);
            }
        }

        // Every station hears every telegram; one of them sends the next.
        let mut heard = before;
        for (i, telegram) in journey.telegrams.iter().enumerate() {
            let mut sent = vec![];
            for (&own, table) in addresses.iter().zip(heard.chunks_exact_mut(COUNT)) {
                let mut out = [FILL; 1024];
                match station::handle(own, table, telegram, &mut out) {
                    Answer::Sent(length) => sent.push(out[..length].to_vec()),
                    Answer::NotMine => {}
                    Answer::Refused(number) => {
                        assert_eq!(journey.ending, Ending::Refused(number));
                        assert_eq!(i, journey.telegrams.len() - 1);
                    }
                }
            }
            let next = journey.telegrams.get(i + 1);
            assert_eq!(sent, next.cloned().into_iter().collect::<Vec<_>>());
        }
        assert_eq!(heard, tables);
        Ok(journey)
    }

    /// All sequences of so many of the given entries.
    fn sequences(entries: &[u8], length: usize) -> impl Iterator<Item = Vec<u8>> + '_ {
        (0..entries.len().pow(length as u32)).map(move |mut code| {
            (0..length)
                .map(|_| {
                    let entry = entries[code % entries.len()];
                    code /= entries.len();
                    entry
                })
                .collect()
        })
    }

    #[test]
    fn every_short_block_in_small_nets() {
        let bodies = [body((300, 1), 300, &[1]), body((300, 1), 300, &[4]), vec![]];
        let mut played = 0;
        for present in 0..8 {
            let addresses: Vec<u8> = [0x01, 0x02, 0xF0]
                .into_iter()
                .enumerate()
                .filter(|(i, _)| present & (1 << i) != 0)
                .map(|(_, address)| address)
                .collect();
            for block in sequences(&[0x00, 0x01, 0x02, 0xEF, 0xF0], 4) {
                for body in &bodies {
                    for function in [0x60, 0xE0] {
                        let telegram = [&[function, 0x41], &block[..], body].concat();
                        played += usize::from(check_any(&telegram, &addresses).is_ok());
                    }
                }
            }
        }
        // Blocks of 0 to 3 of 4 stations, each rolled in 4 ways but the one of nobody.
        assert_eq!(played, (1 + (4 + 12 + 24) * 4) * 8 * bodies.len() * 2);
    }

    #[test]
    fn every_small_extended_block_in_small_nets() {
        let body = body((300, 1), 300, &[1]);
        let mut played = 0;
        for present in 0..4 {
            let addresses: Vec<u8> = [0xEF, 0x01]
                .into_iter()
                .enumerate()
                .filter(|(i, _)| present & (1 << i) != 0)
                .map(|(_, address)| address)
                .collect();
            for n in 1..=5 {
                for block in sequences(&[0x00, 0x01, 0xEF], n) {
                    for function in [0x60, 0xE0] {
                        for mark in [0x00, 0xEF] {
                            let telegram = long(function, mark, &block, &body);
                            played += usize::from(check_any(&telegram, &addresses).is_ok());
                        }
                    }
                }
            }
        }
        // Each block has one good mark in each kind. Two entries or more can name nobody
        // in one way, one station in 2n ways, and from n = 3 on both in 2n ways.
        assert_eq!(played, (5 + 13 + 17 + 21) * 4 * 2);
    }

    /// A case in any form, and the addresses of a net.
    fn random_case(random: &mut Random) -> (Case, Vec<u8>) {
        let extended = random.below(3) != 0;
        let n = if extended { 2 + random.below(31) } else { 4 };
        let m = random.below(n);
        let mut everybody: Vec<u8> = (0x01..=0xF0).collect();
        random.shuffle(&mut everybody);
        let route = everybody[..m].to_vec();

        // The net has all of the route, or all but one, or nearly nothing of it.
        let strangers = random.below(64 - m + 1);
        let mut addresses = everybody[..m + strangers].to_vec();
        match random.below(4) {
            0 if m > 0 => {
                addresses.remove(random.below(m));
            }
            1 if m > 0 => {
                addresses.drain(1..m);
            }
            _ => {}
        }
        random.shuffle(&mut addresses);

        let case = Case {
            function: random.pick(&[0x60, 0x60, 0xE0]),
            control: random.next() as u8,
            extended,
            route,
            n,
            at: if random.below(2) == 0 {
                0
            } else {
                random.below(n)
            },
            refused: random.pick(&[None, None, None, Some(7), Some(8), Some(9), Some(10)]),
        };
        (case, addresses)
    }

    #[test]
    fn random_journeys_by_the_rule() {
        let mut random = Random(0x0064_0018);
        let mut endings = [0; 3];
        for _ in 0..4_000 {
            let (case, addresses) = random_case(&mut random);
            let journey = case.check(&addresses);
            endings[match journey.ending {
                Ending::EmptyEntry => 0,
                Ending::UnknownAddress => 1,
                Ending::Refused(_) => 2,
            }] += 1;
            assert!(journey.telegrams.len() <= (2 * case.route.len()).max(1));
        }
        assert!(endings.iter().all(|&seen| seen > 300), "{endings:?}");
    }

    /// Plays a telegram in two nets, in which all registers differ but those of one station.
    fn check_pair(random: &mut Random, telegram: &[u8], addresses: &[u8], station: Option<u8>) {
        let mut tables = odd_tables(addresses.len());
        let mut others = tables.clone();
        for (&own, table) in addresses.iter().zip(others.chunks_exact_mut(COUNT)) {
            if Some(own) != station {
                table.fill_with(|| random.next() as u16 & 0x3FFF);
            }
        }
        for room in [1023, 1024, 1500] {
            let run = dry(telegram, addresses, &mut tables.clone(), room);
            assert_eq!(run, dry(telegram, addresses, &mut others.clone(), room));
        }
        // All that goes over the air is the same.
        let course = journey(telegram, addresses, &mut tables);
        assert_eq!(course, journey(telegram, addresses, &mut others));
    }

    #[test]
    fn registers_of_others_do_not_matter() {
        let mut random = Random(0x0055_1213);
        for _ in 0..4_000 {
            // The destination is the last of the route, wherever the telegram is on its way.
            let (case, addresses) = random_case(&mut random);
            let destination = case.route.last().copied();
            check_pair(&mut random, &case.first(), &addresses, destination);
        }
        for (telegram, _) in faulty() {
            check_pair(&mut random, &telegram, &scattered(64), None);
        }
    }

    #[test]
    fn random_telegrams_in_random_nets() {
        let mut random = Random(0x0001_0240);
        let entries = [0x00, 0x00, 0x00, 0x01, 0x12, 0x13, 0x55, 0xEF, 0xF0, 0xF1];
        // The refusals, and after them those by stations and the other two endings.
        let mut kinds = [0; 26];
        for _ in 0..60_000 {
            let functions = [0x60, 0x60, 0x60, 0x60, 0xE0, 0xE0, 0x61];
            let telegram = random.telegram(&functions, &entries);

            let mut addresses = vec![0x01, 0x12, 0x13, 0x55, 0xEF, 0xF0, 0x99];
            random.shuffle(&mut addresses);
            addresses.truncate(2 + random.below(6));
            kinds[match check_any(&telegram, &addresses) {
                Err(number) => usize::from(number),
                Ok(journey) => match journey.ending {
                    Ending::Refused(number) => 13 + usize::from(number),
                    Ending::EmptyEntry => 24,
                    Ending::UnknownAddress => 25,
                },
            }] += 1;
        }
        let seen: Vec<usize> = (0..kinds.len()).filter(|&kind| kinds[kind] > 0).collect();
        assert_eq!(seen, [2, 3, 4, 5, 6, 12, 20, 21, 22, 23, 24, 25]);
    }

    #[test]
    fn bounds_of_the_loop() {
        assert_eq!(most(&fine()), 6);
        assert_eq!(most(&short(0x60, [0x00; 4], &[])), 1);
        assert_eq!(most(&short(0xE0, [0x00, 0x12, 0x00, 0x00], &[])), 2);
        assert_eq!(most(&[]), 1);
    }
}
