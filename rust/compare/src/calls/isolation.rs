//! The dry run in pairs of nets that differ in the registers of others than the destination.
//!
//! The claim is about any telegram and addresses, two tables of equal length, and two outputs of
//! equal length. If the destination has the same registers in both nets, both dry runs have the same
//! answer and, where they are played, the same result and the same first places of the output; and
//! the destination has the same registers afterwards. Where they are refused outright, where the
//! block names nobody, and where the destination is not in the net, all registers may differ. Every
//! implementation is judged by the claim, the reference too.

use super::dry_run::{fresh, missing, DryRun, Take, TRANSMISSIONS};
use crate::answer::{kind, refused, NOT_ALIKE};
use crate::call::{Arguments, Call, Compare, Kind, Outcome, Stop};
use crate::inputs::telegrams::{block_of, first_entry, is_extended, REPLY, REQUEST};
use crate::inputs::{every_telegram, Random};
use crate::lent::{Field, Lent};
use hanraquin::{REGISTERS, TELEGRAM};
use reference::header::{self, named, NOBODY};
use reference::refusal::BAD_SETUP;
use reference::registers::ROWS;
use std::ops::{Range, RangeInclusive};

/// A dry run in one net, and what the same one is lent in another net.
#[derive(Clone, PartialEq, Debug)]
pub struct Pair {
    run: DryRun,
    tables: Lent<u16>,
    out: Lent<u8>,
    result: Lent<u32>,
}

impl Arguments for Pair {
    type Function = <DryRun as Arguments>::Function;

    const LIBRARY: Self::Function = DryRun::LIBRARY;

    fn call(&mut self, function: Self::Function) -> u64 {
        self.judge(function)
    }

    fn fields(&mut self) -> Vec<(&'static str, &mut dyn Field)> {
        let mut fields = self.run.fields();
        fields.push(("tables of the other net", &mut self.tables));
        fields.push(("out of the other net", &mut self.out));
        fields.push(("result of the other net", &mut self.result));
        fields
    }
}

/// The station that the 00s follow around the ring of a block, if it names one.
fn destination(block: &[u8]) -> Option<u8> {
    let next = block.iter().cycle().skip(1);
    block.iter().zip(next).find(|&(&entry, &next)| entry != NOBODY && next == NOBODY).map(|(&entry, _)| entry)
}

/// The places of the registers that a dry run may tell of, which are those of the destination. There
/// are none where it is refused outright, where the block names nobody, and where the destination is
/// not in the net.
fn told(run: &DryRun) -> Range<usize> {
    let place = || {
        let (header, _) = header::read(header::STATION, &run.telegram).ok()?;
        let destination = destination(&header.block).filter(|_| run.is_set_up())?;
        run.addresses.iter().position(|&address| address == destination)
    };
    place().map_or(0..0, |place| REGISTERS * place..REGISTERS * (place + 1))
}

impl Pair {
    fn new(run: DryRun, other: DryRun) -> Pair {
        Pair { run, tables: other.tables, out: other.out, result: other.result }
    }

    /// The dry run in the other net.
    fn other(&self) -> DryRun {
        let (tables, out, result) = (self.tables.clone(), self.out.clone(), self.result.clone());
        DryRun { tables, out, result, ..self.run.clone() }
    }

    /// Whether the claim is about this pair.
    fn is_claimed(&self) -> bool {
        let lengths = [self.run.tables.len(), self.run.out.len(), self.run.result.len()];
        lengths == [self.tables.len(), self.out.len(), self.result.len()] && self.is_same_at_destination()
    }

    /// Plays in both nets, and gives both answers.
    fn play(&mut self, function: impl Fn(&[u8], &[u8], &mut [u16], &mut [u8], &mut [u32]) -> u64) -> [u64; 2] {
        let DryRun { telegram, addresses, tables, out, result } = &mut self.run;
        let answer = function(telegram, addresses, tables, out, result);
        [answer, function(telegram, addresses, &mut self.tables, &mut self.out, &mut self.result)]
    }

    /// Whether both dry runs came to the same, with these answers.
    fn is_alike(&self, [answer, other]: [u64; 2]) -> bool {
        let results = || self.run.result[..] == self.result[..];
        let outputs = || self.run.out.get(..TELEGRAM) == self.out.get(..TELEGRAM);
        answer == other && (kind(answer) != 0 || results() && outputs())
    }

    /// Whether the destination has the same registers in both nets.
    fn is_same_at_destination(&self) -> bool {
        let told = told(&self.run);
        self.run.tables[told.clone()] == self.tables[told]
    }

    /// Plays in both nets, and gives the answer of both if they are alike. A pair that the claim is
    /// not about is set up wrongly, and is not played.
    fn judge(&mut self, function: impl Fn(&[u8], &[u8], &mut [u16], &mut [u8], &mut [u32]) -> u64) -> u64 {
        if !self.is_claimed() {
            return refused(BAD_SETUP);
        }
        let answers = self.play(function);
        if self.is_alike(answers) && self.is_same_at_destination() {
            answers[0]
        } else {
            NOT_ALIKE
        }
    }

    /// Whether there are registers, and all of them differ.
    fn all_differ(&self) -> bool {
        !self.tables.is_empty() && self.run.tables.iter().zip(&*self.tables).all(|(one, other)| one != other)
    }

    /// Whether the telegram has this function and form.
    fn is(&self, function: u8, extended: bool) -> bool {
        self.run.telegram.first() == Some(&function) && is_extended(&self.run.telegram) == extended
    }

    /// Whether the block begins with a station.
    fn begins_with_station(&self) -> bool {
        first_entry(&self.run.telegram) != NOBODY
    }

    /// Whether the block begins with a station, and ends with 00.
    fn is_fresh(&self) -> bool {
        self.begins_with_station() && block_of(&self.run.telegram).ends_with(&[NOBODY])
    }
}

/// Whether the journeys ended so.
fn ended(outcome: &Outcome<Pair>, ending: u32) -> bool {
    outcome.is_done() && outcome.after.run.result[1] == ending
}

impl Call for Pair {
    const NAME: &'static str = "dry_run in pairs of nets";
    const PLAIN: Self::Function = DryRun::PLAIN;
    const REFERENCE: Self::Function = DryRun::REFERENCE;
    const KINDS: &'static [Kind<Pair>] = &[
        ("ended at 00, nobody named, all registers differ", |p, o| {
            ended(o, 0) && p.all_differ() && named(block_of(&p.run.telegram)).is_empty()
        }),
        ("ended at 00, destination not in the net, all registers differ", |p, o| ended(o, 0) && p.all_differ()),
        ("ended at 00, a fresh request, standard", |p, o| ended(o, 0) && p.is(REQUEST, false) && p.is_fresh()),
        ("ended at 00, a fresh request, extended", |p, o| ended(o, 0) && p.is(REQUEST, true) && p.is_fresh()),
        ("ended at 00, a request on its way, standard", |p, o| {
            ended(o, 0) && p.is(REQUEST, false) && p.begins_with_station()
        }),
        ("ended at 00, a request on its way, extended", |p, o| {
            ended(o, 0) && p.is(REQUEST, true) && p.begins_with_station()
        }),
        ("ended at 00, a request that begins with it, standard", |p, o| ended(o, 0) && p.is(REQUEST, false)),
        ("ended at 00, a request that begins with it, extended", |p, o| ended(o, 0) && p.is(REQUEST, true)),
        ("ended at 00, a reply on its way, standard", |p, o| {
            ended(o, 0) && p.is(REPLY, false) && p.begins_with_station()
        }),
        ("ended at 00, a reply on its way, extended", |p, o| {
            ended(o, 0) && p.is(REPLY, true) && p.begins_with_station()
        }),
        ("ended at 00, a reply that begins with it, standard", |p, o| ended(o, 0) && p.is(REPLY, false)),
        ("ended at 00, a reply that begins with it, extended", |p, o| ended(o, 0) && p.is(REPLY, true)),
        ("ended at nobody, destination not in the net, all registers differ", |p, o| ended(o, 1) && p.all_differ()),
        ("ended at nobody, a request, relay not in the net", |p, o| {
            ended(o, 1) && p.run.telegram.first() == Some(&REQUEST) && !told(&p.run).is_empty()
        }),
        ("ended at nobody, a reply, relay not in the net", |p, o| ended(o, 1) && !told(&p.run).is_empty()),
        ("ended with refusal 7", |_, o| ended(o, 7)),
        ("ended with refusal 8", |_, o| ended(o, 8)),
        ("ended with refusal 9", |_, o| ended(o, 9)),
        ("ended with refusal 10", |_, o| ended(o, 10)),
        ("refused 1, all registers differ", |p, o| o.refused(1) && p.all_differ()),
        ("refused 2, all registers differ", |p, o| o.refused(2) && p.all_differ()),
        ("refused 3, all registers differ", |p, o| o.refused(3) && p.all_differ()),
        ("refused 4, all registers differ", |p, o| o.refused(4) && p.all_differ()),
        ("refused 5, all registers differ", |p, o| o.refused(5) && p.all_differ()),
        ("refused 6, all registers differ", |p, o| o.refused(6) && p.all_differ()),
        ("refused 11, all registers differ", |p, o| o.refused(11) && p.all_differ()),
        ("refused 12, all registers differ", |p, o| o.refused(12) && p.all_differ()),
        ("ended at nobody or refused, no registers", |_, o| ended(o, 1) || (1..=12).contains(&kind(o.answer))),
    ];
    const NUMBERS: RangeInclusive<usize> = 1..=TRANSMISSIONS;

    /// The transmissions of the journeys.
    fn number(&self, outcome: &Outcome<Pair>) -> Option<usize> {
        outcome.is_done().then_some(outcome.value())
    }

    /// Both dry runs smaller in the same way, or with 0 in the registers that are the same in both.
    fn smaller(&self) -> Vec<Pair> {
        let both = self.run.smaller().into_iter().zip(self.other().smaller());
        let mut pairs: Vec<Pair> = both.map(|(run, other)| Pair::new(run, other)).collect();
        let (told, mut zeros) = (told(&self.run), self.clone());
        zeros.run.tables[told.clone()].fill(0);
        zeros.tables[told].fill(0);
        if zeros != *self {
            pairs.push(zeros);
        }
        pairs
    }

    fn generate(random: &mut Random, compare: &mut Compare<Pair>) -> Result<(), Stop> {
        let take: &mut Take = &mut |random, run| compare(&random.pair(run)).map(drop);
        missing(random, take)?;
        fresh(random, take)?;
        // One in 16 of the telegrams of all kinds.
        every_telegram::generate(random, 1, &mut |random, telegram| match random.once_in(16) {
            true => {
                let run = random.run(telegram);
                take(random, run)
            }
            false => Ok(()),
        })?;
        for _ in 0..2_000 {
            let run = random.odd_run();
            take(random, run)?;
        }
        Ok(())
    }
}

impl Random {
    /// A dry run in its net and in another one, in which every register differs that may, and with
    /// another output at every place.
    fn pair(&mut self, run: DryRun) -> Pair {
        let (told, mut tables) = (told(&run), run.tables.clone());
        for (place, value) in tables.iter_mut().enumerate().filter(|(place, _)| !told.contains(place)) {
            *value = self.other_value(place, *value);
        }
        let (out, result) = (Lent::other_output(run.out.len()), Lent::other_output(run.result.len()));
        Pair { run, tables, out, result }
    }

    /// Another value for the register at a place of the tables, often one that it takes.
    fn other_value(&mut self, place: usize, value: u16) -> u16 {
        let other = match self.below(4) {
            0 => value ^ 1 << self.below(16),
            1 => self.word(),
            _ => self.good_value(ROWS[place % REGISTERS]),
        };
        if other == value {
            value ^ 1
        } else {
            other
        }
    }
}

#[cfg(test)]
mod tests {
    use super::*;
    use crate::answer::done;
    use crate::calls::dry_run::run;
    use crate::driver::{found, found_in_all};
    use crate::inputs::telegrams::{body, telegram};
    use reference::net;
    use reference::registers::{factory, place};
    use reference::station::{handle, Answer};

    /// Has every pair of a seed seen, until one is to be the last.
    fn all_pairs(mut is_last: impl FnMut(&Pair) -> bool) {
        let end = Pair::generate(&mut Random::new(3964), &mut |pair| match is_last(pair) {
            true => Err(Stop::TimeOver),
            false => Ok(Outcome { answer: 0, after: pair.clone() }),
        });
        assert!(matches!(end, Ok(()) | Err(Stop::TimeOver)));
    }

    /// A request to 55 over 12 and 13, which reads 955 and 956, in two nets of new stations.
    fn example() -> Pair {
        let request = telegram(REQUEST, false, &[0x12, 0x13, 0x55, 0x00], &body((955, 2), 300, &[1]));
        let run = run(request, vec![0x13, 0x55, 0x12], [factory(); 3].concat());
        Pair::new(run.clone(), run)
    }

    #[test]
    fn the_station_before_the_00s() {
        for block in [[0x12, 0x13, 0x55, 0x00], [0x13, 0x55, 0x00, 0x12], [0x00, 0x12, 0x13, 0x55], [0, 0x55, 0, 0]] {
            assert_eq!(destination(&block), Some(0x55));
        }
        assert_eq!(destination(&[0; 4]), None);
    }

    #[test]
    fn all_differs_that_may() {
        let mut pairs = 0;
        all_pairs(|pair| {
            assert!(pair.is_claimed(), "{}", pair.text());
            let told = told(&pair.run);
            for (place, (one, other)) in pair.run.tables.iter().zip(&*pair.tables).enumerate() {
                assert_eq!(one == other, told.contains(&place), "{}", pair.text());
            }
            assert!(pair.run.out.iter().zip(&*pair.out).all(|(one, other)| one != other));
            pairs += 1;
            false
        });
        assert!(pairs > 5_000, "{pairs}");
    }

    #[test]
    fn the_destination_has_to_be_the_same() {
        let read = [955, 956].map(|number| REGISTERS + place(number).expect("a register"));
        for place in 0..3 * REGISTERS {
            let mut pair = example();
            pair.tables[place] ^= 1;
            assert_eq!(pair.is_claimed(), !(REGISTERS..2 * REGISTERS).contains(&place));
            for function in [Pair::LIBRARY, Pair::PLAIN, Pair::REFERENCE] {
                let mut pair = pair.clone();
                let answers = pair.play(function);
                assert_eq!(answers, [done(6); 2]);
                assert_eq!(pair.is_alike(answers), !read.contains(&place));
            }
        }
    }

    #[test]
    fn places_behind_the_first_may_differ() {
        let mut pair = example();
        pair.run.out = Lent::output(TELEGRAM + 100);
        pair.out = Lent::other_output(TELEGRAM + 100);
        for function in [Pair::LIBRARY, Pair::PLAIN, Pair::REFERENCE] {
            let Outcome { answer, after } = pair.outcome(function, 0xC7);
            assert_eq!(answer, done(6));
            assert_eq!(after.run.out[..TELEGRAM], after.out[..TELEGRAM]);
            assert_eq!(after.run.out[TELEGRAM..], pair.run.out[TELEGRAM..]);
            assert_eq!(after.out[TELEGRAM..], pair.out[TELEGRAM..]);
            assert!((TELEGRAM..TELEGRAM + 100).all(|place| after.run.out[place] != after.out[place]));
        }
    }

    /// Where the value of a register gets to. With 0 nothing is changed there.
    #[derive(Clone, Copy, PartialEq, Debug)]
    enum Way {
        /// In the last byte of the body.
        Body,
        /// In the control byte.
        Control,
        /// In the number of a refusal.
        Refusal,
        /// In the count of transmissions.
        Count,
        /// Behind the last telegram.
        Behind,
        /// In a register of the destination.
        Table,
    }

    const WAYS: [Way; 6] = [Way::Body, Way::Control, Way::Refusal, Way::Count, Way::Behind, Way::Table];

    /// What leaks from a relay when it is called.
    #[derive(Clone, Copy, Debug)]
    struct Leak {
        /// The function of the telegram that it is called with.
        function: u8,
        /// The number of that transmission.
        hop: usize,
        /// The place of the register.
        place: usize,
        /// The one value that leaks, if not any.
        only: Option<u16>,
        way: Way,
    }

    /// A dry run that hands the telegram from station to station of the reference, with a leak.
    fn leaking(
        leak: Leak,
        telegram: &[u8],
        addresses: &[u8],
        tables: &mut [u16],
        out: &mut [u8],
        result: &mut [u32],
    ) -> u64 {
        let (mut held, mut before, mut numbers) = (tables.to_vec(), out.to_vec(), result.to_vec());
        let answer = Pair::REFERENCE(telegram, addresses, &mut held, &mut before, &mut numbers);
        if kind(answer) != 0 {
            return answer;
        }
        let (mut last, mut count, mut more, mut behind) = (telegram.to_vec(), 1, 0, 0);
        let ending = loop {
            let (header, body) = header::read(header::STATION, &last).expect("a header");
            let own = header.block[0];
            let Some(station) = addresses.iter().position(|&address| address == own) else {
                break u16::from(own != NOBODY);
            };
            let (table, mut sent) = (&mut tables[REGISTERS * station..][..REGISTERS], vec![0; TELEGRAM]);
            match handle(own, table, &last, &mut sent) {
                Answer::Sent(length) => sent.truncate(length),
                Answer::Refused(number) => break number.into(),
                Answer::NotMine => unreachable!("the first entry is its own"),
            }
            let (to, value) = (destination(&header.block), table[leak.place]);
            let is_called = to != Some(own) && (leak.function, leak.hop) == (last[0], count);
            if is_called && leak.only.is_none_or(|only| only == value) {
                match (leak.way, sent.last_mut()) {
                    (Way::Body, Some(byte)) if !body.is_empty() => *byte ^= value as u8,
                    (Way::Control, _) => sent[1] ^= value as u8,
                    (Way::Refusal, _) if value % 4 != 0 => break 6 + value % 4,
                    (Way::Count, _) => more = usize::from(value % 2),
                    (Way::Behind, _) => behind = value as u8,
                    (Way::Table, _) => {
                        if let Some(station) = addresses.iter().position(|&address| Some(address) == to) {
                            tables[REGISTERS * station + leak.place] ^= value;
                        }
                    }
                    _ => {}
                }
            }
            (last, count) = (sent, count + 1);
        };
        out[..TELEGRAM].fill(0);
        out[..last.len()].copy_from_slice(&last);
        if let Some(place) = out[..TELEGRAM].get_mut(last.len()) {
            *place = behind;
        }
        result.copy_from_slice(&[(count + more) as u32, ending.into(), last.len() as u32]);
        done(count + more)
    }

    #[test]
    fn leaks_at_every_hop_are_found() {
        // A relay is called with one of the first 30 transmissions on the way out, and with one of
        // the first 61 on the way back.
        let hops = (1..=30).map(|hop| (REQUEST, hop)).chain((1..=61).map(|hop| (REPLY, hop)));
        let leak = |function, hop, way| Leak { function, hop, place: hop % REGISTERS, only: None, way };
        let mut left: Vec<Leak> = hops.flat_map(|(f, hop)| WAYS.map(|way| leak(f, hop, way))).collect();
        assert_eq!(left.len(), 6 * 91);
        all_pairs(|pair| {
            let DryRun { telegram, addresses, tables, .. } = &pair.run;
            let journey = net::journey(telegram, addresses, &mut tables.to_vec());
            let called = journey.map_or(Vec::new(), |journey| journey.telegrams);
            left.retain(|&leak| {
                let is_called = called.get(leak.hop - 1).is_some_and(|telegram| telegram[0] == leak.function);
                let judge = |t: &[u8], a: &[u8], tables: &mut [u16], out: &mut [u8], result: &mut [u32]| {
                    leaking(leak, t, a, tables, out, result)
                };
                !is_called || pair.clone().judge(judge) != NOT_ALIKE
            });
            left.is_empty()
        });
        assert!(left.is_empty(), "{left:?}");
    }

    /// Leaks that are tried one by one.
    const LEAKS: [Leak; 8] = [
        Leak { function: REQUEST, hop: 1, place: 0, only: None, way: Way::Body },
        Leak { function: REPLY, hop: 3, place: 9, only: None, way: Way::Body },
        Leak { function: REPLY, hop: 5, place: 17, only: None, way: Way::Control },
        Leak { function: REQUEST, hop: 2, place: 8, only: None, way: Way::Refusal },
        Leak { function: REPLY, hop: 1, place: 5, only: None, way: Way::Count },
        Leak { function: REPLY, hop: 4, place: 12, only: None, way: Way::Behind },
        Leak { function: REPLY, hop: 2, place: 3, only: None, way: Way::Table },
        // Only if register 300 is 1.
        Leak { function: REQUEST, hop: 1, place: 1, only: Some(1), way: Way::Behind },
    ];

    /// One of these as an implementation.
    fn leak<const N: usize>(t: &[u8], a: &[u8], tables: &mut [u16], out: &mut [u8], result: &mut [u32]) -> u64 {
        leaking(LEAKS[N], t, a, tables, out, result)
    }

    #[test]
    fn mistakes_are_found() {
        type Function = <Pair as Arguments>::Function;
        let leaks: [Function; LEAKS.len()] =
            [leak::<0>, leak::<1>, leak::<2>, leak::<3>, leak::<4>, leak::<5>, leak::<6>, leak::<7>];
        for (leak, wrong) in LEAKS.into_iter().zip(leaks) {
            // One register of a relay differs, also where all implementations have the same leak.
            for smallest in [found::<Pair>("the answer: not alike", wrong), found_in_all::<Pair>("not alike", wrong)] {
                let places = 0..smallest.tables.len();
                let differ: Vec<usize> = places.filter(|&i| smallest.run.tables[i] != smallest.tables[i]).collect();
                assert_eq!(differ.len(), 1, "{}", smallest.text());
                assert_eq!(differ[0] % REGISTERS, leak.place);
            }
        }
    }

    #[test]
    fn mistakes_without_a_relay_are_found() {
        // What the output held stays behind the last telegram.
        found_in_all::<Pair>("not alike", |telegram, addresses, tables, out, result| {
            let held = out.to_vec();
            let answer = Pair::REFERENCE(telegram, addresses, tables, out, result);
            if kind(answer) == 0 {
                let length = result[2] as usize;
                out[length..].copy_from_slice(&held[length..]);
            }
            answer
        });
        // The number of a refusal is another one where the first register of the net is odd.
        found_in_all::<Pair>("not alike", |telegram, addresses, tables, out, result| {
            let odd = tables.first().is_some_and(|value| value % 2 == 1);
            match Pair::REFERENCE(telegram, addresses, tables, out, result) {
                answer if answer == refused(5) && odd => refused(6),
                answer => answer,
            }
        });
        // The first register of a net is told where the block names nobody.
        found_in_all::<Pair>("not alike", |telegram, addresses, tables, out, result| {
            let answer = Pair::REFERENCE(telegram, addresses, tables, out, result);
            if let (0, Some(&value)) = (kind(answer), tables.first()) {
                if named(block_of(telegram)).is_empty() {
                    out[TELEGRAM - 1] = value as u8;
                }
            }
            answer
        });
        // The next station of the list answers for the destination.
        found_in_all::<Pair>("not alike", |telegram, addresses, tables, out, result| {
            let (first, rest) = tables.split_at(REGISTERS.min(tables.len()));
            Pair::REFERENCE(telegram, addresses, &mut [rest, first].concat(), out, result)
        });
    }
}
