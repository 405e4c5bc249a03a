//! The dry run of a net.

use super::{MEGABYTE, MOST};
use crate::answer::{done, refused};
use crate::call::{arguments, Call, Compare, Kind, Outcome, Stop};
use crate::inputs::telegrams::{self, block_of, faulty_bodies, forms, telegram, REPLY, REQUEST};
use crate::inputs::{every_telegram, Random};
use crate::lent::Lent;
use crate::plain;
use hanraquin::{REGISTERS, ROUTE, STATIONS_MAX, TELEGRAM};
use reference::header::{is_address, named};
use reference::net::{self, Ending};
use reference::refusal::BAD_SETUP;
use std::ops::RangeInclusive;

arguments!(DryRun, hanraquin_dry_run {
    telegram: read u8,
    addresses: read u8,
    tables: write u16,
    out: write u8,
    result: write u32,
});

/// Places for the result.
const RESULT: usize = 3;

/// Most transmissions of a journey.
pub(super) const TRANSMISSIONS: usize = 62;

fn reference(telegram: &[u8], addresses: &[u8], tables: &mut [u16], out: &mut [u8], result: &mut [u32]) -> u64 {
    if result.len() != RESULT {
        return refused(BAD_SETUP);
    }
    match net::dry_run(telegram, addresses, tables, out) {
        Ok(run) => {
            let ending = match run.ending {
                Ending::EmptyEntry => 0,
                Ending::UnknownAddress => 1,
                Ending::Refused(number) => u32::from(number),
            };
            result.copy_from_slice(&[run.count as u32, ending, run.length as u32]);
            done(run.count)
        }
        Err(number) => refused(number),
    }
}

impl DryRun {
    /// Whether an address is out of range.
    fn has_bad_address(&self) -> bool {
        !self.addresses.iter().all(|&address| is_address(address))
    }

    /// Whether an address is there twice.
    fn has_address_twice(&self) -> bool {
        (0..self.addresses.len()).any(|i| self.addresses[..i].contains(&self.addresses[i]))
    }

    /// Whether neither 1 nor 11 applies: the net, the output and the result are as they have to be.
    pub(super) fn is_set_up(&self) -> bool {
        let net = self.addresses.len() <= STATIONS_MAX && !self.has_bad_address() && !self.has_address_twice();
        let tables = self.tables.len() == REGISTERS * self.addresses.len();
        net && tables && self.out.len() >= TELEGRAM && self.result.len() == RESULT
    }

    /// The dry run without a station and its table.
    fn without(&self, station: usize) -> DryRun {
        let mut run = self.clone();
        run.addresses.edit(|all| _ = all.remove(station));
        let table = REGISTERS * station..REGISTERS * (station + 1);
        run.tables.edit(|all| drop(all.drain(table)));
        run
    }
}

/// Whether a journey ended so, after so many transmissions.
fn ended(outcome: &Outcome<DryRun>, ending: u32, counts: RangeInclusive<usize>) -> bool {
    outcome.is_done() && outcome.after.result[1] == ending && counts.contains(&(outcome.after.result[0] as usize))
}

impl Call for DryRun {
    const NAME: &'static str = "dry_run";
    const PLAIN: Self::Function = plain::dry_run;
    const REFERENCE: Self::Function = reference;
    const KINDS: &'static [Kind<DryRun>] = &[
        ("ended at 00, 1 transmission", |_, o| ended(o, 0, 1..=1)),
        ("ended at 00, 2 to 31 transmissions", |_, o| ended(o, 0, 2..=31)),
        ("ended at 00, 32 to 61 transmissions", |_, o| ended(o, 0, 32..=61)),
        ("ended at 00, 62 transmissions", |_, o| ended(o, 0, 62..=62)),
        ("ended at nobody, 1 transmission", |_, o| ended(o, 1, 1..=1)),
        ("ended at nobody, 2 to 31 transmissions", |_, o| ended(o, 1, 2..=31)),
        ("ended at nobody, 32 to 60 transmissions", |_, o| ended(o, 1, 32..=60)),
        ("ended with refusal 7", |_, o| ended(o, 7, 1..=31)),
        ("ended with refusal 8", |_, o| ended(o, 8, 1..=31)),
        ("ended with refusal 9", |_, o| ended(o, 9, 1..=31)),
        ("ended with refusal 10", |_, o| ended(o, 10, 1..=31)),
        ("refused 1, places of the result", |run, o| o.refused(1) && run.result.len() != RESULT),
        ("refused 1, too many stations", |run, o| o.refused(1) && run.addresses.len() > STATIONS_MAX),
        ("refused 1, an address out of range", |run, o| o.refused(1) && run.has_bad_address()),
        ("refused 1, an address twice", |run, o| o.refused(1) && run.has_address_twice()),
        ("refused 1, tables", |_, o| o.refused(1)),
        ("refused 2", |_, o| o.refused(2)),
        ("refused 3", |_, o| o.refused(3)),
        ("refused 4", |_, o| o.refused(4)),
        ("refused 5", |_, o| o.refused(5)),
        ("refused 6", |_, o| o.refused(6)),
        ("refused 11", |_, o| o.refused(11)),
        ("refused 12", |_, o| o.refused(12)),
    ];
    const NUMBERS: RangeInclusive<usize> = 1..=TRANSMISSIONS;

    /// The transmissions of a journey.
    fn number(&self, outcome: &Outcome<DryRun>) -> Option<usize> {
        outcome.is_done().then_some(outcome.value())
    }

    /// With a smaller telegram, or without a station and its table.
    fn smaller(&self) -> Vec<DryRun> {
        let telegrams = telegrams::smaller(&self.telegram).into_iter();
        let with = |telegram: Vec<u8>| DryRun { telegram: telegram.into(), ..self.clone() };
        let stations = self.addresses.len().min(self.tables.len() / REGISTERS);
        telegrams.map(with).chain((0..stations).map(|station| self.without(station))).collect()
    }

    fn generate(random: &mut Random, compare: &mut Compare<DryRun>) -> Result<(), Stop> {
        every_telegram::generate(random, 2, &mut |random, telegram| compare(&random.run(telegram)).map(drop))?;
        let take: &mut Take = &mut |_, run| compare(&run).map(drop);
        fresh(random, take)?;
        missing(random, take)?;
        sizes(random, compare)?;
        long(random, compare)?;
        for _ in 0..12_000 {
            compare(&random.odd_run())?;
        }
        Ok(())
    }
}

/// A dry run with an output of the least length.
pub fn run(telegram: Vec<u8>, addresses: Vec<u8>, tables: Vec<u16>) -> DryRun {
    DryRun {
        telegram: telegram.into(),
        addresses: addresses.into(),
        tables: tables.into(),
        out: Lent::output(TELEGRAM),
        result: Lent::output(RESULT),
    }
}

impl Random {
    /// A net of these stations and of others, in any order, with values in all registers.
    pub fn net(&mut self, stations: &[u8]) -> (Vec<u8>, Vec<u16>) {
        let mut addresses = stations.to_vec();
        let free = STATIONS_MAX - addresses.len();
        let more = match self.below(16) {
            0 => free,
            1 => self.below(free + 1),
            _ => self.below(4).min(free),
        };
        addresses.extend(self.others(more, stations));
        self.shuffle(&mut addresses);
        let tables = self.tables(REGISTERS * addresses.len());
        (addresses, tables)
    }

    /// A dry run in a net that has the stations which a telegram names.
    pub(super) fn run(&mut self, telegram: Vec<u8>) -> DryRun {
        let mut stations = named(block_of(&telegram));
        stations.retain(|&station| is_address(station));
        stations.sort_unstable();
        stations.dedup();
        let (addresses, tables) = self.net(&stations);
        let out = Lent::output(self.pick(&[TELEGRAM, TELEGRAM, TELEGRAM + 1, MOST]));
        DryRun { out, ..run(telegram, addresses, tables) }
    }
}

/// Has a dry run compared.
pub(super) type Take<'a> = dyn FnMut(&mut Random, DryRun) -> Result<(), Stop> + 'a;

/// Requests over every number of stations in every form, fresh and one hop on, which make every
/// number of transmissions; more of them in the standard form, over the longest way, and with bodies
/// of all kinds.
pub(super) fn fresh(random: &mut Random, take: &mut Take) -> Result<(), Stop> {
    for ((extended, n), stations) in forms().flat_map(|form| (1..form.1).map(move |s| (form, s))) {
        for i in 0..if extended && stations < ROUTE { 3 } else { 60 } {
            let block = random.block(stations, n, i % 2);
            let body = if i < 2 { random.good_body() } else { random.some_body() };
            let run = random.run(telegram(REQUEST, extended, &block, &body));
            take(random, run)?;
        }
    }
    for body in faulty_bodies().iter().cycle().take(400) {
        let (extended, n) = random.some_form();
        let stations = 1 + random.below(n - 1);
        let block = random.block(stations, n, 0);
        let run = random.run(telegram(REQUEST, extended, &block, body));
        take(random, run)?;
    }
    Ok(())
}

/// One station missing, at each place of a route: in fresh requests, and in requests and
/// replies that begin anywhere, whose missing station may lie on the way back.
pub(super) fn missing(random: &mut Random, take: &mut Take) -> Result<(), Stop> {
    for (extended, n) in forms() {
        for stations in [n - 1, 1 + random.below(n - 1)] {
            let route = random.block(stations, n, 0);
            for place in 0..stations {
                let anywhere = random.below(n);
                for (function, by) in [(REQUEST, 0), (REQUEST, place + 1), (REQUEST, anywhere), (REPLY, anywhere)] {
                    let mut block = route.clone();
                    block.rotate_left(by);
                    let telegram = telegram(function, extended, &block, &random.good_body());
                    let mut run = random.run(telegram);
                    if let Some(lost) = run.addresses.iter().position(|&own| own == route[place]) {
                        run = run.without(lost);
                    }
                    take(random, run)?;
                }
            }
        }
    }
    Ok(())
}

/// Every number of stations and a few more than there may be, with tables of the right length
/// and of others; and every small number of places for the result, and of the output.
fn sizes(random: &mut Random, compare: &mut Compare<DryRun>) -> Result<(), Stop> {
    for stations in 0..=STATIONS_MAX + 6 {
        let right = REGISTERS * stations;
        let (less, fewer) = (right.saturating_sub(1), right.saturating_sub(REGISTERS));
        let others = [less, right + 1, fewer, right + REGISTERS, 0, random.below(1500)];
        for places in [right; 12].into_iter().chain(others) {
            let mut addresses = random.others(stations, &[]);
            let mut block = addresses[..random.below(stations.min(ROUTE) + 1)].to_vec();
            block.push(0);
            block.resize(block.len().max(2), 0);
            random.shuffle(&mut addresses);
            let telegram = telegram(REQUEST, true, &block, &random.some_body());
            compare(&run(telegram, addresses, random.tables(places)))?;
        }
    }
    for result in (0..=20).flat_map(|n| [n; 20]).chain([RESULT + 256, RESULT + MEGABYTE]) {
        let result = Lent::output(result);
        compare(&DryRun { result, ..random.odd_run() })?;
    }
    for places in (0..=1030).chain((1000..=1030).cycle().take(120)).chain([66_560, MEGABYTE]) {
        let out = Lent::output(places);
        compare(&DryRun { out, ..random.odd_run() })?;
    }
    Ok(())
}

impl Random {
    /// A dry run with none to two changes of its telegram, and as many of what is lent.
    pub(super) fn odd_run(&mut self) -> DryRun {
        let telegram = self.some_telegram();
        let mut run = self.run(telegram);
        for _ in 0..self.below(3) {
            run.telegram.edit(|telegram| self.change(telegram));
        }
        for _ in 0..self.below(3) {
            let stations = run.addresses.len();
            match self.below(8) {
                0 if stations > 0 => {
                    let (place, any) = (self.below(stations), self.byte());
                    run.addresses[place] = self.pick(&[0, 1, 240, 241, 255, any]);
                }
                1 if stations > 0 => run.addresses[self.below(stations)] = run.addresses[0],
                2 => run.tables.edit(|all| all.truncate(all.len().saturating_sub(1))),
                3 => run.tables.edit(|all| all.push(self.word())),
                4 => run.out = Lent::output(self.pick(&[0, TELEGRAM - 1])),
                5 if stations > 0 => {
                    let lost = self.below(stations);
                    run.addresses.edit(|all| _ = all.remove(lost));
                }
                _ => {}
            }
        }
        run
    }
}

/// Numbers of stations and of values that look right if they are cut down.
fn long(random: &mut Random, compare: &mut Compare<DryRun>) -> Result<(), Stop> {
    let cut_down = |stations: usize| [256, 65536, MEGABYTE].map(|more| (stations + more, stations));
    let nets = (0..=2).flat_map(cut_down).map(|(stations, tables)| (stations, REGISTERS * tables));
    let tables = [256, 65536, MEGABYTE].map(|more| (1, REGISTERS + more));
    for (stations, values) in nets.chain(tables).chain([(0, 65536), (255, 255 * REGISTERS)]) {
        let telegram = random.some_telegram();
        let mut addresses = random.others(240, &[]);
        addresses.resize(stations, 7);
        compare(&run(telegram, addresses, random.tables(values)))?;
    }
    Ok(())
}

#[cfg(test)]
mod tests {
    use super::*;
    use crate::answer::{kind, value};
    use crate::driver::found;

    #[test]
    fn mistakes_are_found() {
        // Nothing is cleared behind the last telegram.
        found::<DryRun>("out", |telegram, addresses, tables, out, result| {
            let held = out.to_vec();
            let answer = plain::dry_run(telegram, addresses, tables, out, result);
            if kind(answer) == 0 {
                let length = result[2] as usize;
                out[length..].copy_from_slice(&held[length..]);
            }
            answer
        });
        // A short output, or wrong tables, are judged in the wrong order with a telegram too long.
        found::<DryRun>("the answer", |telegram, addresses, tables, out, result| {
            let answer = plain::dry_run(telegram, addresses, tables, out, result);
            if kind(answer) == 12 && out.len() < TELEGRAM {
                refused(11)
            } else {
                answer
            }
        });
        found::<DryRun>("the answer", |telegram, addresses, tables, out, result| {
            let answer = plain::dry_run(telegram, addresses, tables, out, result);
            let tables = tables.len() != REGISTERS * addresses.len();
            if kind(answer) == 1 && tables && telegram.len() > TELEGRAM {
                refused(12)
            } else {
                answer
            }
        });
        // The transmission that a station refuses is not counted.
        let smallest = found::<DryRun>("the answer", |telegram, addresses, tables, out, result| {
            let answer = plain::dry_run(telegram, addresses, tables, out, result);
            if kind(answer) == 0 && result[1] > 1 {
                result[0] -= 1;
                return done(value(answer) - 1);
            }
            answer
        });
        // One station, whose table is there.
        assert_eq!(smallest.tables.len(), REGISTERS);
    }
}
