//! A station that handles a telegram.

use super::{MEGABYTE, MOST};
use crate::answer::{done, refused, KIND_NOT_MINE, NOT_MINE};
use crate::call::{arguments, Call, Compare, Kind, Outcome, Stop};
use crate::inputs::telegrams::{self, all_runs, body, ends, faulty_bodies, first_entry, is_extended};
use crate::inputs::telegrams::{row, telegram, writable_runs, FUNCTIONS, REPLY, REQUEST};
use crate::inputs::{every_telegram, Random};
use crate::lent::Lent;
use crate::plain;
use hanraquin::{FACTORY, REGISTERS};
use reference::header::is_address;
use reference::registers::ROWS;
use reference::station;

arguments!(Station, hanraquin_station {
    own: number u8,
    registers: write u16,
    telegram: read u8,
    out: write u8,
});

fn reference(own: u8, registers: &mut [u16], telegram: &[u8], out: &mut [u8]) -> u64 {
    match station::handle(own, registers, telegram, out) {
        station::Answer::Sent(length) => done(length),
        station::Answer::NotMine => NOT_MINE,
        station::Answer::Refused(number) => refused(number),
    }
}

impl Station {
    /// Whether a telegram of one function was sent on as one of another, in this form.
    fn sent(&self, outcome: &Outcome<Station>, functions: (u8, u8), extended: bool) -> bool {
        outcome.is_done()
            && functions == (self.telegram[0], outcome.after.out[0])
            && extended == is_extended(&self.telegram)
    }

    /// Whether nobody follows the station in a request.
    fn is_destination(&self) -> bool {
        let next = if is_extended(&self.telegram) { 8 } else { 3 };
        self.telegram[0] == REQUEST && self.telegram.get(next) == Some(&0)
    }
}

impl Call for Station {
    const NAME: &'static str = "station";
    const PLAIN: Self::Function = plain::station;
    const REFERENCE: Self::Function = reference;
    const KINDS: &'static [Kind<Station>] = &[
        ("sent as relay of a standard request", |s, o| s.sent(o, (REQUEST, REQUEST), false)),
        ("sent as relay of a standard reply", |s, o| s.sent(o, (REPLY, REPLY), false)),
        ("sent as destination, standard", |s, o| s.sent(o, (REQUEST, REPLY), false)),
        ("sent as relay of an extended request", |s, o| s.sent(o, (REQUEST, REQUEST), true)),
        ("sent as relay of an extended reply", |s, o| s.sent(o, (REPLY, REPLY), true)),
        ("sent as destination, extended", |s, o| s.sent(o, (REQUEST, REPLY), true)),
        ("not mine", |_, o| o.refused(KIND_NOT_MINE)),
        ("refused 1, address", |s, o| o.refused(1) && !is_address(s.own)),
        ("refused 1, table", |_, o| o.refused(1)),
        ("refused 2, under 6 bytes", |s, o| o.refused(2) && s.telegram.len() < 6),
        ("refused 2, under 7 bytes", |s, o| o.refused(2) && s.telegram.len() < 7),
        ("refused 2, entries missing", |_, o| o.refused(2)),
        ("refused 3", |_, o| o.refused(3)),
        ("refused 4, under 2", |s, o| o.refused(4) && s.telegram[6] < 2),
        ("refused 4, over 32", |_, o| o.refused(4)),
        ("refused 5, extended", |s, o| o.refused(5) && is_extended(&s.telegram)),
        ("refused 5, 00 EF EF EF", |s, o| o.refused(5) && s.telegram[2..6] == [0, 0xEF, 0xEF, 0xEF]),
        ("refused 5, standard", |_, o| o.refused(5)),
        ("refused 6, mark 00", |s, o| o.refused(6) && s.telegram[2] == 0),
        ("refused 6, mark EF", |_, o| o.refused(6)),
        ("refused 7", |_, o| o.refused(7)),
        ("refused 8", |_, o| o.refused(8)),
        ("refused 9", |_, o| o.refused(9)),
        ("refused 10, minute", |s, o| {
            o.refused(10) && matches!(s.telegram[..], [.., 0x03, 0xBB | 0xBD, 1, 0..=23, 60..=255])
        }),
        ("refused 10", |_, o| o.refused(10)),
        ("refused 11, destination", |s, o| o.refused(11) && s.is_destination()),
        ("refused 11, relay", |_, o| o.refused(11)),
        ("refused 12", |_, o| o.refused(12)),
    ];

    fn smaller(&self) -> Vec<Station> {
        let with = |telegram: Vec<u8>| Station { telegram: telegram.into(), ..self.clone() };
        telegrams::smaller(&self.telegram).into_iter().map(with).collect()
    }

    fn generate(random: &mut Random, compare: &mut Compare<Station>) -> Result<(), Stop> {
        // Tables with values of their own in every register, and one long life of a new station.
        for renewed in [true, false] {
            let mut life = Life { compare: &mut *compare, table: factory(), renewed };
            every_telegram::anything(random, 20_000, &mut |random, telegram| {
                let call = random.odd_call(telegram);
                life.call(random, call).map(drop)
            })?;
            for body in values(random) {
                life.call(random, direct(&body))?;
            }
        }
        let mut life = Life { compare, table: factory(), renewed: true };
        every_telegram::generate(random, 30, &mut |random, telegram| life.call(random, call(telegram)).map(drop))?;
        for body in bodies(random) {
            life.call(random, direct(&body))?;
        }
        for (body, room) in faulty_bodies().iter().flat_map(|b| [0, 8, 9, 24, 25].map(|r| (b, r))) {
            life.call(random, into(room, &direct(body)))?;
        }
        outputs(random, &mut life)?;
        setups(random, compare)
    }
}

/// The station of the calls that need no more than one.
const OWN: u8 = 0x55;

/// Most places of a table that is kept.
const TABLE: usize = REGISTERS + 2;

/// The registers of a new station, and what stands behind them.
fn factory() -> Vec<u16> {
    [&FACTORY[..], &[0xEEEE; TABLE - REGISTERS]].concat()
}

/// A table that is kept from call to call; now and then it gets new values, if it is to.
struct Life<'a, 'b> {
    compare: &'a mut Compare<'b, Station>,
    table: Vec<u16>,
    renewed: bool,
}

impl Life<'_, '_> {
    /// Makes a call with the table, of which so many places are lent as the call asks for.
    fn call(&mut self, random: &mut Random, call: Station) -> Result<Outcome<Station>, Stop> {
        if self.renewed && random.once_in(40) {
            self.table = random.tables(TABLE);
        }
        let registers = &mut self.table[..call.registers.len()];
        let outcome = (self.compare)(&Station { registers: (&*registers).into(), ..call })?;
        registers.copy_from_slice(&outcome.after.registers);
        Ok(outcome)
    }
}

/// A call of the station that the telegram names first, with a whole table and an ample output.
pub fn call(telegram: Vec<u8>) -> Station {
    Station {
        own: first_entry(&telegram).clamp(1, 240),
        registers: FACTORY[..].into(),
        telegram: telegram.into(),
        out: Lent::output(MOST),
    }
}

/// A request for one station, without a relay.
fn direct(body: &[u8]) -> Station {
    call(telegram(REQUEST, false, &[OWN, 0, 0, 0], body))
}

/// The same call with an output of so many places.
fn into(places: usize, call: &Station) -> Station {
    Station { out: Lent::output(places), ..call.clone() }
}

impl Random {
    /// A call with a telegram, now and then at another station, or with another table or output.
    fn odd_call(&mut self, telegram: Vec<u8>) -> Station {
        let length = telegram.len();
        let mut call = call(telegram);
        match self.below(20) {
            0 => call.own = self.byte(),
            1 => call.own = self.pick(&[0, 1, 240, 241, 255]),
            2 => {
                let places = self.pick(&[0, REGISTERS - 1, REGISTERS + 1, TABLE]);
                call.registers = vec![0; places].into();
            }
            3 => call.out = Lent::output(0),
            4 => call.out = Lent::output(self.below(60)),
            5 => call.out = Lent::output(length.saturating_sub(1)),
            6 => call.out = Lent::output(length),
            _ => {}
        }
        call
    }
}

/// Bodies that a destination carries out, and such that it refuses.
fn bodies(random: &mut Random) -> Vec<Vec<u8>> {
    let mut bodies = faulty_bodies();
    // Every register number, read and written alone; and every value of a time of day.
    for number in 0..=u16::MAX {
        bodies.extend([body((number, 1), 0, &[]), body((0, 0), number, &[1])]);
        bodies.extend([955, 957].map(|time| body((time, 1), time, &[number])));
    }
    // Runs about every register and at both ends of the numbers, read and written.
    let mut starts: Vec<u16> = (0..5).chain(65520..=65535).collect();
    starts.extend(ROWS.into_iter().flat_map(|row| row.number - 2..=row.number + 2));
    for (start, count) in starts
        .into_iter()
        .flat_map(|start| (0..=REGISTERS as u8).chain([127, 128, 254, 255]).map(move |count| (start, count)))
    {
        let values = random.good_values(start, count);
        bodies.push(body((start, count), random.word(), &[]));
        bodies.push(body((random.word(), 0), start, &values));
        bodies.push(body((start, count), start, &values));
    }
    // Every run that exists read, while another one is written.
    for (read, (start, count)) in
        all_runs().into_iter().flat_map(|read| all_runs().into_iter().map(move |write| (read, write)))
    {
        bodies.push(body(read, start, &random.good_values(start, count)));
    }
    // Every count of a run read, and of one written in bodies of the right length and of others.
    for (count, start) in (0..=u8::MAX).flat_map(|count| [300, 931, 952, 955, 65535].map(|start| (count, start))) {
        bodies.push(body((start, count), 300, &[1]));
        let mut bytes = body((955, 1), start, &random.good_values(start, count));
        let right = bytes.len();
        bytes.extend([0; 2]);
        let any = random.below(right);
        bodies.extend((right - 2..=right + 2).chain([any]).map(|n| bytes[..n].to_vec()));
    }
    bodies
}

/// Values at the limits of every range and anywhere, for every register; and every run that may be
/// written, with a value that is not taken at each place of it.
fn values(random: &mut Random) -> Vec<Vec<u8>> {
    let mut limits = vec![255, 256, 32767, 32768, 65534, 65535];
    for limit in ROWS.into_iter().flat_map(|row| ends(row.range)) {
        limits.extend([limit.wrapping_sub(1), limit, limit.wrapping_add(1)]);
    }
    let mut bodies = Vec::new();
    for number in ROWS.map(|row| row.number) {
        let others: Vec<u16> = (0..200).map(|_| random.word()).collect();
        for &value in limits.iter().chain(&others) {
            bodies.push(body((number, 1), number, &[value]));
        }
    }
    for (start, count) in writable_runs() {
        for place in (0..count).flat_map(|place| [place; 8]) {
            let row = row(start + u16::from(place)).expect("a register");
            let mut values = random.good_values(start, count);
            values[usize::from(place)] = random.bad_value(row);
            bodies.push(body(random.pick(&all_runs()), start, &values));
        }
    }
    bodies
}

/// Every own address, and tables of every length, also of lengths that look right if they are cut
/// down.
fn setups(random: &mut Random, compare: &mut Compare<Station>) -> Result<(), Stop> {
    let mut setups: Vec<(u8, usize)> = (0..=u8::MAX).map(|own| (own, REGISTERS)).collect();
    let long = [REGISTERS + 256, REGISTERS + 65536, REGISTERS + MEGABYTE];
    for places in (0..=60).chain(long) {
        setups.extend([0, 1, OWN, 240, 241, 255].map(|own| (own, places)));
    }
    for (own, places) in setups {
        for block in [[own, 0, 0, 0], [own, 0, 0, OWN], [own, OWN, 0, 0], [OWN, 0, 0, 0]] {
            let function = random.pick(&FUNCTIONS);
            let mut call = random.odd_call(telegram(function, false, &block, &[0; 6]));
            (call.own, call.registers) = (own, random.tables(places).into());
            compare(&call)?;
        }
    }
    Ok(())
}

/// Calls that send, with outputs of every length up to the need and over; longer ones with an
/// output of the exact length, and of lengths about it.
fn outputs(random: &mut Random, life: &mut Life) -> Result<(), Stop> {
    for i in 0..2_400 {
        let mut telegram = random.some_telegram();
        if i % 6 > 2 {
            let more = random.below(1025 - telegram.len().min(1024));
            telegram.extend(random.bytes(more));
        }
        let ample = call(telegram);
        let outcome = life.call(random, ample.clone())?;
        let need = outcome.value();
        for places in (0..=need + 2).filter(|&n| i % 6 == 0 || n < 2 || n + 2 > need) {
            if outcome.is_done() {
                life.call(random, into(places, &ample))?;
            }
        }
    }
    Ok(())
}

#[cfg(test)]
mod tests {
    use super::*;
    use crate::answer::{kind, value};
    use crate::driver::found;
    use crate::inputs::telegrams::block_of;
    use reference::registers::place;

    /// The body of a telegram.
    fn body_of(telegram: &[u8]) -> &[u8] {
        let header = if is_extended(telegram) { 7 } else { 2 } + block_of(telegram).len();
        telegram.get(header..).unwrap_or(&[])
    }

    #[test]
    fn a_relay_that_carries_out() {
        let smallest = found::<Station>("registers", |own, registers, telegram, out| {
            let answer = plain::station(own, registers, telegram, out);
            if kind(answer) == 0 && out[0] == REQUEST {
                let direct = [&[REQUEST, 0xFF, own, 0, 0, 0], body_of(telegram)].concat();
                plain::station(own, registers, &direct, &mut [0; 1024]);
            }
            answer
        });
        // One value, written by a station that is followed by another.
        let Station { own, telegram, out, .. } = smallest;
        assert!(telegram.len() <= 7 + 3 + 6 + 2, "{telegram:?}");
        assert_eq!((own, out.len()), (first_entry(&telegram), telegram.len()));
    }

    #[test]
    fn values_written_until_a_bad_one() {
        let smallest = found::<Station>("registers", |own, registers, telegram, out| {
            let answer = plain::station(own, registers, telegram, out);
            if let (10, [_, _, _, high, low, _, values @ ..]) = (kind(answer), body_of(telegram)) {
                let (values, _) = values.as_chunks();
                for (number, &value) in (u16::from_be_bytes([*high, *low])..).zip(values) {
                    let (at, value) = (place(number).expect("a register"), u16::from_be_bytes(value));
                    if !ROWS[at].takes(value) {
                        break;
                    }
                    registers[at] = value;
                }
            }
            answer
        });
        // A few values, the last of them bad, in one of the forms.
        assert!(smallest.telegram.len() <= 7 + 2 + 6 + 8, "{}", smallest.text());
    }

    #[test]
    fn a_minute_over_59_taken() {
        let smallest = found::<Station>("the answer", |own, registers, telegram, out| {
            match (plain::station(own, registers, telegram, out), body_of(telegram)) {
                (answer, [.., 0x03, 0xBB | 0xBD, _, 0..=23, 60..=255]) if kind(answer) == 10 => done(9),
                (answer, _) => answer,
            }
        });
        assert!(smallest.telegram.len() <= 7 + 2 + 6 + 2, "{}", smallest.text());
    }

    #[test]
    fn marks() {
        // 00 EF EF EF in a reply is read as stations.
        let smallest = found::<Station>("the answer", |own, registers, telegram, out| {
            let answer = plain::station(own, registers, telegram, out);
            let marked = matches!(telegram, [REPLY, _, 0x00, 0xEF, 0xEF, 0xEF, ..]);
            if marked && ![1, 12].contains(&kind(answer)) {
                refused(5)
            } else {
                answer
            }
        });
        assert!(smallest.telegram.len() <= 9, "{}", smallest.text());
        // The destination sets the mark 00 although a relay follows.
        let smallest = found::<Station>("out, first at place 2", |own, registers, telegram, out| {
            let answer = plain::station(own, registers, telegram, out);
            if kind(answer) == 0 && telegram[0] != out[0] && is_extended(telegram) {
                out[2] = 0;
            }
            answer
        });
        // The destination, an empty entry and a relay; nothing read and nothing written.
        assert_eq!(smallest.telegram.len(), 7 + 3 + 6, "{}", smallest.text());
    }

    #[test]
    fn inputs_read_as_zero() {
        found::<Station>("out", |own, registers, telegram, out| {
            let answer = plain::station(own, registers, telegram, out);
            if kind(answer) == 0 && telegram[0] != out[0] {
                let (read, end) = (body_of(telegram), value(answer));
                if (931..=936).contains(&u16::from_be_bytes([read[0], read[1]])) {
                    out[end - 2 * usize::from(read[2])..end].fill(0);
                }
            }
            answer
        });
    }
}
