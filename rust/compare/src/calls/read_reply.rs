//! The centre that reads a reply.

use super::MEGABYTE;
use crate::answer::{done, refused, KIND_NOT_MINE, NOT_MINE};
use crate::call::{arguments, Call, Compare, Kind, Outcome, Stop};
use crate::inputs::telegrams::{self, block_of, forms, is_extended, telegram, REPLY, REQUEST};
use crate::inputs::{every_telegram, Random};
use crate::lent::Lent;
use crate::plain;
use hanraquin::ROUTE;
use reference::centre::{self, Verdict};
use reference::refusal::BAD_SETUP;
use std::ops::RangeInclusive;

arguments!(ReadReply, hanraquin_read_reply {
    telegram: read u8,
    route: write u8,
    run: write u16,
});

/// Places for the run of a reply.
pub const RUN: usize = 3;

fn reference(telegram: &[u8], route: &mut [u8], run: &mut [u16]) -> u64 {
    if route.len() != centre::MAX_ROUTE || run.len() != RUN {
        return refused(BAD_SETUP);
    }
    let reply = centre::read_reply(telegram);
    route.copy_from_slice(&reply.route);
    // The values end where the telegram does.
    let place = match reply.verdict {
        Verdict::Accepted => telegram.len() - reply.values.len(),
        Verdict::NotMine | Verdict::Refused(_) => 0,
    };
    run.copy_from_slice(&[reply.start, u16::from(reply.count), place as u16]);
    match reply.verdict {
        Verdict::Accepted => done(reply.values.len()),
        Verdict::NotMine => NOT_MINE,
        Verdict::Refused(number) => refused(number),
    }
}

impl ReadReply {
    /// The number of entries that an extended telegram says it has.
    fn entries(&self) -> Option<usize> {
        let count = self.telegram.get(6).map(|&count| usize::from(count));
        count.filter(|_| is_extended(&self.telegram))
    }

    /// Whether it is accepted in this form, with values or without.
    fn accepted(&self, outcome: &Outcome<ReadReply>, entries: RangeInclusive<usize>, values: bool) -> bool {
        let form = self.entries().unwrap_or(0);
        outcome.is_done() && entries.contains(&form) && values == (outcome.value() > 0)
    }

    /// Whether the block names nobody.
    fn is_nobody(&self) -> bool {
        block_of(&self.telegram).iter().all(|&entry| entry == 0)
    }

    /// How many bytes the body has over those that it counts; nothing if it does not count.
    fn surplus(&self) -> Option<isize> {
        let body = &self.telegram[self.entries().map_or(6, |n| 7 + n)..];
        let counted = 3 + 2 * isize::from(*body.get(2)?);
        Some(body.len() as isize - counted)
    }
}

impl Call for ReadReply {
    const NAME: &'static str = "read_reply";
    const PLAIN: Self::Function = plain::read_reply;
    const REFERENCE: Self::Function = reference;
    const KINDS: &'static [Kind<ReadReply>] = &[
        ("accepted, standard", |r, o| r.accepted(o, 0..=0, true)),
        ("accepted, standard, no values", |r, o| r.accepted(o, 0..=0, false)),
        ("accepted, 2 entries", |r, o| r.accepted(o, 2..=2, true)),
        ("accepted, 2 entries, no values", |r, o| r.accepted(o, 2..=2, false)),
        ("accepted, 3 entries", |r, o| r.accepted(o, 3..=3, true)),
        ("accepted, 3 entries, no values", |r, o| r.accepted(o, 3..=3, false)),
        ("accepted, 4 entries", |r, o| r.accepted(o, 4..=4, true)),
        ("accepted, 4 entries, no values", |r, o| r.accepted(o, 4..=4, false)),
        ("accepted, 5 to 32 entries", |r, o| r.accepted(o, 5..=32, true)),
        ("accepted, 5 to 32 entries, no values", |r, o| r.accepted(o, 5..=32, false)),
        ("not mine, extended", |r, o| o.refused(KIND_NOT_MINE) && is_extended(&r.telegram)),
        ("not mine, standard", |_, o| o.refused(KIND_NOT_MINE)),
        ("refused 1, places", |_, o| o.refused(1)),
        ("refused 2, under 6 bytes", |r, o| o.refused(2) && r.telegram.len() < 6),
        ("refused 2, under 7 bytes", |r, o| o.refused(2) && r.telegram.len() < 7),
        ("refused 2, entries missing", |_, o| o.refused(2)),
        ("refused 3, request", |r, o| o.refused(3) && r.telegram[0] == REQUEST),
        ("refused 3, another function", |_, o| o.refused(3)),
        ("refused 4, under 2", |r, o| o.refused(4) && r.telegram[6] < 2),
        ("refused 4, over 32", |_, o| o.refused(4)),
        ("refused 5, standard", |r, o| o.refused(5) && r.entries().is_none() && !r.is_nobody()),
        ("refused 5, standard, nobody", |r, o| o.refused(5) && r.entries().is_none()),
        ("refused 5, extended", |r, o| o.refused(5) && !r.is_nobody()),
        ("refused 5, extended, nobody, mark 00", |r, o| o.refused(5) && r.telegram[2] == 0),
        ("refused 5, extended, nobody, mark EF", |_, o| o.refused(5)),
        ("refused 6, mark 00", |r, o| o.refused(6) && r.telegram[2] == 0),
        ("refused 6, mark EF", |_, o| o.refused(6)),
        ("refused 7, under 3 bytes", |r, o| o.refused(7) && r.surplus().is_none()),
        ("refused 7, too short", |r, o| o.refused(7) && r.surplus() < Some(0)),
        ("refused 7, too long", |_, o| o.refused(7)),
        ("refused 12", |_, o| o.refused(12)),
    ];

    fn smaller(&self) -> Vec<ReadReply> {
        let with = |telegram: Vec<u8>| ReadReply { telegram: telegram.into(), ..self.clone() };
        telegrams::smaller(&self.telegram).into_iter().map(with).collect()
    }

    fn generate(random: &mut Random, compare: &mut Compare<ReadReply>) -> Result<(), Stop> {
        every_telegram::generate(random, 20, &mut |_, telegram| compare(&heard(telegram)).map(drop))?;
        every_count(random, compare)?;
        home(random, compare)?;
        places(random, compare)
    }
}

/// A telegram that is read as a reply.
pub fn heard(telegram: Vec<u8>) -> ReadReply {
    ReadReply { telegram: telegram.into(), route: Lent::output(ROUTE), run: Lent::output(RUN) }
}

impl Random {
    /// A reply in any form that the centre accepts, most often.
    fn home_reply(&mut self) -> Vec<u8> {
        let (extended, n) = self.some_form();
        telegram(REPLY, extended, &self.home_block(n), &self.body_for(REPLY))
    }
}

/// Every count of values in every form: in a body of the right length, and in shorter and
/// longer ones. Some are not the centre's.
fn every_count(random: &mut Random, compare: &mut Compare<ReadReply>) -> Result<(), Stop> {
    for ((extended, n), count) in forms().flat_map(|form| (0..=u8::MAX).map(move |c| (form, c))) {
        let block = if random.once_in(8) { random.some_block(n) } else { random.home_block(n) };
        let right = 3 + 2 * usize::from(count);
        let mut body = random.bytes(right + 2);
        body[2] = count;
        let any = random.below(right);
        for length in [right, right - 1, right + 1, random.pick(&[0, 1, 2, any])] {
            compare(&heard(telegram(REPLY, extended, &block, &body[..length])))?;
        }
    }
    Ok(())
}

/// Replies that come home, with none to three changes.
fn home(random: &mut Random, compare: &mut Compare<ReadReply>) -> Result<(), Stop> {
    for _ in 0..20_000 {
        let mut reply = random.home_reply();
        for _ in 0..random.below(4) {
            random.change(&mut reply);
        }
        compare(&heard(reply))?;
    }
    Ok(())
}

/// Replies, good and others, with every wrong number of places for what they hold.
fn places(random: &mut Random, compare: &mut Compare<ReadReply>) -> Result<(), Stop> {
    for route in (0..=64).chain([ROUTE + 256, ROUTE + 65536, ROUTE + MEGABYTE]) {
        for run in [0, 1, 2, 3, 4, 5, 6, 259, RUN + 65536] {
            let mut telegram = random.home_reply();
            for _ in 0..random.below(3) {
                random.change(&mut telegram);
            }
            let (route, run) = (Lent::output(route), Lent::output(run));
            compare(&ReadReply { telegram: telegram.into(), route, run })?;
        }
    }
    Ok(())
}

#[cfg(test)]
mod tests {
    use super::*;
    use crate::answer::kind;
    use crate::driver::found;

    #[test]
    fn mistakes_are_found() {
        // Route and run keep what they held where a reply is refused.
        found::<ReadReply>("route", |telegram, route, run| {
            let held = (route.to_vec(), run.to_vec());
            let answer = plain::read_reply(telegram, route, run);
            if kind(answer) != 0 {
                route.copy_from_slice(&held.0);
                run.copy_from_slice(&held.1);
            }
            answer
        });
        // The place of the values is that of the body.
        found::<ReadReply>("run, first at place 2 of 3", |telegram, route, run| {
            let answer = plain::read_reply(telegram, route, run);
            if kind(answer) == 0 {
                run[2] -= 3;
            }
            answer
        });
    }
}
