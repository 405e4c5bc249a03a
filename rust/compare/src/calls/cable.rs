//! Both ends of a cable: two senders, or a sender and a receiving half. Every event at each end is
//! compared, and goes on from the one before; what an end sends is what the other one hears.

use super::receive::Receive;
use super::send::{fresh, send, LinkSend, Sent};
use super::send::{AWAITING, FRESH, GAVE_UP, HIGH, LOW, OPENING, PHASE, PRIORITY, RECEIVING, REST, SENT};
use crate::answer::{heard, sent};
use crate::call::Stop;
use crate::driver::Driver;
use crate::inputs::link::FILLINGS;
use crate::inputs::Random;
use crate::lent::Lent;
use hanraquin::sys::{START, TIMER};
use hanraquin::{DATA_MAX, FRAME_MAX};
use reference::link::{DLE, ETX, NAK, STX};
use std::collections::VecDeque;

/// The pairs of priorities.
const PAIRS: [[u64; 2]; 4] = [[LOW, LOW], [LOW, HIGH], [HIGH, LOW], [HIGH, HIGH]];

/// Cables without and with faults, and both ends that open at once, at every pair of priorities.
pub fn generate(random: &mut Random, driver: &mut Driver) -> Result<(), Stop> {
    for pair in PAIRS {
        for _ in 0..60 {
            deliver(&mut Cable::new(random, driver, pair, DATA_MAX))?;
            let places = random.pick(&[DATA_MAX, DATA_MAX, 60, 9, 0]);
            disturb(&mut Cable::new(random, driver, pair, places))?;
        }
        for limit in [1, 2, 3, 20] {
            collide(&mut Cable::new(random, driver, pair, DATA_MAX), limit)?;
        }
    }
    Ok(())
}

/// One end: its sender, and the half that hears what comes while the sender is idle.
struct End {
    sender: LinkSend,
    half: Receive,
    sent: Sent,
    yields: usize,
    messages: Vec<Vec<u8>>,
    /// What is on its way to this end.
    coming: VecDeque<u8>,
}

impl End {
    fn phase(&self) -> u64 {
        self.sender.state[PHASE]
    }

    /// Whether what comes is for the sender.
    fn is_sending(&self) -> bool {
        (OPENING..=RECEIVING).contains(&self.phase())
    }

    /// Whether something is awaited.
    fn is_busy(&self) -> bool {
        self.is_sending() || self.half.state[PHASE] != REST
    }
}

/// Both ends, with all that is needed to go on.
struct Cable<'a> {
    random: &'a mut Random,
    driver: &'a mut Driver,
    ends: [End; 2],
}

impl<'a> Cable<'a> {
    /// Two fresh senders with these priorities, and with buffers of so many places.
    fn new(random: &'a mut Random, driver: &'a mut Driver, priorities: [u64; 2], places: usize) -> Cable<'a> {
        let ends = priorities.map(|priority| {
            let length = match random.below(12) {
                0 => DATA_MAX,
                1 => 0,
                _ => random.below(40),
            };
            let filling = random.pick(&FILLINGS);
            let data = random.fill(length, filling);
            let state = fresh(random.attempts(), random.attempts(), priority);
            let half = Receive { state: vec![0; 3].into(), event: 0, buffer: Lent::output(places) };
            let sender = send(&state, START, &data, places, FRAME_MAX);
            let (messages, coming) = (Vec::new(), VecDeque::new());
            End { sender, half, sent: Sent::default(), yields: 0, messages, coming }
        });
        Cable { random, driver, ends }
    }

    /// Tells an end an event, and sends what it answers on its way.
    fn tell(&mut self, end: usize, event: u32) -> Result<(), Stop> {
        let answer = match self.ends[end].is_sending() || event == START {
            true => self.tell_sender(end, event)?,
            false => self.tell_half(end, event)?,
        };
        self.ends[1 - end].coming.extend(answer);
        Ok(())
    }

    fn tell_sender(&mut self, number: usize, event: u32) -> Result<Vec<u8>, Stop> {
        let end = &mut self.ends[number];
        end.sender.event = event;
        if self.random.once_in(20) {
            let (places, mut refused) = (self.random.below(4), end.sender.clone());
            match self.random.below(3) {
                0 => refused.data = vec![DLE; DATA_MAX + 1].into(),
                1 => refused.event = START + 1,
                _ => refused.out = Lent::output(places),
            }
            // An event that is refused can be fed again.
            self.driver.compare(&refused)?;
        }
        let phase = end.phase();
        end.sent.add(&end.sender);
        let outcome = self.driver.compare(&end.sender)?;
        assert!(outcome.is_done(), "refused: {:02X?}", end.sender.state);
        let (value, out) = (outcome.value(), &outcome.after.out);
        let answer = out[..value % sent::MESSAGE].to_vec();
        if let Some(count) = (value / sent::MESSAGE).checked_sub(1) {
            end.messages.push(outcome.after.buffer[..count].to_vec());
        }
        end.sender = outcome.after;
        end.yields += usize::from((phase, end.phase()) == (OPENING, RECEIVING));
        Ok(answer)
    }

    fn tell_half(&mut self, number: usize, event: u32) -> Result<Vec<u8>, Stop> {
        let end = &mut self.ends[number];
        end.half.event = event;
        let outcome = self.driver.compare(&end.half)?;
        end.half = outcome.after.clone();
        Ok(match outcome.value() {
            heard::NOTHING => Vec::new(),
            value @ heard::MESSAGE.. => {
                end.messages.push(end.half.buffer[..value - heard::MESSAGE].to_vec());
                vec![DLE]
            }
            value => vec![(value - heard::SEND) as u8],
        })
    }

    /// An end to which something is on its way.
    fn hearing(&mut self) -> Option<usize> {
        let hearing: Vec<usize> = (0..2).filter(|&end| !self.ends[end].coming.is_empty()).collect();
        (!hearing.is_empty()).then(|| self.random.pick(&hearing))
    }

    /// Has an end hear the next byte, if one is on its way.
    fn hear(&mut self) -> Result<bool, Stop> {
        let Some(end) = self.hearing() else {
            return Ok(false);
        };
        let byte = self.ends[end].coming.pop_front().expect("a byte");
        self.tell(end, byte.into())?;
        Ok(true)
    }

    /// Has all bytes heard, until nothing is on its way.
    fn settle(&mut self) -> Result<(), Stop> {
        while self.hear()? {}
        Ok(())
    }

    /// The timer runs out at both ends at once, and all is heard that comes of it.
    fn time_out(&mut self) -> Result<(), Stop> {
        self.tell(0, TIMER)?;
        self.tell(1, TIMER)?;
        self.settle()
    }

    /// Checks that an end has sent its data, by one opening and one block since it was fresh or yielded,
    /// and that the other one has no other message.
    fn check_delivered(&self, from: usize) {
        let (end, to) = (&self.ends[from], &self.ends[1 - from]);
        assert_eq!((end.phase(), end.sent), (SENT, Sent { openings: 1, blocks: 1 }));
        assert_eq!(to.messages, [end.sender.data.to_vec()]);
    }
}

/// A cable without faults. One end starts, and the other one does not, or later. Where both have the
/// same priority, that is when nothing is on its way any more; otherwise they may open at once.
fn deliver(cable: &mut Cable) -> Result<(), Stop> {
    let first = cable.random.below(2);
    let other = 1 - first;
    let is_alone = cable.random.once_in(3);
    let is_equal = cable.ends[0].sender.state[PRIORITY] == cable.ends[1].sender.state[PRIORITY];
    cable.tell(first, START)?;
    loop {
        let is_quiet = cable.hearing().is_none();
        let may_start = !is_alone && cable.ends[other].phase() == FRESH && !cable.ends[other].is_busy();
        if may_start && (is_quiet || !is_equal && cable.random.once_in(4)) {
            cable.tell(other, START)?;
        } else if !cable.hear()? {
            break;
        }
    }
    cable.check_delivered(first);
    match is_alone {
        true => assert!(cable.ends[first].messages.is_empty()),
        false => cable.check_delivered(other),
    }
    Ok(())
}

/// Both ends open before they hear anything, with as many attempts of each kind as the limit says, and
/// the timer runs out at both ends at once where nothing is on its way.
fn collide(cable: &mut Cable, limit: u64) -> Result<(), Stop> {
    for end in &mut cable.ends {
        end.sender.state = fresh(limit, limit, end.sender.state[PRIORITY])[..].into();
    }
    cable.tell(0, START)?;
    cable.tell(1, START)?;
    cable.settle()?;
    let priorities = [0, 1].map(|end| cable.ends[end].sender.state[PRIORITY]);
    if priorities[0] != priorities[1] {
        // The low end receives, and then sends.
        cable.check_delivered(0);
        cable.check_delivered(1);
        assert_eq!([0, 1].map(|end| cable.ends[end].yields as u64), priorities.map(|priority| HIGH - priority));
        return Ok(());
    }
    for _ in 0..limit {
        assert!(cable.ends.iter().all(|end| end.is_sending()));
        cable.time_out()?;
    }
    for end in &cable.ends {
        assert!(end.messages.is_empty());
        match (priorities[0], limit) {
            // Both yield again and again.
            (LOW, 2..) => assert_eq!((end.phase(), end.yields as u64), (RECEIVING, 1 + limit)),
            (LOW, _) => assert_eq!((end.phase(), end.yields), (GAVE_UP, 1)),
            _ => assert_eq!((end.phase(), end.sent), (GAVE_UP, Sent { openings: limit, blocks: 0 })),
        }
    }
    Ok(())
}

/// Most events of a cable with faults.
const EVENTS: usize = 600;

/// A cable with faults: bytes are lost, or others come instead, and the timer runs out when it should
/// not, or at one end only. Where an end is patient, it does not hear what comes while its block goes
/// out.
fn disturb(cable: &mut Cable) -> Result<(), Stop> {
    let rates = [5, 30, 200, usize::MAX];
    let [lost, damaged, early] = [0; 3].map(|_: u8| cable.random.pick(&rates));
    let is_patient = cable.random.once_in(2);
    for _ in 0..EVENTS {
        let some = cable.random.below(2);
        if cable.ends[some].phase() == FRESH && cable.random.once_in(6) {
            cable.tell(some, START)?;
        } else if cable.random.once_in(early) {
            let event = cable.random.pick(&[TIMER, TIMER, START]);
            cable.tell(some, event)?;
        } else if let Some(end) = cable.hearing() {
            let byte = cable.ends[end].coming.pop_front().expect("a byte");
            let goes_out = cable.ends[end].phase() == AWAITING && !cable.ends[1 - end].coming.is_empty();
            let is_lost = cable.random.once_in(lost) || is_patient && goes_out;
            let any = cable.random.byte();
            if cable.random.once_in(damaged) {
                let other = cable.random.pick(&[STX, DLE, NAK, ETX, any]);
                cable.tell(end, other.into())?;
            } else if !is_lost {
                cable.tell(end, byte.into())?;
            }
        } else if cable.ends[some].is_busy() {
            cable.tell(some, TIMER)?;
            if cable.random.once_in(2) {
                cable.tell(1 - some, TIMER)?;
            }
        }
    }
    Ok(())
}

#[cfg(test)]
mod tests {
    use super::*;

    #[test]
    fn faults_lead_to_every_end() {
        let (mut random, mut driver) = (Random::new(3964), Driver::new(None));
        for pair in PAIRS {
            let (mut phases, mut yields, mut messages) = ([0; 6], 0, 0);
            for _ in 0..200 {
                let mut cable = Cable::new(&mut random, &mut driver, pair, DATA_MAX);
                disturb(&mut cable).expect("right");
                for end in &cable.ends {
                    phases[end.phase() as usize] += 1;
                    yields += end.yields;
                    messages += end.messages.len();
                }
            }
            let [_, _, _, receiving, sent, gave_up] = phases;
            assert!(sent > 50 && gave_up > 50 && messages > 50, "{pair:?}: {phases:?}, {messages}");
            assert_eq!(yields > 50 && receiving > 0, pair.contains(&LOW), "{pair:?}: {phases:?}, {yields}");
        }
    }
}
