//! A barrier that carries out an operating command.

use crate::answer::{done, refused};
use crate::call::{arguments, Call, Compare, Kind, Outcome, Stop};
use crate::calls::{given, MEGABYTE};
use crate::inputs::Random;
use crate::lent::Lent;
use crate::plain::gate as plain;
use reference::gate::{self, Registers, ACK, ACTIVATE, BAD_SETUP, COMMANDS, DEACTIVATE, NAK, OPERATE, PULSE};
use std::ops::RangeInclusive;

arguments!(GateOperate, hanraquin_gate_operate {
    data: read u8,
    levels: write u8,
    edges: write u8,
});

fn reference(data: &[u8], levels: &mut [u8], edges: &mut [u8]) -> u64 {
    let (Some(levels_before), Some(edges_before)) = (registers_of(levels), registers_of(edges)) else {
        return refused(BAD_SETUP);
    };
    let mut registers = Registers { levels: levels_before, edges: edges_before };
    let answer = gate::operate(&mut registers, data);
    levels.copy_from_slice(&registers.levels.map(u8::from));
    edges.copy_from_slice(&registers.edges.map(u8::from));
    given(answer.map(usize::from))
}

/// The registers that ten numbers stand for, each of them 0 or 1.
fn registers_of(numbers: &[u8]) -> Option<[bool; COMMANDS]> {
    let numbers: [u8; COMMANDS] = numbers.try_into().ok()?;
    numbers.iter().all(|&number| number <= 1).then(|| numbers.map(|number| number == 1))
}

impl GateOperate {
    /// Whether this function is carried out with this level before.
    fn carries_out(&self, outcome: &Outcome<GateOperate>, level: u8, function: u8) -> bool {
        outcome.answer == done(ACK.into())
            && self.data[2] == function
            && self.levels[usize::from(self.data[1])] == level
    }
}

fn is_nak(outcome: &Outcome<GateOperate>) -> bool {
    outcome.answer == done(NAK.into())
}

impl Call for GateOperate {
    const NAME: &'static str = "gate_operate";
    const PLAIN: Self::Function = plain::operate;
    const REFERENCE: Self::Function = reference;
    const KINDS: &'static [Kind<GateOperate>] = &[
        ("ack, level 0, pulse", |c, o| c.carries_out(o, 0, PULSE)),
        ("ack, level 0, activate", |c, o| c.carries_out(o, 0, ACTIVATE)),
        ("ack, level 0, deactivate", |c, o| c.carries_out(o, 0, DEACTIVATE)),
        ("ack, level 1, pulse", |c, o| c.carries_out(o, 1, PULSE)),
        ("ack, level 1, activate", |c, o| c.carries_out(o, 1, ACTIVATE)),
        ("ack, level 1, deactivate", |c, o| c.carries_out(o, 1, DEACTIVATE)),
        ("nak, command and function", |c, o| is_nak(o) && c.data[1] > 9 && c.data[2] > 2),
        ("nak, command", |c, o| is_nak(o) && c.data[1] > 9),
        ("nak, function", |_, o| is_nak(o)),
        ("refused 1, places of the levels", |c, o| o.refused(1) && c.levels.len() != COMMANDS),
        ("refused 1, places of the edges", |c, o| o.refused(1) && c.edges.len() != COMMANDS),
        ("refused 1, a level above 1", |c, o| o.refused(1) && c.levels.iter().any(|&level| level > 1)),
        ("refused 1, an edge above 1", |_, o| o.refused(1)),
        ("refused 7, no byte", |c, o| o.refused(7) && c.data.is_empty()),
        ("refused 7, too short", |c, o| o.refused(7) && c.data.len() < 3),
        ("refused 7, too long", |_, o| o.refused(7)),
        ("refused 3", |_, o| o.refused(3)),
    ];
    /// Every command with every function, at every level and edge.
    const NUMBERS: RangeInclusive<usize> = 0..=12 * COMMANDS - 1;

    fn number(&self, outcome: &Outcome<GateOperate>) -> Option<usize> {
        (outcome.answer == done(ACK.into())).then(|| {
            let [command, function] = [1, 2].map(|place| usize::from(self.data[place]));
            let [level, edge] = [&self.levels, &self.edges].map(|registers| usize::from(registers[command]));
            12 * command + 4 * function + 2 * level + edge
        })
    }

    fn generate(random: &mut Random, compare: &mut Compare<GateOperate>) -> Result<(), Stop> {
        every_command(random, compare)?;
        other_data(random, compare)?;
        setups(random, compare)?;
        lives(random, compare)
    }
}

/// Data at a barrier, with the levels and edges that are in the bits of a number, the first in the
/// lowest.
pub fn operate(data: &[u8], levels: usize, edges: usize) -> GateOperate {
    let [levels, edges] = [levels, edges].map(|bits| registers(bits, COMMANDS));
    GateOperate { data: data.into(), levels, edges }
}

/// So many registers, from the bits of a number.
fn registers(bits: usize, places: usize) -> Lent<u8> {
    (0..places).map(|place| (bits.checked_shr(place as u32).unwrap_or(0) & 1) as u8).collect::<Vec<u8>>().into()
}

/// All registers are 1.
const ALL: usize = (1 << COMMANDS) - 1;

impl Random {
    /// The bits of all registers.
    fn registers(&mut self) -> usize {
        self.below(ALL + 1)
    }

    /// A command that is carried out, one that is not, and data that is no command.
    fn commands(&mut self) -> [Vec<u8>; 5] {
        let carried_out = vec![OPERATE, self.below(COMMANDS) as u8, self.below(3) as u8];
        [carried_out, vec![OPERATE, 10, 0], vec![0x02, 0x18, 0x00], vec![OPERATE], vec![]]
    }
}

/// Every command with every function, and the known ones at every level and edge, with the other
/// registers at 0, at 1 and at any.
fn every_command(random: &mut Random, compare: &mut Compare<GateOperate>) -> Result<(), Stop> {
    for (command, function) in (0..=u8::MAX).flat_map(|command| (0..=u8::MAX).map(move |f| (command, f))) {
        let data = [OPERATE, command, function];
        if command > 15 || function > 7 {
            compare(&operate(&data, random.registers(), random.registers()))?;
            continue;
        }
        for others in [(0, 0), (ALL, 0), (0, ALL), (ALL, ALL), (random.registers(), random.registers())] {
            for own in [(false, false), (false, true), (true, false), (true, true)] {
                let with = |bits: usize, own: bool| bits & !(1 << command) | usize::from(own) << command;
                compare(&operate(&data, with(others.0, own.0) & ALL, with(others.1, own.1) & ALL))?;
            }
        }
    }
    Ok(())
}

/// Every first byte, and data of every length.
fn other_data(random: &mut Random, compare: &mut Compare<GateOperate>) -> Result<(), Stop> {
    for kind in 0..=u8::MAX {
        for function in 0..4 {
            let data = [kind, random.below(12) as u8, function];
            compare(&operate(&data, random.registers(), random.registers()))?;
        }
    }
    for length in (0..=260).chain([3 + 256, 3 + 65536, MEGABYTE, 3 + MEGABYTE]) {
        for kind in [OPERATE, random.byte()] {
            let mut data = vec![random.byte(); length];
            data.iter_mut().zip([kind, 1, 1]).for_each(|(place, byte)| *place = byte);
            compare(&operate(&data, random.registers(), random.registers()))?;
        }
    }
    Ok(())
}

/// Good data and others, with every wrong number of registers, and with every register above 1.
fn setups(random: &mut Random, compare: &mut Compare<GateOperate>) -> Result<(), Stop> {
    for places in (0..=30).chain([256, COMMANDS + 256, 65536, COMMANDS + 65536]) {
        for data in random.commands() {
            for (levels, edges) in [(places, COMMANDS), (COMMANDS, places), (places, places)] {
                let [levels, edges] = [levels, edges].map(|places| registers(random.registers(), places));
                compare(&GateOperate { data: data[..].into(), levels, edges })?;
            }
        }
    }
    for (above, place) in [2, 3, 4, 127, 128, 254, 255].into_iter().flat_map(|n| (0..COMMANDS).map(move |p| (n, p))) {
        for data in random.commands() {
            let good = operate(&data, random.registers(), random.registers());
            let [mut level, mut edge, mut both] = [good.clone(), good.clone(), good];
            (level.levels[place], edge.edges[place]) = (above, above);
            (both.levels[place], both.edges[random.below(COMMANDS)]) = (above, above);
            for call in [level, edge, both] {
                compare(&call)?;
            }
        }
    }
    Ok(())
}

/// Barriers that carry out one command after another; now and then their edges are taken back, as
/// they are when a barrier has acted on them.
fn lives(random: &mut Random, compare: &mut Compare<GateOperate>) -> Result<(), Stop> {
    let mut barrier = operate(&[], 0, 0);
    for _ in 0..10_000 {
        if random.once_in(8) {
            barrier.edges = registers(0, COMMANDS);
        }
        barrier.data = vec![OPERATE, random.below(11) as u8, random.below(4) as u8].into();
        barrier = compare(&barrier)?.after;
    }
    Ok(())
}

#[cfg(test)]
mod tests {
    use super::*;
    use crate::answer::kind;
    use crate::driver::found;

    /// The level and the edge that a command which is carried out names.
    fn named<'a>(data: &[u8], levels: &'a mut [u8], edges: &'a mut [u8]) -> Option<(u8, &'a mut u8, &'a mut u8)> {
        let good = registers_of(levels).is_some() && registers_of(edges).is_some();
        match *data {
            [OPERATE, command @ ..10, function @ ..3] if good => {
                let place = usize::from(command);
                Some((function, &mut levels[place], &mut edges[place]))
            }
            _ => None,
        }
    }

    #[test]
    fn wrong_registers_are_found() {
        // A pulse sets the level, or takes it back.
        found::<GateOperate>("levels", |data, levels, edges| {
            let answer = plain::operate(data, levels, edges);
            if let Some((PULSE, level, _)) = named(data, levels, edges) {
                *level = 1;
            }
            answer
        });
        found::<GateOperate>("levels", |data, levels, edges| {
            let answer = plain::operate(data, levels, edges);
            if let Some((PULSE, level, _)) = named(data, levels, edges) {
                *level = 0;
            }
            answer
        });
        // A deactivation takes the edge back, or sets it where the level was 1.
        found::<GateOperate>("edges", |data, levels, edges| {
            let answer = plain::operate(data, levels, edges);
            if let Some((DEACTIVATE, _, edge)) = named(data, levels, edges) {
                *edge = 0;
            }
            answer
        });
        found::<GateOperate>("edges", |data, levels, edges| {
            if let Some((DEACTIVATE, 1, edge)) = named(data, levels, edges).map(|(f, level, edge)| (f, *level, edge)) {
                *edge = 1;
            }
            plain::operate(data, levels, edges)
        });
        // An activation, or a pulse, sets the edge where the level was 1.
        found::<GateOperate>("edges", |data, levels, edges| {
            let answer = plain::operate(data, levels, edges);
            if let Some((ACTIVATE, _, edge)) = named(data, levels, edges) {
                *edge = 1;
            }
            answer
        });
        found::<GateOperate>("edges", |data, levels, edges| {
            let answer = plain::operate(data, levels, edges);
            if let Some((PULSE, _, edge)) = named(data, levels, edges) {
                *edge = 1;
            }
            answer
        });
        // A nak sets the edge of its command.
        let smallest = found::<GateOperate>("edges", |data, levels, edges| {
            let answer = plain::operate(data, levels, edges);
            if let (2, &[_, command @ ..10, _]) = (answer, data) {
                edges[usize::from(command)] = 1;
            }
            answer
        });
        assert_eq!(smallest, operate(&[OPERATE, 0, 3], 0, 0));
        // An edge that no command names is taken back.
        found::<GateOperate>("edges", |data, levels, edges| {
            let answer = plain::operate(data, levels, edges);
            if let Some((_, _, edge)) = named(data, levels, edges) {
                let kept = *edge;
                edges.fill(0);
                edges[usize::from(data[1])] = kept;
            }
            answer
        });
    }

    #[test]
    fn wrong_answers_are_found() {
        // There are nine commands.
        let smallest = found::<GateOperate>("the answer", |data, levels, edges| match data {
            [OPERATE, 9, _] => plain::operate(&[OPERATE, 10, 0], levels, edges),
            _ => plain::operate(data, levels, edges),
        });
        assert_eq!(smallest, operate(&[OPERATE, 9, 0], 0, 0));
        // An unknown function is refused.
        found::<GateOperate>("the answer", |data, levels, edges| match plain::operate(data, levels, edges) {
            2 if data[1] < 10 => refused(3),
            answer => answer,
        });
        // 7 comes before 1, and 3 before 7.
        found::<GateOperate>("the answer", |data, levels, edges| match data.len() {
            3 => plain::operate(data, levels, edges),
            _ => refused(7),
        });
        found::<GateOperate>("the answer", |data, levels, edges| match plain::operate(data, levels, edges) {
            answer if kind(answer) == 7 && data.first().is_some_and(|&first| first != OPERATE) => refused(3),
            answer => answer,
        });
        // A level of 2 is 1 to all commands but its own.
        let smallest = found::<GateOperate>("the answer", |data, levels, edges| {
            if let ([2, ..], Some(1..)) = (&mut *levels, data.get(1)) {
                levels[0] = 1;
                let answer = plain::operate(data, levels, edges);
                levels[0] = 2;
                return answer;
            }
            plain::operate(data, levels, edges)
        });
        assert_eq!(smallest.levels[0], 2);
    }
}
