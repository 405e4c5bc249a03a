//! Writing an operating command.

use crate::call::{arguments, Call, Compare, Kind, Stop};
use crate::calls::{given, MEGABYTE};
use crate::inputs::Random;
use crate::lent::Lent;
use crate::plain::gate as plain;
use reference::gate::{self, COMMANDS, DEACTIVATE};

arguments!(GateWriteCommand, hanraquin_gate_write_command {
    command: number u8,
    function: number u8,
    out: write u8,
});

impl Call for GateWriteCommand {
    const NAME: &'static str = "gate_write_command";
    const PLAIN: Self::Function = plain::write_command;
    const REFERENCE: Self::Function = |command, function, out| given(gate::write_command(command, function, out));
    const KINDS: &'static [Kind<GateWriteCommand>] = &[
        ("written, an unknown command", |w, o| o.is_done() && usize::from(w.command) >= COMMANDS),
        ("written, an unknown function", |w, o| o.is_done() && w.function > DEACTIVATE),
        ("written", |_, o| o.is_done()),
        ("refused 11", |_, o| o.refused(11)),
    ];

    /// Every command with every function, and outputs of every length.
    fn generate(random: &mut Random, compare: &mut Compare<GateWriteCommand>) -> Result<(), Stop> {
        for (command, function) in (0..=u8::MAX).flat_map(|command| (0..=u8::MAX).map(move |f| (command, f))) {
            compare(&write_command(command, function, random.pick(&[0, 2, 3, 3, 3, 4])))?;
        }
        for places in (0..=260).chain([65536, 65538, 65539, MEGABYTE]) {
            compare(&write_command(random.byte(), random.byte(), places))?;
        }
        Ok(())
    }
}

/// A command to write, with an output of so many places.
fn write_command(command: u8, function: u8, places: usize) -> GateWriteCommand {
    GateWriteCommand { command, function, out: Lent::output(places) }
}

#[cfg(test)]
mod tests {
    use super::*;
    use crate::answer::refused;
    use crate::driver::found;

    #[test]
    fn mistakes_are_found() {
        // An unknown command is refused, or an unknown function.
        let smallest = found::<GateWriteCommand>("the answer", |command, function, out| match command {
            10.. => refused(3),
            _ => plain::write_command(command, function, out),
        });
        assert_eq!(smallest, write_command(10, 0, 0));
        let smallest = found::<GateWriteCommand>("the answer", |command, function, out| match function {
            3.. => refused(3),
            _ => plain::write_command(command, function, out),
        });
        assert_eq!(smallest, write_command(0, 3, 0));
        // The command is written as far as it fits.
        let smallest = found::<GateWriteCommand>("out", |command, function, out| {
            out.iter_mut().zip([1, command, function]).for_each(|(place, byte)| *place = byte);
            plain::write_command(command, function, out)
        });
        assert_eq!(smallest.out.len(), 1);
    }
}
