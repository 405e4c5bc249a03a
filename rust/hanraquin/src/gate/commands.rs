//! Operating commands, and the registers of a barrier that they work on.

use super::{Answer, Refusal};
use crate::answer::{Numbered, done, written};
use crate::sys;

/// The number of commands, and of level registers and of edge registers.
///
/// ```
/// assert_eq!(hanraquin::gate::REGISTERS, 4 + hanraquin::gate::RELAYS.len());
/// ```
pub const REGISTERS: usize = 10;

/// The length of an operating command.
///
/// ```
/// let out = [0; hanraquin::gate::COMMAND_LENGTH];
/// ```
pub const COMMAND_LENGTH: usize = 3;

/// The command BT.
///
/// ```
/// use hanraquin::gate::{Commands, Verdict, BT, PULSE};
///
/// let mut commands = Commands::new();
/// assert_eq!(commands.operate(&[0x01, BT, PULSE])?, Verdict::Ack);
/// assert!(commands.edges[usize::from(BT)]);
/// # Ok::<(), hanraquin::gate::Refusal>(())
/// ```
pub const BT: u8 = 0x00;

/// The command BA: an edge has the barrier open itself, and while the level is set it does not
/// close.
///
/// ```
/// use hanraquin::gate::{Commands, Verdict, ACTIVATE, BA};
///
/// let mut commands = Commands::new();
/// assert_eq!(commands.operate(&[0x01, BA, ACTIVATE])?, Verdict::Ack);
/// assert!(commands.edges[usize::from(BA)] && commands.levels[usize::from(BA)]);
/// # Ok::<(), hanraquin::gate::Refusal>(())
/// ```
pub const BA: u8 = 0x01;

/// The command BZ.
///
/// ```
/// use hanraquin::gate::{write_command, BZ, PULSE};
///
/// assert_eq!(write_command(BZ, PULSE, &mut [0; 3])?, [0x01, 0x02, 0x00]);
/// # Ok::<(), hanraquin::gate::Refusal>(())
/// ```
pub const BZ: u8 = 0x02;

/// The command BS.
///
/// ```
/// use hanraquin::gate::{write_command, BS, PULSE};
///
/// assert_eq!(write_command(BS, PULSE, &mut [0; 3])?, [0x01, 0x03, 0x00]);
/// # Ok::<(), hanraquin::gate::Refusal>(())
/// ```
pub const BS: u8 = 0x03;

/// The commands for the multifunction relays 1 to 6.
///
/// ```
/// use hanraquin::gate::{write_command, ACTIVATE, RELAYS};
///
/// let [.., relay_6] = RELAYS;
/// assert_eq!(write_command(relay_6, ACTIVATE, &mut [0; 3])?, [0x01, 0x09, 0x01]);
/// # Ok::<(), hanraquin::gate::Refusal>(())
/// ```
pub const RELAYS: [u8; 6] = [0x04, 0x05, 0x06, 0x07, 0x08, 0x09];

/// The function pulse: an edge, if the level is not set. It never changes the level.
///
/// ```
/// use hanraquin::gate::{Commands, Verdict, BT, PULSE};
///
/// let mut commands = Commands::new();
/// assert_eq!(commands.operate(&[0x01, BT, PULSE])?, Verdict::Ack);
/// assert!(commands.edges[usize::from(BT)] && !commands.levels[usize::from(BT)]);
/// # Ok::<(), hanraquin::gate::Refusal>(())
/// ```
pub const PULSE: u8 = 0x00;

/// The function activate: sets the level, with an edge if it was not set.
///
/// ```
/// use hanraquin::gate::{Commands, Verdict, ACTIVATE, BT};
///
/// let mut commands = Commands { levels: [true; 10], edges: [false; 10] };
/// assert_eq!(commands.operate(&[0x01, BT, ACTIVATE])?, Verdict::Ack);
/// assert!(commands.levels[usize::from(BT)] && !commands.edges[usize::from(BT)]);
/// # Ok::<(), hanraquin::gate::Refusal>(())
/// ```
pub const ACTIVATE: u8 = 0x01;

/// The function deactivate: takes the level back, and leaves the edge as it is.
///
/// ```
/// use hanraquin::gate::{Commands, Verdict, BT, DEACTIVATE};
///
/// let mut commands = Commands { levels: [true; 10], edges: [true; 10] };
/// assert_eq!(commands.operate(&[0x01, BT, DEACTIVATE])?, Verdict::Ack);
/// assert!(!commands.levels[usize::from(BT)] && commands.edges[usize::from(BT)]);
/// # Ok::<(), hanraquin::gate::Refusal>(())
/// ```
pub const DEACTIVATE: u8 = 0x02;

/// Writes an operating command into the first places of `out`, and gives these. It is data for
/// [`write`](super::write).
///
/// Command and function may be any bytes; a barrier answers nak to those that it does not know.
///
/// # Errors
///
/// [`OutputShort`](Refusal::OutputShort) for fewer than [`COMMAND_LENGTH`] places. `out` is as it
/// was then.
///
/// ```
/// use hanraquin::gate::{write_command, ACTIVATE, BA, COMMAND_LENGTH};
///
/// let mut out = [0; COMMAND_LENGTH];
/// assert_eq!(write_command(BA, ACTIVATE, &mut out)?, [0x01, 0x01, 0x01]);
/// # Ok::<(), hanraquin::gate::Refusal>(())
/// ```
#[inline]
pub fn write_command(command: u8, function: u8, out: &mut [u8]) -> Result<&mut [u8], Refusal> {
    // SAFETY: pointer and length are those of a slice, which is borrowed mutably.
    let answer = unsafe {
        sys::hanraquin_gate_write_command(command, function, out.as_mut_ptr(), out.len())
    };
    written(out, answer)
}

/// What a barrier has to answer to an operating command. It is an [`Answer`] as well.
///
/// ```
/// use hanraquin::gate::{write_answer, Verdict};
///
/// assert_eq!(write_answer(Verdict::Nak.into(), &mut [0; 5])?, [0x02]);
/// # Ok::<(), hanraquin::gate::Refusal>(())
/// ```
#[must_use = "it says what is to be answered"]
#[derive(Clone, Copy, PartialEq, Eq, Hash, Debug)]
pub enum Verdict {
    /// The command is carried out.
    Ack,
    /// There is no such command or no such function, and nothing is changed.
    Nak,
}

impl From<Verdict> for Answer {
    #[inline]
    fn from(verdict: Verdict) -> Answer {
        match verdict {
            Verdict::Ack => Answer::Ack,
            Verdict::Nak => Answer::Nak,
        }
    }
}

/// The level and edge registers of a barrier. The place of a register is its command.
///
/// Operating commands set an edge and never take it back. That is for the barrier to do, when it
/// has acted on it.
///
/// ```
/// use hanraquin::gate::{Commands, Verdict, ACTIVATE, BA};
///
/// let mut commands = Commands::new();
/// assert_eq!(commands.operate(&[0x01, BA, ACTIVATE])?, Verdict::Ack);
/// let edge = &mut commands.edges[usize::from(BA)];
/// if std::mem::take(edge) {
///     println!("the barrier opens");
/// }
/// # assert!(!commands.edges[usize::from(BA)]);
/// # Ok::<(), hanraquin::gate::Refusal>(())
/// ```
#[derive(Clone, Copy, PartialEq, Eq, Hash, Debug, Default)]
pub struct Commands {
    /// The level registers.
    pub levels: [bool; REGISTERS],
    /// The edge registers.
    pub edges: [bool; REGISTERS],
}

impl Commands {
    /// Registers of which none is set.
    ///
    /// ```
    /// assert_eq!(hanraquin::gate::Commands::new(), hanraquin::gate::Commands::default());
    /// ```
    #[must_use]
    #[inline]
    pub const fn new() -> Commands {
        Commands {
            levels: [false; REGISTERS],
            edges: [false; REGISTERS],
        }
    }

    /// Carries out an operating command, which is the data of a telegram: 01, the command, the
    /// function. Level and edge of that command become, and all others stay as they were:
    ///
    /// | level before | function | level after | edge after |
    /// |---|---|---|---|
    /// | 0 | [`PULSE`] | 0 | 1 |
    /// | 0 | [`ACTIVATE`] | 1 | 1 |
    /// | 0 | [`DEACTIVATE`] | 0 | as it was |
    /// | 1 | [`PULSE`] | 1 | as it was |
    /// | 1 | [`ACTIVATE`] | 1 | as it was |
    /// | 1 | [`DEACTIVATE`] | 0 | as it was |
    ///
    /// Another command or function is no error: the verdict is [`Nak`](Verdict::Nak).
    ///
    /// # Errors
    ///
    /// [`Length`](Refusal::Length) where there are not three bytes, then [`Kind`](Refusal::Kind)
    /// where the first is not 01. All registers are as they were then.
    ///
    /// ```
    /// use hanraquin::gate::{Commands, Refusal, Verdict};
    ///
    /// let mut commands = Commands::new();
    /// assert_eq!(commands.operate(&[0x01, 0x09, 0x00])?, Verdict::Ack);
    /// assert_eq!(commands.operate(&[0x01, 0x0A, 0x00])?, Verdict::Nak);
    /// assert_eq!(commands.operate(&[0x02, 0x18, 0x00]), Err(Refusal::Kind)); // a query
    /// # Ok::<(), hanraquin::gate::Refusal>(())
    /// ```
    #[inline]
    pub fn operate(&mut self, data: &[u8]) -> Result<Verdict, Refusal> {
        let mut levels = self.levels.map(u8::from);
        let mut edges = self.edges.map(u8::from);
        // SAFETY: pointers and lengths are those of slices, and what may be written is local.
        let answer = unsafe {
            sys::hanraquin_gate_operate(
                data.as_ptr(),
                data.len(),
                levels.as_mut_ptr(),
                levels.len(),
                edges.as_mut_ptr(),
                edges.len(),
            )
        };
        let verdict = match u8::try_from(done::<Refusal>(answer)?) {
            Ok(sys::GATE_ACK) => Verdict::Ack,
            Ok(sys::GATE_NAK) => Verdict::Nak,
            _ => return Err(Refusal::IMPOSSIBLE),
        };
        self.levels = levels.map(|level| level != 0);
        self.edges = edges.map(|edge| edge != 0);
        Ok(verdict)
    }
}
