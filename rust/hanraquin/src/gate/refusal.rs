//! The numbers that refused calls of the gate bus give back.

use crate::answer::Numbered;
use core::error::Error;
use core::fmt;

/// Why a call of the gate bus was refused.
///
/// A refused call has changed nothing that it was lent; but a receiver starts again, unless it is
/// refused with [`Setup`](Refusal::Setup). The numbers that the
/// [other calls](crate::Refusal) have too may mean something else there.
///
/// ```
/// use hanraquin::gate::{write, Refusal};
///
/// let refusal = write(0x10, 0xFF, &[0x01], &mut [0; 7]).unwrap_err();
/// assert_eq!(refusal, Refusal::Address);
/// assert_eq!(refusal.number(), 16);
/// assert_eq!(refusal.to_string(), "refused with 16: address FF, or a token to or from a slave");
/// ```
#[derive(Clone, Copy, PartialEq, Eq, PartialOrd, Ord, Hash, Debug)]
#[repr(u8)]
pub enum Refusal {
    /// 1: a receiver has a state that cannot be.
    Setup = 1,
    /// 3: the data is of another kind.
    Kind = 3,
    /// 7: there is more data than a telegram may have, or data of the wrong length.
    Length = 7,
    /// 10: a position is not -1 to 100.
    Position = 10,
    /// 11: the output is too short.
    OutputShort = 11,
    /// 15: the check of a telegram is wrong.
    Check = 15,
    /// 16: an address is FF, or a token is to or from a slave.
    Address = 16,
}

impl Refusal {
    /// The number that stands for it.
    ///
    /// ```
    /// assert_eq!(hanraquin::gate::Refusal::Check.number(), 15);
    /// ```
    #[must_use]
    #[inline]
    pub const fn number(self) -> u8 {
        self as u8
    }

    /// The refusal that a number stands for.
    ///
    /// ```
    /// use hanraquin::gate::Refusal;
    ///
    /// assert_eq!(Refusal::from_number(15), Some(Refusal::Check));
    /// assert_eq!(Refusal::from_number(0), None);
    /// assert_eq!(Refusal::from_number(12), None);
    /// ```
    #[must_use]
    #[inline]
    pub const fn from_number(number: u8) -> Option<Refusal> {
        Some(match number {
            1 => Refusal::Setup,
            3 => Refusal::Kind,
            7 => Refusal::Length,
            10 => Refusal::Position,
            11 => Refusal::OutputShort,
            15 => Refusal::Check,
            16 => Refusal::Address,
            _ => return None,
        })
    }

    /// What it says, in words.
    const fn text(self) -> &'static str {
        match self {
            Refusal::Setup => "the state of the receiver cannot be",
            Refusal::Kind => "the data is of another kind",
            Refusal::Length => "a length is wrong",
            Refusal::Position => "the position is not -1 to 100",
            Refusal::OutputShort => "the output is too short",
            Refusal::Check => "the check is wrong",
            Refusal::Address => "address FF, or a token to or from a slave",
        }
    }
}

impl fmt::Display for Refusal {
    fn fmt(&self, f: &mut fmt::Formatter<'_>) -> fmt::Result {
        write!(f, "refused with {}: {}", self.number(), self.text())
    }
}

impl Error for Refusal {}

impl Numbered for Refusal {
    const IMPOSSIBLE: Refusal = Refusal::Setup;

    #[inline]
    fn numbered(number: u8) -> Option<Refusal> {
        Refusal::from_number(number)
    }
}
