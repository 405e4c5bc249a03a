//! The numbers that refused calls give back.

use crate::answer::Numbered;
use core::error::Error;
use core::fmt;

/// Why a call was refused. The gate bus has [refusals of its own](crate::gate::Refusal).
///
/// A refused call has changed nothing that it was lent.
///
/// ```
/// use hanraquin::{frame, Refusal};
///
/// let refusal = frame(&[0x60, 0x10], &mut [0; 5]).unwrap_err();
/// assert_eq!(refusal, Refusal::OutputShort);
/// assert_eq!(refusal.number(), 11);
/// assert_eq!(refusal.to_string(), "refused with 11: the output is too short");
/// ```
#[derive(Clone, Copy, PartialEq, Eq, PartialOrd, Ord, Hash, Debug)]
#[repr(u8)]
pub enum Refusal {
    /// 1: the own address is not 1 to 240, the register table does not have
    /// [`REGISTERS`](crate::REGISTERS) values, the state of a receiver is against its buffer, a
    /// sender has a limit that is not 1 to 255 or a state that cannot be, or the dry run is set up
    /// wrongly.
    Setup = 1,
    /// 2: the header is cut short.
    HeaderCut = 2,
    /// 3: the function byte is not allowed at this place.
    Function = 3,
    /// 4: the count of an extended header is not 2 to 32.
    ExtendedCount = 4,
    /// 5: the block or the route breaks its rule.
    Block = 5,
    /// 6: the mark disagrees with the block.
    Mark = 6,
    /// 7: the body has the wrong length.
    BodyLength = 7,
    /// 8: there is no such register.
    NoRegister = 8,
    /// 9: the register takes no write.
    NoWrite = 9,
    /// 10: the written value is out of the register's range.
    ValueRange = 10,
    /// 11: the output is too short.
    OutputShort = 11,
    /// 12: the data or the telegram is longer than 1,024 bytes, or a run longer than 255
    /// registers.
    TooLong = 12,
}

impl Refusal {
    /// The number that stands for it, 1 to 12.
    ///
    /// ```
    /// assert_eq!(hanraquin::Refusal::Block.number(), 5);
    /// ```
    #[must_use]
    #[inline]
    pub const fn number(self) -> u8 {
        self as u8
    }

    /// The refusal that a number stands for.
    ///
    /// ```
    /// use hanraquin::Refusal;
    ///
    /// assert_eq!(Refusal::from_number(5), Some(Refusal::Block));
    /// assert_eq!(Refusal::from_number(0), None);
    /// assert_eq!(Refusal::from_number(13), None);
    /// ```
    #[must_use]
    #[inline]
    pub const fn from_number(number: u8) -> Option<Refusal> {
        Some(match number {
            1 => Refusal::Setup,
            2 => Refusal::HeaderCut,
            3 => Refusal::Function,
            4 => Refusal::ExtendedCount,
            5 => Refusal::Block,
            6 => Refusal::Mark,
            7 => Refusal::BodyLength,
            8 => Refusal::NoRegister,
            9 => Refusal::NoWrite,
            10 => Refusal::ValueRange,
            11 => Refusal::OutputShort,
            12 => Refusal::TooLong,
            _ => return None,
        })
    }

    /// What it says, in words.
    const fn text(self) -> &'static str {
        match self {
            Refusal::Setup => "address, table, state or net is set up wrongly",
            Refusal::HeaderCut => "the header is cut short",
            Refusal::Function => "the function byte is not allowed here",
            Refusal::ExtendedCount => "the extended count is not 2 to 32",
            Refusal::Block => "the block or the route breaks its rule",
            Refusal::Mark => "the mark disagrees with the block",
            Refusal::BodyLength => "the body has the wrong length",
            Refusal::NoRegister => "there is no such register",
            Refusal::NoWrite => "the register takes no write",
            Refusal::ValueRange => "the written value is out of range",
            Refusal::OutputShort => "the output is too short",
            Refusal::TooLong => "data, telegram or run is too long",
        }
    }
}

impl fmt::Display for Refusal {
    fn fmt(&self, f: &mut fmt::Formatter<'_>) -> fmt::Result {
        write!(f, "refused with {}: {}", self.number(), self.text())
    }
}

impl Error for Refusal {}

impl Numbered for Refusal {
    const IMPOSSIBLE: Refusal = Refusal::Setup;

    #[inline]
    fn numbered(number: u8) -> Option<Refusal> {
        Refusal::from_number(number)
    }
}
