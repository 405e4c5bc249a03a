//! A station: its registers, and what it does with a telegram.

use crate::answer::{filled, taken};
use crate::{Refusal, sys};

/// The number of registers of a station.
///
/// ```
/// let tables_of_a_net = [0; 3 * hanraquin::REGISTERS];
/// ```
pub const REGISTERS: usize = 18;

/// The values of a station's registers, in the order of [`NUMBERS`].
///
/// ```
/// struct Station {
///     own: u8,
///     registers: hanraquin::Registers,
/// }
/// ```
pub type Registers = [u16; REGISTERS];

/// The numbers of the registers, in the order of the table.
///
/// ```
/// use hanraquin::{FACTORY, NUMBERS};
///
/// for (number, value) in NUMBERS.iter().zip(FACTORY) {
///     println!("register {number} is {value}");
/// }
/// ```
pub const NUMBERS: [u16; REGISTERS] = [
    2, 300, 931, 932, 933, 934, 935, 936, 952, 953, 955, 956, 957, 958, 959, 960, 961, 962,
];

/// The factory values.
///
/// | place | number | holds | write | range | factory value |
/// |---|---|---|---|---|---|
/// | 0 | 2 | binary inputs | no | any | 0 |
/// | 1 | 300 | binary outputs | yes | 0 to 3 | 0 |
/// | 2, 3 | 931, 932 | analogue inputs 1 and 2 | no | any | 0 |
/// | 4 to 7 | 933 to 936 | event counters 1 to 4 | no | any | 0 |
/// | 8 | 952 | minutes from one measurement to the next | yes | 1 to 1440 | 15 |
/// | 9 | 953 | seconds from sensor power to measurement | yes | 2 to 25 | 2 |
/// | 10 | 955 | radio cycles: start, hour in the high byte, minute in the low | yes | a time of day | 0 |
/// | 11 | 956 | radio cycles: second of the start | yes | 0 to 59 | 0 |
/// | 12 | 957 | radio cycles: end, as 955; 65535 is no end | yes | a time of day, or 65535 | 65535 |
/// | 13 | 958 | minutes from one radio cycle to the next | yes | 1 to 1440 | 30 |
/// | 14 | 959 | seconds of a radio cycle; 65535 is always on | yes | 1 to 3600, or 65535 | 60 |
/// | 15 | 960 | search mode: minutes with the radio on | yes | 1 to 1440 | 15 |
/// | 16 | 961 | search mode: minutes with the radio off | yes | 1 to 1440 | 30 |
/// | 17 | 962 | search mode: 1 to enter it after every reset | yes | 0 to 1 | 0 |
///
/// A time of day has an hour of 0 to 23 and a minute of 0 to 59. Write and range are asked of what a
/// telegram writes. The caller may put any value into a table.
///
/// ```
/// let mut registers = hanraquin::FACTORY;
/// registers[0] = 0b101; // binary inputs 1 and 3 are on
/// ```
pub const FACTORY: Registers = [
    0, 0, 0, 0, 0, 0, 0, 0, 15, 2, 0, 0, 65535, 30, 60, 15, 30, 0,
];

/// The place of a register's value in the table; `None` for a number that no register has.
///
/// ```
/// use hanraquin::{place_of, FACTORY};
///
/// assert_eq!(place_of(952), Some(8));
/// assert_eq!(place_of(954), None);
/// assert_eq!(place_of(952).map(|place| FACTORY[place]), Some(15));
/// ```
#[must_use]
#[inline]
pub const fn place_of(number: u16) -> Option<usize> {
    let number = number as usize;
    match number {
        2 => Some(0),
        300 => Some(1),
        931..=936 => Some(number - 931 + 2),
        952..=953 => Some(number - 952 + 8),
        955..=962 => Some(number - 955 + 10),
        _ => None,
    }
}

/// The length of the longest telegram, and of an output that takes all that a station sends.
///
/// ```
/// let out = [0; hanraquin::TELEGRAM];
/// ```
pub const TELEGRAM: usize = 1024;

/// What a station did with a telegram.
///
/// ```
/// use hanraquin::Handled;
///
/// fn to_send(handled: Handled) -> Option<&mut [u8]> {
///     match handled {
///         Handled::Sent(telegram) => Some(telegram),
///         Handled::NotMine => None,
///     }
/// }
/// # assert_eq!(to_send(Handled::NotMine), None);
/// ```
#[must_use = "it says what is to be sent"]
#[derive(PartialEq, Eq, Hash, Debug)]
pub enum Handled<'a> {
    /// It has to send this telegram, which is the first part of the output.
    Sent(&'a mut [u8]),
    /// The telegram is for another station or for the centre. Registers and output are as they
    /// were.
    NotMine,
}

/// Lets the station with the address `own`, 1 to 240, handle a telegram: it relays the telegram,
/// or carries it out and answers.
///
/// `registers` has [`REGISTERS`] values. They change only if the station is the destination of a
/// request that it accepts, and then by all that the request writes. An output of [`TELEGRAM`]
/// places is always enough.
///
/// # Errors
///
/// In this order: [`Setup`](Refusal::Setup) for an own address that is not 1 to 240, or a table
/// of another length; [`TooLong`](Refusal::TooLong), [`HeaderCut`](Refusal::HeaderCut),
/// [`Function`](Refusal::Function), [`ExtendedCount`](Refusal::ExtendedCount),
/// [`Block`](Refusal::Block) or [`Mark`](Refusal::Mark) for a fault of the header. Then the answer
/// may be [`Handled::NotMine`]. After that a destination gives
/// [`BodyLength`](Refusal::BodyLength), [`NoRegister`](Refusal::NoRegister),
/// [`NoWrite`](Refusal::NoWrite) or [`ValueRange`](Refusal::ValueRange) for the body; and a
/// destination or a relay [`OutputShort`](Refusal::OutputShort). Registers and output are as they
/// were then.
///
/// ```
/// use hanraquin::{handle, Handled, FACTORY, TELEGRAM};
///
/// // Read register 955, write 1 to 300, at station 55.
/// let request = [0x60, 0xFF, 0x55, 0, 0, 0, 0x03, 0xBB, 1, 0x01, 0x2C, 1, 0, 1];
/// let (mut registers, mut out) = (FACTORY, [0; TELEGRAM]);
///
/// assert_eq!(handle(0x12, &mut registers, &request, &mut out)?, Handled::NotMine);
/// match handle(0x55, &mut registers, &request, &mut out)? {
///     Handled::Sent(reply) => assert_eq!(reply, [0xE0, 0xFF, 0, 0x55, 0, 0, 0x03, 0xBB, 1, 0, 0]),
///     Handled::NotMine => unreachable!(),
/// }
/// assert_eq!(registers[1], 1);
/// # Ok::<(), hanraquin::Refusal>(())
/// ```
#[inline]
pub fn handle<'a>(
    own: u8,
    registers: &mut [u16],
    telegram: &[u8],
    out: &'a mut [u8],
) -> Result<Handled<'a>, Refusal> {
    // SAFETY: pointers and lengths are those of slices, and what may be written is borrowed
    // mutably.
    let answer = unsafe {
        sys::hanraquin_station(
            own,
            registers.as_mut_ptr(),
            registers.len(),
            telegram.as_ptr(),
            telegram.len(),
            out.as_mut_ptr(),
            out.len(),
        )
    };
    match taken::<Refusal>(answer)? {
        Some(length) => filled(out, length).map(Handled::Sent),
        None => Ok(Handled::NotMine),
    }
}
