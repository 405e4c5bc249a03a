//! The dry run of a net of stations.

use crate::answer::{done, filled, refusal};
use crate::{Refusal, sys};

/// The most stations of a dry run.
///
/// ```
/// use hanraquin::{Registers, FACTORY, STATIONS_MAX};
///
/// let tables: [Registers; STATIONS_MAX] = [FACTORY; STATIONS_MAX];
/// ```
pub const STATIONS_MAX: usize = 64;

/// How a journey ended.
///
/// ```
/// use hanraquin::{dry_run, Ending, Refusal, FACTORY, TELEGRAM};
///
/// // Write 4 to register 300, which takes 0 to 3.
/// let telegram = [0x60, 0xFF, 0x55, 0, 0, 0, 0, 0, 0, 0x01, 0x2C, 1, 0, 4];
/// let mut out = [0; TELEGRAM];
/// let run = dry_run(&telegram, &[0x55], &mut FACTORY.clone(), &mut out)?;
/// assert_eq!(run.ending, Ending::Refused(Refusal::ValueRange));
/// let run = dry_run(&telegram, &[], &mut [], &mut out)?;
/// assert_eq!(run.ending, Ending::AtNobody);
/// # Ok::<(), hanraquin::Refusal>(())
/// ```
#[derive(Clone, Copy, PartialEq, Eq, Hash, Debug)]
pub enum Ending {
    /// At an entry 00, as a reply for the centre does.
    AtZero,
    /// At an address that no station of the net has.
    AtNobody,
    /// At a station that refused the last telegram.
    Refused(Refusal),
}

/// What a dry run gives.
///
/// ```
/// use hanraquin::{dry_run, Ending, TELEGRAM};
///
/// // A reply that has reached the centre goes no further.
/// let telegram = [0xE0, 0xFF, 0x00, 0x55, 0x00, 0x00, 0, 0, 0];
/// let mut out = [0; TELEGRAM];
/// let run = dry_run(&telegram, &[], &mut [], &mut out)?;
/// assert_eq!((run.count, run.ending), (1, Ending::AtZero));
/// assert_eq!(run.last, telegram);
/// # Ok::<(), hanraquin::Refusal>(())
/// ```
#[derive(PartialEq, Eq, Hash, Debug)]
pub struct DryRun<'a> {
    /// The number of transmissions, with the first: 1 to 62.
    pub count: u32,
    /// How the journey ended.
    pub ending: Ending,
    /// The last telegram, which is the first part of the output.
    pub last: &'a mut [u8],
}

/// Plays the journey of a telegram through a net of stations, without a radio.
///
/// `addresses` are those of the stations: at most [`STATIONS_MAX`] different ones, each 1 to 240,
/// in any order. `tables` has [`REGISTERS`](crate::REGISTERS) values for each of them, in the same
/// order, and is left as the stations leave it. `out` has [`TELEGRAM`](crate::TELEGRAM) places or
/// more; of these first 1,024 places the ones behind the last telegram are set to 0.
///
/// # Errors
///
/// In this order: [`Setup`](Refusal::Setup) for addresses or tables that are not so,
/// [`TooLong`](Refusal::TooLong) for a telegram of more than 1,024 bytes,
/// [`OutputShort`](Refusal::OutputShort), and [`HeaderCut`](Refusal::HeaderCut),
/// [`Function`](Refusal::Function), [`ExtendedCount`](Refusal::ExtendedCount),
/// [`Block`](Refusal::Block) or [`Mark`](Refusal::Mark) for a fault of the telegram's header.
/// Tables and output are as they were then. A refusal by a station is an [`Ending`], and no error.
///
/// ```
/// use hanraquin::{dry_run, Ending, FACTORY, TELEGRAM};
///
/// let telegram = [0x60, 0xFF, 0x12, 0x13, 0x55, 0, 0x03, 0xBB, 1, 0x01, 0x2C, 1, 0, 1];
/// let mut tables = [FACTORY; 3];
/// let mut out = [0; TELEGRAM];
/// let run = dry_run(&telegram, &[0x12, 0x13, 0x55], tables.as_flattened_mut(), &mut out)?;
/// assert_eq!((run.count, run.ending), (6, Ending::AtZero));
/// assert_eq!(run.last, [0xE0, 0xFF, 0, 0x12, 0x13, 0x55, 0x03, 0xBB, 1, 0, 0]);
/// assert_eq!(tables[2][1], 1);
/// # Ok::<(), hanraquin::Refusal>(())
/// ```
#[inline]
pub fn dry_run<'a>(
    telegram: &[u8],
    addresses: &[u8],
    tables: &mut [u16],
    out: &'a mut [u8],
) -> Result<DryRun<'a>, Refusal> {
    let mut result = [0; 3];
    // SAFETY: pointers and lengths are those of slices, and what may be written is local or
    // borrowed mutably. Telegram and addresses are only read, so they may overlap.
    let answer = unsafe {
        sys::hanraquin_dry_run(
            telegram.as_ptr(),
            telegram.len(),
            addresses.as_ptr(),
            addresses.len(),
            tables.as_mut_ptr(),
            tables.len(),
            out.as_mut_ptr(),
            out.len(),
            result.as_mut_ptr(),
            result.len(),
        )
    };
    done::<Refusal>(answer)?;
    let [count, ending, length] = result;
    Ok(DryRun {
        count,
        ending: match ending {
            sys::AT_ZERO => Ending::AtZero,
            sys::AT_NOBODY => Ending::AtNobody,
            number => Ending::Refused(refusal(number)),
        },
        last: filled::<Refusal>(out, length)?,
    })
}
