//! The answers of a barrier.

use super::Refusal;
use crate::answer::{Numbered, done, written};
use crate::sys;

/// The length of the longest answer.
///
/// ```
/// let out = [0; hanraquin::gate::ANSWER_MAX];
/// ```
pub const ANSWER_MAX: usize = 5;

/// An answer of a barrier.
///
/// ```
/// use hanraquin::gate::Answer;
///
/// fn is_open(answer: Answer) -> bool {
///     answer == Answer::Position(100)
/// }
/// # assert!(!is_open(Answer::Position(-1)));
/// ```
#[derive(Clone, Copy, PartialEq, Eq, Hash, Debug)]
pub enum Answer {
    /// Yes.
    Ack,
    /// No.
    Nak,
    /// Not at present.
    Busy,
    /// It takes time, and another answer will follow.
    Syn,
    /// The vehicle count.
    Count(i32),
    /// The position in percent, from 0, closed, to 100, open; or -1, unknown.
    Position(i8),
}

impl Answer {
    /// Its kind, and its number, which is 0 where it has none.
    const fn parts(self) -> (u8, i32) {
        match self {
            Answer::Ack => (sys::GATE_ACK, 0),
            Answer::Nak => (sys::GATE_NAK, 0),
            Answer::Busy => (sys::GATE_BUSY, 0),
            Answer::Syn => (sys::GATE_SYN, 0),
            Answer::Count(count) => (sys::GATE_COUNT, count),
            Answer::Position(position) => (sys::GATE_POSITION, position as i32),
        }
    }
}

/// Writes an answer into the first places of `out`, and gives these. It is data for
/// [`write`](super::write). An output of [`ANSWER_MAX`] places is always enough.
///
/// # Errors
///
/// [`Position`](Refusal::Position) for a position that is not -1 to 100, then
/// [`OutputShort`](Refusal::OutputShort). `out` is as it was then.
///
/// ```
/// use hanraquin::gate::{write_answer, Answer, Refusal, ANSWER_MAX};
///
/// let mut out = [0; ANSWER_MAX];
/// assert_eq!(write_answer(Answer::Ack, &mut out)?, [0x01]);
/// assert_eq!(write_answer(Answer::Count(-2), &mut out)?, [0x1C, 0xFE, 0xFF, 0xFF, 0xFF]);
/// assert_eq!(write_answer(Answer::Position(100), &mut out)?, [0x1D, 0x64]);
/// assert_eq!(write_answer(Answer::Position(101), &mut out), Err(Refusal::Position));
/// # Ok::<(), hanraquin::gate::Refusal>(())
/// ```
#[inline]
pub fn write_answer(answer: Answer, out: &mut [u8]) -> Result<&mut [u8], Refusal> {
    let (kind, number) = answer.parts();
    // SAFETY: pointer and length are those of a slice, which is borrowed mutably.
    let answer =
        unsafe { sys::hanraquin_gate_write_answer(kind, number, out.as_mut_ptr(), out.len()) };
    written(out, answer)
}

/// Reads an answer, which is the data of a telegram.
///
/// # Errors
///
/// In this order: [`Length`](Refusal::Length) where there is no byte; [`Kind`](Refusal::Kind)
/// where the first byte begins no [`Answer`]; [`Length`](Refusal::Length) where the data is not as
/// long as that answer is; [`Position`](Refusal::Position) for a position that is not -1 to 100.
///
/// ```
/// use hanraquin::gate::{read_answer, Answer, Refusal};
///
/// assert_eq!(read_answer(&[0x1C, 0xFE, 0xFF, 0xFF, 0xFF])?, Answer::Count(-2));
/// assert_eq!(read_answer(&[0x1D, 0xFF])?, Answer::Position(-1));
/// assert_eq!(read_answer(&[0x05, 0x05, 0x00]), Err(Refusal::Kind));
/// assert_eq!(read_answer(&[0x1D]), Err(Refusal::Length));
/// # Ok::<(), hanraquin::gate::Refusal>(())
/// ```
#[inline]
pub fn read_answer(data: &[u8]) -> Result<Answer, Refusal> {
    let mut number = [0];
    // SAFETY: pointers and lengths are those of slices, and what may be written is local.
    let answer = unsafe {
        sys::hanraquin_gate_read_answer(
            data.as_ptr(),
            data.len(),
            number.as_mut_ptr(),
            number.len(),
        )
    };
    let [number] = number;
    match u8::try_from(done::<Refusal>(answer)?) {
        Ok(sys::GATE_ACK) => Ok(Answer::Ack),
        Ok(sys::GATE_NAK) => Ok(Answer::Nak),
        Ok(sys::GATE_BUSY) => Ok(Answer::Busy),
        Ok(sys::GATE_SYN) => Ok(Answer::Syn),
        Ok(sys::GATE_COUNT) => Ok(Answer::Count(number)),
        Ok(sys::GATE_POSITION) => match i8::try_from(number) {
            Ok(position) => Ok(Answer::Position(position)),
            Err(_) => Err(Refusal::IMPOSSIBLE),
        },
        _ => Err(Refusal::IMPOSSIBLE),
    }
}
