//! The 64-bit answers of the library, taken apart.

use crate::sys;

/// The refusals of one part of the library, which have their numbers in its answers.
pub(crate) trait Numbered: Sized {
    /// What is told where the library gives what it is proved never to give: a kind that is neither
    /// done, nor not mine, nor the number of one of these refusals; or a value that stands for
    /// nothing, such as a length that the lent slice does not have. Rust's own test for that costs
    /// next to nothing, and answering so needs no panic and no trust in the linker.
    const IMPOSSIBLE: Self;

    /// The refusal that a number stands for.
    fn numbered(number: u8) -> Option<Self>;
}

/// The value of a call that was done; `None` where the telegram is not mine.
#[inline]
pub(crate) fn taken<R: Numbered>(answer: u64) -> Result<Option<u32>, R> {
    match sys::kind(answer) {
        sys::DONE => Ok(Some(sys::value(answer))),
        sys::NOT_MINE => Ok(None),
        number => Err(refusal(u32::from(number))),
    }
}

/// The value of a call that knows no "not mine".
#[inline]
pub(crate) fn done<R: Numbered>(answer: u64) -> Result<u32, R> {
    taken(answer).and_then(|value| value.ok_or(R::IMPOSSIBLE))
}

/// The refusal of a number.
#[inline]
pub(crate) fn refusal<R: Numbered>(number: u32) -> R {
    u8::try_from(number)
        .ok()
        .and_then(R::numbered)
        .unwrap_or(R::IMPOSSIBLE)
}

/// The first places of a lent slice, as many as a call says that it filled.
#[inline]
pub(crate) fn filled<R: Numbered>(lent: &mut [u8], length: u32) -> Result<&mut [u8], R> {
    lent.get_mut(..length as usize).ok_or(R::IMPOSSIBLE)
}

/// What a call wrote into a lent slice, where its value is the length.
#[inline]
pub(crate) fn written<R: Numbered>(lent: &mut [u8], answer: u64) -> Result<&mut [u8], R> {
    done(answer).and_then(|length| filled(lent, length))
}
