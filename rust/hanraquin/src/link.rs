//! 3964R: the frame of a block of data, and the receiving half of a link.

use crate::answer::{done, filled, written};
use crate::{Refusal, sys};

/// Opens a block on the cable. It is sent before the frame, and is no part of it.
///
/// ```
/// use hanraquin::{frame, STX};
///
/// let mut line = [STX, 0, 0, 0];
/// frame(&[], &mut line[1..])?;
/// assert_eq!(line, [0x02, 0x10, 0x03, 0x13]);
/// # Ok::<(), hanraquin::Refusal>(())
/// ```
pub const STX: u8 = 0x02;
/// The good answer. Whoever uses a receiver sends it for a message.
///
/// ```
/// use hanraquin::{Answer, Event, Receiver, DLE, STX};
///
/// assert_eq!(Receiver::new().event(Event::Byte(STX), &mut []), Ok(Answer::Send(DLE)));
/// ```
pub const DLE: u8 = 0x10;

/// The bad answer.
///
/// ```
/// use hanraquin::{Answer, Event, Receiver, NAK};
///
/// assert_eq!(Receiver::new().event(Event::Byte(0xFF), &mut []), Ok(Answer::Send(NAK)));
/// ```
pub const NAK: u8 = 0x15;

/// The most data of a frame, and the length of a buffer that takes every message.
///
/// ```
/// let buffer = [0; hanraquin::DATA_MAX];
/// ```
pub const DATA_MAX: usize = 1024;

/// The length of the longest frame: all data is 10.
///
/// ```
/// assert_eq!(hanraquin::FRAME_MAX, 2 * hanraquin::DATA_MAX + 3);
/// ```
pub const FRAME_MAX: usize = 2051;

/// Writes the frame of `data` into the first places of `out`, and gives these.
///
/// A frame has the data with every 10 in it doubled, closed by 10 03, and at its end a check byte:
/// all that stands before it, taken together by exclusive or.
///
/// # Errors
///
/// [`TooLong`](Refusal::TooLong) for more than [`DATA_MAX`] bytes of data, then
/// [`OutputShort`](Refusal::OutputShort) where the frame does not fit. `out` is as it was then.
///
/// ```
/// use hanraquin::{frame, FRAME_MAX};
///
/// let mut out = [0; FRAME_MAX];
/// assert_eq!(frame(&[0x60, 0x10], &mut out)?, [0x60, 0x10, 0x10, 0x10, 0x03, 0x73]);
/// # Ok::<(), hanraquin::Refusal>(())
/// ```
#[inline]
pub fn frame<'a>(data: &[u8], out: &'a mut [u8]) -> Result<&'a mut [u8], Refusal> {
    // SAFETY: pointers and lengths are those of slices, and `out` is borrowed mutably.
    let answer =
        unsafe { sys::hanraquin_frame(data.as_ptr(), data.len(), out.as_mut_ptr(), out.len()) };
    written(out, answer)
}

/// What a receiver is told, on a cable or on the [gate bus](crate::gate).
///
/// ```
/// let events = [0x02, 0x10, 0x03, 0x13].map(hanraquin::Event::Byte);
/// ```
#[derive(Clone, Copy, PartialEq, Eq, Hash, Debug)]
pub enum Event {
    /// A byte came over the cable or the bus.
    Byte(u8),
    /// The timer ran out.
    Timer,
}

impl Event {
    /// The number that stands for it in the library.
    #[inline]
    pub(crate) const fn number(self) -> u32 {
        match self {
            Event::Byte(byte) => byte as u32,
            Event::Timer => sys::TIMER,
        }
    }
}

/// What a receiver answers to an event.
///
/// ```
/// use hanraquin::{Answer, DLE};
///
/// fn act(answer: Answer, mut send: impl FnMut(u8), mut take: impl FnMut(&[u8])) {
///     match answer {
///         Answer::Nothing => {}
///         Answer::Send(byte) => send(byte),
///         Answer::Message(message) => {
///             send(DLE);
///             take(message);
///         }
///     }
/// }
/// # let mut sent = 0;
/// # act(Answer::Message(&mut []), |byte| sent = byte, |message| assert!(message.is_empty()));
/// # assert_eq!(sent, DLE);
/// ```
#[must_use = "it says what is to be sent"]
#[derive(PartialEq, Eq, Hash, Debug)]
pub enum Answer<'b> {
    /// Send nothing.
    Nothing,
    /// Send this byte.
    Send(u8),
    /// Send [`DLE`]; the data of a block has come, and is this first part of the buffer. It may
    /// be empty.
    Message(&'b mut [u8]),
}

/// The receiving half of a link.
///
/// It is told one event at a time, and is lent the same buffer with each. The buffer takes the
/// data of a block; [`DATA_MAX`] places are enough for every block, and no more are used.
///
/// When the timer runs out is for the caller to say: start it with every byte, and stop it when
/// the receiver [is at rest](Receiver::is_at_rest).
///
/// ```
/// use hanraquin::{frame, Answer, Event, Receiver, DLE, STX};
///
/// let mut out = [0; 16];
/// let framed = frame(b"pump 1 on", &mut out)?;
///
/// let (mut receiver, mut buffer) = (Receiver::new(), [0; 1024]);
/// let answer = receiver.event(Event::Byte(STX), &mut buffer)?;
/// assert_eq!(answer, Answer::Send(DLE));
/// for &mut byte in framed {
///     match receiver.event(Event::Byte(byte), &mut buffer)? {
///         Answer::Nothing => {}
///         Answer::Send(_) => unreachable!("the frame is good"),
///         Answer::Message(message) => assert_eq!(message, b"pump 1 on"), // and DLE is sent
///     }
/// }
/// assert!(receiver.is_at_rest());
/// # Ok::<(), hanraquin::Refusal>(())
/// ```
#[derive(Clone, Copy, PartialEq, Eq, Hash, Debug, Default)]
pub struct Receiver {
    /// Phase, count and running check.
    state: [u64; 3],
}

impl Receiver {
    /// A receiver at rest.
    ///
    /// ```
    /// assert_eq!(hanraquin::Receiver::new(), hanraquin::Receiver::default());
    /// ```
    #[must_use]
    #[inline]
    pub const fn new() -> Receiver {
        Receiver { state: [0; 3] }
    }

    /// Tells the receiver one event, and gives its answer.
    ///
    /// An event changes at most one place of the buffer, the one behind the data so far; and none
    /// if the receiver is at rest afterwards.
    ///
    /// # Errors
    ///
    /// [`Setup`](Refusal::Setup) where the receiver has more data than this buffer has places, or
    /// has a state that cannot be ([`from_state`](Receiver::from_state)); receiver and buffer are
    /// as they were then. A receiver made by [`new`](Receiver::new) that is always lent the same
    /// buffer is never refused.
    ///
    /// ```
    /// use hanraquin::{Answer, Event, Receiver, DLE, NAK, STX};
    ///
    /// let (mut receiver, mut buffer) = (Receiver::new(), [0; 1024]);
    /// assert_eq!(receiver.event(Event::Timer, &mut buffer)?, Answer::Nothing);
    /// assert_eq!(receiver.event(Event::Byte(STX), &mut buffer)?, Answer::Send(DLE));
    /// assert_eq!(receiver.event(Event::Timer, &mut buffer)?, Answer::Send(NAK));
    /// # Ok::<(), hanraquin::Refusal>(())
    /// ```
    #[inline]
    pub fn event<'b>(&mut self, event: Event, buffer: &'b mut [u8]) -> Result<Answer<'b>, Refusal> {
        // SAFETY: pointers and lengths are those of slices, and both are borrowed mutably.
        let answer = unsafe {
            sys::hanraquin_receive(
                self.state.as_mut_ptr(),
                self.state.len(),
                event.number(),
                buffer.as_mut_ptr(),
                buffer.len(),
            )
        };
        // Most bytes are data, and are answered so.
        if answer == 0 {
            return Ok(Answer::Nothing);
        }
        match done::<Refusal>(answer)? {
            value @ sys::MESSAGE.. => filled(buffer, value - sys::MESSAGE).map(Answer::Message),
            // SEND and a byte: the byte is the low one.
            value => Ok(Answer::Send(value as u8)),
        }
    }

    /// Whether no block is open, so that no timer has to run.
    ///
    /// ```
    /// use hanraquin::{Answer, Event, Receiver, DLE, STX};
    ///
    /// let (mut receiver, mut buffer) = (Receiver::new(), [0; 1024]);
    /// assert!(receiver.is_at_rest());
    /// assert_eq!(receiver.event(Event::Byte(STX), &mut buffer)?, Answer::Send(DLE));
    /// assert!(!receiver.is_at_rest());
    /// # Ok::<(), hanraquin::Refusal>(())
    /// ```
    #[must_use]
    #[inline]
    pub const fn is_at_rest(&self) -> bool {
        self.state[0] == 0
    }

    /// The phase (0 rest, 1 inside a block, 2 inside after a DLE, 3 waiting for the check byte),
    /// the count of data bytes in the buffer, and the running check.
    ///
    /// ```
    /// assert_eq!(hanraquin::Receiver::new().state(), [0, 0, 0]);
    /// ```
    #[must_use]
    #[inline]
    pub const fn state(&self) -> [u64; 3] {
        self.state
    }

    /// A receiver with this state. It may be any; one that cannot be is refused at every event
    /// with [`Setup`](Refusal::Setup).
    ///
    /// ```
    /// use hanraquin::{Answer, Event, Receiver, Refusal};
    ///
    /// let mut waiting = Receiver::from_state([3, 0, 0x13]);
    /// assert_eq!(waiting.event(Event::Byte(0x13), &mut [])?, Answer::Message(&mut []));
    /// let mut bad = Receiver::from_state([4, 0, 0]);
    /// assert_eq!(bad.event(Event::Timer, &mut []), Err(Refusal::Setup));
    /// # Ok::<(), hanraquin::Refusal>(())
    /// ```
    #[must_use]
    #[inline]
    pub const fn from_state(state: [u64; 3]) -> Receiver {
        Receiver { state }
    }
}
