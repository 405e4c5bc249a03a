//! Telegrams of the gate bus: the writer, and the receiver.

use super::Refusal;
use crate::answer::{Numbered, done, filled, written};
use crate::{Event, sys};

/// Opens a telegram.
///
/// ```
/// use hanraquin::gate::{write, START};
///
/// assert_eq!(write(0x10, 0x00, &[0x01], &mut [0; 7])?[0], START);
/// # Ok::<(), hanraquin::gate::Refusal>(())
/// ```
pub const START: u8 = 0x55;

/// The most data of a telegram, and the length of an output that takes all that is received.
///
/// ```
/// let out = [0; hanraquin::gate::DATA_MAX];
/// ```
pub const DATA_MAX: usize = 253;

/// The length of the longest telegram.
///
/// ```
/// use hanraquin::gate::{DATA_MAX, TELEGRAM_MAX};
///
/// assert_eq!(TELEGRAM_MAX, DATA_MAX + 6);
/// ```
pub const TELEGRAM_MAX: usize = 259;

/// Writes a telegram from `source` for `destination` into the first places of `out`, and gives
/// these.
///
/// `data` has at most [`DATA_MAX`] bytes, and is not looked into. Without data the telegram is a
/// token, and both addresses are 00 to 0F. `data.len() + 6` places are enough, and
/// [`TELEGRAM_MAX`] always.
///
/// # Errors
///
/// In this order: [`Address`](Refusal::Address) where an address is FF, or where there is no data
/// and an address is above 0F; [`Length`](Refusal::Length) for more than [`DATA_MAX`] bytes of
/// data; [`OutputShort`](Refusal::OutputShort). `out` is as it was then.
///
/// ```
/// use hanraquin::gate::{write, Refusal, TELEGRAM_MAX};
///
/// let mut out = [0; TELEGRAM_MAX];
/// let telegram = write(0x10, 0x00, &[0x01, 0x01, 0x01], &mut out)?;
/// assert_eq!(telegram, [0x55, 0x10, 0x00, 0x03, 0x01, 0x01, 0x01, 0xF7, 0x86]);
/// let token = write(0x01, 0x00, &[], &mut out)?;
/// assert_eq!(token, [0x55, 0x01, 0x00, 0x00, 0x7A, 0x8E]);
/// assert_eq!(write(0x10, 0x00, &[], &mut out), Err(Refusal::Address));
/// # Ok::<(), hanraquin::gate::Refusal>(())
/// ```
#[inline]
pub fn write<'a>(
    destination: u8,
    source: u8,
    data: &[u8],
    out: &'a mut [u8],
) -> Result<&'a mut [u8], Refusal> {
    // SAFETY: pointers and lengths are those of slices, and `out` is borrowed mutably.
    let answer = unsafe {
        sys::hanraquin_gate_write(
            destination,
            source,
            data.as_ptr(),
            data.len(),
            out.as_mut_ptr(),
            out.len(),
        )
    };
    written(out, answer)
}

/// What a receiver has taken from the bus with an event.
///
/// ```
/// use hanraquin::gate::Received;
///
/// fn data_from(master: u8, received: Received) -> Option<&mut [u8]> {
///     match received {
///         Received::Telegram { source, data } if source == master => Some(data),
///         _ => None,
///     }
/// }
/// # assert_eq!(data_from(0x00, Received::Token { source: 0x00 }), None);
/// ```
#[must_use = "what was received is told only once"]
#[derive(PartialEq, Eq, Hash, Debug)]
pub enum Received<'a> {
    /// Nothing is complete.
    Nothing,
    /// A telegram with data.
    Telegram {
        /// Who sent it.
        source: u8,
        /// Its data, 1 to [`DATA_MAX`] bytes: the first part of the output.
        data: &'a mut [u8],
    },
    /// A token, which is a telegram without data.
    Token {
        /// The master that sent it.
        source: u8,
    },
}

/// A receiver on the bus, with its own address.
///
/// It is told one event at a time. A telegram begins with [`START`]; one for another address is
/// counted off by its length and not read, and one for the own address is judged at its last byte.
/// Until then the data waits inside the receiver.
///
/// When the timer runs out is for the caller to say: start it with the first byte of a telegram,
/// and stop it when the receiver [is at rest](Receiver::is_at_rest).
///
/// ```
/// use hanraquin::gate::{Received, Receiver, DATA_MAX};
/// use hanraquin::Event;
///
/// let (mut receiver, mut out) = (Receiver::new(0x10), [0; DATA_MAX]);
/// for byte in [0x55, 0x10, 0x00, 0x03, 0x01, 0x01, 0x01, 0xF7, 0x86] {
///     match receiver.event(Event::Byte(byte), &mut out)? {
///         Received::Nothing => {}
///         Received::Telegram { source, data } => assert_eq!((source, data), (0, &mut [1; 3][..])),
///         Received::Token { .. } => unreachable!("there is data"),
///     }
/// }
/// assert!(receiver.is_at_rest());
/// # Ok::<(), hanraquin::gate::Refusal>(())
/// ```
#[derive(Clone, PartialEq, Eq, Hash, Debug)]
pub struct Receiver {
    /// The address of the receiver.
    own: u8,
    /// The phase, and what goes with it.
    state: [u64; 7],
    /// The data of a telegram that is not judged yet.
    store: [u8; DATA_MAX],
}

impl Receiver {
    /// A receiver at rest with the address `own`, 00 to FE. With FF it is refused at every event
    /// with [`Address`](Refusal::Address).
    ///
    /// ```
    /// let master = hanraquin::gate::Receiver::new(0x00);
    /// assert!(master.is_at_rest());
    /// ```
    #[must_use]
    #[inline]
    pub const fn new(own: u8) -> Receiver {
        Receiver::from_state(own, [0; 7], [0; DATA_MAX])
    }

    /// Tells the receiver one event, and gives what came with it.
    ///
    /// Only a telegram with data changes `out`. [`DATA_MAX`] places are always enough. The timer
    /// has the receiver start again.
    ///
    /// # Errors
    ///
    /// [`Setup`](Refusal::Setup) where the receiver has a state that cannot be
    /// ([`from_state`](Receiver::from_state)); it is as it was then. After any other refusal it
    /// has started again, and is at rest:
    ///
    /// - [`Address`](Refusal::Address) where the own address is FF, at every event;
    /// - [`Length`](Refusal::Length) at the length byte of a telegram for the own address, if that
    ///   is 254 or 255;
    /// - at the last byte of a telegram for the own address, in this order:
    ///   [`Check`](Refusal::Check) for a wrong check; [`Address`](Refusal::Address) for the source
    ///   FF, and for a token whose source or destination is above 0F;
    ///   [`OutputShort`](Refusal::OutputShort) for data that `out` does not hold.
    ///
    /// `out` is as it was then. A telegram for another address is dropped whatever is in it.
    ///
    /// ```
    /// use hanraquin::gate::{Received, Receiver, Refusal};
    /// use hanraquin::Event;
    ///
    /// let (mut receiver, mut out) = (Receiver::new(0x01), [0; 253]);
    /// let mut last = Ok(Received::Nothing);
    /// for byte in [0x55, 0x01, 0x00, 0x00, 0x7A, 0x8E] {
    ///     last = receiver.event(Event::Byte(byte), &mut out);
    /// }
    /// assert_eq!(last, Ok(Received::Token { source: 0x00 }));
    /// for byte in [0x55, 0x01, 0x00, 0x00, 0x7A, 0x8F] {
    ///     last = receiver.event(Event::Byte(byte), &mut out);
    /// }
    /// assert_eq!(last, Err(Refusal::Check));
    /// ```
    #[inline]
    pub fn event<'a>(&mut self, event: Event, out: &'a mut [u8]) -> Result<Received<'a>, Refusal> {
        // SAFETY: pointers and lengths are those of slices, and all three are borrowed mutably.
        let answer = unsafe {
            sys::hanraquin_gate_receive(
                self.own,
                self.state.as_mut_ptr(),
                self.state.len(),
                self.store.as_mut_ptr(),
                self.store.len(),
                event.number(),
                out.as_mut_ptr(),
                out.len(),
            )
        };
        // All bytes of a telegram but the last are answered so.
        if answer == 0 {
            return Ok(Received::Nothing);
        }
        match done::<Refusal>(answer)? {
            // The source is the low byte.
            value @ sys::GATE_TOKEN.. => Ok(Received::Token {
                source: value as u8,
            }),
            // The source is the second byte, and the number of data bytes the low one.
            value @ sys::GATE_TELEGRAM.. => Ok(Received::Telegram {
                source: (value >> 8) as u8,
                data: filled::<Refusal>(out, value & 0xFF)?,
            }),
            _ => Err(Refusal::IMPOSSIBLE),
        }
    }

    /// Whether no telegram has begun, so that no timer has to run.
    ///
    /// ```
    /// use hanraquin::gate::{Received, Receiver, START};
    /// use hanraquin::Event;
    ///
    /// let mut receiver = Receiver::new(0x10);
    /// assert_eq!(receiver.event(Event::Byte(START), &mut [])?, Received::Nothing);
    /// assert!(!receiver.is_at_rest());
    /// assert_eq!(receiver.event(Event::Timer, &mut [])?, Received::Nothing);
    /// assert!(receiver.is_at_rest());
    /// # Ok::<(), hanraquin::gate::Refusal>(())
    /// ```
    #[must_use]
    #[inline]
    pub const fn is_at_rest(&self) -> bool {
        self.state[0] == 0
    }

    /// The address of the receiver.
    ///
    /// ```
    /// assert_eq!(hanraquin::gate::Receiver::new(0x10).own(), 0x10);
    /// ```
    #[must_use]
    #[inline]
    pub const fn own(&self) -> u8 {
        self.own
    }

    /// The words of the state. The first is the phase:
    ///
    /// | phase | | has the words |
    /// |---|---|---|
    /// | 0 | at rest | |
    /// | 1 | waiting for the destination | |
    /// | 2 | in a telegram for the own address, waiting for the source | 1, 5 |
    /// | 3 | the same, for the length | 1, 2, 5 |
    /// | 4 | the same, for data, or then for the high check byte | 1, 2, 3, 4, 5 |
    /// | 5 | the same, for the low check byte | 1, 2, 3, 5, 6 |
    /// | 6 | in a telegram for another address, waiting for the source | |
    /// | 7 | the same, for the length | |
    /// | 8 | the same, dropping what is left | 4 |
    ///
    /// Word 1 is the destination, 2 the source, 3 the length, 4 the number of data bytes so far or,
    /// in phase 8, of bytes left to drop, 5 the running check, and 6 the high check byte. The words
    /// that a phase does not have are 0.
    ///
    /// ```
    /// assert_eq!(hanraquin::gate::Receiver::new(0x10).state(), [0; 7]);
    /// ```
    #[must_use]
    #[inline]
    pub const fn state(&self) -> [u64; 7] {
        self.state
    }

    /// The store: it begins with the data of a telegram that is not judged yet. The rest is left
    /// from telegrams before.
    ///
    /// ```
    /// use hanraquin::gate::{Received, Receiver};
    /// use hanraquin::Event;
    ///
    /// let mut receiver = Receiver::new(0x10);
    /// for byte in [0x55, 0x10, 0x00, 0x03, 0xAB, 0xCD] {
    ///     assert_eq!(receiver.event(Event::Byte(byte), &mut [])?, Received::Nothing);
    /// }
    /// assert_eq!(receiver.store()[..2], [0xAB, 0xCD]);
    /// # Ok::<(), hanraquin::gate::Refusal>(())
    /// ```
    #[must_use]
    #[inline]
    pub const fn store(&self) -> &[u8; DATA_MAX] {
        &self.store
    }

    /// A receiver with this address, state and store. The state may be any; one that cannot be is
    /// refused at every event with [`Setup`](Refusal::Setup).
    ///
    /// ```
    /// use hanraquin::gate::{Received, Receiver, Refusal, DATA_MAX};
    /// use hanraquin::Event;
    ///
    /// let dropping = [8, 0, 0, 0, 1, 0, 0];
    /// let mut receiver = Receiver::from_state(0x10, dropping, [0; DATA_MAX]);
    /// assert_eq!(receiver.event(Event::Byte(0x55), &mut [])?, Received::Nothing);
    /// assert!(receiver.is_at_rest());
    /// let mut bad = Receiver::from_state(0x10, [9, 0, 0, 0, 0, 0, 0], [0; DATA_MAX]);
    /// assert_eq!(bad.event(Event::Timer, &mut []), Err(Refusal::Setup));
    /// # Ok::<(), hanraquin::gate::Refusal>(())
    /// ```
    #[must_use]
    #[inline]
    pub const fn from_state(own: u8, state: [u64; 7], store: [u8; DATA_MAX]) -> Receiver {
        Receiver { own, state, store }
    }
}
