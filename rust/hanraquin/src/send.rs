//! 3964R: the sending half of a link.

use crate::answer::{done, filled};
use crate::{Refusal, sys};

/// Which end of a cable yields where both open together. One end has to be low, and the other one
/// high.
///
/// Two low ends that open together yield to each other again and again, and two high ends both give
/// up.
///
/// ```
/// use hanraquin::{Phase, Priority, Sender, STX};
///
/// let (mut buffer, mut out) = ([0; 1024], [0; 2051]);
/// for (priority, after) in [(Priority::Low, Phase::Receiving), (Priority::High, Phase::Opening)] {
///     let mut sender = Sender::new(3, 2, priority);
///     assert_eq!(sender.start(b"pump 1 on", &mut buffer, &mut out)?.bytes, [STX]);
///     // The other end has opened, too.
///     let _ = sender.byte(STX, b"pump 1 on", &mut buffer, &mut out)?;
///     assert_eq!(sender.phase(), after);
/// }
/// # Ok::<(), hanraquin::Refusal>(())
/// ```
#[derive(Clone, Copy, PartialEq, Eq, Hash, Debug)]
#[repr(u8)]
pub enum Priority {
    /// It yields: it receives the block of the other end, and then begins afresh.
    Low = 0,
    /// It keeps waiting.
    High = 1,
}

/// Where a sender is.
///
/// ```
/// use hanraquin::{Phase, Priority, Sender};
///
/// assert_eq!(Sender::new(3, 2, Priority::Low).phase(), Phase::Fresh);
/// ```
#[derive(Clone, Copy, PartialEq, Eq, Hash, Debug)]
#[repr(u8)]
pub enum Phase {
    /// It has not been started.
    Fresh = 0,
    /// It has sent [`STX`](crate::STX), and waits for [`DLE`](crate::DLE).
    Opening = 1,
    /// It has sent the block, and waits for [`DLE`](crate::DLE).
    Awaiting = 2,
    /// It has yielded, and receives the block of the other end.
    Receiving = 3,
    /// The block was sent, and the other end has taken it.
    Sent = 4,
    /// The attempts are used up.
    GaveUp = 5,
    /// The state has a number that stands for no phase; it is refused at every event.
    Unknown,
}

/// What a sender answers to an event.
///
/// ```
/// use hanraquin::Sending;
///
/// fn act(sending: Sending, mut send: impl FnMut(&[u8]), mut take: impl FnMut(&[u8])) {
///     send(sending.bytes);
///     if let Some(message) = sending.message {
///         take(message);
///     }
/// }
/// # let mut sent = vec![];
/// # let sending = Sending { bytes: &mut [0x10, 0x02], message: Some(&mut []) };
/// # act(sending, |bytes| sent.extend_from_slice(bytes), |message| assert!(message.is_empty()));
/// # assert_eq!(sent, [0x10, 0x02]);
/// ```
#[must_use = "it says what is to be sent"]
#[derive(PartialEq, Eq, Hash, Debug)]
pub struct Sending<'o, 'b> {
    /// What has to go out now, and is this first part of the output: nothing, one or two control
    /// bytes, or a block, which has 3 bytes or more.
    pub bytes: &'o mut [u8],
    /// The data of a block of the other end, which came while the sender had yielded. It is this
    /// first part of the buffer, and may be empty.
    pub message: Option<&'b mut [u8]>,
}

/// The sending half of a link.
///
/// It opens by [`STX`](crate::STX), sends the data as a block when [`DLE`](crate::DLE) comes, and is
/// done when [`DLE`](crate::DLE) comes once more. Any other byte, and the timer, fails an attempt.
/// There are two limits: how often it opens for each block, and how often it sends the block. Where
/// both ends open together, the one of low [`Priority`] yields, receives the block of the other end
/// and begins afresh, with no attempt failed.
///
/// | phase | event | sends | next phase |
/// |---|---|---|---|
/// | fresh | start | 02 | opening; no attempt failed |
/// | opening | 10 | the block | awaiting |
/// | opening | 02, low priority | 10 | receiving; no attempt failed |
/// | opening | 02, high priority | | opening |
/// | opening | another byte, timer | 02 | opening; one connection more failed |
/// | opening | the same, with none left | | gave up |
/// | awaiting | 10 | | sent |
/// | awaiting | another byte, timer | 02 | opening; one block more failed, no connection |
/// | awaiting | the same, with none left | | gave up |
/// | receiving | byte, timer | what a receiver sends | receiving |
/// | receiving | the same, which ends the block | the same, and 02 | opening; no attempt failed |
/// | else | | | as it is |
///
/// A sender is told one event at a time, and is lent the same data and the same buffer with each,
/// and an output. [`FRAME_MAX`](crate::FRAME_MAX) places of output are enough for every event, and 2
/// for every event but the one that sends the block; [`DATA_MAX`](crate::DATA_MAX) places of buffer
/// are enough for every block. From [`start`](Sender::start) or a yield up to the next yield it
/// opens at most as often as the product of the limits says, and sends at most as many blocks as the
/// second.
///
/// For the caller to do:
///
/// - While a sending [is under way](Sender::is_under_way), run the timer, and hand what comes to the
///   sender; else to a [`Receiver`](crate::Receiver). Start only while that is at rest.
/// - Drop what comes while a block is still going out, and do not hand it over later: a 10 would be
///   taken for the answer to the block, and a 15 would send 02 into it.
/// - Go on listening with high priority: the other end, which has yielded, answers the block by 10
///   02. The sender is done with this 10, and the 02 opens a block for a receiver.
/// - Begin the next sending with a new sender.
///
/// Where the answer to a block is lost, the block is sent again and may come twice; and a sender that
/// gave up does not say that nothing came.
///
/// ```
/// use hanraquin::{Phase, Priority, Sender, DATA_MAX, DLE, FRAME_MAX, STX};
///
/// let mut sender = Sender::new(3, 2, Priority::High);
/// let (data, mut buffer, mut out) = ([0x60, 0x10], [0; DATA_MAX], [0; FRAME_MAX]);
/// assert_eq!(sender.start(&data, &mut buffer, &mut out)?.bytes, [STX]);
/// let block = sender.byte(DLE, &data, &mut buffer, &mut out)?.bytes;
/// assert_eq!(block, [0x60, 0x10, 0x10, 0x10, 0x03, 0x73]);
/// assert_eq!(sender.byte(DLE, &data, &mut buffer, &mut out)?.bytes, []);
/// assert_eq!(sender.phase(), Phase::Sent);
/// # Ok::<(), hanraquin::Refusal>(())
/// ```
#[derive(Clone, Copy, PartialEq, Eq, Hash, Debug)]
pub struct Sender {
    /// Phase, limits, priority, failed attempts, and the three numbers of a receiving half.
    state: [u64; 9],
}

impl Sender {
    /// The least that a limit may be.
    ///
    /// ```
    /// use hanraquin::{Phase, Priority, Sender};
    ///
    /// let once = Sender::LIMIT_MIN;
    /// let (mut sender, mut out) = (Sender::new(once, once, Priority::High), [0; 2]);
    /// assert_eq!(sender.start(&[], &mut [], &mut out)?.bytes, [0x02]);
    /// assert_eq!(sender.timer(&[], &mut [], &mut out)?.bytes, []);
    /// assert_eq!(sender.phase(), Phase::GaveUp);
    /// # Ok::<(), hanraquin::Refusal>(())
    /// ```
    pub const LIMIT_MIN: u64 = 1;

    /// The greatest that a limit may be.
    ///
    /// ```
    /// use hanraquin::{Priority, Refusal, Sender};
    ///
    /// let most = Sender::LIMIT_MAX;
    /// assert!(Sender::new(most, most, Priority::Low).start(&[], &mut [], &mut [0]).is_ok());
    /// let mut bad = Sender::new(most, most + 1, Priority::Low);
    /// assert_eq!(bad.start(&[], &mut [], &mut [0]), Err(Refusal::Setup));
    /// ```
    pub const LIMIT_MAX: u64 = 255;

    /// A sender that opens up to `connections` times for each block, and sends the block up to
    /// `blocks` times.
    ///
    /// Both limits are [`LIMIT_MIN`](Sender::LIMIT_MIN) to [`LIMIT_MAX`](Sender::LIMIT_MAX). With
    /// another it is refused at every event with [`Setup`](Refusal::Setup).
    ///
    /// ```
    /// use hanraquin::{Phase, Priority, Sender};
    ///
    /// let sender = Sender::new(3, 2, Priority::High);
    /// assert_eq!(sender.state(), [0, 3, 2, 1, 0, 0, 0, 0, 0]);
    /// ```
    #[must_use]
    #[inline]
    pub const fn new(connections: u64, blocks: u64, priority: Priority) -> Sender {
        Sender::from_state([0, connections, blocks, priority as u64, 0, 0, 0, 0, 0])
    }

    /// Tells a fresh sender to begin. In every other phase it gets nothing.
    ///
    /// # Errors
    ///
    /// Those of every event, in this order. Sender, buffer and output are as they were then, and the
    /// event may be told again.
    ///
    /// - [`Setup`](Refusal::Setup) where a limit is not [`LIMIT_MIN`](Sender::LIMIT_MIN) to
    ///   [`LIMIT_MAX`](Sender::LIMIT_MAX), where the sender receives and has more data than this
    ///   buffer has places, or where it has a state that cannot be
    ///   ([`from_state`](Sender::from_state));
    /// - [`TooLong`](Refusal::TooLong) for more than [`DATA_MAX`](crate::DATA_MAX) bytes of data;
    /// - [`OutputShort`](Refusal::OutputShort) where what has to be sent does not fit.
    ///
    /// ```
    /// use hanraquin::{Priority, Refusal, Sender, STX};
    ///
    /// let mut sender = Sender::new(3, 2, Priority::Low);
    /// let answer = sender.start(b"pump 1 on", &mut [], &mut []);
    /// assert_eq!(answer, Err(Refusal::OutputShort));
    /// assert_eq!(sender.start(b"pump 1 on", &mut [], &mut [0])?.bytes, [STX]);
    /// # Ok::<(), hanraquin::Refusal>(())
    /// ```
    #[inline]
    pub fn start<'o, 'b>(
        &mut self,
        data: &[u8],
        buffer: &'b mut [u8],
        out: &'o mut [u8],
    ) -> Result<Sending<'o, 'b>, Refusal> {
        self.event(sys::START, data, buffer, out)
    }

    /// Tells the sender that a byte came.
    ///
    /// # Errors
    ///
    /// Those of [`start`](Sender::start).
    ///
    /// ```
    /// use hanraquin::{Priority, Sender, DLE, NAK, STX};
    ///
    /// let (data, mut buffer, mut out) = ([0x03], [0; 1024], [0; 2051]);
    /// let mut sender = Sender::new(3, 2, Priority::Low);
    /// assert_eq!(sender.start(&data, &mut buffer, &mut out)?.bytes, [STX]);
    ///
    /// // The other end opens too, and this one yields.
    /// assert_eq!(sender.byte(STX, &data, &mut buffer, &mut out)?.bytes, [DLE]);
    /// for byte in [0x60, 0x10, 0x03] {
    ///     assert_eq!(sender.byte(byte, &data, &mut buffer, &mut out)?.bytes, []);
    /// }
    /// let sending = sender.byte(0x73, &data, &mut buffer, &mut out)?;
    /// assert_eq!((&*sending.bytes, &*sending.message.unwrap()), (&[DLE, STX][..], &[0x60][..]));
    ///
    /// // Now its own block is sent, is not taken, and will be sent again.
    /// let block = sender.byte(DLE, &data, &mut buffer, &mut out)?.bytes;
    /// assert_eq!(block, [0x03, 0x10, 0x03, 0x10]);
    /// assert_eq!(sender.byte(NAK, &data, &mut buffer, &mut out)?.bytes, [STX]);
    /// # Ok::<(), hanraquin::Refusal>(())
    /// ```
    #[inline]
    pub fn byte<'o, 'b>(
        &mut self,
        byte: u8,
        data: &[u8],
        buffer: &'b mut [u8],
        out: &'o mut [u8],
    ) -> Result<Sending<'o, 'b>, Refusal> {
        self.event(byte.into(), data, buffer, out)
    }

    /// Tells the sender that the timer ran out.
    ///
    /// # Errors
    ///
    /// Those of [`start`](Sender::start).
    ///
    /// ```
    /// use hanraquin::{Phase, Priority, Sender, STX};
    ///
    /// let (mut sender, mut out) = (Sender::new(2, 1, Priority::Low), [0; 2]);
    /// assert_eq!(sender.start(&[], &mut [], &mut out)?.bytes, [STX]);
    /// assert_eq!(sender.timer(&[], &mut [], &mut out)?.bytes, [STX]);
    /// assert_eq!(sender.timer(&[], &mut [], &mut out)?.bytes, []);
    /// assert_eq!(sender.phase(), Phase::GaveUp);
    /// # Ok::<(), hanraquin::Refusal>(())
    /// ```
    #[inline]
    pub fn timer<'o, 'b>(
        &mut self,
        data: &[u8],
        buffer: &'b mut [u8],
        out: &'o mut [u8],
    ) -> Result<Sending<'o, 'b>, Refusal> {
        self.event(sys::TIMER, data, buffer, out)
    }

    /// Tells the sender an event by its number.
    #[inline]
    fn event<'o, 'b>(
        &mut self,
        event: u32,
        data: &[u8],
        buffer: &'b mut [u8],
        out: &'o mut [u8],
    ) -> Result<Sending<'o, 'b>, Refusal> {
        // SAFETY: pointers and lengths are those of slices, and all but `data` are borrowed mutably.
        let answer = unsafe {
            sys::hanraquin_send(
                self.state.as_mut_ptr(),
                self.state.len(),
                event,
                data.as_ptr(),
                data.len(),
                buffer.as_mut_ptr(),
                buffer.len(),
                out.as_mut_ptr(),
                out.len(),
            )
        };
        let value = done::<Refusal>(answer)?;
        Ok(Sending {
            bytes: filled::<Refusal>(out, value % sys::MESSAGE)?,
            message: match value / sys::MESSAGE {
                0 => None,
                more => Some(filled::<Refusal>(buffer, more - 1)?),
            },
        })
    }

    /// Where the sender is.
    ///
    /// ```
    /// use hanraquin::{Phase, Priority, Sender};
    ///
    /// let mut sender = Sender::new(3, 2, Priority::Low);
    /// assert_eq!(sender.phase(), Phase::Fresh);
    /// let _ = sender.start(&[], &mut [], &mut [0])?;
    /// assert_eq!(sender.phase(), Phase::Opening);
    /// # Ok::<(), hanraquin::Refusal>(())
    /// ```
    #[must_use]
    #[inline]
    pub const fn phase(&self) -> Phase {
        match self.state[0] {
            0 => Phase::Fresh,
            1 => Phase::Opening,
            2 => Phase::Awaiting,
            3 => Phase::Receiving,
            4 => Phase::Sent,
            5 => Phase::GaveUp,
            _ => Phase::Unknown,
        }
    }

    /// Whether the sender is opening, awaiting or receiving, so that a timer has to run, and what
    /// comes is for it.
    ///
    /// ```
    /// use hanraquin::{Priority, Sender, DLE};
    ///
    /// let (mut sender, mut out) = (Sender::new(3, 2, Priority::Low), [0; 3]);
    /// assert!(!sender.is_under_way());
    /// let _ = sender.start(&[], &mut [], &mut out)?;
    /// assert!(sender.is_under_way());
    /// let _ = sender.byte(DLE, &[], &mut [], &mut out)?;
    /// let _ = sender.byte(DLE, &[], &mut [], &mut out)?;
    /// assert!(!sender.is_under_way());
    /// # Ok::<(), hanraquin::Refusal>(())
    /// ```
    #[must_use]
    #[inline]
    pub const fn is_under_way(&self) -> bool {
        matches!(
            self.phase(),
            Phase::Opening | Phase::Awaiting | Phase::Receiving
        )
    }

    /// How many connections have failed in this attempt to send the block. A sender that gave up
    /// opening has as many as its limit.
    ///
    /// ```
    /// use hanraquin::{Priority, Sender};
    ///
    /// let (mut sender, mut out) = (Sender::new(3, 2, Priority::Low), [0; 2]);
    /// let _ = sender.start(&[], &mut [], &mut out)?;
    /// let _ = sender.timer(&[], &mut [], &mut out)?;
    /// assert_eq!(sender.failed_connections(), 1);
    /// # Ok::<(), hanraquin::Refusal>(())
    /// ```
    #[must_use]
    #[inline]
    pub const fn failed_connections(&self) -> u64 {
        self.state[4]
    }

    /// How many blocks have failed. A sender whose last block failed has as many as its limit.
    ///
    /// ```
    /// use hanraquin::{Priority, Sender, DLE, NAK};
    ///
    /// let (mut sender, mut out) = (Sender::new(3, 2, Priority::Low), [0; 3]);
    /// let _ = sender.start(&[], &mut [], &mut out)?;
    /// let _ = sender.byte(DLE, &[], &mut [], &mut out)?;
    /// let _ = sender.byte(NAK, &[], &mut [], &mut out)?;
    /// assert_eq!(sender.failed_blocks(), 1);
    /// # Ok::<(), hanraquin::Refusal>(())
    /// ```
    #[must_use]
    #[inline]
    pub const fn failed_blocks(&self) -> u64 {
        self.state[5]
    }

    /// The phase (0 fresh, 1 opening, 2 awaiting, 3 receiving, 4 sent, 5 gave up), the limits of
    /// connections and of blocks, the priority (0 low, 1 high), the failed connections and the
    /// failed blocks; and then, while it receives, the [state of a
    /// receiver](crate::Receiver::state), and else three zeros.
    ///
    /// ```
    /// use hanraquin::{Priority, Sender};
    ///
    /// assert_eq!(Sender::new(3, 2, Priority::Low).state(), [0, 3, 2, 0, 0, 0, 0, 0, 0]);
    /// ```
    #[must_use]
    #[inline]
    pub const fn state(&self) -> [u64; 9] {
        self.state
    }

    /// A sender with this state. It may be any; one that cannot be is refused at every event with
    /// [`Setup`](Refusal::Setup).
    ///
    /// Such is a state with a limit that is not [`LIMIT_MIN`](Sender::LIMIT_MIN) to
    /// [`LIMIT_MAX`](Sender::LIMIT_MAX), with more failed attempts than a limit, with a phase or a
    /// priority that there is not, with a receiver's state that cannot be, or with one outside of
    /// receiving.
    ///
    /// ```
    /// use hanraquin::{Phase, Priority, Refusal, Sender, DLE};
    ///
    /// let mut awaiting = Sender::from_state([2, 3, 2, 0, 0, 0, 0, 0, 0]);
    /// assert_eq!(awaiting.byte(DLE, &[], &mut [], &mut [])?.bytes, []);
    /// assert_eq!(awaiting.phase(), Phase::Sent);
    /// let mut bad = Sender::from_state([2, 3, 2, 0, 4, 0, 0, 0, 0]);
    /// assert_eq!(bad.byte(DLE, &[], &mut [], &mut []), Err(Refusal::Setup));
    /// # Ok::<(), hanraquin::Refusal>(())
    /// ```
    #[must_use]
    #[inline]
    pub const fn from_state(state: [u64; 9]) -> Sender {
        Sender { state }
    }
}
