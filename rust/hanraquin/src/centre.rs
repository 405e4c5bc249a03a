//! The centre, which writes requests and reads replies.

use crate::answer::{Numbered, taken, written};
use crate::{Refusal, sys};

/// The most stations of a route.
///
/// ```
/// use hanraquin::{write_request, Refusal, REQUEST_MAX, ROUTE};
///
/// let stations: [u8; ROUTE + 1] = core::array::from_fn(|i| i as u8 + 1);
/// let mut out = [0; REQUEST_MAX];
/// assert!(write_request(&stations[..ROUTE], 0, 0, 0, &[], &mut out).is_ok());
/// assert_eq!(write_request(&stations, 0, 0, 0, &[], &mut out), Err(Refusal::Block));
/// ```
pub const ROUTE: usize = 31;

/// The length of the longest request.
///
/// ```
/// let out = [0; hanraquin::REQUEST_MAX];
/// ```
pub const REQUEST_MAX: usize = 555;

/// Writes a request into the first places of `out`, and gives these.
///
/// `route` has the addresses of the relays in order, and that of the destination last: 1 to
/// [`ROUTE`] different ones, each 1 to 240. The request reads `read_count` registers from
/// `read_start` on, and writes `values` to the registers from `write_start` on; of either there
/// may be 0 to 255. Registers and values are judged by the destination, and not here. An output
/// of [`REQUEST_MAX`] places is always enough.
///
/// [`Request`] is the same with names for its parts.
///
/// # Errors
///
/// In this order: [`Block`](Refusal::Block) for a route that breaks its rule,
/// [`TooLong`](Refusal::TooLong) for more than 255 registers to read or values to write, and
/// [`OutputShort`](Refusal::OutputShort). `out` is as it was then.
///
/// ```
/// use hanraquin::{write_request, REQUEST_MAX};
///
/// let mut out = [0; REQUEST_MAX];
/// let request = write_request(&[0x12, 0x13, 0x55], 955, 1, 300, &[1], &mut out)?;
/// assert_eq!(
///     request,
///     [0x60, 0xFF, 0x12, 0x13, 0x55, 0x00, 0x03, 0xBB, 0x01, 0x01, 0x2C, 0x01, 0x00, 0x01]
/// );
/// # Ok::<(), hanraquin::Refusal>(())
/// ```
#[inline]
pub fn write_request<'a>(
    route: &[u8],
    read_start: u16,
    read_count: usize,
    write_start: u16,
    values: &[u16],
    out: &'a mut [u8],
) -> Result<&'a mut [u8], Refusal> {
    // SAFETY: pointers and lengths are those of slices, and `out` is borrowed mutably.
    let answer = unsafe {
        sys::hanraquin_write_request(
            route.as_ptr(),
            route.len(),
            read_start,
            read_count,
            write_start,
            values.as_ptr(),
            values.len(),
            out.as_mut_ptr(),
            out.len(),
        )
    };
    written(out, answer)
}

/// The parts of a request. The default asks for nothing, and has no route.
///
/// ```
/// use hanraquin::Request;
///
/// let pump_on = Request {
///     route: &[0x12, 0x13, 0x55],
///     write_start: 300,
///     values: &[1],
///     ..Request::default()
/// };
/// assert_eq!(pump_on.read_count, 0);
/// ```
#[derive(Clone, Copy, PartialEq, Eq, Hash, Debug, Default)]
pub struct Request<'r> {
    /// The addresses of the relays in order, and that of the destination last.
    pub route: &'r [u8],
    /// The number of the first register to read.
    pub read_start: u16,
    /// How many registers to read, 0 to 255.
    pub read_count: usize,
    /// The number of the first register to write.
    pub write_start: u16,
    /// The values to write, 0 to 255 of them.
    pub values: &'r [u16],
}

impl Request<'_> {
    /// Writes the request, as [`write_request`] does.
    ///
    /// # Errors
    ///
    /// Those of [`write_request`].
    ///
    /// ```
    /// use hanraquin::{Request, REQUEST_MAX};
    ///
    /// let mut out = [0; REQUEST_MAX];
    /// let ask = Request { route: &[0x55], read_start: 955, read_count: 8, ..Request::default() };
    /// assert_eq!(ask.write(&mut out)?, [0x60, 0xFF, 0x55, 0, 0, 0, 0x03, 0xBB, 8, 0, 0, 0]);
    /// # Ok::<(), hanraquin::Refusal>(())
    /// ```
    #[inline]
    pub fn write<'a>(&self, out: &'a mut [u8]) -> Result<&'a mut [u8], Refusal> {
        write_request(
            self.route,
            self.read_start,
            self.read_count,
            self.write_start,
            self.values,
            out,
        )
    }
}

/// What the centre makes of a telegram that came back.
///
/// ```
/// use hanraquin::{read_reply, Reply};
///
/// # let telegram = [0xE0, 0xFF, 0x00, 0x12, 0x55, 0x00, 0x03, 0xB8, 0x01, 0x00, 0x0F];
/// match read_reply(&telegram) {
///     Ok(Reply::Accepted(reply)) => println!("{} values", reply.count),
///     Ok(Reply::NotMine) => {}
///     Err(refusal) => eprintln!("{refusal}"),
/// }
/// ```
#[derive(Clone, Copy, PartialEq, Eq, Hash, Debug)]
pub enum Reply<'t> {
    /// It is a reply for the centre.
    Accepted(Accepted<'t>),
    /// It is a reply that a relay has to send on.
    NotMine,
}

/// A reply for the centre.
///
/// ```
/// use hanraquin::{read_reply, Reply};
///
/// let telegram = [0xE0, 0xFF, 0x00, 0x12, 0x55, 0x00, 0x03, 0xB8, 2, 0x00, 0x0F, 0x00, 0x02];
/// let Reply::Accepted(reply) = read_reply(&telegram)? else { unreachable!() };
/// assert_eq!(reply.route(), [0x12, 0x55]);
/// assert_eq!((reply.start, reply.count), (952, 2));
/// assert!(reply.values().eq([15, 2]));
/// # Ok::<(), hanraquin::Refusal>(())
/// ```
#[derive(Clone, Copy, PartialEq, Eq, Hash, Debug)]
pub struct Accepted<'t> {
    /// The number of the first register that was read.
    pub start: u16,
    /// How many registers were read, 0 to 255.
    pub count: usize,
    /// The stations, and 0 in the places that are left.
    route: [u8; ROUTE],
    /// Two bytes for each value.
    value_bytes: &'t [u8],
}

impl<'t> Accepted<'t> {
    /// The stations that the reply names: the relays in the order in which the request went
    /// through them, and the destination last.
    ///
    /// ```
    /// # use hanraquin::{read_reply, Reply};
    /// # let telegram = [0xE0, 0xFF, 0x00, 0x12, 0x55, 0x00, 0x03, 0xB8, 0x01, 0x00, 0x0F];
    /// # let Reply::Accepted(reply) = read_reply(&telegram)? else { unreachable!() };
    /// assert_eq!(reply.route().last(), Some(&0x55));
    /// # Ok::<(), hanraquin::Refusal>(())
    /// ```
    #[must_use]
    #[inline]
    pub fn route(&self) -> &[u8] {
        // No station has the address 0.
        self.route.split(|&entry| entry == 0).next().unwrap_or(&[])
    }

    /// The values of the registers, in order from `start` on.
    ///
    /// ```
    /// # use hanraquin::{read_reply, Reply};
    /// # let telegram = [0xE0, 0xFF, 0x00, 0x12, 0x55, 0x00, 0x03, 0xB8, 0x01, 0x00, 0x0F];
    /// # let Reply::Accepted(reply) = read_reply(&telegram)? else { unreachable!() };
    /// for (number, value) in (reply.start..).zip(reply.values()) {
    ///     println!("register {number} is {value}");
    /// }
    /// # Ok::<(), hanraquin::Refusal>(())
    /// ```
    #[inline]
    pub fn values(
        &self,
    ) -> impl ExactSizeIterator<Item = u16> + DoubleEndedIterator + Clone + use<'t> {
        let (pairs, _) = self.value_bytes.as_chunks();
        pairs.iter().map(|&pair| u16::from_be_bytes(pair))
    }

    /// The bytes of the values, two for each, the high one first: a part of the telegram.
    ///
    /// ```
    /// # use hanraquin::{read_reply, Reply};
    /// # let telegram = [0xE0, 0xFF, 0x00, 0x12, 0x55, 0x00, 0x03, 0xB8, 0x01, 0x00, 0x0F];
    /// # let Reply::Accepted(reply) = read_reply(&telegram)? else { unreachable!() };
    /// assert_eq!(reply.value_bytes(), &telegram[9..]);
    /// # Ok::<(), hanraquin::Refusal>(())
    /// ```
    #[must_use]
    #[inline]
    pub const fn value_bytes(&self) -> &'t [u8] {
        self.value_bytes
    }
}

/// Reads a telegram that came back to the centre.
///
/// # Errors
///
/// [`TooLong`](Refusal::TooLong), [`HeaderCut`](Refusal::HeaderCut),
/// [`Function`](Refusal::Function) (for a request too), [`ExtendedCount`](Refusal::ExtendedCount),
/// [`Block`](Refusal::Block) (also for one that names nobody) or [`Mark`](Refusal::Mark) for a
/// fault of the header. Then the answer may be [`Reply::NotMine`]. After that
/// [`BodyLength`](Refusal::BodyLength) for a body that is not as long as it says.
///
/// ```
/// use hanraquin::{read_reply, Refusal, Reply};
///
/// let for_relay = [0xE0, 0xFF, 0x12, 0x13, 0x55, 0x00, 0x03, 0xBB, 0x01, 0x00, 0x00];
/// assert_eq!(read_reply(&for_relay)?, Reply::NotMine);
/// assert_eq!(read_reply(&[0x60, 0xFF, 0x55, 0, 0, 0]), Err(Refusal::Function));
/// # Ok::<(), hanraquin::Refusal>(())
/// ```
#[inline]
pub fn read_reply(telegram: &[u8]) -> Result<Reply<'_>, Refusal> {
    let mut route = [0; ROUTE];
    let mut run = [0; 3];
    // SAFETY: pointers and lengths are those of slices, and what may be written is local.
    let answer = unsafe {
        sys::hanraquin_read_reply(
            telegram.as_ptr(),
            telegram.len(),
            route.as_mut_ptr(),
            route.len(),
            run.as_mut_ptr(),
            run.len(),
        )
    };
    let Some(length) = taken::<Refusal>(answer)? else {
        return Ok(Reply::NotMine);
    };
    let [start, count, place] = run;
    let value_bytes = telegram
        .get(usize::from(place)..)
        .and_then(|rest| rest.get(..length as usize))
        .ok_or(Refusal::IMPOSSIBLE)?;
    Ok(Reply::Accepted(Accepted {
        start,
        count: usize::from(count),
        route,
        value_bytes,
    }))
}
