//! The proved library as it is: functions over pointers and lengths, as `include/hanraquin.h`
//! declares them. Nothing checks the arguments of these declarations against the library.
//!
//! Every function gives 64 bits: a value in the low 32, and above it a kind of eight bits, which is
//! [`DONE`], [`NOT_MINE`] or the number of a refusal. Only with [`DONE`] is there a value, and
//! all other bits are 0. [`kind`] and [`value`] take an answer apart.
//!
//! # Safety
//!
//! The same is asked of every call. Each slice is a pointer and the number of its elements. The
//! pointer must not be null and must be aligned, even for a slice of no elements; so many elements
//! must be there and hold values; and no slice that the call may write may overlap another one of
//! the same call, or be used by anybody else while it runs. (The header for C forbids every
//! overlap. Two slices that are only read may have bytes in common here, since safe Rust cannot
//! keep them apart.) `slice::as_ptr` and `slice::as_mut_ptr` give such pointers. Any lengths and
//! contents are allowed.

/// The kind of an answer: the call did what it was asked.
pub const DONE: u8 = 0;
/// The kind of an answer: the telegram is for somebody else.
pub const NOT_MINE: u8 = 255;

/// The event of [`hanraquin_receive`], [`hanraquin_send`] and [`hanraquin_gate_receive`] for a timer
/// that ran out. A larger number is refused with 1, but for [`START`].
pub const TIMER: u32 = 256;
/// The event of [`hanraquin_send`] that has it begin. A larger number is refused with 1.
pub const START: u32 = 257;
/// Added to a byte, the value of [`hanraquin_receive`] for "send this byte".
pub const SEND: u32 = 256;
/// Added to a length, the value of [`hanraquin_receive`] for "send 10, and take the message". Times
/// one more than a length, it is added to the value of [`hanraquin_send`] for "and take the message".
pub const MESSAGE: u32 = 65536;

/// The ending of [`hanraquin_dry_run`] at an entry 00.
pub const AT_ZERO: u32 = 0;
/// The ending of [`hanraquin_dry_run`] at an address that no station has.
pub const AT_NOBODY: u32 = 1;

/// Added to 256 times the source and to the number of data bytes, the value of
/// [`hanraquin_gate_receive`] for a telegram with data.
pub const GATE_TELEGRAM: u32 = 65536;
/// Added to the source, the value of [`hanraquin_gate_receive`] for a token.
pub const GATE_TOKEN: u32 = 131_072;

/// The kind of a barrier's answer, and the value of [`hanraquin_gate_operate`], for ack.
pub const GATE_ACK: u8 = 0x01;
/// The kind of a barrier's answer, and the value of [`hanraquin_gate_operate`], for nak.
pub const GATE_NAK: u8 = 0x02;
/// The kind of a barrier's answer: busy.
pub const GATE_BUSY: u8 = 0x03;
/// The kind of a barrier's answer: syn.
pub const GATE_SYN: u8 = 0x04;
/// The kind of a barrier's answer: the vehicle count.
pub const GATE_COUNT: u8 = 0x1C;
/// The kind of a barrier's answer: the position.
pub const GATE_POSITION: u8 = 0x1D;

/// The kind of an answer.
///
/// ```
/// use hanraquin::sys;
///
/// assert_eq!(sys::kind(0x00_0000_0006), sys::DONE);
/// assert_eq!(sys::kind(0x0B_0000_0000), 11);
/// assert_eq!(sys::kind(0xFF_0000_0000), sys::NOT_MINE);
/// ```
#[must_use]
#[inline]
pub const fn kind(answer: u64) -> u8 {
    (answer >> 32) as u8
}

/// The value of an answer.
///
/// ```
/// use hanraquin::sys;
///
/// assert_eq!(sys::value(0x00_0000_0006), 6);
/// assert_eq!(sys::value(0x00_0001_000E) - sys::MESSAGE, 14);
/// ```
#[must_use]
#[inline]
pub const fn value(answer: u64) -> u32 {
    answer as u32
}

unsafe extern "C" {
    /// Writes the frame of data: [`frame`](crate::frame). The value is its length.
    ///
    /// # Safety
    ///
    /// See [the module](self). `out` may be written.
    ///
    /// ```
    /// use hanraquin::sys;
    ///
    /// let (data, mut out) = ([0x60, 0x10], [0; 6]);
    /// // SAFETY: two arrays with their own lengths.
    /// let answer = unsafe {
    ///     sys::hanraquin_frame(data.as_ptr(), data.len(), out.as_mut_ptr(), out.len())
    /// };
    /// assert_eq!((sys::kind(answer), sys::value(answer)), (sys::DONE, 6));
    /// assert_eq!(out, [0x60, 0x10, 0x10, 0x10, 0x03, 0x73]);
    /// ```
    #[must_use]
    pub fn hanraquin_frame(data: *const u8, data_len: usize, out: *mut u8, out_len: usize) -> u64;

    /// Tells a receiving half one event: [`Receiver::event`](crate::Receiver::event).
    ///
    /// `state` has three places: the phase (0 rest, 1 inside, 2 inside after a DLE, 3 waiting),
    /// the count and the running check. `event` is a byte, 0 to 255, or [`TIMER`]. An event above
    /// that, a state of another length, a phase over 3 and a check over 255 are refused with 1, as
    /// is a count that the buffer cannot hold. The value is 0 for nothing, [`SEND`] and a byte, or
    /// [`MESSAGE`] and a length.
    ///
    /// # Safety
    ///
    /// See [the module](self). `state` and `buffer` may be written.
    ///
    /// ```
    /// use hanraquin::sys;
    ///
    /// let (mut state, mut buffer) = ([0; 3], [0; 1024]);
    /// // SAFETY: two arrays with their own lengths.
    /// let answer = unsafe {
    ///     let (buffer, buffer_len) = (buffer.as_mut_ptr(), buffer.len());
    ///     sys::hanraquin_receive(state.as_mut_ptr(), state.len(), 0x02, buffer, buffer_len)
    /// };
    /// assert_eq!((sys::kind(answer), sys::value(answer)), (sys::DONE, sys::SEND + 0x10));
    /// assert_eq!(state, [1, 0, 0]);
    /// ```
    #[must_use]
    pub fn hanraquin_receive(
        state: *mut u64,
        state_len: usize,
        event: u32,
        buffer: *mut u8,
        buffer_len: usize,
    ) -> u64;

    /// Tells a sending half one event: [`Sender::start`](crate::Sender::start),
    /// [`byte`](crate::Sender::byte) and [`timer`](crate::Sender::timer).
    ///
    /// `state` has nine places, as [`Sender::state`](crate::Sender::state) says. `event` is a byte,
    /// 0 to 255, [`TIMER`] or [`START`]. Another length, an event above that, and a state that
    /// cannot be are refused with 1. The value is the number of bytes to send, and where a message
    /// came [`MESSAGE`] times one more than its length besides.
    ///
    /// # Safety
    ///
    /// See [the module](self). `state`, `buffer` and `out` may be written.
    ///
    /// ```
    /// use hanraquin::sys;
    ///
    /// // Opening at low priority, with the limits 3 and 2.
    /// let (mut state, data) = ([1, 3, 2, 0, 0, 0, 0, 0, 0], [0x60, 0x10]);
    /// let (mut buffer, mut out) = ([0; 1024], [0; 2051]);
    /// // SAFETY: four arrays with their own lengths.
    /// let answer = unsafe {
    ///     let (state, state_len) = (state.as_mut_ptr(), state.len());
    ///     let (data, data_len) = (data.as_ptr(), data.len());
    ///     let (buffer, buffer_len) = (buffer.as_mut_ptr(), buffer.len());
    ///     let (out, out_len) = (out.as_mut_ptr(), out.len());
    ///     sys::hanraquin_send(
    ///         state, state_len, 0x10, data, data_len, buffer, buffer_len, out, out_len,
    ///     )
    /// };
    /// assert_eq!((sys::kind(answer), sys::value(answer)), (sys::DONE, 6));
    /// assert_eq!(out[..6], [0x60, 0x10, 0x10, 0x10, 0x03, 0x73]);
    /// assert_eq!(state, [2, 3, 2, 0, 0, 0, 0, 0, 0]);
    /// ```
    #[must_use]
    pub fn hanraquin_send(
        state: *mut u64,
        state_len: usize,
        event: u32,
        data: *const u8,
        data_len: usize,
        buffer: *mut u8,
        buffer_len: usize,
        out: *mut u8,
        out_len: usize,
    ) -> u64;

    /// Lets a station handle a telegram: [`handle`](crate::handle). The value is the length of what
    /// it sends.
    ///
    /// # Safety
    ///
    /// See [the module](self). `registers` and `out` may be written.
    ///
    /// ```
    /// use hanraquin::{sys, FACTORY};
    ///
    /// let telegram = [0x60, 0xFF, 0x55, 0x00, 0x00, 0x00, 0x00, 0x00, 0x00, 0x00, 0x00, 0x00];
    /// let (mut registers, mut out) = (FACTORY, [0; 1024]);
    /// // SAFETY: three arrays with their own lengths.
    /// let answer = unsafe {
    ///     let (registers, registers_len) = (registers.as_mut_ptr(), registers.len());
    ///     let (telegram, telegram_len) = (telegram.as_ptr(), telegram.len());
    ///     let (out, out_len) = (out.as_mut_ptr(), out.len());
    ///     sys::hanraquin_station(
    ///         0x55, registers, registers_len, telegram, telegram_len, out, out_len,
    ///     )
    /// };
    /// assert_eq!((sys::kind(answer), sys::value(answer)), (sys::DONE, 9));
    /// assert_eq!(out[..9], [0xE0, 0xFF, 0x00, 0x55, 0x00, 0x00, 0x00, 0x00, 0x00]);
    /// ```
    #[must_use]
    pub fn hanraquin_station(
        own: u8,
        registers: *mut u16,
        registers_len: usize,
        telegram: *const u8,
        telegram_len: usize,
        out: *mut u8,
        out_len: usize,
    ) -> u64;

    /// Writes the centre's request: [`write_request`](crate::write_request). The value is its
    /// length.
    ///
    /// # Safety
    ///
    /// See [the module](self). `out` may be written.
    ///
    /// ```
    /// use hanraquin::sys;
    ///
    /// let (route, values, mut out) = ([0x55], [1], [0; 555]);
    /// // SAFETY: three arrays with their own lengths.
    /// let answer = unsafe {
    ///     let (route, route_len) = (route.as_ptr(), route.len());
    ///     let (values, values_len) = (values.as_ptr(), values.len());
    ///     let (out, out_len) = (out.as_mut_ptr(), out.len());
    ///     sys::hanraquin_write_request(
    ///         route, route_len, 955, 1, 300, values, values_len, out, out_len,
    ///     )
    /// };
    /// assert_eq!((sys::kind(answer), sys::value(answer)), (sys::DONE, 14));
    /// assert_eq!(out[..8], [0x60, 0xFF, 0x55, 0x00, 0x00, 0x00, 0x03, 0xBB]);
    /// ```
    #[must_use]
    pub fn hanraquin_write_request(
        route: *const u8,
        route_len: usize,
        read_start: u16,
        read_count: usize,
        write_start: u16,
        values: *const u16,
        values_len: usize,
        out: *mut u8,
        out_len: usize,
    ) -> u64;

    /// Reads a reply at the centre: [`read_reply`](crate::read_reply). The value is the number of
    /// value bytes.
    ///
    /// `route` has 31 places, and `run` three: the read start, the read count, and the place in
    /// the telegram where the value bytes begin. Other lengths are refused with 1, and nothing is
    /// written. With any other refusal, and with "not mine", all places are set to 0.
    ///
    /// # Safety
    ///
    /// See [the module](self). `route` and `run` may be written.
    ///
    /// ```
    /// use hanraquin::sys;
    ///
    /// let telegram = [0xE0, 0xFF, 0x00, 0x12, 0x13, 0x55, 0x03, 0xBB, 0x01, 0x00, 0x00];
    /// let (mut route, mut run) = ([0; 31], [0; 3]);
    /// // SAFETY: three arrays with their own lengths.
    /// let answer = unsafe {
    ///     let (telegram, telegram_len) = (telegram.as_ptr(), telegram.len());
    ///     let (route, route_len) = (route.as_mut_ptr(), route.len());
    ///     let (run, run_len) = (run.as_mut_ptr(), run.len());
    ///     sys::hanraquin_read_reply(telegram, telegram_len, route, route_len, run, run_len)
    /// };
    /// assert_eq!((sys::kind(answer), sys::value(answer)), (sys::DONE, 2));
    /// assert_eq!(route[..4], [0x12, 0x13, 0x55, 0x00]);
    /// assert_eq!(run, [955, 1, 9]);
    /// ```
    #[must_use]
    pub fn hanraquin_read_reply(
        telegram: *const u8,
        telegram_len: usize,
        route: *mut u8,
        route_len: usize,
        run: *mut u16,
        run_len: usize,
    ) -> u64;

    /// Plays the journey of a telegram: [`dry_run`](crate::dry_run). The value is the count of its
    /// transmissions.
    ///
    /// `result` has three places: that count; the ending, [`AT_ZERO`], [`AT_NOBODY`] or the number
    /// of a station's refusal; and the length of the last telegram. Another length is refused
    /// with 1.
    ///
    /// # Safety
    ///
    /// See [the module](self). `tables`, `out` and `result` may be written.
    ///
    /// ```
    /// use hanraquin::{sys, FACTORY};
    ///
    /// let telegram = [0x60, 0xFF, 0x55, 0x00, 0x00, 0x00, 0x00, 0x00, 0x00, 0x00, 0x00, 0x00];
    /// let (addresses, mut tables, mut out, mut result) = ([0x55], FACTORY, [0; 1024], [0; 3]);
    /// // SAFETY: five arrays with their own lengths.
    /// let answer = unsafe {
    ///     let (telegram, telegram_len) = (telegram.as_ptr(), telegram.len());
    ///     let (addresses, addresses_len) = (addresses.as_ptr(), addresses.len());
    ///     let (tables, tables_len) = (tables.as_mut_ptr(), tables.len());
    ///     let (out, out_len) = (out.as_mut_ptr(), out.len());
    ///     let (result, result_len) = (result.as_mut_ptr(), result.len());
    ///     sys::hanraquin_dry_run(
    ///         telegram, telegram_len, addresses, addresses_len, tables, tables_len, out, out_len,
    ///         result, result_len,
    ///     )
    /// };
    /// assert_eq!((sys::kind(answer), sys::value(answer)), (sys::DONE, 2));
    /// assert_eq!(result, [2, sys::AT_ZERO, 9]);
    /// ```
    #[must_use]
    pub fn hanraquin_dry_run(
        telegram: *const u8,
        telegram_len: usize,
        addresses: *const u8,
        addresses_len: usize,
        tables: *mut u16,
        tables_len: usize,
        out: *mut u8,
        out_len: usize,
        result: *mut u32,
        result_len: usize,
    ) -> u64;

    /// Writes a telegram of the gate bus: [`gate::write`](crate::gate::write()). The value is its
    /// length.
    ///
    /// # Safety
    ///
    /// See [the module](self). `out` may be written.
    ///
    /// ```
    /// use hanraquin::sys;
    ///
    /// let (data, mut out) = ([0x01, 0x01, 0x01], [0; 9]);
    /// // SAFETY: two arrays with their own lengths.
    /// let answer = unsafe {
    ///     let (data, data_len) = (data.as_ptr(), data.len());
    ///     sys::hanraquin_gate_write(0x10, 0x00, data, data_len, out.as_mut_ptr(), out.len())
    /// };
    /// assert_eq!((sys::kind(answer), sys::value(answer)), (sys::DONE, 9));
    /// assert_eq!(out, [0x55, 0x10, 0x00, 0x03, 0x01, 0x01, 0x01, 0xF7, 0x86]);
    /// ```
    #[must_use]
    pub fn hanraquin_gate_write(
        destination: u8,
        source: u8,
        data: *const u8,
        data_len: usize,
        out: *mut u8,
        out_len: usize,
    ) -> u64;

    /// Tells a receiver on the gate bus one event:
    /// [`gate::Receiver::event`](crate::gate::Receiver::event).
    ///
    /// `state` has seven places, as [`gate::Receiver::state`](crate::gate::Receiver::state) says,
    /// and `store` 253. `event` is a byte, 0 to 255, or [`TIMER`]. Other lengths, an event above
    /// that, and a state that cannot be are refused with 1, and nothing is written. With any other
    /// refusal all places of the state are set to 0. The value is 0 for nothing, [`GATE_TELEGRAM`]
    /// with 256 times a source and a number of data bytes, or [`GATE_TOKEN`] and a source.
    ///
    /// # Safety
    ///
    /// See [the module](self). `state`, `store` and `out` may be written.
    ///
    /// ```
    /// use hanraquin::sys;
    ///
    /// let (mut state, mut store, mut out) = ([0; 7], [0; 253], [0; 253]);
    /// let mut last = 0;
    /// for byte in [0x55, 0x10, 0x00, 0x03, 0x01, 0x01, 0x01, 0xF7, 0x86] {
    ///     // SAFETY: three arrays with their own lengths.
    ///     last = unsafe {
    ///         let (state, state_len) = (state.as_mut_ptr(), state.len());
    ///         let (store, store_len) = (store.as_mut_ptr(), store.len());
    ///         let (out, out_len) = (out.as_mut_ptr(), out.len());
    ///         sys::hanraquin_gate_receive(
    ///             0x10, state, state_len, store, store_len, byte, out, out_len,
    ///         )
    ///     };
    /// }
    /// assert_eq!((sys::kind(last), sys::value(last)), (sys::DONE, sys::GATE_TELEGRAM + 3));
    /// assert_eq!((state, &out[..3]), ([0; 7], &[0x01; 3][..]));
    /// ```
    #[must_use]
    pub fn hanraquin_gate_receive(
        own: u8,
        state: *mut u64,
        state_len: usize,
        store: *mut u8,
        store_len: usize,
        event: u32,
        out: *mut u8,
        out_len: usize,
    ) -> u64;

    /// Carries out an operating command: [`gate::Commands::operate`](crate::gate::Commands::operate).
    /// The value is [`GATE_ACK`] or [`GATE_NAK`].
    ///
    /// `levels` and `edges` have ten places, each 0 or 1. Other lengths, and a level or an edge above
    /// 1, are refused with 1.
    ///
    /// # Safety
    ///
    /// See [the module](self). `levels` and `edges` may be written.
    ///
    /// ```
    /// use hanraquin::sys;
    ///
    /// let (data, mut levels, mut edges) = ([0x01, 0x01, 0x01], [0; 10], [0; 10]);
    /// // SAFETY: three arrays with their own lengths.
    /// let answer = unsafe {
    ///     let (data, data_len) = (data.as_ptr(), data.len());
    ///     let (levels, levels_len) = (levels.as_mut_ptr(), levels.len());
    ///     let (edges, edges_len) = (edges.as_mut_ptr(), edges.len());
    ///     sys::hanraquin_gate_operate(data, data_len, levels, levels_len, edges, edges_len)
    /// };
    /// assert_eq!((sys::kind(answer), sys::value(answer)), (sys::DONE, sys::GATE_ACK.into()));
    /// assert_eq!((levels, edges), ([0, 1, 0, 0, 0, 0, 0, 0, 0, 0], levels));
    /// ```
    #[must_use]
    pub fn hanraquin_gate_operate(
        data: *const u8,
        data_len: usize,
        levels: *mut u8,
        levels_len: usize,
        edges: *mut u8,
        edges_len: usize,
    ) -> u64;

    /// Writes an operating command: [`gate::write_command`](crate::gate::write_command). The value
    /// is its length.
    ///
    /// # Safety
    ///
    /// See [the module](self). `out` may be written.
    ///
    /// ```
    /// use hanraquin::sys;
    ///
    /// let mut out = [0; 3];
    /// // SAFETY: an array with its own length.
    /// let answer = unsafe {
    ///     sys::hanraquin_gate_write_command(0x01, 0x02, out.as_mut_ptr(), out.len())
    /// };
    /// assert_eq!((sys::kind(answer), sys::value(answer)), (sys::DONE, 3));
    /// assert_eq!(out, [0x01, 0x01, 0x02]);
    /// ```
    #[must_use]
    pub fn hanraquin_gate_write_command(
        command: u8,
        function: u8,
        out: *mut u8,
        out_len: usize,
    ) -> u64;

    /// Writes an answer of a barrier: [`gate::write_answer`](crate::gate::write_answer). The value
    /// is its length.
    ///
    /// `kind` is [`GATE_ACK`], [`GATE_NAK`], [`GATE_BUSY`] or [`GATE_SYN`], with any `number`;
    /// [`GATE_COUNT`] with the vehicle count; or [`GATE_POSITION`] with the position. Another kind
    /// is refused with 3.
    ///
    /// # Safety
    ///
    /// See [the module](self). `out` may be written.
    ///
    /// ```
    /// use hanraquin::sys;
    ///
    /// let mut out = [0; 5];
    /// // SAFETY: an array with its own length.
    /// let answer = unsafe {
    ///     sys::hanraquin_gate_write_answer(sys::GATE_POSITION, -1, out.as_mut_ptr(), out.len())
    /// };
    /// assert_eq!((sys::kind(answer), sys::value(answer)), (sys::DONE, 2));
    /// assert_eq!(out[..2], [0x1D, 0xFF]);
    /// ```
    #[must_use]
    pub fn hanraquin_gate_write_answer(kind: u8, number: i32, out: *mut u8, out_len: usize) -> u64;

    /// Reads an answer of a barrier: [`gate::read_answer`](crate::gate::read_answer). The value is
    /// its kind.
    ///
    /// `number` has one place, which becomes the vehicle count, the position, or 0. Another length
    /// is refused with 1. With any refusal nothing is written.
    ///
    /// # Safety
    ///
    /// See [the module](self). `number` may be written.
    ///
    /// ```
    /// use hanraquin::sys;
    ///
    /// let (data, mut number) = ([0x1D, 0x64], [0]);
    /// // SAFETY: two arrays with their own lengths.
    /// let answer = unsafe {
    ///     let (number, number_len) = (number.as_mut_ptr(), number.len());
    ///     sys::hanraquin_gate_read_answer(data.as_ptr(), data.len(), number, number_len)
    /// };
    /// assert_eq!((sys::kind(answer), sys::value(answer)), (sys::DONE, sys::GATE_POSITION.into()));
    /// assert_eq!(number, [100]);
    /// ```
    #[must_use]
    pub fn hanraquin_gate_read_answer(
        data: *const u8,
        data_len: usize,
        number: *mut i32,
        number_len: usize,
    ) -> u64;
}
