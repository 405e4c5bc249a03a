//! The 64-bit answer of a call: a value in bits 0 to 31, and its kind in bits 32 to 39.

/// The kind of a call that somebody else, or nobody, has to handle.
pub const KIND_NOT_MINE: u8 = 255;
/// The answer of such a call.
pub const NOT_MINE: u64 = refused(KIND_NOT_MINE);

/// The kind of two calls that had to be alike, and are not. No call has it by itself.
pub const KIND_NOT_ALIKE: u8 = 254;
/// The answer of such calls.
pub const NOT_ALIKE: u64 = refused(KIND_NOT_ALIKE);

/// The call did what it was asked to.
#[inline(always)]
pub const fn done(value: usize) -> u64 {
    value as u64
}

/// The call was refused with this number.
#[inline(always)]
pub const fn refused(number: u8) -> u64 {
    (number as u64) << 32
}

/// The kind of an answer: 0 for done, 255 for not mine, 254 for not alike, or the number of a
/// refusal.
pub const fn kind(answer: u64) -> u8 {
    (answer >> 32) as u8
}

/// The value of an answer.
pub const fn value(answer: u64) -> usize {
    answer as u32 as usize
}

/// An answer in words, with one for what was done.
pub fn text(answer: u64, done: &str) -> String {
    match kind(answer) {
        0 => format!("{done} {}", value(answer)),
        KIND_NOT_MINE => "not mine".into(),
        KIND_NOT_ALIKE => "not alike".into(),
        number => format!("refused {number}"),
    }
}

/// What a receiving half answers to an event, in the value of the answer.
pub mod heard {
    /// Stay silent.
    pub const NOTHING: usize = 0;
    /// Send a byte, which is added to this.
    pub const SEND: usize = 256;
    /// Send 10; the number of bytes of the message is added to this.
    pub const MESSAGE: usize = 65536;
}

/// What a sender answers to an event, in the value of the answer: how many bytes it sends, and more.
pub mod sent {
    /// A message, which ends a yield: this is added once, and once for every byte of the message.
    pub const MESSAGE: usize = 65536;
}

/// What a receiver on the gate bus answers to an event, in the value of the answer.
pub mod received {
    /// No telegram has ended.
    pub const NOTHING: usize = 0;
    /// A telegram with data; 256 times its source and the number of data bytes are added to this.
    pub const TELEGRAM: usize = 65536;
    /// A token; its source is added to this.
    pub const TOKEN: usize = 131_072;
}
