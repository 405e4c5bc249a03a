//! The numbers that refused calls give back.

/// One of the numbers below.
pub type Refusal = u8;

/// The call is set up wrongly: a link state against its buffer, a sender's limit or count, or
/// an own address, a table of registers or a net that cannot be.
pub const BAD_SETUP: u8 = 1;
/// The telegram ends within its header.
pub const HEADER_CUT_SHORT: u8 = 2;
/// The reader does not take telegrams of this function.
pub const BAD_FUNCTION: u8 = 3;
/// An extended block of a length that cannot be.
pub const BAD_COUNT: u8 = 4;
/// The addresses of the block, or of the route, do not go together.
pub const BAD_BLOCK: u8 = 5;
/// An extended reply's mark says something else than its block.
pub const BAD_MARK: u8 = 6;
/// The body is not as long as it says.
pub const BAD_BODY_LENGTH: u8 = 7;
/// A run leaves the registers that exist.
pub const NO_SUCH_REGISTER: u8 = 8;
/// A register that may only be read would be written.
pub const NOT_WRITABLE: u8 = 9;
/// A register would get a value that it may not have.
pub const OUT_OF_RANGE: u8 = 10;
/// The output cannot hold all that is to be written.
pub const OUTPUT_TOO_SHORT: u8 = 11;
/// More data than a block carries, a longer telegram than there may be, or a run of more
/// registers than a telegram can count.
pub const TOO_LONG: u8 = 12;
