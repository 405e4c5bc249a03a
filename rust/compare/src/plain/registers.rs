//! The registers of a station.

/// How many there are.
pub const COUNT: usize = 18;

/// The place of the first register of a run that is not empty, if all of it exists.
#[inline(always)]
pub fn run(start: u16, count: u8) -> Option<usize> {
    let (first, last, place) = match start {
        955..=962 => (955, 962, 10),
        952..=953 => (952, 953, 8),
        931..=936 => (931, 936, 2),
        300 => (300, 300, 1),
        2 => (2, 2, 0),
        _ => return None,
    };
    let fits = u32::from(start) + u32::from(count) <= last + 1;
    fits.then_some(place + usize::from(start - first))
}

/// Whether the run that begins at a place may be written: all of a run is of one kind.
#[inline(always)]
pub fn writable(place: usize) -> bool {
    place == 1 || place >= 8
}

/// The lowest and the highest value of every register, the highest low byte of its values, and one
/// more that it takes.
const RANGES: [(u16, u16, u8, u16); COUNT] = [
    (0, 65535, 255, 0),
    (0, 3, 255, 0),
    (0, 65535, 255, 0),
    (0, 65535, 255, 0),
    (0, 65535, 255, 0),
    (0, 65535, 255, 0),
    (0, 65535, 255, 0),
    (0, 65535, 255, 0),
    (1, 1440, 255, 1),
    (2, 25, 255, 2),
    (0, 0x173B, 59, 0), // 23:59
    (0, 59, 255, 0),
    (0, 0x173B, 59, 65535),
    (1, 1440, 255, 1),
    (1, 3600, 255, 65535),
    (1, 1440, 255, 1),
    (1, 1440, 255, 1),
    (0, 1, 255, 0),
];

/// Whether the registers from a place on take the values, two bytes each.
#[inline(always)]
pub fn take(place: usize, values: &[[u8; 2]]) -> bool {
    let ranges = &RANGES[place..];
    values.iter().zip(ranges).all(|(&bytes, &(low, high, low_byte, also))| {
        let value = u16::from_be_bytes(bytes);
        (low <= value && value <= high && bytes[1] <= low_byte) || value == also
    })
}
