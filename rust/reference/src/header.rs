//! The head of a telegram: function, control byte and the block of addresses.
//!
//! Reading and writing are total: no telegram makes them panic.

use crate::refusal::{BAD_BLOCK, BAD_COUNT, BAD_FUNCTION, BAD_MARK, HEADER_CUT_SHORT, TOO_LONG};

/// Function byte of a request.
pub const REQUEST: u8 = 0x60;
/// Function byte of a reply.
pub const REPLY: u8 = 0xE0;
/// Control byte of a telegram that was newly written.
pub const FRESH_CONTROL: u8 = 0xFF;

/// A block entry that names no station.
pub const NOBODY: u8 = 0x00;
/// Lowest address of a station.
pub const LOWEST_ADDRESS: u8 = 0x01;
/// Highest address of a station.
pub const HIGHEST_ADDRESS: u8 = 0xF0;
/// Fills the places of a short block when the real block follows.
pub const MARK: u8 = 0xEF;

/// Most bytes in one telegram.
pub const MAX_TELEGRAM: usize = 1024;
/// Fewest entries of an extended block.
pub const MIN_EXTENDED: u8 = 2;
/// Most entries of an extended block.
pub const MAX_EXTENDED: u8 = 32;

/// The two kinds of telegram.
#[derive(Clone, Copy, PartialEq, Eq, Debug)]
pub enum Function {
    /// On its way to the destination.
    Request,
    /// On its way back.
    Reply,
}

impl Function {
    /// The kind that a function byte stands for.
    fn of(byte: u8) -> Option<Function> {
        match byte {
            REQUEST => Some(Function::Request),
            REPLY => Some(Function::Reply),
            _ => None,
        }
    }

    /// The byte that stands for this kind.
    pub fn byte(self) -> u8 {
        match self {
            Function::Request => REQUEST,
            Function::Reply => REPLY,
        }
    }
}

/// What one kind of reader lets pass that another may not.
#[derive(Clone, Copy, PartialEq, Eq, Debug)]
pub struct Reader {
    /// Requests can be read, and not only replies.
    pub takes_requests: bool,
    /// The block may be without any station.
    pub takes_nobody: bool,
}

/// A station reads everything that is well formed.
pub const STATION: Reader = Reader {
    takes_requests: true,
    takes_nobody: true,
};

/// The centre reads replies only, and each of them comes from somebody.
pub const CENTRE: Reader = Reader {
    takes_requests: false,
    takes_nobody: false,
};

/// A header without fault.
///
/// The mark of the extended form is not kept: kind and block decide it.
#[derive(Clone, PartialEq, Eq, Debug)]
pub struct Header {
    /// Request or reply.
    pub function: Function,
    /// Control byte, as it came.
    pub control: u8,
    /// The block is written behind a mark and a count.
    pub extended: bool,
    /// The addresses; at least two entries.
    pub block: Vec<u8>,
}

impl Header {
    /// The header with its first entry moved to the end.
    pub fn roll_left(mut self) -> Header {
        self.block.rotate_left(1);
        self
    }

    /// The header with its last entry moved to the front.
    pub fn roll_right(mut self) -> Header {
        self.block.rotate_right(1);
        self
    }

    /// The header as it goes over the air.
    pub fn to_bytes(&self) -> Vec<u8> {
        let mut bytes = vec![self.function.byte(), self.control];
        if self.extended {
            bytes.extend([first_mark(self.function, &self.block), MARK, MARK, MARK]);
            // Never more than MAX_EXTENDED entries.
            bytes.push(self.block.len() as u8);
        }
        bytes.extend(&self.block);
        bytes
    }
}

/// The first byte of the mark that belongs to an extended block.
fn first_mark(function: Function, block: &[u8]) -> u8 {
    if function == Function::Reply && block.first() == Some(&NOBODY) {
        NOBODY
    } else {
        MARK
    }
}

/// Whether the entry can be a station's address.
pub fn is_address(entry: u8) -> bool {
    (LOWEST_ADDRESS..=HIGHEST_ADDRESS).contains(&entry)
}

/// The entries of a block that name somebody, in order.
pub fn named(block: &[u8]) -> Vec<u8> {
    block.iter().copied().filter(|&e| e != NOBODY).collect()
}

/// Whether the block obeys the rule for blocks.
///
/// Some entry is empty, the empty ones form one stretch if the block is bent into a ring,
/// and the others are addresses that differ from each other.
pub fn is_good_block(block: &[u8]) -> bool {
    let named = named(block);
    let some_empty = named.len() < block.len();

    // Each stretch of empty entries ends once, where a named one comes next.
    let stretches = (0..block.len())
        .filter(|&i| block[i] == NOBODY && block[(i + 1) % block.len()] != NOBODY)
        .count();

    let addresses = named.iter().all(|&entry| is_address(entry));
    let repeated = (0..named.len()).any(|i| named[..i].contains(&named[i]));

    some_empty && stretches <= 1 && addresses && !repeated
}

/// Takes a telegram apart into its header and its body, or refuses it.
///
/// The faults are looked for in a fixed order; the first one found is given.
pub fn read(reader: Reader, telegram: &[u8]) -> Result<(Header, &[u8]), u8> {
    if telegram.len() > MAX_TELEGRAM {
        return Err(TOO_LONG);
    }
    let &[function, control, a, b, c, d, ref rest @ ..] = telegram else {
        return Err(HEADER_CUT_SHORT);
    };

    let function = match Function::of(function) {
        Some(Function::Request) if !reader.takes_requests => return Err(BAD_FUNCTION),
        Some(function) => function,
        None => return Err(BAD_FUNCTION),
    };

    // With an empty first entry only a reply can be extended.
    let extended =
        [b, c, d] == [MARK; 3] && (a == MARK || (a == NOBODY && function == Function::Reply));

    let (block, body) = if extended {
        let Some((&count, rest)) = rest.split_first() else {
            return Err(HEADER_CUT_SHORT);
        };
        if !(MIN_EXTENDED..=MAX_EXTENDED).contains(&count) {
            return Err(BAD_COUNT);
        }
        let Some((block, body)) = rest.split_at_checked(usize::from(count)) else {
            return Err(HEADER_CUT_SHORT);
        };
        (block.to_vec(), body)
    } else {
        (vec![a, b, c, d], rest)
    };

    if !is_good_block(&block) {
        return Err(BAD_BLOCK);
    }
    if !reader.takes_nobody && named(&block).is_empty() {
        return Err(BAD_BLOCK);
    }
    if extended && a != first_mark(function, &block) {
        return Err(BAD_MARK);
    }

    let header = Header {
        function,
        control,
        extended,
        block,
    };
    Ok((header, body))
}

#[cfg(test)]
mod tests {
    use super::*;

    fn refusal(telegram: &[u8]) -> Option<u8> {
        read(STATION, telegram).err()
    }

    /// A telegram in the short form without a body.
    fn short(function: u8, block: [u8; 4]) -> Vec<u8> {
        [&[function, 0x77], &block[..]].concat()
    }

    /// A telegram in the extended form without a body.
    fn long(function: u8, mark: u8, block: &[u8]) -> Vec<u8> {
        let count = u8::try_from(block.len()).expect("a count");
        [&[function, 0x77, mark, 0xEF, 0xEF, 0xEF, count], block].concat()
    }

    /// The block of `length` entries with the stations 1, 2, 3 and so on first.
    fn ascending(stations: usize, length: usize) -> Vec<u8> {
        let mut block: Vec<u8> = (1..=u8::MAX).take(stations).collect();
        block.resize(length, 0);
        block
    }

    // Blocks

    #[test]
    fn marked_blocks() {
        for block in [
            [0x12, 0x13, 0x14, 0x15],
            [0x12, 0x12, 0x55, 0x00],
            [0x12, 0x00, 0x13, 0x00],
        ] {
            assert!(!is_good_block(&block));
            assert_eq!(refusal(&short(0x60, block)), Some(5));
            assert_eq!(refusal(&short(0xE0, block)), Some(5));
        }
        assert_eq!(refusal(&short(0x60, [0x00, 0xEF, 0xEF, 0xEF])), Some(5));
        for block in [
            [0x12, 0x13, 0x55, 0x00],
            [0x00, 0x12, 0x13, 0x55],
            [0x12, 0x55, 0x00, 0x00],
            [0x00, 0x12, 0x55, 0x00],
        ] {
            assert!(is_good_block(&block));
            assert_eq!(refusal(&short(0x60, block)), None);
            assert_eq!(refusal(&short(0xE0, block)), None);
        }
    }

    #[test]
    fn empty_entries_around_the_ring() {
        for block in [
            [0x00, 0x12, 0x00, 0x00],
            [0x00, 0x12, 0x55, 0x00],
            [0x12, 0x00, 0x00, 0x55],
            [0x00, 0x00, 0x00, 0x00],
            [0xEF, 0x00, 0x00, 0x00],
            [0x00, 0xEF, 0x00, 0x00],
            [0x00, 0x00, 0x00, 0xF0],
        ] {
            assert!(is_good_block(&block), "{block:?}");
        }
        for block in [
            [0x00, 0x12, 0x00, 0x13],
            [0x12, 0x00, 0x12, 0x00],
            [0x00, 0x12, 0x12, 0x00],
            [0x12, 0x00, 0x00, 0x12],
        ] {
            assert!(!is_good_block(&block), "{block:?}");
        }
    }

    #[test]
    fn range_of_addresses() {
        for entry in 0..=u8::MAX {
            assert_eq!(is_address(entry), (1..=240).contains(&entry));
            for place in 0..4 {
                let mut block = [0x00; 4];
                block[place] = entry;
                assert_eq!(is_good_block(&block), entry <= 0xF0);
            }
        }
    }

    /// The rule said differently: some roll of the block has different addresses first
    /// and then nothing but empty entries, of which there is one at least.
    fn some_roll_is_tidy(block: &[u8]) -> bool {
        (0..block.len()).any(|by| {
            let mut block = block.to_vec();
            block.rotate_left(by);
            let stations = block.iter().take_while(|&&e| e != 0).count();
            let (front, back) = block.split_at(stations);
            let mut seen = [false; 256];
            !back.is_empty()
                && back.iter().all(|&e| e == 0)
                && front.iter().all(|&e| {
                    let new = !seen[usize::from(e)];
                    seen[usize::from(e)] = true;
                    e <= 0xF0 && new
                })
        })
    }

    #[test]
    fn rule_said_differently() {
        let entries = [0x00, 0x01, 0x12, 0xEF, 0xF0, 0xF1];
        for length in 0..=6 {
            for mut code in 0..entries.len().pow(length) {
                let block: Vec<u8> = (0..length)
                    .map(|_| {
                        let entry = entries[code % entries.len()];
                        code /= entries.len();
                        entry
                    })
                    .collect();
                assert_eq!(
                    is_good_block(&block),
                    some_roll_is_tidy(&block),
                    "{block:02X?}"
                );
            }
        }
    }

    #[test]
    fn blocks_of_every_length_and_number_of_stations() {
        for length in 2..=32 {
            for stations in 0..length {
                for by in 0..length {
                    let mut block = ascending(stations, length);
                    block.rotate_right(by);
                    assert!(is_good_block(&block));
                }
            }
            // No room for an empty entry.
            assert!(!is_good_block(&ascending(length, length)));
        }
        assert!(!is_good_block(&[]));
    }

    #[test]
    fn no_good_short_block_looks_like_the_mark() {
        assert!(!is_good_block(&[0xEF; 4]));
        assert!(!is_good_block(&[0x00, 0xEF, 0xEF, 0xEF]));
    }

    // Reading

    #[test]
    fn short_form() {
        let telegram = [0x60, 0x99, 0x12, 0x13, 0x55, 0x00, 0xAA, 0xBB];
        let (header, body) = read(STATION, &telegram).expect("a header");
        assert_eq!(
            header,
            Header {
                function: Function::Request,
                control: 0x99,
                extended: false,
                block: vec![0x12, 0x13, 0x55, 0x00],
            }
        );
        assert_eq!(body, [0xAA, 0xBB]);
    }

    #[test]
    fn extended_form() {
        let telegram = [
            0xE0, 0x00, 0x00, 0xEF, 0xEF, 0xEF, 0x03, 0x00, 0x12, 0x55, 0xAA,
        ];
        let (header, body) = read(STATION, &telegram).expect("a header");
        assert_eq!(
            header,
            Header {
                function: Function::Reply,
                control: 0x00,
                extended: true,
                block: vec![0x00, 0x12, 0x55],
            }
        );
        assert_eq!(body, [0xAA]);
    }

    #[test]
    fn empty_body() {
        let telegram = short(0x60, [0x12, 0x00, 0x00, 0x00]);
        let (_, body) = read(STATION, &telegram).expect("a header");
        assert!(body.is_empty());
        let telegram = long(0x60, 0xEF, &[0x12, 0x00]);
        let (_, body) = read(STATION, &telegram).expect("a header");
        assert!(body.is_empty());
    }

    #[test]
    fn lengths_in_the_short_form() {
        for function in [0x60, 0xE0] {
            for length in 0..=1030 {
                let mut telegram = short(function, [0x12, 0x13, 0x55, 0x00]);
                telegram.resize(length, 0x41);
                let expected = match length {
                    0..=5 => Some(2),
                    6..=1024 => None,
                    _ => Some(12),
                };
                assert_eq!(refusal(&telegram), expected, "{length}");
            }
        }
    }

    #[test]
    fn lengths_in_the_extended_form() {
        for count in 2..=32 {
            for length in 0..=1030 {
                let mut telegram = long(0x60, 0xEF, &ascending(1, count));
                telegram.resize(length, 0x41);
                let expected = if length > 1024 {
                    Some(12)
                } else if length < 7 + count {
                    Some(2)
                } else {
                    None
                };
                assert_eq!(refusal(&telegram), expected, "{count} {length}");
            }
        }
    }

    #[test]
    fn function_bytes() {
        for function in 0..=u8::MAX {
            let good = [0x60, 0xE0].contains(&function);
            let telegram = short(function, [0x12, 0x00, 0x00, 0x00]);
            assert_eq!(refusal(&telegram), (!good).then_some(3));
            // Nothing of the address header counts before the function.
            for entries in [[0xEF; 4], [0x00, 0xEF, 0xEF, 0xEF], [0xFF; 4]] {
                let refused = refusal(&short(function, entries));
                assert_eq!(refused == Some(3), !good);
            }
            // The length does.
            assert_eq!(refusal(&telegram[..5]), Some(2));
            let mut telegram = telegram;
            telegram.resize(1025, 0);
            assert_eq!(refusal(&telegram), Some(12));
        }
    }

    #[test]
    fn which_entries_are_a_mark() {
        for function in [0x60, 0xE0] {
            for first in 0..=u8::MAX {
                let marked = first == 0xEF || (first == 0x00 && function == 0xE0);
                // Six bytes: an extended header is cut, a standard one has a repeat.
                let telegram = short(function, [first, 0xEF, 0xEF, 0xEF]);
                let expected = if marked { 2 } else { 5 };
                assert_eq!(refusal(&telegram), Some(expected));
            }
            for entries in [
                [0xEF, 0xEF, 0xEF, 0x00],
                [0xEF, 0xEF, 0x00, 0xEF],
                [0xEF, 0x00, 0xEF, 0xEF],
                [0xEF, 0xEF, 0xEF, 0xEE],
                [0xEF, 0xEE, 0xEF, 0xEF],
                [0xEF, 0xEF, 0xEE, 0xEF],
            ] {
                assert_eq!(refusal(&short(function, entries)), Some(5));
            }
        }
    }

    #[test]
    fn empty_first_entry_before_ef_in_both_kinds() {
        // The same bytes after the function: 2 stations behind a mark, or a bad block.
        let tail = [
            0xFF, 0x00, 0xEF, 0xEF, 0xEF, 0x03, 0x00, 0x12, 0x55, 0x01, 0x02,
        ];
        let request = [&[0x60], &tail[..]].concat();
        let reply = [&[0xE0], &tail[..]].concat();
        assert_eq!(refusal(&request), Some(5));
        let (header, body) = read(STATION, &reply).expect("a header");
        assert!(header.extended);
        assert_eq!(header.block, [0x00, 0x12, 0x55]);
        assert_eq!(body, [0x01, 0x02]);
    }

    #[test]
    fn extended_counts() {
        for function in [0x60, 0xE0] {
            for count in 0..=u8::MAX {
                let whole = long(function, 0xEF, &ascending(1, usize::from(count)));
                assert_eq!(refusal(&whole[..6]), Some(2));
                // From here on the count is there, and a bad one is noticed first.
                for length in 7..=whole.len() {
                    let expected = if !(2..=32).contains(&count) {
                        Some(4)
                    } else if length < whole.len() {
                        Some(2)
                    } else {
                        None
                    };
                    assert_eq!(refusal(&whole[..length]), expected, "{count} {length}");
                }
            }
        }
    }

    #[test]
    fn cut_comes_before_block() {
        let telegram = long(0x60, 0xEF, &[0x12, 0x12, 0x12]);
        assert_eq!(refusal(&telegram), Some(5));
        assert_eq!(refusal(&telegram[..9]), Some(2));
    }

    #[test]
    fn extended_blocks_that_would_fit_the_short_form() {
        for stations in 0..=3 {
            for length in 4..=32 {
                let telegram = long(0x60, 0xEF, &ascending(stations, length));
                assert_eq!(refusal(&telegram), None);
            }
        }
        assert_eq!(refusal(&long(0x60, 0xEF, &[0x00, 0x00])), None);
        assert_eq!(refusal(&long(0x60, 0xEF, &[0x12, 0x00])), None);
        assert_eq!(refusal(&long(0x60, 0xEF, &[0x12, 0x13])), Some(5));
    }

    #[test]
    fn mark_against_block() {
        for block in [
            &[0x00, 0x12][..],
            &[0x00, 0x12, 0x13],
            &[0x00, 0x00, 0x00, 0x00],
            &[0x00, 0x12, 0x13, 0x14, 0x15, 0x00],
        ] {
            assert_eq!(refusal(&long(0xE0, 0x00, block)), None);
            assert_eq!(refusal(&long(0xE0, 0xEF, block)), Some(6));
            assert_eq!(refusal(&long(0x60, 0xEF, block)), None);
        }
        for block in [
            &[0x12, 0x00][..],
            &[0xEF, 0x00, 0x00],
            &[0x12, 0x13, 0x14, 0x15, 0x00],
        ] {
            assert_eq!(refusal(&long(0xE0, 0x00, block)), Some(6));
            assert_eq!(refusal(&long(0xE0, 0xEF, block)), None);
            assert_eq!(refusal(&long(0x60, 0xEF, block)), None);
        }
    }

    #[test]
    fn block_comes_before_mark() {
        assert_eq!(refusal(&long(0xE0, 0x00, &[0x12, 0x12, 0x00])), Some(5));
        assert_eq!(
            refusal(&long(0xE0, 0xEF, &[0x00, 0x12, 0x00, 0x13])),
            Some(5)
        );
    }

    #[test]
    fn reader_at_the_centre() {
        let refusal = |telegram: &[u8]| read(CENTRE, telegram).err();

        for function in 0..=u8::MAX {
            let telegram = short(function, [0x00, 0x12, 0x13, 0x55]);
            assert_eq!(refusal(&telegram), (function != 0xE0).then_some(3));
            assert_eq!(refusal(&telegram[..5]), Some(2));
        }
        assert_eq!(refusal(&short(0xE0, [0x00; 4])), Some(5));
        assert_eq!(refusal(&long(0xE0, 0x00, &[0x00; 5])), Some(5));
        assert_eq!(refusal(&long(0xE0, 0xEF, &[0x00; 5])), Some(5));
        assert_eq!(refusal(&long(0xE0, 0xEF, &[0x00, 0x12])), Some(6));
        assert_eq!(refusal(&long(0xE0, 0x00, &[0x00, 0x12])), None);
        assert_eq!(read(STATION, &short(0xE0, [0x00; 4])).err(), None);
    }

    // Rolling and writing

    #[test]
    fn rolls() {
        let header = Header {
            function: Function::Request,
            control: 0x77,
            extended: false,
            block: vec![0x12, 0x13, 0x55, 0x00],
        };
        let left = header.clone().roll_left();
        assert_eq!(left.block, [0x13, 0x55, 0x00, 0x12]);
        assert_eq!(left.clone().roll_right(), header);
        let right = header.clone().roll_right();
        assert_eq!(right.block, [0x00, 0x12, 0x13, 0x55]);
        assert_eq!(right.roll_left(), header);
    }

    #[test]
    fn rolls_keep_a_block_good() {
        for length in 2..=32 {
            for stations in 0..length {
                let mut header = Header {
                    function: Function::Reply,
                    control: 0,
                    extended: true,
                    block: ascending(stations, length),
                };
                for _ in 0..length {
                    header = header.roll_right();
                    let bytes = header.to_bytes();
                    assert_eq!(read(STATION, &bytes), Ok((header.clone(), &[][..])));
                }
                assert_eq!(header.block, ascending(stations, length));
            }
        }
    }

    #[test]
    fn written_as_read() {
        for telegram in [
            short(0x60, [0x12, 0x13, 0x55, 0x00]),
            short(0x60, [0x00, 0x12, 0x13, 0x55]),
            short(0xE0, [0x00, 0x12, 0x13, 0x55]),
            short(0xE0, [0xEF, 0x00, 0x00, 0x00]),
            long(0x60, 0xEF, &[0x12, 0x00]),
            long(0x60, 0xEF, &[0x00, 0x12]),
            long(0xE0, 0xEF, &[0x12, 0x00]),
            long(0xE0, 0x00, &[0x00, 0x12]),
            long(0xE0, 0x00, &ascending(0, 32)),
            long(0xE0, 0xEF, &ascending(31, 32)),
        ] {
            let (header, _) = read(STATION, &telegram).expect("a header");
            assert_eq!(header.to_bytes(), telegram);
        }
    }

    #[test]
    fn mark_follows_the_block() {
        let telegram = long(0xE0, 0xEF, &[0x12, 0x13, 0x00]);
        let (header, _) = read(STATION, &telegram).expect("a header");
        let header = header.roll_right();
        assert_eq!(header.to_bytes(), long(0xE0, 0x00, &[0x00, 0x12, 0x13]));
        let header = header.roll_right();
        assert_eq!(header.to_bytes(), long(0xE0, 0xEF, &[0x13, 0x00, 0x12]));
    }

    #[test]
    fn mark_of_a_request_stays() {
        let telegram = long(0x60, 0xEF, &[0x12, 0x13, 0x00]);
        let (header, _) = read(STATION, &telegram).expect("a header");
        let header = header.roll_right();
        assert_eq!(header.to_bytes(), long(0x60, 0xEF, &[0x00, 0x12, 0x13]));
    }
}
