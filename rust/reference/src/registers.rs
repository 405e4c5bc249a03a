//! The registers of a station: which numbers exist, which can be written, and with what.

use Range::{Interval, TimeOfDay};

/// How many registers a station has.
pub const COUNT: usize = 18;

/// The values of a station's registers, each at its place in [`ROWS`].
pub type Table = [u16; COUNT];

/// The last hour of a day.
pub const LAST_HOUR: u16 = 23;

/// The last minute of an hour.
pub const LAST_MINUTE: u16 = 59;

/// The value of a time of day, good or not.
pub fn time(hour: u16, minute: u16) -> u16 {
    256 * hour + minute
}

/// A range of values.
#[derive(Clone, Copy, PartialEq, Eq, Debug)]
pub enum Range {
    /// Every value from the first to the second, both included.
    Interval(u16, u16),
    /// A time of day: the hour is in the high byte, the minute in the low byte.
    TimeOfDay,
}

impl Range {
    /// Whether the value is in the range.
    pub fn has(&self, value: u16) -> bool {
        match *self {
            Range::Interval(low, high) => low <= value && value <= high,
            Range::TimeOfDay => value / 256 <= LAST_HOUR && value % 256 <= LAST_MINUTE,
        }
    }
}

/// What is fixed about one register.
#[derive(Clone, Copy, PartialEq, Eq, Debug)]
pub struct Row {
    /// The number that telegrams use for it.
    pub number: u16,
    /// Whether a telegram may write it.
    pub write: bool,
    /// Range of the values that it may be given.
    pub range: Range,
    /// A single value outside the range that is good as well.
    pub also: Option<u16>,
    /// Value that a new station has.
    pub factory: u16,
}

impl Row {
    /// Whether the value is one that this register may be given.
    pub fn takes(&self, value: u16) -> bool {
        self.range.has(value) || self.also == Some(value)
    }
}

/// One line of the table below.
const fn row(number: u16, write: bool, range: Range, also: Option<u16>, factory: u16) -> Row {
    Row {
        number,
        write,
        range,
        also,
        factory,
    }
}

/// Every value that there is.
const ANY: Range = Interval(0, u16::MAX);

/// All registers, by number.
#[rustfmt::skip]
pub const ROWS: [Row; COUNT] = [
    //  number, write, range,             also,        factory
    row(     2, false, ANY,               None,              0),
    row(   300, true,  Interval(0,    3), None,              0),
    row(   931, false, ANY,               None,              0),
    row(   932, false, ANY,               None,              0),
    row(   933, false, ANY,               None,              0),
    row(   934, false, ANY,               None,              0),
    row(   935, false, ANY,               None,              0),
    row(   936, false, ANY,               None,              0),
    row(   952, true,  Interval(1, 1440), None,             15),
    row(   953, true,  Interval(2,   25), None,              2),
    row(   955, true,  TimeOfDay,         None,              0),
    row(   956, true,  Interval(0,   59), None,              0),
    row(   957, true,  TimeOfDay,         Some(65535),   65535),
    row(   958, true,  Interval(1, 1440), None,             30),
    row(   959, true,  Interval(1, 3600), Some(65535),      60),
    row(   960, true,  Interval(1, 1440), None,             15),
    row(   961, true,  Interval(1, 1440), None,             30),
    row(   962, true,  Interval(0,    1), None,              0),
];

/// The place of the register with this number, if there is one.
pub fn place(number: u16) -> Option<usize> {
    ROWS.iter().position(|row| row.number == number)
}

/// The places of `count` registers with consecutive numbers from `start` on.
///
/// There are none to give if any of the numbers has no register; a number above 65535
/// never has one. With a count of 0 the start does not matter.
pub fn run(start: u16, count: u8) -> Option<Vec<usize>> {
    (0..u32::from(count))
        .map(|offset| {
            let number = u16::try_from(u32::from(start) + offset).ok()?;
            place(number)
        })
        .collect()
}

/// The registers of a new station.
pub fn factory() -> Table {
    ROWS.map(|row| row.factory)
}

#[cfg(test)]
mod tests {
    use super::*;

    /// Every number that has a register, in table order.
    const NUMBERS: [u16; COUNT] = [
        2, 300, 931, 932, 933, 934, 935, 936, 952, 953, 955, 956, 957, 958, 959, 960, 961, 962,
    ];

    /// The row of a number that has one.
    fn of(number: u16) -> Row {
        ROWS[place(number).expect("a register")]
    }

    /// Every value that a register takes, in order.
    fn taken(number: u16) -> Vec<u16> {
        (0..=u16::MAX)
            .filter(|&value| of(number).takes(value))
            .collect()
    }

    #[test]
    fn numbers_in_order() {
        assert_eq!(ROWS.map(|row| row.number), NUMBERS);
        assert!(NUMBERS.is_sorted());
    }

    #[test]
    fn factory_values() {
        assert_eq!(
            factory(),
            [0, 0, 0, 0, 0, 0, 0, 0, 15, 2, 0, 0, 65535, 30, 60, 15, 30, 0]
        );
    }

    #[test]
    fn factory_values_are_good() {
        for row in ROWS {
            assert!(row.takes(row.factory), "{row:?}");
        }
    }

    #[test]
    fn inputs_cannot_be_written() {
        for row in ROWS {
            let input = row.number == 2 || (931..=936).contains(&row.number);
            assert_eq!(row.write, !input, "{row:?}");
            if input {
                assert_eq!(row.factory, 0);
            }
        }
    }

    #[test]
    fn place_of_every_number() {
        for number in 0..=u16::MAX {
            let expected = match number {
                2 => Some(0),
                300 => Some(1),
                931..=936 => Some(usize::from(number) - 931 + 2),
                952 => Some(8),
                953 => Some(9),
                955..=962 => Some(usize::from(number) - 955 + 10),
                _ => None,
            };
            assert_eq!(place(number), expected, "{number}");
        }
    }

    #[test]
    fn every_value_of_every_interval() {
        for value in 0..=u16::MAX {
            for number in [2, 931, 932, 933, 934, 935, 936] {
                assert!(of(number).takes(value));
            }
            for number in [952, 958, 960, 961] {
                assert_eq!(of(number).takes(value), (1..=1440).contains(&value));
            }
            assert_eq!(of(300).takes(value), value <= 3);
            assert_eq!(of(953).takes(value), (2..=25).contains(&value));
            assert_eq!(of(956).takes(value), value <= 59);
            assert_eq!(
                of(959).takes(value),
                (1..=3600).contains(&value) || value == 65535
            );
            assert_eq!(of(962).takes(value), value <= 1);
        }
    }

    #[test]
    fn every_time_of_day() {
        let mut times = vec![];
        for hour in 0..24 {
            for minute in 0..60 {
                times.push(time(hour, minute));
            }
        }
        assert_eq!(times.len(), 1440);
        assert_eq!(taken(955), times);
        times.push(65535);
        assert_eq!(taken(957), times);
    }

    #[test]
    fn hour_and_minute_have_limits_of_their_own() {
        assert_eq!((time(8, 75), time(23, 59)), (2123, 5947));
        for row in [of(955), of(957)] {
            for good in [time(0, 0), time(0, 59), time(1, 0), time(23, 0), 5947] {
                assert!(row.takes(good), "{good}");
            }
            // The first four are below 23:59.
            let minutes = [time(0, 60), time(0, 255), 2123, time(22, 60), time(23, 60)];
            let hours = [time(24, 0), time(24, 59), time(255, 59), 65534];
            for bad in minutes.into_iter().chain(hours) {
                assert!(!row.takes(bad), "{bad}");
            }
        }
    }

    #[test]
    fn empty_run_from_anywhere() {
        for start in 0..=u16::MAX {
            assert_eq!(run(start, 0), Some(vec![]));
        }
    }

    #[test]
    fn run_of_one_is_a_place() {
        for start in 0..=u16::MAX {
            assert_eq!(run(start, 1), place(start).map(|place| vec![place]));
        }
    }

    #[test]
    fn runs_within_each_stretch() {
        // Stretches of numbers without a gap: first, last, place of the first.
        let stretches = [
            (2, 2, 0),
            (300, 300, 1),
            (931, 936, 2),
            (952, 953, 8),
            (955, 962, 10),
        ];
        for start in 0..=1100 {
            for count in 1..=u8::MAX {
                let last = start + u16::from(count) - 1;
                let expected = stretches
                    .iter()
                    .find(|(from, to, _)| *from <= start && last <= *to)
                    .map(|(from, _, place)| {
                        let first = place + usize::from(start - from);
                        (first..first + usize::from(count)).collect::<Vec<_>>()
                    });
                assert_eq!(run(start, count), expected, "{count} from {start}");
            }
        }
    }

    #[test]
    fn gaps_end_a_run() {
        assert_eq!(run(952, 2), Some(vec![8, 9]));
        assert_eq!(run(953, 2), None);
        assert_eq!(run(952, 3), None);
        assert_eq!(run(954, 1), None);
        assert_eq!(run(954, 2), None);
        assert_eq!(run(955, 8), Some((10..=17).collect()));
        assert_eq!(run(955, 9), None);
        assert_eq!(run(2, 255), None);
    }

    #[test]
    fn runs_past_65535() {
        for start in 65281..=u16::MAX {
            for count in 1..=u8::MAX {
                assert_eq!(run(start, count), None);
            }
        }
        // The numbers do not start again at 0, so 2 is never reached.
        assert_eq!(run(65535, 4), None);
    }
}
