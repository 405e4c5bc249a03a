//! The text that the program prints about a journey.
//!
//! The functions are total: no argument makes them panic.

use crate::header;
use crate::net::{self, Ending};
use crate::registers;

/// The addresses of the program's own net.
pub const ADDRESSES: [u8; 3] = [0x12, 0x13, 0x55];

/// The registers of the program's own net, whose stations are new.
pub fn factory_tables() -> Vec<u16> {
    registers::factory().repeat(ADDRESSES.len())
}

/// What the program prints when it reads this telegram.
pub fn program(telegram: &[u8]) -> String {
    report(telegram, &ADDRESSES, &mut factory_tables())
}

/// Plays a journey and gives one line for each transmission and one for how it ended.
///
/// If the call is refused there is a single line, and `tables` is untouched.
pub fn report(telegram: &[u8], addresses: &[u8], tables: &mut [u16]) -> String {
    let journey = match net::journey(telegram, addresses, tables) {
        Ok(journey) => journey,
        Err(number) => return format!("refused {number}\n"),
    };

    let mut text = String::new();
    for (number, telegram) in (1..).zip(&journey.telegrams) {
        text += &line(number, telegram);
    }
    text += &format!("sent {}", journey.telegrams.len());
    if let Ending::Refused(number) = journey.ending {
        text += &format!(" refused {number}");
    }
    text + "\n"
}

/// The line of one transmission.
fn line(number: usize, telegram: &[u8]) -> String {
    // A fault would have refused the call, and no station sends a telegram with one.
    let (header, _) = header::read(header::STATION, telegram).expect("a header without fault");

    let mut line = number.to_string();
    for byte in [&[header.function.byte()], &header.block[..]].concat() {
        line += &format!(" {byte:02X}");
    }
    line + "\n"
}

#[cfg(test)]
mod tests {
    use super::*;
    use crate::net::{dry_run, DryRun};
    use crate::registers::COUNT;
    use crate::samples::{long, short, IDLE};

    // The program's net

    #[test]
    fn stations_of_the_program() {
        assert_eq!(ADDRESSES, [18, 19, 85]);
        let one = registers::factory();
        assert_eq!(factory_tables(), [one, one, one].concat());
    }

    #[test]
    fn example_over_two_relays() {
        let telegram = [
            0x60, 0xFF, 0x12, 0x13, 0x55, 0x00, 0x03, 0xBB, 0x01, 0x01, 0x2C, 0x01, 0x00, 0x01,
        ];
        let expected = "1 60 12 13 55 00\n\
                        2 60 13 55 00 12\n\
                        3 60 55 00 12 13\n\
                        4 E0 13 55 00 12\n\
                        5 E0 12 13 55 00\n\
                        6 E0 00 12 13 55\n\
                        sent 6\n";
        assert_eq!(program(&telegram), expected);

        let mut tables = factory_tables();
        assert_eq!(report(&telegram, &ADDRESSES, &mut tables), expected);
        let mut after = factory_tables();
        after[2 * COUNT + 1] = 1;
        assert_eq!(tables, after);
    }

    #[test]
    fn example_over_one_relay() {
        assert_eq!(
            program(&short(0x60, [0x12, 0x55, 0x00, 0x00], &IDLE)),
            "1 60 12 55 00 00\n\
             2 60 55 00 00 12\n\
             3 E0 12 55 00 00\n\
             4 E0 00 12 55 00\n\
             sent 4\n"
        );
    }

    #[test]
    fn program_starts_anew() {
        let write = short(0x60, [0x55, 0, 0, 0], &[0x01, 0x2C, 1, 0x01, 0x2C, 1, 0, 3]);
        let text = "1 60 55 00 00 00\n2 E0 00 55 00 00\nsent 2\n";
        assert_eq!(program(&write), text);
        assert_eq!(program(&write), text);
        assert_eq!(factory_tables()[2 * COUNT + 1], 0);
    }

    // Endings

    #[test]
    fn empty_first_entry() {
        assert_eq!(
            program(&short(0x60, [0x00, 0x12, 0x13, 0x55], &IDLE)),
            "1 60 00 12 13 55\nsent 1\n"
        );
        assert_eq!(
            program(&short(0xE0, [0x00; 4], &[])),
            "1 E0 00 00 00 00\nsent 1\n"
        );
    }

    #[test]
    fn unknown_addresses() {
        assert_eq!(
            program(&short(0x60, [0x99, 0x00, 0x00, 0x00], &IDLE)),
            "1 60 99 00 00 00\nsent 1\n"
        );
        // On the way out.
        assert_eq!(
            program(&short(0x60, [0x12, 0x99, 0x55, 0x00], &IDLE)),
            "1 60 12 99 55 00\n2 60 99 55 00 12\nsent 2\n"
        );
        // On the way back.
        assert_eq!(
            program(&short(0x60, [0x55, 0x00, 0x12, 0x99], &IDLE)),
            "1 60 55 00 12 99\n2 E0 99 55 00 12\nsent 2\n"
        );
        assert_eq!(
            program(&short(0xE0, [0x13, 0x00, 0x99, 0x12], &[])),
            "1 E0 13 00 99 12\n2 E0 12 13 00 99\n3 E0 99 12 13 00\nsent 3\n"
        );
    }

    #[test]
    fn destination_refuses() {
        for (number, body) in [
            (7, &[][..]),
            (7, &[0; 7]),
            (8, &[0x03, 0xB9, 2, 0, 0, 0]),
            (9, &[0, 0, 0, 0, 2, 1, 0, 0]),
            (10, &[0, 0, 0, 0x03, 0xB9, 1, 0, 26]),
            (10, &[0, 0, 0, 0x03, 0xBB, 1, 8, 75]),
        ] {
            let telegram = short(0x60, [0x12, 0x13, 0x55, 0x00], body);
            assert_eq!(
                program(&telegram),
                format!(
                    "1 60 12 13 55 00\n2 60 13 55 00 12\n3 60 55 00 12 13\nsent 3 refused {number}\n"
                )
            );
            let mut tables = factory_tables();
            report(&telegram, &ADDRESSES, &mut tables);
            assert_eq!(tables, factory_tables());

            assert_eq!(
                program(&short(0x60, [0x13, 0x00, 0x00, 0x00], body)),
                format!("1 60 13 00 00 00\nsent 1 refused {number}\n")
            );
            // Nobody is there to refuse it.
            assert_eq!(
                program(&short(0x60, [0x14, 0x00, 0x00, 0x00], body)),
                "1 60 14 00 00 00\nsent 1\n"
            );
        }
        // The highest value that 953 may have is taken.
        let body = [0, 0, 0, 0x03, 0xB9, 1, 0, 25];
        assert_eq!(
            program(&short(0x60, [0x13, 0x00, 0x00, 0x00], &body)),
            "1 60 13 00 00 00\n2 E0 00 13 00 00\nsent 2\n"
        );
    }

    #[test]
    fn refused_outright() {
        for (telegram, number) in [
            (vec![], 2),
            (vec![0x60; 5], 2),
            (vec![0x60, 0xFF, 0xEF, 0xEF, 0xEF, 0xEF], 2),
            (short(0x61, [0x12, 0x00, 0x00, 0x00], &IDLE), 3),
            (vec![0x60, 0xFF, 0xEF, 0xEF, 0xEF, 0xEF, 33], 4),
            (short(0x60, [0x12, 0x13, 0x14, 0x15], &IDLE), 5),
            (short(0x60, [0x12, 0x12, 0x55, 0x00], &IDLE), 5),
            (short(0x60, [0x12, 0x00, 0x13, 0x00], &IDLE), 5),
            (short(0x60, [0x00, 0xEF, 0xEF, 0xEF], &IDLE), 5),
            (long(0xE0, 0x00, &[0x12, 0x00], &IDLE), 6),
            (long(0xE0, 0xEF, &[0x00, 0x12], &IDLE), 6),
            (vec![0x60; 1025], 12),
            (vec![0x60; 200_000], 12),
        ] {
            let text = format!("refused {number}\n");
            assert_eq!(program(&telegram), text);
            let mut tables = factory_tables();
            assert_eq!(report(&telegram, &ADDRESSES, &mut tables), text);
            assert_eq!(tables, factory_tables());
            // The net comes before the telegram.
            for (addresses, length) in [
                (vec![0x12, 0x13, 0x55], 3 * COUNT - 1),
                (vec![0x12, 0x13, 0x55], 3 * COUNT + 1),
                (vec![0x12, 0x13, 0x12], 3 * COUNT),
                (vec![0x12, 0x13, 0x00], 3 * COUNT),
                (vec![0x12, 0x13, 0xF1], 3 * COUNT),
                ((1..=65).collect(), 65 * COUNT),
            ] {
                let mut tables = vec![7; length];
                assert_eq!(report(&telegram, &addresses, &mut tables), "refused 1\n");
                assert_eq!(tables, vec![7; length]);
            }
        }
    }

    #[test]
    fn no_stations_at_all() {
        let telegram = short(0x60, [0x12, 0x13, 0x55, 0x00], &[]);
        assert_eq!(
            report(&telegram, &[], &mut []),
            "1 60 12 13 55 00\nsent 1\n"
        );
        assert_eq!(report(&[], &[], &mut []), "refused 2\n");
        assert_eq!(report(&telegram, &[], &mut [0]), "refused 1\n");
    }

    // Lines

    #[test]
    fn lines_of_the_extended_form() {
        // No mark, no count and no control byte, which is another one here.
        let mut telegram = long(0x60, 0xEF, &[0x12, 0x55, 0x00], &IDLE);
        telegram[1] = 0xAB;
        assert_eq!(
            program(&telegram),
            "1 60 12 55 00\n2 60 55 00 12\n3 E0 12 55 00\n4 E0 00 12 55\nsent 4\n"
        );
        assert_eq!(
            program(&long(0xE0, 0x00, &[0x00, 0x00], &[1, 2, 3])),
            "1 E0 00 00\nsent 1\n"
        );
        assert_eq!(
            program(&long(
                0x60,
                0xEF,
                &[0x55, 0x00, 0x00, 0x00, 0x00, 0x00],
                &IDLE
            )),
            "1 60 55 00 00 00 00 00\n2 E0 00 55 00 00 00 00\nsent 2\n"
        );
    }

    #[test]
    fn digits() {
        // Two for each entry, in capitals; the number is decimal and has no zeros in front.
        let addresses: [u8; 6] = [0x0A, 0xAB, 0xCD, 0xEF, 0x01, 0xF0];
        let block = [0x0A, 0xAB, 0xCD, 0xEF, 0x01, 0xF0, 0x00];
        let text = report(
            &long(0x60, 0xEF, &block, &IDLE),
            &addresses,
            &mut [0; 6 * COUNT],
        );
        let lines: Vec<&str> = text.lines().collect();
        assert_eq!(lines.len(), 13);
        assert_eq!(lines[0], "1 60 0A AB CD EF 01 F0 00");
        assert_eq!(lines[8], "9 E0 CD EF 01 F0 00 0A AB");
        assert_eq!(lines[9], "10 E0 AB CD EF 01 F0 00 0A");
        assert_eq!(lines[11], "12 E0 00 0A AB CD EF 01 F0");
        assert_eq!(lines[12], "sent 12");
        assert!(text.ends_with("sent 12\n"));
    }

    #[test]
    fn longest_journey() {
        let route: Vec<u8> = (1..=31).collect();
        let block = [&route[..], &[0x00]].concat();
        let mut tables = vec![0; 31 * COUNT];
        let text = report(&long(0x60, 0xEF, &block, &IDLE), &route, &mut tables);

        // Entry 31 of the ring is the empty one.
        let line = |number: usize, function: &str, first: usize| {
            let mut block = block.clone();
            block.rotate_left(first);
            let block: Vec<String> = block.iter().map(|entry| format!("{entry:02X}")).collect();
            format!("{number} {function} {}\n", block.join(" "))
        };
        let mut expected = String::new();
        for i in 1..=31 {
            expected += &line(i, "60", i - 1);
        }
        for i in 32..=61 {
            expected += &line(i, "E0", 61 - i);
        }
        expected += &line(62, "E0", 31);
        expected += "sent 62\n";
        assert_eq!(text, expected);
    }

    // Against the dry run

    #[test]
    fn agrees_with_the_dry_run() {
        let bodies: [&[u8]; 5] = [
            &IDLE,
            &[],
            &[0x03, 0xB9, 2, 0, 0, 0],
            &[0, 0, 0, 0x03, 0xA3, 1, 0, 0],
            &[0x01, 0x2C, 1, 0x01, 0x2C, 1, 0, 2],
        ];
        let entries = [0x00, 0x12, 0x13, 0x55, 0x99, 0xF1];
        let mut telegrams = vec![vec![], vec![0x60; 1024], vec![0x60; 1025]];
        for a in entries {
            for b in entries {
                for c in entries {
                    for d in entries {
                        for body in bodies {
                            telegrams.push(short(0x60, [a, b, c, d], body));
                            telegrams.push(short(0xE0, [a, b, c, d], body));
                            telegrams.push(long(0x60, 0xEF, &[a, b, c, d], body));
                            telegrams.push(long(0xE0, 0x00, &[a, b, c, d], body));
                            telegrams.push(long(0xE0, 0xEF, &[a, b, c, d], body));
                        }
                    }
                }
            }
        }
        for telegram in telegrams {
            let mut tables = factory_tables();
            let text = report(&telegram, &ADDRESSES, &mut tables);
            let mut again = factory_tables();
            let mut out = [0xA5; 1024];
            match dry_run(&telegram, &ADDRESSES, &mut again, &mut out) {
                Err(number) => assert_eq!(text, format!("refused {number}\n")),
                Ok(DryRun {
                    count,
                    ending,
                    length,
                }) => {
                    let lines: Vec<&str> = text.lines().collect();
                    assert_eq!(lines.len(), count + 1);
                    assert_eq!(lines[0], line(1, &telegram).trim_end());
                    assert_eq!(lines[count - 1], line(count, &out[..length]).trim_end());
                    let last = match ending {
                        Ending::EmptyEntry | Ending::UnknownAddress => format!("sent {count}"),
                        Ending::Refused(number) => format!("sent {count} refused {number}"),
                    };
                    assert_eq!(lines[count], last);
                }
            }
            assert_eq!(tables, again);
        }
    }

    #[test]
    fn tables_are_carried_on() {
        // The write of one report shows in what the next one leaves.
        let mut tables = factory_tables();
        let write = |low: u8| {
            short(
                0x60,
                [0x12, 0x13, 0x00, 0x00],
                &[0, 0, 0, 0x03, 0xB9, 1, 0, low],
            )
        };
        let good = report(&write(25), &ADDRESSES, &mut tables);
        assert!(good.ends_with("\nsent 4\n"));
        let mut after = factory_tables();
        after[COUNT + 9] = 25;
        assert_eq!(tables, after);
        let bad = report(&write(26), &ADDRESSES, &mut tables);
        assert!(bad.ends_with("\nsent 2 refused 10\n"));
        assert_eq!(tables, after);
    }
}
