//! Dry runs, and exchanges from the centre's request to the reply that it reads.

use hanraquin::{Ending, Handled, Refusal, dry_run, handle, place_of, read_reply, write_request};
use hanraquin::{FACTORY, REGISTERS, REQUEST_MAX, ROUTE, Registers, Reply, STATIONS_MAX, TELEGRAM};

const ADDRESSES: [u8; 3] = [0x12, 0x13, 0x55];
const REQUEST: [u8; 14] = [
    0x60, 0xFF, 0x12, 0x13, 0x55, 0x00, 0x03, 0xBB, 0x01, 0x01, 0x2C, 0x01, 0x00, 0x01,
];

/// Hands a telegram from station to station. Gives the number of transmissions and the last one.
fn played(telegram: &[u8], addresses: &[u8], tables: &mut [Registers]) -> (u32, Vec<u8>) {
    let (mut count, mut last) = (1, telegram.to_vec());
    let mut out = [0; TELEGRAM];
    while let Some(sent) =
        addresses
            .iter()
            .zip(&mut *tables)
            .find_map(|(&own, table)| {
                match handle(own, table, &last, &mut out).expect("no refusal") {
                    Handled::Sent(sent) => Some(sent.to_vec()),
                    Handled::NotMine => None,
                }
            })
    {
        count += 1;
        last = sent;
    }
    (count, last)
}

#[test]
fn example_of_the_rules() {
    let (mut tables, mut out) = ([FACTORY; 3], [0xA5; TELEGRAM + 2]);
    let run = dry_run(&REQUEST, &ADDRESSES, tables.as_flattened_mut(), &mut out).expect("played");
    assert_eq!((run.count, run.ending), (6, Ending::AtZero));
    assert_eq!(
        run.last,
        [
            0xE0, 0xFF, 0x00, 0x12, 0x13, 0x55, 0x03, 0xBB, 0x01, 0x00, 0x00
        ]
    );
    assert_eq!(out[11..TELEGRAM], [0; TELEGRAM - 11]);
    assert_eq!(out[TELEGRAM..], [0xA5; 2]);

    let mut expected = [FACTORY; 3];
    expected[2][1] = 1;
    assert_eq!(tables, expected);
}

#[test]
fn three_endings() {
    let mut to_99 = REQUEST;
    to_99[3] = 0x99;
    let mut out_of_range = REQUEST;
    out_of_range[13] = 4;
    for (telegram, count, ending) in [
        (REQUEST, 6, Ending::AtZero),
        (to_99, 2, Ending::AtNobody),
        (out_of_range, 3, Ending::Refused(Refusal::ValueRange)),
    ] {
        let (mut tables, mut out) = ([FACTORY; 3], [0; TELEGRAM]);
        let run = dry_run(&telegram, &ADDRESSES, tables.as_flattened_mut(), &mut out);
        let run = run.expect("played");
        assert_eq!((run.count, run.ending), (count, ending));
        assert_eq!(tables == [FACTORY; 3], ending != Ending::AtZero);
    }
}

#[test]
fn nets_that_cannot_be() {
    let many: Vec<u8> = (1..=STATIONS_MAX as u8 + 1).collect();
    let mut out = [0xA5; TELEGRAM];
    for (addresses, tables_len) in [
        (&many[..], REGISTERS * many.len()),
        (&[0x12, 0x13, 0x12], 3 * REGISTERS),
        (&[0x00], REGISTERS),
        (&[0xF1], REGISTERS),
        (&ADDRESSES, 3 * REGISTERS - 1),
        (&ADDRESSES, 3 * REGISTERS + 1),
        (&[], REGISTERS),
    ] {
        let answer = dry_run(&REQUEST, addresses, &mut vec![0; tables_len], &mut out);
        assert_eq!(answer, Err(Refusal::Setup), "{addresses:02X?}");
    }
    assert_eq!(out, [0xA5; TELEGRAM]);

    let most = &many[..STATIONS_MAX];
    let mut tables = [0; REGISTERS * STATIONS_MAX];
    let run = dry_run(&REQUEST, most, &mut tables, &mut out).expect("played");
    assert_eq!((run.count, run.ending), (3, Ending::AtNobody));
    let run = dry_run(&REQUEST, &[], &mut [], &mut out).expect("played");
    assert_eq!((run.count, run.ending), (1, Ending::AtNobody));
    assert_eq!(run.last, REQUEST);
}

#[test]
fn order_of_refusals() {
    let (long, mut out) = ([0; TELEGRAM + 1], [0; TELEGRAM]);
    assert_eq!(dry_run(&long, &[0], &mut [], &mut []), Err(Refusal::Setup));
    assert_eq!(dry_run(&long, &[], &mut [], &mut []), Err(Refusal::TooLong));
    assert_eq!(
        dry_run(&[], &[], &mut [], &mut out[1..]),
        Err(Refusal::OutputShort)
    );
    assert_eq!(
        dry_run(&[], &[], &mut [], &mut out),
        Err(Refusal::HeaderCut)
    );
}

#[test]
fn addresses_may_be_a_part_of_the_telegram() {
    let (mut tables, mut out) = ([FACTORY; 3], [0; TELEGRAM]);
    let run = dry_run(
        &REQUEST,
        &REQUEST[2..5],
        tables.as_flattened_mut(),
        &mut out,
    );
    assert_eq!(run.expect("played").count, 6);
}

#[test]
fn exchanges_over_every_number_of_stations() {
    for stations in 1..=ROUTE {
        let route: Vec<u8> = (0..stations as u8).map(|i| 240 - 7 * i).collect();
        let values = [0x0102, 59];
        let mut out = [0; REQUEST_MAX];
        let request = write_request(&route, 955, 3, 955, &values, &mut out).expect("written");

        let (mut tables, mut out) = (vec![FACTORY; stations], [0; TELEGRAM]);
        let (count, last) = played(request, &route, &mut tables);
        let mut copies = vec![FACTORY; stations];
        let run = dry_run(request, &route, copies.as_flattened_mut(), &mut out);
        let run = run.expect("played");
        assert_eq!(
            (run.count, run.ending),
            (2 * stations as u32, Ending::AtZero)
        );
        assert_eq!((count, &last[..]), (run.count, &*run.last));
        assert_eq!(tables, copies);

        // The destination has the values, and nobody else has anything new.
        let mut expected = vec![FACTORY; stations];
        let place = place_of(955).expect("a register");
        expected[stations - 1][place..place + 2].copy_from_slice(&values);
        assert_eq!(tables, expected);

        match read_reply(run.last) {
            Ok(Reply::Accepted(reply)) => {
                assert_eq!(reply.route(), route);
                assert_eq!((reply.start, reply.count), (955, 3));
                assert!(reply.values().eq([0x0102, 59, 65535]));
            }
            other => panic!("{other:?}"),
        }
    }
}
