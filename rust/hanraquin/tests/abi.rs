//! The library's own functions: answers of 64 bits, wrong lengths, and numbers at the limits.

use hanraquin::{FACTORY, REGISTERS, sys};

const NOT_MINE: u64 = 255 << 32;

/// Read register 955 of 55 over 12 and 13, and write 1 to 300.
const REQUEST: [u8; 14] = [
    0x60, 0xFF, 0x12, 0x13, 0x55, 0x00, 0x03, 0xBB, 0x01, 0x01, 0x2C, 0x01, 0x00, 0x01,
];
const REPLY: [u8; 11] = [
    0xE0, 0xFF, 0x00, 0x12, 0x13, 0x55, 0x03, 0xBB, 0x01, 0x00, 0x00,
];

/// The whole answer of a call that is refused.
const fn refused(number: u64) -> u64 {
    number << 32
}

fn frame(data: &[u8], out: &mut [u8]) -> u64 {
    // SAFETY: pointers and lengths are those of slices.
    unsafe { sys::hanraquin_frame(data.as_ptr(), data.len(), out.as_mut_ptr(), out.len()) }
}

fn receive(state: &mut [u64], event: u32, buffer: &mut [u8]) -> u64 {
    // SAFETY: pointers and lengths are those of slices.
    unsafe {
        sys::hanraquin_receive(
            state.as_mut_ptr(),
            state.len(),
            event,
            buffer.as_mut_ptr(),
            buffer.len(),
        )
    }
}

fn send(state: &mut [u64], event: u32, data: &[u8], buffer: &mut [u8], out: &mut [u8]) -> u64 {
    // SAFETY: pointers and lengths are those of slices.
    unsafe {
        sys::hanraquin_send(
            state.as_mut_ptr(),
            state.len(),
            event,
            data.as_ptr(),
            data.len(),
            buffer.as_mut_ptr(),
            buffer.len(),
            out.as_mut_ptr(),
            out.len(),
        )
    }
}

fn station(own: u8, registers: &mut [u16], telegram: &[u8], out: &mut [u8]) -> u64 {
    // SAFETY: pointers and lengths are those of slices.
    unsafe {
        sys::hanraquin_station(
            own,
            registers.as_mut_ptr(),
            registers.len(),
            telegram.as_ptr(),
            telegram.len(),
            out.as_mut_ptr(),
            out.len(),
        )
    }
}

fn write_request(route: &[u8], read_count: usize, values: &[u16], out: &mut [u8]) -> u64 {
    // SAFETY: pointers and lengths are those of slices.
    unsafe {
        sys::hanraquin_write_request(
            route.as_ptr(),
            route.len(),
            955,
            read_count,
            300,
            values.as_ptr(),
            values.len(),
            out.as_mut_ptr(),
            out.len(),
        )
    }
}

fn read_reply(telegram: &[u8], route: &mut [u8], run: &mut [u16]) -> u64 {
    // SAFETY: pointers and lengths are those of slices.
    unsafe {
        sys::hanraquin_read_reply(
            telegram.as_ptr(),
            telegram.len(),
            route.as_mut_ptr(),
            route.len(),
            run.as_mut_ptr(),
            run.len(),
        )
    }
}

fn dry_run(
    telegram: &[u8],
    addresses: &[u8],
    tables: &mut [u16],
    out: &mut [u8],
    result: &mut [u32],
) -> u64 {
    // SAFETY: pointers and lengths are those of slices.
    unsafe {
        sys::hanraquin_dry_run(
            telegram.as_ptr(),
            telegram.len(),
            addresses.as_ptr(),
            addresses.len(),
            tables.as_mut_ptr(),
            tables.len(),
            out.as_mut_ptr(),
            out.len(),
            result.as_mut_ptr(),
            result.len(),
        )
    }
}

fn gate_write(destination: u8, source: u8, data: &[u8], out: &mut [u8]) -> u64 {
    // SAFETY: pointers and lengths are those of slices.
    unsafe {
        sys::hanraquin_gate_write(
            destination,
            source,
            data.as_ptr(),
            data.len(),
            out.as_mut_ptr(),
            out.len(),
        )
    }
}

fn gate_receive(own: u8, state: &mut [u64], store: &mut [u8], event: u32, out: &mut [u8]) -> u64 {
    // SAFETY: pointers and lengths are those of slices.
    unsafe {
        sys::hanraquin_gate_receive(
            own,
            state.as_mut_ptr(),
            state.len(),
            store.as_mut_ptr(),
            store.len(),
            event,
            out.as_mut_ptr(),
            out.len(),
        )
    }
}

fn gate_operate(data: &[u8], levels: &mut [u8], edges: &mut [u8]) -> u64 {
    // SAFETY: pointers and lengths are those of slices.
    unsafe {
        sys::hanraquin_gate_operate(
            data.as_ptr(),
            data.len(),
            levels.as_mut_ptr(),
            levels.len(),
            edges.as_mut_ptr(),
            edges.len(),
        )
    }
}

fn gate_write_command(command: u8, function: u8, out: &mut [u8]) -> u64 {
    // SAFETY: pointer and length are those of a slice.
    unsafe { sys::hanraquin_gate_write_command(command, function, out.as_mut_ptr(), out.len()) }
}

fn gate_write_answer(kind: u8, number: i32, out: &mut [u8]) -> u64 {
    // SAFETY: pointer and length are those of a slice.
    unsafe { sys::hanraquin_gate_write_answer(kind, number, out.as_mut_ptr(), out.len()) }
}

fn gate_read_answer(data: &[u8], number: &mut [i32]) -> u64 {
    // SAFETY: pointers and lengths are those of slices.
    unsafe {
        sys::hanraquin_gate_read_answer(
            data.as_ptr(),
            data.len(),
            number.as_mut_ptr(),
            number.len(),
        )
    }
}

#[test]
fn frame_answers_its_length() {
    let mut out = [0xA5; 2051];
    assert_eq!(frame(&[], &mut out), 3);
    assert_eq!(frame(&[0x10; 1024], &mut out), 2051);
    assert_eq!(frame(&[0x10; 1025], &mut out), refused(12));
    assert_eq!(frame(&[0x10; 1025], &mut []), refused(12));
    assert_eq!(frame(&[0x10; 1024], &mut out[..2050]), refused(11));
    assert_eq!(frame(&[], &mut []), refused(11));
}

#[test]
fn events_are_bytes_and_the_timer() {
    let inside = [1, 0, 0];
    for event in 0..=255 {
        let (mut state, mut buffer) = (inside, [0xA5; 2]);
        assert_eq!(receive(&mut state, event, &mut buffer), 0);
        if event == 0x10 {
            assert_eq!((state, buffer), ([2, 0, 0x10], [0xA5; 2]));
        } else {
            assert_eq!(state, [1, 1, u64::from(event)]);
            assert_eq!(buffer, [event as u8, 0xA5]);
        }
    }
    let (mut state, mut buffer) = (inside, [0xA5; 2]);
    assert_eq!(receive(&mut state, sys::TIMER, &mut buffer), 256 + 0x15);
    assert_eq!((state, buffer), ([0; 3], [0xA5; 2]));
    assert_eq!(receive(&mut state, sys::TIMER, &mut buffer), 0);
    assert_eq!(state, [0; 3]);
}

#[test]
fn larger_events_are_refused() {
    // Bytes from a signed char are among these.
    let signed = [-128_i8, -1].map(|byte| byte as u32);
    let others = [257, 256 + 2, 65536 + 2, 65536 + 256, 1 << 31, u32::MAX];
    for event in signed.into_iter().chain(others) {
        for before in [[0, 0, 0], [1, 1, 0x41], [2, 1, 0x41], [3, 2, 0x13]] {
            let (mut state, mut buffer) = (before, [0xA5; 2]);
            assert_eq!(receive(&mut state, event, &mut buffer), refused(1));
            assert_eq!((state, buffer), (before, [0xA5; 2]));
        }
    }
}

#[test]
fn receive_answers_a_message_with_its_count() {
    for count in [0, 1, 1023, 1024] {
        let (mut state, mut buffer) = ([3, count, 0x15], [0xA5; 2000]);
        assert_eq!(receive(&mut state, 0x15, &mut buffer), 65536 + count);
        assert_eq!((state, buffer), ([0; 3], [0xA5; 2000]));
    }
    assert_eq!(receive(&mut [3, 0, 0], 0, &mut []), 65536);
}

#[test]
fn states_that_cannot_be_are_refused_in_every_phase() {
    const HUGE: [u64; 4] = [1 << 32, (1 << 32) + 1, 1 << 63, u64::MAX];
    let mut bad = vec![];
    for phase in 0..=3 {
        for number in HUGE {
            bad.push([phase, number, 0]);
            bad.push([phase, 0, number]);
            bad.push([number, 0, 0]);
        }
        // One more than the buffer has places, and a check of more than a byte.
        bad.push([phase, 5, 0]);
        bad.push([phase, 0, 256]);
        bad.push([phase + 4, 0, 0]);
    }
    for before in bad {
        for event in [0, 0x02, 0x03, 0x10, 0x15, 255, 256, u32::MAX] {
            let (mut state, mut buffer) = (before, [0xA5; 4]);
            assert_eq!(receive(&mut state, event, &mut buffer), refused(1));
            assert_eq!((state, buffer), (before, [0xA5; 4]));
        }
    }
    // More than 1,024, in a buffer that is long enough.
    for phase in 0..=3 {
        let (mut state, mut buffer) = ([phase, 1025, 0], [0xA5; 2000]);
        assert_eq!(receive(&mut state, 0x02, &mut buffer), refused(1));
        assert_eq!((state, buffer), ([phase, 1025, 0], [0xA5; 2000]));
    }
}

#[test]
fn states_of_another_length_are_refused() {
    for length in [0, 1, 2, 4, 30] {
        let (mut state, mut buffer) = (vec![0; length], [0xA5; 4]);
        for event in [0x02, 256] {
            assert_eq!(receive(&mut state, event, &mut buffer), refused(1));
            assert_eq!((&state[..], buffer), (&vec![0; length][..], [0xA5; 4]));
        }
    }
}

#[test]
fn send_answers_how_many_bytes_to_send() {
    let opening = [1, 3, 2, 0, 0, 0, 0, 0, 0];
    for (data, length) in [(&[][..], 3), (&[0x60, 0x10], 6), (&[0x10; 1024], 2051)] {
        let (mut state, mut out) = (opening, [0xA5; 2052]);
        assert_eq!(send(&mut state, 0x10, data, &mut [], &mut out), length);
        assert_eq!(state, [2, 3, 2, 0, 0, 0, 0, 0, 0]);
        let short = &mut out[..length as usize - 1];
        let answer = send(&mut opening.clone(), 0x10, data, &mut [], short);
        assert_eq!(answer, refused(11));
    }
    let mut fresh = [0, 1, 255, 1, 0, 0, 0, 0, 0];
    assert_eq!(send(&mut fresh, 0x10, &[], &mut [], &mut []), 0);
    assert_eq!(send(&mut fresh, sys::TIMER, &[], &mut [], &mut []), 0);
    assert_eq!(send(&mut fresh, sys::START, &[], &mut [], &mut [0]), 1);
    assert_eq!(fresh, [1, 1, 255, 1, 0, 0, 0, 0, 0]);
}

#[test]
fn send_answers_a_message_with_its_count() {
    for count in [0, 1, 1023, 1024] {
        let mut state = [3, 3, 2, 0, 0, 0, 3, count, 0x15];
        let (mut buffer, mut out) = ([0xB6; 2000], [0xA5; 3]);
        let answer = send(&mut state, 0x15, &[], &mut buffer, &mut out);
        assert_eq!(answer, 65536 * (count + 1) + 2);
        assert_eq!(state, [1, 3, 2, 0, 0, 0, 0, 0, 0]);
        assert_eq!((buffer, out), ([0xB6; 2000], [0x10, 0x02, 0xA5]));
    }
}

/// A state for every phase, with the largest counts.
const SENDING: [[u64; 9]; 6] = [
    [0, 255, 255, 0, 255, 255, 0, 0, 0],
    [1, 255, 255, 1, 255, 255, 0, 0, 0],
    [2, 255, 255, 0, 255, 255, 0, 0, 0],
    [3, 255, 255, 1, 255, 255, 3, 4, 255],
    [4, 255, 255, 0, 255, 255, 0, 0, 0],
    [5, 255, 255, 1, 255, 255, 0, 0, 0],
];

/// The call is refused so with a buffer of 4 places and these outputs, and all is as it was.
fn send_refused(before: [u64; 9], event: u32, data: &[u8], number: u64) {
    for out_len in [0, 2051] {
        let (mut state, mut buffer, mut out) = (before, [0xB6; 4], vec![0xA5; out_len]);
        let answer = send(&mut state, event, data, &mut buffer, &mut out);
        assert_eq!(answer, refused(number), "{before:?} {event}");
        assert_eq!((state, buffer), (before, [0xB6; 4]));
        assert_eq!(out, vec![0xA5; out_len]);
    }
}

#[test]
fn send_events_above_the_start_are_refused_first() {
    // Bytes from a signed char are among these.
    let signed = [-128_i8, -1].map(|byte| byte as u32);
    let others = [258, 512, 512 + 0x10, 65536 + 256, 65536 + 257, 1 << 31];
    for event in signed.into_iter().chain(others) {
        for before in SENDING {
            send_refused(before, event, &[], 1);
            send_refused(before, event, &[0; 1025], 1);
        }
    }
}

#[test]
fn send_states_that_cannot_be_are_refused_first() {
    const HUGE: [u64; 4] = [256, 1 << 32, 1 << 63, u64::MAX];
    for good in SENDING {
        let answer = send(&mut good.clone(), 0x00, &[], &mut [0; 4], &mut [0; 3]);
        assert_eq!(sys::kind(answer), sys::DONE, "{good:?}");
        for word in 0..9 {
            let above = HUGE.into_iter().chain([good[word] + 1]);
            // One more as phase or priority is another one, and may be good.
            let least = [6, 0, 0, 2, 0, 0, 0, 0, 0][word];
            for above in above.filter(|&above| above >= least) {
                let mut bad = good;
                bad[word] = above;
                for event in [0, 0x02, 0x10, 0x15, 255, sys::TIMER, sys::START] {
                    send_refused(bad, event, &[], 1);
                    send_refused(bad, event, &[0; 1025], 1);
                }
            }
        }
        for word in [1, 2] {
            let mut bad = good;
            bad[word] = 0;
            send_refused(bad, 0x10, &[0; 1025], 1);
        }
    }
}

#[test]
fn send_states_of_another_length_are_refused_first() {
    for length in [0, 3, 7, 8, 10, 18] {
        // A good state, with fewer words or with zeros behind it.
        let mut before = vec![1, 3, 2];
        before.resize(length, 0);
        for data in [&[][..], &[0; 1025]] {
            for event in [0x10, sys::TIMER, sys::START] {
                let (mut state, mut out) = (before.clone(), [0xA5; 4]);
                let answer = send(&mut state, event, data, &mut [0; 4], &mut out);
                assert_eq!(answer, refused(1));
                assert_eq!((&state, out), (&before, [0xA5; 4]));
            }
        }
    }
}

#[test]
fn send_refuses_long_data_before_the_output() {
    for before in SENDING {
        for event in (0..=255).chain([sys::TIMER, sys::START]) {
            for length in [1025, 65536, 65536 + 1] {
                send_refused(before, event, &vec![0; length], 12);
            }
        }
    }
}

#[test]
fn station_answers() {
    let (mut registers, mut out) = (FACTORY, [0xA5; 1024]);
    assert_eq!(station(0x12, &mut registers, &REQUEST, &mut out), 14);
    assert_eq!(station(0x55, &mut registers, &REQUEST, &mut out), NOT_MINE);
    for own in [0, 241, 255] {
        let answer = station(own, &mut registers, &REQUEST, &mut out);
        assert_eq!(answer, refused(1));
    }
    for length in [0, REGISTERS - 1, REGISTERS + 1, 2 * REGISTERS] {
        let answer = station(0x12, &mut vec![0; length], &REQUEST, &mut out);
        assert_eq!(answer, refused(1));
    }
    assert_eq!(station(0x12, &mut registers, &[], &mut []), refused(2));
    let too_long = [0; 1025];
    assert_eq!(
        station(0x12, &mut registers, &too_long, &mut []),
        refused(12)
    );
    assert_eq!(
        station(0x12, &mut registers, &REQUEST, &mut []),
        refused(11)
    );
    assert_eq!(registers, FACTORY);
}

#[test]
fn large_read_counts_are_not_cut() {
    let mut out = [0xA5; 555];
    for count in [
        256,
        257,
        511,
        65536,
        1 << 32,
        (1 << 32) + 1,
        1 << 63,
        usize::MAX,
    ] {
        assert_eq!(write_request(&[0x55], count, &[1], &mut out), refused(12));
        // The route is judged before, and the output after.
        assert_eq!(write_request(&[], count, &[1], &mut out), refused(5));
        assert_eq!(write_request(&[0x55], count, &[1], &mut []), refused(12));
    }
    assert_eq!(out, [0xA5; 555]);
    assert_eq!(write_request(&[0x55], 255, &[1], &mut out), 14);
    assert_eq!(write_request(&[0x55], 0, &[0; 256], &mut out), refused(12));
    assert_eq!(write_request(&[0x55], 0, &[], &mut []), refused(11));

    let route: Vec<u8> = (1..=31).collect();
    assert_eq!(
        write_request(&route, 255, &[0; 255], &mut out[..554]),
        refused(11)
    );
    assert_eq!(write_request(&route, 255, &[0; 255], &mut out), 555);
}

#[test]
fn read_reply_gives_the_place_of_the_values() {
    let (mut route, mut run) = ([0xA5; 31], [7; 3]);
    assert_eq!(read_reply(&REPLY, &mut route, &mut run), 2);
    assert_eq!(route[..3], [0x12, 0x13, 0x55]);
    assert_eq!(route[3..], [0; 28]);
    assert_eq!(run, [955, 1, 9]);

    // No values, in both forms.
    let standard = [0xE0, 0xFF, 0x00, 0x12, 0x55, 0x00, 0xFF, 0xFF, 0x00];
    assert_eq!(read_reply(&standard, &mut route, &mut run), 0);
    assert_eq!(run, [65535, 0, 9]);
    let extended = [
        0xE0, 0xFF, 0x00, 0xEF, 0xEF, 0xEF, 0x02, 0x00, 0x12, 0x01, 0x2C, 0x00,
    ];
    assert_eq!(read_reply(&extended, &mut route, &mut run), 0);
    assert_eq!(run, [300, 0, 12]);
    assert_eq!(route[..2], [0x12, 0x00]);
}

#[test]
fn read_reply_clears_its_outputs_unless_their_lengths_are_wrong() {
    let relay = [
        0xE0, 0xFF, 0x12, 0x13, 0x55, 0x00, 0x03, 0xBB, 0x01, 0x00, 0x00,
    ];
    let cases: [(&[u8], u64); 5] = [
        (&[], refused(2)),
        (&REQUEST, refused(3)),
        (&REPLY[..10], refused(7)),
        (&relay, NOT_MINE),
        (&[0; 1025], refused(12)),
    ];
    for (telegram, answer) in cases {
        let (mut route, mut run) = ([0xA5; 31], [7; 3]);
        assert_eq!(read_reply(telegram, &mut route, &mut run), answer);
        assert_eq!((route, run), ([0; 31], [0; 3]));
    }
    for telegram in [&REPLY[..], &REQUEST, &[]] {
        for (route_len, run_len) in [(0, 3), (30, 3), (32, 3), (31, 0), (31, 2), (31, 4), (3, 31)] {
            let (mut route, mut run) = (vec![0xA5; route_len], vec![7; run_len]);
            assert_eq!(read_reply(telegram, &mut route, &mut run), refused(1));
            assert_eq!((route, run), (vec![0xA5; route_len], vec![7; run_len]));
        }
    }
}

#[test]
fn dry_run_gives_its_result() {
    let addresses = [0x12, 0x13, 0x55];
    // Write 4 to register 300, which takes 0 to 3; and a station that is not there.
    let (mut refused_at_55, mut to_99) = (REQUEST, REQUEST);
    refused_at_55[13] = 4;
    to_99[3] = 0x99;
    for (telegram, count, ending, length) in [
        (&REQUEST[..], 6, sys::AT_ZERO, 11),
        (&to_99, 2, sys::AT_NOBODY, 14),
        (&refused_at_55, 3, 10, 14),
        (&REPLY, 1, sys::AT_ZERO, 11),
    ] {
        let (mut tables, mut out, mut result) = ([FACTORY; 3], [0xA5; 1030], [7; 3]);
        let tables = tables.as_flattened_mut();
        let answer = dry_run(telegram, &addresses, tables, &mut out, &mut result);
        assert_eq!(answer, u64::from(count));
        assert_eq!(result, [count, ending, length]);
        assert!(out[length as usize..1024].iter().all(|&byte| byte == 0));
        assert_eq!(out[1024..], [0xA5; 6]);
    }
}

#[test]
fn refused_dry_runs_keep_everything() {
    const THREE: usize = 3 * REGISTERS;
    let addresses: Vec<u8> = (1..=65).collect();
    let check = |telegram: &[u8], addresses: &[u8], lengths: [usize; 3], number| {
        let [tables_len, out_len, result_len] = lengths;
        let mut tables = vec![7; tables_len];
        let mut out = vec![0xA5; out_len];
        let mut result = vec![9; result_len];
        let answer = dry_run(telegram, addresses, &mut tables, &mut out, &mut result);
        assert_eq!(answer, refused(number), "{} {lengths:?}", addresses.len());
        assert_eq!(tables, vec![7; tables_len]);
        assert_eq!(out, vec![0xA5; out_len]);
        assert_eq!(result, vec![9; result_len]);
    };
    for result_len in [0, 1, 2, 4, 31] {
        check(&REQUEST, &addresses[..3], [THREE, 1024, result_len], 1);
        check(&[], &[], [0, 0, result_len], 1);
    }
    check(&REQUEST, &addresses, [65 * REGISTERS, 1024, 3], 1);
    check(&REQUEST, &addresses[..3], [THREE - 1, 1024, 3], 1);
    check(&REQUEST, &addresses[..3], [THREE + 1, 1024, 3], 1);
    check(&REQUEST, &[], [REGISTERS, 1024, 3], 1);
    check(&REQUEST, &[0], [REGISTERS, 1024, 3], 1);
    check(&REQUEST, &[241], [REGISTERS, 1024, 3], 1);
    check(&REQUEST, &[5, 6, 5], [THREE, 1024, 3], 1);
    // 1, 12, 11, and then the header.
    check(&[0; 1025], &[0], [REGISTERS, 0, 3], 1);
    check(&[0; 1025], &[], [0, 0, 3], 12);
    check(&[], &[], [0, 1023, 3], 11);
    check(&[], &[], [0, 1024, 3], 2);
    check(&[0x61; 6], &addresses[..64], [64 * REGISTERS, 1024, 3], 3);
}

#[test]
fn gate_write_answers_its_length() {
    let mut out = [0xA5; 259];
    assert_eq!(gate_write(0x01, 0x00, &[], &mut out), 6);
    assert_eq!(gate_write(0xFE, 0x00, &[0x55; 253], &mut out), 259);
    assert_eq!(gate_write(0xFF, 0x00, &[0; 254], &mut []), refused(16));
    assert_eq!(gate_write(0x10, 0x00, &[], &mut out), refused(16));
    assert_eq!(gate_write(0x10, 0x00, &[0; 254], &mut []), refused(7));
    // The length of the data is not cut.
    assert_eq!(gate_write(0x01, 0x00, &[0; 256], &mut out), refused(7));
    assert_eq!(gate_write(0x01, 0x00, &[0; 65539], &mut out), refused(7));
    assert_eq!(
        gate_write(0xFE, 0x00, &[0; 253], &mut out[..258]),
        refused(11)
    );
}

#[test]
fn gate_receive_answers_source_and_count() {
    // Phase 5 with the check 1234, of which the high byte has come.
    let waiting = |source, length| [5, 0x00, source, length, 0, 0x1234, 0x12];
    for source in [0x00, 0x10, 0xFE] {
        for length in [1, 2, 253] {
            let mut state = waiting(source, length);
            let (mut store, mut out) = ([0xB6; 253], [0xA5; 300]);
            let answer = gate_receive(0x00, &mut state, &mut store, 0x34, &mut out);
            assert_eq!(answer, 65536 + 256 * source + length);
            assert_eq!((state, store), ([0; 7], [0xB6; 253]));
            let (data, behind) = out.split_at(length as usize);
            assert!(data.iter().all(|&byte| byte == 0xB6));
            assert!(behind.iter().all(|&byte| byte == 0xA5));
        }
    }
    for source in 0..=15 {
        let mut state = waiting(source, 0);
        let answer = gate_receive(0x00, &mut state, &mut [0; 253], 0x34, &mut []);
        assert_eq!(answer, 131_072 + source);
    }
}

#[test]
fn gate_refusals_start_again_and_keep_the_store() {
    let cases = [
        (0xFF, [0; 7], sys::TIMER, 16),
        (0xFF, [8, 0, 0, 0, 257, 0, 0], 0x55, 16),
        (0x10, [3, 0x10, 0, 0, 0, 7, 0], 254, 7),
        (0x10, [3, 0x10, 0, 0, 0, 7, 0], 255, 7),
        (0x10, [5, 0x10, 0, 9, 0, 0x1234, 0x12], 0x35, 15),
        (0x10, [5, 0x10, 0, 9, 0, 0x1234, 0x13], 0x34, 15),
        (0x10, [5, 0x10, 0xFF, 9, 0, 0x1234, 0x12], 0x34, 16),
        (0x10, [5, 0x10, 0, 0, 0, 0x1234, 0x12], 0x34, 16),
        (0x01, [5, 0x01, 0x10, 0, 0, 0x1234, 0x12], 0x34, 16),
        (0x10, [5, 0x10, 0, 9, 0, 0x1234, 0x12], 0x34, 11),
    ];
    for (own, mut state, event, number) in cases {
        let (mut store, mut out) = ([0xB6; 253], [0xA5; 8]);
        let answer = gate_receive(own, &mut state, &mut store, event, &mut out);
        assert_eq!(answer, refused(number));
        assert_eq!((state, store, out), ([0; 7], [0xB6; 253], [0xA5; 8]));
    }
}

#[test]
fn gate_states_that_cannot_be_are_refused_first() {
    const HUGE: [u64; 4] = [1 << 16, 1 << 32, 1 << 63, u64::MAX];
    // The largest words of each phase.
    let largest = [
        [0; 7],
        [1, 0, 0, 0, 0, 0, 0],
        [2, 255, 0, 0, 0, 65535, 0],
        [3, 255, 255, 0, 0, 65535, 0],
        [4, 255, 255, 253, 253, 65535, 0],
        [5, 255, 255, 253, 0, 65535, 255],
        [6, 0, 0, 0, 0, 0, 0],
        [7, 0, 0, 0, 0, 0, 0],
        [8, 0, 0, 0, 257, 0, 0],
    ];
    let mut bad = vec![[4, 0, 0, 0, 1, 0, 0], [4, 0, 0, 3, 4, 0, 0]];
    for state in largest {
        let mut good = state;
        let answer = gate_receive(0x10, &mut good, &mut [0; 253], sys::TIMER, &mut []);
        assert_eq!((answer, good), (0, [0; 7]), "{state:?}");
        for word in 0..7 {
            let above = HUGE.into_iter().chain([state[word] + 1]);
            // One more as phase is another phase, and may be good.
            let above = above.filter(|&above| word > 0 || above > 8);
            bad.extend(above.map(|above| {
                let mut state = state;
                state[word] = above;
                state
            }));
        }
    }
    for before in bad {
        for own in [0x10, 0xFF] {
            for event in [0, 0x55, 255, 256, 257] {
                let (mut state, mut store, mut out) = (before, [0xB6; 253], [0xA5; 4]);
                let answer = gate_receive(own, &mut state, &mut store, event, &mut out);
                assert_eq!(answer, refused(1), "{before:?}");
                assert_eq!((state, store, out), (before, [0xB6; 253], [0xA5; 4]));
            }
        }
    }
}

#[test]
fn gate_events_and_lengths_that_are_refused_first() {
    let before = [4, 0x10, 0, 3, 1, 0, 0];
    for own in [0x10, 0xFF] {
        for event in [257, 256 + 0x55, 65536, 1 << 31, u32::MAX] {
            let (mut state, mut store) = (before, [0xB6; 253]);
            let answer = gate_receive(own, &mut state, &mut store, event, &mut []);
            assert_eq!(answer, refused(1));
            assert_eq!((state, store), (before, [0xB6; 253]));
        }
        for (state_len, store_len) in [(0, 253), (6, 253), (8, 253), (7, 0), (7, 252), (7, 254)] {
            let (mut state, mut store) = (vec![0; state_len], vec![0xB6; store_len]);
            for event in [0x55, sys::TIMER] {
                let answer = gate_receive(own, &mut state, &mut store, event, &mut []);
                assert_eq!(answer, refused(1));
                assert_eq!(
                    (&state, &store),
                    (&vec![0; state_len], &vec![0xB6; store_len])
                );
            }
        }
    }
}

#[test]
fn gate_bytes_are_stored_at_the_count() {
    for event in 0..=255 {
        let (mut state, mut store, mut out) = ([4, 0x10, 0, 253, 252, 0, 0], [0xB6; 253], [0xA5]);
        assert_eq!(
            gate_receive(0x10, &mut state, &mut store, event, &mut out),
            0
        );
        assert_eq!((&state[..5], state[6]), (&[4, 0x10, 0, 253, 253][..], 0));
        assert_eq!((&store[..252], store[252]), (&[0xB6; 252][..], event as u8));
        // Then comes the high check byte, which is not stored.
        let check = state[5];
        assert_eq!(
            gate_receive(0x10, &mut state, &mut store, 0x77, &mut out),
            0
        );
        assert_eq!(state, [5, 0x10, 0, 253, 0, check, 0x77]);
        assert_eq!((store[252], out), (event as u8, [0xA5]));
    }
    // With none left to drop, this was the last.
    for left in [0, 1] {
        let mut state = [8, 0, 0, 0, left, 0, 0];
        assert_eq!(
            gate_receive(0x10, &mut state, &mut [0; 253], 0x55, &mut []),
            0
        );
        assert_eq!(state, [0; 7]);
    }
}

#[test]
fn gate_operate_answers() {
    let (mut levels, mut edges) = ([0; 10], [1; 10]);
    assert_eq!(gate_operate(&[1, 9, 1], &mut levels, &mut edges), 1);
    assert_eq!((levels, edges), ([0, 0, 0, 0, 0, 0, 0, 0, 0, 1], [1; 10]));
    assert_eq!(gate_operate(&[1, 10, 1], &mut levels, &mut edges), 2);
    assert_eq!(gate_operate(&[1, 9, 3], &mut levels, &mut edges), 2);
    assert_eq!(gate_operate(&[2, 9], &mut levels, &mut edges), refused(7));
    assert_eq!(
        gate_operate(&[2, 9, 1], &mut levels, &mut edges),
        refused(3)
    );
    assert_eq!((levels, edges), ([0, 0, 0, 0, 0, 0, 0, 0, 0, 1], [1; 10]));
}

#[test]
fn gate_registers_that_cannot_be_are_refused_first() {
    for data in [&[1, 1, 1][..], &[1, 99, 99], &[2, 1, 1], &[]] {
        for (levels_len, edges_len) in [(0, 10), (9, 10), (11, 10), (10, 0), (10, 9), (10, 11)] {
            let (mut levels, mut edges) = (vec![0; levels_len], vec![0; edges_len]);
            assert_eq!(gate_operate(data, &mut levels, &mut edges), refused(1));
            assert_eq!((levels, edges), (vec![0; levels_len], vec![0; edges_len]));
        }
        for place in 0..10 {
            for value in [2, 128, 255] {
                let (mut wrong, mut good) = ([0; 10], [0; 10]);
                wrong[place] = value;
                let before = wrong;
                assert_eq!(gate_operate(data, &mut wrong, &mut good), refused(1));
                assert_eq!(gate_operate(data, &mut good, &mut wrong), refused(1));
                assert_eq!((wrong, good), (before, [0; 10]));
            }
        }
    }
}

#[test]
fn gate_writers_answer_their_lengths() {
    let mut out = [0xA5; 5];
    assert_eq!(gate_write_command(0xFF, 0xFE, &mut out), 3);
    assert_eq!(out, [0x01, 0xFF, 0xFE, 0xA5, 0xA5]);
    assert_eq!(gate_write_command(1, 1, &mut out[..2]), refused(11));

    for kind in 0..=255 {
        let length = match kind {
            sys::GATE_ACK..=sys::GATE_SYN => 1,
            sys::GATE_COUNT => 5,
            sys::GATE_POSITION => 2,
            _ => {
                assert_eq!(gate_write_answer(kind, -2, &mut []), refused(3));
                continue;
            }
        };
        let mut out = [0xA5; 5];
        assert_eq!(gate_write_answer(kind, 100, &mut out), length);
        assert_eq!(out[0], kind);
        let short = &mut out[..length as usize - 1];
        assert_eq!(gate_write_answer(kind, 100, short), refused(11));
    }
}

#[test]
fn gate_numbers_are_not_cut() {
    let far = [i32::MIN, i32::MAX];
    for number in [-256, -255, -129, -2, 101, 255, 256, 256 + 100, 65536 + 1]
        .into_iter()
        .chain(far)
    {
        let mut out = [0xA5; 5];
        for out in [&mut out[..], &mut []] {
            let answer = gate_write_answer(sys::GATE_POSITION, number, out);
            assert_eq!(answer, refused(10));
        }
        assert_eq!(out, [0xA5; 5]);
        // The other kinds take any number.
        assert_eq!(gate_write_answer(sys::GATE_SYN, number, &mut out), 1);
        assert_eq!(out, [0x04, 0xA5, 0xA5, 0xA5, 0xA5]);
        assert_eq!(gate_write_answer(sys::GATE_COUNT, number, &mut out), 5);
        assert_eq!(out[1..], number.to_le_bytes());
        let mut read = [7];
        assert_eq!(gate_read_answer(&out, &mut read), sys::GATE_COUNT.into());
        assert_eq!(read, [number]);
    }
}

#[test]
fn gate_read_answer_writes_only_where_it_is_done() {
    let cases = [
        (&[0x01][..], 0x01, 0),
        (&[0x02], 0x02, 0),
        (&[0x03], 0x03, 0),
        (&[0x04], 0x04, 0),
        (&[0x1C, 0xFE, 0xFF, 0xFF, 0xFF], 0x1C, -2),
        (&[0x1D, 0x64], 0x1D, 100),
        (&[0x1D, 0xFF], 0x1D, -1),
        (&[], refused(7), 7),
        (&[0x05], refused(3), 7),
        (&[0x00; 5], refused(3), 7),
        (&[0x01, 0x00], refused(7), 7),
        (&[0x1C, 0, 0, 0], refused(7), 7),
        (&[0x1D, 0x65, 0x00], refused(7), 7),
        (&[0x1D, 0x65], refused(10), 7),
        (&[0x1D, 0xFE], refused(10), 7),
    ];
    for (data, answer, after) in cases {
        let mut number = [7];
        assert_eq!(gate_read_answer(data, &mut number), answer);
        assert_eq!(number, [after]);
        for length in [0, 2] {
            let mut number = vec![7; length];
            assert_eq!(gate_read_answer(data, &mut number), refused(1));
            assert_eq!(number, vec![7; length]);
        }
    }
}
