//! Telegrams of all kinds, good ones and others, for every call that reads one.

use super::telegrams::{forms, mark_of, marked, telegram, FUNCTIONS, REPLY, REQUEST};
use super::Random;
use crate::call::Stop;
use crate::calls::{MEGABYTE, MOST};

/// Has a call with a telegram compared.
pub type Take<'a> = dyn FnMut(&mut Random, Vec<u8>) -> Result<(), Stop> + 'a;

/// Gives all of them to be taken. The more there are to be, the more have any byte changed, and are
/// spoilt in any way.
pub fn generate(random: &mut Random, more: usize, take: &mut Take) -> Result<(), Stop> {
    blocks(random, take)?;
    cuts(random, take)?;
    counts(random, take)?;
    one_byte(random, more, take)?;
    faults(random, take)?;
    long(random, take)?;
    anything(random, 1000 * more, take)
}

/// Every rotation of good blocks of every size, and good blocks with one entry changed, all under
/// both marks.
fn blocks(random: &mut Random, take: &mut Take) -> Result<(), Stop> {
    for (extended, n) in forms() {
        let (any, home) = (random.some_block(n), random.home_block(n));
        let mut blocks = [random.damaged(&any), random.damaged(&home)].concat();
        for mut block in (0..n).map(|stations| random.block(stations, n, 0)) {
            for _ in 0..n {
                block.rotate_left(1);
                blocks.push(block.clone());
            }
        }
        for (block, function) in blocks.iter().flat_map(|block| FUNCTIONS.map(|f| (block, f))) {
            let body = random.body_for(function);
            take(random, telegram(function, extended, block, &body))?;
            if extended {
                let wrong = 0xEF - mark_of(function, block);
                take(random, marked(function, wrong, block, &body))?;
            }
        }
    }
    Ok(())
}

/// Telegrams cut at every length, and ones about the greatest length.
fn cuts(random: &mut Random, take: &mut Take) -> Result<(), Stop> {
    let mut telegrams = Vec::new();
    for ((extended, n), function) in forms().flat_map(|form| FUNCTIONS.map(|f| (form, f))) {
        for block in [random.some_block(n), random.home_block(n), random.block(n - 1, n, 0)] {
            telegrams.push(telegram(function, extended, &block, &random.body_for(function)));
        }
    }
    for mut bytes in telegrams {
        let whole = bytes.len();
        bytes.extend(random.bytes(MOST));
        for length in (0..=whole + 2).chain(1023..=1026).chain([MOST]) {
            take(random, bytes[..length].to_vec())?;
        }
    }
    Ok(())
}

/// Every count of entries, with as many of them, with fewer and with more.
fn counts(random: &mut Random, take: &mut Take) -> Result<(), Stop> {
    for (count, entries) in (0..=u8::MAX).flat_map(|count| {
        let n = usize::from(count);
        [n.max(1), n.max(2) - 1, n + 1, 2, 32].map(|entries| (count, entries))
    }) {
        for function in FUNCTIONS {
            for (mark, place) in [(0xEF, 0), (0xEF, entries - 1), (0x00, entries - 1)] {
                let mut block = vec![0; entries];
                block[place] = random.address();
                let mut bytes = marked(function, mark, &block, &random.body_for(function));
                bytes[6] = count;
                if random.once_in(4) {
                    bytes.truncate(7 + entries);
                }
                take(random, bytes)?;
            }
        }
    }
    Ok(())
}

/// So many telegrams with any byte changed to every value.
fn one_byte(random: &mut Random, telegrams: usize, take: &mut Take) -> Result<(), Stop> {
    for _ in 0..telegrams {
        let good = random.some_telegram();
        for (place, value) in (0..good.len()).flat_map(|i| (0..=u8::MAX).map(move |v| (i, v))) {
            let mut bytes = good.clone();
            bytes[place] = value;
            take(random, bytes)?;
        }
    }
    Ok(())
}

/// Faults in every combination.
fn faults(random: &mut Random, take: &mut Take) -> Result<(), Stop> {
    #[rustfmt::skip]
    let blocks: [&[u8]; 6] = [
        &[0x00, 0x12, 0x13, 0x55], &[0x12, 0x13, 0x55, 0x00], &[0x00, 0x00, 0x00, 0x00],
        &[0x00, 0x12, 0x12, 0x55], &[0x00, 0x12, 0xF1, 0x55], &[0x12, 0x00, 0x13, 0x00],
    ];
    for (block, function) in blocks.into_iter().flat_map(|b| [REPLY, REQUEST, 0x61].map(|f| (b, f))) {
        for body in [random.body_for(function), random.bytes(4), Vec::new()] {
            let mut telegrams = vec![telegram(function, false, block, &body)];
            for (mark, count) in [0x00, 0xEF].into_iter().flat_map(|m| [4, 1, 33].map(|c| (m, c))) {
                let mut bytes = marked(function, mark, block, &body);
                bytes[6] = count;
                telegrams.push(bytes);
            }
            for telegram in telegrams {
                for length in [5, 6, 7, 10, telegram.len(), 1024, 1025] {
                    let mut bytes = telegram.clone();
                    bytes.resize(length, 0);
                    take(random, bytes)?;
                }
            }
        }
    }
    Ok(())
}

/// Telegrams about the greatest length, and such that look short if their length is cut down.
fn long(random: &mut Random, take: &mut Take) -> Result<(), Stop> {
    let about = [1000, 1022, 1023, 1024, 1025, 1026, 1280, 65548, 65550].map(|n| (n, 60));
    for (length, times) in about.into_iter().chain([(MEGABYTE + 14, 3)]) {
        for _ in 0..times {
            let mut bytes = random.some_telegram();
            let more = length - bytes.len().min(length);
            bytes.extend(random.bytes(more.min(1100)));
            bytes.resize(length, 0);
            take(random, bytes)?;
        }
    }
    Ok(())
}

/// So many telegrams with none to three changes, and bytes without any order.
pub fn anything(random: &mut Random, times: usize, take: &mut Take) -> Result<(), Stop> {
    for _ in 0..times {
        let mut bytes = random.some_telegram();
        for _ in 0..random.below(4) {
            random.change(&mut bytes);
        }
        take(random, bytes)?;
    }
    for _ in 0..times / 8 {
        let length = random.below(60);
        let bytes = random.bytes(length);
        take(random, bytes)?;
    }
    Ok(())
}
