//! Makes a failing input smaller.

use crate::call::Call;

/// Makes the arguments of a call smaller, as long as it still fails, with at most so many tries.
pub fn shrink<C: Call>(input: &C, mut tries: u32, mut fails: impl FnMut(&C) -> bool) -> C {
    let mut best = input.clone();
    let mut fails = |input: &C| {
        tries > 0 && {
            tries -= 1;
            fails(input)
        }
    };
    loop {
        let before = best.clone();
        while let Some(smaller) = best.smaller().into_iter().find(|smaller| fails(smaller)) {
            best = smaller;
        }
        for i in 0..best.clone().fields().len() {
            let with = |numbers: &[u64]| {
                let mut input = best.clone();
                input.fields()[i].1.set(numbers);
                input
            };
            let mut copy = best.clone();
            let (_, field) = copy.fields().swap_remove(i);
            let mut numbers = field.numbers();
            if field.can_be_shortened() {
                numbers = shorten(&numbers, |numbers| fails(&with(numbers)));
            }
            numbers = lower(numbers, |numbers| fails(&with(numbers)));
            best = with(&numbers);
        }
        if best == before {
            return best;
        }
    }
}

/// Leaves out halves, then smaller and smaller parts, as long as what is left still fails.
pub fn shorten<T: Clone>(items: &[T], mut fails: impl FnMut(&[T]) -> bool) -> Vec<T> {
    let mut best = items.to_vec();
    let mut part = best.len().div_ceil(2);
    while part > 0 {
        let mut at = 0;
        while at < best.len() {
            let end = best.len().min(at + part);
            let rest = [&best[..at], &best[end..]].concat();
            if fails(&rest) {
                best = rest;
            } else {
                at = end;
            }
        }
        part /= 2;
    }
    best
}

/// Makes every number smaller: by all that it is, or else by halves and smaller and smaller parts.
fn lower(mut numbers: Vec<u64>, mut fails: impl FnMut(&[u64]) -> bool) -> Vec<u64> {
    for place in 0..numbers.len() {
        let mut less = numbers[place];
        while less > 0 {
            let old = numbers[place];
            numbers[place] = old.saturating_sub(less);
            if numbers[place] == old || !fails(&numbers) {
                numbers[place] = old;
                less /= 2;
            }
        }
    }
    numbers
}

#[cfg(test)]
mod tests {
    use super::*;
    use crate::calls::frame::frame;
    use crate::calls::read_reply::heard;

    #[test]
    fn slices_and_numbers_get_smaller() {
        let every: Vec<u8> = (0..=255).collect();
        let large = frame(&every, 1000);
        let smallest = shrink(&large, 10_000, |frame| {
            let over = frame.data.iter().any(|&byte| byte > 99);
            over && frame.data.contains(&7) && frame.out.len() >= 333
        });
        assert!(smallest == frame(&[7, 100], 333));
        assert!(shrink(&large, 0, |_| true) == large);
        assert!(shrink(&large, 10_000, |_| true) == frame(&[], 0));
    }

    #[test]
    fn counted_parts_are_left_out() {
        let telegram = |entries: usize, values: usize| {
            let front = [0xE0, 0, 0xEF, 0xEF, 0xEF, 0xEF, entries as u8];
            [&front[..], &vec![0; entries + 2], &[values as u8], &vec![0; 2 * values]].concat()
        };
        let smallest = shrink(&heard(telegram(9, 12)), 10_000, |reply| {
            (2..=9).any(|entries| (2..=12).any(|values| *reply.telegram == telegram(entries, values)))
        });
        assert_eq!(*smallest.telegram, telegram(2, 2));
    }
}
