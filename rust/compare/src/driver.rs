//! Gives every input to the implementations, compares, and counts what was reached.

use crate::answer;
use crate::call::{Call, Outcome, Stop};
use crate::inputs::Random;
use crate::lent::AROUND;
use crate::shrink::shrink;
use std::collections::{BTreeMap, BTreeSet};
use std::ops::RangeInclusive;
use std::panic::{catch_unwind, AssertUnwindSafe};
use std::sync::{Arc, Mutex, OnceLock};
use std::thread;
use std::time::{Duration, Instant};

/// Most calls that are spent on making a failing input smaller.
const TRIES: u32 = 200_000;

/// So many calls are made between two looks at the clock.
const CALLS_PER_LOOK: u64 = 2048;

/// Makes inputs from a seed, and has each of them compared.
type Make = fn(&mut Random, &mut Driver) -> Result<(), Stop>;

/// One part of the comparison: what makes its inputs, and what it must reach.
pub struct Part {
    name: &'static str,
    make: Make,
    kinds: Vec<&'static str>,
    numbers: RangeInclusive<usize>,
}

impl Part {
    /// The comparison of one call.
    pub fn of<C: Call>() -> Part {
        Part {
            name: C::NAME,
            make: |random, driver| C::generate(random, &mut |input| driver.compare(input)),
            kinds: C::KINDS.iter().map(|(name, _)| *name).collect(),
            numbers: C::NUMBERS,
        }
    }

    /// Inputs for several calls, each of which has a part of its own.
    pub fn of_several(name: &'static str, make: Make) -> Part {
        Part { name, make, kinds: Vec::new(), numbers: RangeInclusive::new(1, 0) }
    }
}

/// Something else than the reference gave: the smallest input found, and all about it.
type Wrong<C> = Box<(C, String)>;

/// How often a call reached each of its kinds, and which numbers.
#[derive(Clone, Default)]
struct Reached {
    kinds: Vec<u64>,
    numbers: BTreeSet<usize>,
}

/// Compares, and counts. Each thread of a run has a clone.
#[derive(Clone)]
pub struct Driver {
    seed: u64,
    calls: u64,
    reached: BTreeMap<&'static str, Reached>,
    start: Instant,
    /// How long the run may take.
    time: Option<Duration>,
    /// What was wrong first, in any thread of the run.
    pub wrong: Arc<OnceLock<String>>,
}

impl Driver {
    pub fn new(time: Option<Duration>) -> Driver {
        Driver { seed: 0, calls: 0, reached: BTreeMap::new(), start: Instant::now(), time, wrong: Arc::default() }
    }

    /// Makes all inputs of these seeds on all processors, until the time is over or something is
    /// wrong; gives a driver with what all threads counted.
    pub fn run(self, parts: &[Part], seeds: impl Iterator<Item = u64> + Clone + Sync) -> Driver {
        let threads = thread::available_parallelism().map_or(1, usize::from);
        let whole = Mutex::new(self.clone());
        let work = &|first| {
            let mut own = self.clone();
            for seed in seeds.clone().skip(first).step_by(threads) {
                let end = catch_unwind(AssertUnwindSafe(|| own.pass(parts, seed)));
                let mut whole = whole.lock().expect("a count");
                whole.add(&mut own);
                match end.unwrap_or_else(|_| Err(Stop::Wrong(format!("WRONG: a panic, seed {seed}")))) {
                    Ok(()) => println!("  {}", whole.progress()),
                    Err(Stop::TimeOver) => return,
                    Err(Stop::Wrong(text)) => return drop(self.wrong.set(text)),
                }
            }
        };
        thread::scope(|scope| (0..threads).for_each(|first| drop(scope.spawn(move || work(first)))));
        whole.into_inner().expect("a count")
    }

    /// Takes over what another driver counted.
    fn add(&mut self, other: &mut Driver) {
        self.seed = self.seed.max(other.seed);
        for (name, more) in std::mem::take(&mut other.reached) {
            self.calls += more.kinds.iter().sum::<u64>();
            let reached = self.reached.entry(name).or_default();
            reached.kinds.resize(more.kinds.len(), 0);
            reached.kinds.iter_mut().zip(more.kinds).for_each(|(count, more)| *count += more);
            reached.numbers.extend(more.numbers);
        }
    }

    /// Makes all inputs of a seed and has them compared. Every part has a seed of its own, so that
    /// it does not depend on the others.
    pub fn pass(&mut self, parts: &[Part], seed: u64) -> Result<(), Stop> {
        self.seed = seed;
        for (number, part) in (1..).zip(parts) {
            (part.make)(&mut Random::new(seed ^ number << 56), self)?;
        }
        Ok(())
    }

    /// Makes one call of the library and of the plain Rust, and compares both with the reference.
    pub fn compare<C: Call>(&mut self, input: &C) -> Result<Outcome<C>, Stop> {
        let tested = [("the proved library", C::LIBRARY), ("the plain Rust", C::PLAIN)];
        let outcome = self.check(input, C::REFERENCE, &tested).map_err(|wrong| Stop::Wrong(wrong.1))?;
        match self.calls.is_multiple_of(CALLS_PER_LOOK) && self.is_over() {
            true => Err(Stop::TimeOver),
            false => Ok(outcome),
        }
    }

    /// Makes one call of these implementations, and compares them with a reference, which is judged
    /// by the kinds.
    fn check<C: Call>(
        &mut self,
        input: &C,
        reference: C::Function,
        tested: &[(&str, C::Function)],
    ) -> Result<Outcome<C>, Wrong<C>> {
        let around = AROUND[(self.calls % AROUND.len() as u64) as usize];
        let right = input.outcome(reference, around);
        for &(name, function) in tested {
            if input.outcome(function, around) != right {
                return Err(self.difference(name, input, around, |input| {
                    input.outcome(function, around).wrong(&input.outcome(reference, around))
                }));
            }
        }
        let Some(kind) = kind_of(input, &right) else {
            return Err(self.difference("the reference", input, around, |input| {
                let outcome = input.outcome(reference, around);
                let told = || format!("an answer of no kind: {}", answer::text(outcome.answer, "done"));
                kind_of(input, &outcome).is_none().then(told)
            }));
        };
        self.calls += 1;
        let reached = self.reached.entry(C::NAME).or_default();
        reached.kinds.resize(C::KINDS.len(), 0);
        reached.kinds[kind] += 1;
        reached.numbers.extend(input.number(&right));
        Ok(right)
    }

    /// What is wrong, with an input that is as small as can be found.
    fn difference<C: Call>(&self, name: &str, input: &C, around: u8, wrong: impl Fn(&C) -> Option<String>) -> Wrong<C> {
        let smallest = shrink(input, TRIES, |input| wrong(input).is_some());
        let what = wrong(&smallest).unwrap_or_default();
        let (call, seed, before) = (C::NAME, self.seed, self.calls);
        let text = format!(
            "WRONG: {name}, call {call}, seed {seed}, after {before} calls that were right\n\
            smallest failing call found (hex): {}\n  around all slices stands {around:02X}\n  \
            wrong in it: {what}",
            smallest.text()
        );
        Box::new((smallest, text))
    }

    /// Whether the time is over, or an answer was wrong in another thread.
    fn is_over(&self) -> bool {
        self.wrong.get().is_some() || self.time.is_some_and(|time| self.start.elapsed() >= time)
    }

    /// How far the run is.
    pub fn progress(&self) -> String {
        let (calls, seed, now) = (self.calls, self.seed, self.start.elapsed());
        let (seconds, each) = (now.as_secs(), calls as f64 / now.as_secs_f64().max(0.001));
        format!("{seconds} s, seed {seed}: {calls} calls of each compared, {each:.0} a second")
    }

    /// Prints how often each kind of answer was reached; false if one never was.
    pub fn all_reached(&self, parts: &[Part]) -> bool {
        let (mut all, nothing) = (true, Reached::default());
        for Part { name, kinds, numbers, .. } in parts.iter().filter(|part| !part.kinds.is_empty()) {
            let reached = self.reached.get(name).unwrap_or(&nothing);
            println!("  called  {:>9} times: {name}", reached.kinds.iter().sum::<u64>());
            let counts = reached.kinds.iter().copied().chain(std::iter::repeat(0));
            for (kind, count) in kinds.iter().zip(counts) {
                match count {
                    0 => println!("  NEVER reached: {name}: {kind}"),
                    _ => println!("  reached {count:>9} times: {name}: {kind}"),
                }
                all &= count > 0;
            }
            if !numbers.clone().eq(reached.numbers.iter().copied()) {
                println!("  {name}: only these numbers of {numbers:?} reached: {:?}", reached.numbers);
                all = false;
            }
        }
        all
    }
}

/// The number of the kind that an answer is of.
fn kind_of<C: Call>(input: &C, outcome: &Outcome<C>) -> Option<usize> {
    C::KINDS.iter().position(|(_, takes)| takes(input, outcome))
}

/// Checks that the inputs find the mistake of an implementation, and that what is wrong is told so;
/// gives the smallest input found.
#[cfg(test)]
pub fn found<C: Call>(what: &str, wrong: C::Function) -> C {
    find("wrong", what, C::REFERENCE, &[("plain", C::PLAIN), ("wrong", wrong)])
}

/// The same of a mistake that all implementations make alike, the reference too: only an answer of
/// no kind tells it.
#[cfg(test)]
pub fn found_in_all<C: Call>(what: &str, wrong: C::Function) -> C {
    find("the reference", &format!("an answer of no kind: {what}"), wrong, &[("wrong", wrong)])
}

/// Checks that the inputs find what is wrong with one of several implementations.
#[cfg(test)]
fn find<C: Call>(name: &str, what: &str, reference: C::Function, tested: &[(&str, C::Function)]) -> C {
    let (mut driver, mut found) = (Driver::new(None), None);
    let end = C::generate(&mut Random::new(3964), &mut |input| {
        driver.check(input, reference, tested).map_err(|wrong| {
            found = Some(*wrong);
            Stop::TimeOver
        })
    });
    assert!(end.is_err(), "nothing was found in the call {}", C::NAME);
    let (smallest, text) = found.expect("a difference");
    println!("{text}\n");
    assert!(text.starts_with(&format!("WRONG: {name},")), "{text}");
    assert!(text.contains(&format!("wrong in it: {what}")), "{text}");
    smallest
}

#[cfg(test)]
mod tests {
    use super::*;
    use crate::calls::frame::Frame;
    use crate::calls::parts;

    #[test]
    fn ends_with_the_time() {
        let mut driver = Driver::new(Some(Duration::ZERO));
        let end = driver.pass(&parts(), 1);
        assert!(matches!(end, Err(Stop::TimeOver)));
        assert_eq!(driver.calls, CALLS_PER_LOOK);
    }

    #[test]
    fn a_wrong_answer_ends_all_threads() {
        let part = Part::of_several("wrong", |random, driver| match driver.seed {
            1 => Err(Stop::Wrong("wrong".into())),
            _ => (0..).try_for_each(|_| Frame::generate(random, &mut |input| driver.compare(input))),
        });
        let driver = Driver::new(None).run(&[part], 1..9);
        assert!(driver.wrong.get().is_some_and(|text| text == "wrong"));
    }

    #[test]
    fn every_kind_has_to_be_reached() {
        let (mut driver, parts) = (Driver::new(None), parts());
        assert!(driver.pass(&parts, 3964).is_ok());
        assert!(driver.calls > 1_000_000);
        assert!(driver.all_reached(&parts));
        for kind in 0..Frame::KINDS.len() {
            let mut reached = driver.reached.clone();
            reached.get_mut(Frame::NAME).expect("frames").kinds[kind] = 0;
            assert!(!Driver { reached, ..Driver::new(None) }.all_reached(&parts));
        }
        assert!(!Driver::new(None).all_reached(&parts));
    }
}
