//! What a call is lent: numbers, and slices between guards.

use std::ops::{Deref, DerefMut};

/// The fewest places before, and behind, every slice.
const GUARD: usize = 16;
/// The places before and behind a slice together.
const GUARDS: usize = 3 * GUARD;

/// The bytes that stand around slices, in turn. A call that reads over an end of a slice finds
/// one time this and one time that.
pub const AROUND: [u8; 7] = [0xC7, 0x00, 0x01, 0x10, 0xEF, 0xFF, 0x60];

/// A number of any width.
pub trait Word: Copy + PartialEq {
    fn number(self) -> u64;
    /// The number cut down to this width.
    fn of(number: u64) -> Self;
    /// A word of nothing but this byte.
    fn all(byte: u8) -> Self {
        Self::of(u64::from_ne_bytes([byte; 8]))
    }
}

macro_rules! words {
    ($($word:ty),*) => {
        $(impl Word for $word {
            fn number(self) -> u64 {
                self as u64
            }
            fn of(number: u64) -> $word {
                number as $word
            }
        })*
    };
}
words!(u8, u16, u32, u64, usize);

impl Word for i32 {
    /// The number of its bits, so that no number is wider than the word.
    fn number(self) -> u64 {
        self.cast_unsigned().into()
    }
    fn of(number: u64) -> i32 {
        number as i32
    }
}

/// A slice between guards.
#[derive(Clone, PartialEq, Debug)]
pub struct Lent<T> {
    /// The places before the slice.
    front: usize,
    /// The slice with its guards.
    all: Vec<T>,
    /// What an output holds before a call does not matter; this is the byte at its first place.
    output: Option<u8>,
}

impl<T: Word> Lent<T> {
    /// An output of so many places, of which no two near each other hold the same.
    pub fn output(places: usize) -> Lent<T> {
        Lent::output_of(0xA1, places)
    }

    /// An output that holds something else than the other at every place.
    pub fn other_output(places: usize) -> Lent<T> {
        Lent::output_of(0x5C, places)
    }

    /// An output of so many places, the first of which holds this byte.
    fn output_of(first: u8, places: usize) -> Lent<T> {
        let before = (0..places).map(|place| T::all((place * 29 + usize::from(first)) as u8));
        Lent { output: Some(first), ..before.collect::<Vec<T>>().into() }
    }

    /// Changes the slice, and its length if need be.
    pub fn edit(&mut self, change: impl FnOnce(&mut Vec<T>)) {
        let mut content = self.to_vec();
        change(&mut content);
        *self = content.into();
    }
}

impl<T: Word> From<&[T]> for Lent<T> {
    fn from(content: &[T]) -> Lent<T> {
        let mut all = vec![T::of(0); content.len() + GUARDS];
        all[GUARD..GUARD + content.len()].copy_from_slice(content);
        Lent { front: GUARD, all, output: None }
    }
}

impl<T: Word> From<Vec<T>> for Lent<T> {
    fn from(content: Vec<T>) -> Lent<T> {
        Lent::from(&content[..])
    }
}

impl<T> Deref for Lent<T> {
    type Target = [T];

    fn deref(&self) -> &[T] {
        &self.all[self.front..][..self.all.len() - GUARDS]
    }
}

impl<T> DerefMut for Lent<T> {
    fn deref_mut(&mut self) -> &mut [T] {
        let length = self.all.len() - GUARDS;
        &mut self.all[self.front..][..length]
    }
}

/// An argument of a call, as the comparison handles it.
pub trait Field {
    /// The number, the numbers of a slice, or how many places an output has.
    fn numbers(&self) -> Vec<u64>;
    /// Takes other numbers; more or fewer of them only if it can be shortened.
    fn set(&mut self, numbers: &[u64]);
    fn can_be_shortened(&self) -> bool {
        false
    }
    /// Puts guards of this byte around a slice.
    fn surround(&mut self, _around: u8) {}
    /// The place of a slice behind its first guards, and all that stands there in memory.
    fn memory(&self) -> (usize, Vec<u64>) {
        (0, Vec::new())
    }
}

impl<T: Word> Field for T {
    fn numbers(&self) -> Vec<u64> {
        vec![self.number()]
    }

    fn set(&mut self, numbers: &[u64]) {
        *self = T::of(numbers[0]);
    }
}

impl<T: Word> Field for Lent<T> {
    fn numbers(&self) -> Vec<u64> {
        match self.output {
            Some(_) => vec![self.len() as u64],
            None => self.iter().map(|word| word.number()).collect(),
        }
    }

    fn set(&mut self, numbers: &[u64]) {
        *self = match self.output {
            Some(first) => Lent::output_of(first, numbers[0] as usize),
            None => numbers.iter().map(|&number| T::of(number)).collect::<Vec<T>>().into(),
        };
    }

    fn can_be_shortened(&self) -> bool {
        self.output.is_none()
    }

    /// How many guards stand before the slice goes by its length and by the byte, so that slices
    /// lie at every distance from what is aligned in memory.
    fn surround(&mut self, around: u8) {
        let length = self.len();
        let front = GUARD + (7 * length + usize::from(around)) % GUARD;
        self.all.copy_within(self.front..self.front + length, front);
        self.all[..front].fill(T::all(around));
        self.all[front + length..].fill(T::all(around));
        self.front = front;
    }

    fn memory(&self) -> (usize, Vec<u64>) {
        (self.front, self.all.iter().map(|word| word.number()).collect())
    }
}

/// Where two slices differ, in words; nothing if they do not.
pub fn difference(name: &str, wrong: &dyn Field, right: &dyn Field) -> Option<String> {
    let ((front, wrong), (_, right)) = (wrong.memory(), right.memory());
    let at = wrong.iter().zip(&right).position(|(a, b)| a != b)?;
    let end = front + right.len() - GUARDS;
    let place = if at < front {
        format!("{} places BEFORE its start", front - at)
    } else if at < end {
        format!("first at place {} of {}", at - front, end - front)
    } else {
        format!("{} places BEHIND its end", at - end + 1)
    };
    Some(format!("{name}, {place}: {:X}, expected {:X} (hex)", wrong[at], right[at]))
}

#[cfg(test)]
mod tests {
    use super::*;
    use std::collections::BTreeSet;

    #[test]
    fn places_around_are_seen() {
        let mut right = Lent::from(vec![1u8, 2, 3]);
        right.surround(0xC7);
        assert_eq!(difference("output", &right, &right), None);
        for (place, text) in [
            (-16, "output, 16 places BEFORE its start: 0, expected C7 (hex)"),
            (1, "output, first at place 1 of 3: 0, expected 2 (hex)"),
            (18, "output, 16 places BEHIND its end: 0, expected C7 (hex)"),
        ] {
            let mut wrong = right.clone();
            wrong.all[right.front.wrapping_add_signed(place)] = 0;
            assert_eq!(difference("output", &wrong, &right).as_deref(), Some(text));
        }
    }

    #[test]
    fn signed_words_keep_their_width() {
        for (word, number) in [(0, 0), (100, 100), (-1, 0xFFFF_FFFF), (i32::MIN, 0x8000_0000)] {
            assert_eq!((word.number(), i32::of(number)), (number, word));
        }
        assert_eq!(i32::all(0xEF).to_ne_bytes(), [0xEF; 4]);
    }

    #[test]
    fn outputs_differ_at_every_place() {
        let (mut output, mut other) = (Lent::<u8>::output(300), Lent::<u8>::other_output(300));
        for places in [300, 299] {
            output.set(&[places]);
            other.set(&[places]);
            assert_eq!((output.numbers(), other.numbers()), (vec![places], vec![places]));
            assert!(output.iter().zip(&*other).all(|(one, other)| one != other));
        }
    }

    #[test]
    fn slices_lie_at_every_distance() {
        let mut distances = BTreeSet::new();
        for (length, around) in (0..64).flat_map(|n| AROUND.map(|around| (n, around))) {
            let mut lent = Lent::from(vec![7u8; length]);
            lent.surround(around);
            assert_eq!(*lent, vec![7; length]);
            assert!(lent.front >= GUARD && lent.all.len() - lent.front - length >= GUARD);
            distances.insert(lent.front % GUARD);
        }
        assert_eq!(distances.len(), GUARD);
    }
}
