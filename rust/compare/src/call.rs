//! What a call has to say of itself to be compared.

use crate::answer;
use crate::inputs::Random;
use crate::lent::{difference, Field};
use std::ops::RangeInclusive;

/// The arguments of a call: what the slices hold before it, and after it.
pub trait Arguments: Clone + PartialEq + 'static {
    /// The type of an implementation: a function over slices that gives the 64-bit answer.
    type Function: Copy;

    /// The proved library through its C interface.
    const LIBRARY: Self::Function;

    /// Makes the call.
    fn call(&mut self, function: Self::Function) -> u64;

    /// The arguments, each with its name.
    fn fields(&mut self) -> Vec<(&'static str, &mut dyn Field)>;
}

/// Declares the arguments of a call in the order in which C gives them. Each is a `number`, a slice
/// that is only `read`, or one that the call may `write` to.
macro_rules! arguments {
    ($name:ident, $c:ident { $($field:ident: $kind:ident $word:ty,)* }) => {
        #[derive(Clone, PartialEq, Debug)]
        pub struct $name {
            $(pub $field: arguments!(@field $kind $word),)*
        }

        impl $crate::call::Arguments for $name {
            type Function = fn($(arguments!(@lent $kind $word)),*) -> u64;

            const LIBRARY: Self::Function = {
                #[allow(unsafe_code)]
                #[inline(always)]
                fn library($($field: arguments!(@lent $kind $word)),*) -> u64 {
                    // SAFETY: every pointer and length are those of one slice, so that the memory
                    // is valid and the pointer not null; slices that are written to do not overlap
                    // with others. The calls have no other precondition, and keep no pointer.
                    unsafe { arguments!(@c $c [] $($field $kind)*) }
                }
                library
            };

            fn call(&mut self, function: Self::Function) -> u64 {
                function($(arguments!(@lend self $field $kind)),*)
            }

            fn fields(&mut self) -> Vec<(&'static str, &mut dyn $crate::lent::Field)> {
                vec![$((stringify!($field), &mut self.$field)),*]
            }
        }
    };
    (@field number $word:ty) => { $word };
    (@field $slice:ident $word:ty) => { $crate::lent::Lent<$word> };
    (@lent number $word:ty) => { $word };
    (@lent read $word:ty) => { &[$word] };
    (@lent write $word:ty) => { &mut [$word] };
    (@lend $self:ident $field:ident number) => { $self.$field };
    (@lend $self:ident $field:ident read) => { &$self.$field };
    (@lend $self:ident $field:ident write) => { &mut $self.$field };
    (@c $c:ident [$($done:tt)*]) => { hanraquin::sys::$c($($done)*) };
    (@c $c:ident [$($done:tt)*] $field:ident number $($rest:tt)*) => {
        arguments!(@c $c [$($done)* $field,] $($rest)*)
    };
    (@c $c:ident [$($done:tt)*] $field:ident read $($rest:tt)*) => {
        arguments!(@c $c [$($done)* $field.as_ptr(), $field.len(),] $($rest)*)
    };
    (@c $c:ident [$($done:tt)*] $field:ident write $($rest:tt)*) => {
        arguments!(@c $c [$($done)* $field.as_mut_ptr(), $field.len(),] $($rest)*)
    };
}
pub(crate) use arguments;

/// What is compared of a call.
pub trait Call: Arguments {
    const NAME: &'static str;
    /// The plain Rust.
    const PLAIN: Self::Function;
    /// The reference, which says what is right.
    const REFERENCE: Self::Function;
    /// The kinds of answer that must be reached. An answer is of the first kind that takes it; one
    /// that none takes is wrong.
    const KINDS: &'static [Kind<Self>];
    /// Numbers that must all be reached, beside the kinds.
    const NUMBERS: RangeInclusive<usize> = RangeInclusive::new(1, 0);

    /// Makes inputs, and has each of them compared.
    fn generate(random: &mut Random, compare: &mut Compare<Self>) -> Result<(), Stop>;

    /// Smaller inputs, beside those with fewer or smaller numbers in one argument.
    fn smaller(&self) -> Vec<Self> {
        Vec::new()
    }

    /// The number that an answer reaches, if it does.
    fn number(&self, _outcome: &Outcome<Self>) -> Option<usize> {
        None
    }

    /// What a function makes of the call, with this byte around every slice.
    fn outcome(&self, function: Self::Function, around: u8) -> Outcome<Self> {
        let mut after = self.clone();
        for (_, field) in after.fields() {
            field.surround(around);
        }
        let answer = after.call(function);
        Outcome { answer, after }
    }

    /// All arguments; the numbers are in hex.
    fn text(&self) -> String {
        let mut text = Self::NAME.to_owned();
        for (name, field) in self.clone().fields() {
            text += &format!("\n  {name}: {:02X?}", field.numbers());
        }
        text
    }
}

/// A kind of answer: its name, and whether it takes what came of a call.
pub type Kind<C> = (&'static str, fn(&C, &Outcome<C>) -> bool);

/// Compares what the implementations make of a call, and gives what all agree on.
pub type Compare<'a, C> = dyn FnMut(&C) -> Result<Outcome<C>, Stop> + 'a;

/// Why making inputs ends early.
#[derive(Debug)]
pub enum Stop {
    /// An answer was wrong; this tells all about it.
    Wrong(String),
    /// The time that was given is over.
    TimeOver,
}

/// What came of a call.
#[derive(Clone, PartialEq)]
pub struct Outcome<C> {
    pub answer: u64,
    /// The arguments after the call, with what stands around the slices.
    pub after: C,
}

impl<C: Call> Outcome<C> {
    pub fn is_done(&self) -> bool {
        answer::kind(self.answer) == 0
    }

    /// Whether it was refused with this number; 255 is "not mine".
    pub fn refused(&self, number: u8) -> bool {
        self.answer == answer::refused(number)
    }

    pub fn value(&self) -> usize {
        answer::value(self.answer)
    }

    /// What is wrong with this outcome, in words, if another one is right.
    pub fn wrong(&self, right: &Outcome<C>) -> Option<String> {
        if self.answer != right.answer {
            let [wrong, right] =
                [self.answer, right.answer].map(|answer| answer::text(answer, "done") + &format!(" ({answer:016X})"));
            return Some(format!("the answer: {wrong}, expected {right}"));
        }
        let (mut wrong, mut right) = (self.after.clone(), right.after.clone());
        let mut fields = wrong.fields().into_iter().zip(right.fields());
        fields.find_map(|((name, wrong), (_, right))| difference(name, wrong, right))
    }
}
