//! A request: a call with everything that is handed to it.

use std::{
    fmt,
    ops::{Index, IndexMut},
};

use crate::{
    call::{Argument, Call},
    lent::Lent,
};

/// A call, its numbers and the words lent to it.
#[derive(Clone, PartialEq)]
pub struct Request<T> {
    pub call: Call,
    numbers: [u64; Argument::COUNT],
    /// The words lent first, or the only ones.
    pub words: Vec<T>,
    /// The words lent second.
    pub other: Vec<T>,
    /// Both spans lie in the words lent first (equality alone allows it).
    pub shared: bool,
}

impl<T: Lent> Request<T> {
    /// The call with all numbers 0 and no words.
    pub fn new(call: Call) -> Self {
        Request { call, numbers: [0; Argument::COUNT], words: Vec::new(), other: Vec::new(), shared: false }
    }

    /// Makes it another call's, with all numbers 0 and no words.
    pub fn reset(&mut self, call: Call) {
        self.call = call;
        self.numbers = [0; Argument::COUNT];
        self.words.clear();
        self.other.clear();
        self.shared = false;
    }

    /// A number as it is handed over: a count of lent words is that of the words.
    pub fn number(&self, argument: Argument) -> u64 {
        match argument {
            Argument::Lent if self.call.lends() => self.words.len() as u64,
            Argument::OtherLent if self.shared => self.words.len() as u64,
            Argument::OtherLent => self.other.len() as u64,
            _ => self[argument],
        }
    }

    /// Whether second words are lent.
    pub fn lends_other(&self) -> bool {
        self.call.has_two_spans() && !self.shared
    }

    /// A code as it is handed over.
    pub fn code(&self, argument: Argument) -> u8 {
        self[argument] as u8
    }
}

impl<T> Index<Argument> for Request<T> {
    type Output = u64;

    fn index(&self, argument: Argument) -> &u64 {
        &self.numbers[argument as usize]
    }
}

impl<T> IndexMut<Argument> for Request<T> {
    fn index_mut(&mut self, argument: Argument) -> &mut u64 {
        &mut self.numbers[argument as usize]
    }
}

/// The words in hexadecimal, or only how many where they are many.
fn show_words<T: Lent>(out: &mut fmt::Formatter, name: &str, words: &[T]) -> fmt::Result {
    if words.len() > 256 {
        return write!(out, "\n      {name}: {} words", words.len());
    }
    write!(out, "\n      {name}:")?;
    for word in words {
        write!(out, " {:0digits$X}", word.number(), digits = T::WIDTH as usize / 4)?;
    }
    Ok(())
}

impl<T: Lent> fmt::Display for Request<T> {
    fn fmt(&self, out: &mut fmt::Formatter) -> fmt::Result {
        if self.call.lends() {
            write!(out, "stableply{}_{}", T::WIDTH, self.call.name())?;
        } else {
            write!(out, "stableply_{}", self.call.name())?;
        }
        for &argument in self.call.arguments() {
            write!(out, " {argument:?}={}", self.number(argument))?;
        }
        if self.call.lends() {
            show_words(out, "words", &self.words)?;
        }
        if self.shared {
            write!(out, "\n      both spans in the same words")?;
        } else if self.call.has_two_spans() {
            show_words(out, "second words", &self.other)?;
        }
        Ok(())
    }
}
