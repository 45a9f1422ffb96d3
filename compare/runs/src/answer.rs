//! What a call answers, the lent words aside.

use std::fmt;

/// A call's answer.
#[derive(Clone, Copy, Debug, Eq, PartialEq)]
pub enum Answer {
    /// Accepted, with nothing to say.
    Done,
    /// Accepted, with a number in `out`.
    Number(u64),
    /// Accepted, with a bit or a yes or no in `out`.
    Bit(bool),
    /// Accepted, found at an index.
    Found(u64),
    /// Accepted, nothing found.
    Absent,
    /// Accepted, with the rest of a split span.
    Rest { word: u64, head: u64, length: u64 },
    /// Refused with a number, or 255.
    Refused(u8),
}

impl Answer {
    /// What the call returns.
    pub fn code(self) -> u8 {
        match self {
            Answer::Refused(code) => code,
            _ => 0,
        }
    }

    /// The values written to the call's out-pointers, in their order. A single byte is
    /// written where the pointer is to one.
    pub fn results(self) -> Results {
        let byte = |value: bool| Some(Written::Byte(value as u8));
        let number = |value: u64| Some(Written::Number(value));
        match self {
            Answer::Done | Answer::Refused(_) => [None; 3],
            Answer::Number(out) => [number(out), None, None],
            Answer::Bit(out) => [byte(out), None, None],
            Answer::Found(at) => [byte(true), number(at), None],
            Answer::Absent => [byte(false), None, None],
            Answer::Rest { word, head, length } => [number(word), number(head), number(length)],
        }
    }
}

impl fmt::Display for Answer {
    fn fmt(&self, out: &mut fmt::Formatter) -> fmt::Result {
        match self {
            Answer::Done => write!(out, "done"),
            Answer::Number(number) => write!(out, "number {number:X} (hexadecimal)"),
            Answer::Bit(bit) => write!(out, "bit {}", *bit as u8),
            Answer::Found(index) => write!(out, "found at {index}"),
            Answer::Absent => write!(out, "absent"),
            Answer::Rest { word, head, length } => write!(out, "rest at word {word}, head {head}, length {length}"),
            Answer::Refused(code) => write!(out, "refused {code}"),
        }
    }
}

/// What is written through up to three out-pointers.
pub type Results = [Option<Written>; 3];

/// What is written through one.
#[derive(Clone, Copy, Debug, Eq, PartialEq)]
pub enum Written {
    Byte(u8),
    Number(u64),
}

impl From<Written> for u64 {
    fn from(written: Written) -> u64 {
        match written {
            Written::Byte(byte) => byte as u64,
            Written::Number(number) => number,
        }
    }
}
