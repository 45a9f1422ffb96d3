//! Requests with their answers as bytes. vectors/README.md describes the form.

use crate::{
    answer::Answer,
    call::{Argument, Call},
    lent::Lent,
    request::Request,
};

/// The first eight bytes of a file.
pub const LABEL: &[u8; 8] = b"STPLVEC1";

/// A slice of more words than these is all zero and not written out.
pub const MOST_WRITTEN: usize = 64;

/// Who gives the answer of a record.
#[derive(Clone, Copy, Debug, Eq, PartialEq)]
pub enum Source {
    /// bitvec, and the model gives the same.
    Bitvec,
    /// The model alone: bitvec has no such refusal.
    Model,
}

impl Call {
    /// How many out-pointers it takes.
    fn results(self) -> usize {
        match self {
            Call::Position | Call::Selector | Call::Mask | Call::ReadBit | Call::Load | Call::Equal => 1,
            Call::FirstOne | Call::LastOne | Call::FirstZero | Call::LastZero => 2,
            Call::Split => 3,
            _ => 0,
        }
    }
}

/// Eight bytes, the lowest first.
fn put_number(bytes: &mut Vec<u8>, number: u64) {
    bytes.extend(number.to_le_bytes());
}

/// The words of a slice that is written out.
fn put_words<T: Lent>(bytes: &mut Vec<u8>, words: &[T]) {
    if words.len() <= MOST_WRITTEN {
        for word in words {
            bytes.extend(&word.number().to_le_bytes()[..T::WIDTH as usize / 8]);
        }
    } else {
        assert!(words.iter().all(|word| word.number() == 0), "long slices of a record are all zero");
    }
}

/// The record of a request with the answer and the words after it. Both spans of an equality have
/// words of their own.
pub fn record<T: Lent>(request: &Request<T>, answer: Answer, source: Source, words: &[T], other: &[T]) -> Vec<u8> {
    assert!(!request.shared);
    let width = if request.call.lends() { T::WIDTH as u8 } else { request.code(Argument::Width) };
    let mut bytes = vec![request.call as u8, width, answer.code(), source as u8, 0, 0, 0, 0];
    for &argument in request.call.arguments() {
        put_number(&mut bytes, request.number(argument));
    }
    for result in answer.results().into_iter().take(request.call.results()) {
        put_number(&mut bytes, result.map_or(0, u64::from));
    }
    put_words(&mut bytes, &request.words);
    put_words(&mut bytes, &request.other);
    if request.call.writes() {
        put_words(&mut bytes, words);
    }
    if request.call == Call::Swap {
        put_words(&mut bytes, other);
    }
    let length = u16::try_from(bytes.len()).expect("a record is short");
    bytes[4..6].copy_from_slice(&length.to_le_bytes());
    bytes
}

/// A record read back.
pub struct Read<'a> {
    pub call: Call,
    pub width: u8,
    pub answer: u8,
    pub source: Source,
    rest: &'a [u8],
}

/// What a record says of words of one width.
pub struct Told<T> {
    pub request: Request<T>,
    pub results: Vec<u64>,
    pub words_after: Vec<T>,
    pub other_after: Vec<T>,
}

/// The records of a file; none where it has not the form.
pub fn records(file: &[u8]) -> Option<Vec<Read<'_>>> {
    let (label, file) = file.split_first_chunk::<8>()?;
    let (count, mut file) = file.split_first_chunk::<8>()?;
    let mut records = Vec::new();
    while let Some((&[call, width, answer, source, low, high, 0, 0], rest)) = file.split_first_chunk::<8>() {
        let length = usize::from(u16::from_le_bytes([low, high])).checked_sub(8)?;
        let source = if source == 0 { Source::Bitvec } else { Source::Model };
        let (rest, after) = rest.split_at_checked(length)?;
        records.push(Read { call: *Call::ALL.get(call as usize)?, width, answer, source, rest });
        file = after;
    }
    let whole = file.is_empty() && label == LABEL && u64::from_le_bytes(*count) == records.len() as u64;
    whole.then_some(records)
}

/// Takes numbers and words off the front of a record.
struct Taker<'a>(&'a [u8]);

impl Taker<'_> {
    /// The next number.
    fn number(&mut self) -> Option<u64> {
        let (bytes, rest) = self.0.split_first_chunk::<8>()?;
        self.0 = rest;
        Some(u64::from_le_bytes(*bytes))
    }

    /// The next slice of so many words.
    fn words<T: Lent>(&mut self, count: u64) -> Option<Vec<T>> {
        let count = usize::try_from(count).ok()?;
        if count > MOST_WRITTEN {
            return Some(vec![T::of(0); count]);
        }
        let bytes = T::WIDTH as usize / 8;
        let (words, rest) = self.0.split_at_checked(count * bytes)?;
        self.0 = rest;
        let number = |word: &[u8]| word.iter().rev().fold(0, |number, &byte| (number << 8) | byte as u64);
        Some(words.chunks(bytes).map(|word| T::of(number(word))).collect())
    }
}

impl Read<'_> {
    /// The request and what is owed to it; none where the record has not the form.
    pub fn told<T: Lent>(&self) -> Option<Told<T>> {
        let mut taker = Taker(self.rest);
        let mut request = Request::new(self.call);
        for &argument in self.call.arguments() {
            request[argument] = taker.number()?;
        }
        let results = (0..self.call.results()).map(|_| taker.number()).collect::<Option<_>>()?;
        let lent = if self.call.lends() { request[Argument::Lent] } else { 0 };
        let other_lent = if self.call.has_two_spans() { request[Argument::OtherLent] } else { 0 };
        request.words = taker.words(lent)?;
        request.other = taker.words(other_lent)?;
        let words_after = if self.call.writes() { taker.words(lent)? } else { request.words.clone() };
        let other_after = if self.call == Call::Swap { taker.words(other_lent)? } else { request.other.clone() };
        taker.0.is_empty().then_some(Told { request, results, words_after, other_after })
    }
}
