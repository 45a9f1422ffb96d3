//! What bitvec answers. A request has to be one that the rules accept, or one
//! that bitvec is to stop on.

use std::{
    panic::{catch_unwind, set_hook, take_hook, AssertUnwindSafe},
    sync::atomic::{AtomicBool, Ordering::Relaxed},
};

use bitvec::{
    field::BitField,
    oracle::{self, view, view_mut, Row},
    order::{BitOrder, Lsb0, Msb0},
    slice::BitSlice,
};
use model::{
    refusals::{FIELD_LENGTH, LENGTHS_DIFFER},
    Order, Sign, Significance, AND, MOST_WORDS, OR, XOR,
};

use crate::{
    answer::Answer,
    call::{Argument, Call},
    lent::Lent,
    request::Request,
};

/// bitvec panicked.
#[derive(Clone, Copy, Debug, Eq, PartialEq)]
pub struct Stopped;

/// Whether bitvec is being asked.
static ASKED: AtomicBool = AtomicBool::new(false);

/// From now on a panic of bitvec is an answer and prints nothing; others print as ever.
pub fn let_bitvec_panic_quietly() {
    let print = take_hook();
    set_hook(Box::new(move |panic| {
        if !ASKED.load(Relaxed) {
            print(panic);
        }
    }));
}

/// bitvec's answer. The words lent become what bitvec leaves.
pub fn answer<T: Lent>(request: &Request<T>, words: &mut [T], other: &mut [T]) -> Result<Answer, Stopped> {
    let lsb0 = request[Argument::Order] == Order::Lsb0 as u64;
    ASKED.store(true, Relaxed);
    let answer = catch_unwind(AssertUnwindSafe(|| match (request.call.lends(), lsb0) {
        (false, true) => without_words::<T, Lsb0>(request),
        (false, false) => without_words::<T, Msb0>(request),
        (true, true) => on_words::<T, Lsb0>(request, words, other),
        (true, false) => on_words::<T, Msb0>(request, words, other),
    }));
    ASKED.store(false, Relaxed);
    answer.map_err(|_| Stopped)
}

/// Whether bitvec itself refuses what the rules refuse with this number: it
/// then has to stop.
pub fn stops_on(call: Call, refusal: u8) -> bool {
    refusal == FIELD_LENGTH || refusal == LENGTHS_DIFFER && call == Call::CopyFrom
}

/// Whether the request is of the kind that bitvec's `msb0.rs` goes below zero
/// in: a last-index search of a row at head 0 that has no such bit. With
/// overflow checks bitvec stops there, without them it answers absent.
pub fn goes_below_zero<T: Lent>(request: &Request<T>, expected: Answer) -> bool {
    matches!(request.call, Call::LastOne | Call::LastZero)
        && expected == Answer::Absent
        && request[Argument::Order] == Order::Msb0 as u64
        && request[Argument::Head] == 0
        && request[Argument::Length] > 0
}

/// Quiet memory for the split, which is lent none.
static ZEROS: [u64; MOST_WORDS as usize] = [0; MOST_WORDS as usize];

/// The calls without words, at the request's width.
fn without_words<T: Lent, O: BitOrder>(request: &Request<T>) -> Answer
where
    BitSlice<u8, O>: Row,
    BitSlice<u64, O>: Row,
{
    match request[Argument::Width] {
        8 => {
            let bytes = unsafe { ZEROS.align_to::<u8>().1 };
            without_words_of::<T, u8, O>(request, bytes)
        }
        _ => without_words_of::<T, u64, O>(request, &ZEROS),
    }
}

/// The same with the width as a type, and memory of it that the split may name.
fn without_words_of<T: Lent, W: Lent, O: BitOrder>(request: &Request<T>, quiet: &[W]) -> Answer
where
    BitSlice<W, O>: Row,
{
    let byte = |argument| request[argument] as u8;
    match request.call {
        Call::Position => Answer::Number(oracle::at::<W, O>(byte(Argument::Index)) as u64),
        Call::Selector => Answer::Number(oracle::select::<W, O>(byte(Argument::Index)).number()),
        Call::Mask => Answer::Number(oracle::mask::<W, O>(byte(Argument::From), byte(Argument::Upto)).number()),
        _ => {
            let lent = &quiet[..request[Argument::Lent] as usize];
            let [word, length, place] =
                [Argument::Word, Argument::Length, Argument::Place].map(|number| request[number] as usize);
            let row = view::<W, O>(lent, word, byte(Argument::Head), length);
            let (words, head, rest) = row.rest(place);
            Answer::Rest { word: (word + words) as u64, head: head as u64, length: rest as u64 }
        }
    }
}

/// The calls on lent words.
fn on_words<T: Lent, O: BitOrder>(request: &Request<T>, words: &mut [T], other: &mut [T]) -> Answer
where
    BitSlice<T, O>: Row,
{
    let number = |argument| request[argument] as usize;
    let (word, head, length) = (number(Argument::Word), request.code(Argument::Head), number(Argument::Length));
    let (other_word, other_head, other_length) =
        (number(Argument::OtherWord), request.code(Argument::OtherHead), number(Argument::OtherLength));
    if !request.call.writes() {
        let row = view::<T, O>(words, word, head, length);
        let found = match request.call {
            Call::ReadBit => return Answer::Bit(row.read(number(Argument::Index))),
            Call::Load => return Answer::Number(load(row, request)),
            Call::Equal => {
                let right = if request.shared { &*words } else { &*other };
                return Answer::Bit(row.same(view(right, other_word, other_head, other_length)));
            }
            Call::FirstOne => row.first_one(),
            Call::LastOne => row.last_one(),
            Call::FirstZero => row.first_zero(),
            _ => row.last_zero(),
        };
        return found.map_or(Answer::Absent, |index| Answer::Found(index as u64));
    }
    let row = view_mut::<T, O>(words, word, head, length);
    match request.call {
        Call::WriteBit => row.write(number(Argument::Index), request[Argument::Bit] == 1),
        Call::Store | Call::StoreStrict => store(row, request),
        Call::CopyFrom => row.copy_from(view(other, other_word, other_head, other_length)),
        Call::CopyWithin => {
            let start = number(Argument::Start);
            let source = start..start + number(Argument::Count);
            unsafe { row.copy_within(source, number(Argument::Destination)) }
        }
        Call::Boolean => {
            let right = view::<T, O>(other, other_word, other_head, other_length);
            match request.code(Argument::Operation) {
                AND => row.bitop::<AND>(right),
                OR => row.bitop::<OR>(right),
                _ => row.bitop::<XOR>(right),
            }
        }
        _ => row.swap(view_mut(other, other_word, other_head, other_length)),
    }
    Answer::Done
}

/// Calls `$each` with the integer type of the request's K and sign.
macro_rules! by_type {
    ($request:expr, $each:ident) => {
        match ($request[Argument::K], $request[Argument::Sign] == Sign::Signed as u64) {
            (8, false) => $each!(u8),
            (8, true) => $each!(i8),
            (16, false) => $each!(u16),
            (16, true) => $each!(i16),
            (32, false) => $each!(u32),
            (32, true) => $each!(i32),
            (_, false) => $each!(u64),
            (_, true) => $each!(i64),
        }
    };
}

/// Whether the request's field begins with its least significant piece.
fn is_le<T: Lent>(request: &Request<T>) -> bool {
    request[Argument::Significance] == Significance::Le as u64
}

/// The field's number, in 64-bit two's complement.
fn load<T: Lent, R: BitField + ?Sized>(row: &R, request: &Request<T>) -> u64 {
    macro_rules! load {
        ($integer:ty) => {
            if is_le(request) {
                row.load_le::<$integer>() as i64 as u64
            } else {
                row.load_be::<$integer>() as i64 as u64
            }
        };
    }
    by_type!(request, load)
}

/// Stores the request's value.
fn store<T: Lent, R: BitField + ?Sized>(row: &mut R, request: &Request<T>) {
    let value = crate::expected::value(request);
    macro_rules! store {
        ($integer:ty) => {
            if is_le(request) {
                row.store_le::<$integer>(value as $integer)
            } else {
                row.store_be::<$integer>(value as $integer)
            }
        };
    }
    by_type!(request, store)
}
