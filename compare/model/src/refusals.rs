//! The numbers of refusal, and the checks that several calls share. A call names its checks in the order of their numbers, so
//! the lowest is given.

use crate::words::{Span, Word};

/// The number of a refusal, 1 to 10.
pub type Refusal = u8;

/// More than 65,536 words are lent.
pub const TOO_MANY_WORDS: Refusal = 1;
/// A head, or an index in a word, is W or more.
pub const INDEX_TOO_LARGE: Refusal = 2;
/// The span is not in bounds.
pub const OUT_OF_BOUNDS: Refusal = 3;
/// K is not 8, 16, 32 or 64.
pub const NO_SUCH_K: Refusal = 4;
/// A field's length is 0 or above K.
pub const FIELD_LENGTH: Refusal = 5;
/// The two spans' orders differ.
pub const ORDERS_DIFFER: Refusal = 6;
/// The two spans' lengths differ.
pub const LENGTHS_DIFFER: Refusal = 7;
/// The value is not a K-bit integer of its sign.
pub const NOT_AN_INTEGER: Refusal = 8;
/// The value of a strict store does not fit.
pub const DOES_NOT_FIT: Refusal = 9;
/// An index, a place or a range is not inside the span, or a mask's range not inside the word.
pub const NOT_BELOW: Refusal = 10;

/// The most words that may be lent.
pub const MOST_WORDS: u64 = 65_536;

/// The refusal where the condition holds.
pub(crate) fn refuse(refusal: Refusal, condition: bool) -> Result<(), Refusal> {
    if condition {
        Err(refusal)
    } else {
        Ok(())
    }
}

/// Refuses a span that is not in bounds of `lent` words of `width` bits. Sums are taken as whole numbers.
pub(crate) fn span_in_bounds(width: u64, lent: u64, span: Span) -> Result<(), Refusal> {
    let wide = |n: u64| n as u128;
    refuse(TOO_MANY_WORDS, lent > MOST_WORDS)?;
    refuse(INDEX_TOO_LARGE, span.head >= width)?;
    let end = wide(width) * wide(span.word) + wide(span.head) + wide(span.length);
    refuse(OUT_OF_BOUNDS, end > wide(width) * wide(lent))
}

/// The same over these words.
pub(crate) fn in_bounds<T: Word>(words: &[T], span: Span) -> Result<(), Refusal> {
    span_in_bounds(T::WIDTH, words.len() as u64, span)
}

/// Refuses `count` bits from `start` on that are not all in the span.
pub(crate) fn inside(start: u64, count: u64, span: Span) -> Result<(), Refusal> {
    refuse(NOT_BELOW, start as u128 + count as u128 > span.length as u128)
}

/// Refuses two spans: the first out of bounds, then the second, then both of different orders.
pub(crate) fn two_spans<T: Word>(first_words: &[T], first: Span, second_words: &[T], second: Span) -> Result<(), Refusal> {
    in_bounds(first_words, first)?;
    in_bounds(second_words, second)?;
    refuse(ORDERS_DIFFER, first.order != second.order)
}
