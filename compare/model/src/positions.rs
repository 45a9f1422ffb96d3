//! Positions, selectors, masks and the split: calls without lent words.

use crate::{
    refusals::{refuse, span_in_bounds, Refusal, INDEX_TOO_LARGE, NOT_BELOW},
    words::{position_of, Order, Span},
};

/// The real position of an index.
pub fn position(width: u64, order: Order, index: u64) -> Result<u64, Refusal> {
    refuse(INDEX_TOO_LARGE, index >= width)?;
    Ok(position_of(width, order, index))
}

/// Two to the position of an index.
pub fn selector(width: u64, order: Order, index: u64) -> Result<u64, Refusal> {
    Ok(1 << position(width, order, index)?)
}

/// The sum of the selectors of the indexes from `from` up to but without `upto`.
pub fn mask(width: u64, order: Order, from: u64, upto: u64) -> Result<u64, Refusal> {
    refuse(INDEX_TOO_LARGE, from >= width)?;
    refuse(NOT_BELOW, upto > width || from > upto)?;
    Ok((from..upto).map(|index| 1 << position_of(width, order, index)).sum())
}

/// The rest of a span from bit `place` on; the first half is the span with length `place`.
pub fn split(width: u64, lent: u64, span: Span, place: u64) -> Result<Span, Refusal> {
    span_in_bounds(width, lent, span)?;
    refuse(NOT_BELOW, place > span.length)?;
    let t = span.head + place;
    Ok(Span { order: span.order, word: span.word + t / width, head: t % width, length: span.length - place })
}
