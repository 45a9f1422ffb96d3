//! The four searches.

use crate::{
    refusals::{in_bounds, Refusal},
    words::{bit_of, Span, Word},
};

/// Which of the bits asked for: the one of smallest or of largest index.
#[derive(Clone, Copy, Debug, Eq, PartialEq)]
pub enum End {
    First,
    Last,
}

/// The index of the first or last bit of the wanted kind, if there is one.
pub fn search<T: Word>(words: &[T], span: Span, end: End, wanted: bool) -> Result<Option<u64>, Refusal> {
    in_bounds(words, span)?;
    let is_wanted = |&i: &u64| bit_of(words, span, i) == wanted;
    Ok(match end {
        End::First => (0..span.length).find(is_wanted),
        End::Last => (0..span.length).rev().find(is_wanted),
    })
}
