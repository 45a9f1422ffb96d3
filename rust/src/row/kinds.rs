//! Which types are rows: slices, arrays and vectors of words.
//!
//! Arrays and vectors could borrow the calls of slices. They have them themselves, so that a call may ask its own row for its
//! span, as in `row.write_bit(row.whole(order), 3, true)`: a row that is first made a slice is borrowed for writing before the
//! arguments are worked out.

use crate::{BitRow, Word};

/// What a row lends to the calls. No type outside this crate can have it, so none can be a row.
pub trait Lent<W> {
    /// The words, to read.
    fn words(&self) -> &[W];

    /// The words, to write.
    fn words_mut(&mut self) -> &mut [W];
}

impl<W: Word> BitRow for [W] {
    type Word = W;
}

impl<W: Word> Lent<W> for [W] {
    fn words(&self) -> &[W] {
        self
    }

    fn words_mut(&mut self) -> &mut [W] {
        self
    }
}

impl<W: Word, const N: usize> BitRow for [W; N] {
    type Word = W;
}

impl<W: Word, const N: usize> Lent<W> for [W; N] {
    fn words(&self) -> &[W] {
        self
    }

    fn words_mut(&mut self) -> &mut [W] {
        self
    }
}

#[cfg(feature = "alloc")]
impl<W: Word> BitRow for alloc::vec::Vec<W> {
    type Word = W;
}

#[cfg(feature = "alloc")]
impl<W: Word> Lent<W> for alloc::vec::Vec<W> {
    fn words(&self) -> &[W] {
        self
    }

    fn words_mut(&mut self) -> &mut [W] {
        self
    }
}
