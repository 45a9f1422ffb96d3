//! The rules of Stableply (docs/RULES.md), one bit at a time: what the library is held to here, and the Rust crate in its
//! tests.
//!
//! Written from the rules alone: it shares no code with the library or with bitvec. Every function takes any arguments and
//! gives either the one answer that the rules state or the number of the refusal. Sums are taken as whole numbers, 128 bits
//! wide.

mod fields;
mod positions;
pub mod refusals;
mod rows;
mod searches;
mod words;

pub use fields::{load, store, store_strict, Field, Sign, Significance};
pub use positions::{mask, position, selector, split};
pub use refusals::{Refusal, MOST_WORDS};
pub use rows::{boolean, copy_from, copy_within, equal, swap, AND, OR, XOR};
pub use searches::{search, End};
pub use words::{bit_of, set_bit_of, Order, Span, Word};

use refusals::{in_bounds, inside};

/// Bit `index` of a span.
pub fn read_bit<T: Word>(words: &[T], span: Span, index: u64) -> Result<bool, Refusal> {
    in_bounds::<T>(words, span)?;
    inside(index, 1, span)?;
    Ok(bit_of(words, span, index))
}

/// Makes bit `index` of a span the given one.
pub fn write_bit<T: Word>(words: &mut [T], span: Span, index: u64, bit: bool) -> Result<(), Refusal> {
    in_bounds::<T>(words, span)?;
    inside(index, 1, span)?;
    set_bit_of(words, span, index, bit);
    Ok(())
}
