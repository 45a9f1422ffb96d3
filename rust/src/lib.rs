//! Bits, fields and rows of bits in slices of `u8` and `u64`, in the two orders and with the two significances of bitvec 1.1.1.
//!
//! Every answer and every bit left behind is that of a library proved to give exactly this answer for all arguments; this crate
//! is its safe face. No call panics, on any input: what cannot be done is answered with a [`Refusal`], and then nothing has
//! changed.
//!
//! The calls are methods of [`BitRow`], which slices, arrays and vectors of `u8` and `u64` have. Each takes a [`Span`] that
//! says which bits it works on; [`whole`](BitRow::whole) is the span of them all.
//!
//! ```
//! use stableply::{BitRow, Order, Refusal, Significance, Span};
//!
//! // A trace record of two words: which of its 40 spans have arrived (the root is bit 0), then the sampler's decision,
//! // which lies across the two words, then the clock skew, which has a sign.
//! const ARRIVED: Span = Span::new(Order::Lsb0, 0, 0, 40);
//! const DECISION: Span = Span::new(Order::Lsb0, 0, 61, 5);
//! const SKEW: Span = Span::new(Order::Lsb0, 1, 2, 12);
//!
//! let mut record = [0u64; 2];
//! record.store(ARRIVED, Significance::Le, 0xFF_FFFF_BFFFu64)?;
//! record.store_strict(DECISION, Significance::Le, 19u8)?;
//! record.store_strict(SKEW, Significance::Le, -37i16)?;
//!
//! assert!(record.read_bit(ARRIVED, 0)?);
//! assert_eq!(record.first_zero(ARRIVED)?, Some(14));
//! assert_eq!(record.load::<u8>(DECISION, Significance::Le)?, 19);
//! assert_eq!(record.load::<i16>(SKEW, Significance::Le)?, -37);
//!
//! // 5 bits do not hold 40, and a strict store says so.
//! assert_eq!(record.store_strict(DECISION, Significance::Le, 40u8), Err(Refusal::DoesNotFit));
//! # Ok::<(), Refusal>(())
//! ```
//!
//! # The archive
//!
//! The crate links `libstableply.a`, for Linux on x86-64. The build looks for it in the folder that `STABLEPLY_LIB_DIR` names,
//! else in the project's target/staticlib. Where it is not there, the build has the project's `tools/archive` make it, or says what
//! to run.
//!
//! # Features
//!
//! `alloc`, on by default, gives the calls to `Vec`. Without it the crate asks for no allocator.

#![no_std]
#![deny(missing_docs, unsafe_code, unsafe_op_in_unsafe_fn)]

#[cfg(feature = "alloc")]
extern crate alloc;

#[allow(unsafe_code)]
mod border;
#[forbid(unsafe_code)]
mod field;
#[forbid(unsafe_code)]
mod operation;
#[forbid(unsafe_code)]
mod order;
#[forbid(unsafe_code)]
mod refusal;
#[forbid(unsafe_code)]
mod row;
#[forbid(unsafe_code)]
mod span;
#[forbid(unsafe_code)]
mod word;

pub use field::{Integer, IntegerKind, Sign, Significance};
pub use operation::Operation;
pub use order::{Mask, Order, Position, Selector};
pub use refusal::Refusal;
pub use row::BitRow;
pub use span::Span;
pub use word::Word;

/// The most words that a row may have. Calls on longer ones are refused with [`Refusal::TooManyWords`].
///
/// ```
/// use stableply::{BitRow, MOST_WORDS, Order, Refusal};
///
/// let row = vec![0u8; MOST_WORDS + 1];
/// assert_eq!(row.first_one(row.whole(Order::Lsb0)), Err(Refusal::TooManyWords));
/// assert_eq!(row[1..].first_one(row[1..].whole(Order::Lsb0)), Ok(None));
/// ```
pub const MOST_WORDS: usize = 65_536;
