//! The same jobs in plain Rust, behind the same C signatures: first piece, whole
//! words, last piece. As in plain C, nothing is checked and nothing refused, but
//! in `checked`.

mod calls;
pub mod checked;
mod eight;
mod fields;
mod rows;
mod searches;

pub use calls::{w64, w8};

use std::ops::{BitAnd, BitOr, BitXor};

/// The codes of the C signatures that decide between two ways; any other code is the other way.
const LSB0: u8 = model::Order::Lsb0 as u8;
const LE: u8 = model::Significance::Le as u8;
const UNSIGNED: u8 = model::Sign::Unsigned as u8;

/// A word of plain Rust. Bits move along their indexes, in the order that `MSB0` says.
pub trait Plain: Copy + Eq + Default + BitAnd<Output = Self> + BitOr<Output = Self> + BitXor<Output = Self> + 'static {
    /// Its bits.
    const WIDTH: usize;

    /// Each bit `by` indexes nearer to index 0; `by` is below the width.
    fn down<const MSB0: bool>(self, by: usize) -> Self;

    /// Each bit `by` indexes further; `by` is below the width.
    fn up<const MSB0: bool>(self, by: usize) -> Self;

    /// The bits of the first `count` indexes, 1 to the width.
    fn first<const MSB0: bool>(count: usize) -> Self;

    /// As a number of 64 bits.
    fn wide(self) -> u64;

    /// The low bits of a number.
    fn narrow(wide: u64) -> Self;

    /// The bits of `with` where the mask has ones, else its own.
    #[inline(always)]
    fn merged(self, mask: Self, with: Self) -> Self {
        self ^ (self ^ with) & mask
    }
}

/// Makes these types words.
macro_rules! plain {
    ($($word:ty),+) => { $(
        impl Plain for $word {
            const WIDTH: usize = <$word>::BITS as usize;

            #[inline(always)]
            fn down<const MSB0: bool>(self, by: usize) -> Self {
                if MSB0 { self << by } else { self >> by }
            }

            #[inline(always)]
            fn up<const MSB0: bool>(self, by: usize) -> Self {
                if MSB0 { self >> by } else { self << by }
            }

            #[inline(always)]
            fn first<const MSB0: bool>(count: usize) -> Self {
                <$word>::MAX.up::<MSB0>(Self::WIDTH - count).down::<MSB0>(Self::WIDTH - count)
            }

            #[inline(always)]
            fn wide(self) -> u64 {
                self as u64
            }

            #[inline(always)]
            fn narrow(wide: u64) -> Self {
                wide as $word
            }
        }
    )+ };
}

plain!(u8, u64);

/// A word, as C reads it: without a check.
#[inline(always)]
fn word<T: Copy>(words: &[T], at: usize) -> T {
    debug_assert!(at < words.len());
    unsafe { *words.get_unchecked(at) }
}

/// The place of a word, as C has it: without a check.
#[inline(always)]
fn word_mut<T>(words: &mut [T], at: usize) -> &mut T {
    debug_assert!(at < words.len());
    unsafe { words.get_unchecked_mut(at) }
}

/// A part of the words, as C has it: without a check.
#[inline(always)]
fn part<T>(words: &[T], from: usize, count: usize) -> &[T] {
    debug_assert!(from + count <= words.len());
    unsafe { words.get_unchecked(from..from + count) }
}

/// The same to write.
#[inline(always)]
fn part_mut<T>(words: &mut [T], from: usize, count: usize) -> &mut [T] {
    debug_assert!(from + count <= words.len());
    unsafe { words.get_unchecked_mut(from..from + count) }
}

/// Up to a word's width of bits from place `at`, from index 0 on; above them anything.
#[inline(always)]
fn get<T: Plain, const MSB0: bool>(words: &[T], at: usize, count: usize) -> T {
    let (first, head) = (at / T::WIDTH, at % T::WIDTH);
    let bits = word(words, first).down::<MSB0>(head);
    if head + count > T::WIDTH {
        bits | word(words, first + 1).up::<MSB0>(T::WIDTH - head)
    } else {
        bits
    }
}

/// Puts bits at place `at`, all in one word.
#[inline(always)]
fn put_in_word<T: Plain, const MSB0: bool>(words: &mut [T], at: usize, count: usize, bits: T) {
    let (first, head) = (at / T::WIDTH, at % T::WIDTH);
    let place = word_mut(words, first);
    *place = place.merged(T::first::<MSB0>(count).up::<MSB0>(head), bits.up::<MSB0>(head));
}
