//! The four searches: word by word, with the language's zero counts. A row is
//! told by the place of its first bit.

use super::{part, word, Plain};

/// The index of a word's first one; the word is not 0.
#[inline(always)]
fn first_in<T: Plain, const MSB0: bool>(word: T) -> usize {
    if MSB0 {
        word.wide().leading_zeros() as usize - (64 - T::WIDTH)
    } else {
        word.wide().trailing_zeros() as usize
    }
}

/// The index of a word's last one; the word is not 0.
#[inline(always)]
fn last_in<T: Plain, const MSB0: bool>(word: T) -> usize {
    if MSB0 {
        T::WIDTH - 1 - word.wide().trailing_zeros() as usize
    } else {
        63 - word.wide().leading_zeros() as usize
    }
}

/// Word `at` of the words, or its complement where zeros are sought, without the bits outside the row
/// from `begin` up to `end`.
#[inline(always)]
fn masked<T: Plain, const MSB0: bool, const ZEROS: bool>(words: &[T], at: usize, begin: usize, end: usize) -> T {
    let (base, ones) = (at * T::WIDTH, T::first::<MSB0>(T::WIDTH));
    let bits = if ZEROS { word(words, at) ^ ones } else { word(words, at) };
    bits & ones.up::<MSB0>(begin.saturating_sub(base)) & T::first::<MSB0>((end - base).min(T::WIDTH))
}

/// The index of the first one, or zero, of a row.
#[inline(always)]
pub fn first<T: Plain, const MSB0: bool, const ZEROS: bool>(words: &[T], at: usize, length: usize) -> Option<usize> {
    if length == 0 {
        return None;
    }
    let (begin, end) = (at / T::WIDTH, (at + length - 1) / T::WIDTH);
    let found = |place: usize| {
        let bits = masked::<T, MSB0, ZEROS>(words, place, at, at + length);
        (bits != T::default()).then(|| place * T::WIDTH + first_in::<T, MSB0>(bits) - at)
    };
    if let Some(index) = found(begin) {
        return Some(index);
    }
    let quiet = if ZEROS { T::narrow(u64::MAX) } else { T::default() };
    let middle = part(words, begin + 1, (end - begin).saturating_sub(1));
    found(middle.iter().position(|&word| word != quiet).map_or(end, |n| begin + 1 + n))
}

/// The index of the last one, or zero, of a row.
#[inline(always)]
pub fn last<T: Plain, const MSB0: bool, const ZEROS: bool>(words: &[T], at: usize, length: usize) -> Option<usize> {
    if length == 0 {
        return None;
    }
    let (begin, end) = (at / T::WIDTH, (at + length - 1) / T::WIDTH);
    let found = |place: usize| {
        let bits = masked::<T, MSB0, ZEROS>(words, place, at, at + length);
        (bits != T::default()).then(|| place * T::WIDTH + last_in::<T, MSB0>(bits) - at)
    };
    if let Some(index) = found(end) {
        return Some(index);
    }
    let quiet = if ZEROS { T::narrow(u64::MAX) } else { T::default() };
    let middle = part(words, begin + 1, (end - begin).saturating_sub(1));
    found(middle.iter().rposition(|&word| word != quiet).map_or(begin, |n| begin + 1 + n))
}
