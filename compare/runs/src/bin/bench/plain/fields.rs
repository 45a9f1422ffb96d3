//! Field load and store, piece by piece. A field is told by the place of its
//! first bit.

use super::{word, word_mut, Plain};

/// The lowest `count` bits, 1 to 64.
#[inline(always)]
fn ones(count: usize) -> u64 {
    u64::MAX >> (64 - count)
}

/// The lowest position of the `count` bits of a word from index `head` on.
#[inline(always)]
fn lowest<T: Plain, const MSB0: bool>(head: usize, count: usize) -> usize {
    if MSB0 {
        T::WIDTH - head - count
    } else {
        head
    }
}

/// The number of a field.
#[inline(always)]
pub fn load<T: Plain, const MSB0: bool, const BE: bool>(words: &[T], at: usize, length: usize, signed: bool) -> u64 {
    let (mut number, mut done) = (0, 0);
    while done < length {
        let head = (at + done) % T::WIDTH;
        let count = (T::WIDTH - head).min(length - done);
        let bits = word(words, (at + done) / T::WIDTH).wide();
        let piece = (bits >> lowest::<T, MSB0>(head, count)) & ones(count);
        number |= piece << if BE { length - done - count } else { done };
        done += count;
    }
    if signed {
        ((number << (64 - length)) as i64 >> (64 - length)) as u64
    } else {
        number
    }
}

/// Puts the low bits of a value into a field.
#[inline(always)]
pub fn store<T: Plain, const MSB0: bool, const BE: bool>(words: &mut [T], at: usize, length: usize, value: u64) {
    let mut done = 0;
    while done < length {
        let head = (at + done) % T::WIDTH;
        let count = (T::WIDTH - head).min(length - done);
        let piece = value >> if BE { length - done - count } else { done };
        let by = lowest::<T, MSB0>(head, count);
        let place = word_mut(words, (at + done) / T::WIDTH);
        *place = place.merged(T::narrow(ones(count) << by), T::narrow(piece << by));
        done += count;
    }
}
