//! Copies, boolean operations, swap and equality. A row is told by the place of
//! its first bit.

use std::cell::Cell;

use super::{get, part, part_mut, put_in_word, Plain};

/// A row cut at the words of one side: bits up to a word's end, whole words, and where these end.
struct Cut {
    lead: usize,
    whole: usize,
    end: usize,
}

/// Cuts the row that begins at a place of one side.
#[inline(always)]
fn cut<T: Plain>(at: usize, length: usize) -> Cut {
    let lead = (at.wrapping_neg() % T::WIDTH).min(length);
    let whole = (length - lead) / T::WIDTH;
    Cut { lead, whole, end: lead + whole * T::WIDTH }
}

/// Makes the left bits, with the right ones beside them, what `join` says.
#[inline(always)]
pub fn join<T: Plain, const MSB0: bool>(
    left: &mut [T],
    at: usize,
    right: &[T],
    from: usize,
    length: usize,
    join: impl Fn(T, T) -> T,
) {
    let piece = |left: &mut [T], begin: usize, count: usize| {
        let old = get::<T, MSB0>(left, at + begin, count);
        let with = get::<T, MSB0>(right, from + begin, count);
        put_in_word::<T, MSB0>(left, at + begin, count, join(old, with));
    };
    let Cut { lead, whole, end } = cut::<T>(at, length);
    if lead > 0 {
        piece(left, 0, lead);
    }
    if whole > 0 {
        let by = (from + lead) % T::WIDTH;
        let to = part_mut(left, (at + lead) / T::WIDTH, whole);
        let here = part(right, (from + lead) / T::WIDTH, whole);
        if by == 0 {
            to.iter_mut().zip(here).for_each(|(to, &with)| *to = join(*to, with));
        } else {
            let next = part(right, (from + lead) / T::WIDTH + 1, whole);
            for ((to, here), next) in to.iter_mut().zip(here).zip(next) {
                *to = join(*to, here.down::<MSB0>(by) | next.up::<MSB0>(T::WIDTH - by));
            }
        }
    }
    if end < length {
        piece(left, end, length - end);
    }
}

/// Swap: whole words where the heads are equal, else three times xor.
#[inline(always)]
pub fn swap<T: Plain, const MSB0: bool>(left: &mut [T], at: usize, right: &mut [T], from: usize, length: usize) {
    if at % T::WIDTH != from % T::WIDTH {
        join::<T, MSB0>(left, at, right, from, length, |a, b| a ^ b);
        join::<T, MSB0>(right, from, left, at, length, |a, b| a ^ b);
        join::<T, MSB0>(left, at, right, from, length, |a, b| a ^ b);
        return;
    }
    let piece = |left: &mut [T], right: &mut [T], begin: usize, count: usize| {
        let a = get::<T, MSB0>(left, at + begin, count);
        let b = get::<T, MSB0>(right, from + begin, count);
        put_in_word::<T, MSB0>(left, at + begin, count, b);
        put_in_word::<T, MSB0>(right, from + begin, count, a);
    };
    let Cut { lead, whole, end } = cut::<T>(at, length);
    if lead > 0 {
        piece(left, right, 0, lead);
    }
    if whole > 0 {
        let right = part_mut(right, (from + lead) / T::WIDTH, whole);
        part_mut(left, (at + lead) / T::WIDTH, whole).swap_with_slice(right);
    }
    if end < length {
        piece(left, right, end, length - end);
    }
}

/// Whether the whole words of two rows of differing heads are equal, in blocks without an exit inside.
#[inline(always)]
fn equal_moved<T: Plain, const MSB0: bool>(left: &[T], here: &[T], next: &[T], by: usize) -> bool {
    left.chunks(64).zip(here.chunks(64)).zip(next.chunks(64)).all(|((left, here), next)| {
        let words = left.iter().zip(here).zip(next);
        let differ = words.fold(T::default(), |differ, ((&left, here), next)| {
            differ | left ^ (here.down::<MSB0>(by) | next.up::<MSB0>(T::WIDTH - by))
        });
        differ == T::default()
    })
}

/// Equality of two rows of one length.
#[inline(always)]
pub fn equal<T: Plain, const MSB0: bool>(left: &[T], at: usize, right: &[T], from: usize, length: usize) -> bool {
    let piece = |begin: usize, count: usize| {
        let a = get::<T, MSB0>(left, at + begin, count);
        let b = get::<T, MSB0>(right, from + begin, count);
        (a ^ b) & T::first::<MSB0>(count) == T::default()
    };
    let Cut { lead, whole, end } = cut::<T>(at, length);
    if lead > 0 && !piece(0, lead) {
        return false;
    }
    if whole > 0 {
        let by = (from + lead) % T::WIDTH;
        let left = part(left, (at + lead) / T::WIDTH, whole);
        let here = part(right, (from + lead) / T::WIDTH, whole);
        let same = if by == 0 {
            left == here
        } else {
            equal_moved::<T, MSB0>(left, here, part(right, (from + lead) / T::WIDTH + 1, whole), by)
        };
        if !same {
            return false;
        }
    }
    end == length || piece(end, length - end)
}

/// Copy inside one buffer, both ranges told by their first places.
#[inline(always)]
pub fn copy_within<T: Plain, const MSB0: bool>(words: &mut [T], start: usize, to: usize, length: usize) {
    let piece = |words: &mut [T], begin: usize, count: usize| {
        let bits = get::<T, MSB0>(words, start + begin, count);
        put_in_word::<T, MSB0>(words, to + begin, count, bits);
    };
    let Cut { lead, whole, end } = cut::<T>(to, length);
    let forwards = to <= start;
    if forwards && lead > 0 {
        piece(words, 0, lead);
    } else if !forwards && end < length {
        piece(words, end, length - end);
    }
    if whole > 0 {
        let (source, target) = ((start + lead) / T::WIDTH, (to + lead) / T::WIDTH);
        match (start + lead) % T::WIDTH {
            0 => words.copy_within(source..source + whole, target),
            by => move_words::<T, MSB0>(words, source, target, whole, by, forwards),
        }
    }
    if forwards && end < length {
        piece(words, end, length - end);
    } else if !forwards && lead > 0 {
        piece(words, 0, lead);
    }
}

/// Makes whole words of a buffer those that stand `by` indexes after other ones of it.
#[inline(always)]
fn move_words<T: Plain, const MSB0: bool>(
    words: &mut [T],
    source: usize,
    target: usize,
    whole: usize,
    by: usize,
    forwards: bool,
) {
    let cells = Cell::from_mut(words).as_slice_of_cells();
    let (to, here, next) = (part(cells, target, whole), part(cells, source, whole), part(cells, source + 1, whole));
    let words = to.iter().zip(here).zip(next);
    let each = |((to, here), next): ((&Cell<T>, &Cell<T>), &Cell<T>)| {
        to.set(here.get().down::<MSB0>(by) | next.get().up::<MSB0>(T::WIDTH - by))
    };
    if forwards {
        words.for_each(each);
    } else {
        words.rev().for_each(each);
    }
}
