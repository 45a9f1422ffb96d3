//! Rows: copies, boolean operations, swap and equality.

use crate::{
    refusals::{in_bounds, inside, refuse, two_spans, Refusal, LENGTHS_DIFFER},
    words::{bit_of, set_bit_of, Span, Word},
};

/// Makes each bit of the target that of the source.
pub fn copy_from<T: Word>(target: &mut [T], to: Span, source: &[T], from: Span) -> Result<(), Refusal> {
    two_spans(target, to, source, from)?;
    refuse(LENGTHS_DIFFER, to.length != from.length)?;
    for i in 0..to.length {
        set_bit_of(target, to, i, bit_of(source, from, i));
    }
    Ok(())
}

/// Makes bit `destination` + i the old bit `start` + i, for all i below `count` at once.
pub fn copy_within<T: Word>(words: &mut [T], row: Span, start: u64, count: u64, destination: u64) -> Result<(), Refusal> {
    in_bounds(words, row)?;
    inside(start, count, row)?;
    inside(destination, count, row)?;
    let old: Vec<bool> = (0..count).map(|i| bit_of(words, row, start + i)).collect();
    for (i, bit) in (0..).zip(old) {
        set_bit_of(words, row, destination + i, bit);
    }
    Ok(())
}

/// The truth table of `and`: bit 2a + b is the result for left bit a and right bit b.
pub const AND: u8 = 0b1000;
/// The same of `or`.
pub const OR: u8 = 0b1110;
/// The same of `xor`.
pub const XOR: u8 = 0b0110;

/// Makes each left bit, with the right bit beside it, what the truth table `operation` says. Right bits past its end are false.
pub fn boolean<T: Word>(words: &mut [T], left: Span, right_words: &[T], right: Span, operation: u8) -> Result<(), Refusal> {
    two_spans(words, left, right_words, right)?;
    for i in 0..left.length {
        let a = bit_of(words, left, i);
        let b = i < right.length && bit_of(right_words, right, i);
        let result = (operation >> (2 * a as u8 + b as u8)) & 1 == 1;
        set_bit_of(words, left, i, result);
    }
    Ok(())
}

/// Gives each span the other's old bits.
pub fn swap<T: Word>(left_words: &mut [T], left: Span, right_words: &mut [T], right: Span) -> Result<(), Refusal> {
    two_spans(left_words, left, right_words, right)?;
    refuse(LENGTHS_DIFFER, left.length != right.length)?;
    for i in 0..left.length {
        let (a, b) = (bit_of(left_words, left, i), bit_of(right_words, right, i));
        set_bit_of(left_words, left, i, b);
        set_bit_of(right_words, right, i, a);
    }
    Ok(())
}

/// Whether lengths and all bits agree.
pub fn equal<T: Word>(left_words: &[T], left: Span, right_words: &[T], right: Span) -> Result<bool, Refusal> {
    two_spans(left_words, left, right_words, right)?;
    let same = |i| bit_of(left_words, left, i) == bit_of(right_words, right, i);
    Ok(left.length == right.length && (0..left.length).all(same))
}
