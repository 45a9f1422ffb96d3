//! The border to the archive: all the unsafe code of the crate.
//!
//! # Why each use is sound
//!
//! The archive's calls return on all arguments, keep nothing of what they are handed, and touch no other memory. What they ask
//! of a caller stands in `include/stableply.h` under "The caller's part". It is met in the same way by every wrapper here:
//!
//! - *Aligned, not null, valid for its count*: words are handed over as the pointer and the length of one slice, and an out
//!   value as a reference to a local that holds a number. `usize` is C's `size_t`.
//! - *What may be written is handed in once*: it is a `&mut` slice or a local of the wrapper, and nothing else that the call is
//!   handed overlaps these while they are borrowed.
//! - *The declarations are the archive's*: `calls.rs` repeats the header's, and all bits of a `u8` or `u64` are a value of it.
//!
//! # Why nobody sees 255
//!
//! 255 is answered exactly where an argument is no code: a width that is not 8 or 64; an order, a significance, a sign, a
//! `below` or a bit above 1; an operation that is none. No number of a user reaches such an argument. The width is that of one
//! of the two word types, the bit is a `bool`, and the rest are written out below in `order_code`, `significance_code`,
//! `sign_code`, `operation_code` and `given`. What remains is 0 and the numbers of refusal.

use crate::{IntegerKind, Operation, Order, Refusal, Sign, Significance, Span, Word};

mod calls;
use calls::{stableply_mask, stableply_position, stableply_selector, stableply_split, Calls};

#[cfg(not(target_pointer_width = "64"))]
compile_error!("the archive of stableply is for machines whose size_t has 64 bits");

/// What a word type has at the border. No type outside this module can have it.
pub trait Border: Sized {
    /// The archive's calls on rows of this word.
    const CALLS: Calls<Self>;

    /// The same number, for every number of W bits.
    fn narrowed(number: u64) -> Self;
}

/// Gives word types their calls: a width is one line.
macro_rules! widths {
    ($($word:ty: $calls:ident;)*) => {$(
        impl Border for $word {
            const CALLS: Calls<$word> = calls::$calls;

            fn narrowed(number: u64) -> $word {
                number as $word
            }
        }
    )*};
}

widths! {
    u8: ON_U8;
    u64: ON_U64;
}

/// The archive's code of an order.
fn order_code(order: Order) -> u8 {
    match order {
        Order::Lsb0 => 0,
        Order::Msb0 => 1,
    }
}

/// The archive's code of a significance.
fn significance_code(significance: Significance) -> u8 {
    match significance {
        Significance::Le => 0,
        Significance::Be => 1,
    }
}

/// The archive's code of a sign.
fn sign_code(sign: Sign) -> u8 {
    match sign {
        Sign::Unsigned => 0,
        Sign::Signed => 1,
    }
}

/// The archive's code of an operation: the number of its truth table.
fn operation_code(operation: Operation) -> u8 {
    match operation {
        Operation::And => 8,
        Operation::Or => 14,
        Operation::Xor => 6,
    }
}

/// A span as the four arguments that it is.
#[inline]
fn parts(span: Span) -> (u8, usize, usize, usize) {
    (order_code(span.order()), span.word(), span.head(), span.length())
}

/// A whole number as `below` and `value`: it is `value`, or -1 - `value` where `below` is 1. A number that has no such form is
/// handed over as -2^64: neither is an integer of any K and sign, so the answer is the same.
#[inline]
fn given(number: i128) -> (u8, u64) {
    match (u64::try_from(number), u64::try_from(!number)) {
        (Ok(value), _) => (0, value),
        (_, Ok(value)) => (1, value),
        _ => (1, u64::MAX),
    }
}

/// What a call's answer says. Its last case is an archive that is not the one declared: no input leads there.
#[inline]
fn accepted(answer: u8) -> Result<(), Refusal> {
    if answer == 0 {
        return Ok(());
    }
    match Refusal::from_number(answer) {
        Some(refusal) => Err(refusal),
        None => unreachable!("the archive answered {answer}: it is not the one that this crate is written for"),
    }
}

/// [`Order::position`].
pub fn position<W: Word>(order: Order, index: usize) -> Result<usize, Refusal> {
    let mut out = 0;
    // SAFETY: `out` is a local.
    accepted(unsafe { stableply_position(W::BITS as u8, order_code(order), index, &mut out) })?;
    Ok(out as usize)
}

/// [`Order::selector`].
pub fn selector<W: Word>(order: Order, index: usize) -> Result<W, Refusal> {
    let mut out = 0;
    // SAFETY: `out` is a local.
    accepted(unsafe { stableply_selector(W::BITS as u8, order_code(order), index, &mut out) })?;
    Ok(W::narrowed(out))
}

/// [`Order::mask`].
pub fn mask<W: Word>(order: Order, from: usize, upto: usize) -> Result<W, Refusal> {
    let mut out = 0;
    // SAFETY: `out` is a local.
    accepted(unsafe { stableply_mask(W::BITS as u8, order_code(order), from, upto, &mut out) })?;
    Ok(W::narrowed(out))
}

/// Word, head and length of what is left of a span of `lent` words after its first `place` bits.
pub fn rest<W: Word>(span: Span, lent: usize, place: usize) -> Result<(usize, usize, usize), Refusal> {
    let (order, word, head, length) = parts(span);
    let (mut rest_word, mut rest_head, mut rest_length) = (0, 0, 0);
    let width = W::BITS as u8;
    // SAFETY: the out values are three locals.
    accepted(unsafe {
        stableply_split(width, lent, order, word, head, length, place, &mut rest_word, &mut rest_head, &mut rest_length)
    })?;
    Ok((rest_word, rest_head, rest_length))
}

/// [`BitRow::read_bit`](crate::BitRow::read_bit).
pub fn read_bit<W: Word>(words: &[W], span: Span, index: usize) -> Result<bool, Refusal> {
    let (order, word, head, length) = parts(span);
    let mut out = 0;
    // SAFETY: a slice to read, and a local.
    accepted(unsafe { (W::CALLS.read_bit)(words.as_ptr(), words.len(), order, word, head, length, index, &mut out) })?;
    Ok(out == 1)
}

/// [`BitRow::write_bit`](crate::BitRow::write_bit).
pub fn write_bit<W: Word>(words: &mut [W], span: Span, index: usize, bit: bool) -> Result<(), Refusal> {
    let (order, word, head, length) = parts(span);
    // SAFETY: a slice to write.
    accepted(unsafe { (W::CALLS.write_bit)(words.as_mut_ptr(), words.len(), order, word, head, length, index, bit.into()) })
}

/// [`BitRow::load_number`](crate::BitRow::load_number).
pub fn load<W: Word>(words: &[W], span: Span, significance: Significance, kind: IntegerKind) -> Result<i128, Refusal> {
    let (order, word, head, length) = parts(span);
    let (significance, sign) = (significance_code(significance), sign_code(kind.sign()));
    let mut out = 0;
    // SAFETY: a slice to read, and a local.
    accepted(unsafe {
        (W::CALLS.load)(words.as_ptr(), words.len(), order, word, head, length, kind.k(), significance, sign, &mut out)
    })?;
    Ok(match kind.sign() {
        Sign::Unsigned => i128::from(out),
        Sign::Signed => i128::from(out as i64),
    })
}

/// [`BitRow::store_number`](crate::BitRow::store_number) and its strict form.
macro_rules! stores {
    ($($store:ident)*) => {$(
        pub fn $store<W: Word>(
            words: &mut [W],
            span: Span,
            significance: Significance,
            kind: IntegerKind,
            number: i128,
        ) -> Result<(), Refusal> {
            let (order, word, head, length) = parts(span);
            let (significance, sign) = (significance_code(significance), sign_code(kind.sign()));
            let (below, value) = given(number);
            let (pointer, lent) = (words.as_mut_ptr(), words.len());
            // SAFETY: a slice to write.
            accepted(unsafe {
                (W::CALLS.$store)(pointer, lent, order, word, head, length, kind.k(), significance, sign, below, value)
            })
        }
    )*};
}

stores!(store store_strict);

/// [`BitRow::copy_from`](crate::BitRow::copy_from).
pub fn copy_from<W: Word>(words: &mut [W], span: Span, source: &[W], source_span: Span) -> Result<(), Refusal> {
    let (order, word, head, length) = parts(span);
    let (source_order, source_word, source_head, source_length) = parts(source_span);
    // SAFETY: a slice to write, and one to read that it does not overlap.
    #[rustfmt::skip]
    let answer = unsafe {
        (W::CALLS.copy_from)(words.as_mut_ptr(), words.len(), order, word, head, length,
                             source.as_ptr(), source.len(), source_order, source_word, source_head, source_length)
    };
    accepted(answer)
}

/// [`BitRow::copy_inside`](crate::BitRow::copy_inside).
pub fn copy_within<W: Word>(
    words: &mut [W],
    span: Span,
    start: usize,
    count: usize,
    destination: usize,
) -> Result<(), Refusal> {
    let (order, word, head, length) = parts(span);
    let (pointer, lent) = (words.as_mut_ptr(), words.len());
    // SAFETY: a slice to write.
    accepted(unsafe { (W::CALLS.copy_within)(pointer, lent, order, word, head, length, start, count, destination) })
}

/// [`BitRow::boolean`](crate::BitRow::boolean).
pub fn boolean<W: Word>(
    words: &mut [W],
    span: Span,
    right: &[W],
    right_span: Span,
    operation: Operation,
) -> Result<(), Refusal> {
    let (order, word, head, length) = parts(span);
    let (right_order, right_word, right_head, right_length) = parts(right_span);
    // SAFETY: a slice to write, and one to read that it does not overlap.
    #[rustfmt::skip]
    let answer = unsafe {
        (W::CALLS.boolean)(words.as_mut_ptr(), words.len(), order, word, head, length,
                           right.as_ptr(), right.len(), right_order, right_word, right_head, right_length,
                           operation_code(operation))
    };
    accepted(answer)
}

/// [`BitRow::swap_with`](crate::BitRow::swap_with).
pub fn swap<W: Word>(left: &mut [W], left_span: Span, right: &mut [W], right_span: Span) -> Result<(), Refusal> {
    let (left_order, left_word, left_head, left_length) = parts(left_span);
    let (right_order, right_word, right_head, right_length) = parts(right_span);
    // SAFETY: two slices to write that do not overlap.
    #[rustfmt::skip]
    let answer = unsafe {
        (W::CALLS.swap)(left.as_mut_ptr(), left.len(), left_order, left_word, left_head, left_length,
                        right.as_mut_ptr(), right.len(), right_order, right_word, right_head, right_length)
    };
    accepted(answer)
}

/// [`BitRow::equal`](crate::BitRow::equal).
pub fn equal<W: Word>(left: &[W], left_span: Span, right: &[W], right_span: Span) -> Result<bool, Refusal> {
    let (left_order, left_word, left_head, left_length) = parts(left_span);
    let (right_order, right_word, right_head, right_length) = parts(right_span);
    let mut out = 0;
    // SAFETY: two slices to read, which may overlap, and a local.
    #[rustfmt::skip]
    let answer = unsafe {
        (W::CALLS.equal)(left.as_ptr(), left.len(), left_order, left_word, left_head, left_length,
                         right.as_ptr(), right.len(), right_order, right_word, right_head, right_length, &mut out)
    };
    accepted(answer)?;
    Ok(out == 1)
}

/// The four searches of [`BitRow`](crate::BitRow).
macro_rules! searches {
    ($($search:ident)*) => {$(
        pub fn $search<W: Word>(words: &[W], span: Span) -> Result<Option<usize>, Refusal> {
            let (order, word, head, length) = parts(span);
            let (mut found, mut at) = (0, 0);
            let (pointer, lent) = (words.as_ptr(), words.len());
            // SAFETY: a slice to read, and two locals.
            accepted(unsafe { (W::CALLS.$search)(pointer, lent, order, word, head, length, &mut found, &mut at) })?;
            Ok((found == 1).then_some(at))
        }
    )*};
}

searches!(first_one last_one first_zero last_zero);
