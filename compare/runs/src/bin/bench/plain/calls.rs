//! The C signatures over the plain code. All arguments have to be right.

use std::slice::{from_raw_parts, from_raw_parts_mut};

use model::{AND, OR};

use super::{eight, fields, rows, searches, Plain, LE, LSB0, UNSIGNED};

/// Calls a function of the order with it as a constant.
macro_rules! by_order {
    ($order:expr, $function:ident :: $name:ident, [$($word:ty)? $(, $known:literal)*], ($($argument:expr),*)) => {
        match $order {
            LSB0 => $function::$name::<$($word,)? false $(, $known)*>($($argument),*),
            _ => $function::$name::<$($word,)? true $(, $known)*>($($argument),*),
        }
    };
}

/// A search with the signature of the exported ones.
macro_rules! search {
    ($word:ty, $name:ident, $function:ident, $zeros:literal) => {
        #[inline(never)]
        pub unsafe extern "C" fn $name(
            words: *const $word,
            lent: usize,
            order: u8,
            word: usize,
            head: usize,
            length: usize,
            found: *mut u8,
            at: *mut usize,
        ) -> u8 {
            let place = word * <$word>::WIDTH + head;
            let words = from_raw_parts(words, lent);
            let index = by_order!(order, searches::$function, [$word, $zeros], (words, place, length));
            *found = index.is_some() as u8;
            if let Some(index) = index {
                *at = index;
            }
            0
        }
    };
}

/// A call on two rows with the signature of the exported ones: how each is lent, what follows them in the signature, and
/// what is done with both slices, first places and lengths.
macro_rules! two_rows {
    (
        $name:ident, $pointer:ty, $lend:ident, $second_pointer:ty, $second_lend:ident, ($($more:ident: $kind:ty),*),
        |$words:ident, $at:ident, $right:ident, $from:ident, $order:ident, $length:ident, $right_length:ident| $body:expr
    ) => {
        #[inline(never)]
        pub unsafe extern "C" fn $name(
            words: $pointer,
            lent: usize,
            $order: u8,
            word: usize,
            head: usize,
            $length: usize,
            right: $second_pointer,
            right_lent: usize,
            _right_order: u8,
            right_word: usize,
            right_head: usize,
            $right_length: usize,
            $($more: $kind,)*
        ) -> u8 {
            let ($words, $right) = ($lend(words, lent), $second_lend(right, right_lent));
            let ($at, $from) = (word * Word::WIDTH + head, right_word * Word::WIDTH + right_head);
            $body;
            0
        }
    };
}

/// A copy inside with the signature of the exported one.
macro_rules! inside {
    ($word:ty, $name:ident, $module:ident :: $function:ident, [$($known:ty)?]) => {
        #[inline(never)]
        pub unsafe extern "C" fn $name(
            words: *mut $word,
            lent: usize,
            order: u8,
            word: usize,
            head: usize,
            _length: usize,
            start: usize,
            count: usize,
            destination: usize,
        ) -> u8 {
            let at = word * <$word>::WIDTH + head;
            let words = from_raw_parts_mut(words, lent);
            by_order!(order, $module::$function, [$($known)?], (words, at + start, at + destination, count));
            0
        }
    };
}

/// All calls on one type of word.
macro_rules! calls {
    ($word:ty) => {
        use super::*;

        type Word = $word;

        #[inline(never)]
        pub unsafe extern "C" fn load(
            words: *const $word,
            lent: usize,
            order: u8,
            word: usize,
            head: usize,
            length: usize,
            _k: usize,
            significance: u8,
            sign: u8,
            out: *mut u64,
        ) -> u8 {
            let place = word * <$word>::WIDTH + head;
            let words = from_raw_parts(words, lent);
            *out = match significance {
                LE => by_order!(order, fields::load, [$word, false], (words, place, length, sign != UNSIGNED)),
                _ => by_order!(order, fields::load, [$word, true], (words, place, length, sign != UNSIGNED)),
            };
            0
        }

        #[inline(never)]
        pub unsafe extern "C" fn store(
            words: *mut $word,
            lent: usize,
            order: u8,
            word: usize,
            head: usize,
            length: usize,
            _k: usize,
            significance: u8,
            _sign: u8,
            _below: u8,
            value: u64,
        ) -> u8 {
            let place = word * <$word>::WIDTH + head;
            let words = from_raw_parts_mut(words, lent);
            match significance {
                LE => by_order!(order, fields::store, [$word, false], (words, place, length, value)),
                _ => by_order!(order, fields::store, [$word, true], (words, place, length, value)),
            }
            0
        }

        two_rows!(
            copy_from, *mut Word, from_raw_parts_mut, *const Word, from_raw_parts, (),
            |words, at, source, from, order, length, _source_length| {
                by_order!(order, rows::join, [Word], (words, at, source, from, length, |_, with| with))
            }
        );

        inside!($word, copy_within, rows::copy_within, [$word]);

        two_rows!(
            boolean, *mut Word, from_raw_parts_mut, *const Word, from_raw_parts, (operation: u8),
            |words, at, right, from, order, length, _right_length| match operation {
                AND => by_order!(order, rows::join, [Word], (words, at, right, from, length, |a, b| a & b)),
                OR => by_order!(order, rows::join, [Word], (words, at, right, from, length, |a, b| a | b)),
                _ => by_order!(order, rows::join, [Word], (words, at, right, from, length, |a, b| a ^ b)),
            }
        );

        two_rows!(
            swap, *mut Word, from_raw_parts_mut, *mut Word, from_raw_parts_mut, (),
            |words, at, right, from, order, length, _right_length| {
                by_order!(order, rows::swap, [Word], (words, at, right, from, length))
            }
        );

        two_rows!(
            equal, *const Word, from_raw_parts, *const Word, from_raw_parts, (out: *mut u8),
            |words, at, right, from, order, length, right_length| {
                let alike = length == right_length
                    && by_order!(order, rows::equal, [Word], (words, at, right, from, length));
                *out = alike as u8
            }
        );

        search!($word, first_one, first, false);
        search!($word, last_one, last, false);
        search!($word, first_zero, first, true);
        search!($word, last_zero, last, true);
    };
}

/// Words of 8 bits.
pub mod w8 {
    calls!(u8);
    inside!(u8, copy_within_by_eight, eight::copy_within, []);
}

/// Words of 64 bits.
pub mod w64 {
    calls!(u64);
}
