//! Fields of 64-bit words by hand, unproved, with every refusal of the exported calls: how fast such a call can be made
//! without a proof. The usual request is seen first; what is refused is looked at again, row by row, out of the way.

use model::refusals::*;
use runs::call::NO_CODE;

use super::{LE, LSB0, UNSIGNED};

const MOST_WORDS: usize = model::MOST_WORDS as usize;

/// Why a field is refused, given that it is.
#[cold]
#[inline(never)]
fn reason(lent: usize, word: usize, head: usize, length: usize, k: usize, codes: u8) -> u8 {
    let outside = word > lent || (lent - word).saturating_mul(64) < head.saturating_add(length);
    if codes > 1 {
        NO_CODE
    } else if lent > MOST_WORDS {
        TOO_MANY_WORDS
    } else if head > 63 {
        INDEX_TOO_LARGE
    } else if outside {
        OUT_OF_BOUNDS
    } else if ![8, 16, 32, 64].contains(&k) {
        NO_SUCH_K
    } else if length == 0 || length > k {
        FIELD_LENGTH
    } else {
        NOT_AN_INTEGER
    }
}

/// Whether the codes, K, the length and the first word are right.
#[inline(always)]
fn is_begun(lent: usize, word: usize, length: usize, k: usize, codes: u8) -> bool {
    codes <= 1 && length.wrapping_sub(1) < k && k & 120 != 0 && k & (k - 1) == 0 && word < lent && lent <= MOST_WORDS
}

/// Whether a field that goes past its first word is refused for its head, or for want of a second word.
#[inline(always)]
fn is_cut_off(lent: usize, word: usize, head: usize) -> bool {
    head > 63 || word + 1 >= lent
}

/// A call on a field with the signature of the exported ones: how the words are lent, what follows in the signature, and
/// what is done with all arguments.
macro_rules! field_call {
    (
        $(#[$about:meta])*
        $name:ident, $pointer:ty, ($($more:ident: $kind:ty),*),
        |$words:ident, $lent:ident, $order:ident, $word:ident, $head:ident, $length:ident, $k:ident, $significance:ident, $sign:ident| $body:block
    ) => {
        $(#[$about])*
        #[inline(never)]
        pub unsafe extern "C" fn $name(
            $words: $pointer,
            $lent: usize,
            $order: u8,
            $word: usize,
            $head: usize,
            $length: usize,
            $k: usize,
            $significance: u8,
            $sign: u8,
            $($more: $kind),*
        ) -> u8 $body
    };
}

field_call! {
    /// A load, with the signature of the exported one.
    load, *const u64, (out: *mut u64),
    |words, lent, order, word, head, length, k, significance, sign| {
        let codes = order | significance | sign;
        if !is_begun(lent, word, length, k, codes) {
            return reason(lent, word, head, length, k, codes);
        }
        let rest = 64 - length;
        let number = if head <= rest {
            *words.add(word) << if order == LSB0 { rest - head } else { head } >> rest
        } else {
            if is_cut_off(lent, word, head) {
                return reason(lent, word, head, length, k, codes);
            }
            let (first, next) = (*words.add(word), *words.add(word + 1));
            let (room, over) = (64 - head, head - rest);
            let (a, b) = match order {
                LSB0 => (first >> head, next << (64 - over) >> (64 - over)),
                _ => (first << head >> head, next >> (64 - over)),
            };
            match significance {
                LE => (b << room) | a,
                _ => (a << over) | b,
            }
        };
        *out = match sign {
            UNSIGNED => number,
            _ => ((number << rest) as i64 >> rest) as u64,
        };
        0
    }
}

field_call! {
    /// A store, with the signature of the exported one.
    store, *mut u64, (below: u8, value: u64),
    |words, lent, order, word, head, length, k, significance, sign| {
        let codes = order | significance | sign | below;
        if !is_begun(lent, word, length, k, codes) {
            return reason(lent, word, head, length, k, codes);
        }
        let left = value >> (k - 1);
        if if sign == UNSIGNED { below == 1 || left > 1 } else { left > 0 } {
            return reason(lent, word, head, length, k, codes);
        }
        let number = if below == 0 { value } else { !value };
        let rest = 64 - length;
        if head <= rest {
            let by = if order == LSB0 { head } else { rest - head };
            let (place, mask) = (words.add(word), u64::MAX >> rest << by);
            *place ^= (*place ^ (number << by)) & mask;
            return 0;
        }
        if is_cut_off(lent, word, head) {
            return reason(lent, word, head, length, k, codes);
        }
        let (first, next) = (words.add(word), words.add(word + 1));
        let (room, over) = (64 - head, head - rest);
        let (a, b) = match significance {
            LE => (number, number >> room),
            _ => (number >> over, number),
        };
        if order == LSB0 {
            *first ^= (*first ^ (a << head)) & (u64::MAX << head);
            *next ^= (*next ^ b) & (u64::MAX >> (64 - over));
        } else {
            *first ^= (*first ^ a) & (u64::MAX >> head);
            *next ^= (*next ^ (b << (64 - over))) & (u64::MAX << (64 - over));
        }
        0
    }
}
