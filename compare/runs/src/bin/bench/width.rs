//! The C calls by the word's type: the library's, and those of plain Rust.

use bitvec::{
    oracle::{view, view_mut},
    order::BitOrder,
    slice::BitSlice,
};
use model::{Order, Sign, Significance};
use runs::{call::Call, lent::Lent};

use crate::plain::{self, Plain};

/// A span of a buffer.
#[derive(Clone, Copy)]
pub struct Row {
    pub order: Order,
    pub word: usize,
    pub head: usize,
    pub length: usize,
}

impl Row {
    /// As bitvec sees it.
    pub fn see<T: Lent, O: BitOrder>(self, words: &[T]) -> &BitSlice<T, O> {
        view(words, self.word, self.head as u8, self.length)
    }

    /// As bitvec writes it.
    pub fn see_mut<T: Lent, O: BitOrder>(self, words: &mut [T]) -> &mut BitSlice<T, O> {
        view_mut(words, self.word, self.head as u8, self.length)
    }
}

/// A field's K, significance and sign.
#[derive(Clone, Copy)]
pub struct Kind {
    pub k: usize,
    pub significance: Significance,
    pub sign: Sign,
}

/// The library's calls.
pub struct Library;

/// Plain Rust's.
pub struct PlainRust;

/// A load and a store with the signatures of the exported ones.
pub struct Checked<T> {
    pub load: unsafe extern "C" fn(*const T, usize, u8, usize, usize, usize, usize, u8, u8, *mut u64) -> u8,
    pub store: unsafe extern "C" fn(*mut T, usize, u8, usize, usize, usize, usize, u8, u8, u8, u64) -> u8,
}

/// A copy inside a row: its words, the row, start, count and destination. It answers as `Calls` says.
pub type CopyWithin<T> = fn(&mut [T], Row, usize, usize, usize) -> u64;

/// A word's type with both.
pub trait Width: Lent + Plain {
    /// Who calls the library.
    type Library: Calls<Self>;
    /// Who calls plain Rust.
    type PlainRust: Calls<Self>;

    /// Fields by hand with every refusal, where that is written.
    const CHECKED: Option<Checked<Self>>;

    /// Copy inside by plain Rust that takes eight bytes at once, where a word has fewer.
    const BY_EIGHT: Option<CopyWithin<Self>>;

    /// The fields of k bits that begin at a head of a word each, loaded by Rattle code: a mix of their numbers.
    fn known_loads(words: &[Self], places: &[usize], heads: &[usize], k: usize) -> u64;

    /// A value stored in each of them.
    fn known_stores(words: &mut [Self], places: &[usize], heads: &[usize], k: usize, value: u64);
}

/// Gives a word's type what `Width` asks for.
macro_rules! width {
    ($word:ty, $loads:path, $stores:path, $checked:expr, $by_eight:expr) => {
        impl Width for $word {
            type Library = Library;
            type PlainRust = PlainRust;

            const CHECKED: Option<Checked<$word>> = $checked;
            const BY_EIGHT: Option<CopyWithin<$word>> = $by_eight;

            fn known_loads(words: &[$word], places: &[usize], heads: &[usize], k: usize) -> u64 {
                let mut mix = 0;
                let (at, fields, also) = (places.as_ptr(), places.len(), heads.len());
                unsafe { $loads(words.as_ptr(), words.len(), at, fields, heads.as_ptr(), also, k, &mut mix) };
                mix
            }

            fn known_stores(words: &mut [$word], places: &[usize], heads: &[usize], k: usize, value: u64) {
                let (at, fields, also) = (places.as_ptr(), places.len(), heads.len());
                unsafe { $stores(words.as_mut_ptr(), words.len(), at, fields, heads.as_ptr(), also, k, value) };
            }
        }
    };
}

/// The calls of one of the two. Each answers a number that shows a refusal too.
pub trait Calls<T>: 'static {
    fn load(words: &[T], row: Row, kind: Kind) -> u64;
    fn store(words: &mut [T], row: Row, kind: Kind, value: u64) -> u64;
    fn copy_from(words: &mut [T], row: Row, source: &[T], from: Row) -> u64;
    fn copy_within(words: &mut [T], row: Row, start: usize, count: usize, destination: usize) -> u64;
    fn boolean(words: &mut [T], row: Row, right: &[T], from: Row, operation: u8) -> u64;
    fn swap(words: &mut [T], row: Row, right: &mut [T], from: Row) -> u64;
    fn equal(words: &[T], row: Row, right: &[T], from: Row) -> u64;
    fn search(call: Call, words: &[T], row: Row) -> u64;
}

/// What a search that found nothing answers here.
pub const ABSENT: u64 = u64::MAX - 1;

/// 0 where accepted; a number that no answer is, where refused.
pub fn done(code: u8) -> u64 {
    if code == 0 {
        0
    } else {
        u64::MAX
    }
}

/// A call on one row, and what else it takes.
macro_rules! one {
    ($name:path, $pointer:expr, $lent:expr, $row:expr $(, $rest:expr)*) => {
        unsafe { $name($pointer, $lent, $row.order as u8, $row.word, $row.head, $row.length $(, $rest)*) }
    };
}

/// A call on two rows, and what else it takes.
macro_rules! two {
    ($name:path, $pointer:expr, $lent:expr, $row:expr, $second:expr, $second_lent:expr, $from:expr $(, $rest:expr)*) => {
        one!($name, $pointer, $lent, $row, $second, $second_lent, $from.order as u8, $from.word, $from.head, $from.length $(, $rest)*)
    };
}

/// Gives one of the two its calls on one type of word, from the module that has them.
macro_rules! calls {
    ($whose:ty, $word:ty, $calls:path) => {
        const _: () = {
            use $calls as calls;

            impl Calls<$word> for $whose {
                #[inline(always)]
                fn load(words: &[$word], row: Row, kind: Kind) -> u64 {
                    let (mut out, pointer, lent) = (0, words.as_ptr(), words.len());
                    let code =
                        one!(calls::load, pointer, lent, row, kind.k, kind.significance as u8, kind.sign as u8, &mut out);
                    out | done(code)
                }

                #[inline(always)]
                fn store(words: &mut [$word], row: Row, kind: Kind, value: u64) -> u64 {
                    let (pointer, lent) = (words.as_mut_ptr(), words.len());
                    done(one!(calls::store, pointer, lent, row, kind.k, kind.significance as u8, kind.sign as u8, 0, value))
                }

                #[inline(always)]
                fn copy_from(words: &mut [$word], row: Row, source: &[$word], from: Row) -> u64 {
                    let (pointer, lent) = (words.as_mut_ptr(), words.len());
                    done(two!(calls::copy_from, pointer, lent, row, source.as_ptr(), source.len(), from))
                }

                #[inline(always)]
                fn copy_within(words: &mut [$word], row: Row, start: usize, count: usize, destination: usize) -> u64 {
                    let (pointer, lent) = (words.as_mut_ptr(), words.len());
                    done(one!(calls::copy_within, pointer, lent, row, start, count, destination))
                }

                #[inline(always)]
                fn boolean(words: &mut [$word], row: Row, right: &[$word], from: Row, operation: u8) -> u64 {
                    let (pointer, lent) = (words.as_mut_ptr(), words.len());
                    done(two!(calls::boolean, pointer, lent, row, right.as_ptr(), right.len(), from, operation))
                }

                #[inline(always)]
                fn swap(words: &mut [$word], row: Row, right: &mut [$word], from: Row) -> u64 {
                    let (pointer, lent) = (words.as_mut_ptr(), words.len());
                    done(two!(calls::swap, pointer, lent, row, right.as_mut_ptr(), right.len(), from))
                }

                #[inline(always)]
                fn equal(words: &[$word], row: Row, right: &[$word], from: Row) -> u64 {
                    let (mut out, pointer, lent) = (0, words.as_ptr(), words.len());
                    let code = two!(calls::equal, pointer, lent, row, right.as_ptr(), right.len(), from, &mut out);
                    out as u64 | done(code)
                }

                #[inline(always)]
                fn search(call: Call, words: &[$word], row: Row) -> u64 {
                    let (mut found, mut at, pointer, lent) = (0, 0, words.as_ptr(), words.len());
                    let code = match call {
                        Call::FirstOne => one!(calls::first_one, pointer, lent, row, &mut found, &mut at),
                        Call::LastOne => one!(calls::last_one, pointer, lent, row, &mut found, &mut at),
                        Call::FirstZero => one!(calls::first_zero, pointer, lent, row, &mut found, &mut at),
                        _ => one!(calls::last_zero, pointer, lent, row, &mut found, &mut at),
                    };
                    (if found == 1 { at as u64 } else { ABSENT }) | done(code)
                }
            }
        };
    };
}

width!(
    u8,
    known::known8_loads,
    known::known8_stores,
    None,
    Some(|words, row, start, count, destination| {
        let (pointer, lent) = (words.as_mut_ptr(), words.len());
        done(one!(plain::w8::copy_within_by_eight, pointer, lent, row, start, count, destination))
    })
);
width!(
    u64,
    known::known64_loads,
    known::known64_stores,
    Some(Checked { load: plain::checked::load, store: plain::checked::store }),
    None
);

calls!(Library, u8, exported::on_u8);
calls!(Library, u64, exported::on_u64);
calls!(PlainRust, u8, plain::w8);
calls!(PlainRust, u64, plain::w64);
