//! The four searches.

use bitvec::{
    oracle::Row as _,
    order::{BitOrder, Lsb0, Msb0},
    slice::BitSlice,
};
use runs::call::Call;

use crate::{
    contest::{times, Buffers, Contest, Who, Work},
    width::{Calls, Row, Width, ABSENT},
};

/// Where the bit is that a search finds.
#[derive(Clone, Copy, Debug, Eq, PartialEq)]
pub enum Bit {
    /// In the word that the search comes to last.
    FarEnd,
    /// In the word that it looks at first.
    FirstWord,
}

/// The contest of a search in a row that has one bit of its kind.
pub fn contest<T: Width>(call: Call, row: Row, words: usize, bit: Bit, repeat: usize) -> Contest<T> {
    let zeros = matches!(call, Call::FirstZero | Call::LastZero);
    let first = matches!(call, Call::FirstOne | Call::FirstZero);
    let at_the_end = first == (bit == Bit::FarEnd);
    let index = if at_the_end { row.length - 2 } else { 1 };
    let span = model::Span { order: row.order, word: row.word as u64, head: row.head as u64, length: row.length as u64 };
    let mut left = vec![if zeros { T::ALL_ONES } else { T::of(0) }; words];
    model::set_bit_of(&mut left, span, index as u64, !zeros);
    let bitvec = match row.order {
        model::Order::Lsb0 => bitvec::<T, Lsb0>(call, row, repeat),
        model::Order::Msb0 => bitvec::<T, Msb0>(call, row, repeat),
    };
    let works = vec![
        (Who::Library, by_calls::<T, T::Library>(call, row, repeat)),
        (Who::Bitvec, bitvec),
        (Who::Plain, by_calls::<T, T::PlainRust>(call, row, repeat)),
        (Who::Memory, memory::<T>(repeat)),
    ];
    Contest { buffers: Buffers { left, right: Vec::new(), twin: Vec::new() }, works, repeat }
}

/// What was found, as a number.
fn index(found: Option<usize>) -> u64 {
    found.map_or(ABSENT, |index| index as u64)
}

/// The work of the library, or of plain Rust.
fn by_calls<T: Width, C: Calls<T>>(call: Call, row: Row, repeat: usize) -> Work<T> {
    match call {
        Call::FirstOne => times(repeat, move |b| C::search(Call::FirstOne, &b.left, row)),
        Call::LastOne => times(repeat, move |b| C::search(Call::LastOne, &b.left, row)),
        Call::FirstZero => times(repeat, move |b| C::search(Call::FirstZero, &b.left, row)),
        _ => times(repeat, move |b| C::search(Call::LastZero, &b.left, row)),
    }
}

/// bitvec's work.
fn bitvec<T: Width, O: BitOrder>(call: Call, row: Row, repeat: usize) -> Work<T>
where
    BitSlice<T, O>: bitvec::oracle::Row,
{
    match call {
        Call::FirstOne => times(repeat, move |b| index(row.see::<T, O>(&b.left).first_one())),
        Call::LastOne => times(repeat, move |b| index(row.see::<T, O>(&b.left).last_one())),
        Call::FirstZero => times(repeat, move |b| index(row.see::<T, O>(&b.left).first_zero())),
        _ => times(repeat, move |b| index(row.see::<T, O>(&b.left).last_zero())),
    }
}

extern "C" {
    /// C's.
    fn memchr(bytes: *const u8, byte: i32, count: usize) -> *const u8;
}

/// memchr of a byte that is not there, so that all are looked at.
fn memory<T: Width>(repeat: usize) -> Work<T> {
    times(repeat, |b: &mut Buffers<T>| {
        let found = unsafe { memchr(b.left.as_ptr().cast(), 0x55, size_of_val(&b.left[..])) };
        found.is_null() as u64
    })
}
