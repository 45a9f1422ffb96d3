//! Fields at odd heads.

use std::hint::black_box;

use bitvec::{
    field::BitField,
    oracle::{view, view_mut},
    order::{BitOrder, Lsb0, Msb0},
    slice::BitSlice,
};
use model::{Order, Sign, Significance};
use runs::random::Random;

use crate::{
    contest::{Buffers, Contest, Who, Work},
    plain::Plain,
    width::{done, Calls, Checked, Kind, Row, Width},
};

/// How many fields are taken in one go.
const FIELDS: usize = 1024;
/// The words that they are taken from.
pub const WORDS: usize = 8192;

/// A field of 64 bits at an odd head lies in nine bytes.
const MOST_WORDS_OF_A_FIELD: usize = 9;

/// What is done to a field.
#[derive(Clone, Copy, Debug, Eq, PartialEq)]
pub enum Job {
    Load,
    Store,
}

/// Random words and odd heads: where the fields begin.
fn places<T: Width>(order: Order, length: usize) -> Vec<Row> {
    let mut random = Random::new(9);
    let width = <T as Plain>::WIDTH as u64;
    let mut place = || Row {
        order,
        word: random.upto((WORDS - MOST_WORDS_OF_A_FIELD) as u64 - 1) as usize,
        head: (2 * random.upto(width / 2 - 1) + 1) as usize,
        length,
    };
    (0..FIELDS).map(|_| place()).collect()
}

/// The contest of a load or store of fields of K bits, all of them used.
pub fn contest<T: Width>(job: Job, order: Order, kind: Kind) -> Contest<T> {
    let places = places::<T>(order, kind.k);
    let bitvec = match (job, order) {
        (Job::Load, Order::Lsb0) => bitvec_load::<T, Lsb0>(places.clone(), kind),
        (Job::Load, Order::Msb0) => bitvec_load::<T, Msb0>(places.clone(), kind),
        (Job::Store, Order::Lsb0) => bitvec_store::<T, Lsb0>(places.clone(), kind),
        (Job::Store, Order::Msb0) => bitvec_store::<T, Msb0>(places.clone(), kind),
    };
    let mut works = vec![
        (Who::Library, by_calls::<T, T::Library>(job, places.clone(), kind)),
        (Who::Bitvec, bitvec),
        (Who::Plain, by_calls::<T, T::PlainRust>(job, places.clone(), kind)),
    ];
    works.extend(T::CHECKED.map(|calls| (Who::Checked, by_hand(job, places, kind, calls))));
    Contest { buffers: Buffers::random(WORDS), works, repeat: FIELDS }
}

/// The same of Lsb0 le fields, unsigned, taken by Rattle code that knows so much of them, all in one call.
pub fn known_contest<T: Width>(job: Job, k: usize) -> Contest<T> {
    let kind = Kind { k, significance: Significance::Le, sign: Sign::Unsigned };
    let places = places::<T>(Order::Lsb0, k);
    let (at, heads): (Vec<usize>, Vec<usize>) = places.iter().map(|row| (row.word, row.head)).unzip();
    let (library, bitvec): (Work<T>, Work<T>) = match job {
        Job::Load => {
            (Box::new(move |buffers| T::known_loads(&buffers.left, &at, &heads, k)), bitvec_load::<T, Lsb0>(places, kind))
        }
        Job::Store => (
            Box::new(move |buffers| {
                T::known_stores(&mut buffers.left, &at, &heads, k, black_box(0x5A));
                0
            }),
            bitvec_store::<T, Lsb0>(places, kind),
        ),
    };
    Contest { buffers: Buffers::random(WORDS), works: vec![(Who::Library, library), (Who::Bitvec, bitvec)], repeat: FIELDS }
}

/// Takes all fields; answers a mix of their numbers.
fn each_load<T: Width>(places: Vec<Row>, load: impl Fn(&[T], Row) -> u64 + 'static) -> Work<T> {
    Box::new(move |buffers| places.iter().fold(0, |mix: u64, &row| mix.rotate_left(1) ^ load(&buffers.left, row)))
}

/// Puts a number into all fields.
fn each_store<T: Width>(places: Vec<Row>, store: impl Fn(&mut [T], Row, u64) + 'static) -> Work<T> {
    Box::new(move |buffers| {
        places.iter().for_each(|&row| store(&mut buffers.left, row, black_box(0x5A)));
        0
    })
}

/// The work of the library, or of plain Rust.
fn by_calls<T: Width, C: Calls<T>>(job: Job, places: Vec<Row>, kind: Kind) -> Work<T> {
    match job {
        Job::Load => each_load(places, move |words: &[T], row| C::load(words, row, kind)),
        Job::Store => each_store(places, move |words: &mut [T], row, value| {
            C::store(words, row, kind, value);
        }),
    }
}

/// The work of fields by hand, with every refusal.
fn by_hand<T: Width>(job: Job, places: Vec<Row>, kind: Kind, calls: Checked<T>) -> Work<T> {
    let (k, significance, sign) = (kind.k, kind.significance as u8, kind.sign as u8);
    match job {
        Job::Load => each_load(places, move |words: &[T], row| {
            let (mut out, lent) = (0, words.len());
            let Row { order, word, head, length } = row;
            let load = calls.load;
            let code = unsafe { load(words.as_ptr(), lent, order as u8, word, head, length, k, significance, sign, &mut out) };
            out | done(code)
        }),
        Job::Store => each_store(places, move |words: &mut [T], row, value| {
            let (pointer, lent) = (words.as_mut_ptr(), words.len());
            let Row { order, word, head, length } = row;
            let store = calls.store;
            unsafe { store(pointer, lent, order as u8, word, head, length, k, significance, sign, 0, value) };
        }),
    }
}

/// Calls `$each` with the integer type and the method of the kind, so that bitvec knows both when it
/// is compiled.
macro_rules! by_kind {
    ($kind:expr, $each:ident, $le:ident, $be:ident) => {
        match ($kind.k, $kind.sign, $kind.significance) {
            (8, Sign::Unsigned, Significance::Le) => $each!(u8, $le),
            (8, Sign::Unsigned, Significance::Be) => $each!(u8, $be),
            (8, Sign::Signed, Significance::Le) => $each!(i8, $le),
            (8, Sign::Signed, Significance::Be) => $each!(i8, $be),
            (_, Sign::Unsigned, Significance::Le) => $each!(u64, $le),
            (_, Sign::Unsigned, Significance::Be) => $each!(u64, $be),
            (_, Sign::Signed, Significance::Le) => $each!(i64, $le),
            (_, Sign::Signed, Significance::Be) => $each!(i64, $be),
        }
    };
}

/// bitvec's loads.
fn bitvec_load<T: Width, O: BitOrder>(places: Vec<Row>, kind: Kind) -> Work<T>
where
    BitSlice<T, O>: BitField,
{
    macro_rules! load {
        ($integer:ty, $method:ident) => {
            each_load(places, move |words: &[T], row| {
                let length = 8 * size_of::<$integer>();
                view::<T, O>(words, row.word, row.head as u8, length).$method::<$integer>() as i64 as u64
            })
        };
    }
    by_kind!(kind, load, load_le, load_be)
}

/// bitvec's stores.
fn bitvec_store<T: Width, O: BitOrder>(places: Vec<Row>, kind: Kind) -> Work<T>
where
    BitSlice<T, O>: BitField,
{
    macro_rules! store {
        ($integer:ty, $method:ident) => {
            each_store(places, move |words: &mut [T], row, value| {
                let length = 8 * size_of::<$integer>();
                view_mut::<T, O>(words, row.word, row.head as u8, length).$method::<$integer>(value as $integer)
            })
        };
    }
    by_kind!(kind, store, store_le, store_be)
}
