//! What the runs need of a word's type.

use std::fmt::Debug;

/// A word that the library, bitvec and the model all take.
pub trait Lent: model::Word + bitvec::oracle::Word + Debug {
    /// The word with all bits set.
    const ALL_ONES: Self;

    /// The word of these low bits.
    fn of(number: u64) -> Self;

    /// Its value.
    fn number(self) -> u64;
}

/// Makes these types such words.
macro_rules! lent {
    ($($word:ty),+) => { $(
        impl Lent for $word {
            const ALL_ONES: Self = <$word>::MAX;

            fn of(number: u64) -> Self {
                number as $word
            }

            fn number(self) -> u64 {
                self as u64
            }
        }
    )+ };
}

lent!(u8, u64);
