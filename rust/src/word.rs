use core::fmt::Debug;

use crate::border::Border;

/// A word of a row: `u8` or `u64`. No other type can be one.
///
/// W stands for [`BITS`](Word::BITS) in all the rules.
///
/// ```
/// use stableply::{BitRow, Order, Refusal, Word};
///
/// /// How many bits stand before the first 1, whatever the words.
/// fn leading_zeros<W: Word>(row: &[W]) -> Result<usize, Refusal> {
///     Ok(row.first_one(row.whole(Order::Msb0))?.unwrap_or(row.len() * W::BITS))
/// }
///
/// assert_eq!(leading_zeros(&[0x00u8, 0x2F])?, 10);
/// assert_eq!(leading_zeros(&[0u64, 0])?, 128);
/// # Ok::<(), Refusal>(())
/// ```
pub trait Word: Border + Copy + Debug + Eq + 'static {
    /// W, the number of bits in a word.
    ///
    /// ```
    /// use stableply::Word;
    ///
    /// assert_eq!(<u8 as Word>::BITS, 8);
    /// assert_eq!(<u64 as Word>::BITS, 64);
    /// ```
    const BITS: usize;
}

/// Makes these types words.
macro_rules! words {
    ($($word:ty)*) => {$(
        impl Word for $word {
            const BITS: usize = <$word>::BITS as usize;
        }
    )*};
}

words!(u8 u64);
