use crate::border;
use crate::{Refusal, Word};

/// How the bits of a word are numbered.
///
/// An *index* numbers the bits of a word in its order, from 0. A [`Position`] says where a bit really is: the bit at position p
/// is worth 2 to the p. Both are below W, and a type of its own keeps the one from being used for the other.
///
/// ```
/// use stableply::{BitRow, Order, Span};
///
/// let row = [0b0000_0001u8];
/// assert!(row.read_bit(row.whole(Order::Lsb0), 0)?);
/// assert!(row.read_bit(row.whole(Order::Msb0), 7)?);
/// # Ok::<(), stableply::Refusal>(())
/// ```
#[derive(Clone, Copy, Debug, PartialEq, Eq, Hash)]
pub enum Order {
    /// Index 0 is the least significant bit: index i is position i.
    Lsb0,
    /// Index 0 is the most significant bit: index i is position W - 1 - i.
    Msb0,
}

/// A bit's real position in a word. The bit at position p is worth 2 to the p.
///
/// ```
/// use stableply::{Order, Position};
///
/// let Position(position) = Order::Msb0.position::<u8>(0)?;
/// assert_eq!(1u8 << position, 0x80);
/// # Ok::<(), stableply::Refusal>(())
/// ```
#[derive(Clone, Copy, Debug, PartialEq, Eq, PartialOrd, Ord, Hash)]
pub struct Position(pub usize);

/// A word with one bit set, which selects that bit.
///
/// ```
/// use stableply::{Order, Selector};
///
/// let Selector(selector) = Order::Msb0.selector::<u8>(1)?;
/// assert_ne!(0xC0 & selector, 0);
/// # Ok::<(), stableply::Refusal>(())
/// ```
#[derive(Clone, Copy, Debug, PartialEq, Eq, Hash)]
pub struct Selector<W>(pub W);

/// A word with the bits of a range of indexes set.
///
/// ```
/// use stableply::{Mask, Order};
///
/// let Mask(mask) = Order::Lsb0.mask::<u64>(60, 64)?;
/// assert_eq!(u64::MAX & mask, 0xF000_0000_0000_0000);
/// # Ok::<(), stableply::Refusal>(())
/// ```
#[derive(Clone, Copy, Debug, PartialEq, Eq, Hash)]
pub struct Mask<W>(pub W);

impl Order {
    /// The real position of index `index` of a word.
    ///
    /// # Errors
    ///
    /// [`IndexTooLarge`](Refusal::IndexTooLarge) (2) where `index` is W or more.
    ///
    /// ```
    /// use stableply::{Order, Position};
    ///
    /// assert_eq!(Order::Lsb0.position::<u8>(2)?, Position(2));
    /// assert_eq!(Order::Msb0.position::<u8>(2)?, Position(5));
    /// assert_eq!(Order::Msb0.position::<u64>(2)?, Position(61));
    /// # Ok::<(), stableply::Refusal>(())
    /// ```
    pub fn position<W: Word>(self, index: usize) -> Result<Position, Refusal> {
        border::position::<W>(self, index).map(Position)
    }

    /// The selector of index `index` of a word: 2 to its real position.
    ///
    /// # Errors
    ///
    /// [`IndexTooLarge`](Refusal::IndexTooLarge) (2) where `index` is W or more.
    ///
    /// ```
    /// use stableply::{Order, Selector};
    ///
    /// assert_eq!(Order::Lsb0.selector::<u8>(2)?, Selector(0b0000_0100));
    /// assert_eq!(Order::Msb0.selector::<u8>(2)?, Selector(0b0010_0000));
    /// # Ok::<(), stableply::Refusal>(())
    /// ```
    pub fn selector<W: Word>(self, index: usize) -> Result<Selector<W>, Refusal> {
        border::selector(self, index).map(Selector)
    }

    /// The mask of the indexes `from` up to, but without, `upto`: the sum of their selectors.
    ///
    /// # Errors
    ///
    /// [`IndexTooLarge`](Refusal::IndexTooLarge) (2) where `from` is W or more, even where `upto` is W; then
    /// [`NotBelow`](Refusal::NotBelow) (10) where `upto` is above W or `from` above `upto`.
    ///
    /// ```
    /// use stableply::{Mask, Order};
    ///
    /// assert_eq!(Order::Lsb0.mask::<u8>(2, 5)?, Mask(0x1C));
    /// assert_eq!(Order::Msb0.mask::<u8>(2, 5)?, Mask(0x38));
    /// assert_eq!(Order::Msb0.mask::<u8>(3, 3)?, Mask(0));
    /// # Ok::<(), stableply::Refusal>(())
    /// ```
    pub fn mask<W: Word>(self, from: usize, upto: usize) -> Result<Mask<W>, Refusal> {
        border::mask(self, from, upto).map(Mask)
    }
}
