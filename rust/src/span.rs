use crate::border;
use crate::{Order, Refusal, Word};

/// Which bits of a row a call works on: an order, a first word, a head (the index in that word of the first bit) and a length
/// in bits.
///
/// A span is four numbers and holds no row. Any four make one; whether it lies inside a row of W-bit words is told by each call
/// that it is handed to.
///
/// ```
/// use stableply::{BitRow, Order, Significance, Span};
///
/// // 8 bits from index 4 of the first byte on: they end inside the second.
/// let span = Span::new(Order::Lsb0, 0, 4, 8);
/// assert_eq!([0xB4u8, 0x6C, 0xF1].load::<u8>(span, Significance::Le)?, 0xCB);
/// # Ok::<(), stableply::Refusal>(())
/// ```
#[derive(Clone, Copy, Debug, PartialEq, Eq, Hash)]
pub struct Span {
    order: Order,
    word: usize,
    head: usize,
    length: usize,
}

impl Span {
    /// The span of `length` bits from index `head` of word `word` on.
    ///
    /// ```
    /// use stableply::{Order, Span};
    ///
    /// // The 5 bits that lie across two words of 64 bits, 3 in the first and 2 in the second.
    /// const DECISION: Span = Span::new(Order::Lsb0, 0, 61, 5);
    /// assert_eq!(DECISION, Span::at::<u64>(Order::Lsb0, 61, 5));
    /// ```
    pub const fn new(order: Order, word: usize, head: usize, length: usize) -> Span {
        Span { order, word, head, length }
    }

    /// The span of `length` bits from the row's bit `start` on, in a row of `W` words: word `start` div W, head `start` mod W.
    ///
    /// ```
    /// use stableply::{Order, Span};
    ///
    /// assert_eq!(Span::at::<u8>(Order::Lsb0, 29, 6), Span::new(Order::Lsb0, 3, 5, 6));
    /// assert_eq!(Span::at::<u64>(Order::Lsb0, 29, 6), Span::new(Order::Lsb0, 0, 29, 6));
    /// ```
    pub const fn at<W: Word>(order: Order, start: usize, length: usize) -> Span {
        Span::new(order, start / W::BITS, start % W::BITS, length)
    }

    /// The order in which the span numbers the bits of a word.
    ///
    /// ```
    /// # use stableply::{Order, Span};
    /// assert_eq!(Span::new(Order::Msb0, 1, 3, 20).order(), Order::Msb0);
    /// ```
    pub const fn order(self) -> Order {
        self.order
    }

    /// The first word.
    ///
    /// ```
    /// # use stableply::{Order, Span};
    /// assert_eq!(Span::new(Order::Msb0, 1, 3, 20).word(), 1);
    /// ```
    pub const fn word(self) -> usize {
        self.word
    }

    /// The index in the first word of the span's first bit.
    ///
    /// ```
    /// # use stableply::{Order, Span};
    /// assert_eq!(Span::new(Order::Msb0, 1, 3, 20).head(), 3);
    /// ```
    pub const fn head(self) -> usize {
        self.head
    }

    /// The number of bits.
    ///
    /// ```
    /// # use stableply::{Order, Span};
    /// assert_eq!(Span::new(Order::Msb0, 1, 3, 20).length(), 20);
    /// ```
    pub const fn length(self) -> usize {
        self.length
    }

    /// The first `place` bits, and the rest. `lent` is the number of `W` words in the row that the span is of.
    ///
    /// # Errors
    ///
    /// [`TooManyWords`](Refusal::TooManyWords) (1), [`IndexTooLarge`](Refusal::IndexTooLarge) (2) or
    /// [`OutOfBounds`](Refusal::OutOfBounds) (3) for a span that such a row does not hold, then
    /// [`NotBelow`](Refusal::NotBelow) (10) where `place` is above the span's length.
    ///
    /// ```
    /// use stableply::{BitRow, Order, Span};
    ///
    /// let row = [0b0110_0001u8, 0b1000_0000];
    /// let all = row.whole(Order::Lsb0);
    /// let (first, rest) = all.split_at::<u8>(row.len(), 1)?;
    /// assert_eq!(first, Span::new(Order::Lsb0, 0, 0, 1));
    /// assert_eq!(rest, Span::new(Order::Lsb0, 0, 1, 15));
    ///
    /// // The indexes of all ones: after each one that is found, the search goes on in the rest.
    /// let (mut ones, mut rest) = (Vec::new(), all);
    /// while let Some(index) = row.first_one(rest)? {
    ///     ones.push(all.length() - rest.length() + index);
    ///     (_, rest) = rest.split_at::<u8>(row.len(), index + 1)?;
    /// }
    /// assert_eq!(ones, [0, 5, 6, 15]);
    /// # Ok::<(), stableply::Refusal>(())
    /// ```
    pub fn split_at<W: Word>(self, lent: usize, place: usize) -> Result<(Span, Span), Refusal> {
        let (word, head, length) = border::rest::<W>(self, lent, place)?;
        Ok((Span { length: place, ..self }, Span { word, head, length, ..self }))
    }

    /// The first `place` bits: the first half of [`split_at`](Span::split_at), and refused as it is.
    ///
    /// # Errors
    ///
    /// Those of [`split_at`](Span::split_at).
    ///
    /// ```
    /// use stableply::{Order, Span};
    ///
    /// let span = Span::new(Order::Msb0, 0, 6, 10);
    /// assert_eq!(span.shorten::<u8>(2, 3)?, Span::new(Order::Msb0, 0, 6, 3));
    /// # Ok::<(), stableply::Refusal>(())
    /// ```
    pub fn shorten<W: Word>(self, lent: usize, place: usize) -> Result<Span, Refusal> {
        self.split_at::<W>(lent, place).map(|(first, _)| first)
    }
}
