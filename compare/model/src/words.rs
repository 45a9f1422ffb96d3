//! Words, orders, spans, and where bit i of a span stands.

/// A word that can be lent.
pub trait Word: Copy + PartialEq {
    /// Its bits, W in the rules.
    const WIDTH: u64;

    /// The bit at a real position.
    fn bit(self, position: u64) -> bool;

    /// The word with the bit at a real position replaced.
    fn with_bit(self, position: u64, bit: bool) -> Self;
}

/// Makes these types words.
macro_rules! word {
    ($($number:ty),+) => { $(
        impl Word for $number {
            const WIDTH: u64 = <$number>::BITS as u64;

            fn bit(self, position: u64) -> bool {
                self >> position & 1 == 1
            }

            fn with_bit(self, position: u64, bit: bool) -> Self {
                self & !(1 << position) | (bit as $number) << position
            }
        }
    )+ };
}

word!(u8, u64);

/// Which end of a word index 0 is. As a number it is C's code.
#[derive(Clone, Copy, Debug, Eq, PartialEq)]
pub enum Order {
    Lsb0 = 0,
    Msb0 = 1,
}

/// A row of bits in lent words.
#[derive(Clone, Copy, Debug, Eq, PartialEq)]
pub struct Span {
    pub order: Order,
    pub word: u64,
    pub head: u64,
    pub length: u64,
}

/// The real position of an index below the width.
pub(crate) fn position_of(width: u64, order: Order, index: u64) -> u64 {
    match order {
        Order::Lsb0 => index,
        Order::Msb0 => width - 1 - index,
    }
}

/// The word and the real position in it of bit `i` of a span in bounds.
pub(crate) fn place_of<T: Word>(span: Span, i: u64) -> (usize, u64) {
    let t = span.head + i;
    let word = span.word + t / T::WIDTH;
    (word as usize, position_of(T::WIDTH, span.order, t % T::WIDTH))
}

/// Bit `i` of a span in bounds.
pub fn bit_of<T: Word>(words: &[T], span: Span, i: u64) -> bool {
    let (word, position) = place_of::<T>(span, i);
    words[word].bit(position)
}

/// Replaces bit `i` of a span in bounds.
pub fn set_bit_of<T: Word>(words: &mut [T], span: Span, i: u64, bit: bool) {
    let (word, position) = place_of::<T>(span, i);
    words[word] = words[word].with_bit(position, bit);
}
