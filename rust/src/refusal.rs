use core::error::Error;
use core::fmt;

/// Why a call was refused. A refused call has changed nothing, and the reason lies in its arguments alone, never in the bits
/// that the row holds.
///
/// Where several apply, the lowest number is given; of a call with two spans, 1 to 3 of the first span, then 1 to 3 of the
/// second, then the rest.
///
/// ```
/// use stableply::{BitRow, Order, Refusal, Span};
///
/// let row = [0xB4u8, 0x6C];
/// let refusal = row.first_one(Span::new(Order::Lsb0, 0, 8, 4)).unwrap_err();
/// assert_eq!(refusal, Refusal::IndexTooLarge);
/// assert_eq!(refusal.number(), 2);
/// assert_eq!(refusal.to_string(), "a head, or an index in a word, is not below the number of bits in a word (refusal 2)");
/// ```
#[derive(Clone, Copy, Debug, PartialEq, Eq, PartialOrd, Ord, Hash)]
#[non_exhaustive]
#[repr(u8)]
pub enum Refusal {
    /// 1: more than [`MOST_WORDS`](crate::MOST_WORDS) words are lent.
    TooManyWords = 1,
    /// 2: a head, or an index in a word, is W or more, W being the number of bits in a word.
    IndexTooLarge = 2,
    /// 3: the span is not in bounds: it ends past the last word lent.
    OutOfBounds = 3,
    /// 4: K is not 8, 16, 32 or 64.
    NoSuchK = 4,
    /// 5: a field's length is 0 or above K.
    FieldLength = 5,
    /// 6: the two spans' orders differ.
    OrdersDiffer = 6,
    /// 7: the two spans' lengths differ.
    LengthsDiffer = 7,
    /// 8: the value is not a K-bit integer of its sign.
    NotAnInteger = 8,
    /// 9: a strict store's value does not fit into the field.
    DoesNotFit = 9,
    /// 10: an index is not below the span's length, a place or the end of a range is above it, or a mask's range is not one
    /// of the word.
    NotBelow = 10,
}

impl Refusal {
    /// All of them, in the order of their numbers.
    const ALL: [Refusal; 10] = [
        Refusal::TooManyWords,
        Refusal::IndexTooLarge,
        Refusal::OutOfBounds,
        Refusal::NoSuchK,
        Refusal::FieldLength,
        Refusal::OrdersDiffer,
        Refusal::LengthsDiffer,
        Refusal::NotAnInteger,
        Refusal::DoesNotFit,
        Refusal::NotBelow,
    ];

    /// The refusal's number, which is also what the C call returns.
    ///
    /// ```
    /// assert_eq!(stableply::Refusal::DoesNotFit.number(), 9);
    /// ```
    pub const fn number(self) -> u8 {
        self as u8
    }

    /// The refusal that has this number, if one has.
    ///
    /// ```
    /// use stableply::Refusal;
    ///
    /// assert_eq!(Refusal::from_number(9), Some(Refusal::DoesNotFit));
    /// assert_eq!(Refusal::from_number(0), None);
    /// ```
    pub fn from_number(number: u8) -> Option<Refusal> {
        Refusal::ALL.into_iter().find(|refusal| refusal.number() == number)
    }

    /// What is wrong, for a reader who does not know the numbers.
    fn sentence(self) -> &'static str {
        match self {
            Refusal::TooManyWords => "more than 65,536 words are lent",
            Refusal::IndexTooLarge => "a head, or an index in a word, is not below the number of bits in a word",
            Refusal::OutOfBounds => "the span ends past the last word lent",
            Refusal::NoSuchK => "K, the size of a field's integer, is not 8, 16, 32 or 64",
            Refusal::FieldLength => "the field has no bits, or more bits than its integer",
            Refusal::OrdersDiffer => "the two spans number their bits in different orders",
            Refusal::LengthsDiffer => "the two spans have different lengths",
            Refusal::NotAnInteger => "the value is not an integer of K bits with the sign named",
            Refusal::DoesNotFit => "the value does not fit into the field",
            Refusal::NotBelow => "an index, a place or a range is not inside the span, or a mask's range not inside the word",
        }
    }
}

impl fmt::Display for Refusal {
    fn fmt(&self, f: &mut fmt::Formatter<'_>) -> fmt::Result {
        write!(f, "{} (refusal {})", self.sentence(), self.number())
    }
}

impl Error for Refusal {}
