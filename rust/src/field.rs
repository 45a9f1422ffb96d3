/// Which piece of a field is the least significant. A field is cut where words end, and each piece is read as a number with the
/// word's own significance, whatever the order.
///
/// Bit i of a field weighs 2 to the i for [`Lsb0`](crate::Order::Lsb0) with `Le`, and 2 to the length - 1 - i for
/// [`Msb0`](crate::Order::Msb0) with `Be`. With the other two pairings that holds inside each piece only.
///
/// ```
/// use stableply::{BitRow, Order, Significance, Span};
///
/// // The pieces are B, the high half of the first byte, and C, the low half of the second.
/// let row = [0xB4u8, 0x6C];
/// let span = Span::new(Order::Lsb0, 0, 4, 8);
/// assert_eq!(row.load::<u8>(span, Significance::Le)?, 0xCB);
/// assert_eq!(row.load::<u8>(span, Significance::Be)?, 0xBC);
/// # Ok::<(), stableply::Refusal>(())
/// ```
#[derive(Clone, Copy, Debug, PartialEq, Eq, Hash)]
pub enum Significance {
    /// The first piece is the least significant.
    Le,
    /// The first piece is the most significant.
    Be,
}

/// Whether an integer has a sign.
///
/// ```
/// use stableply::{Integer, Sign};
///
/// assert_eq!(<i16 as Integer>::KIND.sign(), Sign::Signed);
/// ```
#[derive(Clone, Copy, Debug, PartialEq, Eq, Hash)]
pub enum Sign {
    /// 0 to 2 to the K, less 1.
    Unsigned,
    /// Minus 2 to the K - 1, to 2 to the K - 1, less 1.
    Signed,
}

/// What integers a field's numbers are: their size K in bits, and their sign. A type that is an [`Integer`] has its kind in
/// [`Integer::KIND`]; where K is known only as the program runs, it is named here.
///
/// K is not the field's length: a field of kind K has 1 to K bits.
///
/// ```
/// use stableply::{BitRow, IntegerKind, Order, Significance, Span};
///
/// let row = [0xB4u8, 0x6C, 0xF1];
/// let span = Span::new(Order::Lsb0, 0, 4, 8);
/// assert_eq!(row.load_number(span, Significance::Le, IntegerKind::signed(8))?, -53);
/// # Ok::<(), stableply::Refusal>(())
/// ```
#[derive(Clone, Copy, Debug, PartialEq, Eq, Hash)]
pub struct IntegerKind {
    k: usize,
    sign: Sign,
}

impl IntegerKind {
    /// Unsigned integers of `k` bits. Calls accept 8, 16, 32 and 64.
    ///
    /// ```
    /// use stableply::{Integer, IntegerKind};
    ///
    /// assert_eq!(IntegerKind::unsigned(32), <u32 as Integer>::KIND);
    /// ```
    pub const fn unsigned(k: usize) -> IntegerKind {
        IntegerKind { k, sign: Sign::Unsigned }
    }

    /// Signed integers of `k` bits. Calls accept 8, 16, 32 and 64.
    ///
    /// ```
    /// use stableply::{Integer, IntegerKind};
    ///
    /// assert_eq!(IntegerKind::signed(32), <i32 as Integer>::KIND);
    /// ```
    pub const fn signed(k: usize) -> IntegerKind {
        IntegerKind { k, sign: Sign::Signed }
    }

    /// K, the size in bits.
    ///
    /// ```
    /// assert_eq!(stableply::IntegerKind::signed(16).k(), 16);
    /// ```
    pub const fn k(self) -> usize {
        self.k
    }

    /// Whether the integers have a sign.
    ///
    /// ```
    /// use stableply::{IntegerKind, Sign};
    ///
    /// assert_eq!(IntegerKind::unsigned(16).sign(), Sign::Unsigned);
    /// ```
    pub const fn sign(self) -> Sign {
        self.sign
    }
}

/// An integer type that a field can be loaded as and stored from: `u8` to `u64`, `i8` to `i64`, `usize` and `isize`. No other
/// type can be one.
///
/// ```
/// use stableply::{BitRow, Integer, Order, Refusal, Significance, Span};
///
/// /// The number of the row's first `length` bits, as any integer that the caller asks for.
/// fn first<I: Integer>(row: &[u64], length: usize) -> Result<I, Refusal> {
///     row.load(Span::new(Order::Lsb0, 0, 0, length), Significance::Le)
/// }
///
/// assert_eq!(first::<u8>(&[0xFFC], 4)?, 12);
/// assert_eq!(first::<i32>(&[0xFFC], 12)?, -4);
/// # Ok::<(), Refusal>(())
/// ```
pub trait Integer: sealed::Integer {
    /// The type's K and sign.
    ///
    /// ```
    /// use stableply::{Integer, Sign};
    ///
    /// assert_eq!(<i16 as Integer>::KIND.k(), 16);
    /// assert_eq!(<i16 as Integer>::KIND.sign(), Sign::Signed);
    /// ```
    const KIND: IntegerKind;
}

pub(crate) mod sealed {
    /// How an integer type meets whole numbers.
    pub trait Integer: Copy {
        /// The same number.
        fn widened(self) -> i128;

        /// The same number, for every number of the type.
        fn narrowed(number: i128) -> Self;
    }
}

/// Makes these types integers of fields, with or without a sign.
macro_rules! integers {
    ($kind:ident: $($integer:ty)*) => {$(
        impl Integer for $integer {
            const KIND: IntegerKind = IntegerKind::$kind(<$integer>::BITS as usize);
        }

        impl sealed::Integer for $integer {
            fn widened(self) -> i128 {
                self as i128
            }

            fn narrowed(number: i128) -> Self {
                number as Self
            }
        }
    )*};
}

integers!(unsigned: u8 u16 u32 u64 usize);
integers!(signed: i8 i16 i32 i64 isize);
