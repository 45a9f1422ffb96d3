use crate::border;
use crate::{Integer, IntegerKind, Operation, Order, Refusal, Significance, Span, Word};

mod kinds;
use kinds::Lent;

/// The calls on a row of bits: a slice, an array or a `Vec` of `u8` or of `u64`. No other type can be one.
///
/// Each call takes the [`Span`] that it works on; with two spans, each stands beside its row. A call that is accepted changes
/// the bits that it names and no others; one that is refused changes nothing.
///
/// A second row is a slice of the same words. `&other` and `&mut other` serve for an array and for a `Vec` too.
///
/// # Errors
///
/// Every call first checks the span that it is handed, or the two one after the other:
/// [`TooManyWords`](Refusal::TooManyWords) (1), [`IndexTooLarge`](Refusal::IndexTooLarge) (2),
/// [`OutOfBounds`](Refusal::OutOfBounds) (3). What a call is refused for beyond that is listed with it, in its order.
///
/// ```
/// use stableply::{BitRow, Order, Refusal, Span};
///
/// let mut row = vec![0u64; 4]; // a Vec, an array and a slice all have the calls
/// row.write_bit(row.whole(Order::Lsb0), 200, true)?;
/// assert_eq!(row.first_one(row.whole(Order::Lsb0))?, Some(200));
/// assert_eq!(row[1..].first_one(row[1..].whole(Order::Lsb0))?, Some(136));
///
/// assert_eq!(row.first_one(Span::new(Order::Lsb0, 0, 64, 1)), Err(Refusal::IndexTooLarge));
/// assert_eq!(row.first_one(Span::new(Order::Lsb0, 3, 63, 2)), Err(Refusal::OutOfBounds));
/// # Ok::<(), Refusal>(())
/// ```
pub trait BitRow: Lent<<Self as BitRow>::Word> {
    /// The type of the row's words.
    ///
    /// ```
    /// use stableply::{BitRow, Order, Refusal};
    ///
    /// /// Makes all bits those of a second row, whatever kind of row the first is.
    /// fn become_like<R: BitRow + ?Sized>(row: &mut R, other: &[R::Word]) -> Result<(), Refusal> {
    ///     row.copy_from(row.whole(Order::Lsb0), other, other.whole(Order::Lsb0))
    /// }
    ///
    /// let mut row = [0u8; 2];
    /// become_like(&mut row, &[0xB4, 0x6C])?;
    /// assert_eq!(row, [0xB4, 0x6C]);
    /// # Ok::<(), Refusal>(())
    /// ```
    type Word: Word;

    /// The span of all the row's bits.
    ///
    /// ```
    /// use stableply::{BitRow, Order, Span};
    ///
    /// let mut row = [0u8; 3];
    /// assert_eq!(row.whole(Order::Msb0), Span::new(Order::Msb0, 0, 0, 24));
    /// row.write_bit(row.whole(Order::Msb0), 0, true)?;
    ///
    /// // A part of a row is a row too: name it, and ask it for its span.
    /// let part = &mut row[1..];
    /// part.write_bit(part.whole(Order::Msb0), 0, true)?;
    /// assert_eq!(row, [0x80, 0x80, 0x00]);
    /// # Ok::<(), stableply::Refusal>(())
    /// ```
    fn whole(&self, order: Order) -> Span {
        // A row whose bits a `usize` cannot count has too many words for any call.
        Span::new(order, 0, 0, self.words().len().saturating_mul(Self::Word::BITS))
    }

    /// Bit `index` of the span.
    ///
    /// # Errors
    ///
    /// 1 to 3 for the span; [`NotBelow`](Refusal::NotBelow) (10) where `index` is not below its length.
    ///
    /// ```
    /// use stableply::{BitRow, Order, Refusal, Span};
    ///
    /// let row = [0xB4u8, 0x6C]; // 1011_0100 0110_1100
    /// let span = Span::new(Order::Msb0, 0, 6, 4); // 00 01
    /// assert!(!row.read_bit(span, 0)?);
    /// assert!(row.read_bit(span, 3)?);
    /// assert_eq!(row.read_bit(span, 4), Err(Refusal::NotBelow));
    /// # Ok::<(), Refusal>(())
    /// ```
    fn read_bit(&self, span: Span, index: usize) -> Result<bool, Refusal> {
        border::read_bit(self.words(), span, index)
    }

    /// Sets bit `index` of the span to `bit`.
    ///
    /// # Errors
    ///
    /// 1 to 3 for the span; [`NotBelow`](Refusal::NotBelow) (10) where `index` is not below its length.
    ///
    /// ```
    /// use stableply::{BitRow, Order, Span};
    ///
    /// let mut row = [0u8; 2];
    /// row.write_bit(Span::new(Order::Lsb0, 0, 6, 4), 3, true)?;
    /// assert_eq!(row, [0, 0b10]);
    /// row.write_bit(row.whole(Order::Lsb0), 3, true)?;
    /// assert_eq!(row, [0b1000, 0b10]);
    /// # Ok::<(), stableply::Refusal>(())
    /// ```
    fn write_bit(&mut self, span: Span, index: usize, bit: bool) -> Result<(), Refusal> {
        border::write_bit(self.words_mut(), span, index, bit)
    }

    /// The number that a field holds, as a Rust integer; a signed one with the field's top bit as its sign.
    ///
    /// # Errors
    ///
    /// 1 to 3 for the span; [`FieldLength`](Refusal::FieldLength) (5) where the span has no bits, or more than the type.
    ///
    /// ```
    /// use stableply::{BitRow, Order, Significance, Span};
    ///
    /// let row = [0xB4u8, 0x6C, 0xF1];
    /// let span = Span::new(Order::Lsb0, 0, 4, 8);
    /// assert_eq!(row.load::<u16>(span, Significance::Le)?, 0xCB);
    /// assert_eq!(row.load::<u16>(span, Significance::Be)?, 0xBC);
    /// assert_eq!(row.load::<i8>(span, Significance::Le)?, -53);
    /// # Ok::<(), stableply::Refusal>(())
    /// ```
    fn load<I: Integer>(&self, span: Span, significance: Significance) -> Result<I, Refusal> {
        self.load_number(span, significance, I::KIND).map(I::narrowed)
    }

    /// Stores the low bits of a Rust integer, as many as the field has, so that a load returns them.
    ///
    /// # Errors
    ///
    /// 1 to 3 for the span; [`FieldLength`](Refusal::FieldLength) (5) where the span has no bits, or more than the type.
    ///
    /// ```
    /// use stableply::{BitRow, Order, Significance, Span};
    ///
    /// let mut row = [0u8; 3];
    /// row.store(Span::new(Order::Lsb0, 0, 4, 8), Significance::Le, 0xCBu8)?;
    /// assert_eq!(row, [0xB0, 0x0C, 0x00]);
    /// # Ok::<(), stableply::Refusal>(())
    /// ```
    fn store<I: Integer>(&mut self, span: Span, significance: Significance, value: I) -> Result<(), Refusal> {
        self.store_number(span, significance, I::KIND, value.widened())
    }

    /// Stores as [`store`](BitRow::store) does, but only a value that fits: an unsigned one is below 2 to the field's length,
    /// the magnitude of a signed one below 2 to the length - 1.
    ///
    /// # Errors
    ///
    /// 1 to 3 for the span; [`FieldLength`](Refusal::FieldLength) (5) where the span has no bits, or more than the type;
    /// [`DoesNotFit`](Refusal::DoesNotFit) (9).
    ///
    /// ```
    /// use stableply::{BitRow, Order, Refusal, Significance, Span};
    ///
    /// let mut row = [0u8; 3];
    /// let span = Span::new(Order::Lsb0, 0, 4, 8);
    /// row.store_strict(span, Significance::Le, 255u16)?;
    /// assert_eq!(row.store_strict(span, Significance::Le, 256u16), Err(Refusal::DoesNotFit));
    /// assert_eq!(row, [0xF0, 0x0F, 0x00]);
    /// # Ok::<(), Refusal>(())
    /// ```
    fn store_strict<I: Integer>(&mut self, span: Span, significance: Significance, value: I) -> Result<(), Refusal> {
        self.store_number_strict(span, significance, I::KIND, value.widened())
    }

    /// The number that a field of the kind named holds.
    ///
    /// # Errors
    ///
    /// 1 to 3 for the span; [`NoSuchK`](Refusal::NoSuchK) (4); [`FieldLength`](Refusal::FieldLength) (5) where the span has no
    /// bits, or more than K.
    ///
    /// ```
    /// use stableply::{BitRow, IntegerKind, Order, Significance, Span};
    ///
    /// let row = [0xB4u8, 0x6C, 0xF1];
    /// let span = Span::new(Order::Lsb0, 0, 3, 3);
    /// assert_eq!(row.load_number(span, Significance::Le, IntegerKind::unsigned(8))?, 6);
    /// assert_eq!(row.load_number(span, Significance::Le, IntegerKind::signed(8))?, -2);
    /// # Ok::<(), stableply::Refusal>(())
    /// ```
    fn load_number(&self, span: Span, significance: Significance, kind: IntegerKind) -> Result<i128, Refusal> {
        border::load(self.words(), span, significance, kind)
    }

    /// Stores any whole number that is an integer of the kind named, as [`store`](BitRow::store) does.
    ///
    /// # Errors
    ///
    /// 1 to 3 for the span; [`NoSuchK`](Refusal::NoSuchK) (4); [`FieldLength`](Refusal::FieldLength) (5) where the span has no
    /// bits, or more than K; [`NotAnInteger`](Refusal::NotAnInteger) (8) where the number is not a K-bit integer of its sign.
    ///
    /// ```
    /// use stableply::{BitRow, IntegerKind, Order, Refusal, Significance, Span};
    ///
    /// let mut row = [0u8; 3];
    /// let span = Span::new(Order::Lsb0, 0, 4, 8);
    /// row.store_number(span, Significance::Le, IntegerKind::signed(8), -53)?;
    /// assert_eq!(row, [0xB0, 0x0C, 0x00]);
    /// let refused = row.store_number(span, Significance::Le, IntegerKind::unsigned(8), 256);
    /// assert_eq!(refused, Err(Refusal::NotAnInteger));
    /// # Ok::<(), Refusal>(())
    /// ```
    fn store_number(&mut self, span: Span, significance: Significance, kind: IntegerKind, number: i128) -> Result<(), Refusal> {
        border::store(self.words_mut(), span, significance, kind, number)
    }

    /// Stores as [`store_number`](BitRow::store_number) does, but only a number that fits, as
    /// [`store_strict`](BitRow::store_strict) says.
    ///
    /// # Errors
    ///
    /// Those of [`store_number`](BitRow::store_number), then [`DoesNotFit`](Refusal::DoesNotFit) (9).
    ///
    /// ```
    /// use stableply::{BitRow, IntegerKind, Order, Refusal, Significance, Span};
    ///
    /// let mut row = [0u8; 3];
    /// let span = Span::new(Order::Lsb0, 0, 4, 8);
    /// let refused = row.store_number_strict(span, Significance::Le, IntegerKind::unsigned(16), 256);
    /// assert_eq!(refused, Err(Refusal::DoesNotFit));
    /// assert_eq!(row, [0; 3]);
    /// # Ok::<(), Refusal>(())
    /// ```
    fn store_number_strict(
        &mut self,
        span: Span,
        significance: Significance,
        kind: IntegerKind,
        number: i128,
    ) -> Result<(), Refusal> {
        border::store_strict(self.words_mut(), span, significance, kind, number)
    }

    /// Copies from another row: bit i of the span becomes bit i of the source's span.
    ///
    /// # Errors
    ///
    /// 1 to 3 for the span, then for the source's; [`OrdersDiffer`](Refusal::OrdersDiffer) (6);
    /// [`LengthsDiffer`](Refusal::LengthsDiffer) (7).
    ///
    /// ```
    /// use stableply::{BitRow, Order, Span};
    ///
    /// let mut row = [0u8; 2];
    /// let source = [0b1011_0100u8];
    /// row.copy_from(Span::new(Order::Lsb0, 0, 6, 4), &source, Span::new(Order::Lsb0, 0, 2, 4))?;
    /// assert_eq!(row, [0b0100_0000, 0b11]);
    ///
    /// let source = vec![0xB4, 0x6C];
    /// row.copy_from(row.whole(Order::Lsb0), &source, source.whole(Order::Lsb0))?;
    /// assert_eq!(row, [0xB4, 0x6C]);
    /// # Ok::<(), stableply::Refusal>(())
    /// ```
    fn copy_from(&mut self, span: Span, source: &[Self::Word], source_span: Span) -> Result<(), Refusal> {
        border::copy_from(self.words_mut(), span, source, source_span)
    }

    /// Copies inside the span: its bit `destination` + i becomes its old bit `start` + i, for all i below `count` at once. The
    /// two ranges may overlap. (In C it is `copy_within`. Slices have a method of that name, which moves whole words.)
    ///
    /// # Errors
    ///
    /// 1 to 3 for the span; [`NotBelow`](Refusal::NotBelow) (10) where `start` + `count` or `destination` + `count` is above
    /// its length.
    ///
    /// ```
    /// use stableply::{BitRow, Order};
    ///
    /// let mut row = [0xB4u8];
    /// row.copy_inside(row.whole(Order::Lsb0), 0, 5, 2)?;
    /// assert_eq!(row, [0xD0]);
    /// # Ok::<(), stableply::Refusal>(())
    /// ```
    #[doc(alias = "copy_within")]
    fn copy_inside(&mut self, span: Span, start: usize, count: usize, destination: usize) -> Result<(), Refusal> {
        border::copy_within(self.words_mut(), span, start, count, destination)
    }

    /// Combines the span with the right row's, bit by bit, into this row. Right bits past the end of theirs count as 0, and
    /// those past the end of this span are ignored.
    ///
    /// # Errors
    ///
    /// 1 to 3 for the span, then for the right one; [`OrdersDiffer`](Refusal::OrdersDiffer) (6).
    ///
    /// ```
    /// use stableply::{BitRow, Operation, Order, Span};
    ///
    /// let mut row = [0xB4u8];
    /// let right = [0x0Fu8];
    /// let four = Span::new(Order::Lsb0, 0, 0, 4);
    /// row.boolean(row.whole(Order::Lsb0), &right, four, Operation::Xor)?;
    /// assert_eq!(row, [0xBB]);
    /// row.boolean(row.whole(Order::Lsb0), &right, four, Operation::And)?; // `and` clears what lies past the right bits
    /// assert_eq!(row, [0x0B]);
    /// # Ok::<(), stableply::Refusal>(())
    /// ```
    fn boolean(&mut self, span: Span, right: &[Self::Word], right_span: Span, operation: Operation) -> Result<(), Refusal> {
        border::boolean(self.words_mut(), span, right, right_span, operation)
    }

    /// Swaps the bits of the span with those of the other row's. (In C it is `swap`. Slices have a method of that name, which
    /// swaps two words.)
    ///
    /// # Errors
    ///
    /// 1 to 3 for the span, then for the other one; [`OrdersDiffer`](Refusal::OrdersDiffer) (6);
    /// [`LengthsDiffer`](Refusal::LengthsDiffer) (7).
    ///
    /// ```
    /// use stableply::{BitRow, Order, Span};
    ///
    /// let (mut row, mut other) = ([0xB4u8], [0x00u8, 0x00]);
    /// row.swap_with(Span::new(Order::Msb0, 0, 0, 4), &mut other, Span::new(Order::Msb0, 0, 6, 4))?;
    /// assert_eq!((row, other), ([0x04], [0x02, 0xC0]));
    ///
    /// // `&mut other` borrows the other row for the whole call, so its span is named before.
    /// let mut third = vec![0x11, 0x22];
    /// let all = third.whole(Order::Msb0);
    /// other.swap_with(other.whole(Order::Msb0), &mut third, all)?;
    /// assert_eq!((other, third), ([0x11, 0x22], vec![0x02, 0xC0]));
    /// # Ok::<(), stableply::Refusal>(())
    /// ```
    #[doc(alias = "swap")]
    fn swap_with(&mut self, span: Span, other: &mut [Self::Word], other_span: Span) -> Result<(), Refusal> {
        border::swap(self.words_mut(), span, other, other_span)
    }

    /// Whether the two spans have the same length and the same bits. The other row may be this one.
    ///
    /// # Errors
    ///
    /// 1 to 3 for the span, then for the other one; [`OrdersDiffer`](Refusal::OrdersDiffer) (6).
    ///
    /// ```
    /// use stableply::{BitRow, Order, Span};
    ///
    /// let row = [0b1010_0101u8];
    /// let low = Span::new(Order::Lsb0, 0, 0, 3);
    /// let high = Span::new(Order::Lsb0, 0, 5, 3);
    /// assert!(row.equal(low, &row, high)?);
    /// assert!(!row.equal(low, &row, row.whole(Order::Lsb0))?);
    /// # Ok::<(), stableply::Refusal>(())
    /// ```
    fn equal(&self, span: Span, other: &[Self::Word], other_span: Span) -> Result<bool, Refusal> {
        border::equal(self.words(), span, other, other_span)
    }

    /// The smallest index of a 1, counted from the span's start, or `None` exactly where there is none.
    ///
    /// # Errors
    ///
    /// 1 to 3 for the span.
    ///
    /// ```
    /// use stableply::{BitRow, Order};
    ///
    /// let row = [0xB4u8];
    /// assert_eq!(row.first_one(row.whole(Order::Lsb0))?, Some(2));
    /// assert_eq!(row.first_one(row.whole(Order::Msb0))?, Some(0));
    /// # Ok::<(), stableply::Refusal>(())
    /// ```
    fn first_one(&self, span: Span) -> Result<Option<usize>, Refusal> {
        border::first_one(self.words(), span)
    }

    /// The largest index of a 1, counted from the span's start, or `None` exactly where there is none.
    ///
    /// # Errors
    ///
    /// 1 to 3 for the span.
    ///
    /// ```
    /// use stableply::{BitRow, Order};
    ///
    /// let row = [0xB4u8];
    /// assert_eq!(row.last_one(row.whole(Order::Lsb0))?, Some(7));
    /// assert_eq!(row.last_one(row.whole(Order::Msb0))?, Some(5));
    /// # Ok::<(), stableply::Refusal>(())
    /// ```
    fn last_one(&self, span: Span) -> Result<Option<usize>, Refusal> {
        border::last_one(self.words(), span)
    }

    /// The smallest index of a 0, counted from the span's start, or `None` exactly where there is none.
    ///
    /// # Errors
    ///
    /// 1 to 3 for the span.
    ///
    /// ```
    /// use stableply::{BitRow, Order};
    ///
    /// let row = [0xB4u8];
    /// assert_eq!(row.first_zero(row.whole(Order::Lsb0))?, Some(0));
    /// assert_eq!(row.first_zero(row.whole(Order::Msb0))?, Some(1));
    /// # Ok::<(), stableply::Refusal>(())
    /// ```
    fn first_zero(&self, span: Span) -> Result<Option<usize>, Refusal> {
        border::first_zero(self.words(), span)
    }

    /// The largest index of a 0, counted from the span's start, or `None` exactly where there is none.
    ///
    /// # Errors
    ///
    /// 1 to 3 for the span.
    ///
    /// ```
    /// use stableply::{BitRow, Order};
    ///
    /// let row = [0xB4u8];
    /// assert_eq!(row.last_zero(row.whole(Order::Lsb0))?, Some(6));
    /// assert_eq!(row.last_zero(row.whole(Order::Msb0))?, Some(7));
    /// # Ok::<(), stableply::Refusal>(())
    /// ```
    fn last_zero(&self, span: Span) -> Result<Option<usize>, Refusal> {
        border::last_zero(self.words(), span)
    }
}
