/// What a boolean call does with each left bit and the right bit at the same index.
///
/// ```
/// use stableply::{BitRow, Operation, Order, Span};
///
/// let (left, right, four) = ([0b0011u8], [0b0101u8], Span::new(Order::Lsb0, 0, 0, 4));
/// for (operation, result) in [(Operation::And, 0b0001), (Operation::Or, 0b0111), (Operation::Xor, 0b0110)] {
///     let mut row = left;
///     row.boolean(four, &right, four, operation)?;
///     assert_eq!(row, [result]);
/// }
/// # Ok::<(), stableply::Refusal>(())
/// ```
#[derive(Clone, Copy, Debug, PartialEq, Eq, Hash)]
#[non_exhaustive]
pub enum Operation {
    /// 1 where both are.
    And,
    /// 1 where at least one is.
    Or,
    /// 1 where exactly one is.
    Xor,
}
