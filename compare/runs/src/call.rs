//! The eighteen calls and the numbers that each takes.

use model::{refusals::*, AND, OR, XOR};

/// Defines the calls with their names.
macro_rules! calls {
    ($($call:ident $name:literal),+ $(,)?) => {
        /// An exported call, named without its width.
        #[derive(Clone, Copy, Debug, Eq, Ord, PartialEq, PartialOrd)]
        #[repr(u8)]
        pub enum Call {
            $($call),+
        }

        impl Call {
            /// All of them, in the order of their numbers.
            pub const ALL: [Call; [$($name),+].len()] = [$(Call::$call),+];

            /// Its name in the header, after the width.
            pub fn name(self) -> &'static str {
                match self {
                    $(Call::$call => $name),+
                }
            }
        }
    };
}

calls! {
    Position "position",
    Selector "selector",
    Mask "mask",
    Split "split",
    ReadBit "read_bit",
    WriteBit "write_bit",
    Load "load",
    Store "store",
    StoreStrict "store_strict",
    CopyFrom "copy_from",
    CopyWithin "copy_within",
    Boolean "boolean",
    Swap "swap",
    Equal "equal",
    FirstOne "first_one",
    LastOne "last_one",
    FirstZero "first_zero",
    LastZero "last_zero",
}

/// A number that some call takes.
#[derive(Clone, Copy, Debug, Eq, PartialEq)]
#[repr(u8)]
pub enum Argument {
    Width,
    Lent,
    Order,
    Word,
    Head,
    Length,
    OtherLent,
    OtherOrder,
    OtherWord,
    OtherHead,
    OtherLength,
    Index,
    From,
    Upto,
    Place,
    Start,
    Count,
    Destination,
    K,
    Significance,
    Sign,
    Below,
    Value,
    Bit,
    Operation,
}

use Argument::*;

impl Argument {
    /// How many there are.
    pub const COUNT: usize = Operation as usize + 1;

    /// Whether the number is a code: a byte of which only some values are known.
    pub fn is_code(self) -> bool {
        matches!(self, Width | Order | OtherOrder | Significance | Sign | Below | Bit | Operation)
    }
}

impl Call {
    /// The numbers it takes, in the order of its declaration.
    pub fn arguments(self) -> &'static [Argument] {
        match self {
            Call::Position | Call::Selector => &[Width, Order, Index],
            Call::Mask => &[Width, Order, From, Upto],
            Call::Split => &[Width, Lent, Order, Word, Head, Length, Place],
            Call::ReadBit => &[Lent, Order, Word, Head, Length, Index],
            Call::WriteBit => &[Lent, Order, Word, Head, Length, Index, Bit],
            Call::Load => &[Lent, Order, Word, Head, Length, K, Significance, Sign],
            Call::Store | Call::StoreStrict => &[Lent, Order, Word, Head, Length, K, Significance, Sign, Below, Value],
            Call::CopyFrom | Call::Swap | Call::Equal => {
                &[Lent, Order, Word, Head, Length, OtherLent, OtherOrder, OtherWord, OtherHead, OtherLength]
            }
            Call::CopyWithin => &[Lent, Order, Word, Head, Length, Start, Count, Destination],
            Call::Boolean => {
                &[Lent, Order, Word, Head, Length, OtherLent, OtherOrder, OtherWord, OtherHead, OtherLength, Operation]
            }
            Call::FirstOne | Call::LastOne | Call::FirstZero | Call::LastZero => &[Lent, Order, Word, Head, Length],
        }
    }

    /// Whether it is lent words.
    pub fn lends(self) -> bool {
        self >= Call::ReadBit
    }

    /// Whether it is told a span.
    pub fn has_span(self) -> bool {
        self >= Call::Split
    }

    /// Whether it takes two spans.
    pub fn has_two_spans(self) -> bool {
        matches!(self, Call::CopyFrom | Call::Boolean | Call::Swap | Call::Equal)
    }

    /// Whether it is a field call.
    pub fn is_field(self) -> bool {
        matches!(self, Call::Load | Call::Store | Call::StoreStrict)
    }

    /// Whether it is one of the four searches.
    pub fn is_search(self) -> bool {
        self >= Call::FirstOne
    }

    /// Whether it writes the words lent first.
    pub fn writes(self) -> bool {
        matches!(
            self,
            Call::WriteBit | Call::Store | Call::StoreStrict | Call::CopyFrom | Call::CopyWithin | Call::Boolean | Call::Swap
        )
    }

    /// What it can be refused with, [`NO_CODE`] among it.
    pub fn refusals(self) -> &'static [u8] {
        macro_rules! of_a_span_and {
            ($($refusal:ident),*) => { &[TOO_MANY_WORDS, INDEX_TOO_LARGE, OUT_OF_BOUNDS, $($refusal,)* NO_CODE] };
        }
        match self {
            Call::Position | Call::Selector => &[INDEX_TOO_LARGE, NO_CODE],
            Call::Mask => &[INDEX_TOO_LARGE, NOT_BELOW, NO_CODE],
            Call::Split | Call::ReadBit | Call::WriteBit | Call::CopyWithin => of_a_span_and!(NOT_BELOW),
            Call::Load => of_a_span_and!(NO_SUCH_K, FIELD_LENGTH),
            Call::Store => of_a_span_and!(NO_SUCH_K, FIELD_LENGTH, NOT_AN_INTEGER),
            Call::StoreStrict => of_a_span_and!(NO_SUCH_K, FIELD_LENGTH, NOT_AN_INTEGER, DOES_NOT_FIT),
            Call::CopyFrom | Call::Swap => of_a_span_and!(ORDERS_DIFFER, LENGTHS_DIFFER),
            Call::Boolean | Call::Equal => of_a_span_and!(ORDERS_DIFFER),
            Call::FirstOne | Call::LastOne | Call::FirstZero | Call::LastZero => of_a_span_and!(),
        }
    }
}

/// Significance and sign of each kind of field, as codes.
pub const FIELD_KINDS: [(u64, u64); 4] = [(0, 0), (1, 0), (0, 1), (1, 1)];

/// The widths that calls without lent words know.
pub const WIDTHS: [u64; 2] = [8, 64];

/// The boolean operations there are.
pub const OPERATIONS: [u64; 3] = [AND as u64, OR as u64, XOR as u64];

/// What is returned where an argument is no code of the interface. The rules do not know it.
pub const NO_CODE: u8 = 255;
