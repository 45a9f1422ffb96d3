//! Single bits and fields: every span of a row of 64-bit words that starts and ends near a word's end, every span of bytes.

use std::fmt::Debug;

use stableply::Significance::Le;
use stableply::{BitRow, Integer, IntegerKind, Order, Refusal, Span};

use crate::rules::{self, bit, put};
use crate::tried::{rows, spans, Sample, SIGNIFICANCES};

fn bits<W: Sample>() {
    for row in rows::<W>(2) {
        for span in spans::<W>(row.len()) {
            for index in 0..span.length() {
                assert_eq!(row.read_bit(span, index), Ok(bit(&row, span, index)));
                for value in [false, true] {
                    let (mut written, mut expected) = (row.clone(), row.clone());
                    assert_eq!(written.write_bit(span, index, value), Ok(()));
                    put(&mut expected, span, index, value);
                    assert_eq!(written, expected);
                }
            }
        }
    }
}

#[test]
fn every_bit() {
    at_every_width!(bits());
}

/// An integer type that whole numbers can be turned into.
trait Whole: Integer + TryFrom<i128, Error: Debug> + PartialEq + Debug {}

impl<I: Integer + TryFrom<i128, Error: Debug> + PartialEq + Debug> Whole for I {}

/// Two numbers of the kind, with ones and zeros in all their parts, each the other's complement. Of signed ones one is
/// negative.
fn patterned(kind: IntegerKind) -> [i128; 2] {
    let signed = kind == IntegerKind::signed(kind.k());
    [0x9E37_79B9_7F4A_7C15, !0x9E37_79B9_7F4A_7C15].map(|bits: i128| {
        let low = bits & ((1 << kind.k()) - 1);
        let negative = signed && low >= 1 << (kind.k() - 1);
        low - if negative { 1 << kind.k() } else { 0 }
    })
}

/// Loads and stores of one integer type, at every span of 1 to K bits.
fn fields<W: Sample, I: Whole>() {
    let kind = I::KIND;
    let whole = |number: i128| I::try_from(number).unwrap();
    let lent = if W::BITS == 8 { 9 } else { 2 };
    for row in rows::<W>(lent) {
        let fields = spans::<W>(lent).into_iter().filter(|span| (1..=kind.k()).contains(&span.length()));
        for span in fields.filter(|span| span.word() < 2) {
            for significance in SIGNIFICANCES {
                let field = rules::field(span, significance, kind);
                let held = model::load(&row, field).unwrap();
                assert_eq!(row.load_number(span, significance, kind), Ok(held));
                assert_eq!(row.load::<I>(span, significance), Ok(whole(held)));

                for value in patterned(kind) {
                    let (mut stored, mut expected) = (row.clone(), row.clone());
                    assert_eq!(model::store(&mut expected, field, value), Ok(()));
                    assert_eq!(stored.store(span, significance, whole(value)), Ok(()));
                    assert_eq!(stored, expected);

                    let (mut strictly, mut expected) = (row.clone(), row.clone());
                    let owed = rules::answer(model::store_strict(&mut expected, field, value));
                    assert_eq!(strictly.store_strict(span, significance, whole(value)), owed);
                    assert_eq!(strictly, expected);
                }
            }
        }
    }
}

fn unsigned_fields<W: Sample>() {
    fields::<W, u8>();
    fields::<W, u16>();
    fields::<W, u32>();
    fields::<W, u64>();
}

#[test]
fn every_field_of_unsigned_integers() {
    at_every_width!(unsigned_fields());
}

fn signed_fields<W: Sample>() {
    fields::<W, i8>();
    fields::<W, i16>();
    fields::<W, i32>();
    fields::<W, i64>();
}

#[test]
fn every_field_of_signed_integers() {
    at_every_width!(signed_fields());
}

#[test]
fn pointer_sized_integers_have_64_bits() {
    let mut row = [0u64; 2];
    let span = Span::new(Order::Lsb0, 0, 5, 64);
    row.store(span, Le, usize::MAX - 1).unwrap();
    assert_eq!(row.load::<usize>(span, Le), Ok(usize::MAX - 1));
    assert_eq!(row.load::<isize>(span, Le), Ok(-2));
    row.store_strict(span, Le, isize::MIN + 1).unwrap();
    assert_eq!(row.load::<isize>(span, Le), Ok(isize::MIN + 1));
    assert_eq!(row.load::<u64>(span, Le), Ok((1 << 63) + 1));
}

/// Every whole number is a K-bit integer of its sign, or refused 8, wherever it lies.
#[test]
fn integers_of_each_kind_and_no_others() {
    for k in [8, 16, 32, 64] {
        for (kind, least, most) in
            [(IntegerKind::unsigned(k), 0, (1 << k) - 1), (IntegerKind::signed(k), -(1 << (k - 1)), (1i128 << (k - 1)) - 1)]
        {
            let span = Span::new(Order::Msb0, 0, 3, k);
            for number in [least, most, 0, most / 3] {
                let mut row = [0u8; 9];
                assert_eq!(row.store_number(span, Le, kind, number), Ok(()));
                assert_eq!(row.load_number(span, Le, kind), Ok(number));
            }
            let outside = [least - 1, most + 1, -(1 << 64), -(1 << 64) - 1, 1 << 64, 1 << 90, i128::MIN, i128::MAX];
            for number in outside {
                let mut row = [0x5Au8; 9];
                assert_eq!(row.store_number(span, Le, kind, number), Err(Refusal::NotAnInteger));
                assert_eq!(row.store_number_strict(span, Le, kind, number), Err(Refusal::NotAnInteger));
                assert_eq!(row, [0x5A; 9]);
            }
        }
    }
}

/// Strict stores at each side of what fits, in a field shorter than its integer.
#[test]
fn strict_stores_at_their_limits() {
    let span = Span::new(Order::Lsb0, 0, 6, 5);
    let unsigned = |number: i128| [0u8; 2].store_number_strict(span, Le, IntegerKind::unsigned(8), number);
    let signed = |number: i128| [0u8; 2].store_number_strict(span, Le, IntegerKind::signed(8), number);
    assert_eq!([unsigned(0), unsigned(31)], [Ok(()); 2]);
    assert_eq!([unsigned(32), unsigned(255)], [Err(Refusal::DoesNotFit); 2]);
    assert_eq!([unsigned(256), unsigned(-1)], [Err(Refusal::NotAnInteger); 2]);
    assert_eq!([signed(-15), signed(-1), signed(0), signed(15)], [Ok(()); 4]);
    assert_eq!([signed(-16), signed(16), signed(-128), signed(127)], [Err(Refusal::DoesNotFit); 4]);
    assert_eq!([signed(-129), signed(128)], [Err(Refusal::NotAnInteger); 2]);
}
