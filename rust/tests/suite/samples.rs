//! The sample rows of the rules' document, one test for each row of its table and one for the samples named below it.

use stableply::Order::{Lsb0, Msb0};
use stableply::Significance::{Be, Le};
use stableply::{BitRow, IntegerKind, Mask, Operation, Refusal, Span};

/// The document's row.
const ROW: [u8; 3] = [0xB4, 0x6C, 0xF1];

#[test]
fn head_4_8_bits_le() {
    assert_eq!(ROW.load::<u8>(Span::new(Lsb0, 0, 4, 8), Le), Ok(0xCB));
    assert_eq!(ROW.load::<u8>(Span::new(Msb0, 0, 4, 8), Le), Ok(0x64));
}

#[test]
fn head_4_8_bits_be() {
    assert_eq!(ROW.load::<u8>(Span::new(Lsb0, 0, 4, 8), Be), Ok(0xBC));
    assert_eq!(ROW.load::<u8>(Span::new(Msb0, 0, 4, 8), Be), Ok(0x46));
}

#[test]
fn head_4_8_bits_signed_le() {
    assert_eq!(ROW.load::<i8>(Span::new(Lsb0, 0, 4, 8), Le), Ok(-53));
    assert_eq!(ROW.load::<i8>(Span::new(Msb0, 0, 4, 8), Le), Ok(100));
}

#[test]
fn head_3_3_bits_le() {
    assert_eq!(ROW.load::<u8>(Span::new(Lsb0, 0, 3, 3), Le), Ok(6));
    assert_eq!(ROW.load::<u8>(Span::new(Msb0, 0, 3, 3), Le), Ok(5));
}

#[test]
fn head_3_3_bits_signed() {
    assert_eq!(ROW.load::<i8>(Span::new(Lsb0, 0, 3, 3), Le), Ok(-2));
    assert_eq!(ROW.load::<i8>(Span::new(Msb0, 0, 3, 3), Le), Ok(-3));
}

#[test]
fn head_4_16_bits_le() {
    assert_eq!(ROW.load::<u16>(Span::new(Lsb0, 0, 4, 16), Le), Ok(0x16CB));
    assert_eq!(ROW.load::<u16>(Span::new(Msb0, 0, 4, 16), Le), Ok(0xF6C4));
}

#[test]
fn head_4_16_bits_be() {
    assert_eq!(ROW.load::<u16>(Span::new(Lsb0, 0, 4, 16), Be), Ok(0xB6C1));
    assert_eq!(ROW.load::<u16>(Span::new(Msb0, 0, 4, 16), Be), Ok(0x46CF));
}

#[test]
fn store_le_at_head_4() {
    for (order, after) in [(Lsb0, [0xB0, 0x0C, 0x00]), (Msb0, [0x0B, 0xC0, 0x00])] {
        let mut row = [0u8; 3];
        assert_eq!(row.store(Span::new(order, 0, 4, 8), Le, 0xCBu8), Ok(()));
        assert_eq!(row, after);
    }
}

#[test]
fn searches_in_b4() {
    let row = [0xB4u8];
    for (order, found) in [(Lsb0, [2, 7, 0, 6]), (Msb0, [0, 5, 1, 7])] {
        let all = row.whole(order);
        assert_eq!(row.first_one(all), Ok(Some(found[0])));
        assert_eq!(row.last_one(all), Ok(Some(found[1])));
        assert_eq!(row.first_zero(all), Ok(Some(found[2])));
        assert_eq!(row.last_zero(all), Ok(Some(found[3])));
    }
}

#[test]
fn mask_2_up_to_5() {
    assert_eq!(Lsb0.mask::<u8>(2, 5), Ok(Mask(0x1C)));
    assert_eq!(Msb0.mask::<u8>(2, 5), Ok(Mask(0x38)));
}

#[test]
fn samples_below_the_table() {
    let mut row = [0u8; 3];
    assert_eq!(row.store(Span::new(Lsb0, 0, 4, 8), Be, 0xCBu8), Ok(()));
    assert_eq!(row, [0xC0, 0x0B, 0x00]);

    let mut row = [0xB4u8];
    assert_eq!(row.copy_inside(Span::new(Lsb0, 0, 0, 8), 0, 5, 2), Ok(()));
    assert_eq!(row, [0xD0]);

    for (operation, after) in [(Operation::And, 0x04), (Operation::Or, 0xBF), (Operation::Xor, 0xBB)] {
        let mut row = [0xB4u8];
        assert_eq!(row.boolean(Span::new(Lsb0, 0, 0, 8), &[0x0F], Span::new(Lsb0, 0, 0, 4), operation), Ok(()));
        assert_eq!(row, [after]);
    }
}

#[test]
fn samples_of_strict_stores() {
    let mut row = [0u8; 3];
    let span = Span::new(Lsb0, 0, 4, 8);
    assert_eq!(row.store_number_strict(span, Le, IntegerKind::unsigned(8), 255), Ok(()));
    assert_eq!(row, [0xF0, 0x0F, 0x00]);
    assert_eq!(row.store_number_strict(span, Le, IntegerKind::unsigned(16), 256), Err(Refusal::DoesNotFit));
    assert_eq!(row.store_number_strict(span, Le, IntegerKind::unsigned(8), 256), Err(Refusal::NotAnInteger));
    assert_eq!(row, [0xF0, 0x0F, 0x00]);
}
