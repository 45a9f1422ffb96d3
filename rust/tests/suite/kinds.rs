//! What has to compile on arrays, vectors and slices alike: every call that writes, with the whole span of its own row as an
//! argument.

use stableply::Order::{Lsb0, Msb0};
use stableply::Significance::{Be, Le};
use stableply::{BitRow, IntegerKind, Operation, Refusal, Span};

/// Each writing call on a row of four bytes, told its span by the row itself. The row is not named as a type, so that the same
/// lines are tried on each kind.
macro_rules! write_everything {
    ($row:expr, $other:expr) => {{
        $row.write_bit($row.whole(Lsb0), 3, true)?;
        assert_eq!($row[..], [0x08, 0x00, 0x00, 0x00]);
        $row.store($row.whole(Lsb0), Le, 0x0102_0304u32)?;
        assert_eq!($row[..], [0x04, 0x03, 0x02, 0x01]);
        $row.store_strict($row.whole(Msb0), Be, 0x0102_0304u32)?;
        assert_eq!($row[..], [0x01, 0x02, 0x03, 0x04]);
        $row.store_number($row.whole(Lsb0), Le, IntegerKind::unsigned(32), 0xB4)?;
        assert_eq!($row[..], [0xB4, 0x00, 0x00, 0x00]);
        $row.store_number_strict($row.whole(Lsb0), Le, IntegerKind::signed(64), -2)?;
        assert_eq!($row[..], [0xFE, 0xFF, 0xFF, 0xFF]);
        $row.copy_from($row.whole(Lsb0), &$other, $other.whole(Lsb0))?;
        assert_eq!($row[..], $other[..]);
        $row.copy_inside($row.whole(Lsb0), 0, 8, 8)?;
        assert_eq!($row[1], $other[0]);
        $row.boolean($row.whole(Lsb0), &$other, $other.whole(Lsb0), Operation::Xor)?;
        assert_eq!($row[0], 0);
        let all = $other.whole(Lsb0);
        $row.swap_with($row.whole(Lsb0), &mut $other, all)?;
        assert_eq!($other[0], 0);
        let found = $row.first_one($row.whole(Lsb0))?;
        assert_eq!(found, $row.first_one(all)?);
        assert!($row.equal($row.whole(Lsb0), &$row[..], $row.whole(Lsb0))?);
    }};
}

/// What a second row holds at first.
const OTHER: [u8; 4] = [0xB4, 0x6C, 0xF1, 0x5A];

#[test]
fn arrays() -> Result<(), Refusal> {
    let (mut row, mut other) = ([0u8; 4], OTHER);
    write_everything!(row, other);
    let (mut row, mut other) = ([0u8; 4], OTHER.to_vec());
    let by_reference = &mut row;
    write_everything!(by_reference, other);
    Ok(())
}

#[test]
fn vectors() -> Result<(), Refusal> {
    let (mut row, mut other) = (vec![0u8; 4], OTHER.to_vec());
    write_everything!(row, other);
    let (mut row, mut other) = (vec![0u8; 4], OTHER);
    let by_reference = &mut row;
    write_everything!(by_reference, other);
    Ok(())
}

#[test]
fn slices() -> Result<(), Refusal> {
    let (mut words, mut others) = ([0u8; 6], OTHER);
    let (row, mut other) = (&mut words[1..5], &mut others[..]);
    write_everything!(row, other);
    assert_eq!([words[0], words[5]], [0; 2]);

    let (mut row, mut other) = (vec![0u8; 4].into_boxed_slice(), OTHER);
    write_everything!(row, other);
    Ok(())
}

/// A row in a struct, and rows whose kind the caller chooses.
#[test]
fn rows_inside_other_types() -> Result<(), Refusal> {
    struct Trace {
        arrived: [u64; 2],
        kept: Vec<u8>,
    }
    let mut trace = Trace { arrived: [0; 2], kept: vec![0; 2] };
    trace.arrived.write_bit(trace.arrived.whole(Lsb0), 64, true)?;
    trace.kept.write_bit(trace.kept.whole(Msb0), 0, true)?;
    assert_eq!((trace.arrived, &trace.kept[..]), ([0, 1], &[0x80, 0x00][..]));

    fn set_last<R: BitRow + ?Sized>(row: &mut R) -> Result<(), Refusal> {
        row.write_bit(row.whole(Lsb0), row.whole(Lsb0).length() - 1, true)
    }
    set_last(&mut trace.arrived)?;
    set_last(&mut trace.kept)?;
    set_last(&mut trace.kept[..1])?;
    assert_eq!((trace.arrived, &trace.kept[..]), ([0, 1 | (1 << 63)], &[0x80, 0x80][..]));
    Ok(())
}

/// What slices do by themselves under like names is still theirs.
#[test]
fn methods_of_slices_stay() {
    let mut row = [1u8, 2, 3];
    row.swap(0, 1);
    row.copy_within(0..2, 1);
    assert_eq!(row, [2, 2, 1]);
    let mut row = vec![1u64, 2, 3];
    row.swap(0, 1);
    row.copy_within(0..2, 1);
    assert_eq!(row, [2, 2, 1]);
    assert_eq!(row.whole(Lsb0), Span::at::<u64>(Lsb0, 0, 192));
}
