//! Each limit at, below and above it, and sums that pass 2^64.

use stableply::Significance::Le;
use stableply::{BitRow, IntegerKind, Refusal, Span, Word, MOST_WORDS};

use crate::every_call::assert_all;
use crate::tried::ORDERS;

fn words_lent<W: Word + Default>() {
    for order in ORDERS {
        let last_byte = Span::new(order, MOST_WORDS - 1, W::BITS - 8, 8);
        assert_all::<W>(MOST_WORDS, last_byte, Ok(()));
        assert_all::<W>(MOST_WORDS - 1, last_byte, Err(Refusal::OutOfBounds));
        assert_all::<W>(MOST_WORDS + 1, last_byte, Err(Refusal::TooManyWords));
        assert_all::<W>(2 * MOST_WORDS, Span::new(order, 0, 0, 1), Err(Refusal::TooManyWords));
    }
}

#[test]
fn at_most_65536_words() {
    at_every_width!(words_lent());
}

fn heads<W: Word + Default>() {
    for order in ORDERS {
        assert_all::<W>(3, Span::new(order, 1, 0, 1), Ok(()));
        assert_all::<W>(3, Span::new(order, 1, W::BITS - 1, 1), Ok(()));
        for head in [W::BITS, W::BITS + 1, 2 * W::BITS, usize::MAX] {
            assert_all::<W>(3, Span::new(order, 1, head, 1), Err(Refusal::IndexTooLarge));
        }
    }
}

#[test]
fn heads_below_the_width() {
    at_every_width!(heads());
}

fn ends<W: Word + Default>() {
    for order in ORDERS {
        assert_all::<W>(2, Span::new(order, 1, W::BITS - 8, 8), Ok(()));
        assert_all::<W>(2, Span::new(order, 1, W::BITS - 7, 8), Err(Refusal::OutOfBounds));
        assert_all::<W>(2, Span::new(order, 2, 0, 1), Err(Refusal::OutOfBounds));
        assert_all::<W>(0, Span::new(order, 0, 0, 1), Err(Refusal::OutOfBounds));
    }
}

#[test]
fn spans_end_inside_the_row() {
    at_every_width!(ends());
}

/// W * word, or word, head and length together, pass 2^64: a sum that wrapped would be in bounds.
fn sums<W: Word + Default>() {
    let wraps = usize::MAX / W::BITS + 1;
    for order in ORDERS {
        for span in [
            Span::new(order, wraps, 0, 1),
            Span::new(order, wraps + 1, 3, 8),
            Span::new(order, usize::MAX, 0, 1),
            Span::new(order, usize::MAX, W::BITS - 1, usize::MAX),
            Span::new(order, 0, 0, usize::MAX),
            Span::new(order, 0, 1, usize::MAX),
            Span::new(order, 1, 7, usize::MAX - W::BITS - 6),
            Span::new(order, 1, 7, usize::MAX - W::BITS + 1),
        ] {
            assert_all::<W>(3, span, Err(Refusal::OutOfBounds));
        }
    }
}

#[test]
fn sums_that_pass_2_to_the_64() {
    at_every_width!(sums());
}

fn empty_spans<W: Word + Default>() {
    let row = [W::default(); 2];
    for order in ORDERS {
        for (words, span) in
            [(2, Span::new(order, 2, 0, 0)), (2, Span::new(order, 1, W::BITS - 1, 0)), (0, Span::new(order, 0, 0, 0))]
        {
            assert_eq!(row[..words].first_one(span), Ok(None));
            assert_eq!(row[..words].last_zero(span), Ok(None));
            assert_eq!(row[..words].equal(span, &row, Span::new(order, 1, 5, 0)), Ok(true));
            assert_eq!(row[..words].read_bit(span, 0), Err(Refusal::NotBelow));
        }
        for span in [Span::new(order, 2, 1, 0), Span::new(order, 3, 0, 0), Span::new(order, usize::MAX, 0, 0)] {
            assert_eq!(row.first_one(span), Err(Refusal::OutOfBounds));
        }
    }
}

#[test]
fn empty_spans_up_to_the_very_end() {
    at_every_width!(empty_spans());
}

fn field_lengths<W: Word + Default>() {
    let mut row = [W::default(); 17];
    for order in ORDERS {
        for k in [8, 16, 32, 64] {
            for kind in [IntegerKind::unsigned(k), IntegerKind::signed(k)] {
                for (length, answer) in [
                    (0, Err(Refusal::FieldLength)),
                    (1, Ok(())),
                    (k - 1, Ok(())),
                    (k, Ok(())),
                    (k + 1, Err(Refusal::FieldLength)),
                    (k + 64, Err(Refusal::FieldLength)),
                ] {
                    let span = Span::new(order, 0, 7, length);
                    assert_eq!(row.load_number(span, Le, kind).map(drop), answer);
                    assert_eq!(row.store_number(span, Le, kind, 0), answer);
                    assert_eq!(row.store_number_strict(span, Le, kind, 0), answer);
                }
            }
        }
        for (length, answer) in [(0, Err(Refusal::FieldLength)), (8, Ok(0)), (9, Err(Refusal::FieldLength))] {
            assert_eq!(row.load::<u8>(Span::new(order, 0, 7, length), Le), answer);
        }
    }
}

#[test]
fn fields_of_1_to_k_bits() {
    at_every_width!(field_lengths());
}

#[test]
fn k_is_8_16_32_or_64() {
    let mut row = [0u8; 20];
    let span = Span::new(ORDERS[0], 0, 0, 8);
    for k in (0..=130).chain([1 << 32, usize::MAX]).filter(|k| ![8, 16, 32, 64].contains(k)) {
        for kind in [IntegerKind::unsigned(k), IntegerKind::signed(k)] {
            assert_eq!(row.load_number(span, Le, kind), Err(Refusal::NoSuchK));
            assert_eq!(row.store_number(span, Le, kind, 0), Err(Refusal::NoSuchK));
            assert_eq!(row.store_number_strict(span, Le, kind, 0), Err(Refusal::NoSuchK));
        }
    }
}

fn places<W: Word + Default>() {
    let mut row = [W::default(); 3];
    for order in ORDERS {
        let span = Span::new(order, 0, 5, 11);
        for (index, inside) in [(0, true), (10, true), (11, false), (12, false), (usize::MAX, false)] {
            let refused = if inside { None } else { Some(Refusal::NotBelow) };
            assert_eq!(row.read_bit(span, index).err(), refused);
            assert_eq!(row.write_bit(span, index, false).err(), refused);
        }
        for (place, inside) in [(0, true), (11, true), (12, false), (usize::MAX, false)] {
            let refused = if inside { None } else { Some(Refusal::NotBelow) };
            assert_eq!(span.split_at::<W>(row.len(), place).err(), refused);
            assert_eq!(span.shorten::<W>(row.len(), place).err(), refused);
        }
        for (start, count, destination, inside) in [
            (0, 11, 0, true),
            (11, 0, 11, true),
            (0, 4, 7, true),
            (7, 4, 0, true),
            (0, 12, 0, false),
            (8, 4, 0, false),
            (0, 4, 8, false),
            (12, 0, 0, false),
            (0, 0, 12, false),
            (1, usize::MAX, 0, false),
            (0, usize::MAX, 1, false),
            (usize::MAX, 1, 0, false),
            (0, 1, usize::MAX, false),
            (usize::MAX, usize::MAX, usize::MAX, false),
        ] {
            let refused = if inside { None } else { Some(Refusal::NotBelow) };
            assert_eq!(row.copy_inside(span, start, count, destination).err(), refused);
        }
    }
}

#[test]
fn places_inside_the_span() {
    at_every_width!(places());
}
