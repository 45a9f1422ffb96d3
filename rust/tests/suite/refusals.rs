//! Which refusal comes first where several apply, that a refused call changes nothing, and what a refusal says of itself.

use stableply::Order::{Lsb0, Msb0};
use stableply::Significance::{Be, Le};
use stableply::{BitRow, IntegerKind, Operation, Refusal, Span, Word, MOST_WORDS};

use crate::every_call::assert_all;
use crate::tried::ORDERS;

fn one_span<W: Word + Default>() {
    for order in ORDERS {
        let head_and_end = Span::new(order, usize::MAX, W::BITS, 1);
        assert_all::<W>(MOST_WORDS + 1, head_and_end, Err(Refusal::TooManyWords));
        assert_all::<W>(MOST_WORDS, head_and_end, Err(Refusal::IndexTooLarge));
        assert_all::<W>(MOST_WORDS, Span::new(order, usize::MAX, 0, 1), Err(Refusal::OutOfBounds));
    }
}

#[test]
fn of_one_span_the_lowest_number() {
    at_every_width!(one_span());
}

/// What the calls with two spans answer: copy_from, boolean, swap_with, equal. The rows are long enough to be refused 1.
fn answers<W: Word + Default>(words: usize, span: Span, other_words: usize, other: Span) -> [Option<u8>; 4] {
    let (mut left, mut right) = (vec![W::default(); words], vec![W::default(); other_words]);
    let answers = [
        left.copy_from(span, &right, other),
        left.boolean(span, &right, other, Operation::Xor),
        left.swap_with(span, &mut right, other),
        left.equal(span, &right, other).map(drop),
    ];
    assert!(left.iter().chain(&right).all(|&word| word == W::default()));
    answers.map(|answer| answer.err().map(Refusal::number))
}

fn two_spans<W: Word + Default>() {
    let fine = Span::new(Lsb0, 0, 3, 6);
    let longer = Span::new(Lsb0, 0, 3, 7);
    let other_order = Span::new(Msb0, 0, 3, 6);
    let other_order_and_longer = Span::new(Msb0, 0, 3, 7);
    let head = Span::new(Msb0, 9, W::BITS, 7);
    let end = Span::new(Msb0, 9, 0, 7);
    let long = MOST_WORDS + 1;

    assert_eq!(answers::<W>(4, fine, 4, fine), [None; 4]);
    // The first span's 1 to 3 come before all of the second's.
    assert_eq!(answers::<W>(long, fine, long, head), [Some(1); 4]);
    assert_eq!(answers::<W>(4, head, long, fine), [Some(2); 4]);
    assert_eq!(answers::<W>(4, end, long, fine), [Some(3); 4]);
    assert_eq!(answers::<W>(4, end, 4, head), [Some(3); 4]);
    // Then the second's, then the orders, then the lengths.
    assert_eq!(answers::<W>(4, fine, long, head), [Some(1); 4]);
    assert_eq!(answers::<W>(4, fine, 4, head), [Some(2); 4]);
    assert_eq!(answers::<W>(4, fine, 4, end), [Some(3); 4]);
    assert_eq!(answers::<W>(4, fine, 4, other_order_and_longer), [Some(6); 4]);
    assert_eq!(answers::<W>(4, other_order, 4, longer), [Some(6); 4]);
    assert_eq!(answers::<W>(4, fine, 4, longer), [Some(7), None, Some(7), None]);
    assert_eq!(answers::<W>(4, longer, 4, fine), [Some(7), None, Some(7), None]);
}

#[test]
fn of_two_spans_the_first_ones_and_then_the_lowest_number() {
    at_every_width!(two_spans());
}

fn fields<W: Word + Default>() {
    let mut row = [W::default(); 12];
    let mut answers = |span, k, number| {
        let kind = IntegerKind::unsigned(k);
        let answers = [
            row.load_number(span, Be, kind).map(drop),
            row.store_number(span, Be, kind, number),
            row.store_number_strict(span, Be, kind, number),
        ];
        assert!(row.iter().all(|&word| word == W::default()));
        answers.map(|answer| answer.err().map(Refusal::number))
    };
    let far = Span::new(Msb0, 11, 0, 900);
    let empty = Span::new(Msb0, 0, 1, 0);
    let nine = Span::new(Msb0, 0, 1, 9);
    let seven = Span::new(Msb0, 0, 1, 7);
    assert_eq!(answers(far, 7, -1), [Some(3); 3]);
    assert_eq!(answers(empty, 7, -1), [Some(4); 3]);
    assert_eq!(answers(nine, 9, -1), [Some(4); 3]);
    assert_eq!(answers(empty, 8, -1), [Some(5); 3]);
    assert_eq!(answers(nine, 8, 256), [Some(5); 3]);
    assert_eq!(answers(seven, 8, 256), [None, Some(8), Some(8)]);
    assert_eq!(answers(seven, 8, -1), [None, Some(8), Some(8)]);
    assert_eq!(answers(seven, 16, 0), [None; 3]);
    assert_eq!(row.store_number_strict(seven, Be, IntegerKind::unsigned(8), 128), Err(Refusal::DoesNotFit));
    assert!(row.iter().all(|&word| word == W::default()));
}

#[test]
fn of_a_field_the_lowest_number() {
    at_every_width!(fields());
}

/// A span that is refused is told before a place that would be.
#[test]
fn of_a_place_the_spans_number_first() {
    let mut row = [0x5Au8; 2];
    for (span, refusal) in [
        (Span::new(Lsb0, 0, 8, 3), Refusal::IndexTooLarge),
        (Span::new(Lsb0, 1, 6, 3), Refusal::OutOfBounds),
        (Span::new(Lsb0, 1, 5, 3), Refusal::NotBelow),
    ] {
        assert_eq!(row.read_bit(span, 3), Err(refusal));
        assert_eq!(row.write_bit(span, 3, true), Err(refusal));
        assert_eq!(row.copy_inside(span, 1, 3, 0), Err(refusal));
        assert_eq!(row.copy_inside(span, 0, 3, 1), Err(refusal));
        assert_eq!(span.split_at::<u8>(2, 4), Err(refusal));
        assert_eq!(span.shorten::<u8>(2, 4), Err(refusal));
    }
    assert_eq!(row, [0x5A; 2]);
}

/// No refusal depends on the bits held, and none changes one.
#[test]
fn a_refused_call_changes_nothing() {
    for byte in [0x00u8, 0xFF, 0xB4] {
        let (mut row, mut other) = ([byte; 3], [!byte; 3]);
        let (fine, longer, mirrored) = (Span::new(Lsb0, 0, 5, 9), Span::new(Lsb0, 0, 5, 10), Span::new(Msb0, 0, 5, 9));
        assert_eq!(row.write_bit(fine, 9, byte == 0), Err(Refusal::NotBelow));
        assert_eq!(row.store(fine, Le, !byte), Err(Refusal::FieldLength));
        assert_eq!(row.store_strict(fine, Le, 0x5_5555u32), Err(Refusal::DoesNotFit));
        assert_eq!(row.store_number(fine, Le, IntegerKind::signed(16), 0xFFFF), Err(Refusal::NotAnInteger));
        assert_eq!(row.copy_from(fine, &other, longer), Err(Refusal::LengthsDiffer));
        assert_eq!(row.copy_inside(fine, 0, 8, 2), Err(Refusal::NotBelow));
        assert_eq!(row.boolean(fine, &other, mirrored, Operation::Xor), Err(Refusal::OrdersDiffer));
        assert_eq!(row.swap_with(fine, &mut other, longer), Err(Refusal::LengthsDiffer));
        assert_eq!((row, other), ([byte; 3], [!byte; 3]));
    }
}

#[test]
fn a_refusal_has_a_number_and_a_sentence() {
    let mut sentences = Vec::new();
    for number in 1..=10 {
        let refusal = Refusal::from_number(number).unwrap();
        assert_eq!(refusal.number(), number);
        let error: Box<dyn std::error::Error> = Box::new(refusal);
        let sentence = error.to_string();
        assert!(sentence.ends_with(&format!(" (refusal {number})")), "{sentence}");
        assert!(sentence.len() > 30, "{sentence}");
        sentences.push(sentence);
    }
    sentences.sort();
    sentences.dedup();
    assert_eq!(sentences.len(), 10);
    for number in (11..=255).chain([0]) {
        assert_eq!(Refusal::from_number(number), None);
    }
}
