//! Copies, boolean calls, swap and equality on every pair of spans of a short row, and searches on every span.

use model::End;
use stableply::{BitRow, Operation, Order, Span};

use crate::rules::{self, bit, put};
use crate::tried::{mixed, rows, spans, Sample};

/// Tries both rows of every pair of spans of one order whose lengths satisfy `fit`.
fn pairs<W: Sample>(fit: fn(usize, usize) -> bool, mut try_pair: impl FnMut(&[W], Span, &[W], Span)) {
    let spans = spans::<W>(2);
    let rights = [mixed(2, 3), vec![W::of(u64::MAX); 2]];
    for right in &rights {
        let left: Vec<W> = mixed(2, 40);
        for &span in &spans {
            let partners = spans.iter().filter(|other| other.order() == span.order() && fit(span.length(), other.length()));
            for &other_span in partners {
                try_pair(&left, span, right, other_span);
            }
        }
    }
}

fn same(left: usize, right: usize) -> bool {
    left == right
}

fn copies<W: Sample>() {
    pairs::<W>(same, |target, span, source, source_span| {
        let (mut copied, mut expected) = (target.to_vec(), target.to_vec());
        assert_eq!(model::copy_from(&mut expected, rules::span(span), source, rules::span(source_span)), Ok(()));
        assert_eq!(copied.copy_from(span, source, source_span), Ok(()));
        assert_eq!(copied, expected);
    });
}

#[test]
fn every_copy_between_rows() {
    at_every_width!(copies());
}

fn swaps<W: Sample>() {
    pairs::<W>(same, |left, span, right, right_span| {
        let (mut here, mut there) = (left.to_vec(), right.to_vec());
        let (mut expected_here, mut expected_there) = (left.to_vec(), right.to_vec());
        let swapped = model::swap(&mut expected_here, rules::span(span), &mut expected_there, rules::span(right_span));
        assert_eq!(swapped, Ok(()));
        assert_eq!(here.swap_with(span, &mut there, right_span), Ok(()));
        assert_eq!((here, there), (expected_here, expected_there));
    });
}

#[test]
fn every_swap() {
    at_every_width!(swaps());
}

fn booleans<W: Sample>(operation: Operation, truth_table: u8) {
    let near = |left: usize, right: usize| left.abs_diff(right) < 3 || right % 8 == 5;
    pairs::<W>(near, |left, span, right, right_span| {
        let (mut combined, mut expected) = (left.to_vec(), left.to_vec());
        let (model_span, model_right) = (rules::span(span), rules::span(right_span));
        assert_eq!(model::boolean(&mut expected, model_span, right, model_right, truth_table), Ok(()));
        assert_eq!(combined.boolean(span, right, right_span, operation), Ok(()));
        assert_eq!(combined, expected);
    });
}

#[test]
fn every_boolean() {
    for (operation, truth_table) in [(Operation::And, 0b1000), (Operation::Or, 0b1110), (Operation::Xor, 0b0110)] {
        at_every_width!(booleans(operation, truth_table));
    }
}

fn equalities<W: Sample>() {
    pairs::<W>(same, |left, span, right, right_span| {
        let (model_span, model_right) = (rules::span(span), rules::span(right_span));
        let equal = rules::answer(model::equal(left, model_span, right, model_right));
        assert!(equal.is_ok());
        assert_eq!(left.equal(span, right, right_span), equal);
        assert_eq!(left.equal(span, left, span), Ok(true));

        let mut twin = right.to_vec();
        assert_eq!(model::copy_from(&mut twin, model_right, left, model_span), Ok(()));
        assert_eq!(left.equal(span, &twin, right_span), Ok(true));
        for i in [0, span.length() / 2, span.length().saturating_sub(1)] {
            if i < span.length() {
                put(&mut twin, right_span, i, !bit(left, span, i));
                assert_eq!(left.equal(span, &twin, right_span), Ok(false));
                put(&mut twin, right_span, i, bit(left, span, i));
            }
        }
    });
    let by_one = |left: usize, right: usize| left.abs_diff(right) == 1;
    pairs::<W>(by_one, |left, span, right, right_span| {
        assert_eq!(left.equal(span, right, right_span), Ok(false));
    });
}

#[test]
fn every_equality() {
    at_every_width!(equalities());
}

fn copies_inside<W: Sample>() {
    let row: Vec<W> = mixed(2, 9);
    for span in spans::<W>(row.len()) {
        let places = || (0..=span.length()).filter(|&place| W::is_edge(place));
        for start in places() {
            for destination in places() {
                for count in places().filter(|count| count + start.max(destination) <= span.length()) {
                    let (mut copied, mut expected) = (row.clone(), row.clone());
                    let [from, many, to] = [start, count, destination].map(|number| number as u64);
                    assert_eq!(model::copy_within(&mut expected, rules::span(span), from, many, to), Ok(()));
                    assert_eq!(copied.copy_inside(span, start, count, destination), Ok(()));
                    assert_eq!(copied, expected);
                }
            }
        }
    }
}

#[test]
fn every_copy_inside() {
    at_every_width!(copies_inside());
}

fn searches<W: Sample>() {
    let mut tried = rows::<W>(3);
    for i in 0..3 * W::BITS {
        for lone in [false, true] {
            let mut row = vec![W::of(if lone { 0 } else { u64::MAX }); 3];
            put(&mut row, Span::new(Order::Lsb0, 0, 0, 3 * W::BITS), i, lone);
            tried.push(row);
        }
    }
    for row in &tried {
        for span in spans::<W>(row.len()) {
            let found = |end: End, wanted: bool| {
                let index = model::search(row, rules::span(span), end, wanted).unwrap();
                Ok(index.map(|index| index as usize))
            };
            assert_eq!(row.first_one(span), found(End::First, true));
            assert_eq!(row.last_one(span), found(End::Last, true));
            assert_eq!(row.first_zero(span), found(End::First, false));
            assert_eq!(row.last_zero(span), found(End::Last, false));
        }
    }
}

#[test]
fn every_search() {
    at_every_width!(searches());
}
