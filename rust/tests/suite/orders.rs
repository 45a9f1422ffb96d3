//! Position, selector and mask at every index, and splits at every place.

use stableply::{Mask, Position, Refusal, Selector, Span};

use crate::rules::{self, bit};
use crate::tried::{mixed, spans, Sample, ORDERS};

fn positions_and_selectors<W: Sample>() {
    for order in ORDERS {
        let theirs = rules::order(order);
        for index in 0..W::BITS {
            let position = model::position(W::WIDTH, theirs, index as u64).unwrap();
            assert_eq!(order.position::<W>(index), Ok(Position(position as usize)));
            let selector = model::selector(W::WIDTH, theirs, index as u64).unwrap();
            assert_eq!(order.selector::<W>(index), Ok(Selector(W::of(selector))));
        }
        for index in [W::BITS, W::BITS + 1, usize::MAX] {
            assert_eq!(order.position::<W>(index), Err(Refusal::IndexTooLarge));
            assert_eq!(order.selector::<W>(index), Err(Refusal::IndexTooLarge));
        }
    }
}

#[test]
fn every_position_and_selector() {
    at_every_width!(positions_and_selectors());
}

fn masks<W: Sample>() {
    for order in ORDERS {
        for from in 0..W::BITS {
            for upto in from..=W::BITS {
                let mask = model::mask(W::WIDTH, rules::order(order), from as u64, upto as u64).unwrap();
                assert_eq!(order.mask::<W>(from, upto), Ok(Mask(W::of(mask))));
            }
            for upto in (0..from).chain([W::BITS + 1, usize::MAX]) {
                assert_eq!(order.mask::<W>(from, upto), Err(Refusal::NotBelow));
            }
        }
        for from in [W::BITS, usize::MAX] {
            for upto in [0, W::BITS, W::BITS + 1, usize::MAX] {
                assert_eq!(order.mask::<W>(from, upto), Err(Refusal::IndexTooLarge));
            }
        }
    }
}

#[test]
fn every_mask() {
    at_every_width!(masks());
}

fn splits<W: Sample>() {
    let row: Vec<W> = mixed(3, 5);
    let lent = row.len();
    for span in spans::<W>(lent) {
        for place in 0..=span.length() {
            let (first, rest) = span.split_at::<W>(lent, place).unwrap();
            assert_eq!(span.shorten::<W>(lent, place), Ok(first));
            assert_eq!(first, Span::new(span.order(), span.word(), span.head(), place));
            assert_eq!(model::split(W::WIDTH, lent as u64, rules::span(span), place as u64), Ok(rules::span(rest)));
            for i in 0..span.length() {
                let part = if i < place { bit(&row, first, i) } else { bit(&row, rest, i - place) };
                assert_eq!(part, bit(&row, span, i));
            }
        }
        for place in [span.length() + 1, usize::MAX] {
            assert_eq!(span.split_at::<W>(lent, place), Err(Refusal::NotBelow));
            assert_eq!(span.shorten::<W>(lent, place), Err(Refusal::NotBelow));
        }
    }
}

#[test]
fn every_split() {
    at_every_width!(splits());
}
