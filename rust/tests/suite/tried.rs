//! The words, rows and spans that the tests try.

use stableply::{Order, Significance, Span, Word};

pub const ORDERS: [Order; 2] = [Order::Lsb0, Order::Msb0];
pub const SIGNIFICANCES: [Significance; 2] = [Significance::Le, Significance::Be];

/// A word that both the crate and the model take.
pub trait Sample: Word + model::Word + Default {
    /// The word of these low bits.
    fn of(bits: u64) -> Self;

    /// Whether a span that starts or ends at this bit of a row is tried: every bit of bytes, and of longer words those near a
    /// word's end and one in the middle.
    fn is_edge(bit: usize) -> bool;
}

impl Sample for u8 {
    fn of(bits: u64) -> u8 {
        bits as u8
    }

    fn is_edge(_: usize) -> bool {
        true
    }
}

impl Sample for u64 {
    fn of(bits: u64) -> u64 {
        bits
    }

    fn is_edge(bit: usize) -> bool {
        [0, 1, 2, 29, 62, 63].contains(&(bit % 64))
    }
}

/// The spans of a row of `lent` words that start and end at an edge, in both orders.
pub fn spans<W: Sample>(lent: usize) -> Vec<Span> {
    let edges: Vec<usize> = (0..=lent * W::BITS).filter(|&bit| W::is_edge(bit)).collect();
    let mut spans = Vec::new();
    for order in ORDERS {
        for &start in &edges {
            for &end in edges.iter().filter(|&&end| end >= start) {
                spans.push(Span::at::<W>(order, start, end - start));
            }
        }
    }
    spans
}

/// A row of random words, which the seed decides: SplitMix64.
pub fn mixed<W: Sample>(lent: usize, seed: u64) -> Vec<W> {
    let mut state = seed;
    let mut next = || {
        state = state.wrapping_add(0x9E37_79B9_7F4A_7C15);
        let mut bits = state;
        bits = (bits ^ (bits >> 30)).wrapping_mul(0xBF58_476D_1CE4_E5B9);
        bits = (bits ^ (bits >> 27)).wrapping_mul(0x94D0_49BB_1331_11EB);
        W::of(bits ^ (bits >> 31))
    };
    (0..lent).map(|_| next()).collect()
}

/// Rows of `lent` words: all zeros, all ones, and two mixed ones.
pub fn rows<W: Sample>(lent: usize) -> Vec<Vec<W>> {
    vec![vec![W::of(0); lent], vec![W::of(u64::MAX); lent], mixed(lent, 2024), mixed(lent, 77)]
}
