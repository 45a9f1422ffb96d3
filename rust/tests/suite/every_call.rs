//! Every call that takes a span, with all else that it is handed in order, so that its answer is the span's.

use stableply::Significance::Le;
use stableply::{BitRow, IntegerKind, Operation, Refusal, Span, Word};

/// A call's name, and the call on a row and a span.
pub type Call<W> = (&'static str, fn(&mut [W], Span) -> Result<(), Refusal>);

/// A span of the same order and length as another, at the start of a row of `SIDE_WORDS` words.
fn beside(span: Span) -> Span {
    Span::new(span.order(), 0, 0, span.length())
}

/// As many words as a second row needs for any span that the tests accept, or refuse for another reason.
const SIDE_WORDS: usize = 16;

/// The calls on a row, for spans of 1 to 8 bits that start with a 0.
pub fn calls<W: Word + Default>() -> Vec<Call<W>> {
    vec![
        ("read_bit", |row, span| row.read_bit(span, 0).map(drop)),
        ("write_bit", |row, span| row.write_bit(span, 0, false)),
        ("load", |row, span| row.load::<u8>(span, Le).map(drop)),
        ("store", |row, span| row.store(span, Le, 0u8)),
        ("store_strict", |row, span| row.store_strict(span, Le, 0u8)),
        ("load_number", |row, span| row.load_number(span, Le, IntegerKind::signed(32)).map(drop)),
        ("store_number", |row, span| row.store_number(span, Le, IntegerKind::signed(32), 0)),
        ("store_number_strict", |row, span| row.store_number_strict(span, Le, IntegerKind::signed(32), 0)),
        ("copy_from, the target", |row, span| row.copy_from(span, &[W::default(); SIDE_WORDS], beside(span))),
        ("copy_from, the source", |row, span| [W::default(); SIDE_WORDS].copy_from(beside(span), row, span)),
        ("copy_inside", |row, span| row.copy_inside(span, 0, 0, 0)),
        ("boolean, the left side", |row, span| row.boolean(span, &[W::default(); SIDE_WORDS], beside(span), Operation::Or)),
        ("boolean, the right side", |row, span| [W::default(); SIDE_WORDS].boolean(beside(span), row, span, Operation::Or)),
        ("swap_with, this row", |row, span| row.swap_with(span, &mut [W::default(); SIDE_WORDS], beside(span))),
        ("swap_with, the other row", |row, span| [W::default(); SIDE_WORDS].swap_with(beside(span), row, span)),
        ("equal, this row", |row, span| row.equal(span, &[W::default(); SIDE_WORDS], beside(span)).map(drop)),
        ("equal, the other row", |row, span| [W::default(); SIDE_WORDS].equal(beside(span), row, span).map(drop)),
        ("first_one", |row, span| row.first_one(span).map(drop)),
        ("last_one", |row, span| row.last_one(span).map(drop)),
        ("first_zero", |row, span| row.first_zero(span).map(drop)),
        ("last_zero", |row, span| row.last_zero(span).map(drop)),
        ("split_at", |row, span| span.split_at::<W>(row.len(), 0).map(drop)),
        ("shorten", |row, span| span.shorten::<W>(row.len(), 0).map(drop)),
    ]
}

/// Asserts what every call answers for a span of a row of `words` zeros, and that the row is as it was.
pub fn assert_all<W: Word + Default>(words: usize, span: Span, answer: Result<(), Refusal>) {
    let mut row = vec![W::default(); words];
    for (name, call) in calls::<W>() {
        assert_eq!(call(&mut row, span), answer, "{name} of {span:?} in {words} words");
        assert!(row.iter().all(|&word| word == W::default()), "{name} of {span:?} in {words} words");
    }
}
