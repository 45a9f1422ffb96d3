//! What the rules say: the model, asked with the crate's own types.

use stableply::{IntegerKind, Order, Refusal, Sign, Significance, Span};

/// An order, as the model names it.
pub fn order(order: Order) -> model::Order {
    match order {
        Order::Lsb0 => model::Order::Lsb0,
        Order::Msb0 => model::Order::Msb0,
    }
}

/// A span, as the model takes it.
pub fn span(span: Span) -> model::Span {
    model::Span { order: order(span.order()), word: span.word() as u64, head: span.head() as u64, length: span.length() as u64 }
}

/// A field, as the model takes it.
pub fn field(field: Span, significance: Significance, kind: IntegerKind) -> model::Field {
    model::Field {
        span: span(field),
        k: kind.k() as u64,
        significance: match significance {
            Significance::Le => model::Significance::Le,
            Significance::Be => model::Significance::Be,
        },
        sign: match kind.sign() {
            Sign::Unsigned => model::Sign::Unsigned,
            Sign::Signed => model::Sign::Signed,
        },
    }
}

/// The model's answer, as the crate gives it.
pub fn answer<T>(answer: Result<T, model::Refusal>) -> Result<T, Refusal> {
    answer.map_err(|number| Refusal::from_number(number).expect("the number of a refusal"))
}

/// Bit `i` of a span.
pub fn bit<W: model::Word>(words: &[W], of: Span, i: usize) -> bool {
    model::bit_of(words, span(of), i as u64)
}

/// Sets bit `i` of a span.
pub fn put<W: model::Word>(words: &mut [W], of: Span, i: usize, bit: bool) {
    model::set_bit_of(words, span(of), i as u64, bit);
}
