//! What the exported calls owe: the codes of the C interface over the model of
//! the rules.

use model::{End, Field, Order, Refusal, Sign, Significance, Span};

use crate::{
    answer::Answer,
    call::{Argument, Call, NO_CODE, OPERATIONS, WIDTHS},
    lent::Lent,
    request::Request,
};

/// The answer that a request is owed. The words lent become what they are owed to be.
pub fn answer<T: Lent>(request: &Request<T>, words: &mut [T], other: &mut [T]) -> Answer {
    if request.call.arguments().iter().any(|&argument| !is_known(request, argument)) {
        return Answer::Refused(NO_CODE);
    }
    let answer = match request.call {
        Call::Position | Call::Selector | Call::Mask | Call::Split => without_words(request),
        Call::ReadBit | Call::WriteBit => single_bit(request, words),
        Call::Load | Call::Store | Call::StoreStrict => field(request, words),
        Call::CopyFrom | Call::CopyWithin | Call::Boolean | Call::Swap | Call::Equal => row(request, words, other),
        Call::FirstOne | Call::LastOne | Call::FirstZero | Call::LastZero => search(request, words),
    };
    answer.unwrap_or_else(Answer::Refused)
}

/// Whether a number is one that the interface knows: only codes can be others.
fn is_known<T: Lent>(request: &Request<T>, argument: Argument) -> bool {
    let number = request[argument];
    match argument {
        Argument::Width => WIDTHS.contains(&number),
        Argument::Operation => OPERATIONS.contains(&number),
        _ => !argument.is_code() || number <= 1,
    }
}

/// The order of a known code.
fn order(code: u64) -> Order {
    if code == Order::Lsb0 as u64 {
        Order::Lsb0
    } else {
        Order::Msb0
    }
}

/// The significance of a known code.
fn significance(code: u64) -> Significance {
    if code == Significance::Le as u64 {
        Significance::Le
    } else {
        Significance::Be
    }
}

/// The sign of a known code.
fn sign(code: u64) -> Sign {
    if code == Sign::Unsigned as u64 {
        Sign::Unsigned
    } else {
        Sign::Signed
    }
}

/// The first span of a request, or the only one.
pub fn span<T: Lent>(request: &Request<T>) -> Span {
    Span {
        order: order(request[Argument::Order]),
        word: request[Argument::Word],
        head: request[Argument::Head],
        length: request[Argument::Length],
    }
}

/// The second span of a request.
pub fn other_span<T: Lent>(request: &Request<T>) -> Span {
    Span {
        order: order(request[Argument::OtherOrder]),
        word: request[Argument::OtherWord],
        head: request[Argument::OtherHead],
        length: request[Argument::OtherLength],
    }
}

/// The whole number handed to a store: `value`, or -1 - `value` where it is below zero.
pub fn value<T: Lent>(request: &Request<T>) -> i128 {
    let value = request[Argument::Value] as i128;
    let below = request[Argument::Below] == 1;
    if below {
        -1 - value
    } else {
        value
    }
}

/// The calls without lent words.
fn without_words<T: Lent>(request: &Request<T>) -> Result<Answer, Refusal> {
    let (width, order) = (request[Argument::Width], order(request[Argument::Order]));
    let index = request[Argument::Index];
    Ok(match request.call {
        Call::Position => Answer::Number(model::position(width, order, index)?),
        Call::Selector => Answer::Number(model::selector(width, order, index)?),
        Call::Mask => Answer::Number(model::mask(width, order, request[Argument::From], request[Argument::Upto])?),
        _ => {
            let rest = model::split(width, request[Argument::Lent], span(request), request[Argument::Place])?;
            Answer::Rest { word: rest.word, head: rest.head, length: rest.length }
        }
    })
}

/// The calls on one bit.
fn single_bit<T: Lent>(request: &Request<T>, words: &mut [T]) -> Result<Answer, Refusal> {
    let (span, index) = (span(request), request[Argument::Index]);
    if request.call == Call::ReadBit {
        return Ok(Answer::Bit(model::read_bit(words, span, index)?));
    }
    model::write_bit(words, span, index, request[Argument::Bit] == 1)?;
    Ok(Answer::Done)
}

/// The calls on fields.
fn field<T: Lent>(request: &Request<T>, words: &mut [T]) -> Result<Answer, Refusal> {
    let field = Field {
        span: span(request),
        k: request[Argument::K],
        significance: significance(request[Argument::Significance]),
        sign: sign(request[Argument::Sign]),
    };
    match request.call {
        Call::Load => return Ok(Answer::Number(model::load(words, field)? as u64)),
        Call::Store => model::store(words, field, value(request))?,
        _ => model::store_strict(words, field, value(request))?,
    }
    Ok(Answer::Done)
}

/// The calls on rows, the searches aside.
fn row<T: Lent>(request: &Request<T>, words: &mut [T], other: &mut [T]) -> Result<Answer, Refusal> {
    let (first, second) = (span(request), other_span(request));
    match request.call {
        Call::CopyFrom => model::copy_from(words, first, other, second)?,
        Call::CopyWithin => {
            let [start, count, destination] =
                [Argument::Start, Argument::Count, Argument::Destination].map(|number| request[number]);
            model::copy_within(words, first, start, count, destination)?
        }
        Call::Boolean => model::boolean(words, first, other, second, request.code(Argument::Operation))?,
        Call::Swap => model::swap(words, first, other, second)?,
        _ => {
            let right = if request.shared { &*words } else { &*other };
            return Ok(Answer::Bit(model::equal(words, first, right, second)?));
        }
    }
    Ok(Answer::Done)
}

/// The four searches.
fn search<T: Lent>(request: &Request<T>, words: &[T]) -> Result<Answer, Refusal> {
    let (end, wanted) = match request.call {
        Call::FirstOne => (End::First, true),
        Call::LastOne => (End::Last, true),
        Call::FirstZero => (End::First, false),
        _ => (End::Last, false),
    };
    Ok(match model::search(words, span(request), end, wanted)? {
        Some(index) => Answer::Found(index),
        None => Answer::Absent,
    })
}
