//! Wrong answers: the library's own, spoiled in one way each, to show that a
//! run finds such a fault.

use model::{bit_of, refusals::*, set_bit_of, AND, MOST_WORDS};

use crate::{
    answer::Answer,
    call::{Argument::*, Call, NO_CODE},
    expected::{self, span},
    judge::Outcome,
    lent::Lent,
    request::Request,
};

/// What an accepted call returns.
const ACCEPTED: u8 = 0;

/// Order, significance and sign of an unsigned Msb0 le field.
const UNSIGNED_MSB0_LE: [u64; 3] = [model::Order::Msb0 as u64, model::Significance::Le as u64, model::Sign::Unsigned as u64];

/// The code of a sign.
const SIGNED: u64 = model::Sign::Signed as u64;

/// Defines the faults and the list of them.
macro_rules! faults {
    ($($fault:ident),+ $(,)?) => {
        /// A way to be wrong.
        #[derive(Clone, Copy, Debug, Eq, PartialEq)]
        pub enum Fault {
            $($fault),+
        }

        impl Fault {
            /// All of them.
            pub const ALL: &[Fault] = &[$(Fault::$fault),+];
        }
    };
}

faults! {
    AlwaysDeclines,
    LoadsGiveZero,
    SearchesSayAbsent,
    WritesDoNothing,
    MovesOnlyTheFirst64Bits,
    CopiesWithinAlwaysUpward,
    AndKeepsLeftPastTheRight,
    BeForLe,
    ReversesWholeMsb0LeFields,
    ForgetsTheSign,
    OverwritesTheNextBit,
    WritesPastTheBuffer,
    WritesTheReadOnlySide,
    SwapsOneSideOnly,
    EqualityIgnoresTheLastBit,
    CountsIndexesFromTheWord,
    WritesTheIndexWhereAbsent,
    WritesOutOnRefusal,
    TakesOneWordTooMany,
    TakesOneBitTooMany,
    SecondSpanFirst,
    SumsWrapAt64Bits,
    UnknownCodesAfterNumbers,
    StrictStoresTakeTheLowest,
}

impl Fault {
    /// Spoils what the library left; says what the call then returns.
    pub fn spoil<T: Lent>(self, request: &Request<T>, outcome: Outcome<T>) -> u8 {
        if outcome.code == ACCEPTED {
            self.spoil_accepted(request, outcome)
        } else {
            self.spoil_refused(request, outcome)
        }
    }

    /// Spoils what an accepted call left.
    fn spoil_accepted<T: Lent>(self, request: &Request<T>, outcome: Outcome<T>) -> u8 {
        let Outcome { places, words, other, .. } = outcome;
        let call = request.call;
        let first = span(request);
        let lent = request.words.len();
        match self {
            Fault::AlwaysDeclines if call.lends() => {
                words.words_and_after()[..lent].copy_from_slice(&request.words);
                return OUT_OF_BOUNDS;
            }
            Fault::LoadsGiveZero if call == Call::Load => *places.place(0) = 0,
            Fault::SearchesSayAbsent if call.is_search() => *places.place(0) &= !0xFF,
            Fault::WritesDoNothing if call.writes() => words.words_and_after()[..lent].copy_from_slice(&request.words),
            Fault::MovesOnlyTheFirst64Bits if call == Call::CopyFrom || call == Call::Boolean => {
                for i in 64..first.length {
                    let old = bit_of(&request.words, first, i);
                    set_bit_of(words.words_and_after(), first, i, old);
                }
            }
            Fault::CopiesWithinAlwaysUpward if call == Call::CopyWithin => {
                words.words_and_after()[..lent].copy_from_slice(&request.words);
                for i in 0..request[Count] {
                    let bit = bit_of(words.words(), first, request[Start] + i);
                    set_bit_of(words.words_and_after(), first, request[Destination] + i, bit);
                }
            }
            Fault::AndKeepsLeftPastTheRight if call == Call::Boolean && request[Operation] == AND as u64 => {
                for i in request[OtherLength]..first.length {
                    let old = bit_of(&request.words, first, i);
                    set_bit_of(words.words_and_after(), first, i, old);
                }
            }
            Fault::BeForLe if call == Call::Load => {
                *places.place(0) = load_otherwise(request, |request| request[Significance] ^= 1)
            }
            Fault::ReversesWholeMsb0LeFields
                if call == Call::Load && [Order, Significance, Sign].map(|code| request[code]) == UNSIGNED_MSB0_LE =>
            {
                let be = load_otherwise(request, |request| request[Significance] = model::Significance::Be as u64);
                *places.place(0) = be.reverse_bits() >> (64 - first.length);
            }
            Fault::ForgetsTheSign if call == Call::Load => {
                *places.place(0) = load_otherwise(request, |request| request[Sign] = model::Sign::Unsigned as u64)
            }
            Fault::OverwritesTheNextBit if call.writes() => {
                let next = first.word * T::WIDTH + first.head + first.length;
                if next < lent as u64 * T::WIDTH {
                    let bit = bit_of(words.words(), first, first.length);
                    set_bit_of(words.words_and_after(), first, first.length, !bit);
                }
            }
            Fault::WritesPastTheBuffer if call.writes() => {
                let after = &mut words.words_and_after()[lent];
                *after = after.with_bit(0, !after.bit(0));
            }
            Fault::WritesTheReadOnlySide if call == Call::CopyFrom && !request.other.is_empty() => {
                let word = &mut other.words_and_after()[0];
                *word = word.with_bit(0, !word.bit(0));
            }
            Fault::SwapsOneSideOnly if call == Call::Swap => {
                other.words_and_after()[..request.other.len()].copy_from_slice(&request.other)
            }
            Fault::EqualityIgnoresTheLastBit if call == Call::Equal && first.length > 0 => {
                let shorter = answer_otherwise(request, |request| {
                    request[Length] -= 1;
                    request[OtherLength] = request[OtherLength].saturating_sub(1);
                });
                *places.place(0) = *places.place(0) & !0xFF | (shorter == Answer::Bit(true)) as u64;
            }
            Fault::CountsIndexesFromTheWord if call.is_search() && *places.place(0) & 0xFF == 1 => {
                *places.place(1) += first.head
            }
            Fault::WritesTheIndexWhereAbsent if call.is_search() && *places.place(0) & 0xFF == 0 => {
                *places.place(1) = first.length
            }
            _ => {}
        }
        ACCEPTED
    }

    /// Spoils what a refused call left.
    fn spoil_refused<T: Lent>(self, request: &Request<T>, outcome: Outcome<T>) -> u8 {
        match (self, outcome.code) {
            (Fault::WritesOutOnRefusal, _) if request.call == Call::Load => *outcome.places.place(0) = 0,
            (Fault::TakesOneWordTooMany, TOO_MANY_WORDS) if request.words.len() as u64 == MOST_WORDS + 1 => {
                return code_otherwise(request, |request| request.words.truncate(MOST_WORDS as usize))
            }
            (Fault::TakesOneBitTooMany, OUT_OF_BOUNDS) => {
                return code_otherwise(request, |request| request[Length] = request[Length].saturating_sub(1))
            }
            (Fault::SecondSpanFirst, TOO_MANY_WORDS..=OUT_OF_BOUNDS) if request.call.has_two_spans() && !request.shared => {
                return code_otherwise(request, exchange_sides)
            }
            (Fault::SumsWrapAt64Bits, OUT_OF_BOUNDS) if request.call.lends() && !request.call.has_two_spans() => {
                let begin = request[Word].wrapping_mul(T::WIDTH).wrapping_add(request[Head]);
                let inside = begin.wrapping_add(request[Length]) <= request.number(Lent) * T::WIDTH;
                return if inside { ACCEPTED } else { OUT_OF_BOUNDS };
            }
            (Fault::SumsWrapAt64Bits, NOT_BELOW) if request.call == Call::CopyWithin => {
                let end = |from| request[from].wrapping_add(request[Count]);
                let inside = end(Start) <= request[Length] && end(Destination) <= request[Length];
                return if inside { ACCEPTED } else { NOT_BELOW };
            }
            (Fault::UnknownCodesAfterNumbers, NO_CODE) => {
                let numbered = code_otherwise(request, make_codes_known);
                return if numbered == ACCEPTED { NO_CODE } else { numbered };
            }
            (Fault::StrictStoresTakeTheLowest, DOES_NOT_FIT) if request[Sign] == SIGNED && request[Below] == 1 => {
                let lowest = (1 << (request[Length] - 1)) - 1;
                return if request[Value] == lowest { ACCEPTED } else { DOES_NOT_FIT };
            }
            _ => {}
        }
        outcome.code
    }
}

/// What the request is owed after a change.
fn answer_otherwise<T: Lent>(request: &Request<T>, change: impl FnOnce(&mut Request<T>)) -> Answer {
    let mut changed = request.clone();
    change(&mut changed);
    let (mut words, mut other) = (changed.words.clone(), changed.other.clone());
    expected::answer(&changed, &mut words, &mut other)
}

/// What the request would return after a change.
fn code_otherwise<T: Lent>(request: &Request<T>, change: impl FnOnce(&mut Request<T>)) -> u8 {
    answer_otherwise(request, change).code()
}

/// What a load of the request answers after a change.
fn load_otherwise<T: Lent>(request: &Request<T>, change: impl FnOnce(&mut Request<T>)) -> u64 {
    let [out, ..] = answer_otherwise(request, change).results();
    out.map_or(0, u64::from)
}

/// The second side in place of the first and the first in place of the second.
fn exchange_sides<T: Lent>(request: &mut Request<T>) {
    std::mem::swap(&mut request.words, &mut request.other);
    for (first, second) in [(Order, OtherOrder), (Word, OtherWord), (Head, OtherHead), (Length, OtherLength)] {
        let number = request[first];
        request[first] = request[second];
        request[second] = number;
    }
}

/// Makes every code one that the interface knows.
fn make_codes_known<T: Lent>(request: &mut Request<T>) {
    for &argument in request.call.arguments() {
        match argument {
            Width => request[Width] = 8,
            Operation => request[Operation] = AND as u64,
            _ if argument.is_code() => request[argument] %= 2,
            _ => {}
        }
    }
}
