//! What the library answers through its exported calls.

use exported::{stableply_mask, stableply_position, stableply_selector, stableply_split};

use crate::{
    answer::{Results, Written},
    call::{Argument, Argument::*, Call},
    lent::Lent,
    request::Request,
};

/// The out-pointers of a call: up to three places of eight bytes, each between two untouched ones.
#[derive(PartialEq)]
pub struct Places {
    cells: [u64; 7],
    pattern: u64,
}

impl Places {
    /// Places that all hold the pattern.
    pub fn holding(pattern: u64) -> Self {
        Places { cells: [pattern; 7], pattern }
    }

    /// The `n`th place, 0 to 2.
    pub fn place(&mut self, n: usize) -> &mut u64 {
        &mut self.cells[2 * n + 1]
    }

    /// Writes what a call is to write.
    pub fn write(&mut self, results: Results) {
        for (n, written) in results.into_iter().enumerate() {
            match written {
                Some(Written::Number(number)) => *self.place(n) = number,
                Some(Written::Byte(byte)) => *self.place(n) = *self.place(n) & !0xFF | byte as u64,
                None => {}
            }
        }
    }

    /// Says where they differ from what is owed.
    pub fn tell_differences(&self, owed: &Places, text: &mut String) {
        let show = |cell: u64| {
            if cell == self.pattern {
                "untouched".to_string()
            } else if cell & !0xFF == self.pattern & !0xFF {
                format!("{:X}", cell & 0xFF)
            } else {
                format!("{cell:X}")
            }
        };
        for (n, (found, owed)) in self.cells.into_iter().zip(owed.cells).enumerate() {
            if found != owed && n % 2 == 1 {
                *text += &format!("\n      out-value {} is {}, owed {}", n / 2 + 1, show(found), show(owed));
            } else if found != owed {
                *text += "\n      memory around the out-values is changed";
            }
        }
    }

    /// The `n`th place as an out-pointer to a byte.
    fn byte(&mut self, n: usize) -> *mut u8 {
        self.place(n) as *mut u64 as *mut u8
    }

    /// The `n`th place as an out-pointer to a count.
    fn count(&mut self, n: usize) -> *mut usize {
        self.place(n) as *mut u64 as *mut usize
    }
}

/// A word whose width the library exports calls for.
pub trait Exported: Lent {
    /// Hands the request to the library. The words are where the pointers say, as many as the
    /// request lends.
    ///
    /// # Safety
    /// The pointers have to be valid for these many words, to read and to write.
    unsafe fn call(request: &Request<Self>, words: *mut Self, other: *mut Self, places: &mut Places) -> u8;
}

/// Hands over a request without words.
unsafe fn without_words<T: Lent>(request: &Request<T>, places: &mut Places) -> u8 {
    let number = |argument| number(request, argument);
    let (width, order) = (request.code(Width), request.code(Order));
    match request.call {
        Call::Position => stableply_position(width, order, number(Index), places.place(0)),
        Call::Selector => stableply_selector(width, order, number(Index), places.place(0)),
        Call::Mask => stableply_mask(width, order, number(From), number(Upto), places.place(0)),
        _ => stableply_split(
            width,
            number(Lent),
            order,
            number(Word),
            number(Head),
            number(Length),
            number(Place),
            places.count(0),
            places.count(1),
            places.count(2),
        ),
    }
}

/// A number as the library takes it.
fn number<T: Lent>(request: &Request<T>, argument: Argument) -> usize {
    request.number(argument) as usize
}

/// A call with a pointer, the first count and span of the request, and what else it takes.
macro_rules! one {
    ($request:ident, $name:path, $pointer:expr $(, $rest:expr)*) => {
        $name(
            $pointer,
            number($request, Lent),
            $request.code(Order),
            number($request, Word),
            number($request, Head),
            number($request, Length)
            $(, $rest)*
        )
    };
}

/// A call with two of each.
macro_rules! two {
    ($request:ident, $name:path, $first:expr, $second:expr $(, $rest:expr)*) => {
        one!(
            $request,
            $name,
            $first,
            $second,
            number($request, OtherLent),
            $request.code(OtherOrder),
            number($request, OtherWord),
            number($request, OtherHead),
            number($request, OtherLength)
            $(, $rest)*
        )
    };
}

/// A call on a field.
macro_rules! field {
    ($request:ident, $name:path, $words:expr $(, $rest:expr)*) => {
        one!($request, $name, $words, number($request, K), $request.code(Significance), $request.code(Sign) $(, $rest)*)
    };
}

/// Hands each call on one type of word to the module that declares it.
macro_rules! exported {
    ($word:ty, $calls:ident) => {
        impl Exported for $word {
            unsafe fn call(request: &Request<Self>, words: *mut Self, other: *mut Self, places: &mut Places) -> u8 {
                use exported::$calls as calls;
                match request.call {
                    Call::Position | Call::Selector | Call::Mask | Call::Split => without_words(request, places),
                    Call::ReadBit => one!(request, calls::read_bit, words, number(request, Index), places.byte(0)),
                    Call::WriteBit => {
                        one!(request, calls::write_bit, words, number(request, Index), request.code(Bit))
                    }
                    Call::Load => field!(request, calls::load, words, places.place(0)),
                    Call::Store => field!(request, calls::store, words, request.code(Below), request[Value]),
                    Call::StoreStrict => {
                        field!(request, calls::store_strict, words, request.code(Below), request[Value])
                    }
                    Call::CopyFrom => two!(request, calls::copy_from, words, other),
                    Call::CopyWithin => one!(
                        request,
                        calls::copy_within,
                        words,
                        number(request, Start),
                        number(request, Count),
                        number(request, Destination)
                    ),
                    Call::Boolean => two!(request, calls::boolean, words, other, request.code(Operation)),
                    Call::Swap => two!(request, calls::swap, words, other),
                    Call::Equal => two!(request, calls::equal, words, other, places.byte(0)),
                    Call::FirstOne => one!(request, calls::first_one, words, places.byte(0), places.count(1)),
                    Call::LastOne => one!(request, calls::last_one, words, places.byte(0), places.count(1)),
                    Call::FirstZero => one!(request, calls::first_zero, words, places.byte(0), places.count(1)),
                    Call::LastZero => one!(request, calls::last_zero, words, places.byte(0), places.count(1)),
                }
            }
        }
    };
}

exported!(u8, on_u8);
exported!(u64, on_u64);
