//! Fields: a number in 1 to K bits of a row.

use crate::{
    refusals::{in_bounds, refuse, Refusal, DOES_NOT_FIT, FIELD_LENGTH, NOT_AN_INTEGER, NO_SUCH_K},
    words::{place_of, Span, Word},
};

/// Whether a field's first piece is the least (le) or the most (be) significant. As a number it is C's code.
#[derive(Clone, Copy, Debug, Eq, PartialEq)]
pub enum Significance {
    Le = 0,
    Be = 1,
}

/// Whether a field's number has a sign. As a number it is C's code.
#[derive(Clone, Copy, Debug, Eq, PartialEq)]
pub enum Sign {
    Unsigned = 0,
    Signed = 1,
}

/// A field: its bits, K, and how its number is read.
#[derive(Clone, Copy, Debug)]
pub struct Field {
    pub span: Span,
    pub k: u64,
    pub significance: Significance,
    pub sign: Sign,
}

/// The bits of a field that lie in one word: `count` of them from position `lowest` up.
struct Piece {
    word: usize,
    lowest: u64,
    count: u64,
}

/// The field cut where words end, the first piece first.
fn pieces<T: Word>(span: Span) -> impl Iterator<Item = Piece> {
    let mut begun = 0;
    std::iter::from_fn(move || {
        if begun == span.length {
            return None;
        }
        let (word, first) = place_of::<T>(span, begun);
        let (mut lowest, mut count) = (first, 0);
        while begun < span.length && place_of::<T>(span, begun).0 == word {
            lowest = lowest.min(place_of::<T>(span, begun).1);
            begun += 1;
            count += 1;
        }
        Some(Piece { word, lowest, count })
    })
}

/// Refuses a field that is out of bounds, or of a K or a length that it cannot have.
fn checked<T: Word>(words: &[T], field: Field) -> Result<(), Refusal> {
    in_bounds(words, field.span)?;
    refuse(NO_SUCH_K, ![8, 16, 32, 64].contains(&field.k))?;
    refuse(FIELD_LENGTH, field.span.length == 0 || field.span.length > field.k)
}

/// The field's number.
pub fn load<T: Word>(words: &[T], field: Field) -> Result<i128, Refusal> {
    checked(words, field)?;
    let (mut number, mut before) = (0i128, 0);
    for piece in pieces::<T>(field.span) {
        let bit = |j| words[piece.word].bit(piece.lowest + j) as i128;
        let part: i128 = (0..piece.count).map(|j| bit(j) << j).sum();
        match field.significance {
            Significance::Le => number += part << before,
            Significance::Be => number = (number << piece.count) + part,
        }
        before += piece.count;
    }
    if field.sign == Sign::Signed && number >= 1 << (field.span.length - 1) {
        number -= 1 << field.span.length;
    }
    Ok(number)
}

/// Refuses a value that is not a K-bit integer of its sign.
fn a_k_bit_integer(field: Field, value: i128) -> Result<(), Refusal> {
    let (least, above) = match field.sign {
        Sign::Unsigned => (0, 1i128 << field.k),
        Sign::Signed => (-(1 << (field.k - 1)), 1 << (field.k - 1)),
    };
    refuse(NOT_AN_INTEGER, value < least || value >= above)
}

/// Refuses a value that the field does not hold.
fn fits(field: Field, value: i128) -> Result<(), Refusal> {
    let fits = match field.sign {
        Sign::Unsigned => value < 1 << field.span.length,
        Sign::Signed => value.abs() < 1 << (field.span.length - 1),
    };
    refuse(DOES_NOT_FIT, !fits)
}

/// Places the low bits of an accepted value so that a load returns them.
fn place<T: Word>(words: &mut [T], field: Field, value: i128) {
    let number = if value < 0 { value + (1 << field.k) } else { value };
    let (mut before, mut after) = (0, field.span.length);
    for piece in pieces::<T>(field.span) {
        after -= piece.count;
        let part = match field.significance {
            Significance::Le => number >> before,
            Significance::Be => number >> after,
        };
        before += piece.count;
        for j in 0..piece.count {
            let word = &mut words[piece.word];
            *word = word.with_bit(piece.lowest + j, (part >> j) & 1 == 1);
        }
    }
}

/// Puts the low bits of the value into the field.
pub fn store<T: Word>(words: &mut [T], field: Field, value: i128) -> Result<(), Refusal> {
    checked(words, field)?;
    a_k_bit_integer(field, value)?;
    place(words, field, value);
    Ok(())
}

/// Puts the value into the field, if it fits.
pub fn store_strict<T: Word>(words: &mut [T], field: Field, value: i128) -> Result<(), Refusal> {
    checked(words, field)?;
    a_k_bit_integer(field, value)?;
    fits(field, value)?;
    place(words, field, value);
    Ok(())
}
