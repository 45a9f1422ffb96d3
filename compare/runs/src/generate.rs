//! Random requests that the rules accept: all heads, lengths around the limits
//! of words and of 64-bit chunks, telling contents, overlapping copies.

use model::MOST_WORDS;

use crate::{
    call::{Argument::*, Call, OPERATIONS, WIDTHS},
    expected::{other_span, span},
    lent::Lent,
    random::Random,
    request::Request,
};

/// The bits that bitvec, and the library, take at once.
const CHUNK: u64 = 64;

/// How long rows are.
#[derive(Clone, Copy, Debug, Eq, PartialEq)]
pub enum Rows {
    /// At most so many bits.
    Short(u64),
    /// Mostly a few words, some a hundred.
    Mixed,
    /// Up to all of 65,536 words.
    Largest,
}

/// Makes it an accepted request of the call.
pub fn accepted<T: Lent>(request: &mut Request<T>, call: Call, rows: Rows, random: &mut Random) {
    request.reset(call);
    match call {
        Call::Position | Call::Selector | Call::Mask => without_span(request, random),
        Call::Split => {
            request[Width] = random.one_of(&WIDTHS);
            let length = row_length::<T>(rows, random).min(MOST_WORDS * request[Width]);
            request[Lent] = place_row(request, false, request[Width], length, rows, random);
            request[Place] = random.upto(length);
        }
        _ => {
            let length = if call.is_field() { field(request, random) } else { row_length::<T>(rows, random) };
            let length = if matches!(call, Call::ReadBit | Call::WriteBit) { length.max(1) } else { length };
            let lent = place_row(request, false, T::WIDTH, length, rows, random);
            contents(&mut request.words, lent, random);
            with_words(request, length, rows, random);
        }
    }
}

/// An index or a mask in range.
fn without_span<T: Lent>(request: &mut Request<T>, random: &mut Random) {
    let width = random.one_of(&WIDTHS);
    request[Width] = width;
    request[Order] = random.upto(1);
    request[Index] = random.upto(width - 1);
    request[From] = random.upto(width - 1);
    request[Upto] = request[From] + random.upto(width - request[From]);
}

/// What is left to say once the first span and its words stand.
fn with_words<T: Lent>(request: &mut Request<T>, length: u64, rows: Rows, random: &mut Random) {
    match request.call {
        Call::ReadBit | Call::WriteBit => {
            request[Index] = random.upto(length - 1);
            request[Bit] = random.upto(1);
        }
        Call::CopyWithin => copy_within(request, length, random),
        call if call.has_two_spans() => second_row(request, length, rows, random),
        _ => {}
    }
}

/// A length from 0 up: anything, or next to a multiple of the word's or of the chunk's width.
fn row_length<T: Lent>(rows: Rows, random: &mut Random) -> u64 {
    let most = match rows {
        Rows::Short(most) => most,
        Rows::Mixed => random.weighted(&[(1, 6_144), (2, 1_536), (6, 512), (9, 192)]),
        Rows::Largest => {
            let most = MOST_WORDS * T::WIDTH;
            return if random.once_in(2) { most - random.upto(3 * T::WIDTH) } else { random.upto(most) };
        }
    };
    match random.weighted(&[(2, None), (1, Some(T::WIDTH)), (1, Some(CHUNK))]) {
        None => random.upto(most),
        Some(unit) => {
            let near = unit * random.upto(most / unit);
            (near + random.upto(4)).saturating_sub(2).min(most)
        }
    }
}

/// Gives the first (or the second) span an order, a place and the length; says how many words have
/// to be lent. The span mostly ends in the last of them.
fn place_row<T: Lent>(request: &mut Request<T>, second: bool, width: u64, length: u64, rows: Rows, random: &mut Random) -> u64 {
    let (order, word, head) = if second { (OtherOrder, OtherWord, OtherHead) } else { (Order, Word, Head) };
    request[if second { OtherLength } else { Length }] = length;
    request[order] = if second { request[Order] } else { random.upto(1) };
    request[head] = random.upto(width - 1);
    request[word] = random.one_of(if matches!(rows, Rows::Short(_)) { &[0, 0, 0, 1] } else { &[0, 0, 1, 2] });
    let need = |request: &Request<T>| (request[word] * width + request[head] + length).div_ceil(width);
    if need(request) > MOST_WORDS {
        request[word] = 0;
    }
    if need(request) > MOST_WORDS {
        request[head] = MOST_WORDS * width - length;
    }
    let need = need(request);
    match rows {
        Rows::Largest if random.once_in(2) => {
            request[word] += MOST_WORDS - need;
            MOST_WORDS
        }
        Rows::Largest => MOST_WORDS,
        Rows::Short(_) => need + random.one_of(&[0, 0, 0, 1]),
        Rows::Mixed => need + random.one_of(&[0, 0, 0, 1, 2]),
    }
}

/// What bits words hold.
#[derive(Clone, Copy)]
enum Contents {
    Any,
    /// All bits are this one.
    All(bool),
    /// One to three bits are this one, the others not.
    Few(bool),
}

/// Fills the words: any bits, all zeros, all ones, or nearly so.
pub fn contents<T: Lent>(words: &mut Vec<T>, count: u64, random: &mut Random) {
    use Contents::{All, Any, Few};
    let all = |bit: bool| if bit { T::ALL_ONES } else { T::of(0) };
    words.clear();
    let count = count as usize;
    match random.weighted(&[(3, Any), (1, All(false)), (1, All(true)), (1, Few(true)), (2, Few(false))]) {
        Any => words.extend((0..count).map(|_| T::of(random.bits()))),
        All(bit) => words.resize(count, all(bit)),
        Few(bit) => {
            words.resize(count, all(!bit));
            for _ in 0..=random.upto(2) {
                if count > 0 {
                    let at = random.upto(count as u64 - 1) as usize;
                    let position = random.upto(T::WIDTH - 1);
                    words[at] = words[at].with_bit(position, bit);
                }
            }
        }
    }
}

/// A second row: of equal length where the call wants it, equal in contents in part of the requests
/// for equality, and there sometimes in the same words.
fn second_row<T: Lent>(request: &mut Request<T>, length: u64, rows: Rows, random: &mut Random) {
    let other_length = match request.call {
        Call::Boolean if random.once_in(2) => row_length::<T>(rows, random),
        Call::Equal if random.once_in(16) => row_length::<T>(rows, random),
        _ => length,
    };
    let lent = place_row(request, true, T::WIDTH, other_length, rows, random);
    if random.once_in(3) {
        let head = request[Head];
        if request[OtherWord] * T::WIDTH + head + other_length <= lent * T::WIDTH {
            request[OtherHead] = head;
        }
    }
    contents(&mut request.other, lent, random);
    if request.call == Call::Boolean {
        request[Operation] = random.one_of(&OPERATIONS);
    }
    if request.call == Call::Equal && length == other_length {
        make_equal(request, length, random);
    }
}

/// Makes the rows of an equality equal, or equal but for one bit, or leaves them, or has both in
/// the same words.
pub fn make_equal<T: Lent>(request: &mut Request<T>, length: u64, random: &mut Random) {
    if random.once_in(8) && request.words.len() >= request.other.len() {
        request.shared = true;
        return request.other.clear();
    }
    if random.once_in(4) {
        return;
    }
    let (left, right) = (span(request), other_span(request));
    let copied = model::copy_from(&mut request.other, right, &request.words, left);
    copied.expect("both spans are in bounds");
    if length > 0 && random.once_in(2) {
        let index = if random.once_in(2) { length - 1 } else { random.upto(length - 1) };
        let bit = model::bit_of(&request.other, right, index);
        model::set_bit_of(&mut request.other, right, index, !bit);
    }
}

/// Where a copy goes: to lower indexes or to higher ones.
#[derive(Clone, Copy)]
enum Way {
    Down,
    Up,
}

/// A copy that mostly overlaps itself.
fn copy_within<T: Lent>(request: &mut Request<T>, length: u64, random: &mut Random) {
    let count = if random.once_in(4) { random.upto(length) } else { length.saturating_sub(random.upto(130)) };
    let room = length - count;
    let start = random.upto(room);
    let near = random.one_of(&[1, 7, 8, 63, 64, 65, 127, 128]) + random.upto(2) - 1;
    let destination = match random.weighted(&[(1, None), (1, Some(Way::Down)), (2, Some(Way::Up))]) {
        None => random.upto(room),
        Some(Way::Down) => start.saturating_sub(near),
        Some(Way::Up) => (start + near).min(room),
    };
    request[Start] = start;
    request[Count] = count;
    request[Destination] = destination;
}

/// Gives a field its K, significance, sign and a value that a store takes; says its length.
fn field<T: Lent>(request: &mut Request<T>, random: &mut Random) -> u64 {
    let k = random.one_of(&[8, 16, 32, 64]);
    let length = match random.upto(3) {
        0 => k,
        1 => k - random.upto(k.min(3) - 1),
        _ => 1 + random.upto(k - 1),
    };
    request[K] = k;
    request[Significance] = random.upto(1);
    request[Sign] = random.upto(1);
    let signed = request[Sign] == 1;
    let mut bits = if signed { k - 1 } else { k };
    if request.call == Call::StoreStrict {
        bits = bits.min(if signed { length - 1 } else { length });
    }
    request[Value] = value_below(bits, random);
    request[Below] = signed as u64 & random.upto(1);
    // The lowest number of so many bits is refused 9: its magnitude is too large.
    if request.call == Call::StoreStrict && request[Below] == 1 && request[Value] == all_ones(bits) {
        request[Value] = 0;
        request[Below] = 0;
    }
    length
}

/// The largest number of so many bits.
fn all_ones(bits: u64) -> u64 {
    match bits {
        0 => 0,
        _ => u64::MAX >> (64 - bits),
    }
}

/// A number of at most so many bits: the largest, the one of the highest bit, or any.
fn value_below(bits: u64, random: &mut Random) -> u64 {
    match random.upto(7) {
        0 => all_ones(bits),
        1 => all_ones(bits) & !all_ones(bits.saturating_sub(1)),
        2 => all_ones(random.upto(bits)),
        _ => random.bits() & all_ones(bits),
    }
}
