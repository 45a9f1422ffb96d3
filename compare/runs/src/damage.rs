//! Damaged requests: for every refusal, and for several at once, so that their
//! order shows.

use model::{refusals::*, MOST_WORDS};

use crate::{
    call::{Argument, Argument::*, Call},
    lent::Lent,
    random::Random,
    request::Request,
};

/// Damages an accepted request in one to three places.
pub fn damage<T: Lent>(request: &mut Request<T>, random: &mut Random) {
    for _ in 0..random.one_of(&[1, 1, 1, 2, 2, 3]) {
        damage_once(request, random);
    }
}

/// Lends more words than a buffer may have.
pub fn lend_too_many<T: Lent>(request: &mut Request<T>, random: &mut Random) {
    let many = MOST_WORDS + random.one_of(&[1, 1, 2, 5_000]);
    if request.call == Call::Split {
        request[Lent] = random.one_of(&[many, MOST_WORDS * MOST_WORDS, u64::MAX]);
    } else if request.call.has_two_spans() && !request.shared && random.once_in(2) {
        request.other.resize(many as usize, T::of(0xA7));
    } else if request.call.lends() {
        request.words.resize(many as usize, T::of(0x5C));
    }
}

/// Damages it so that one of the call's refusals is due, unless another damage hides it.
fn damage_once<T: Lent>(request: &mut Request<T>, random: &mut Random) {
    match random.one_of(request.call.refusals()) {
        // Many words are slow to lend.
        TOO_MANY_WORDS if request.call != Call::Split && !random.once_in(64) => {}
        TOO_MANY_WORDS => lend_too_many(request, random),
        INDEX_TOO_LARGE => high_head(request, random),
        OUT_OF_BOUNDS => out_of_bounds(request, random),
        NO_SUCH_K => request[K] = random.one_of(&[0, 1, 7, 9, 24, 63, 65, 128, 264, (1 << 32) + 8, u64::MAX]),
        FIELD_LENGTH => wrong_length(request, random),
        ORDERS_DIFFER => request[OtherOrder] ^= 1,
        LENGTHS_DIFFER => differing_lengths(request, random),
        NOT_AN_INTEGER => high_value(request, request[K], random),
        DOES_NOT_FIT => high_value(request, request[Length], random),
        NOT_BELOW => past_the_span(request, random),
        _ => unknown_code(request, random),
    }
}

/// Makes an argument one that is no code.
fn unknown_code<T: Lent>(request: &mut Request<T>, random: &mut Random) {
    let codes = request.call.arguments().iter().copied().filter(|argument| argument.is_code());
    let codes: Vec<Argument> = codes.collect();
    let code = random.one_of(&codes);
    request[code] = match code {
        Width => random.one_of(&[0, 1, 7, 9, 63, 65, 128, 255]),
        Operation => random.one_of(&[0, 1, 7, 9, 13, 15, 16, 24, 128, 255]),
        _ => 2 + random.upto(253),
    };
}

/// Gives it a head, or an index in a word, of W or more.
fn high_head<T: Lent>(request: &mut Request<T>, random: &mut Random) {
    let width = if request.call.lends() { T::WIDTH } else { request[Width] };
    let high = random.one_of(&[width, width, width + 1, 256, 1 << 32, 1 << 63, u64::MAX]);
    match request.call {
        Call::Position | Call::Selector => request[Index] = high,
        Call::Mask => request[From] = high,
        call if call.has_two_spans() && random.once_in(2) => request[OtherHead] = high,
        _ => request[Head] = high,
    }
}

/// Gives it a span that is not in bounds, by one bit or by sums that pass 2^64.
fn out_of_bounds<T: Lent>(request: &mut Request<T>, random: &mut Random) {
    let second = request.call.has_two_spans() && random.once_in(2);
    let (lent, word, head, length) =
        if second { (OtherLent, OtherWord, OtherHead, OtherLength) } else { (Lent, Word, Head, Length) };
    let width = if request.call.lends() { T::WIDTH } else { request[Width].max(1) };
    let before = request[word].saturating_mul(width).saturating_add(request[head]);
    let room = request.number(lent).saturating_mul(width).saturating_sub(before);
    // Past the end by a bit or two; at or behind the last word; then numbers with which W * word, or a sum with it, passes
    // 2^64.
    match random.upto(5) {
        0 => request[length] = room.saturating_add(1 + random.upto(2)),
        1 => request[word] = request.number(lent).saturating_add(random.upto(2)),
        2 => request[word] = (1 << 63) / (width / 2).max(1),
        3 => request[length] = u64::MAX - random.upto(2 * width),
        4 => request[word] = u64::MAX - random.upto(2),
        _ => request[length] = random.one_of(&[1 << 32, 1 << 63, 1 << 61]),
    }
}

/// Gives it two lengths that differ.
fn differing_lengths<T: Lent>(request: &mut Request<T>, random: &mut Random) {
    let length = random.one_of(&[Length, OtherLength]);
    request[length] = match request[length] {
        0 => 1,
        length if random.once_in(2) => length - 1,
        length => random.upto(length),
    };
}

/// Gives a field a length that is not 1 to K.
fn wrong_length<T: Lent>(request: &mut Request<T>, random: &mut Random) {
    if random.once_in(2) {
        request[Length] = 0;
        return;
    }
    request[Length] = request[K].saturating_add(1 + random.upto(1));
    let wide = |argument| request[argument] as u128;
    let need = (wide(Word) * T::WIDTH as u128 + wide(Head) + wide(Length)).div_ceil(T::WIDTH as u128);
    if need < 64 {
        request.words.resize(need as usize, T::of(0x96));
    }
}

/// Gives a store a value next to the limits of so many bits: of K, or of the field.
fn high_value<T: Lent>(request: &mut Request<T>, bits: u64, random: &mut Random) {
    let power = |bits: u64| 1u64.checked_shl(bits as u32).unwrap_or(u64::MAX);
    request[Value] = match random.upto(5) {
        0 | 1 => power(bits),
        2 => power(bits.saturating_sub(1)),
        3 => power(bits.saturating_sub(1)) - 1,
        4 => u64::MAX,
        _ => random.bits(),
    };
    request[Below] = random.upto(1);
}

/// Gives it an index, a place or a copied range past the span's end, or a mask that is none.
fn past_the_span<T: Lent>(request: &mut Request<T>, random: &mut Random) {
    let past = |limit: u64, random: &mut Random| {
        let by = random.upto(1);
        random.one_of(&[limit.saturating_add(by), 1 << 63, u64::MAX, u64::MAX - limit])
    };
    match request.call {
        Call::Mask if request[From] > 0 && random.once_in(2) => request[Upto] = random.upto(request[From] - 1),
        Call::Mask => request[Upto] = past(request[Width].saturating_add(1), random),
        Call::Split => request[Place] = past(request[Length].saturating_add(1), random),
        Call::CopyWithin => {
            let number = random.one_of(&[Start, Count, Destination]);
            let room = request[Length].saturating_sub(if number == Count { 0 } else { request[Count] });
            request[number] = past(room.saturating_add(1), random);
        }
        _ => request[Index] = past(request[Length], random),
    }
}
