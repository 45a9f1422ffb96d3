//! Every head, and every pair of heads, with lengths around the limits of words
//! and chunks; every index and mask; the limit of words.

use crate::{
    call::{Argument::*, Call, FIELD_KINDS, OPERATIONS, WIDTHS},
    damage::lend_too_many,
    generate::{accepted, contents, Rows},
    lent::Lent,
    library::Exported,
    random::Random,
    request::Request,
    run::Run,
};

/// Lengths next to the first limits of words and of 64-bit chunks.
fn lengths<T: Lent>() -> Vec<u64> {
    let limits = [0, T::WIDTH, 2 * T::WIDTH, 64, 128, 192];
    let mut lengths: Vec<u64> = limits.iter().flat_map(|&limit| limit.saturating_sub(1)..=limit + 1).collect();
    lengths.sort();
    lengths.dedup();
    lengths
}

/// Every call that is lent words, at every head and pair of heads.
pub fn heads<T: Exported>(run: &mut Run<T>, random: &mut Random) {
    let mut request = Request::new(Call::ReadBit);
    for order in 0..2 {
        for head in 0..T::WIDTH {
            for length in lengths::<T>() {
                for call in Call::ALL.into_iter().filter(|call| call.lends()) {
                    request.reset(call);
                    let lent = (head + length).div_ceil(T::WIDTH);
                    contents(&mut request.words, lent, random);
                    request[Order] = order;
                    request[Head] = head;
                    request[Length] = length;
                    at_head(run, &mut request, random);
                }
            }
        }
    }
}

/// The requests of one call at one head: every other head, size or direction with it.
fn at_head<T: Exported>(run: &mut Run<T>, request: &mut Request<T>, random: &mut Random) {
    let length = request[Length];
    match request.call {
        Call::ReadBit | Call::WriteBit => {
            for index in [0, length / 2, length.saturating_sub(1), length] {
                request[Index] = index;
                request[Bit] = random.upto(1);
                run.hold(request);
            }
        }
        Call::Load | Call::Store | Call::StoreStrict => {
            for (k, kind) in [8, 16, 32, 64].into_iter().flat_map(|k| FIELD_KINDS.map(|kind| (k, kind))) {
                request[K] = k;
                (request[Significance], request[Sign]) = kind;
                request[Value] = random.bits() >> random.upto(63);
                request[Below] = request[Sign] & random.upto(1);
                run.hold(request);
            }
        }
        Call::CopyWithin => {
            for by in [1, 2, T::WIDTH - 1, T::WIDTH, T::WIDTH + 1, 64].into_iter().filter(|&by| by <= length) {
                request[Count] = length - by;
                for (start, destination) in [(0, by), (by, 0), (0, 0)] {
                    request[Start] = start;
                    request[Destination] = destination;
                    run.hold(request);
                }
            }
        }
        call if call.has_two_spans() => {
            for other_head in 0..T::WIDTH {
                request[OtherOrder] = request[Order];
                request[OtherHead] = other_head;
                request[OtherLength] = length;
                request[Operation] = random.one_of(&OPERATIONS);
                contents(&mut request.other, (other_head + length).div_ceil(T::WIDTH), random);
                run.hold(request);
            }
        }
        _ => run.hold(request),
    }
}

/// Every width, order and index, in and out of range.
pub fn positions(run: &mut Run<u64>) {
    let indexes = || (0..=66).chain([128, 255, 256, 1 << 32, 1 << 63, u64::MAX]);
    for (width, order) in (0..256).flat_map(|width| (0..4).map(move |order| (width, order))) {
        for call in [Call::Position, Call::Selector, Call::Mask] {
            let mut request = Request::new(call);
            request[Width] = width;
            request[Order] = order;
            let known = WIDTHS.contains(&width) && order < 2;
            for index in indexes() {
                request[Index] = index;
                request[From] = index;
                if call == Call::Mask && known {
                    for upto in indexes() {
                        request[Upto] = upto;
                        run.hold(&request);
                    }
                } else {
                    run.hold(&request);
                }
            }
        }
    }
}

/// Every call at the limit of words: 65,536 are accepted, more are refused.
pub fn limits<T: Exported>(run: &mut Run<T>, random: &mut Random) {
    let mut request = Request::new(Call::Split);
    for call in Call::ALL.into_iter().filter(|call| call.has_span()) {
        for _ in 0..4 {
            accepted(&mut request, call, Rows::Largest, random);
            run.hold(&request);
            lend_too_many(&mut request, random);
            run.hold(&request);
            accepted(&mut request, call, Rows::Mixed, random);
            lend_too_many(&mut request, random);
            run.hold(&request);
        }
    }
}
