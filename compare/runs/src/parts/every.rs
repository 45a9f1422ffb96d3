//! Every span of every buffer of two bytes, in both orders.

use crate::{
    call::{Argument::*, Call, FIELD_KINDS, OPERATIONS},
    generate::make_equal,
    random::Random,
    request::Request,
    run::Run,
};

/// How much is asked of each span of each buffer.
#[derive(Clone, Copy, Debug, Eq, PartialEq)]
pub enum Asked {
    /// One search, one load and one other call, picked at random.
    Some,
    /// Every search, the four kinds of load, and every other call.
    All,
}

/// The searches.
const SEARCHES: [Call; 4] = [Call::FirstOne, Call::LastOne, Call::FirstZero, Call::LastZero];

/// The calls on lent words that are neither searches nor loads.
const OTHERS: [Call; 9] = [
    Call::ReadBit,
    Call::WriteBit,
    Call::Store,
    Call::StoreStrict,
    Call::CopyFrom,
    Call::CopyWithin,
    Call::Boolean,
    Call::Swap,
    Call::Equal,
];

/// Goes through the buffers, orders and spans.
pub fn every_two_bytes(run: &mut Run<u8>, asked: Asked, random: &mut Random) {
    let mut request = Request::new(Call::FirstOne);
    request.words.resize(2, 0);
    request.other.resize(2, 0);
    for content in 0..=u16::MAX {
        for (order, begin) in (0..2).flat_map(|order| (0..=16).map(move |begin| (order, begin))) {
            for length in 0..=16 - begin {
                request.words.copy_from_slice(&content.to_le_bytes());
                request[Order] = order;
                request[Word] = begin / 8;
                request[Head] = begin % 8;
                request[Length] = length;
                request[K] = if length <= 8 { 8 } else { 16 };
                match asked {
                    Asked::Some => {
                        search(run, &mut request, random.one_of(&SEARCHES));
                        load(run, &mut request, random.one_of(&FIELD_KINDS));
                        other(run, &mut request, random.one_of(&OTHERS), random);
                    }
                    Asked::All => {
                        SEARCHES.into_iter().for_each(|call| search(run, &mut request, call));
                        FIELD_KINDS.into_iter().for_each(|kind| load(run, &mut request, kind));
                        OTHERS.into_iter().for_each(|call| other(run, &mut request, call, random));
                    }
                }
            }
        }
    }
}

/// One of the searches.
fn search(run: &mut Run<u8>, request: &mut Request<u8>, call: Call) {
    request.call = call;
    run.hold(request);
}

/// A load of one of the kinds of field.
fn load(run: &mut Run<u8>, request: &mut Request<u8>, kind: (u64, u64)) {
    // A field has at least one bit. bitvec stops on none, which is slow: one buffer shows it.
    if request[Length] == 0 && request.words != [0, 0] {
        return;
    }
    request.call = Call::Load;
    (request[Significance], request[Sign]) = kind;
    run.hold(request);
}

/// One of the other calls, with random numbers.
fn other(run: &mut Run<u8>, request: &mut Request<u8>, call: Call, random: &mut Random) {
    let length = request[Length];
    request.call = call;
    match call {
        Call::ReadBit | Call::WriteBit => {
            request[Index] = random.upto(length);
            request[Bit] = random.upto(1);
        }
        Call::Store | Call::StoreStrict => {
            if length == 0 {
                return;
            }
            request[Significance] = random.upto(1);
            request[Sign] = random.upto(1);
            request[Below] = request[Sign] & random.upto(1);
            request[Value] = random.upto((1 << (length - request[Sign])) - 1);
        }
        Call::CopyWithin => {
            request[Count] = random.upto(length);
            request[Start] = random.upto(length - request[Count]);
            request[Destination] = random.upto(length - request[Count]);
        }
        _ => {
            let begin = random.upto(16 - length);
            request[OtherOrder] = request[Order];
            request[OtherWord] = begin / 8;
            request[OtherHead] = begin % 8;
            request[OtherLength] = length;
            request[Operation] = random.one_of(&OPERATIONS);
            request.other.copy_from_slice(&(random.bits() as u16).to_le_bytes());
            if call == Call::Equal {
                make_equal(request, length, random);
            }
        }
    }
    run.hold(request);
    request.shared = false;
    request.other.resize(2, 0);
}
