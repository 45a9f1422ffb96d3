//! The sample rows of the rules: requests with the answers that are written
//! down there, which the model has to give too.

use model::{
    refusals::{DOES_NOT_FIT, FIELD_LENGTH, INDEX_TOO_LARGE, NOT_AN_INTEGER, TOO_MANY_WORDS},
    Order::{Lsb0, Msb0},
    Sign::{Signed, Unsigned},
    Significance::{Be, Le},
    AND, OR, XOR,
};

use crate::{
    answer::Answer,
    call::{Argument, Argument::*, Call},
    expected,
    request::Request,
    run::Run,
};

/// A request on bytes, and what it is owed: the answer and the bytes after it.
struct Sample {
    request: Request<u8>,
    answer: Answer,
    after: Vec<u8>,
}

/// A sample: the call, the bytes lent, its numbers (others are 0), the answer and the bytes after it.
fn sample(call: Call, bytes: &[u8], numbers: &[(Argument, u64)], answer: Answer, after: &[u8]) -> Sample {
    let mut request = Request::new(call);
    request.words = bytes.to_vec();
    numbers.iter().for_each(|&(argument, number)| request[argument] = number);
    Sample { request, answer, after: after.to_vec() }
}

/// Runs them; says how many there are and how many the model answers otherwise.
pub fn samples(run: &mut Run<u8>) -> (usize, usize) {
    let all: Vec<Sample> = [loads(), stores(), searches_and_masks(), rows(), limits()].into_iter().flatten().collect();
    let mut differ = 0;
    for sample in &all {
        run.hold(&sample.request);
        let (mut after, mut other) = (sample.request.words.clone(), sample.request.other.clone());
        let answer = expected::answer(&sample.request, &mut after, &mut other);
        if answer != sample.answer || after != sample.after {
            differ += 1;
            println!("sample row: {}", sample.request);
            println!("    the model gives {answer} {after:X?}, written is {} {:X?}", sample.answer, sample.after);
        }
    }
    (all.len(), differ)
}

/// The document's row.
const ROW: [u8; 3] = [0xB4, 0x6C, 0xF1];

const ORDERS: [model::Order; 2] = [Lsb0, Msb0];

/// The rows on loads, both orders.
fn loads() -> Vec<Sample> {
    let rows: [(u64, u64, u64, model::Significance, model::Sign, [i64; 2]); 9] = [
        // head, length, K, significance, sign, the number in each order
        (4, 8, 8, Le, Unsigned, [0xCB, 0x64]),
        (4, 8, 8, Be, Unsigned, [0xBC, 0x46]),
        (4, 8, 8, Le, Signed, [-53, 100]),
        (3, 3, 8, Le, Unsigned, [6, 5]),
        (3, 3, 8, Be, Unsigned, [6, 5]),
        (3, 3, 8, Le, Signed, [-2, -3]),
        (3, 3, 8, Be, Signed, [-2, -3]),
        (4, 16, 16, Le, Unsigned, [0x16CB, 0xF6C4]),
        (4, 16, 16, Be, Unsigned, [0xB6C1, 0x46CF]),
    ];
    let of_order = |order: model::Order| {
        rows.map(|(head, length, k, significance, sign, numbers)| {
            let codes = [(Order, order as u64), (Significance, significance as u64), (Sign, sign as u64)];
            let arguments = [&codes[..], &[(Head, head), (Length, length), (K, k)]].concat();
            sample(Call::Load, &ROW, &arguments, Answer::Number(numbers[order as usize] as u64), &ROW)
        })
    };
    ORDERS.into_iter().flat_map(of_order).collect()
}

/// The rows on stores.
fn stores() -> Vec<Sample> {
    let rows = [(Lsb0, Le, [0xB0, 0x0C, 0x00]), (Msb0, Le, [0x0B, 0xC0, 0x00]), (Lsb0, Be, [0xC0, 0x0B, 0x00])];
    let store = |(order, significance, after): (model::Order, model::Significance, [u8; 3])| {
        let codes = [(Order, order as u64), (Significance, significance as u64)];
        let arguments = [&codes[..], &[(Head, 4), (Length, 8), (K, 8), (Value, 0xCB)]].concat();
        sample(Call::Store, &[0; 3], &arguments, Answer::Done, &after)
    };
    rows.into_iter().map(store).collect()
}

/// The rows on searches and masks, and the searches that find nothing at head 0.
fn searches_and_masks() -> Vec<Sample> {
    let rows = [(Call::FirstOne, [2, 0]), (Call::LastOne, [7, 5]), (Call::FirstZero, [0, 1]), (Call::LastZero, [6, 7])];
    let mut samples = Vec::new();
    for order in ORDERS {
        for (call, found) in rows {
            let arguments = [(Order, order as u64), (Length, 8)];
            samples.push(sample(call, &[0xB4], &arguments, Answer::Found(found[order as usize]), &[0xB4]));
        }
        let arguments = [(Width, 8), (Order, order as u64), (From, 2), (Upto, 5)];
        samples.push(sample(Call::Mask, &[], &arguments, Answer::Number([0x1C, 0x38][order as usize]), &[]));
    }
    // The last-index searches that bitvec goes below zero in: nothing found is absent.
    for (call, byte) in [(Call::LastOne, 0x00), (Call::LastZero, 0xFF)] {
        samples.push(sample(call, &[byte], &[(Order, Msb0 as u64), (Length, 1)], Answer::Absent, &[byte]));
    }
    samples
}

/// The rows on copy inside and boolean operations.
fn rows() -> Vec<Sample> {
    let copy = [(Length, 8), (Start, 0), (Count, 5), (Destination, 2)];
    let mut samples = vec![sample(Call::CopyWithin, &[0xB4], &copy, Answer::Done, &[0xD0])];
    for (operation, after) in [(AND, 0x04), (OR, 0xBF), (XOR, 0xBB)] {
        let arguments = [(Length, 8), (OtherLength, 4), (Operation, operation as u64)];
        let mut boolean = sample(Call::Boolean, &[0xB4], &arguments, Answer::Done, &[after]);
        boolean.request.other = vec![0xFF];
        samples.push(boolean);
    }
    samples
}

/// The limits: what is just accepted and what is just refused.
fn limits() -> Vec<Sample> {
    let many = |count, answer| sample(Call::FirstOne, &vec![0; count], &[], answer, &vec![0; count]);
    let head = |head, answer| sample(Call::FirstOne, &ROW, &[(Head, head)], answer, &ROW);
    let load = |length, answer| sample(Call::Load, &ROW, &[(K, 8), (Length, length)], answer, &ROW);
    let strict = |k, value, answer, after: [u8; 2]| {
        sample(Call::StoreStrict, &[0; 2], &[(Length, 8), (K, k), (Value, value)], answer, &after)
    };
    vec![
        many(65_536, Answer::Absent),
        many(65_537, Answer::Refused(TOO_MANY_WORDS)),
        head(7, Answer::Absent),
        head(8, Answer::Refused(INDEX_TOO_LARGE)),
        load(8, Answer::Number(0xB4)),
        load(9, Answer::Refused(FIELD_LENGTH)),
        load(0, Answer::Refused(FIELD_LENGTH)),
        strict(8, 255, Answer::Done, [255, 0]),
        strict(16, 256, Answer::Refused(DOES_NOT_FIT), [0; 2]),
        strict(8, 256, Answer::Refused(NOT_AN_INTEGER), [0; 2]),
    ]
}
