//! Random requests of all calls: accepted ones and damaged ones.

use crate::{
    call::Call,
    damage::{damage, lend_too_many},
    generate::{accepted, Rows},
    lent::Lent,
    library::Exported,
    random::Random,
    request::Request,
    run::Run,
};

/// How often each call is asked, out of 100 requests.
const SHARES: [(Call, usize); 18] = [
    (Call::Position, 1),
    (Call::Selector, 1),
    (Call::Mask, 2),
    (Call::Split, 3),
    (Call::ReadBit, 4),
    (Call::WriteBit, 4),
    (Call::Load, 10),
    (Call::Store, 9),
    (Call::StoreStrict, 8),
    (Call::CopyFrom, 9),
    (Call::CopyWithin, 9),
    (Call::Boolean, 9),
    (Call::Swap, 6),
    (Call::Equal, 9),
    (Call::FirstOne, 4),
    (Call::LastOne, 4),
    (Call::FirstZero, 4),
    (Call::LastZero, 4),
];

/// Makes it the next random request.
pub fn next<T: Lent>(request: &mut Request<T>, random: &mut Random) {
    let mut share = random.upto(99) as usize;
    let mut calls = SHARES.into_iter();
    let call = calls.find_map(|(call, part)| {
        let within = share < part;
        share = share.wrapping_sub(part);
        within.then_some(call)
    });
    let call = call.expect("the shares are 100 together");
    let rows = if random.once_in(32_768) { Rows::Largest } else { Rows::Mixed };
    accepted(request, call, rows, random);
    if random.once_in(4) {
        damage(request, random);
    } else if random.once_in(4_096) {
        lend_too_many(request, random);
    }
}

/// So many random requests.
pub fn mixed<T: Exported>(run: &mut Run<T>, count: u64, random: &mut Random) {
    let mut request = Request::new(Call::Position);
    for _ in 0..count {
        next(&mut request, random);
        run.hold(&request);
    }
}
