//! The smallest request that still disagrees.

use std::time::{Duration, Instant};

use model::{bit_of, set_bit_of, Span};

use crate::{
    call::{Argument, Argument::*},
    expected::{other_span, span},
    lent::Lent,
    request::Request,
};

/// Takes a disagreeing request apart, step by step, as long as it disagrees.
pub fn shrink<T: Lent>(request: &Request<T>, mut disagrees: impl FnMut(&Request<T>) -> bool) -> Request<T> {
    let until = Instant::now() + Duration::from_secs(20);
    let mut smallest = request.clone();
    while let Some(smaller) = steps(&smallest)
        .into_iter()
        .take_while(|_| Instant::now() < until)
        .find_map(|step| step.taken(&smallest).filter(|smaller| disagrees(smaller)))
    {
        smallest = smaller;
    }
    smallest
}

/// One way to make a request smaller.
enum Step {
    /// These numbers become other ones.
    Numbers(Vec<(Argument, u64)>),
    /// The buffers keep so many words.
    Keep { words: usize, other: usize },
    /// So many words go, and the spans lose as many bits.
    Shorten { words: usize, other: usize },
    /// So many bits of each row go, from an index on, and what follows moves up. The rows begin at
    /// these heads of the first word, with zeros around them.
    Relay { from: u64, bits: u64, head: u64, other_head: u64 },
    /// A word becomes another one.
    Word { second: bool, at: usize, number: u64 },
    /// All words become 0.
    Blank,
}

impl Step {
    /// The request after the step, if it is smaller.
    fn taken<T: Lent>(&self, request: &Request<T>) -> Option<Request<T>> {
        let mut smaller = request.clone();
        match *self {
            Step::Numbers(ref numbers) => numbers.iter().for_each(|&(argument, number)| smaller[argument] = number),
            Step::Keep { words, other } => {
                smaller.words.truncate(words);
                smaller.other.truncate(other);
            }
            Step::Shorten { words, other } => {
                smaller.words.truncate(request.words.len().checked_sub(words)?);
                smaller.other.truncate(request.other.len().checked_sub(other)?);
                smaller[Length] = request[Length].saturating_sub(words as u64 * T::WIDTH);
                smaller[OtherLength] = request[OtherLength].saturating_sub(other as u64 * T::WIDTH);
            }
            Step::Relay { from, bits, head, other_head } => {
                let row = relaid(&request.words, span(request), from, bits, head)?;
                smaller.words = row.words;
                smaller[Word] = 0;
                smaller[Head] = head;
                smaller[Length] = row.length;
                smaller[Count] = request[Count].min(row.length);
                if request.lends_other() {
                    let row = relaid(&request.other, other_span(request), from, bits, other_head)?;
                    smaller.other = row.words;
                    smaller[OtherWord] = 0;
                    smaller[OtherHead] = other_head;
                    smaller[OtherLength] = row.length;
                }
            }
            Step::Word { second, at, number } => {
                let words = if second { &mut smaller.other } else { &mut smaller.words };
                words[at] = T::of(number);
            }
            Step::Blank => {
                smaller.words.fill(T::of(0));
                smaller.other.fill(T::of(0));
            }
        }
        (size(&smaller) < size(request)).then_some(smaller)
    }
}

/// A row in words of its own.
struct Relaid<T> {
    words: Vec<T>,
    length: u64,
}

/// The row of a span without `bits` of its bits from `from` on, begun at `head`. None where the span
/// is not in bounds.
fn relaid<T: Lent>(words: &[T], old: Span, from: u64, bits: u64, head: u64) -> Option<Relaid<T>> {
    model::equal(words, old, words, old).ok()?;
    let kept: Vec<bool> = (0..old.length).filter(|&i| i < from || i - from >= bits).map(|i| bit_of(words, old, i)).collect();
    let length = kept.len() as u64;
    let row = Span { order: old.order, word: 0, head, length };
    let mut words = vec![T::of(0); (head + length).div_ceil(T::WIDTH) as usize];
    for (i, bit) in (0..).zip(kept) {
        set_bit_of(&mut words, row, i, bit);
    }
    Some(Relaid { words, length })
}

/// What smaller means: fewer words, then smaller numbers, then fewer ones.
fn size<T: Lent>(request: &Request<T>) -> (usize, u128, u64) {
    let numbers = request.call.arguments().iter().map(|&argument| request[argument] as u128).sum();
    let ones = request.words.iter().chain(&request.other).map(|word| word.number().count_ones() as u64).sum();
    (request.words.len() + request.other.len(), numbers, ones)
}

/// The steps to try, the largest first.
fn steps<T: Lent>(request: &Request<T>) -> Vec<Step> {
    let mut steps = Vec::new();
    keep_steps(request, &mut steps);
    relay_steps(request, &mut steps);
    number_steps(request, &mut steps);
    content_steps(request, &mut steps);
    steps
}

/// Fewer words.
fn keep_steps<T: Lent>(request: &Request<T>, steps: &mut Vec<Step>) {
    let (words, other) = (request.words.len(), request.other.len());
    for fewer in [|n: usize| n / 2, |n: usize| n.saturating_sub(1)] {
        steps.push(Step::Keep { words: fewer(words), other: fewer(other) });
        steps.push(Step::Keep { words: fewer(words), other });
        steps.push(Step::Keep { words, other: fewer(other) });
        let (words, other) = (words - fewer(words), other - fewer(other));
        steps.push(Step::Shorten { words, other });
        steps.push(Step::Shorten { words, other: 0 });
        steps.push(Step::Shorten { words: 0, other });
    }
}

/// Fewer bits in the rows, and smaller heads.
fn relay_steps<T: Lent>(request: &Request<T>, steps: &mut Vec<Step>) {
    if !request.call.lends() || request[Length] > 65_536 * T::WIDTH {
        return;
    }
    let (head, other_head) = (request[Head], request[OtherHead]);
    let mut bits = request[Length] / 2;
    while bits > 0 {
        let places = (0..request[Length]).step_by(bits as usize).take(256);
        steps.extend(places.map(|from| Step::Relay { from, bits, head, other_head }));
        bits /= 2;
    }
    for (head, other_head) in [(0, 0), (0, other_head), (head, 0), (head / 2, other_head / 2)] {
        steps.push(Step::Relay { from: 0, bits: 0, head, other_head });
    }
}

/// Numbers that go together: what lowers one has to lower the other.
const TOGETHER: [&[Argument]; 7] = [
    &[Length, OtherLength],
    &[Length, Count],
    &[Length, Index],
    &[Length, Start, Destination],
    &[Start, Destination],
    &[Length, K],
    &[Head, OtherHead],
];

/// Smaller numbers.
fn number_steps<T: Lent>(request: &Request<T>, steps: &mut Vec<Step>) {
    let takes = |argument: &Argument| request.call.arguments().contains(argument);
    let singles = request.call.arguments().chunks(1);
    for group in singles.chain(TOGETHER).filter(|group| group.iter().all(takes)) {
        for smaller in [|_: u64| 0, |n: u64| n / 2, |n: u64| n - n / 8, |n: u64| n.saturating_sub(1)] {
            let numbers = group.iter().map(|&argument| (argument, smaller(request[argument]))).collect();
            steps.push(Step::Numbers(numbers));
        }
    }
    if takes(&K) {
        steps.extend([8, 16, 32].map(|k| Step::Numbers(vec![(K, k)])));
        let shorter = request[Length].saturating_sub(1);
        steps.push(Step::Numbers(vec![(Length, shorter), (Value, request[Value] / 2)]));
    }
}

/// Fewer ones.
fn content_steps<T: Lent>(request: &Request<T>, steps: &mut Vec<Step>) {
    steps.push(Step::Blank);
    for (second, words) in [(false, &request.words), (true, &request.other)] {
        if words.len() > 64 {
            continue;
        }
        for (at, word) in words.iter().enumerate().filter(|(_, word)| word.number() != 0) {
            let number = word.number();
            steps.push(Step::Word { second, at, number: 0 });
            let ones = (0..64).filter(|bit| (number >> bit) & 1 == 1);
            steps.extend(ones.map(|bit| Step::Word { second, at, number: number & !(1 << bit) }));
        }
    }
}
