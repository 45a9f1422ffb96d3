//! Counts: what was asked, accepted, refused, compared.

use crate::{
    answer::Answer,
    call::{Argument, Call, NO_CODE},
    judge::Verdict,
    lent::Lent,
    request::Request,
};

/// The counts of one call.
#[derive(Clone, Default)]
struct Counts {
    by_width: [u64; 2],
    accepted: u64,
    with_rust: u64,
    /// Accepted, but bitvec goes below zero.
    below_zero: u64,
    /// Accepted, but bitvec stopped.
    stopped: u64,
    /// Refused, and bitvec stopped too.
    stopped_too: u64,
    disagree: u64,
    /// How often each of `REFUSALS` was given.
    refused: [u64; REFUSALS.len()],
}

/// The counts of all calls.
#[derive(Clone, Default)]
pub struct Tally {
    calls: [Counts; Call::ALL.len()],
    /// The heads of accepted spans that were met, as a set, by width and order.
    heads: [[u64; 2]; 2],
    /// The same of the indexes where they end.
    ends: [[u64; 2]; 2],
}

/// All that a call can be refused with, in the order in which it is counted.
const REFUSALS: [u8; 11] = [1, 2, 3, 4, 5, 6, 7, 8, 9, 10, NO_CODE];

/// Where a refusal is counted.
fn refusal_place(code: u8) -> usize {
    REFUSALS.iter().position(|&refusal| refusal == code).expect("a refusal")
}

impl Tally {
    /// Counts one request.
    pub fn note<T: Lent>(&mut self, request: &Request<T>, verdict: &Verdict) {
        let lends = request.call.lends();
        let width = if lends { T::WIDTH } else { request[Argument::Width] };
        let counts = &mut self.calls[request.call as usize];
        counts.by_width[(width != 8) as usize] += 1;
        let accepted = verdict.expected.code() == 0;
        counts.with_rust += (verdict.with_rust && accepted) as u64;
        counts.below_zero += verdict.below_zero as u64;
        counts.stopped += (verdict.stopped && accepted) as u64;
        counts.stopped_too += (verdict.stopped && !accepted) as u64;
        counts.disagree += verdict.complaint.is_some() as u64;
        match verdict.expected {
            Answer::Refused(code) => counts.refused[refusal_place(code)] += 1,
            _ => {
                counts.accepted += 1;
                if lends {
                    let (head, order) = (request[Argument::Head], request[Argument::Order] as usize);
                    let place = (width != 8) as usize;
                    self.heads[place][order] |= 1 << head;
                    self.ends[place][order] |= 1 << (head.wrapping_add(request[Argument::Length]) % width);
                }
            }
        }
    }

    /// Adds another run's counts.
    pub fn add(&mut self, other: &Tally) {
        for (mine, theirs) in self.calls.iter_mut().zip(&other.calls) {
            for (a, b) in mine.by_width.iter_mut().zip(theirs.by_width) {
                *a += b;
            }
            for (a, b) in mine.refused.iter_mut().zip(theirs.refused) {
                *a += b;
            }
            mine.accepted += theirs.accepted;
            mine.with_rust += theirs.with_rust;
            mine.below_zero += theirs.below_zero;
            mine.stopped += theirs.stopped;
            mine.stopped_too += theirs.stopped_too;
            mine.disagree += theirs.disagree;
        }
        for (mine, theirs) in [(&mut self.heads, &other.heads), (&mut self.ends, &other.ends)] {
            for (a, b) in mine.iter_mut().flatten().zip(theirs.iter().flatten()) {
                *a |= b;
            }
        }
    }

    /// All requests.
    pub fn requests(&self) -> u64 {
        self.calls.iter().map(|counts| counts.by_width.iter().sum::<u64>()).sum()
    }

    /// Those on which someone disagreed.
    pub fn disagree(&self) -> u64 {
        self.calls.iter().map(|counts| counts.disagree).sum()
    }

    /// What a full run has to have met and this one has not.
    pub fn missing(&self) -> Vec<String> {
        let mut missing = Vec::new();
        for call in Call::ALL {
            let counts = &self.calls[call as usize];
            for &code in call.refusals() {
                if counts.refused[refusal_place(code)] == 0 {
                    missing.push(format!("{} refused {code}", call.name()));
                }
            }
            if counts.accepted == 0 || counts.by_width.contains(&0) {
                missing.push(format!("{} accepted at both widths", call.name()));
            }
        }
        for (name, sets) in [("head", &self.heads), ("end", &self.ends)] {
            for (set, all) in sets.iter().zip([u8::MAX as u64, u64::MAX]) {
                if set.iter().any(|&met| met != all) {
                    missing.push(format!("every {name} in both orders: {set:X?}"));
                }
            }
        }
        missing
    }

    /// Prints the counts, one line a call.
    pub fn print(&self) {
        println!(
            "{:<13}{:>12}{:>12}{:>12}{:>13}{:>12}{:>9}",
            "call", "W = 8", "W = 64", "accepted", "with bitvec", "refused", "disagree"
        );
        let mut all = Counts::default();
        for call in Call::ALL {
            let counts = &self.calls[call as usize];
            let refused: u64 = counts.refused.iter().sum();
            let [w8, w64] = counts.by_width;
            println!(
                "{:<13}{w8:>12}{w64:>12}{:>12}{:>13}{refused:>12}{:>9}",
                call.name(),
                counts.accepted,
                counts.with_rust,
                counts.disagree
            );
            all.accepted += counts.accepted;
            all.with_rust += counts.with_rust;
            all.below_zero += counts.below_zero;
            all.stopped += counts.stopped;
            all.stopped_too += counts.stopped_too;
            for (sum, refused) in all.refused.iter_mut().zip(counts.refused) {
                *sum += refused;
            }
        }
        print!("refused with");
        for (number, refused) in REFUSALS.into_iter().zip(all.refused) {
            print!("  {number}: {refused}");
        }
        println!("\naccepted {}, of these compared with bitvec {}", all.accepted, all.with_rust);
        println!("refused 5, or 7 by copy_from, where bitvec stops too: {}", all.stopped_too);
        println!("accepted where bitvec goes below zero: {}, and stops: {}", all.below_zero, all.stopped);
    }
}
