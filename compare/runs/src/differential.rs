//! The differential run, and its test of itself.

use std::{process::ExitCode, time::Instant};

use bitvec::order::{verify, Lsb0, Msb0};

use crate::{
    call::Call,
    fault::Fault,
    library::Exported,
    parts::{
        edges,
        every::{every_two_bytes, Asked},
        mixed, samples,
    },
    random::Random,
    request::Request,
    run::Run,
};

/// Runs all parts; fails on a disagreement, and where a large run has not met what it has to.
pub fn compare(count: u64, seed: u64, asked: Asked) -> ExitCode {
    let begun = Instant::now();
    let (mut bytes, mut words) = (Run::<u8>::new(None), Run::<u64>::new(None));
    let mut random = Random::new(seed);
    verify::<Lsb0>(false);
    verify::<Msb0>(false);
    let (rows, differ) = samples::samples(&mut bytes);
    println!("{rows} sample rows, {differ} differ from the model");
    edges::positions(&mut words);
    edges::heads(&mut bytes, &mut random);
    edges::heads(&mut words, &mut random);
    edges::limits(&mut bytes, &mut random);
    edges::limits(&mut words, &mut random);
    every_two_bytes(&mut bytes, asked, &mut random);
    println!("fixed parts {} requests, {} s", bytes.tally.requests() + words.tally.requests(), begun.elapsed().as_secs());
    mixed::mixed(&mut bytes, count / 2, &mut random);
    mixed::mixed(&mut words, count - count / 2, &mut random);

    let mut tally = bytes.tally;
    tally.add(&words.tally);
    tally.print();
    let missing = if count < 1_000_000 { Vec::new() } else { tally.missing() };
    missing.iter().for_each(|what| println!("not met: {what}"));
    println!(
        "seed {seed}, {count} of them random, {} s, overflow checks {}",
        begun.elapsed().as_secs(),
        if cfg!(debug_assertions) { "on" } else { "off" }
    );
    println!("{} requests, {} disagree", tally.requests(), tally.disagree());
    ExitCode::from((differ > 0 || tally.disagree() > 0 || !missing.is_empty()) as u8)
}

/// Spoils the library's answers in each way; fails where a way is not found.
pub fn self_test(seed: u64) -> ExitCode {
    let mut missed = 0;
    for &fault in Fault::ALL {
        let found = find::<u8>(fault, seed).or_else(|| find::<u64>(fault, seed));
        match found {
            Some((after, smallest)) => println!("{fault:?} found after {after} requests; the smallest:\n{smallest}\n"),
            None => {
                missed += 1;
                println!("{fault:?} NOT FOUND\n");
            }
        }
    }
    println!("{} kinds of wrong answers, {missed} not found", Fault::ALL.len());
    ExitCode::from((missed > 0) as u8)
}

/// The number of random requests after which the fault shows, and the smallest that shows it. The
/// library itself has to agree on that one.
fn find<T: Exported>(fault: Fault, seed: u64) -> Option<(u64, String)> {
    let (mut sound, mut spoiled) = (Run::<T>::new(None), Run::<T>::new(Some(fault)));
    let mut random = Random::new(seed);
    let mut request = Request::new(Call::Position);
    for n in 1..=200_000 {
        mixed::next(&mut request, &mut random);
        if spoiled.disagrees(&request) {
            return (!sound.disagrees(&request)).then(|| (n, spoiled.smallest(&request)));
        }
    }
    None
}
