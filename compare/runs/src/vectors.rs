//! The making of the fixed file of requests and answers, and its check.

use std::process::ExitCode;

use model::{AND, MOST_WORDS};

use crate::{
    answer::Answer,
    call::{Argument::*, Call},
    damage::damage,
    expected,
    generate::{accepted, Rows},
    lent::Lent,
    library::{Exported, Places},
    random::Random,
    request::Request,
    rust,
    vector::{record, records, Read, Source, LABEL, MOST_WRITTEN},
};

/// The whole file: records of each call at each width, then those at the limit of words.
pub fn file(count: u64, seed: u64) -> Vec<u8> {
    let mut random = Random::new(seed);
    let mut all: Vec<Vec<u8>> = Vec::new();
    let each = count / Call::ALL.len() as u64;
    for (call, n) in Call::ALL.into_iter().flat_map(|call| (0..each).map(move |n| (call, n))) {
        all.push(match call.lends() && n < each / 2 {
            true => random_record::<u8>(call, 140, &mut random),
            false => random_record::<u64>(call, 120, &mut random),
        });
    }
    for call in Call::ALL.into_iter().filter(|call| call.lends()) {
        all.extend(limit_records::<u8>(call));
        all.extend(limit_records::<u64>(call));
    }
    let mut file = LABEL.to_vec();
    file.extend((all.len() as u64).to_le_bytes());
    file.extend(all.concat());
    file
}

/// A request of at most so many bits a row; two of five are damaged.
fn random_record<T: Lent>(call: Call, bits: u64, random: &mut Random) -> Vec<u8> {
    let mut request = Request::<T>::new(call);
    loop {
        accepted(&mut request, call, Rows::Short(bits), random);
        if random.upto(4) < 2 {
            damage(&mut request, random);
        }
        if request.shared {
            request.shared = false;
            request.other.clone_from(&request.words);
        }
        if request.words.len().max(request.other.len()) <= MOST_WRITTEN {
            return answered(&request);
        }
    }
}

/// The call with 65,536 zero words, and refused with one more on each side.
fn limit_records<T: Lent>(call: Call) -> Vec<Vec<u8>> {
    let mut request = Request::<T>::new(call);
    request[Length] = if call.is_field() || matches!(call, Call::ReadBit | Call::WriteBit) { 1 } else { 0 };
    request[K] = 8;
    request[Operation] = AND as u64;
    let lend = |request: &mut Request<T>, words: u64, other: u64| {
        request.words = vec![T::of(0); words as usize];
        request.other = vec![T::of(0); if call.has_two_spans() { other as usize } else { 0 }];
        answered(request)
    };
    let mut all = vec![lend(&mut request, MOST_WORDS, MOST_WORDS), lend(&mut request, MOST_WORDS + 1, MOST_WORDS)];
    if call.has_two_spans() {
        all.push(lend(&mut request, MOST_WORDS, MOST_WORDS + 1));
    }
    all
}

/// The record of a request: bitvec's answer where the rules accept, else the model's.
fn answered<T: Lent>(request: &Request<T>) -> Vec<u8> {
    let (mut words, mut other) = (request.words.clone(), request.other.clone());
    let answer = expected::answer(request, &mut words, &mut other);
    if let Answer::Refused(_) = answer {
        return record(request, answer, Source::Model, &words, &other);
    }
    let (mut rust_words, mut rust_other) = (request.words.clone(), request.other.clone());
    let rust = rust::answer(request, &mut rust_words, &mut rust_other);
    let same = rust == Ok(answer) && rust_words == words && rust_other == other;
    assert!(same, "bitvec and the model differ on\n{request}");
    record(request, answer, Source::Bitvec, &rust_words, &rust_other)
}

/// Holds the file to its making and the library to the file.
pub fn check(found: &[u8], made: &[u8]) -> ExitCode {
    if found != made {
        println!("the file is not the one that count and seed make");
        return ExitCode::FAILURE;
    }
    let records = records(found).expect("the form");
    let mut counts = [0; Call::ALL.len()];
    let mut from_bitvec = 0;
    let given = |call: Call, width: u8, answer: u8| {
        records.iter().any(|read| read.call == call && read.width == width && read.answer == answer)
    };
    for (call, width) in Call::ALL.into_iter().filter(|call| call.lends()).flat_map(|call| [(call, 8), (call, 64)]) {
        for &answer in call.refusals().iter().chain(&[0]) {
            assert!(given(call, width, answer), "no {} with answer {answer} at W = {width}", call.name());
        }
    }
    for (n, read) in records.iter().enumerate() {
        let agrees = match (read.call.lends(), read.width) {
            (true, 8) => replayed::<u8>(read),
            _ => replayed::<u64>(read),
        };
        if !agrees {
            println!("the library disagrees with record {n}, a {}", read.call.name());
            return ExitCode::FAILURE;
        }
        counts[read.call as usize] += 1;
        from_bitvec += (read.source == Source::Bitvec) as usize;
    }
    for call in Call::ALL {
        println!("{:<13}{:>6}", call.name(), counts[call as usize]);
    }
    println!("{} records, {from_bitvec} of them bitvec's answers: the library gives the same", records.len());
    ExitCode::SUCCESS
}

/// Whether the library gives a record's answer. Out-values are 0 before the call.
fn replayed<T: Exported>(read: &Read) -> bool {
    let told = read.told::<T>().expect("the form");
    let (mut words, mut other) = (told.request.words.clone(), told.request.other.clone());
    let mut places = Places::holding(0);
    let code = unsafe { T::call(&told.request, words.as_mut_ptr(), other.as_mut_ptr(), &mut places) };
    let results = told.results.iter().enumerate().all(|(n, &result)| *places.place(n) == result);
    code == read.answer && results && words == told.words_after && other == told.other_after
}
