//! Library, bitvec and model on the same requests.
//!
//!     differential COUNT SEED           the fixed parts, then COUNT random requests
//!     differential COUNT SEED every     the same, with every call on every span of two bytes
//!     differential self-test SEED       shows that wrong answers of every kind are found

use std::process::ExitCode;

use runs::{
    differential::{compare, self_test},
    parts::every::Asked,
    rust,
};

fn main() -> ExitCode {
    let words: Vec<String> = std::env::args().skip(1).collect();
    let words: Vec<&str> = words.iter().map(String::as_str).collect();
    let number = |word: &str| word.parse::<u64>();
    rust::let_bitvec_panic_quietly();
    match words[..] {
        ["self-test", seed] if number(seed).is_ok() => self_test(number(seed).unwrap()),
        [count, seed, ref rest @ ..] if number(count).is_ok() && number(seed).is_ok() && matches!(rest, [] | ["every"]) => {
            let asked = if rest.is_empty() { Asked::Some } else { Asked::All };
            compare(number(count).unwrap(), number(seed).unwrap(), asked)
        }
        _ => {
            eprintln!("usage: differential COUNT SEED [every] | differential self-test SEED");
            ExitCode::from(2)
        }
    }
}
