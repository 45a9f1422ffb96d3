//! The fixed file of requests and answers.
//!
//!     vectors write FILE COUNT SEED    makes the file: about COUNT requests
//!     vectors check FILE COUNT SEED    makes it anew, compares, and puts each record to the library

use std::{fs, process::ExitCode};

use runs::{
    vector::records,
    vectors::{check, file},
};

fn main() -> ExitCode {
    let words: Vec<String> = std::env::args().skip(1).collect();
    let words: Vec<&str> = words.iter().map(String::as_str).collect();
    let [what @ ("write" | "check"), path, count, seed] = words[..] else {
        eprintln!("usage: vectors write|check FILE COUNT SEED");
        return ExitCode::from(2);
    };
    let file = file(count.parse().expect("a count"), seed.parse().expect("a seed"));
    if what == "write" {
        fs::write(path, &file).expect("the file to be writable");
        println!("{} records, {} bytes", records(&file).expect("the form").len(), file.len());
        return ExitCode::SUCCESS;
    }
    check(&fs::read(path).expect("the file to be readable"), &file)
}
