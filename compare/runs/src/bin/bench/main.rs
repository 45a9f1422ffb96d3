//! The library's speed beside bitvec's, plain Rust's, and that of memcpy, memmove, memcmp and memchr.
//!
//!     bench            measures and prints
//!     bench quick      the same, shorter: only the longest rows
//!     bench DOCS       measures, prints, and renews DOCS/BENCHMARKS.md and DOCS/benchmarks.svg, as in docs/benchmarks/neoverse-v1

use std::{
    fs,
    path::Path,
    process::{Command, ExitCode},
};

use line::{Line, Part};
use measures::{measure, Effort, LONGEST};
use model::Order;

mod alike;
mod contest;
mod fields;
mod line;
mod measures;
mod picture;
mod plain;
mod rows;
mod searches;
mod table;
mod width;

fn main() -> ExitCode {
    let words: Vec<String> = std::env::args().skip(1).collect();
    let words: Vec<&str> = words.iter().map(String::as_str).collect();
    let (effort, docs) = match words[..] {
        [] => (FULL, None),
        ["quick"] => (QUICK, None),
        [docs] if around(Path::new(docs)).is_some() => (FULL, Some(Path::new(docs))),
        _ => {
            eprintln!("usage: bench [quick | DOCS], DOCS with a BENCHMARKS.md that has a measured part");
            return ExitCode::from(2);
        }
    };
    alike::check(1_000_000);
    let lines = best(effort);
    table::print(&lines);
    println!("\n{}", table::summary(&lines));
    if let Some(docs) = docs {
        renew(docs, &lines);
    }
    ExitCode::SUCCESS
}

/// What the figures of docs/ are measured with.
const FULL: Effort = Effort { passes: 8, rounds: 15, all_lengths: true };
/// What shows that the benchmark runs.
const QUICK: Effort = Effort { passes: 1, rounds: 5, all_lengths: false };

/// Everything measured once.
fn pass(effort: Effort) -> Vec<Line> {
    let mut lines = Vec::new();
    measure::<u8>(&mut lines, effort);
    measure::<u64>(&mut lines, effort);
    lines
}

/// Everything measured in so many passes, with the best times: what disturbs one pass is gone in another.
fn best(effort: Effort) -> Vec<Line> {
    let mut lines = pass(effort);
    for _ in 1..effort.passes {
        lines.iter_mut().zip(pass(effort)).for_each(|(line, again)| line.keep_best(again.times));
    }
    lines
}

/// What stands in BENCHMARKS.md around the measured part.
const BEGIN: &str = "<!-- measured: begin -->\n";
const END: &str = "<!-- measured: end -->\n";

/// The text of BENCHMARKS.md before and after the measured part, if it has one.
fn around(docs: &Path) -> Option<(String, String)> {
    let text = fs::read_to_string(docs.join("BENCHMARKS.md")).ok()?;
    let (before, rest) = text.split_once(BEGIN)?;
    let (_, after) = rest.split_once(END)?;
    Some((before.to_string(), after.to_string()))
}

/// Puts the tables between the marks of BENCHMARKS.md, and the picture beside it.
fn renew(docs: &Path, lines: &[Line]) {
    let (before, after) = around(docs).expect("BENCHMARKS.md to have its marks");
    let machine = format!("Measured on: {}.\n\n", processor());
    let text = [&before, BEGIN, &machine, &table::markdown(lines), END, &after].concat();
    let shown =
        |line: &&Line| matches!(line.part, Part::Rows | Part::Searches) && line.words == LONGEST && line.order == Order::Lsb0;
    let shown: Vec<&Line> = lines.iter().filter(shown).collect();
    fs::write(docs.join("BENCHMARKS.md"), text).expect("BENCHMARKS.md to be writable");
    fs::write(docs.join("benchmarks.svg"), picture::svg(&shown)).expect("the picture to be writable");
}

/// The processor's name, as the system tells it: on Arm only `lscpu` knows one.
fn processor() -> String {
    let about = Command::new("lscpu")
        .env("LC_ALL", "C")
        .output()
        .map(|told| String::from_utf8_lossy(&told.stdout).into_owned())
        .unwrap_or_default();
    let told = |what| about.lines().find_map(|line| line.strip_prefix(what)).map(str::trim);
    let cores = std::thread::available_parallelism().map_or(1, |cores| cores.get());
    format!("{} ({}), {cores} cores", told("Model name:").unwrap_or("unknown processor"), std::env::consts::ARCH)
}
