//! What is measured, and the bars it is held to.

use model::{
    Order,
    Sign::{Signed, Unsigned},
    Significance::{Be, Le},
    AND, OR, XOR,
};
use runs::call::Call;

use crate::{
    contest::{Buffers, Who},
    fields,
    line::{Bar, Line, Part},
    plain::Plain,
    rows::{self, Job, Task},
    searches::{self, Bit},
    width::{Kind, Row, Width},
};

/// How much is measured.
#[derive(Clone, Copy, PartialEq)]
pub struct Effort {
    /// How often everything is measured, of which the best times are kept.
    pub passes: usize,
    /// How often each contestant is timed in a pass.
    pub rounds: usize,
    /// Whether shorter rows than the longest are measured too.
    pub all_lengths: bool,
}

/// The most words of a row.
pub const LONGEST: usize = 1 << 16;

/// Measures everything at one width.
pub fn measure<T: Width>(lines: &mut Vec<Line>, effort: Effort) {
    for order in [Order::Lsb0, Order::Msb0] {
        fields::<T>(lines, effort, order);
        if order == Order::Lsb0 {
            known_fields::<T>(lines, effort);
        }
        short_rows::<T>(lines, effort, order);
        for words in lengths::<T>(effort) {
            long_rows::<T>(lines, effort, order, words);
            far_searches::<T>(lines, effort, order, words);
        }
        across::<T>(lines, effort, inside::<T>(order));
        across::<T>(lines, effort, heads::<T>(order));
        first_word_searches::<T>(lines, effort, order);
    }
}

/// The lengths of rows: those asked for, and that of 64 KiB.
fn lengths<T: Width>(effort: Effort) -> Vec<usize> {
    let mut lengths = if effort.all_lengths { vec![1 << 6, 1 << 10, 1 << 14] } else { Vec::new() };
    lengths.extend([LONGEST, LONGEST / size_of::<T>()]);
    lengths.sort();
    lengths.dedup();
    lengths
}

/// Whether a row is one that the bars speak of: 65,536 words or 64 KiB.
fn is_long<T: Width>(words: usize) -> bool {
    words == LONGEST || words == LONGEST / size_of::<T>()
}

/// The library is to be at least so many times as fast as another.
fn bar(against: Who, at_least: f64) -> Bar {
    Bar { against, at_least, or_rate: None }
}

/// At most one and a half times the time of plain Rust.
const NEARLY_PLAIN: f64 = 1.0 / 1.5;

/// Loads and stores of fields at odd heads.
fn fields<T: Width>(lines: &mut Vec<Line>, effort: Effort, order: Order) {
    for (k, significance, sign) in
        [8, 64].into_iter().flat_map(|k| [(k, Le, Unsigned), (k, Be, Unsigned), (k, Le, Signed), (k, Be, Signed)])
    {
        let kind = Kind { k, significance, sign };
        let mut measure = |job, name, wide, narrow| {
            let times = fields::contest::<T>(job, order, kind).run(effort.rounds);
            let bars = vec![bar(Who::Bitvec, if size_of::<T>() == 8 { wide } else { narrow })];
            let width = <T as Plain>::WIDTH;
            lines.push(Line { part: Part::Fields, job: name, width, order, words: fields::WORDS, bits: k, times, bars });
        };
        measure(fields::Job::Load, field_name("load", kind), 1.3, 1.6);
        if sign == Unsigned {
            measure(fields::Job::Store, field_name("store", kind), 1.1, 1.3);
        }
    }
}

/// The same of Lsb0 le fields, by Rattle code that knows so much of them.
fn known_fields<T: Width>(lines: &mut Vec<Line>, effort: Effort) {
    for (k, job, name) in [
        (8, fields::Job::Load, "load u8 le"),
        (8, fields::Job::Store, "store u8 le"),
        (64, fields::Job::Load, "load u64 le"),
        (64, fields::Job::Store, "store u64 le"),
    ] {
        let times = fields::known_contest::<T>(job, k).run(effort.rounds);
        let (width, bars) = (<T as Plain>::WIDTH, vec![bar(Who::Bitvec, 2.0)]);
        lines.push(Line {
            part: Part::KnownFields,
            job: name,
            width,
            order: Order::Lsb0,
            words: fields::WORDS,
            bits: k,
            times,
            bars,
        });
    }
}

/// A field job's name, as "load u8 le".
fn field_name(job: &str, kind: Kind) -> &'static str {
    let sign = if kind.sign == Unsigned { "u" } else { "i" };
    let significance = if kind.significance == Le { "le" } else { "be" };
    format!("{job} {sign}{} {significance}", kind.k).leak()
}

/// The row jobs: name, job, whether heads are equal, what it has to be of bitvec.
const ROWS: [(&str, Job, bool, f64); 14] = [
    ("copy_from, equal heads", Job::CopyFrom, true, 20.0),
    ("copy_from, differing heads", Job::CopyFrom, false, 12.0),
    ("copy_within up by 64", Job::CopyUp(64), true, 8.0),
    ("copy_within up by 13", Job::CopyUp(13), false, 8.0),
    ("copy_within down by 13", Job::CopyDown(13), false, 8.0),
    ("and, equal heads", Job::Boolean(AND), true, 15.0),
    ("and, differing heads", Job::Boolean(AND), false, 15.0),
    ("or, equal heads", Job::Boolean(OR), true, 15.0),
    ("or, differing heads", Job::Boolean(OR), false, 15.0),
    ("xor, differing heads", Job::Boolean(XOR), false, 15.0),
    ("swap, equal heads", Job::Swap, true, 15.0),
    ("swap, differing heads", Job::Swap, false, 15.0),
    ("equal, equal heads", Job::Equal, true, 20.0),
    ("equal, differing heads", Job::Equal, false, 12.0),
];

/// A job on a row of so many bits, the left row and the right one at these heads.
fn task(job: Job, heads: (usize, usize), order: Order, length: usize) -> Task {
    let left = Row { order, word: 0, head: heads.0, length };
    Task { job, left, right: Row { head: heads.1, ..left } }
}

/// The heads of the row jobs.
fn row_heads(equal: bool) -> (usize, usize) {
    (3, if equal { 3 } else { 5 })
}

/// All row jobs on buffers of so many words.
fn long_rows<T: Width>(lines: &mut Vec<Line>, effort: Effort, order: Order, words: usize) {
    let width = <T as Plain>::WIDTH;
    for (name, job, equal_heads, of_bitvec) in ROWS {
        let task = task(job, row_heads(equal_heads), order, (words - 1) * width);
        let repeat = (LONGEST / words).min(64);
        let times = rows::contest::<T>(task, Buffers::random(words), repeat).run(effort.rounds);
        let mut bars = Vec::new();
        if is_long::<T>(words) {
            let whole = equal_heads && times[Who::Memory as usize].is_some();
            let second = if whole { bar(Who::Memory, 0.5) } else { bar(Who::Plain, 0.7) };
            bars = vec![bar(Who::Bitvec, of_bitvec), second];
        }
        lines.push(Line { part: Part::Rows, job: name, width, order, words, bits: task.bits(), times, bars });
    }
}

/// All row jobs on 100 bits.
fn short_rows<T: Width>(lines: &mut Vec<Line>, effort: Effort, order: Order) {
    let width = <T as Plain>::WIDTH;
    for (name, job, equal_heads, _) in ROWS {
        let task = task(job, row_heads(equal_heads), order, 100);
        let words = 64 / size_of::<T>();
        let times = rows::contest::<T>(task, Buffers::random(words), 256).run(effort.rounds);
        let bars = if width == 64 { vec![bar(Who::Plain, NEARLY_PLAIN)] } else { Vec::new() };
        lines.push(Line { part: Part::ShortRows, job: name, width, order, words, bits: task.bits(), times, bars });
    }
}

/// How far the copies inside go, in bits.
const DISTANCES: [usize; 11] = [1, 3, 7, 8, 9, 13, 31, 63, 64, 65, 1000];

/// A line about rows of 65,536 words that stands beside others, still without its times.
struct Planned {
    part: Part,
    job: String,
    task: Task,
    bars: Vec<Bar>,
}

/// Copies inside, up and down, by each distance.
fn inside<T: Width>(order: Order) -> Vec<Planned> {
    let length = (LONGEST - 1) * <T as Plain>::WIDTH;
    let fast = Bar { or_rate: Some(6.0), ..bar(Who::Eight, 0.5) };
    let planned = |way: &str, by: usize, job: Job| Planned {
        part: Part::Inside,
        job: format!("copy_within {way} by {by}"),
        task: task(job, row_heads(true), order, length),
        bars: T::BY_EIGHT.map(|_| fast).into_iter().collect(),
    };
    let up = DISTANCES.map(|by| planned("up", by, Job::CopyUp(by)));
    let down = DISTANCES.map(|by| planned("down", by, Job::CopyDown(by)));
    up.into_iter().chain(down).collect()
}

/// The jobs with two rows, at each pair of heads.
fn heads<T: Width>(order: Order) -> Vec<Planned> {
    let width = <T as Plain>::WIDTH;
    let jobs = [("copy_from", Job::CopyFrom), ("and", Job::Boolean(AND)), ("swap", Job::Swap), ("equal", Job::Equal)];
    let pairs = [("0/0", 0, 0), ("3/3", 3, 3), ("0/1", 0, 1), ("3/5", 3, 5), ("5/3", 5, 3), ("W-1/0", width - 1, 0)];
    let planned = |(name, job): (&str, Job)| {
        pairs.map(|(pair, left, right)| Planned {
            part: Part::Heads,
            job: format!("{name}, heads {pair}"),
            task: task(job, (left, right), order, (LONGEST - 1) * width),
            bars: Vec::new(),
        })
    };
    jobs.into_iter().flat_map(planned).collect()
}

/// Measures the library, bitvec and plain Rust at planned lines.
fn across<T: Width>(lines: &mut Vec<Line>, effort: Effort, planned: Vec<Planned>) {
    for Planned { part, job, task, bars } in planned {
        let mut contest = rows::contest::<T>(task, Buffers::random(LONGEST), 1);
        contest.works.retain(|(who, _)| *who != Who::Memory);
        contest.works.extend(rows::by_eight::<T>(task, 1).map(|work| (Who::Eight, work)));
        let (width, order, times) = (<T as Plain>::WIDTH, task.left.order, contest.run(effort.rounds));
        lines.push(Line { part, job: job.leak(), width, order, words: LONGEST, bits: task.bits(), times, bars });
    }
}

/// The searches and their names.
const SEARCHES: [(&str, Call); 4] = [
    ("first_one", Call::FirstOne),
    ("last_one", Call::LastOne),
    ("first_zero", Call::FirstZero),
    ("last_zero", Call::LastZero),
];

/// All searches of a row whose only bit they come to last.
fn far_searches<T: Width>(lines: &mut Vec<Line>, effort: Effort, order: Order, words: usize) {
    let width = <T as Plain>::WIDTH;
    let row = Row { order, word: 0, head: 3, length: (words - 1) * width };
    for (name, call) in SEARCHES {
        let repeat = (LONGEST / words).min(64);
        let times = searches::contest::<T>(call, row, words, Bit::FarEnd, repeat).run(effort.rounds);
        let mut bars = Vec::new();
        if words == LONGEST {
            bars = vec![bar(Who::Bitvec, if width == 8 { 15.0 } else { 1.5 }), bar(Who::Memory, 0.5)];
        }
        lines.push(Line { part: Part::Searches, job: name, width, order, words, bits: row.length, times, bars });
    }
}

/// All searches of a row whose only bit they see at once.
fn first_word_searches<T: Width>(lines: &mut Vec<Line>, effort: Effort, order: Order) {
    let width = <T as Plain>::WIDTH;
    let row = Row { order, word: 0, head: 3, length: (LONGEST - 1) * width };
    for (name, call) in SEARCHES {
        let mut contest = searches::contest::<T>(call, row, LONGEST, Bit::FirstWord, 256);
        contest.works.retain(|(who, _)| *who != Who::Memory);
        let times = contest.run(effort.rounds);
        let bars = vec![bar(Who::Plain, NEARLY_PLAIN)];
        lines.push(Line { part: Part::FirstWord, job: name, width, order, words: LONGEST, bits: row.length, times, bars });
    }
}
