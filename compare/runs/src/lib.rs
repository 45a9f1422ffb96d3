//! The library held to bitvec 1.1.1 and to the rules.
//!
//! - [`call`], [`request`], [`answer`]: what is asked and answered.
//! - [`library`], [`rust`], [`expected`]: the three that answer.
//! - [`judge`], [`shrink`], [`tally`], [`run`], [`differential`]: the comparison.
//! - [`generate`], [`damage`], [`parts`]: the requests.
//! - [`fault`]: wrong answers that a run has to find.
//! - [`vector`], [`vectors`]: requests and answers as a file.

pub mod answer;
pub mod call;
pub mod damage;
pub mod differential;
pub mod expected;
pub mod fault;
pub mod generate;
pub mod guarded;
pub mod judge;
pub mod lent;
pub mod library;
pub mod parts;
pub mod random;
pub mod request;
pub mod run;
pub mod rust;
pub mod shrink;
pub mod tally;
pub mod vector;
pub mod vectors;
