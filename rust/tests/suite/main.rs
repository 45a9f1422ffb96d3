//! The crate held to the rules, as compare/model works them out one bit at a time, and to the numbers written in the rules'
//! document.
//!
//! - `rules` and `tried` serve the others: what the rules say, and the rows and spans that are tried.
//! - `orders`, `fields` and `rows` try every call at every edge; `limits` and `refusals` what is just accepted and what is
//!   refused.
//! - `samples` has the document's own rows; `kinds` what compiles on slices, arrays and vectors.

/// Calls a function that takes the word's type at every width that there is.
macro_rules! at_every_width {
    ($tried:ident($($argument:expr),*)) => {
        $tried::<u8>($($argument),*);
        $tried::<u64>($($argument),*);
    };
}

mod every_call;
mod fields;
mod kinds;
mod limits;
mod orders;
mod refusals;
mod rows;
mod rules;
mod samples;
mod tried;
