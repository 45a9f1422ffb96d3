//! A trace record in two words of 64 bits: which spans of a trace have arrived, the sampler's decision, the clock skew.
//!
//! `cargo run --example trace` prints what the C example of the same name prints.

use stableply::{BitRow, Order, Refusal, Significance::Le, Span};

/// Which of 40 spans have arrived: bit 0 is the root, the others are its children.
const ARRIVED: Span = Span::new(Order::Lsb0, 0, 0, 40);
/// The sampler's decision, unsigned, which lies across the two words.
const DECISION: Span = Span::new(Order::Lsb0, 0, 61, 5);
/// The clock skew in microseconds, signed.
const SKEW: Span = Span::new(Order::Lsb0, 1, 2, 12);

/// The children that have not arrived: split the row behind the root, then behind each zero that is found.
fn missing_children(record: &[u64]) -> Result<Vec<usize>, Refusal> {
    let mut missing = Vec::new();
    let (_root, mut rest) = ARRIVED.split_at::<u64>(record.len(), 1)?;
    while let Some(at) = record.first_zero(rest)? {
        missing.push(ARRIVED.length() - rest.length() + at);
        (_, rest) = rest.split_at::<u64>(record.len(), at + 1)?;
    }
    Ok(missing)
}

fn main() -> Result<(), Refusal> {
    let mut record = [0u64; 2];
    for span in 0..40 {
        record.write_bit(ARRIVED, span, ![7, 23, 24].contains(&span))?;
    }
    record.store_strict(DECISION, Le, 19u8)?;
    record.store_strict(SKEW, Le, -37i16)?;
    println!("record    {:016X} {:016X}", record[0], record[1]);
    println!("root      {}", if record.read_bit(ARRIVED, 0)? { "arrived" } else { "missing" });
    println!("decision  {}", record.load::<u8>(DECISION, Le)?);
    println!("skew      {}", record.load::<i16>(SKEW, Le)?);

    for child in missing_children(&record)? {
        println!("child {child} is missing");
    }

    // 5 bits do not hold 40: a strict store refuses, and leaves the record as it was.
    if let Err(refusal) = record.store_strict(DECISION, Le, 40u8) {
        println!("decision 40 is refused with {}", refusal.number());
    }
    println!("decision  {}", record.load::<u8>(DECISION, Le)?);
    Ok(())
}
