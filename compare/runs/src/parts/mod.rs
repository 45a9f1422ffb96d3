//! The parts of a differential run.

pub mod edges;
pub mod every;
pub mod mixed;
pub mod samples;
