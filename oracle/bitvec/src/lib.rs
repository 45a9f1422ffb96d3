//! A part of bitvec 1.1.1 that can be run: see ../../README.md.
//!
//! A module marked VERBATIM is the published file, byte for byte (../../check.sh
//! holds it to that). A STAND-IN is written anew or, where it says so, made of
//! excerpts.

// The verbatim files hold more than is called here. An older compiler does not know the last of these lints.
#![allow(dead_code, unused_imports, unknown_lints, mismatched_lifetime_syntaxes)]

/// The verbatim files take their documentation from files of bitvec's folder
/// doc, which is not here: it is left empty.
macro_rules! include_str {
	($file:literal) => {
		""
	};
}

mod access; // STAND-IN
mod array; // STAND-IN
mod devel; // STAND-IN
pub mod domain; // VERBATIM
pub mod field; // VERBATIM
pub mod index; // VERBATIM
pub mod mem; // VERBATIM
pub mod oracle; // not in bitvec: the way in
pub mod order; // VERBATIM
pub mod ptr; // STAND-IN, but ptr/span.rs is VERBATIM
pub mod slice; // STAND-IN, but slice/specialization.rs, lsb0.rs and msb0.rs are VERBATIM
pub mod store; // STAND-IN
mod view; // STAND-IN
