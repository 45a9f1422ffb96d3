//! STAND-IN for field/io.rs: readers and writers of bytes, which no call here uses.
