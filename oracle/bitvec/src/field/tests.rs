//! STAND-IN for field/tests.rs: the tests of field.rs are not part of the published source.
