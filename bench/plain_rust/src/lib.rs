//! The yardstick: the translations as one would write them from the standards in plain Rust, without contracts.
//! No part of the program or of a release.

pub mod down;
pub mod input;
pub mod scale;
pub mod ump;
pub mod up;
