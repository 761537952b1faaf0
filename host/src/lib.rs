//! ProDOS volumes in plain Rust: a second implementation of the requirements, to compare with the proved one.

pub mod bytes;
pub mod calls;
pub mod catalog;
pub mod directory;
pub mod file;
pub mod generate;
pub mod map;
pub mod names;
pub mod random;
pub mod replay;
pub mod sound;
pub mod volumes;
