//! A twin of the two programs: the same algorithm over the same memory, in Rust without proofs.

pub mod keeper;
pub mod rule;
pub mod runner;
pub mod table;
