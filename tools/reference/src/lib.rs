//! A second program for the rules in `docs/`: plain Rust that favours clarity.
//!
//! It follows the pages RULES, SHEETS and REFUSALS and shares no line with the proved crates, so that a
//! slip in one is not a slip in the other. The same hands wrote both.

pub mod description;
pub mod groups;
pub mod keeper;
pub mod reader;
pub mod refusal;
pub mod runner;
