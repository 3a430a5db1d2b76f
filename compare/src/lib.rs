//! Document 01 with points 1 to 7 of document 02 a second time, in plain Rust, and the proved library held against it.
//!
//! The modules from `buffer` to `weights` are written from the documents alone and share nothing
//! with the proved code. The others make sheets and calls, and compare the answers.

pub mod buffer;
pub mod card;
pub mod comma;
pub mod mixing;
pub mod on_sheet;
pub mod refusal;
pub mod report;
pub mod sampling;
pub mod sheet;
pub mod tally;
pub mod tolerance;
pub mod weights;

pub mod apart;
pub mod calls;
pub mod comparison;
pub mod generate;
pub mod list_programs;
#[cfg(feature = "ours")]
pub mod ours;
pub mod patterns;
pub mod prng;
pub mod programs;
pub mod subject;
