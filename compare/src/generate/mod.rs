//! Sheets, comma lists, lists of calls and numbers to compare, made from a seed.

pub mod commas;
pub mod entry;
pub mod lists;
pub mod numbers;
pub mod plan;
pub mod sheets;
pub mod weighings;
