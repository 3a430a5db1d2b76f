//! Compares the tenths of a milligram that each of the 2^32 bit patterns of a weight means, by the proved
//! library and by the independent implementation. The last line counts what differs.
//!
//!     weights

use std::process::ExitCode;

use compare::comparison::Comparison;
use compare::patterns;
use compare::subject::{Independent, OTHER};

fn main() -> ExitCode {
    let (name, subject) = OTHER;
    let mut found = Comparison::default();
    patterns::compare(patterns::ALL, &Independent, subject, &mut found);
    println!("compared with {name}");
    for words in &found.shown {
        println!("DIFFERENCE {words}");
    }
    let number = found.compared.get(patterns::NAME).copied().unwrap_or(0);
    println!("weights: {number} bit patterns, {} differ", found.differences);
    let all = number as u64 == patterns::ALL.end;
    if all && found.differences == 0 { ExitCode::SUCCESS } else { ExitCode::FAILURE }
}
