//! Sends sheets, lists of calls and numbers through the proved library and through the independent
//! implementation, and compares every byte of the answers and of the buffers behind them.
//!
//!     compare [SHEETS [LISTS [SEED]]]
//!
//! Where GELVORIN_PROGRAMS names a folder with the proved programs lotreport, lotenter, lotlist and calls, these
//! are run too. Without the feature `ours` the independent implementation is held against itself, which tries
//! the comparison and nothing else. The last line counts the differences.

use std::path::{Path, PathBuf};
use std::process::ExitCode;
use std::{env, io};

use compare::comparison::{self, Comparison};
use compare::subject::{Independent, OTHER};
use compare::{list_programs, programs};

/// How a program is compared: on a number of inputs, made from a seed.
type Compare = fn(&Path, u64, usize, &mut Comparison) -> io::Result<()>;

fn main() -> io::Result<ExitCode> {
    let mut words = env::args().skip(1).map(|word| word.parse::<u64>());
    let mut word = |otherwise: u64| words.next().unwrap_or(Ok(otherwise)).expect("the arguments are numbers");
    let (sheets, lists, seed) = (word(400_000) as usize, word(20_000) as usize, word(1));

    let (name, subject) = OTHER;
    let mut found = Comparison::default();
    comparison::sheets(seed, sheets, &Independent, subject, &mut found);
    comparison::on_sheets(seed, sheets / 2, &Independent, subject, &mut found);
    comparison::beside(seed, sheets / 4, &Independent, subject, &mut found);
    comparison::lists(seed, lists, &Independent, subject, &mut found);
    if let Some(folder) = env::var_os("GELVORIN_PROGRAMS").map(PathBuf::from) {
        let programs: [(&str, Compare, usize); 4] = [
            ("lotreport", programs::lotreport, sheets / 100),
            ("lotenter", list_programs::lotenter, sheets / 100),
            ("lotlist", list_programs::lotlist, sheets / 100),
            ("calls", programs::calls, lists / 100),
        ];
        for (name, compare, number) in programs {
            let program = folder.join(name);
            if program.exists() {
                compare(&program, seed + 1, number, &mut found)?;
            }
        }
    }

    println!("compared with {name}, seed {seed}");
    for words in &found.shown {
        println!("DIFFERENCE {words}");
    }
    println!("answers reached:");
    for (answer, times) in &found.reached {
        println!("  {times:>8}  {answer}");
    }
    println!("compared:");
    for (what, number) in &found.compared {
        println!("  {number:>8}  {what}");
    }
    println!("{} differences", found.differences);
    Ok(if found.differences == 0 { ExitCode::SUCCESS } else { ExitCode::FAILURE })
}
