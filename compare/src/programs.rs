//! The proved programs, run as processes: lotreport on sheets and calls on lists of calls, and what
//! they write held against the independent implementation.

use std::fmt::Write as _;
use std::io::{self, Write as _};
use std::path::{Path, PathBuf};
use std::process::{Command, Stdio};

use crate::apart::Apart;
use crate::calls::{Answer, Call};
use crate::comparison::Comparison;
use crate::generate::lists::{self, Form};
use crate::generate::sheets::{self, KINDS};
use crate::prng::Prng;
use crate::sheet;
use crate::tally::Tally;
use crate::weights::Weighing;

/// The program calls reads this much of its input and no more.
const CALLS_READ: usize = 65_536;

const NO_SUMS: &str = "the program has no such call, and no list for it has one";

/// Runs lotreport on `number` sheets of all kinds.
pub fn lotreport(program: &Path, seed: u64, number: usize, found: &mut Comparison) -> io::Result<()> {
    let mut prng = Prng::new(seed);
    let mut apart = Apart::default();
    for at in 0..number {
        let sheet = sheets::sheet(&mut prng, KINDS[at % KINDS.len()]);
        let written = run(program, &[], &sheet)?;
        found.count("sheets by lotreport", 1);
        if let Ok(read) = sheet::read(&sheet) {
            apart.look_at(&read.tally);
        }
        if written != sheet::printed(&sheet).as_bytes() {
            let [sheet, written] = [&sheet, &written].map(|bytes| String::from_utf8_lossy(bytes));
            found.differ(|| format!("lotreport {sheet:?}\n  {written:?}"));
        }
    }
    found.count_reports("reports by lotreport", &apart);
    Ok(())
}

/// Runs the program calls on `number` inputs, each with as many lists of calls as it reads.
pub fn calls(program: &Path, seed: u64, number: usize, found: &mut Comparison) -> io::Result<()> {
    let mut prng = Prng::new(seed);
    for _ in 0..number {
        let (input, expected, made) = calls_input(&mut prng, found);
        found.count("calls by the program", made);
        let written = run(program, &[], input.as_bytes())?;
        if written != expected.as_bytes() {
            let written = String::from_utf8_lossy(&written).into_owned();
            found.differ(|| first_difference(&expected, &written));
        }
    }
    Ok(())
}

/// The text of some lists of calls, what the program has to write for it, and the number of calls.
fn calls_input(prng: &mut Prng, found: &mut Comparison) -> (String, String, usize) {
    let (mut input, mut expected, mut made) = (String::new(), String::new(), 0);
    // The lists run into each other: the tallies stay as the list before left them.
    let mut tallies = [Tally::fresh(), Tally::fresh()];
    let mut apart = Apart::default();
    loop {
        let list = lists::list(prng, Form::Text);
        let text: String = list.calls.iter().map(words).collect();
        if input.len() + text.len() > CALLS_READ {
            found.count_reports("reports by the program", &apart);
            return (input, expected, made);
        }
        input += &text;
        made += list.calls.len();
        for call in &list.calls {
            let answer = written(call, &mut tallies);
            if let Call::Report { on, .. } = call {
                apart.look_at(&tallies[*on]);
            }
            let number = answer.split([' ', '\n']).next().unwrap_or("");
            if answer.contains(" held ") {
                found.reach(format!("program {} {number}", call.name()));
            }
            expected += &answer;
        }
    }
}

/// The line that spells a call for the program.
fn words(call: &Call) -> String {
    let mut line = String::from(call.name());
    let result = match call {
        Call::Open { on, lot, card } => {
            let row = card.places[0];
            // No critical value is 0, whatever N.
            let critical = card.criticals.iter().position(Option::is_some);
            let value = critical.and_then(|n| card.criticals[n]).map_or(0, |value| u64::from(value) + 1);
            writeln!(
                line,
                " {} {} {} {} {} {} {} {} {} {} {} {} {value}",
                on + 1,
                lot.attribute,
                lot.containers,
                card.factor,
                card.offset,
                card.seeds,
                card.row_count,
                row.lowest,
                row.highest,
                row.mean_bound,
                row.tolerated,
                critical.unwrap_or(0)
            )
        }
        Call::Enter { on, container, x } => writeln!(line, " {} {container} {x}", on + 1),
        Call::Withdraw { on, container } => writeln!(line, " {} {container}", on + 1),
        Call::Weigh { on, container, weighing } => {
            let Weighing { status, component, remainder } = weighing;
            writeln!(line, " {} {container} {status} {component} {remainder}", on + 1)
        }
        // Each line of a comma list is a word.
        Call::List { on, lines } => {
            let words: String =
                String::from_utf8_lossy(lines).lines().map(|word| format!(" {word}")).collect();
            writeln!(line, " {}{words}", on + 1)
        }
        Call::Join { on, .. }
        | Call::Report { on, .. }
        | Call::Write { on, .. }
        | Call::WriteList { on, .. } => writeln!(line, " {}", on + 1),
        Call::Sums { .. } => unreachable!("{NO_SUMS}"),
    };
    result.expect("a string takes all that is written");
    line
}

/// What the program writes for a call. It lends a report or a sheet an ample buffer.
fn written(call: &Call, tallies: &mut [Tally; 2]) -> String {
    let mut buf = [0; 16_384];
    let answer = call.make(tallies, &mut buf);
    let Answer { number, behind } = answer;
    match call {
        Call::Report { .. } | Call::Write { .. } | Call::WriteList { .. } if number == 0 => {
            String::from_utf8_lossy(&buf[..behind]).into_owned()
        }
        Call::Report { .. } | Call::Write { .. } | Call::WriteList { .. } => format!("REFUSED {number}\n"),
        Call::Sums { .. } => unreachable!("{NO_SUMS}"),
        Call::List { on, .. } => format!("{number} {behind} held {}\n", tallies[*on].held().len()),
        Call::Open { on, .. }
        | Call::Enter { on, .. }
        | Call::Withdraw { on, .. }
        | Call::Join { on, .. }
        | Call::Weigh { on, .. } => format!("{number} held {}\n", tallies[*on].held().len()),
    }
}

fn first_difference(expected: &str, written: &str) -> String {
    let mut lines = (1..).zip(expected.lines().zip(written.lines()));
    match lines.find(|(_, (left, right))| left != right) {
        Some((line, (left, right))) => format!("calls, line {line} of the answers: {left:?} and {right:?}"),
        None => format!("calls: answers of {} and {} bytes", expected.len(), written.len()),
    }
}

/// What a program writes for its arguments and an input.
pub fn run(program: &Path, arguments: &[PathBuf], input: &[u8]) -> io::Result<Vec<u8>> {
    let mut command = Command::new(program);
    let mut child = command.args(arguments).stdin(Stdio::piped()).stdout(Stdio::piped()).spawn()?;
    let mut stdin = child.stdin.take().expect("it is piped");
    std::thread::scope(|scope| {
        // A program that reads only a first part closes its input, and that is no fault.
        scope.spawn(move || drop(stdin.write_all(input)));
        child.wait_with_output().map(|output| output.stdout)
    })
}

#[cfg(test)]
mod tests {
    use super::*;

    #[test]
    fn a_comma_list_is_a_line_of_words() {
        let list = |on, lines: &str| Call::List { on, lines: lines.into() };
        assert_eq!(words(&list(0, "5,98.5\n06,1\n")), "list 1 5,98.5 06,1\n");
        assert_eq!(words(&list(1, "")), "list 2\n");
        assert_eq!(words(&Call::WriteList { on: 1, room: 9 }), "writelist 2\n");
        let mut tallies = [Tally::fresh(), Tally::fresh()];
        assert_eq!(written(&list(0, "1,5\n"), &mut tallies), "6 1 held 0\n");
        assert_eq!(written(&list(0, ""), &mut tallies), "0 0 held 0\n");
        assert_eq!(written(&Call::WriteList { on: 0, room: 0 }, &mut tallies), "");
    }
}
