//! Holds the programs of the landing before point 7 of document 02, with room for 60 results, against those of now: a
//! sheet that is not too large for the programs before is reported, and written back, as it was.
//!
//!     before FOLDER_BEFORE FOLDER_NOW [SHEETS [SEED]]
//!
//! Each folder has the programs lotreport and lotenter; one that is missing in either is left out. Both programs of a
//! name are to print the same bytes for a sheet, unless the one before refused it for its size alone. The sheets are of
//! all kinds; most of those that are made are too large for the programs before, so two thirds of them have lines left
//! out: those with N above the limit before, or these and the results above it. The first few differences are printed,
//! and the last line counts them all.

use std::error::Error;
use std::num::NonZero;
use std::path::{Path, PathBuf};
use std::process::ExitCode;
use std::sync::Mutex;
use std::sync::atomic::{AtomicUsize, Ordering};
use std::{env, fs, io, process, thread};

use compare::generate::sheets::{self, KINDS};
use compare::prng::Prng;
use compare::programs;
use compare::refusal::Refusal;
use compare::sheet::{END, Frame};

/// The most results that a sheet had before, and the highest N of a critical value or a range row. The limit of now is
/// another number, that of `compare::card`.
const MOST_BEFORE: u16 = 60;
/// Differences of a program that are printed.
const SHOWN: usize = 10;

type Outcome<T> = Result<T, Box<dyn Error>>;

fn main() -> Outcome<ExitCode> {
    let arguments: Vec<String> = env::args().skip(1).collect();
    let [before, now, numbers @ ..] = arguments.as_slice() else {
        return Err("usage: before FOLDER_BEFORE FOLDER_NOW [SHEETS [SEED]]".into());
    };
    let number = |place: usize, otherwise| numbers.get(place).map_or(Ok(otherwise), |word| word.parse());
    let (sheets, seed) = (number(0, 100_000)?, number(1, 1)?);

    println!("{sheets} sheets, seed {seed}");
    let mut prng = Prng::new(seed);
    let seeds: Vec<u64> = (0..sheets).map(|_| prng.draw()).collect();
    let (mut compared, mut differences) = (0, 0);
    for program in &PROGRAMS {
        let [before, now] = [before, now].map(|folder| Path::new(folder).join(program.name));
        if before.exists() && now.exists() {
            let found = Pair { program, before, now }.compare(&seeds)?;
            found.print(program.name);
            compared += found.compared;
            differences += found.differences;
        } else {
            println!("{}: left out, it is not in both folders", program.name);
        }
    }
    println!("{differences} differences");
    Ok(if compared > 0 && differences == 0 { ExitCode::SUCCESS } else { ExitCode::FAILURE })
}

/// How a program takes a sheet, and what its answers look like.
struct Program {
    name: &'static str,
    /// Whether it takes the sheet from a file, with a list in another file, or from standard input.
    from_file: bool,
    /// What the text for a sheet that it accepts begins with.
    begins: &'static str,
    /// What stands between the number and the line of a refusal.
    between: &'static str,
}

const LOTREPORT: Program = Program { name: "lotreport", from_file: false, begins: "N ", between: " " };
const LOTENTER: Program = Program { name: "lotenter", from_file: true, begins: "01", between: " 1 " };
const PROGRAMS: [Program; 2] = [LOTREPORT, LOTENTER];

/// What a program answers to a sheet.
#[derive(Clone, Copy, Debug, PartialEq, Eq)]
enum Answer {
    Accepted,
    RefusedAt(usize),
}

impl Answer {
    /// Whether the lines up to this one were accepted.
    fn accepts_line(self, line: usize) -> bool {
        match self {
            Self::Accepted => true,
            Self::RefusedAt(at) => at > line,
        }
    }
}

impl Program {
    /// The answer that was printed; none where it is neither a text for a sheet nor a refusal.
    fn answer(&self, printed: &[u8]) -> Option<Answer> {
        let text = str::from_utf8(printed).ok()?.strip_suffix('\n')?;
        if text.starts_with(self.begins) {
            return Some(Answer::Accepted);
        }
        let (number, line) = text.strip_prefix("REFUSED ")?.split_once(self.between)?;
        number.parse::<u8>().ok()?;
        line.parse().ok().map(Answer::RefusedAt)
    }

    /// What is printed for a sheet that is refused for its size.
    fn refusal(&self, large: &Large) -> String {
        let (number, line) = (large.past.refusal().number(), large.line);
        format!("REFUSED {number}{}{line}\n", self.between)
    }
}

/// A limit of the programs before.
#[derive(Clone, Copy, Debug, PartialEq, Eq)]
enum Limit {
    /// N of a critical value or of a range row.
    N,
    Results,
}

impl Limit {
    fn refusal(self) -> Refusal {
        match self {
            Self::N => Refusal::BadCard,
            Self::Results => Refusal::Full,
        }
    }
}

/// The first line that makes a sheet too large for the programs before.
#[derive(Clone, Copy, Debug, PartialEq, Eq)]
struct Large {
    line: usize,
    past: Limit,
}

impl Large {
    /// Of a sheet that has such a line.
    fn of(sheet: &[u8]) -> Option<Self> {
        let mut results = 0;
        let mut lines = (1..).zip(sheet.split_inclusive(|&byte| byte == END));
        lines.find_map(|(line, bytes)| Some(Self { line, past: limit_passed(&frame(bytes)?, &mut results)? }))
    }
}

/// The frame of a whole good line.
fn frame(line: &[u8]) -> Option<Frame> {
    Frame::parse(line.strip_suffix(&[END])?)
}

/// The limit before that a frame lies past, where `results` stand before it; counts it among them if it is one.
fn limit_passed(frame: &Frame, results: &mut u16) -> Option<Limit> {
    match frame {
        Frame::Critical { n, .. } => (*n > MOST_BEFORE).then_some(Limit::N),
        Frame::Range(row) => (row.lowest.max(row.highest) > MOST_BEFORE).then_some(Limit::N),
        Frame::Result { .. } | Frame::Weighed { .. } => {
            *results += 1;
            (*results > MOST_BEFORE).then_some(Limit::Results)
        }
        Frame::Lot(_) | Frame::Card { .. } | Frame::End { .. } => None,
    }
}

/// The limits past which the lines are left out of a sheet, in turn.
const LEFT_OUT: [&[Limit]; 3] = [&[], &[Limit::N], &[Limit::N, Limit::Results]];

/// The sheet of a seed and a place among the sheets: each kind in turn, with each choice of lines left out.
fn sheet(seed: u64, place: usize) -> Vec<u8> {
    let (round, limits) = (place / LEFT_OUT.len(), LEFT_OUT[place % LEFT_OUT.len()]);
    without(limits, &sheets::sheet(&mut Prng::new(seed), KINDS[round % KINDS.len()]))
}

/// The sheet without the lines that lie past one of these limits, and with the results among them taken off its count.
fn without(limits: &[Limit], sheet: &[u8]) -> Vec<u8> {
    let (mut kept, mut results, mut fewer) = (Vec::new(), 0, 0);
    for line in sheet.split_inclusive(|&byte| byte == END) {
        let frame = frame(line);
        let past = frame.and_then(|frame| limit_passed(&frame, &mut results));
        let past = past.filter(|past| limits.contains(past));
        match (past, frame) {
            (Some(past), _) => fewer += u16::from(past == Limit::Results),
            (None, Some(Frame::End { count })) => {
                Frame::End { count: count.saturating_sub(fewer) }.write(&mut kept);
            }
            (None, _) => kept.extend_from_slice(line),
        }
    }
    kept
}

/// What two answers to one sheet show.
#[derive(Clone, Copy, Debug, PartialEq, Eq)]
enum Judgement {
    /// They are the same bytes.
    Same(Answer),
    /// The sheet was refused before for its size alone.
    RefusedForSize(Limit),
    Different,
}

/// Judges what was printed for a sheet before and now.
fn judge(program: &Program, large: Option<&Large>, before: &[u8], now: &[u8]) -> Judgement {
    let (Some(answer), Some(answer_now)) = (program.answer(before), program.answer(now)) else {
        return Judgement::Different;
    };
    match large {
        // The programs before accept no line that makes a sheet too large.
        Some(large) if answer.accepts_line(large.line) => Judgement::Different,
        _ if before == now => Judgement::Same(answer),
        Some(large)
            if before == program.refusal(large).as_bytes() && answer_now.accepts_line(large.line - 1) =>
        {
            Judgement::RefusedForSize(large.past)
        }
        _ => Judgement::Different,
    }
}

/// What was compared so far.
#[derive(Default)]
struct Found {
    compared: usize,
    same_accepted: usize,
    same_refused: usize,
    /// Refused before for N of a card frame alone, or for the result that is one too many.
    refused_for_n: usize,
    refused_for_results: usize,
    /// Accepted now and not too large before, whatever was answered then.
    small: usize,
    differences: usize,
    /// The first few differences, in words.
    shown: Vec<String>,
}

impl Found {
    /// Counts a sheet with what both programs printed for it; it is the one of this place among the sheets.
    fn take(&mut self, program: &Program, place: usize, sheet: &[u8], [before, now]: &[Vec<u8>; 2]) {
        let large = Large::of(sheet);
        self.compared += 1;
        self.small += usize::from(large.is_none() && program.answer(now) == Some(Answer::Accepted));
        match judge(program, large.as_ref(), before, now) {
            Judgement::Same(Answer::Accepted) => self.same_accepted += 1,
            Judgement::Same(Answer::RefusedAt(_)) => self.same_refused += 1,
            Judgement::RefusedForSize(Limit::N) => self.refused_for_n += 1,
            Judgement::RefusedForSize(Limit::Results) => self.refused_for_results += 1,
            Judgement::Different => {
                self.differences += 1;
                if self.shown.len() < SHOWN {
                    let [sheet, before, now] = [sheet, before, now].map(String::from_utf8_lossy);
                    let words = format!("sheet {place} {sheet:?}\n  before {before:?}\n  now {now:?}");
                    self.shown.push(words);
                }
            }
        }
    }

    fn print(&self, name: &str) {
        for words in &self.shown {
            println!("DIFFERENCE {name}, {words}");
        }
        let for_size = self.refused_for_n + self.refused_for_results;
        println!("{name}:");
        println!("  {:>8}  sheets", self.compared);
        println!("  {:>8}  the same", self.same_accepted + self.same_refused);
        println!("  {:>8}  the same, accepted", self.same_accepted);
        println!("  {:>8}  the same, refused", self.same_refused);
        println!("  {for_size:>8}  refused before for their size");
        println!("  {:>8}  refused before for their size, N in a card frame", self.refused_for_n);
        println!(
            "  {:>8}  refused before for their size, result {}",
            self.refused_for_results,
            MOST_BEFORE + 1
        );
        println!("  {:>8}  accepted now, at most {MOST_BEFORE} results and no N above that", self.small);
    }
}

/// The programs of one name.
struct Pair<'a> {
    program: &'a Program,
    before: PathBuf,
    now: PathBuf,
}

impl Pair<'_> {
    /// Compares what both print for the sheets of these seeds, on as many threads as the machine runs at once.
    fn compare(&self, seeds: &[u64]) -> io::Result<Found> {
        let folder = Folder::new()?;
        let next = AtomicUsize::new(0);
        let found = Mutex::new(Found::default());
        let take_sheets = |thread: usize| {
            let files = folder.files(thread)?;
            loop {
                let place = next.fetch_add(1, Ordering::Relaxed);
                let Some(&seed) = seeds.get(place) else { return Ok(()) };
                let sheet = sheet(seed, place);
                let printed = self.printed(&sheet, &files)?;
                found.lock().expect("no thread breaks off").take(self.program, place, &sheet, &printed);
            }
        };
        let take_sheets = &take_sheets;
        thread::scope(|scope| {
            let threads = thread::available_parallelism().map_or(1, NonZero::get);
            let threads: Vec<_> =
                (0..threads).map(|thread| scope.spawn(move || take_sheets(thread))).collect();
            threads.into_iter().try_for_each(|thread| thread.join().expect("no thread breaks off"))
        })
        .map(|()| found.into_inner().expect("no thread breaks off"))
    }

    /// What both print for a sheet; the files are for the sheet and an empty list.
    fn printed(&self, sheet: &[u8], files: &[PathBuf; 2]) -> io::Result<[Vec<u8>; 2]> {
        let (arguments, input): (&[PathBuf], _) = if self.program.from_file {
            fs::write(&files[0], sheet)?;
            (files, &[][..])
        } else {
            (&[], sheet)
        };
        let run = |program| programs::run(program, arguments, input);
        Ok([run(&self.before)?, run(&self.now)?])
    }
}

/// A folder of this process, which ends with it.
struct Folder(PathBuf);

impl Folder {
    fn new() -> io::Result<Self> {
        let path = env::temp_dir().join(format!("before-{}", process::id()));
        fs::create_dir_all(&path)?;
        Ok(Self(path))
    }

    /// A thread's files: one for a sheet, and an empty list.
    fn files(&self, thread: usize) -> io::Result<[PathBuf; 2]> {
        let files = ["sheet", "list"].map(|name| self.0.join(format!("{thread}.{name}")));
        fs::write(&files[1], [])?;
        Ok(files)
    }
}

impl Drop for Folder {
    fn drop(&mut self) {
        // What is left behind in a folder for such files harms nobody.
        let _ = fs::remove_dir_all(&self.0);
    }
}

#[cfg(test)]
mod tests {
    use super::*;

    const HEAD: &str = "010000FF\n020A0A03E8\n";
    const REPORT: &str = "N 5\nMEAN 98.00=\nH 1.55+ 1.55 over\nR 2.00 2.00 kept\nLOT heterogeneous\n";

    fn results(number: u16) -> String {
        (1..=number).map(|container| format!("05{container:04X}2648\n")).collect()
    }

    fn large(sheet: &str) -> Option<(usize, Limit)> {
        Large::of(sheet.as_bytes()).map(|large| (large.line, large.past))
    }

    fn judged(program: &Program, large: Option<(usize, Limit)>, before: &str, now: &str) -> Judgement {
        let large = large.map(|(line, past)| Large { line, past });
        judge(program, large.as_ref(), before.as_bytes(), now.as_bytes())
    }

    #[test]
    fn the_first_line_past_a_limit_is_found() {
        let large_behind = |lines: &str| large(&format!("{HEAD}{lines}"));
        assert_eq!(large_behind("033C0000\n04053C27100000\n043C3C27100000\n06FF\n"), None);
        assert_eq!(large_behind("033C0000\n033D0000\n04053D27100000\n"), Some((4, Limit::N)));
        assert_eq!(large_behind("04053D27100000\n"), Some((3, Limit::N)));
        assert_eq!(large_behind("043D0527100000\n"), Some((3, Limit::N)));
        assert_eq!(large_behind(&results(60)), None);
        assert_eq!(large_behind(&results(61)), Some((63, Limit::Results)));
        let weighed = results(60) + "07003D003F8000003F800000\n";
        assert_eq!(large_behind(&weighed), Some((63, Limit::Results)));
        assert_eq!(large_behind(&(results(60) + "033D0000\n" + &results(1))), Some((63, Limit::N)));
    }

    #[test]
    fn a_line_that_is_not_whole_and_good_is_past_no_limit() {
        for line in ["033d0000\n", "033D000\n", "033D00000\n", "033D0000\r\n", "033D0000", "083D0000\n", "\n"]
        {
            assert_eq!(large(&format!("{HEAD}{line}")), None, "{line:?}");
        }
        let damaged = results(61).replacen("2648", "264g", 1);
        assert_eq!(large(&damaged), None);
    }

    #[test]
    fn lines_past_a_limit_are_left_out() {
        let without = |limits, sheet: &str| String::from_utf8(without(limits, sheet.as_bytes())).unwrap();
        let sheet = format!("{HEAD}033C0000\n033D0000\n0405C827100000\n04053C27100000\n");
        let left = format!("{HEAD}033C0000\n04053C27100000\n");
        for (behind, fewer) in
            [("063E\n", "063C\n"), ("063F\n", "063D\n"), ("0601\n", "0600\n"), ("06", "06")]
        {
            let given = format!("{sheet}{}{behind}", results(62));
            assert_eq!(without(&[], &given), given);
            assert_eq!(without(&[Limit::N], &given), format!("{left}{}{behind}", results(62)));
            assert_eq!(without(&[Limit::N, Limit::Results], &given), format!("{left}{}{fewer}", results(60)));
        }
        let bad = format!("{HEAD}033d0000\n0605\n");
        assert_eq!(without(&[Limit::N, Limit::Results], &bad), bad);
    }

    #[test]
    fn sheets_of_either_size_are_made() {
        let mut prng = Prng::new(7);
        let (mut small, mut past_n, mut past_results) = (0, 0, 0);
        for place in 0..3_000 {
            match Large::of(&sheet(prng.draw(), place)).map(|large| large.past) {
                None => small += 1,
                Some(Limit::N) => past_n += 1,
                Some(Limit::Results) => past_results += 1,
            }
        }
        assert!(small > 1_000 && past_n > 500 && past_results > 100, "{small} {past_n} {past_results}");
    }

    #[test]
    fn the_same_answers_are_the_same() {
        let refused = Judgement::Same(Answer::RefusedAt(7));
        assert_eq!(judged(&LOTREPORT, None, REPORT, REPORT), Judgement::Same(Answer::Accepted));
        assert_eq!(judged(&LOTENTER, None, "0100\n", "0100\n"), Judgement::Same(Answer::Accepted));
        assert_eq!(judged(&LOTREPORT, None, "REFUSED 4 7\n", "REFUSED 4 7\n"), refused);
        assert_eq!(judged(&LOTENTER, None, "REFUSED 4 1 7\n", "REFUSED 4 1 7\n"), refused);
        // Refused before the line that makes the sheet too large, or on it for something else.
        for line in [7, 8] {
            let large = Some((line, Limit::N));
            assert_eq!(judged(&LOTREPORT, large, "REFUSED 2 7\n", "REFUSED 2 7\n"), refused);
        }
    }

    #[test]
    fn a_sheet_may_have_been_refused_for_its_size() {
        for (past, number) in [(Limit::N, 4), (Limit::Results, 9)] {
            let (large, before) = (Some((7, past)), format!("REFUSED {number} 7\n"));
            for now in [REPORT, "REFUSED 18 7\n", "REFUSED 1 8\n"] {
                assert_eq!(judged(&LOTREPORT, large, &before, now), Judgement::RefusedForSize(past));
            }
            let before = format!("REFUSED {number} 1 7\n");
            for now in ["0100\n", "REFUSED 18 1 7\n", "REFUSED 1 1 12\n"] {
                assert_eq!(judged(&LOTENTER, large, &before, now), Judgement::RefusedForSize(past));
            }
        }
    }

    #[track_caller]
    fn different(large: Option<(usize, Limit)>, before: &str, now: &str) {
        assert_eq!(judged(&LOTREPORT, large, before, now), Judgement::Different);
    }

    #[test]
    fn a_wrong_answer_is_a_difference() {
        let (n, results) = (Some((7, Limit::N)), Some((7, Limit::Results)));
        // A sheet that was not too large.
        different(None, REPORT, &REPORT.replace("1.55+", "1.55="));
        different(None, REPORT, "REFUSED 9 7\n");
        different(None, "REFUSED 9 7\n", REPORT);
        different(None, "REFUSED 4 7\n", "REFUSED 4 8\n");
        // Before, another number or another line.
        different(n, "REFUSED 9 7\n", REPORT);
        different(results, "REFUSED 4 7\n", REPORT);
        different(n, "REFUSED 4 6\n", REPORT);
        different(n, "REFUSED 4 8\n", REPORT);
        // Now, refused earlier.
        different(n, "REFUSED 4 7\n", "REFUSED 4 6\n");
        // Before, a sheet accepted that is too large, or its line.
        different(n, REPORT, REPORT);
        different(results, REPORT, "REFUSED 9 7\n");
        different(results, "REFUSED 14 8\n", "REFUSED 14 8\n");
    }

    #[test]
    fn what_is_no_answer_is_a_difference() {
        for printed in ["", "\n", "N 5", "REFUSED 4 7", "REFUSED 4\n", "REFUSED 4 1 7\n", "REFUSED x 7\n"] {
            different(None, printed, printed);
            different(Some((7, Limit::N)), "REFUSED 4 7\n", printed);
        }
        for printed in ["REFUSED 4 7\n", "REFUSED 4 2 7\n", "usage: lotenter SHEET LIST\n"] {
            assert_eq!(judged(&LOTENTER, None, printed, printed), Judgement::Different);
        }
    }
}
