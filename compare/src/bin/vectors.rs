//! Runs the independent implementation, and the proved library and the proved programs where there are any, over given
//! sheets, comma lists and calls.
//!
//!     vectors FOLDER CALLS
//!
//! FOLDER has NNN.sheet with what lotreport prints for it in NNN.out; FOLDER/enter has NNN.sheet and NNN.list with what
//! lotenter prints for both; FOLDER/list has NNN.sheet with what lotlist prints. CALLS has one call a line, fields
//! parted by tabs: name, arguments, answer. The programs are those in the folder that GELVORIN_PROGRAMS names. A line
//! for each implementation counts what differs.

use std::error::Error;
use std::path::{Path, PathBuf};
use std::process::ExitCode;
use std::{env, fs};

use compare::sheet::LONGEST_WRITTEN;
use compare::subject::{Independent, Subject};
use compare::{on_sheet, programs};

type Outcome<T> = Result<T, Box<dyn Error>>;

const SUBJECTS: &[(&str, &dyn Subject)] = &[
    ("independent implementation", &Independent),
    #[cfg(feature = "ours")]
    ("proved library", &compare::ours::Ours),
];

/// What one implementation prints for a sheet's file; none where it has nothing for it.
type Prints<'a> = &'a dyn Fn(&Path) -> Outcome<Option<Vec<u8>>>;

fn main() -> Outcome<ExitCode> {
    let arguments: Vec<String> = env::args().skip(1).collect();
    let [folder, calls] = arguments.as_slice() else {
        return Err("usage: vectors FOLDER CALLS".into());
    };
    let mut vectors = Vectors { folder: folder.into(), agree: true };
    for (name, subject) in SUBJECTS {
        vectors.hold_sheets(name, *subject)?;
        vectors.hold_calls(name, Path::new(calls), *subject)?;
    }
    vectors.hold_texts()?;
    if let Some(programs) = env::var_os("GELVORIN_PROGRAMS").map(PathBuf::from) {
        vectors.hold_programs(&programs)?;
    }
    Ok(if vectors.agree { ExitCode::SUCCESS } else { ExitCode::FAILURE })
}

struct Vectors {
    folder: PathBuf,
    agree: bool,
}

impl Vectors {
    /// Holds the calls that a host program can make.
    fn hold_sheets(&mut self, name: &str, subject: &dyn Subject) -> Outcome<()> {
        self.hold(name, "sheets", "", &|path| {
            let mut buf = [0; 256];
            let answer = subject.judge(&fs::read(path)?, &mut buf);
            Ok(answer.map(|answer| printed(answer, &buf)))
        })?;
        self.hold(name, "lists entered", "enter", &|path| {
            let mut buf = [0; LONGEST_WRITTEN];
            let answer = subject.enter_list(&fs::read(path)?, &fs::read(list_of(path))?, &mut buf);
            Ok(answer.map(|answer| printed(answer, &buf)))
        })
    }

    /// Holds what the independent implementation prints for the programs lotenter and lotlist.
    fn hold_texts(&mut self) -> Outcome<()> {
        let text = |text: String| Ok(Some(text.into_bytes()));
        self.hold("independent lotenter", "lists entered", "enter", &|path| {
            text(on_sheet::lotenter(&fs::read(path)?, &fs::read(list_of(path))?))
        })?;
        self.hold("independent lotlist", "lists written", "list", &|path| {
            text(on_sheet::lotlist(&fs::read(path)?))
        })
    }

    fn hold_programs(&mut self, programs: &Path) -> Outcome<()> {
        let run = |name: &str, arguments: &[PathBuf], input: &[u8]| {
            let program = programs.join(name);
            let written = || programs::run(&program, arguments, input);
            program.exists().then(written).transpose().map_err(Into::into)
        };
        self.hold("lotreport", "sheets", "", &|path| run("lotreport", &[], &fs::read(path)?))?;
        self.hold("lotenter", "lists entered", "enter", &|path| {
            run("lotenter", &[path.into(), list_of(path)], &[])
        })?;
        self.hold("lotlist", "lists written", "list", &|path| run("lotlist", &[], &fs::read(path)?))
    }

    /// Counts the sheets of a folder, and those for which something else is printed.
    fn hold(&mut self, name: &str, what: &str, folder: &str, prints: Prints) -> Outcome<()> {
        let paths = sheets_in(&self.folder.join(folder))?;
        let mut differ = 0;
        for path in &paths {
            let Some(printed) = prints(path)? else {
                println!("{name}: no {what}");
                return Ok(());
            };
            let expected = fs::read(path.with_extension("out"))?;
            if printed != expected {
                differ += 1;
                let [printed, expected] = [&printed, &expected].map(|text| String::from_utf8_lossy(text));
                println!("{}: {printed:?} for {expected:?}", path.display());
            }
        }
        self.count(name, what, paths.len(), differ);
        Ok(())
    }

    /// Counts the calls of a file, and those that are answered otherwise.
    fn hold_calls(&mut self, name: &str, file: &Path, subject: &dyn Subject) -> Outcome<()> {
        let text = fs::read_to_string(file)?;
        let mut differ = 0;
        for line in text.lines() {
            let (answer, expected) = answered(line, subject)?;
            if answer != expected {
                differ += 1;
                println!("{line}: answers {answer}");
            }
        }
        self.count(name, "calls", text.lines().count(), differ);
        Ok(())
    }

    fn count(&mut self, name: &str, what: &str, number: usize, differ: usize) {
        println!("{name}: {number} {what}, {differ} differ");
        self.agree &= number > 0 && differ == 0;
    }
}

/// The sheets of a folder in their order.
fn sheets_in(folder: &Path) -> Outcome<Vec<PathBuf>> {
    let entries: Result<Vec<PathBuf>, _> =
        fs::read_dir(folder)?.map(|entry| entry.map(|entry| entry.path())).collect();
    let mut paths = entries?;
    paths.retain(|path| path.extension().is_some_and(|extension| extension == "sheet"));
    paths.sort();
    Ok(paths)
}

/// The comma list that belongs to a sheet.
fn list_of(sheet: &Path) -> PathBuf {
    sheet.with_extension("list")
}

/// What a program prints whose answer this is: the text, or the refusal with its file and line.
fn printed(answer: i64, buf: &[u8]) -> Vec<u8> {
    match usize::try_from(answer) {
        Ok(length) => buf[..length].to_vec(),
        Err(_) => {
            let code = answer.unsigned_abs();
            format!("REFUSED {} {} {}\n", code & 0xFF, code >> 8 & 0xFF, code >> 16).into_bytes()
        }
    }
}

/// What a subject answers to the call of a line, and what the line says.
fn answered<'a>(line: &'a str, subject: &dyn Subject) -> Outcome<(String, &'a str)> {
    let [name, first, second, expected] = line.split('\t').collect::<Vec<_>>()[..] else {
        return Err(format!("no call: {line}").into());
    };
    let answer = match name {
        "sampling" => subject.samples(first.parse()?, second.parse()?),
        "label" => subject.label(first.parse()?, second.parse()?),
        "pair" => subject.pair(first.parse()?, second.parse()?),
        "mixing" => subject.mixing(&list(second)?, first.parse()?),
        _ => return Err(format!("unknown call {name}").into()),
    };
    Ok((if answer < 0 { format!("REFUSED {}", -answer) } else { answer.to_string() }, expected))
}

/// A list of numbers parted by commas; `-` is the empty one.
fn list(text: &str) -> Outcome<Vec<u32>> {
    match text {
        "-" => Ok(Vec::new()),
        _ => Ok(text.split(',').map(str::parse).collect::<Result<_, _>>()?),
    }
}
