//! The proved programs for comma lists, run as processes: lotenter on pairs of files and lotlist on sheets, and what they
//! write held against the independent implementation.

use std::path::{Path, PathBuf};
use std::sync::atomic::{AtomicUsize, Ordering};
use std::{env, fs, io, process};

use crate::comparison::Comparison;
use crate::generate::commas;
use crate::on_sheet::{self, LIST_READ};
use crate::prng::Prng;
use crate::programs;

/// How lotenter is run: what it writes for its arguments.
pub type Run<'a> = &'a dyn Fn(&[PathBuf]) -> io::Result<Vec<u8>>;

/// Runs lotenter on `number` pairs of files.
pub fn lotenter(program: &Path, seed: u64, number: usize, found: &mut Comparison) -> io::Result<()> {
    lotenter_by(&|arguments| programs::run(program, arguments, &[]), seed, number, found)
}

/// The same for anything that is run as lotenter.
pub fn lotenter_by(run: Run, seed: u64, number: usize, found: &mut Comparison) -> io::Result<()> {
    let mut prng = Prng::new(seed);
    let folder = Folder::new()?;
    for _ in 0..number {
        let make = if prng.once_in(16) { commas::long_pair } else { commas::pair };
        let given = Given::new(&mut prng, &folder.0, make)?;
        let (written, expected) = (run(&given.arguments)?, on_sheet::lotenter(&given.sheet, &given.list));
        found.count("sheets by lotenter", 1);
        found.count("sheets by lotenter, of them with a list longer than it reads", given.is_long().into());
        found.reach(format!("lotenter {}", outcome(&expected)));
        if written != expected.as_bytes() {
            let [sheet, list, written] = [&given.sheet, &given.list, &written].map(|bytes| start(bytes));
            found.differ(|| format!("lotenter {sheet:?} {list:?}\n  {expected:?}\n  {written:?}"));
        }
    }
    Ok(())
}

/// Runs lotlist on `number` sheets.
pub fn lotlist(program: &Path, seed: u64, number: usize, found: &mut Comparison) -> io::Result<()> {
    let mut prng = Prng::new(seed);
    for _ in 0..number {
        let (sheet, _) = commas::sheet_and_tally(&mut prng);
        let (written, expected) = (programs::run(program, &[], &sheet)?, on_sheet::lotlist(&sheet));
        found.count("sheets by lotlist", 1);
        found.reach(format!("lotlist {}", outcome(&expected)));
        if written != expected.as_bytes() {
            let [sheet, written] = [&sheet, &written].map(|bytes| start(bytes));
            found.differ(|| format!("lotlist {sheet:?}\n  {expected:?}\n  {written:?}"));
        }
    }
    Ok(())
}

/// What lotenter is started with, and the bytes that it thereby has for a sheet and a list.
struct Given {
    arguments: Vec<PathBuf>,
    sheet: Vec<u8>,
    list: Vec<u8>,
}

impl Given {
    /// Writes both files, and now and then names them in another way: a file that cannot be read or is not named
    /// counts as empty.
    fn new(prng: &mut Prng, folder: &Path, make: fn(&mut Prng) -> (Vec<u8>, Vec<u8>)) -> io::Result<Self> {
        let (sheet, list) = make(prng);
        let [first, second, none] = ["sheet", "list", "none"].map(|name| folder.join(name));
        fs::write(&first, &sheet)?;
        fs::write(&second, &list)?;
        let empty = Vec::new;
        let (arguments, sheet, list) = match prng.below(32) {
            0 => (vec![], empty(), empty()),
            1 => (vec![first], sheet, empty()),
            2 => (vec![first, none], sheet, empty()),
            3 => (vec![first, folder.into()], sheet, empty()),
            4 => (vec![none, second], empty(), list),
            5 => (vec![first.clone(), first], sheet.clone(), sheet),
            6 | 7 => (vec![first, second, none.clone(), none], sheet, list),
            _ => (vec![first, second], sheet, list),
        };
        Ok(Self { arguments, sheet, list })
    }

    fn is_long(&self) -> bool {
        self.list.len() >= LIST_READ
    }
}

/// The kind of what is printed: its refusal without the line, the line for its use, or none of them.
fn outcome(printed: &str) -> String {
    match printed.split([' ', '\n']).collect::<Vec<_>>()[..] {
        ["REFUSED", number, .., _, ""] => format!("refused {number}"),
        ["usage:", ..] => "usage".into(),
        _ => "accepted".into(),
    }
}

/// The first bytes of a text, for a difference that is shown.
fn start(text: &[u8]) -> String {
    String::from_utf8_lossy(&text[..text.len().min(4_000)]).into_owned()
}

/// A folder of this process, which ends with it.
struct Folder(PathBuf);

impl Folder {
    fn new() -> io::Result<Self> {
        static MADE: AtomicUsize = AtomicUsize::new(0);
        let name = format!("compare-{}-{}", process::id(), MADE.fetch_add(1, Ordering::Relaxed));
        let path = env::temp_dir().join(name);
        fs::create_dir_all(&path)?;
        Ok(Self(path))
    }
}

impl Drop for Folder {
    fn drop(&mut self) {
        // What is left behind in a folder for such files harms nobody.
        let _ = fs::remove_dir_all(&self.0);
    }
}
