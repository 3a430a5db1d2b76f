//! Calls on a sheet: it is read, one call is made on its tally, and the sheet after that is written. Also what the
//! programs lotenter and lotlist print.

use crate::comma;
use crate::refusal::{Fault, Refusal};
use crate::sheet::{self, END, LONGEST_WRITTEN};
use crate::tally::Tally;

/// lotenter reads this much of a list and no more.
pub const LIST_READ: usize = 65_536;
/// What lotenter prints where that much does not tell what the list does.
pub const USAGE: &str = "usage: lotenter SHEET LIST\n";

/// Which of two files a fault is in.
#[derive(Clone, Copy, Debug, PartialEq, Eq)]
#[repr(u8)]
pub enum File {
    Sheet = 1,
    List = 2,
}

/// Why a call on a sheet is refused.
#[derive(Clone, Copy, Debug, PartialEq, Eq)]
pub enum Refused {
    /// For a line of a file.
    Line(File, Fault),
    /// For the call itself, or for a short buffer.
    Call(Refusal),
}

impl Refused {
    /// Number, file and line; file and line are 0 where the refusal is for no line.
    fn parts(self) -> (u8, u8, usize) {
        match self {
            Self::Line(file, fault) => (fault.refusal.number(), file as u8, fault.line),
            Self::Call(refusal) => (refusal.number(), 0, 0),
        }
    }

    /// All three in one number.
    pub fn code(self) -> u64 {
        let (number, file, line) = self.parts();
        u64::from(number) + (u64::from(file) << 8) + ((line as u64) << 16)
    }

    /// What lotenter prints for it.
    fn printed(self) -> String {
        let (number, file, line) = self.parts();
        format!("REFUSED {number} {file} {line}\n")
    }
}

/// Enters one result; a number of any size is taken for what it is.
pub fn enter(sheet: &[u8], container: u32, x: u32, buf: &mut [u8]) -> Result<usize, Refused> {
    let [container, x] = [container, x].map(|number| u16::try_from(number).ok());
    after(sheet, buf, |tally| tally.enter_wide(container, x).map_err(Refused::Call))
}

/// Withdraws one result; no container above 16 bits is held.
pub fn withdraw(sheet: &[u8], container: u32, buf: &mut [u8]) -> Result<usize, Refused> {
    after(sheet, buf, |tally| {
        let container = u16::try_from(container).map_err(|_| Refusal::NotHeld);
        container.and_then(|container| tally.withdraw(container)).map_err(Refused::Call)
    })
}

/// Enters a comma list.
pub fn enter_list(sheet: &[u8], list: &[u8], buf: &mut [u8]) -> Result<usize, Refused> {
    let in_list = |fault| Refused::Line(File::List, fault);
    after(sheet, buf, |tally| comma::enter(tally, list).map_err(in_list))
}

/// The sheet after a call, laid into a lent buffer. The sheet's own fault comes first, a short buffer last.
fn after(
    sheet: &[u8],
    buf: &mut [u8],
    call: impl FnOnce(&mut Tally) -> Result<(), Refused>,
) -> Result<usize, Refused> {
    let mut read = sheet::read(sheet).map_err(|fault| Refused::Line(File::Sheet, fault))?;
    call(&mut read.tally)?;
    sheet::write(&read.tally, buf).map_err(Refused::Call)
}

/// What lotenter prints for the bytes of its two files. Of a list with more bytes than it reads, or as many, it goes
/// by the lines that end among them: one is faulty, or nobody can tell.
pub fn lotenter(sheet: &[u8], list: &[u8]) -> String {
    let whole = list.len() < LIST_READ;
    let lines = if whole { list } else { ended(&list[..LIST_READ]) };
    let mut buf = [0; LONGEST_WRITTEN];
    match enter_list(sheet, lines, &mut buf) {
        Err(refused) => refused.printed(),
        Ok(length) if whole => String::from_utf8_lossy(&buf[..length]).into_owned(),
        Ok(_) => USAGE.into(),
    }
}

/// The lines that end.
fn ended(list: &[u8]) -> &[u8] {
    let end = list.iter().rposition(|&byte| byte == END);
    &list[..end.map_or(0, |place| place + 1)]
}

/// What lotlist prints for a sheet.
pub fn lotlist(sheet: &[u8]) -> String {
    match sheet::read(sheet) {
        Err(fault) => fault.printed(),
        Ok(read) => String::from_utf8_lossy(&comma::text(&read.tally)).into_owned(),
    }
}
