//! What is compared: the calls that a host program can make. The answer is a length, a number or a
//! verdict (1 and 0), or minus the refusal's number; for a call on a sheet that number has the file and the line
//! of a fault in it, too (`on_sheet::Refused::code`).

use crate::on_sheet::{self, Refused};
use crate::refusal::Refusal;
use crate::weights::{self, Weighing};
use crate::{calls, mixing, sampling, sheet, tolerance};

/// Its calls may be made from several threads at once.
pub trait Subject: Sync {
    /// What lotreport prints for a sheet; none where the subject has no such call.
    fn judge(&self, _sheet: &[u8], _buf: &mut [u8]) -> Option<i64> {
        None
    }

    /// The sheet written back; none where the subject has no such call.
    fn rewrite(&self, _sheet: &[u8], _buf: &mut [u8]) -> Option<i64> {
        None
    }

    /// The sheet with one result entered; none where the subject has no such call.
    fn enter(&self, _sheet: &[u8], _container: u32, _x: u32, _buf: &mut [u8]) -> Option<i64> {
        None
    }

    /// The sheet with one result withdrawn; none where the subject has no such call.
    fn withdraw(&self, _sheet: &[u8], _container: u32, _buf: &mut [u8]) -> Option<i64> {
        None
    }

    /// The sheet with a comma list entered; none where the subject has no such call.
    fn enter_list(&self, _sheet: &[u8], _list: &[u8], _buf: &mut [u8]) -> Option<i64> {
        None
    }

    /// A list of calls on two tallies; none where the subject has no such call.
    fn calls(&self, _list: &[u8], _buf: &mut [u8]) -> Option<i64> {
        None
    }

    /// A weight's bits in tenths of a milligram; none where the subject has no such call.
    fn tenths(&self, _bits: u32) -> Option<i64> {
        None
    }

    /// X of a weighing; none where the subject has no such call.
    fn weighed(&self, _weighing: &Weighing) -> Option<i64> {
        None
    }

    fn samples(&self, containers: u32, kilograms: u32) -> i64;
    fn label(&self, labelled: u32, found: u32) -> i64;
    fn pair(&self, first: u32, second: u32) -> i64;
    fn mixing(&self, results: &[u32], tolerated: u32) -> i64;
}

/// The implementation of this crate.
pub struct Independent;

impl Subject for Independent {
    fn judge(&self, sheet: &[u8], buf: &mut [u8]) -> Option<i64> {
        Some(length(sheet::judge(sheet, buf)))
    }

    fn rewrite(&self, sheet: &[u8], buf: &mut [u8]) -> Option<i64> {
        Some(length(sheet::rewrite(sheet, buf)))
    }

    fn enter(&self, sheet: &[u8], container: u32, x: u32, buf: &mut [u8]) -> Option<i64> {
        Some(sheet_length(on_sheet::enter(sheet, container, x, buf)))
    }

    fn withdraw(&self, sheet: &[u8], container: u32, buf: &mut [u8]) -> Option<i64> {
        Some(sheet_length(on_sheet::withdraw(sheet, container, buf)))
    }

    fn enter_list(&self, sheet: &[u8], list: &[u8], buf: &mut [u8]) -> Option<i64> {
        Some(sheet_length(on_sheet::enter_list(sheet, list, buf)))
    }

    fn samples(&self, containers: u32, kilograms: u32) -> i64 {
        match sampling::samples(containers, kilograms) {
            Ok(number) => number as i64,
            Err(refusal) => refused(refusal),
        }
    }

    fn label(&self, labelled: u32, found: u32) -> i64 {
        verdict(tolerance::label(labelled, found))
    }

    fn pair(&self, first: u32, second: u32) -> i64 {
        verdict(tolerance::pair(first, second))
    }

    fn mixing(&self, results: &[u32], tolerated: u32) -> i64 {
        verdict(mixing::mixable(results, tolerated))
    }

    fn calls(&self, list: &[u8], buf: &mut [u8]) -> Option<i64> {
        Some(calls::run(list, buf) as i64)
    }

    fn tenths(&self, bits: u32) -> Option<i64> {
        Some(weights::tenths(bits).map_or_else(refused, i64::from))
    }

    fn weighed(&self, weighing: &Weighing) -> Option<i64> {
        Some(weighing.x().map_or_else(refused, i64::from))
    }
}

/// The subject that the independent implementation is held against, and its name. Without the proved library
/// it is held against itself, which tries the comparison and nothing else.
#[cfg(feature = "ours")]
pub const OTHER: (&str, &dyn Subject) = ("the proved library", &crate::ours::Ours);
#[cfg(not(feature = "ours"))]
pub const OTHER: (&str, &dyn Subject) =
    ("no library linked: the independent implementation itself", &Independent);

fn length(answer: Result<usize, Refusal>) -> i64 {
    answer.map_or_else(refused, |length| length as i64)
}

fn sheet_length(answer: Result<usize, Refused>) -> i64 {
    answer.map_or_else(|refused| -(refused.code() as i64), |length| length as i64)
}

fn verdict(answer: Result<bool, Refusal>) -> i64 {
    answer.map_or_else(refused, i64::from)
}

fn refused(refusal: Refusal) -> i64 {
    -i64::from(refusal.number())
}
