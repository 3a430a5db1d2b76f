//! The proved library, crates/host/out/libhost.a, behind safe wrappers; host/gelvorin.h says what
//! each function answers. `gelvorin_calls` is of crates/lists/out/liblists.a; calls.rs says what it answers.
//!
//! None of them asks anything of its caller but that a pointer and the length behind it are those of
//! a slice, which the wrappers see to.

use crate::subject::Subject;
#[cfg(feature = "weights")]
use crate::weights::Weighing;

/// What the library adds to a refusal's number.
const REFUSED: u64 = 1 << 32;

unsafe extern "C" {
    safe fn gelvorin_samples(containers: u32, kilograms: u32) -> u64;
    safe fn gelvorin_label(labelled: u32, found: u32) -> u64;
    safe fn gelvorin_pair(first: u32, second: u32) -> u64;
    fn gelvorin_mixing(results: *const u32, count: usize, tolerated: u32) -> u64;
}

#[cfg(feature = "judge")]
unsafe extern "C" {
    fn gelvorin_judge(sheet: *const u8, sheet_len: usize, buf: *mut u8, buf_len: usize) -> u64;
}

#[cfg(feature = "rewrite")]
unsafe extern "C" {
    fn gelvorin_rewrite(sheet: *const u8, sheet_len: usize, buf: *mut u8, buf_len: usize) -> u64;
}

#[cfg(feature = "sheets")]
unsafe extern "C" {
    fn gelvorin_enter(
        sheet: *const u8,
        sheet_len: usize,
        container: u32,
        x: u32,
        buf: *mut u8,
        buf_len: usize,
    ) -> u64;
    fn gelvorin_withdraw(
        sheet: *const u8,
        sheet_len: usize,
        container: u32,
        buf: *mut u8,
        buf_len: usize,
    ) -> u64;
    fn gelvorin_enter_list(
        sheet: *const u8,
        sheet_len: usize,
        list: *const u8,
        list_len: usize,
        buf: *mut u8,
        buf_len: usize,
    ) -> u64;
}

#[cfg(feature = "weights")]
unsafe extern "C" {
    safe fn gelvorin_tenths(bits: u32) -> u64;
    safe fn gelvorin_weighed(status: u32, component: u32, remainder: u32) -> u64;
}

#[cfg(feature = "calls")]
unsafe extern "C" {
    fn gelvorin_calls(calls: *const u8, calls_len: usize, buf: *mut u8, buf_len: usize) -> u64;
}

/// The proved library.
pub struct Ours;

impl Subject for Ours {
    #[cfg(feature = "judge")]
    fn judge(&self, sheet: &[u8], buf: &mut [u8]) -> Option<i64> {
        // SAFETY: both pairs come from slices that live through the call.
        let answer = unsafe { gelvorin_judge(sheet.as_ptr(), sheet.len(), buf.as_mut_ptr(), buf.len()) };
        Some(signed(answer))
    }

    #[cfg(feature = "rewrite")]
    fn rewrite(&self, sheet: &[u8], buf: &mut [u8]) -> Option<i64> {
        // SAFETY: both pairs come from slices that live through the call.
        let answer = unsafe { gelvorin_rewrite(sheet.as_ptr(), sheet.len(), buf.as_mut_ptr(), buf.len()) };
        Some(signed(answer))
    }

    #[cfg(feature = "sheets")]
    fn enter(&self, sheet: &[u8], container: u32, x: u32, buf: &mut [u8]) -> Option<i64> {
        let (text, room) = (sheet.as_ptr(), buf.len());
        // SAFETY: both pairs come from slices that live through the call.
        let answer = unsafe { gelvorin_enter(text, sheet.len(), container, x, buf.as_mut_ptr(), room) };
        Some(signed(answer))
    }

    #[cfg(feature = "sheets")]
    fn withdraw(&self, sheet: &[u8], container: u32, buf: &mut [u8]) -> Option<i64> {
        let (text, room) = (sheet.as_ptr(), buf.len());
        // SAFETY: both pairs come from slices that live through the call.
        let answer = unsafe { gelvorin_withdraw(text, sheet.len(), container, buf.as_mut_ptr(), room) };
        Some(signed(answer))
    }

    #[cfg(feature = "sheets")]
    fn enter_list(&self, sheet: &[u8], list: &[u8], buf: &mut [u8]) -> Option<i64> {
        let [text, lines] = [sheet, list].map(<[u8]>::as_ptr);
        let room = buf.len();
        // SAFETY: all three pairs come from slices that live through the call.
        let answer =
            unsafe { gelvorin_enter_list(text, sheet.len(), lines, list.len(), buf.as_mut_ptr(), room) };
        Some(signed(answer))
    }

    #[cfg(feature = "weights")]
    fn tenths(&self, bits: u32) -> Option<i64> {
        Some(signed(gelvorin_tenths(bits)))
    }

    #[cfg(feature = "weights")]
    fn weighed(&self, weighing: &Weighing) -> Option<i64> {
        Some(signed(gelvorin_weighed(weighing.status, weighing.component, weighing.remainder)))
    }

    fn samples(&self, containers: u32, kilograms: u32) -> i64 {
        signed(gelvorin_samples(containers, kilograms))
    }

    fn label(&self, labelled: u32, found: u32) -> i64 {
        signed(gelvorin_label(labelled, found))
    }

    fn pair(&self, first: u32, second: u32) -> i64 {
        signed(gelvorin_pair(first, second))
    }

    fn mixing(&self, results: &[u32], tolerated: u32) -> i64 {
        // SAFETY: the pair comes from a slice that lives through the call.
        signed(unsafe { gelvorin_mixing(results.as_ptr(), results.len(), tolerated) })
    }

    #[cfg(feature = "calls")]
    fn calls(&self, list: &[u8], buf: &mut [u8]) -> Option<i64> {
        // SAFETY: both pairs come from slices that live through the call.
        let answer = unsafe { gelvorin_calls(list.as_ptr(), list.len(), buf.as_mut_ptr(), buf.len()) };
        Some(signed(answer))
    }
}

/// The library's answer with a refusal as minus its number. A number that is neither stays out of the
/// way of both.
fn signed(answer: u64) -> i64 {
    match answer.checked_sub(REFUSED) {
        None => answer as i64,
        Some(number) => i64::try_from(number).map_or(i64::MIN, |number| -number),
    }
}
