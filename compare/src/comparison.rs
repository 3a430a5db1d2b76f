//! Two subjects held against each other: the same input, then every byte of the answers.

use std::collections::BTreeMap;
use std::fmt::{self, Write as _};

use crate::apart::Apart;
use crate::generate::commas;
use crate::generate::lists::{self, Form};
use crate::generate::numbers;
use crate::generate::sheets::{self, KINDS};
use crate::prng::Prng;
use crate::sheet::{self, LONGEST_WRITTEN};
use crate::subject::Subject;

/// Differences that are shown in full.
const SHOWN: usize = 10;
/// What a report shows that goes by the printed mean where the exact one has another row or none.
pub const MISSED: &str = "a row that the exact mean would miss";
/// What a report shows that goes by the exact mean where the printed one is within the limits.
pub const VOID: &str = "void with a printed mean within the limits";
/// Bytes on either side of a lent buffer that no call may touch.
const GUARD: usize = 32;

/// What was compared so far.
#[derive(Default)]
pub struct Comparison {
    pub compared: BTreeMap<String, usize>,
    pub differences: usize,
    /// The first few differences, in words.
    pub shown: Vec<String>,
    /// How often each answer came: a refusal's number, or the words of a verdict.
    pub reached: BTreeMap<String, usize>,
}

impl Comparison {
    pub(crate) fn count(&mut self, what: &str, number: usize) {
        *self.compared.entry(what.into()).or_default() += number;
    }

    /// Counts reports, how many of them show by which mean a program goes, and how many have equal figures of H.
    pub(crate) fn count_reports(&mut self, what: &str, apart: &Apart) {
        self.count(what, apart.reports);
        self.count(&format!("{what}, of them with {MISSED}"), apart.rows);
        self.count(&format!("{what}, of them {VOID}"), apart.voids);
        for (mark, times) in ['-', '=', '+'].into_iter().zip(apart.equal) {
            self.count(&format!("{what}, of them with equal figures of H and {mark}"), times);
        }
    }

    pub(crate) fn reach(&mut self, answer: String) {
        *self.reached.entry(answer).or_default() += 1;
    }

    pub(crate) fn differ(&mut self, words: impl FnOnce() -> String) {
        self.differences += 1;
        if self.shown.len() < SHOWN {
            self.shown.push(words());
        }
    }

    fn numbers(&mut self, what: &str, left: i64, right: i64, input: impl fmt::Debug) {
        self.count(what, 1);
        let many = matches!(what, "sampling" | "weighed");
        let answer = if many && left > 0 { "a number".into() } else { left.to_string() };
        self.reach(format!("{what} {answer}"));
        if left != right {
            self.differ(|| format!("{what} {input:?}: {left} and {right}"));
        }
    }
}

/// Both subjects' answer to one input with the whole buffer after it. The buffers held the same bytes
/// before, guards on either side of the part that was lent included.
struct Answers {
    left: (i64, Vec<u8>),
    right: (i64, Vec<u8>),
}

impl Answers {
    fn of(
        prng: &mut Prng,
        room: usize,
        call: impl Fn(&dyn Subject, &mut [u8]) -> Option<i64>,
        left: &dyn Subject,
        right: &dyn Subject,
    ) -> Option<Self> {
        let mut before = vec![0; room + 2 * GUARD];
        prng.fill(&mut before);
        let answer = |subject: &dyn Subject, mut buf: Vec<u8>| {
            let number = call(subject, &mut buf[GUARD..GUARD + room])?;
            Some((number, buf))
        };
        Some(Self { left: answer(left, before.clone())?, right: answer(right, before)? })
    }

    fn compare(&self, found: &mut Comparison, what: &str, input: &[u8]) {
        if self.left != self.right {
            let words =
                |(number, buf): &(i64, Vec<u8>)| format!("{number} {:?}", String::from_utf8_lossy(lent(buf)));
            found.differ(|| {
                let input = String::from_utf8_lossy(input);
                format!("{what} {input:?}\n  {}\n  {}", words(&self.left), words(&self.right))
            });
        }
    }
}

/// The part of a buffer that was lent.
fn lent(buf: &[u8]) -> &[u8] {
    &buf[GUARD..buf.len() - GUARD]
}

/// Compares `number` sheets of all kinds, judged and written back, by what calls the subjects have.
pub fn sheets(seed: u64, number: usize, left: &dyn Subject, right: &dyn Subject, found: &mut Comparison) {
    let mut prng = Prng::new(seed);
    let mut apart = Apart::default();
    for at in 0..number {
        let sheet = sheets::sheet(&mut prng, KINDS[at % KINDS.len()]);
        if let Some(judged) = both(&mut prng, 100, |subject, buf| subject.judge(&sheet, buf), left, right) {
            reach_text(found, &judged);
            found.count("sheets judged", 1);
            judged.compare(found, "judge", &sheet);
            // A buffer that is too short shows nothing of the report.
            if let (0.., Ok(read)) = (judged.left.0, sheet::read(&sheet)) {
                apart.look_at(&read.tally);
            }
        }
        let rewrite = |subject: &dyn Subject, buf: &mut [u8]| subject.rewrite(&sheet, buf);
        if let Some(written) = both(&mut prng, LONGEST_WRITTEN, rewrite, left, right) {
            found.count("sheets written back", 1);
            if written.left.0 < 0 {
                found.reach(format!("rewrite {}", written.left.0));
            }
            written.compare(found, "rewrite", &sheet);
        }
    }
    found.count_reports("reports on sheets", &apart);
}

/// Compares `number` pairs of a sheet and a comma list: the list entered, one result entered and one withdrawn, by
/// what calls the subjects have.
pub fn on_sheets(seed: u64, number: usize, left: &dyn Subject, right: &dyn Subject, found: &mut Comparison) {
    let mut prng = Prng::new(seed);
    for _ in 0..number {
        let (sheet, tally) = commas::sheet_and_tally(&mut prng);
        let list = commas::any(&mut prng, &tally);
        let (container, x) = (numbers::container(&mut prng, &tally), numbers::x(&mut prng));
        let input = format!("{container} {x} {}", String::from_utf8_lossy(&list));
        let input = [&sheet, input.as_bytes()].concat();
        let mut compare = |what: &str, call: &dyn Fn(&dyn Subject, &mut [u8]) -> Option<i64>| {
            if let Some(answers) = both(&mut prng, LONGEST_WRITTEN, call, left, right) {
                found.count(&format!("sheets with {what}"), 1);
                reach_refusal(found, what, answers.left.0);
                answers.compare(found, what, &input);
            }
        };
        compare("a list entered", &|subject, buf| subject.enter_list(&sheet, &list, buf));
        compare("a result entered", &|subject, buf| subject.enter(&sheet, container, x, buf));
        compare("a result withdrawn", &|subject, buf| subject.withdraw(&sheet, container, buf));
    }
}

/// Counts the answer to a call on a sheet by its refusal's number and the file that the fault is in.
fn reach_refusal(found: &mut Comparison, what: &str, answer: i64) {
    let refused = answer.min(0).unsigned_abs();
    let (number, file) = (refused & 0xFF, refused >> 8 & 0xFF);
    found.reach(match (number, file) {
        (0, _) => format!("{what}: accepted"),
        (_, 1) => format!("{what}: refused for the sheet"),
        _ => format!("{what}: refused {number}"),
    });
}

/// Makes one call on both subjects, with a lent buffer of some length: ample, as long as the text, one
/// byte less or more, or any.
fn both(
    prng: &mut Prng,
    longest: usize,
    call: impl Fn(&dyn Subject, &mut [u8]) -> Option<i64>,
    left: &dyn Subject,
    right: &dyn Subject,
) -> Option<Answers> {
    let length = usize::try_from(call(left, &mut vec![0; longest])?).unwrap_or(0);
    let room = match prng.below(8) {
        0 => length.saturating_sub(1),
        1 => length,
        2 => length + 1,
        3 => prng.below(length + 1),
        4 => longest,
        _ => length + prng.below(64),
    };
    Answers::of(prng, room, call, left, right)
}

/// Counts a judged sheet by its refusal, or by the words of its H, R and LOT lines.
fn reach_text(found: &mut Comparison, judged: &Answers) {
    let (answer, buf) = &judged.left;
    let Ok(length) = usize::try_from(*answer) else {
        return found.reach(format!("judge {answer}"));
    };
    let text = String::from_utf8_lossy(&lent(buf)[..length]);
    let mut words = String::from("judge");
    if let Some(refused) = text.strip_prefix("REFUSED ") {
        let _ = write!(words, " refused {}", refused.split(' ').next().unwrap_or(""));
    } else {
        for line in text.lines().skip(2) {
            let _ = write!(words, " {}", line.rsplit(' ').next().unwrap_or(""));
        }
    }
    found.reach(words);
}

/// Compares `number` lists of calls on two tallies, where both subjects have the call for it.
pub fn lists(seed: u64, number: usize, left: &dyn Subject, right: &dyn Subject, found: &mut Comparison) {
    let mut prng = Prng::new(seed);
    for _ in 0..number {
        let list = lists::list(&mut prng, Form::Any);
        let mut bytes = Vec::new();
        list.calls.iter().for_each(|call| call.encode(&mut bytes));
        // Now and then the list or the room for its answers breaks off.
        let (cut, narrow) = (prng.once_in(16), prng.once_in(16));
        if cut {
            bytes.truncate(prng.below(bytes.len() + 1));
        }
        let room = if narrow { prng.below(list.room + 1) } else { list.room };
        let answers = Answers::of(&mut prng, room, |subject, buf| subject.calls(&bytes, buf), left, right);
        let Some(answers) = answers else { return };
        answers.compare(found, "calls", &bytes);
        // Of a list that breaks off it is not known here which of its calls were made.
        if cut || narrow {
            found.count("lists of calls that break off", 1);
            continue;
        }
        found.count("lists of calls", 1);
        found.count("calls in lists", list.answers.len());
        found.count_reports("reports in lists", &list.apart);
        for (name, number) in list.answers {
            found.reach(format!("list {name} {number}"));
        }
    }
}

/// Compares the calls beside the tally: the small tables wholly, the rest at limits and at random.
pub fn beside(seed: u64, number: usize, left: &dyn Subject, right: &dyn Subject, found: &mut Comparison) {
    let mut prng = Prng::new(seed);
    for (labelled, found_seeds) in numbers::labels(&mut prng) {
        let answers = (left.label(labelled, found_seeds), right.label(labelled, found_seeds));
        found.numbers("label", answers.0, answers.1, (labelled, found_seeds));
    }
    for (first, second) in numbers::pairs(&mut prng) {
        found.numbers("pair", left.pair(first, second), right.pair(first, second), (first, second));
    }
    for (containers, kilograms) in numbers::lots(&mut prng, number) {
        let answers = (left.samples(containers, kilograms), right.samples(containers, kilograms));
        found.numbers("sampling", answers.0, answers.1, (containers, kilograms));
    }
    for _ in 0..number {
        let (results, tolerated) = numbers::components(&mut prng);
        let answers = (left.mixing(&results, tolerated), right.mixing(&results, tolerated));
        found.numbers("mixing", answers.0, answers.1, (&results, tolerated));
    }
    for weighing in numbers::weighings(&mut prng, number) {
        if let (Some(one), Some(other)) = (left.weighed(&weighing), right.weighed(&weighing)) {
            found.numbers("weighed", one, other, weighing);
        }
    }
}
