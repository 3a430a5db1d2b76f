//! The comparison itself is tried: programs with a fault that a lazy programmer might leave in are
//! each found by it, and the made sheets and lists reach what they are made for.

use compare::apart;
use compare::card::{Attribute, HIGHEST_X, Row};
use compare::comparison::{self, Comparison, MISSED, VOID};
use compare::generate::plan::Plan;
use compare::generate::sheets::{self, KINDS};
use compare::generate::weighings::EDGES;
use compare::prng::Prng;
use compare::report::{Decimal, ExactH, FEWEST_REPORTED};
use compare::sheet::{self, END, Frame};
use compare::subject::{Independent, Subject};
use compare::tally::Tally;
use compare::weights::Weighing;
use compare::{buffer, patterns, report};

/// The independent implementation with one call changed.
#[derive(Clone, Copy)]
enum Fault {
    /// Another text for a sheet.
    Text(fn(&[u8]) -> String),
    /// Another way with the buffer.
    Judge(fn(&[u8], &mut [u8]) -> i64),
    Rewrite(fn(&[u8], &mut [u8]) -> i64),
    Samples(fn(u32, u32) -> i64),
    Label(fn(u32, u32) -> i64),
    Pair(fn(u32, u32) -> i64),
    Mixing(fn(&[u32], u32) -> i64),
    Calls(fn(&[u8], &mut [u8]) -> i64),
    Tenths(fn(u32) -> i64),
    Weighed(fn(&Weighing) -> i64),
}

impl Subject for Fault {
    fn judge(&self, sheet: &[u8], buf: &mut [u8]) -> Option<i64> {
        Some(match self {
            Self::Text(text) => buffer::lay(text(sheet).as_bytes(), buf).map_or(-16, |length| length as i64),
            Self::Judge(judge) => judge(sheet, buf),
            _ => judge(sheet, buf),
        })
    }

    fn rewrite(&self, sheet: &[u8], buf: &mut [u8]) -> Option<i64> {
        Some(if let Self::Rewrite(rewrite) = self { rewrite(sheet, buf) } else { rewrite(sheet, buf) })
    }

    fn samples(&self, containers: u32, kilograms: u32) -> i64 {
        let samples = if let Self::Samples(samples) = self { *samples } else { samples };
        samples(containers, kilograms)
    }

    fn label(&self, labelled: u32, found: u32) -> i64 {
        let label = if let Self::Label(label) = self { *label } else { label };
        label(labelled, found)
    }

    fn pair(&self, first: u32, second: u32) -> i64 {
        let pair = if let Self::Pair(pair) = self { *pair } else { pair };
        pair(first, second)
    }

    fn mixing(&self, results: &[u32], tolerated: u32) -> i64 {
        let mixing = if let Self::Mixing(mixing) = self { *mixing } else { mixing };
        mixing(results, tolerated)
    }

    fn calls(&self, list: &[u8], buf: &mut [u8]) -> Option<i64> {
        Some(if let Self::Calls(calls) = self { calls(list, buf) } else { calls(list, buf) })
    }

    fn tenths(&self, bits: u32) -> Option<i64> {
        Some(if let Self::Tenths(tenths) = self { tenths(bits) } else { tenths(bits) })
    }

    fn weighed(&self, weighing: &Weighing) -> Option<i64> {
        Some(if let Self::Weighed(weighed) = self { weighed(weighing) } else { weighed(weighing) })
    }
}

fn judge(sheet: &[u8], buf: &mut [u8]) -> i64 {
    Independent.judge(sheet, buf).expect("it has the call")
}

fn rewrite(sheet: &[u8], buf: &mut [u8]) -> i64 {
    Independent.rewrite(sheet, buf).expect("it has the call")
}

fn calls(list: &[u8], buf: &mut [u8]) -> i64 {
    Independent.calls(list, buf).expect("it has the call")
}

fn samples(containers: u32, kilograms: u32) -> i64 {
    Independent.samples(containers, kilograms)
}

fn label(labelled: u32, found: u32) -> i64 {
    Independent.label(labelled, found)
}

fn pair(first: u32, second: u32) -> i64 {
    Independent.pair(first, second)
}

fn mixing(results: &[u32], tolerated: u32) -> i64 {
    Independent.mixing(results, tolerated)
}

fn tenths(bits: u32) -> i64 {
    Independent.tenths(bits).expect("it has the call")
}

fn weighed(weighing: &Weighing) -> i64 {
    Independent.weighed(weighing).expect("it has the call")
}

/// The differences that a comparison of some thousand inputs finds.
fn differences(fault: &Fault) -> usize {
    let mut found = Comparison::default();
    match fault {
        Fault::Text(_) | Fault::Judge(_) | Fault::Rewrite(_) => {
            comparison::sheets(7, 8_000, &Independent, fault, &mut found);
        }
        Fault::Samples(_) | Fault::Label(_) | Fault::Pair(_) | Fault::Mixing(_) | Fault::Weighed(_) => {
            comparison::beside(7, 2_000, &Independent, fault, &mut found);
        }
        Fault::Tenths(_) => {
            for edge in EDGES.map(u64::from) {
                let around = edge.saturating_sub(1_000)..edge + 1_000;
                patterns::compare(around, &Independent, fault, &mut found);
            }
        }
        Fault::Calls(_) => comparison::lists(7, 100, &Independent, fault, &mut found),
    }
    assert!(!found.compared.is_empty());
    found.differences
}

/// The text with the lines changed one by one.
fn lines(sheet: &[u8], change: impl Fn(&[&str]) -> Option<String>) -> String {
    let text = sheet::printed(sheet);
    let changed: Vec<String> = text
        .lines()
        .map(|line| change(&line.split(' ').collect::<Vec<_>>()).unwrap_or_else(|| line.into()) + "\n")
        .collect();
    changed.concat()
}

/// The frame of a sheet's line, counted from 1 as a refusal tells it.
fn frame_at(sheet: &[u8], line: &str) -> Option<Frame> {
    let place = line.parse::<usize>().ok()?.checked_sub(1)?;
    Frame::parse(sheet.split(|&byte| byte == END).nth(place)?)
}

/// The weighing that a refused line has.
fn weighing_at(sheet: &[u8], line: &str) -> Option<Weighing> {
    match frame_at(sheet, line)? {
        Frame::Weighed { weighing, .. } => Some(weighing),
        _ => None,
    }
}

/// The sheet with those of its frames changed for which there is a change.
fn with_frames(sheet: &[u8], change: impl Fn(Frame) -> Option<Frame>) -> Vec<u8> {
    let lines = sheet.split_inclusive(|&byte| byte == END);
    let changed = lines.map(|line| {
        let frame = line.strip_suffix(&[END]).and_then(Frame::parse).and_then(&change);
        frame.map_or(line.to_vec(), |frame| {
            let mut written = Vec::new();
            frame.write(&mut written);
            written
        })
    });
    changed.collect::<Vec<_>>().concat()
}

/// The sheet with its weighings changed, or taken for something else.
fn with_weighings(sheet: &[u8], change: impl Fn(u16, Weighing) -> Option<Frame>) -> Vec<u8> {
    with_frames(sheet, |frame| match frame {
        Frame::Weighed { container, weighing } => change(container, weighing),
        _ => None,
    })
}

/// What a rule for the row may look at: S, N, and how many units of the mean's last place X's unit has.
struct Mean {
    sum: u64,
    held: u64,
    scale: u64,
}

/// The mean of a tally, and its attribute.
fn mean_of(tally: &Tally) -> (Attribute, Mean) {
    let attribute = Attribute::of(tally.lot().attribute).expect("a tally that was read");
    let sum = tally.held().iter().map(|held| u64::from(held.x)).sum();
    let held = tally.held().len();
    (attribute, Mean { sum, held: held as u64, scale: attribute.mean_scale(held) as u64 })
}

/// What is printed where the row is found by another rule. A row that this rule takes gets a bound that
/// serves any mean, any other the bound 0, which serves none, since a mean of 0 is void.
fn with_rows(sheet: &[u8], serves: fn(&Mean, u64) -> bool) -> String {
    let mean = match sheet::read(sheet) {
        Ok(read) if read.tally.held().len() >= FEWEST_REPORTED => mean_of(&read.tally).1,
        _ => return sheet::printed(sheet),
    };
    sheet::printed(&with_frames(sheet, |frame| match frame {
        Frame::Range(row) => {
            let mean_bound = if serves(&mean, row.mean_bound.into()) { HIGHEST_X } else { 0 };
            Some(Frame::Range(Row { mean_bound, ..row }))
        }
        _ => None,
    }))
}

fn has_weighings(sheet: &[u8]) -> bool {
    sheet.split(|&byte| byte == END).any(|line| matches!(Frame::parse(line), Some(Frame::Weighed { .. })))
}

/// A printed figure without its mark.
fn figure(value: &str) -> &str {
    value.trim_end_matches(['=', '+', '-'])
}

/// What lotreport prints for a sheet, with another mark behind H where `mark` has one for the exact H.
fn marked(sheet: &[u8], mark: impl Fn(ExactH) -> Option<char>) -> String {
    let tally = sheet::read(sheet).ok().map(|read| read.tally);
    let mark = tally.and_then(|tally| mark(report::exact_h(&tally)?));
    lines(sheet, |words| match (words, mark) {
        (["H", value, limit, word], Some(mark)) => Some(format!("H {}{mark} {limit} {word}", figure(value))),
        _ => None,
    })
}

/// What lotreport prints for a sheet, with R by another range of the results, which are given in the order of their containers.
fn ranged(sheet: &[u8], range: fn(&[u16]) -> u16) -> String {
    let Ok(read) = sheet::read(sheet) else { return sheet::printed(sheet) };
    let results: Vec<u16> = read.tally.held().iter().map(|held| held.x).collect();
    let places = mean_of(&read.tally).0.places();
    lines(sheet, |words| {
        let &["R", _, limit, word] = words else { return None };
        let value = Decimal { value: range(&results).into(), places }.to_string();
        by_printed_value("R", &["R", &value, limit, word])
            .or_else(|| Some(format!("R {value} {limit} {word}")))
    })
}

/// The larger end less the smaller.
fn between_ends(results: &[u16]) -> u16 {
    results.iter().max().unwrap_or(&0) - results.iter().min().unwrap_or(&0)
}

fn by_printed_value(name: &str, words: &[&str]) -> Option<String> {
    let &[first, value, limit, _] = words else { return None };
    let (left, right): (f64, f64) = (figure(value).parse().ok()?, limit.parse().ok()?);
    (first == name).then(|| format!("{name} {value} {limit} {}", if left > right { "over" } else { "kept" }))
}

const FAULTS: [(&str, Fault); 50] = [
    ("lower case taken", Fault::Text(|sheet| sheet::printed(&sheet.to_ascii_uppercase()))),
    (
        "byte 0D passed over",
        Fault::Text(|sheet| {
            sheet::printed(&sheet.iter().copied().filter(|&byte| byte != b'\r').collect::<Vec<_>>())
        }),
    ),
    (
        "missing last end byte forgiven",
        Fault::Text(|sheet| match sheet.last() {
            Some(&END) | None => sheet::printed(sheet),
            _ => sheet::printed(&[sheet, &[END]].concat()),
        }),
    ),
    (
        "what stands behind 06 not read",
        Fault::Text(|sheet| {
            let lines = sheet.split_inclusive(|&byte| byte == END);
            let mut over = false;
            let read = lines.take_while(|line| !std::mem::replace(&mut over, line.starts_with(b"06")));
            sheet::printed(&read.collect::<Vec<_>>().concat())
        }),
    ),
    ("judged by the printed H", Fault::Text(|sheet| lines(sheet, |words| by_printed_value("H", words)))),
    (
        "H over where it is the critical value",
        Fault::Text(|sheet| {
            lines(sheet, |words| match words {
                ["H", value, limit, "kept"] if value.strip_suffix('=') == Some(limit) => {
                    Some(format!("H {value} {limit} over"))
                }
                _ => None,
            })
        }),
    ),
    (
        "R over where it is the tolerated one",
        Fault::Text(|sheet| {
            lines(sheet, |words| match words {
                ["R", value, limit, "kept"] if value == limit => Some(format!("R {value} {limit} over")),
                _ => None,
            })
        }),
    ),
    (
        "smallest result begun at 0",
        Fault::Text(|sheet| ranged(sheet, |results| results.iter().max().copied().unwrap_or(0))),
    ),
    ("first result skipped", Fault::Text(|sheet| ranged(sheet, |results| between_ends(&results[1..])))),
    (
        "one result too few read",
        Fault::Text(|sheet| ranged(sheet, |results| between_ends(&results[..results.len() - 1]))),
    ),
    (
        "largest of the first result only",
        Fault::Text(|sheet| ranged(sheet, |results| results[0] - results.iter().min().unwrap_or(&0))),
    ),
    (
        "99.80 taken for void",
        Fault::Text(|sheet| {
            let text = sheet::printed(sheet);
            let head: Vec<&str> = text.lines().take(2).collect();
            match head[..] {
                [n, "MEAN 99.80="] => format!("{n}\nMEAN 99.80=\nH void\nR void\nLOT void\n"),
                _ => text,
            }
        }),
    ),
    (
        "mark of H by its critical value",
        Fault::Text(|sheet| {
            lines(sheet, |words| {
                let &["H", value, limit, word] = words else { return None };
                let (h, critical): (f64, f64) = (figure(value).parse().ok()?, limit.parse().ok()?);
                Some(format!("H {}{} {limit} {word}", figure(value), report::mark(h.partial_cmp(&critical)?)))
            })
        }),
    ),
    (
        "= where the rest is half",
        Fault::Text(|sheet| {
            marked(sheet, |h| (2 * h.numerator.rem_euclid(h.denominator) == h.denominator).then_some('='))
        }),
    ),
    ("+ below zero", Fault::Text(|sheet| marked(sheet, |h| (h.numerator < 0).then_some('+')))),
    (
        "H cut to hundredths before its mark",
        Fault::Text(|sheet| marked(sheet, |h| h.compare(h.hundredths()).is_gt().then_some('='))),
    ),
    (
        "no mark behind MEAN where void",
        Fault::Text(|sheet| {
            let void = sheet::printed(sheet).contains("H void");
            lines(sheet, |words| match words {
                ["MEAN", value] if void => Some(format!("MEAN {}", figure(value))),
                _ => None,
            })
        }),
    ),
    (
        "mark behind R",
        Fault::Text(|sheet| {
            lines(sheet, |words| match words {
                ["R", value, limit, word] => Some(format!("R {value}= {limit} {word}")),
                _ => None,
            })
        }),
    ),
    (
        "15 told on the line behind 06",
        Fault::Text(|sheet| {
            lines(sheet, |words| match words {
                ["REFUSED", "15", line] => Some(format!("REFUSED 15 {}", line.parse::<usize>().ok()? + 1)),
                _ => None,
            })
        }),
    ),
    (
        "5 told for a 97th row that is bad",
        Fault::Text(|sheet| {
            let text = sheet::printed(sheet);
            let rows = sheet.split(|&byte| byte == END).filter(|line| line.starts_with(b"04")).count();
            if rows > 96 { text.replace("REFUSED 4 ", "REFUSED 5 ") } else { text }
        }),
    ),
    (
        "a byte behind the text written",
        Fault::Judge(|sheet, buf| {
            let answer = judge(sheet, buf);
            if let Some(behind) = usize::try_from(answer).ok().and_then(|length| buf.get_mut(length)) {
                *behind = 0;
            }
            answer
        }),
    ),
    (
        "one byte more than the text asked for",
        Fault::Judge(
            |sheet, buf| {
                if buf.len() == sheet::printed(sheet).len() { -16 } else { judge(sheet, buf) }
            },
        ),
    ),
    (
        "a short buffer written to",
        Fault::Judge(|sheet, buf| {
            let answer = judge(sheet, buf);
            if answer == -16 && !buf.is_empty() {
                buf[0] = sheet::printed(sheet).as_bytes()[0];
            }
            answer
        }),
    ),
    (
        "results written in the order they came",
        Fault::Rewrite(|sheet, buf| {
            let answer = rewrite(sheet, buf);
            // A sheet with weighed results is longer than what is written for it.
            if let Some(text) = buf.get_mut(..sheet.len()).filter(|_| answer > 0) {
                text.copy_from_slice(sheet);
            }
            answer
        }),
    ),
    (
        "16 before the reader's numbers",
        Fault::Rewrite(|sheet, buf| if buf.is_empty() { -16 } else { rewrite(sheet, buf) }),
    ),
    (
        "Table 2B raised for 16 containers",
        Fault::Samples(|containers, kilograms| {
            let answer = samples(containers, kilograms);
            if containers == 16 && kilograms > 100 { (answer + 15) / 16 * 16 } else { answer }
        }),
    ),
    ("label: less than column B", Fault::Label(|labelled, found| label(labelled, found.saturating_add(1)))),
    (
        "pair: average rounded down",
        Fault::Pair(|first, second| {
            if (u64::from(first) + u64::from(second)) % 2 == 1 && first.max(second) > 0 {
                pair(first.max(second) - 1, first.min(second))
            } else {
                pair(first, second)
            }
        }),
    ),
    (
        "pair: sum in 32 bits",
        Fault::Pair(
            |first, second| {
                if first.checked_add(second).is_none() { 1 } else { pair(first, second) }
            },
        ),
    ),
    (
        "mixing: 7 before 17",
        Fault::Mixing(
            |results, tolerated| {
                if results.iter().any(|&x| x > 10_000) { -7 } else { mixing(results, tolerated) }
            },
        ),
    ),
    (
        "calls: 13 before 12",
        Fault::Calls(|list, buf| {
            let answer = calls(list, buf);
            if let Some(byte) = buf.iter_mut().find(|byte| **byte == 12) {
                *byte = 13;
            }
            answer
        }),
    ),
    (
        "the sign of minus zero not seen",
        Fault::Text(|sheet| {
            let unsigned = |bits| if bits == 1 << 31 { 0 } else { bits };
            sheet::printed(&with_weighings(sheet, |container, weighing| {
                let [component, remainder] = [weighing.component, weighing.remainder].map(unsigned);
                Some(Frame::Weighed { container, weighing: Weighing { component, remainder, ..weighing } })
            }))
        }),
    ),
    (
        "the weights looked at before the status",
        Fault::Text(|sheet| {
            lines(sheet, |words| match words {
                ["REFUSED", "18", line] => {
                    let weighing = Weighing { status: 0, ..weighing_at(sheet, line)? };
                    weighing.x().is_err().then(|| format!("REFUSED 19 {line}"))
                }
                _ => None,
            })
        }),
    ),
    (
        "the status looked at before the container",
        Fault::Text(|sheet| {
            lines(sheet, |words| match words {
                ["REFUSED", "6" | "8" | "9", line] => {
                    let unsteady = weighing_at(sheet, line)?.status != 0;
                    unsteady.then(|| format!("REFUSED 18 {line}"))
                }
                _ => None,
            })
        }),
    ),
    (
        "a status above 02 taken for a bad line",
        Fault::Text(|sheet| {
            lines(sheet, |words| match words {
                ["REFUSED", "18", line] => {
                    (weighing_at(sheet, line)?.status > 2).then(|| format!("REFUSED 1 {line}"))
                }
                _ => None,
            })
        }),
    ),
    (
        "weighed results taken for any attribute",
        Fault::Text(|sheet| {
            sheet::printed(&with_weighings(sheet, |container, weighing| {
                weighing.x().ok().map(|x| Frame::Result { container, x })
            }))
        }),
    ),
    (
        "weighed results not counted in 06",
        Fault::Text(|sheet| {
            let text = sheet::printed(sheet);
            let end = sheet.iter().filter(|&&byte| byte == END).count();
            if text.starts_with('N') && has_weighings(sheet) { format!("REFUSED 14 {end}\n") } else { text }
        }),
    ),
    (
        "no sheet read that is longer than any written",
        Fault::Rewrite(|sheet, buf| {
            let answer = rewrite(sheet, buf);
            if sheet.len() > sheet::LONGEST_WRITTEN && answer > 0 { -1 } else { answer }
        }),
    ),
    (
        "share rounded down",
        Fault::Weighed(|weighing| match weighed(weighing) {
            x @ 0.. => {
                let [component, remainder] = [weighing.component, weighing.remainder].map(tenths);
                x.min(10_000 * component / (component + remainder))
            }
            refused => refused,
        }),
    ),
    (
        "share of the weights before they are rounded",
        Fault::Weighed(|weighing| match weighed(weighing) {
            0.. => {
                let [component, remainder] =
                    [weighing.component, weighing.remainder].map(|bits| f64::from(f32::from_bits(bits)));
                (10_000.0 * component / (component + remainder)).round() as i64
            }
            refused => refused,
        }),
    ),
    (
        "a status of 256 taken for 0",
        Fault::Weighed(|weighing| weighed(&Weighing { status: weighing.status & 0xFF, ..*weighing })),
    ),
    (
        "tenths by the machine's product",
        Fault::Tenths(|bits| match tenths(bits) {
            0.. => (f32::from_bits(bits) * 10_000.0).round() as i64,
            refused => refused,
        }),
    ),
    (
        "tenths half to even",
        Fault::Tenths(|bits| match tenths(bits) {
            0.. => (f64::from(f32::from_bits(bits)) * 10_000.0).round_ties_even() as i64,
            refused => refused,
        }),
    ),
    (
        "the row by the exact mean",
        Fault::Text(|sheet| with_rows(sheet, |mean, bound| mean.sum <= bound * mean.held)),
    ),
    (
        "the row by the mean to the units of X",
        Fault::Text(|sheet| {
            with_rows(sheet, |mean, bound| (2 * mean.sum + mean.held) / (2 * mean.held) <= bound)
        }),
    ),
    (
        "the row by the mean cut off at its places",
        Fault::Text(|sheet| {
            with_rows(sheet, |mean, bound| mean.scale * mean.sum / mean.held <= bound * mean.scale)
        }),
    ),
    (
        "the row by the mean with half down",
        Fault::Text(|sheet| {
            with_rows(sheet, |mean, bound| {
                let halves = 2 * mean.scale * mean.sum + mean.held - 1;
                halves / (2 * mean.held) <= bound * mean.scale
            })
        }),
    ),
    (
        "the mean bound taken as exclusive",
        Fault::Text(|sheet| {
            with_rows(sheet, |mean, bound| {
                let halves = 2 * mean.scale * mean.sum + mean.held;
                halves / (2 * mean.held) < bound * mean.scale
            })
        }),
    ),
    (
        "void by the printed mean",
        Fault::Text(|sheet| match sheet::read(sheet) {
            Ok(read) if apart::in_void(&read.tally) => sheet::printed(sheet).replace("void", "none open"),
            _ => sheet::printed(sheet),
        }),
    ),
    ("1000 g itself too heavy", Fault::Tenths(|bits| if bits == 0x447A_0000 { -19 } else { tenths(bits) })),
];

#[test]
fn an_implementation_agrees_with_itself() {
    for same in [Fault::Text(sheet::printed), Fault::Pair(pair), Fault::Calls(calls), Fault::Tenths(tenths)] {
        assert_eq!(differences(&same), 0);
    }
}

#[test]
fn each_fault_is_found() {
    for (name, fault) in FAULTS {
        assert!(differences(&fault) > 0, "not found: {name}");
    }
}

#[test]
fn sheets_reach_the_limits_they_are_made_for() {
    let mut prng = Prng::new(3);
    let (mut equal, mut half, mut at_limit, mut below_zero) = (0, 0, 0, 0);
    for _ in 0..4_000 {
        let plan = if prng.once_in(2) { Plan::exact(&mut prng) } else { Plan::judged(&mut prng, 8) };
        let tally = plan.tally().expect("a good plan");
        let held = tally.held().len();
        let Some(h) = report::exact_h(&tally) else { continue };
        let critical = tally.card().criticals[held];
        equal += usize::from(critical.is_some_and(|critical| h.compare(critical.into()).is_eq()));
        half += usize::from(2 * h.numerator % h.denominator == 0 && h.numerator % h.denominator != 0);
        below_zero += usize::from(h.numerator < 0);
        let sum: usize = tally.held().iter().map(|held| usize::from(held.x)).sum();
        let limits: &[usize] = [&[20, 9_980][..], &[100, 9_900], &[2]][usize::from(plan.lot.attribute)];
        at_limit += usize::from(limits.iter().any(|limit| limit * held == sum));
    }
    for (what, times) in
        [("equal", equal), ("half", half), ("at a limit", at_limit), ("below zero", below_zero)]
    {
        assert!(times >= 20, "{what}: {times}");
    }
}

/// Percentages alone, with 5 to 9 and from 21 results, have a mean that is rounded down to a bound.
#[test]
fn sheets_reach_the_means_that_print_as_a_bound_or_as_a_limit() {
    let mut prng = Prng::new(6);
    // For purity and germination, with less than ten results and with more.
    let (mut rows, mut below, mut above) = ([[0; 2]; 2], [[0; 2]; 2], [[0; 2]; 2]);
    for at in 0..40_000 {
        let sheet = sheets::sheet(&mut prng, KINDS[at % KINDS.len()]);
        let Ok(read) = sheet::read(&sheet) else { continue };
        let (attribute, mean) = mean_of(&read.tally);
        let (in_row, in_void) = (apart::in_row(&read.tally), apart::in_void(&read.tally));
        if !attribute.is_percentage() || (10..=20).contains(&mean.held) {
            assert!(!in_row);
        }
        if attribute.is_percentage() {
            let place = (usize::from(attribute == Attribute::Germination), usize::from(mean.held >= 10));
            let too_high = mean.sum > attribute.mean_limits().1 * mean.held;
            rows[place.0][place.1] += usize::from(in_row);
            below[place.0][place.1] += usize::from(in_void && !too_high);
            above[place.0][place.1] += usize::from(in_void && too_high);
        }
    }
    for (what, times) in [("a row", rows), ("below a limit", below), ("above a limit", above)] {
        assert!(times.as_flattened().iter().all(|&times| times >= 20), "{what}: {times:?}");
    }
}

#[test]
fn the_comparison_counts_what_shows_the_mean() {
    let mut found = Comparison::default();
    comparison::sheets(6, 8_000, &Independent, &Independent, &mut found);
    comparison::lists(6, 2_000, &Independent, &Independent, &mut found);
    for what in ["reports on sheets", "reports in lists"] {
        for shown in [format!("{what}, of them with {MISSED}"), format!("{what}, of them {VOID}")] {
            let (times, of) = (found.compared[&shown], found.compared[what]);
            assert!((10..of).contains(&times), "{shown}: {times}");
        }
    }
}

#[test]
fn every_length_from_none_to_some_thousand_is_made() {
    let mut prng = Prng::new(4);
    let lengths: Vec<usize> =
        (0..16_000).map(|at| sheets::sheet(&mut prng, KINDS[at % KINDS.len()]).len()).collect();
    assert!(lengths.contains(&0) && lengths.contains(&1));
    assert!(lengths.iter().any(|&length| length > 5_000));
    assert!(lengths.contains(&sheet::LONGEST_WRITTEN));
    assert!(lengths.contains(&sheet::LONGEST_READ));
}

#[test]
fn weighed_results_reach_each_of_their_answers() {
    let mut found = Comparison::default();
    comparison::lists(5, 400, &Independent, &Independent, &mut found);
    for number in [0, 2, 6, 8, 9, 18, 19] {
        let times = found.reached.get(&format!("list weigh {number}")).copied().unwrap_or(0);
        assert!(times >= 5, "{number}: {times}");
    }
    let (mut accepted, mut refused) = (0, [0; 20]);
    let mut prng = Prng::new(5);
    for at in 0..20_000 {
        let sheet = sheets::sheet(&mut prng, KINDS[at % KINDS.len()]);
        match sheet::read(&sheet) {
            Ok(_) => accepted += usize::from(has_weighings(&sheet)),
            Err(fault) if weighing_at(&sheet, &fault.line.to_string()).is_some() => {
                refused[usize::from(fault.refusal.number())] += 1;
            }
            Err(_) => {}
        }
    }
    assert!(accepted >= 2_000, "accepted: {accepted}");
    for number in [2, 6, 8, 9, 18, 19] {
        assert!(refused[number] >= 20, "{number}: {}", refused[number]);
    }
}
