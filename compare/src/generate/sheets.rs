//! Sheets: good ones, ones with a wrong value, out of order, damaged, and mere bytes.

use crate::card::{HIGHEST_X, Lot, MOST_ON_CARD, MOST_ROWS, Row};
use crate::generate::entry::Entry;
use crate::generate::plan::Plan;
use crate::generate::weighings;
use crate::prng::Prng;
use crate::sheet::{END, Frame};
use crate::tally::MOST_HELD;

/// How a sheet is made.
#[derive(Clone, Copy, Debug, PartialEq, Eq)]
pub enum Kind {
    Good,
    Exact,
    Close,
    Full,
    Few,
    Weighed,
    WeighedFull,
    WrongValue,
    WrongWeighing,
    WrongOrder,
    Damaged,
    Frames,
    Bytes,
    Long,
}

/// All kinds, those more often made more often named.
pub const KINDS: [Kind; 24] = [
    Kind::Good,
    Kind::Good,
    Kind::Good,
    Kind::Good,
    Kind::Exact,
    Kind::Close,
    Kind::Close,
    Kind::Full,
    Kind::Few,
    Kind::Weighed,
    Kind::Weighed,
    Kind::WeighedFull,
    Kind::WrongValue,
    Kind::WrongValue,
    Kind::WrongValue,
    Kind::WrongValue,
    Kind::WrongWeighing,
    Kind::WrongWeighing,
    Kind::WrongOrder,
    Kind::Damaged,
    Kind::Damaged,
    Kind::Frames,
    Kind::Bytes,
    Kind::Long,
];

/// A sheet of the given kind.
pub fn sheet(prng: &mut Prng, kind: Kind) -> Vec<u8> {
    match kind {
        Kind::Good => judged(prng).sheet(),
        Kind::Exact => Plan::exact(prng).sheet(),
        Kind::Close => Plan::close(prng).sheet(),
        Kind::Full => Plan::full(prng).sheet(),
        Kind::Few => {
            let held = prng.below(6);
            let make = if prng.once_in(3) { Plan::weighed } else { Plan::judged };
            make(prng, held).sheet()
        }
        Kind::Weighed => weighed(prng).sheet(),
        Kind::WeighedFull => Plan::full_weighed(prng).sheet(),
        Kind::WrongValue => {
            let mut plan = some_plan(prng);
            for _ in 0..prng.pick(&[1, 1, 1, 1, 2, 3]) {
                spoil(prng, &mut plan);
            }
            plan.sheet()
        }
        Kind::WrongWeighing => {
            let mut plan = weighed(prng);
            spoil_weighing(prng, &mut plan);
            plan.sheet()
        }
        Kind::WrongOrder => wrong_order(prng),
        Kind::Damaged => {
            let mut sheet = some_plan(prng).sheet();
            for _ in 0..prng.pick(&[1, 1, 1, 2, 4]) {
                damage(prng, &mut sheet);
            }
            sheet
        }
        Kind::Frames => frames_at_random(prng),
        Kind::Bytes => bytes_at_random(prng),
        Kind::Long => long(prng),
    }
}

/// How many results a good sheet has; each number is reached.
fn number_held(prng: &mut Prng) -> usize {
    match prng.below(6) {
        0 | 1 => prng.pick(&[5, 9, 10, 11, 60, 61, MOST_HELD - 1, MOST_HELD]),
        // Sheets of fewer results show most of what can go wrong, and take less time.
        2..=4 => 5 + prng.below(56),
        _ => 5 + prng.below(MOST_HELD - 4),
    }
}

/// A good plan of any attribute.
fn judged(prng: &mut Prng) -> Plan {
    let held = number_held(prng);
    Plan::judged(prng, held)
}

/// A good plan of purity with weighed results.
fn weighed(prng: &mut Prng) -> Plan {
    let held = number_held(prng);
    Plan::weighed(prng, held)
}

/// A good plan, short more often than long so that a fault falls on each part of it.
fn some_plan(prng: &mut Prng) -> Plan {
    match prng.below(9) {
        0 => Plan::full(prng),
        1 => Plan::exact(prng),
        2 => {
            let held = prng.below(5);
            Plan::judged(prng, held)
        }
        3 => Plan::full_weighed(prng),
        4 | 5 => weighed(prng),
        _ => judged(prng),
    }
}

/// Gives a plan one wrong value, or one that lies just within its limit.
fn spoil(prng: &mut Prng, plan: &mut Plan) {
    match prng.below(16) {
        0 => plan.lot.attribute = prng.pick(&[2, 3, 4, 16, 255]),
        1 => plan.lot.containers = prng.pick(&[0, 0, 1, 4]),
        2 => plan.factor = prng.pick(&[0, 9, 10, 50, 51, 100, 255]),
        3 => plan.offset = prng.pick(&[0, 50, 51, 100, 255]),
        4 => plan.seeds = prng.pick(&[0, 1, 1_000, 1_001, 65_535]),
        5 => spoil_criticals(prng, plan),
        6 | 7 => spoil_rows(prng, plan),
        8 => {
            // More rows than a card takes; the last of them sometimes bad.
            plan.add_rows(prng, MOST_ROWS + 1);
            if prng.once_in(2) {
                plan.rows[MOST_ROWS].lowest = prng.pick(&[0, 4, 5, MOST_ON_CARD + 1, 255]);
            }
        }
        9 => {
            let one_more = plan.results.len() as u16 + 1;
            plan.count = Some(prng.pick(&[0, 4, 5, 60, MOST_ON_CARD, MOST_ON_CARD + 1, 255, one_more]));
        }
        10 => plan.count = (plan.results.len() as u16).checked_sub(1),
        _ => spoil_results(prng, plan),
    }
}

fn spoil_criticals(prng: &mut Prng, plan: &mut Plan) {
    let value = prng.draw() as u16;
    match prng.below(4) {
        // A first or last frame at or past the limits of N.
        0 => plan.criticals.insert(0, (prng.pick(&[0, 4, 5]), value)),
        1 => {
            plan.criticals.push((prng.pick(&[MOST_ON_CARD, MOST_ON_CARD + 1, MOST_ON_CARD + 2, 255]), value))
        }
        // A frame that does not rise.
        _ if !plan.criticals.is_empty() => {
            let place = prng.below(plan.criticals.len());
            let n = plan.criticals[place].0;
            plan.criticals.insert(place + 1, (n.saturating_sub(prng.below(2) as u16), value));
        }
        _ => plan.criticals.push((prng.near(&[5, MOST_ON_CARD]), value)),
    }
}

fn spoil_rows(prng: &mut Prng, plan: &mut Plan) {
    if plan.rows.is_empty() {
        let rows = prng.below(4) + 1;
        plan.add_rows(prng, rows);
    }
    let place = prng.below(plan.rows.len());
    let row = &mut plan.rows[place];
    match prng.below(5) {
        0 => row.lowest = prng.pick(&[0, 4, 5]),
        1 => row.highest = prng.pick(&[60, 61, MOST_ON_CARD, MOST_ON_CARD + 1, 255]),
        2 => row.lowest = row.highest.saturating_add(1),
        3 => row.mean_bound = prng.pick(&[HIGHEST_X, HIGHEST_X + 1, 65_535]),
        _ => *row = Row { lowest: MOST_ON_CARD, highest: 5, ..*row },
    }
}

fn spoil_results(prng: &mut Prng, plan: &mut Plan) {
    // The most results stay, so that one more is too many.
    if prng.once_in(3) {
        plan.lot.containers = plan.lot.containers.max(prng.pick(&[1, MOST_ON_CARD + 1]));
        let mut container = 0;
        while plan.results.len() < MOST_HELD && container < plan.lot.containers {
            container += 1;
            if plan.results.iter().all(|entry| entry.container != container) {
                plan.results.push(Entry::entered(container, prng.within(0..=HIGHEST_X)));
            }
        }
    }
    let last = plan.lot.containers;
    let x = prng.pick(&[0, 1, HIGHEST_X, HIGHEST_X + 1, 65_535]);
    let container = match prng.below(5) {
        0 => prng.pick(&[0, last, last.saturating_add(1), 65_535]),
        1 if !plan.results.is_empty() => plan.results[prng.below(plan.results.len())].container,
        _ => prng.within(1..=last.max(1)),
    };
    let place = if prng.once_in(2) { plan.results.len() } else { prng.below(plan.results.len() + 1) };
    // A weighed one also in sheets that are not of purity.
    let weighed = prng.once_in(2).then(|| weighings::in_frame(prng));
    let entered = Entry::entered(container, x);
    plan.results.insert(place, weighed.map_or(entered, |weighing| Entry::weighed(container, weighing)));
}

/// Gives one container, which no other result is for, any weighing, bad or not.
fn spoil_weighing(prng: &mut Prng, plan: &mut Plan) {
    let place = prng.below(plan.results.len());
    let entry = &mut plan.results[place];
    *entry = Entry::weighed(entry.container, weighings::in_frame(prng));
}

/// The frames of a good plan with some moved, left out, doubled or put in.
fn wrong_order(prng: &mut Prng) -> Vec<u8> {
    let mut frames = some_plan(prng).frames();
    for _ in 0..prng.pick(&[1, 1, 2]) {
        if frames.is_empty() {
            break;
        }
        let place = prng.below(frames.len());
        match prng.below(5) {
            0 => {
                frames.remove(place);
            }
            1 => frames.insert(place, frames[place]),
            2 => {
                let other = prng.below(frames.len());
                frames.swap(place, other);
            }
            3 => frames.truncate(place),
            _ => frames.insert(place, some_frame(prng)),
        }
    }
    written(&frames)
}

fn written(frames: &[Frame]) -> Vec<u8> {
    let mut sheet = Vec::new();
    frames.iter().for_each(|frame| frame.write(&mut sheet));
    sheet
}

/// A frame of any kind with values at their limits.
fn some_frame(prng: &mut Prng) -> Frame {
    let kind = prng.below(7) as u8 + 1;
    frame_of(prng, kind)
}

/// Containers of a frame drawn for itself.
const CONTAINERS: [u16; 11] = [0, 1, 2, 3, 4, 5, 6, 7, MOST_ON_CARD, MOST_ON_CARD + 1, 65_535];

fn frame_of(prng: &mut Prng, kind: u8) -> Frame {
    match kind {
        1 => Frame::Lot(Lot {
            attribute: prng.pick(&[0, 1, 2, 2, 3]),
            containers: prng.pick(&[0, 1, 5, MOST_ON_CARD, MOST_ON_CARD + 1, 65_535]),
        }),
        2 => Frame::Card {
            factor: prng.pick(&[9, 10, 10, 11, 50, 51]),
            offset: prng.pick(&[0, 10, 50, 51]),
            seeds: prng.pick(&[0, 0, 0, 1, 1_000, 1_000, 1_001]),
        },
        3 => Frame::Critical {
            n: prng.pick(&[4, 5, 6, 7, 61, MOST_ON_CARD, MOST_ON_CARD + 1]),
            value: prng.draw() as u16,
        },
        4 => Frame::Range(Row {
            lowest: prng.pick(&[4, 5, 5, 6, MOST_ON_CARD]),
            highest: prng.pick(&[5, 61, MOST_ON_CARD, MOST_ON_CARD + 1]),
            mean_bound: prng.pick(&[0, 9_999, 10_000, 10_000, 10_001]),
            tolerated: prng.draw() as u16,
        }),
        5 => Frame::Result {
            container: prng.pick(&CONTAINERS),
            x: prng.pick(&[0, 2, 100, 9_800, 9_980, 10_000, 10_001]),
        },
        7 => {
            let container = prng.pick(&CONTAINERS);
            let often = weighings::of_share(prng, 9_800);
            let weighing = if prng.once_in(3) { weighings::in_frame(prng) } else { often };
            Frame::Weighed { container, weighing }
        }
        _ => Frame::End { count: prng.pick(&[0, 1, 2, 3, 4, 5, MOST_ON_CARD, 255]) },
    }
}

/// Frames that mostly stand in turn, each value drawn for itself.
fn frames_at_random(prng: &mut Prng) -> Vec<u8> {
    let mut kind = 1;
    let mut frames = Vec::new();
    for _ in 0..prng.pick(&[2, 6, 12, 40, 160]) {
        // A weighed result stands where a result may.
        let weighed = kind == 5 && prng.once_in(2);
        frames.push(frame_of(prng, if weighed { 7 } else { kind }));
        kind = match kind {
            _ if prng.once_in(20) => prng.below(6) as u8 + 1,
            1 => 2,
            6 => 1,
            _ if prng.once_in(3) => prng.below(usize::from(7 - kind)) as u8 + kind,
            _ => kind.max(3),
        };
    }
    written(&frames)
}

/// Bytes of no or little order.
fn bytes_at_random(prng: &mut Prng) -> Vec<u8> {
    let length = prng.pick(&[0, 1, 2, 4, 5, 9, 16, 64, 300, 3_000]);
    let length = prng.below(length + 1);
    let mut sheet = vec![0; length];
    prng.fill(&mut sheet);
    match prng.below(4) {
        0 => {}
        1 => sheet.iter_mut().for_each(|byte| *byte = b"0123456789ABCDEF\n"[usize::from(*byte) % 17]),
        2 => sheet.iter_mut().for_each(|byte| *byte = b"0156\n\n"[usize::from(*byte) % 6]),
        _ => sheet.iter_mut().for_each(|byte| *byte = if *byte < 16 { END } else { b'0' }),
    }
    sheet
}

/// A sheet of some thousand bytes: one line without end, a good sheet with much behind it, or a
/// first part that goes on for longer than any good sheet's.
fn long(prng: &mut Prng) -> Vec<u8> {
    let mut sheet = some_plan(prng).sheet();
    let repeated = prng.pick(&[40, 200, 700, 1_500]);
    match prng.below(6) {
        0 => {
            let place = prng.below(sheet.len());
            sheet.splice(place..place, std::iter::repeat_n(b'0', 3 * repeated));
        }
        1 => sheet.extend(std::iter::repeat_n(prng.pick(b"\n0\0"), 4 * repeated)),
        2 => sheet = sheet.repeat(repeated / 40 + 1),
        3 => {
            let lines: Vec<&[u8]> = sheet.split_inclusive(|&byte| byte == END).collect();
            let (line, place) = (prng.pick(&lines).repeat(repeated / 8), prng.below(lines.len() + 1));
            sheet = [&lines[..place].concat()[..], &line, &lines[place..].concat()].concat();
        }
        4 => {
            sheet = written(&(0..repeated / 4).map(|_| some_frame(prng)).collect::<Vec<_>>());
        }
        _ => {
            let mut plan = Plan::full(prng);
            let more = prng.below(8);
            plan.add_rows(prng, MOST_ROWS + more);
            sheet = plan.sheet();
        }
    }
    sheet
}

/// What is put behind a sheet's end: lines, good ones or not, and parts of lines.
const BEHIND: [&[u8]; 8] =
    [b"\n", b"0", b"0605\n", b"0605", b"zz\n", b"\r\n", b"07\n", b"070001003F8000003F800000\n"];

/// Damages a sheet's bytes or lines once.
fn damage(prng: &mut Prng, sheet: &mut Vec<u8>) {
    if sheet.is_empty() {
        return;
    }
    let place = prng.below(sheet.len());
    match prng.below(13) {
        0 => sheet[place] ^= 1 << prng.below(8),
        1 => sheet[place] = prng.pick(b"/:@G`agz \r\n\0\xFF09AF"),
        2 => {
            sheet.remove(place);
        }
        3 => sheet.insert(place, prng.pick(b"0F \r\n\0g")),
        4 => sheet.truncate(place),
        5 => {
            sheet.pop();
        }
        6 => {
            // The first digit above 9 from here on, in lower case.
            if let Some(byte) = sheet[place..].iter_mut().find(|byte| byte.is_ascii_uppercase()) {
                byte.make_ascii_lowercase();
            }
        }
        7 => {
            let once = prng.once_in(2);
            *sheet = with_returns(sheet, once.then_some(place));
        }
        8 => sheet.extend_from_slice(prng.pick(&BEHIND)),
        _ => damage_lines(prng, sheet),
    }
}

/// The sheet with a byte 0D before each line's end, or before the first one from a place on.
fn with_returns(sheet: &[u8], from: Option<usize>) -> Vec<u8> {
    let mut done = false;
    let doubled = sheet.iter().enumerate().flat_map(|(at, &byte)| {
        let here = byte == END && from.is_none_or(|place| at >= place && !done);
        done |= here && from.is_some();
        if here { vec![b'\r', byte] } else { vec![byte] }
    });
    doubled.collect()
}

fn damage_lines(prng: &mut Prng, sheet: &mut Vec<u8>) {
    let mut lines: Vec<Vec<u8>> = sheet.split_inclusive(|&byte| byte == END).map(<[u8]>::to_vec).collect();
    let place = prng.below(lines.len());
    match prng.below(6) {
        0 => {
            lines.remove(place);
        }
        1 => lines.insert(place, lines[place].clone()),
        2 => {
            let other = prng.below(lines.len());
            lines.swap(place, other);
        }
        3 => lines.truncate(place),
        4 => {
            // Another kind, known or not, before the same fields.
            let kind = prng.pick(&[0, 1, 2, 3, 4, 5, 6, 7, 8, 9, 16, 255]);
            let width = lines[place].len().min(2);
            lines[place].splice(..width, format!("{kind:02X}").into_bytes());
        }
        _ => {
            // A digit more or less in one line.
            let at = prng.below(lines[place].len());
            if prng.once_in(2) {
                lines[place].insert(at, b'0');
            } else {
                lines[place].remove(at);
            }
        }
    }
    *sheet = lines.concat();
}
