//! Comma lists for a tally: good ones, ones with a wrong number or a bad line, mere bytes, and ones longer than
//! lotenter reads.

use crate::card::HIGHEST_X;
use crate::generate::plan::Plan;
use crate::generate::sheets::{self, KINDS};
use crate::on_sheet::LIST_READ;
use crate::prng::Prng;
use crate::sheet::{self, END};
use crate::tally::{MOST_HELD, Tally};

/// Bytes that a line of text of the program calls has room for.
const WORDS: usize = 2_000;
/// Numbers of bits that a careless reader keeps of a number.
const WIDTHS: [u32; 4] = [16, 32, 64, 96];

/// A line before it is written.
struct Line {
    container: String,
    value: String,
}

/// A sheet and a comma list for it. The sheet is mostly a good one with room for more results.
pub fn pair(prng: &mut Prng) -> (Vec<u8>, Vec<u8>) {
    let (sheet, tally) = sheet_and_tally(prng);
    let list = list(prng, &tally);
    (sheet, list)
}

/// The same with a list of about as many bytes as lotenter reads, or of more.
pub fn long_pair(prng: &mut Prng) -> (Vec<u8>, Vec<u8>) {
    let (sheet, tally) = sheet_and_tally(prng);
    let list = long(prng, &tally);
    (sheet, list)
}

/// A sheet, and its tally where it has one.
pub fn sheet_and_tally(prng: &mut Prng) -> (Vec<u8>, Tally) {
    let sheet = if prng.once_in(8) {
        let kind = prng.pick(&KINDS);
        sheets::sheet(prng, kind)
    } else {
        with_room(prng).sheet()
    };
    let tally = sheet::read(&sheet).map_or_else(|_| Tally::fresh(), |read| read.tally);
    (sheet, tally)
}

/// A good plan that mostly has containers and places left.
fn with_room(prng: &mut Prng) -> Plan {
    let held = match prng.below(3) {
        0 => 0,
        1 => prng.pick(&[1, 5, 40, 60, MOST_HELD - 2, MOST_HELD - 1, MOST_HELD]),
        _ => prng.below(MOST_HELD + 1),
    };
    let make = if prng.once_in(4) { Plan::weighed } else { Plan::judged };
    let mut plan = make(prng, held);
    if !prng.once_in(3) {
        plan.lot.containers =
            plan.lot.containers.max(prng.pick(&[61, MOST_HELD as u16 + 1, 255, 1_000, 65_535]));
    }
    plan
}

/// A comma list for a tally.
pub fn list(prng: &mut Prng, tally: &Tally) -> Vec<u8> {
    if prng.once_in(24) {
        return bytes_at_random(prng);
    }
    let mut lines = good(prng, tally);
    for _ in 0..prng.pick(&[0, 0, 0, 0, 1, 1, 1, 1, 2]) {
        spoil(prng, tally, &mut lines);
    }
    let mut list = written(&lines);
    for _ in 0..prng.pick(&[0, 0, 0, 0, 0, 0, 1, 2]) {
        damage(prng, &mut list);
    }
    list
}

/// The same where each line is a word.
pub fn of_words(prng: &mut Prng, tally: &Tally) -> Vec<u8> {
    let is_word = |line: &[u8]| match line {
        [word @ .., END] => !word.is_empty() && word.iter().all(u8::is_ascii_graphic),
        _ => false,
    };
    loop {
        let list = list(prng, tally);
        if list.len() <= WORDS && list.split_inclusive(|&byte| byte == END).all(is_word) {
            return list;
        }
    }
}

/// Lines of containers that are free, now and then one more than there are places.
fn good(prng: &mut Prng, tally: &Tally) -> Vec<Line> {
    let places = MOST_HELD - tally.held().len();
    let wanted = match prng.below(4) {
        0 => prng.pick(&[places, places, places + 1]),
        _ => prng.pick(&[0, 1, 1, 2, 3, 5, 8, 20]),
    };
    let percentage = has_percentages(tally);
    let mut containers = free(prng, tally, wanted);
    if prng.once_in(2) {
        containers.sort_unstable();
    }
    let mut lines = Vec::new();
    for container in containers {
        let x = some_x(prng);
        lines.push(Line { container: container.to_string(), value: value(prng, percentage, x.into()) });
    }
    lines
}

/// The first two attributes are percentages, and a fresh tally has the first.
fn has_percentages(tally: &Tally) -> bool {
    tally.lot().attribute != 2
}

/// Up to so many containers that are not held. A fresh tally, which has none, is given some all the same.
fn free(prng: &mut Prng, tally: &Tally, wanted: usize) -> Vec<u16> {
    let last = match tally.lot().containers {
        0 => 9,
        last => last,
    };
    let mut taken: Vec<u16> = tally.held().iter().map(|held| held.container).collect();
    let held = taken.len();
    while taken.len() < held + wanted {
        let start = if prng.once_in(8) { last } else { prng.within(1..=last) };
        // The next one that is not taken, from that start.
        match (start..=last).chain(1..start).find(|container| !taken.contains(container)) {
            Some(container) => taken.push(container),
            None => break,
        }
    }
    taken.split_off(held)
}

fn some_x(prng: &mut Prng) -> u16 {
    match prng.below(5) {
        0 => prng.near(&[0, 2, 9, 10, 99, 100, 9_900, 9_980, HIGHEST_X]).min(HIGHEST_X),
        1 => prng.within(0..=20),
        2 => 100 * prng.within(0..=100),
        3 => 10 * prng.within(0..=1_000),
        _ => prng.within(0..=HIGHEST_X),
    }
}

/// X as a good value, however large it is: a percentage with any number of places that it can have.
fn value(prng: &mut Prng, percentage: bool, x: u128) -> String {
    let (whole, places) = (x / 100, x % 100);
    match prng.below(3) {
        _ if !percentage => x.to_string(),
        0 if places == 0 => whole.to_string(),
        1 if places % 10 == 0 => format!("{whole}.{}", places / 10),
        _ => format!("{whole}.{places:02}"),
    }
}

fn written(lines: &[Line]) -> Vec<u8> {
    lines.iter().flat_map(|line| format!("{},{}\n", line.container, line.value).into_bytes()).collect()
}

/// Gives one line, often the last, another container or another value, or damages a word of it.
fn spoil(prng: &mut Prng, tally: &Tally, lines: &mut Vec<Line>) {
    if lines.is_empty() {
        lines.push(Line { container: "1".into(), value: "1".into() });
    }
    let place = if prng.once_in(3) { lines.len() - 1 } else { prng.below(lines.len()) };
    let before = lines[prng.below(lines.len())].container.clone();
    let line = &mut lines[place];
    match prng.below(9) {
        0 | 1 => line.container = any_container(prng, tally),
        2 | 3 => line.value = any_value(prng, has_percentages(tally)),
        4 => line.container = before,
        5 => damage_word(prng, &mut line.container),
        _ => damage_word(prng, &mut line.value),
    }
}

/// A plain number for a container: of the lot or not, held or not, or one that is such a one where only some of its
/// bits are kept.
fn any_container(prng: &mut Prng, tally: &Tally) -> String {
    let last = u128::from(tally.lot().containers);
    let held: Vec<u16> = tally.held().iter().map(|held| held.container).collect();
    let some = u128::from(if held.is_empty() || prng.once_in(2) {
        free(prng, tally, 1).first().copied().unwrap_or(1)
    } else {
        prng.pick(&held)
    });
    match prng.below(6) {
        0 => many_digits(prng),
        1 | 2 => ((1 << prng.pick(&WIDTHS)) + some).to_string(),
        3 => some.to_string(),
        _ => prng.pick(&[0, 0, last, last + 1, last + 1, 65_535, 65_536]).to_string(),
    }
}

/// A good value at the limit for X, above it, or within it where only some bits are kept, of X or of whole percents.
fn any_value(prng: &mut Prng, percentage: bool) -> String {
    let some = u128::from(some_x(prng));
    let more = 1 << prng.pick(&WIDTHS);
    let x = match prng.below(6) {
        0 => return many_digits(prng),
        1 => more + some,
        2 => 100 * more + some,
        _ => prng.pick(&[9_999, 10_000, 10_001, 10_001, 10_010, 10_100, 65_535, 65_536]),
    };
    value(prng, percentage, x)
}

/// A plain number of many digits.
fn many_digits(prng: &mut Prng) -> String {
    let more = prng.pick(&[4, 5, 9, 10, 19, 20, 39, 300]);
    let digits = (0..more).map(|_| prng.below(10).to_string());
    let behind: String = digits.collect();
    format!("{}{behind}", 1 + prng.below(9))
}

/// Damages a container or a value once, so that it mostly is no plain number any more.
fn damage_word(prng: &mut Prng, word: &mut String) {
    let place = prng.below(word.len() + 1);
    let point = word.find('.');
    match (prng.below(12), point) {
        (0 | 1, _) => word.insert(0, '0'),
        (2, _) => word.clear(),
        (3, Some(point)) => word.truncate(point + 1),
        (3, None) => word.push('.'),
        (4, _) => word.replace_range(..point.unwrap_or(word.len()), if point.is_some() { "" } else { ".5" }),
        (5, Some(point)) => word.replace_range(..point, "00"),
        (5, None) => word.push_str(".0"),
        (6, _) => word.insert(place, '.'),
        (7, _) => word.push_str(prng.pick(&["0", "5", ".5", ".50", ".500"])),
        (8, _) if place < word.len() => {
            word.remove(place);
        }
        (9, _) => word.insert(0, prng.pick(&['+', '-', ' '])),
        _ => word.insert(place, prng.pick(&[' ', '\t', '\r', '\n', '\0', ',', ',', ';', ':', '/', 'A', 'e'])),
    }
}

/// What is put behind a list's end: lines, bad ones, and parts of lines.
const BEHIND: [&[u8]; 9] = [b"\n", b"\r\n", b"1", b",", b"1,", b"1,1", b",1\n", b"1,\n", b"0,05\n"];

/// Damages a list's bytes or lines once.
fn damage(prng: &mut Prng, list: &mut Vec<u8>) {
    if list.is_empty() {
        return list.extend_from_slice(prng.pick(&BEHIND));
    }
    let place = prng.below(list.len());
    let ends: Vec<usize> = (0..list.len()).filter(|&at| list[at] == END).collect();
    match prng.below(9) {
        0 | 1 => {
            list.pop();
        }
        2 => list[place] ^= 1 << prng.below(8),
        3 => {
            list.remove(place);
        }
        4 => list.insert(place, prng.pick(b"0 \r\n,.\0\xFF")),
        5 => list.truncate(place),
        6 => list.extend_from_slice(prng.pick(&BEHIND)),
        7 if !ends.is_empty() => list.insert(prng.pick(&ends), prng.pick(b"\r \n,")),
        _ => {
            *list = list
                .iter()
                .flat_map(|&byte| if byte == END { vec![b'\r', END] } else { vec![byte] })
                .collect()
        }
    }
}

/// Bytes of no or little order.
fn bytes_at_random(prng: &mut Prng) -> Vec<u8> {
    let length = prng.pick(&[0, 1, 2, 4, 8, 40, 300]);
    let mut list = vec![0; prng.below(length + 1)];
    prng.fill(&mut list);
    let some = prng.pick(&[&b"0123456789,.\n"[..], b"01,\n\n", b"1,.\n "]);
    if !prng.once_in(4) {
        list.iter_mut().for_each(|byte| *byte = some[usize::from(*byte) % some.len()]);
    }
    list
}

/// A comma list, now and then a long one.
pub fn any(prng: &mut Prng, tally: &Tally) -> Vec<u8> {
    if prng.once_in(100) { long(prng, tally) } else { list(prng, tally) }
}

/// A list of about as many bytes as lotenter reads, or of more: some lines and then a long one, which ends, if it does,
/// about where the reading ends; or some lines, often a faulty one among them, with much behind.
fn long(prng: &mut Prng, tally: &Tally) -> Vec<u8> {
    let mut list = if prng.once_in(3) { list(prng, tally) } else { written(&good(prng, tally)) };
    let length = prng.pick(&[
        LIST_READ - 1,
        LIST_READ - 1,
        LIST_READ,
        LIST_READ,
        LIST_READ + 1,
        LIST_READ + 1,
        LIST_READ + 300,
        2 * LIST_READ,
    ]);
    let (head, digit, tail) = prng.pick(&[
        ("", b'1', ",5\n"),
        ("", b'0', ",5\n"),
        ("1,", b'9', "\n"),
        ("1,5.", b'0', "\n"),
        ("", b'7', ""),
        ("", b' ', "\n"),
        ("", END, ""),
    ]);
    list.extend_from_slice(head.as_bytes());
    list.resize(length.saturating_sub(tail.len()).max(list.len()), digit);
    list.extend_from_slice(tail.as_bytes());
    if prng.once_in(4) {
        list.extend_from_slice(b"1,5\n");
    }
    list
}
