//! The comparison of comma lists itself is tried: programs with a fault that a lazy programmer might leave in are each
//! found by it, and the made lists reach what they are made for.

use std::path::PathBuf;
use std::{fs, io};

use compare::calls::{self, Answer, Call, Make};
use compare::comparison::{self, Comparison};
use compare::generate::commas;
use compare::on_sheet::{self, LIST_READ, USAGE};
use compare::prng::Prng;
use compare::refusal::Fault as Refused;
use compare::sheet::{self, END};
use compare::subject::{Independent, Subject};
use compare::tally::Tally;
use compare::{buffer, comma, list_programs};

/// The independent implementation with one thing changed.
#[derive(Clone, Copy)]
enum Fault {
    /// A list is read as if it were another one.
    Reads(fn(&Tally, &[u8]) -> Vec<u8>),
    EnterList(fn(&[u8], &[u8], &mut [u8]) -> i64),
    Enter(fn(&[u8], u32, u32, &mut [u8]) -> i64),
    Withdraw(fn(&[u8], u32, &mut [u8]) -> i64),
    /// A call of a list of calls is made in another way.
    Make(Make),
    /// What lotenter prints for the bytes of its files, none for a file that cannot be read.
    Prints(fn(Option<&[u8]>, Option<&[u8]>) -> String),
}

impl Subject for Fault {
    fn enter_list(&self, sheet: &[u8], list: &[u8], buf: &mut [u8]) -> Option<i64> {
        Some(match (self, sheet::read(sheet)) {
            (Self::EnterList(enter_list), _) => enter_list(sheet, list, buf),
            (Self::Reads(reads), Ok(read)) => enter_list(sheet, &reads(&read.tally, list), buf),
            _ => enter_list(sheet, list, buf),
        })
    }

    fn enter(&self, sheet: &[u8], container: u32, x: u32, buf: &mut [u8]) -> Option<i64> {
        let enter = if let Self::Enter(enter) = self { *enter } else { enter };
        Some(enter(sheet, container, x, buf))
    }

    fn withdraw(&self, sheet: &[u8], container: u32, buf: &mut [u8]) -> Option<i64> {
        let withdraw = if let Self::Withdraw(withdraw) = self { *withdraw } else { withdraw };
        Some(withdraw(sheet, container, buf))
    }

    fn calls(&self, list: &[u8], buf: &mut [u8]) -> Option<i64> {
        let make = if let Self::Make(make) = self { *make } else { Call::make };
        Some(calls::run_by(make, list, buf) as i64)
    }

    fn samples(&self, containers: u32, kilograms: u32) -> i64 {
        Independent.samples(containers, kilograms)
    }

    fn label(&self, labelled: u32, found: u32) -> i64 {
        Independent.label(labelled, found)
    }

    fn pair(&self, first: u32, second: u32) -> i64 {
        Independent.pair(first, second)
    }

    fn mixing(&self, results: &[u32], tolerated: u32) -> i64 {
        Independent.mixing(results, tolerated)
    }
}

fn enter_list(sheet: &[u8], list: &[u8], buf: &mut [u8]) -> i64 {
    Independent.enter_list(sheet, list, buf).expect("it has the call")
}

fn enter(sheet: &[u8], container: u32, x: u32, buf: &mut [u8]) -> i64 {
    Independent.enter(sheet, container, x, buf).expect("it has the call")
}

fn withdraw(sheet: &[u8], container: u32, buf: &mut [u8]) -> i64 {
    Independent.withdraw(sheet, container, buf).expect("it has the call")
}

/// The differences that a comparison of some thousand inputs finds.
fn differences(fault: &Fault) -> usize {
    let mut found = Comparison::default();
    match fault {
        Fault::Make(_) => comparison::lists(7, 200, &Independent, fault, &mut found),
        Fault::Prints(print) => {
            list_programs::lotenter_by(&|arguments| printed(*print, arguments), 7, 1_000, &mut found)
                .expect("files can be written");
        }
        _ => comparison::on_sheets(7, 3_000, &Independent, fault, &mut found),
    }
    assert!(!found.compared.is_empty());
    found.differences
}

/// What a program prints that reads its two files and then does so.
fn printed(print: fn(Option<&[u8]>, Option<&[u8]>) -> String, arguments: &[PathBuf]) -> io::Result<Vec<u8>> {
    let file = |place: usize| arguments.get(place).and_then(|path| fs::read(path).ok());
    Ok(print(file(0).as_deref(), file(1).as_deref()).into_bytes())
}

/// The list with each line changed that has a comma: container and value without the end byte.
fn with_words(list: &[u8], change: impl Fn(&str, &str) -> Option<(String, String)>) -> Vec<u8> {
    let changed = list.split_inclusive(|&byte| byte == END).map(|line| {
        let text = str::from_utf8(line).ok().and_then(|text| text.strip_suffix('\n'));
        let words = text.and_then(|text| text.split_once(','));
        let words = words.and_then(|(container, value)| change(container, value));
        words.map_or(line.to_vec(), |(container, value)| format!("{container},{value}\n").into_bytes())
    });
    changed.collect::<Vec<_>>().concat()
}

/// The list with its containers changed, or its values.
fn with_containers(list: &[u8], change: impl Fn(&str) -> Option<String>) -> Vec<u8> {
    with_words(list, |container, value| Some((change(container)?, value.into())))
}

fn with_values(list: &[u8], change: impl Fn(&str) -> Option<String>) -> Vec<u8> {
    with_words(list, |container, value| Some((container.into(), change(value)?)))
}

/// A number of digits alone with that many of its last bits; none where it fits them, or is no plain number.
fn cut(word: &str, bits: u32) -> Option<String> {
    let plain = word.bytes().all(|byte| byte.is_ascii_digit()) && !word.starts_with('0');
    let number = word.parse::<u128>().ok().filter(|number| plain && number >> bits > 0)?;
    Some((number % (1 << bits)).to_string())
}

/// A list in which each line that is refused by itself is left out.
fn without_refused(sheet: &[u8], list: &[u8]) -> Vec<u8> {
    let Ok(read) = sheet::read(sheet) else { return list.to_vec() };
    let mut tally = read.tally;
    let lines = list.split_inclusive(|&byte| byte == END);
    lines.filter(|line| comma::enter(&mut tally, line).is_ok()).collect::<Vec<_>>().concat()
}

/// The answer of a list, with what is to be changed about it for the line that is refused.
fn changed_fault(
    sheet: &[u8],
    list: &[u8],
    buf: &mut [u8],
    change: impl Fn(&Tally, &Refused, &[u8]) -> Option<i64>,
) -> i64 {
    let answer = enter_list(sheet, list, buf);
    let Ok(mut read) = sheet::read(sheet) else { return answer };
    let Err(fault) = comma::enter(&mut read.tally, list) else { return answer };
    let line = list.split_inclusive(|&byte| byte == END).nth(fault.line - 1).expect("the line is one");
    change(&read.tally, &fault, line).unwrap_or(answer)
}

/// The code of a refusal of a list's line.
fn refused(number: usize, line: usize) -> i64 {
    -((number + (2 << 8) + (line << 16)) as i64)
}

/// A list on a tally without giving back what its first lines entered.
fn line_by_line(tally: &mut Tally, list: &[u8]) -> Answer {
    for (number, line) in (1..).zip(list.split_inclusive(|&byte| byte == END)) {
        if let Err(fault) = comma::enter(tally, line) {
            return Answer { number: fault.refusal.number(), behind: number };
        }
    }
    Answer { number: 0, behind: 0 }
}

/// The lines of a list that was written, in another order.
fn reorder(buf: &mut [u8], length: usize, order: fn(&mut Vec<&[u8]>)) {
    let text = buf[..length].to_vec();
    let mut lines: Vec<&[u8]> = text.split_inclusive(|&byte| byte == END).collect();
    order(&mut lines);
    buf[..length].copy_from_slice(&lines.concat());
}

/// What stands in a file, nothing where it cannot be read.
fn bytes(file: Option<&[u8]>) -> &[u8] {
    file.unwrap_or(&[])
}

/// Lines that are read otherwise.
const READING: [(&str, Fault); 22] = [
    (
        "a leading zero of a container taken",
        Fault::Reads(|_, list| with_containers(list, |word| Some(word.strip_prefix('0')?.into()))),
    ),
    (
        "a leading zero of a value taken",
        Fault::Reads(|_, list| {
            with_values(list, |word| {
                let rest = word.strip_prefix('0')?;
                rest.starts_with(|next: char| next.is_ascii_digit()).then(|| rest.into())
            })
        }),
    ),
    ("a container by its last 16 bits", Fault::Reads(|_, list| with_containers(list, |word| cut(word, 16)))),
    ("2^32 + 1 taken for 1", Fault::Reads(|_, list| with_containers(list, |word| cut(word, 32)))),
    ("2^64 + 1 taken for 1", Fault::Reads(|_, list| with_containers(list, |word| cut(word, 64)))),
    ("a value by its last 16 bits", Fault::Reads(|_, list| with_values(list, |word| cut(word, 16)))),
    ("a value by its last 32 bits", Fault::Reads(|_, list| with_values(list, |word| cut(word, 32)))),
    (
        "hundredths by their last 32 bits",
        Fault::Reads(|_, list| {
            with_values(list, |word| {
                let (whole, places) = word.split_once('.').filter(|(_, places)| places.len() == 2)?;
                let x: u64 = cut(&format!("{whole}{places}"), 32)?.parse().ok()?;
                Some(format!("{}.{:02}", x / 100, x % 100))
            })
        }),
    ),
    (
        "98.5 read as 98.05",
        Fault::Reads(|_, list| {
            with_values(list, |word| {
                let (whole, places) = word.split_once('.').filter(|(_, places)| places.len() == 1)?;
                Some(format!("{whole}.0{places}"))
            })
        }),
    ),
    (
        "98.05 read as 98.5",
        Fault::Reads(|_, list| {
            with_values(list, |word| {
                let (whole, places) = word.split_once(".0").filter(|(_, places)| places.len() == 1)?;
                Some(format!("{whole}.{places}"))
            })
        }),
    ),
    (
        "5. taken for 5",
        Fault::Reads(|_, list| with_values(list, |word| Some(word.strip_suffix('.')?.into()))),
    ),
    (
        ".5 taken for 0.5",
        Fault::Reads(|_, list| with_values(list, |word| word.starts_with('.').then(|| format!("0{word}")))),
    ),
    (
        "a third place cut off",
        Fault::Reads(|_, list| {
            with_values(list, |word| {
                let (_, places) = word.split_once('.').filter(|(_, places)| places.len() == 3)?;
                places.bytes().all(|byte| byte.is_ascii_digit()).then(|| word[..word.len() - 1].into())
            })
        }),
    ),
    (
        "places of a count passed over",
        Fault::Reads(|tally, list| {
            let count = tally.lot().attribute == 2;
            with_values(list, |word| count.then(|| word.split('.').next().map(str::to_string))?)
        }),
    ),
    (
        "whole percents alone for germination",
        Fault::Reads(|tally, list| {
            let other = tally.lot().attribute == 1;
            with_values(list, |word| (other && word.contains('.')).then(|| format!("{word}.")))
        }),
    ),
    (
        "byte 0D passed over",
        Fault::Reads(|_, list| list.iter().copied().filter(|&byte| byte != b'\r').collect()),
    ),
    (
        "blanks passed over",
        Fault::Reads(|_, list| list.iter().copied().filter(|&byte| byte != b' ').collect()),
    ),
    (
        "what stands behind a second comma passed over",
        Fault::Reads(|_, list| with_values(list, |word| Some(word.split_once(',')?.0.into()))),
    ),
    (
        "a plus sign taken",
        Fault::Reads(|_, list| with_containers(list, |word| Some(word.strip_prefix('+')?.into()))),
    ),
    (
        "an empty value taken for 0",
        Fault::Reads(|_, list| with_values(list, |word| word.is_empty().then(|| "0".into()))),
    ),
    (
        "the last line without its end byte taken",
        Fault::Reads(|_, list| match list.last() {
            Some(&END) | None => list.to_vec(),
            _ => [list, &[END]].concat(),
        }),
    ),
    (
        "the last line without its end byte passed over",
        Fault::Reads(|_, list| {
            let end = list.iter().rposition(|&byte| byte == END).map_or(0, |place| place + 1);
            list[..end].to_vec()
        }),
    ),
];

/// Lists that are answered otherwise.
const LISTS: [(&str, Fault); 8] = [
    (
        "empty lines passed over",
        Fault::EnterList(|sheet, list, buf| {
            let lines = list.split_inclusive(|&byte| byte == END).filter(|line| *line != [END]);
            enter_list(sheet, &lines.collect::<Vec<_>>().concat(), buf)
        }),
    ),
    (
        "6 before 20",
        Fault::EnterList(|sheet, list, buf| {
            changed_fault(sheet, list, buf, |_, fault, line| {
                let none = fault.refusal.number() == 20 && line.starts_with(b"0,");
                none.then(|| refused(6, fault.line))
            })
        }),
    ),
    (
        "8 before 20",
        Fault::EnterList(|sheet, list, buf| {
            changed_fault(sheet, list, buf, |tally, fault, line| {
                let begins = |container: u16| line.starts_with(format!("{container},").as_bytes());
                let held = tally.held().iter().any(|held| begins(held.container));
                (held && fault.refusal.number() == 20).then(|| refused(8, fault.line))
            })
        }),
    ),
    (
        "7 before 6",
        Fault::EnterList(|sheet, list, buf| {
            changed_fault(sheet, list, buf, |tally, fault, line| {
                let line = str::from_utf8(line).ok()?;
                let value = line.split_once(',')?.1.trim_end().parse::<f64>().ok()?;
                let most = if tally.lot().attribute == 2 { 10_000.0 } else { 100.0 };
                (fault.refusal.number() == 6 && value > most).then(|| refused(7, fault.line))
            })
        }),
    ),
    (
        "the line from 0",
        Fault::EnterList(|sheet, list, buf| {
            changed_fault(sheet, list, buf, |_, fault, _| {
                Some(refused(fault.refusal.number().into(), fault.line - 1))
            })
        }),
    ),
    (
        "a refused line passed over",
        Fault::EnterList(|sheet, list, buf| enter_list(sheet, &without_refused(sheet, list), buf)),
    ),
    (
        "16 before the list's numbers",
        Fault::EnterList(|sheet, list, buf| {
            let read = sheet::read(sheet).is_ok();
            if read && buf.is_empty() { -16 } else { enter_list(sheet, list, buf) }
        }),
    ),
    (
        "the sheet laid down where the list is refused",
        Fault::EnterList(|sheet, list, buf| {
            let answer = enter_list(sheet, list, buf);
            if answer < 0 && answer != -16 {
                let _ = sheet::rewrite(sheet, buf);
            }
            answer
        }),
    ),
];

/// One result entered or withdrawn.
const RESULTS: [(&str, Fault); 4] = [
    (
        "a container of an enter by its last 16 bits",
        Fault::Enter(|sheet, container, x, buf| enter(sheet, container & 0xFFFF, x, buf)),
    ),
    (
        "X of an enter by its last 16 bits",
        Fault::Enter(|sheet, container, x, buf| enter(sheet, container, x & 0xFFFF, buf)),
    ),
    (
        "a container of a withdraw by its last 16 bits",
        Fault::Withdraw(|sheet, container, buf| withdraw(sheet, container & 0xFFFF, buf)),
    ),
    (
        "6 for a withdraw of no container",
        Fault::Withdraw(|sheet, container, buf| match withdraw(sheet, container, buf) {
            -10 if container > 65_535 => -6,
            answer => answer,
        }),
    ),
];

/// Lists entered into a tally and written from one.
const TALLIES: [(&str, Fault); 12] = [
    (
        "first lines kept on a refusal",
        Fault::Make(|call, tallies, buf| match call {
            Call::List { on, lines } => line_by_line(&mut tallies[*on], lines),
            _ => call.make(tallies, buf),
        }),
    ),
    (
        "all held results lost on a refusal",
        Fault::Make(|call, tallies, buf| {
            let answer = call.make(tallies, buf);
            if let (Call::List { on, .. }, 1..) = (call, answer.number) {
                let (lot, card) = (*tallies[*on].lot(), *tallies[*on].card());
                let _ = tallies[*on].open(&lot, &card);
            }
            answer
        }),
    ),
    (
        "20 on a fresh tally told as 6",
        Fault::Make(|call, tallies, buf| {
            let answer = call.make(tallies, buf);
            match call {
                Call::List { on, .. } if answer.number == 20 && tallies[*on] == Tally::fresh() => {
                    Answer { number: 6, ..answer }
                }
                _ => answer,
            }
        }),
    ),
    (
        "a list written in descending order",
        Fault::Make(|call, tallies, buf| {
            let answer = call.make(tallies, buf);
            if let Call::WriteList { .. } = call {
                reorder(buf, answer.behind, |lines| lines.reverse());
            }
            answer
        }),
    ),
    (
        "a list written in the order of its bytes",
        Fault::Make(|call, tallies, buf| {
            let answer = call.make(tallies, buf);
            if let Call::WriteList { .. } = call {
                reorder(buf, answer.behind, |lines| lines.sort_unstable());
            }
            answer
        }),
    ),
    (
        "3 for a list written from a fresh tally",
        Fault::Make(|call, tallies, buf| match call {
            Call::WriteList { on, .. } if tallies[*on] == Tally::fresh() => Answer { number: 3, behind: 0 },
            _ => call.make(tallies, buf),
        }),
    ),
    (
        "16 for an empty list in an empty buffer",
        Fault::Make(|call, tallies, buf| match call {
            Call::WriteList { .. } if buf.is_empty() => Answer { number: 16, behind: 0 },
            _ => call.make(tallies, buf),
        }),
    ),
    (
        "one byte more than the list asked for",
        Fault::Make(|call, tallies, buf| {
            let length = buf.len();
            let answer = call.make(tallies, buf);
            match call {
                Call::WriteList { .. } if answer.behind == length && length > 0 => {
                    Answer { number: 16, behind: 0 }
                }
                _ => answer,
            }
        }),
    ),
    (
        "a byte behind the list written",
        Fault::Make(|call, tallies, buf| {
            let answer = call.make(tallies, buf);
            if let (Call::WriteList { .. }, Some(behind)) = (call, buf.get_mut(answer.behind)) {
                *behind = 0;
            }
            answer
        }),
    ),
    (
        "a sum of squares given as S",
        Fault::Make(|call, tallies, buf| {
            let answer = call.make(tallies, buf);
            if let Call::Sums { .. } = call {
                buf.copy_within(8.., 0);
            }
            answer
        }),
    ),
    (
        "sums of one result too few",
        Fault::Make(|call, tallies, buf| match call {
            Call::Sums { on, .. } => {
                let mut fewer = tallies[*on].clone();
                let last = fewer.held().last().map_or(0, |held| held.container);
                let _ = fewer.withdraw(last);
                call.make(&mut [fewer.clone(), fewer], buf)
            }
            _ => call.make(tallies, buf),
        }),
    ),
    (
        "a whole percentage written without places",
        Fault::Make(|call, tallies, buf| match call {
            Call::WriteList { on, .. } => {
                let text = String::from_utf8_lossy(&comma::text(&tallies[*on])).replace(".00\n", "\n");
                buffer::lay(text.as_bytes(), buf).into()
            }
            _ => call.make(tallies, buf),
        }),
    ),
];

/// What lotenter prints.
const PROGRAM: [(&str, Fault); 5] = [
    (
        "the files exchanged",
        Fault::Prints(|sheet, list| {
            let text = on_sheet::lotenter(bytes(sheet), bytes(list));
            match text.split(' ').collect::<Vec<_>>()[..] {
                ["REFUSED", number, "2", line] => format!("REFUSED {number} 1 {line}"),
                _ => text,
            }
        }),
    ),
    (
        "a list that cannot be read refused",
        Fault::Prints(|sheet, list| match list {
            Some(list) => on_sheet::lotenter(bytes(sheet), list),
            None => USAGE.into(),
        }),
    ),
    (
        "a list of 65,536 bytes read as one that ends there",
        Fault::Prints(|sheet, list| {
            let list = bytes(list);
            let mut buf = [0; sheet::LONGEST_WRITTEN];
            match on_sheet::enter_list(bytes(sheet), &list[..list.len().min(LIST_READ)], &mut buf) {
                Ok(length) => String::from_utf8_lossy(&buf[..length]).into_owned(),
                Err(refused) => {
                    let code = refused.code();
                    format!("REFUSED {} {} {}\n", code & 0xFF, code >> 8 & 0xFF, code >> 16)
                }
            }
        }),
    ),
    (
        "a long list not read at all",
        Fault::Prints(|sheet, list| match bytes(list) {
            list if list.len() >= LIST_READ => USAGE.into(),
            list => on_sheet::lotenter(bytes(sheet), list),
        }),
    ),
    (
        "fewer than five results refused",
        Fault::Prints(|sheet, list| {
            let text = on_sheet::lotenter(bytes(sheet), bytes(list));
            let few = text.contains("\n0600\n") || text.contains("\n0601\n");
            if few { format!("REFUSED 15 1 {}\n", text.lines().count()) } else { text }
        }),
    ),
];

#[test]
fn an_implementation_agrees_with_itself() {
    let print = |sheet: Option<&[u8]>, list: Option<&[u8]>| on_sheet::lotenter(bytes(sheet), bytes(list));
    for same in
        [Fault::EnterList(enter_list), Fault::Enter(enter), Fault::Make(Call::make), Fault::Prints(print)]
    {
        assert_eq!(differences(&same), 0);
    }
}

#[test]
fn each_fault_is_found() {
    let tables: [&[(&str, Fault)]; 5] = [&READING, &LISTS, &RESULTS, &TALLIES, &PROGRAM];
    for (name, fault) in tables.concat() {
        assert!(differences(&fault) > 0, "not found: {name}");
    }
}

#[test]
fn lists_reach_each_of_their_answers() {
    let mut found = Comparison::default();
    comparison::on_sheets(5, 8_000, &Independent, &Independent, &mut found);
    comparison::lists(5, 400, &Independent, &Independent, &mut found);
    let at_least = |answer: String, least: usize| {
        let times = found.reached.get(&answer).copied().unwrap_or(0);
        assert!(times >= least, "{answer}: {times}");
    };
    for number in [6, 7, 8, 9, 16, 20] {
        at_least(format!("a list entered: refused {number}"), 100);
    }
    for number in [6, 7, 8, 9, 16] {
        at_least(format!("a result entered: refused {number}"), 50);
    }
    for what in ["a list entered", "a result entered", "a result withdrawn"] {
        at_least(format!("{what}: accepted"), 1_000);
        at_least(format!("{what}: refused for the sheet"), 200);
    }
    for number in [0, 6, 7, 8, 9, 20] {
        at_least(format!("list list {number}"), 50);
    }
    for number in [0, 16] {
        at_least(format!("list writelist {number}"), 50);
    }
}

#[test]
fn long_lists_are_told_and_not_told() {
    let mut prng = Prng::new(6);
    let (mut used, mut refused, mut whole) = (0, 0, 0);
    for _ in 0..400 {
        let (sheet, list) = commas::long_pair(&mut prng);
        let printed = on_sheet::lotenter(&sheet, &list);
        used += usize::from(printed == USAGE);
        refused += usize::from(printed.starts_with("REFUSED") && list.len() >= LIST_READ);
        whole += usize::from(list.len() == LIST_READ - 1);
    }
    for (what, times) in [("usage", used), ("refused", refused), ("read wholly", whole)] {
        assert!(times >= 40, "{what}: {times}");
    }
}
