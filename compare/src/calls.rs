//! A list of calls on two tallies as bytes, and the answers to it as bytes.
//!
//! Both tallies are fresh at the start. Numbers have their most significant byte first.
//! Each call begins with two bytes, its kind and the tally it is made on (0 or 1):
//!
//! | kind | call     | behind the two bytes |
//! |------|----------|----------------------|
//! | 1    | open     | six numbers of 2 bytes: attribute, N0, F, G, n, rows in use; 201 of 4 bytes: for each N from 0 the critical value + 1, or 0 for none; 96 times four numbers of 2 bytes: lowest N, highest N, mean bound, tolerated R (1,584 bytes in all) |
//! | 2    | enter    | container (2), X (2) |
//! | 3    | withdraw | container (2) |
//! | 4    | join     | nothing; the second byte is 0 (the second tally into the first), 1 (the first into the second), 2 (the first into itself) or 3 (the second into itself) |
//! | 5    | weigh    | container (2), status (2), the float bits of component (4) and remainder (4) |
//! | 6    | report   | the length of the lent buffer (2) |
//! | 7    | write    | the length of the lent buffer (2) |
//! | 8    | list     | the length of a comma list (2), its bytes |
//! | 9    | writelist | the length of the lent buffer (2) |
//! | 10   | sums     | the length of the lent buffer (2) |
//!
//! Each call is answered by one byte, 0 or the refusal's number. For a comma list two bytes follow, the
//! line that is refused (0 where none is). For a report, a write, a writelist or sums two bytes follow, the
//! length of what is written (0 where refused), and then the lent buffer itself, which is that part of the
//! answers' own buffer. What is written for sums is 12 bytes, S (4) and Q (8). The list ends at its last
//! byte, at bytes that are no whole call, or where the answers' buffer has no room for the next answer. The
//! number of bytes answered is given.

use crate::card::{Card, Lot, MOST_ROWS, Row};
use crate::refusal::{Fault, Refusal};
use crate::tally::Tally;
use crate::weights::Weighing;
use crate::{buffer, comma, report, sheet};

/// One call; the tallies are named by their number.
#[derive(Clone, Debug, PartialEq, Eq)]
pub enum Call {
    Open { on: usize, lot: Lot, card: Box<Card> },
    Enter { on: usize, container: u16, x: u16 },
    Withdraw { on: usize, container: u16 },
    Join { on: usize, other: usize },
    Weigh { on: usize, container: u16, weighing: Weighing },
    Report { on: usize, room: u16 },
    Write { on: usize, room: u16 },
    List { on: usize, lines: Vec<u8> },
    WriteList { on: usize, room: u16 },
    Sums { on: usize, room: u16 },
}

/// What a call answers.
#[derive(Clone, Copy, Debug, PartialEq, Eq)]
pub struct Answer {
    /// 0 or the refusal's number.
    pub number: u8,
    /// What the two bytes behind it say: a text's length, or the line of a comma list that is refused; else 0.
    pub behind: usize,
}

impl From<Result<(), Refusal>> for Answer {
    fn from(answer: Result<(), Refusal>) -> Self {
        answer.map(|()| 0).into()
    }
}

impl From<Result<usize, Refusal>> for Answer {
    fn from(answer: Result<usize, Refusal>) -> Self {
        match answer {
            Ok(length) => Self { number: 0, behind: length },
            Err(refusal) => Self { number: refusal.number(), behind: 0 },
        }
    }
}

impl From<Result<(), Fault>> for Answer {
    fn from(answer: Result<(), Fault>) -> Self {
        match answer {
            Ok(()) => Self { number: 0, behind: 0 },
            Err(fault) => Self { number: fault.refusal.number(), behind: fault.line },
        }
    }
}

impl Call {
    /// Adds the call's bytes to a list.
    pub fn encode(&self, list: &mut Vec<u8>) {
        match self {
            Self::Open { on, lot, card } => {
                list.extend([1, *on as u8]);
                let rows = card.row_count as u16;
                let head = [lot.attribute, lot.containers, card.factor, card.offset, card.seeds, rows];
                list.extend(head.into_iter().flat_map(u16::to_be_bytes));
                let criticals = card.criticals.iter().map(|critical| critical.map_or(0, |value| value + 1));
                list.extend(criticals.flat_map(u32::to_be_bytes));
                let fields = |row: &Row| [row.lowest, row.highest, row.mean_bound, row.tolerated];
                list.extend(card.places.iter().flat_map(fields).flat_map(u16::to_be_bytes));
            }
            Self::Enter { on, container, x } => {
                list.extend([2, *on as u8]);
                list.extend([*container, *x].into_iter().flat_map(u16::to_be_bytes));
            }
            Self::Withdraw { on, container } => {
                list.extend([3, *on as u8]);
                list.extend(container.to_be_bytes());
            }
            Self::Join { on, other } => list.extend([4, if on == other { 2 + *on as u8 } else { *on as u8 }]),
            Self::Weigh { on, container, weighing } => {
                list.extend([5, *on as u8]);
                // A list has two bytes for a status.
                list.extend([*container, weighing.status as u16].into_iter().flat_map(u16::to_be_bytes));
                list.extend([weighing.component, weighing.remainder].into_iter().flat_map(u32::to_be_bytes));
            }
            Self::Report { on, room } => {
                list.extend([6, *on as u8]);
                list.extend(room.to_be_bytes());
            }
            Self::Write { on, room } => {
                list.extend([7, *on as u8]);
                list.extend(room.to_be_bytes());
            }
            Self::List { on, lines } => {
                let length = u16::try_from(lines.len()).expect("a call has two bytes for a list's length");
                list.extend([8, *on as u8]);
                list.extend(length.to_be_bytes());
                list.extend(lines);
            }
            Self::WriteList { on, room } => {
                list.extend([9, *on as u8]);
                list.extend(room.to_be_bytes());
            }
            Self::Sums { on, room } => {
                list.extend([10, *on as u8]);
                list.extend(room.to_be_bytes());
            }
        }
    }

    /// The next call of a list, or none where the list ends.
    fn decode(list: &mut Bytes) -> Option<Self> {
        let [kind, on] = list.take()?;
        if on > if kind == 4 { 3 } else { 1 } {
            return None;
        }
        let on = usize::from(on);
        Some(match kind {
            1 => {
                let (lot, card) = decode_open(list)?;
                Self::Open { on, lot, card }
            }
            2 => Self::Enter { on, container: list.number()?, x: list.number()? },
            3 => Self::Withdraw { on, container: list.number()? },
            4 if on < 2 => Self::Join { on, other: 1 - on },
            4 => Self::Join { on: on - 2, other: on - 2 },
            5 => Self::Weigh { on, container: list.number()?, weighing: decode_weighing(list)? },
            6 => Self::Report { on, room: list.number()? },
            7 => Self::Write { on, room: list.number()? },
            8 => Self::List { on, lines: list.counted()? },
            9 => Self::WriteList { on, room: list.number()? },
            10 => Self::Sums { on, room: list.number()? },
            _ => return None,
        })
    }

    pub fn name(&self) -> &'static str {
        match self {
            Self::Open { .. } => "open",
            Self::Enter { .. } => "enter",
            Self::Withdraw { .. } => "withdraw",
            Self::Join { .. } => "join",
            Self::Weigh { .. } => "weigh",
            Self::Report { .. } => "report",
            Self::Write { .. } => "write",
            Self::List { .. } => "list",
            Self::WriteList { .. } => "writelist",
            Self::Sums { .. } => "sums",
        }
    }

    /// The length of the buffer that the call lends, where it lends one.
    pub fn room(&self) -> Option<usize> {
        match self {
            Self::Report { room, .. }
            | Self::Write { room, .. }
            | Self::WriteList { room, .. }
            | Self::Sums { room, .. } => Some((*room).into()),
            _ => None,
        }
    }

    /// How many bytes the answer has, the lent buffer among them.
    fn answer_width(&self) -> usize {
        match (self, self.room()) {
            (Self::List { .. }, _) => 3,
            (_, Some(room)) => 3 + room,
            (_, None) => 1,
        }
    }

    /// Makes the call. `buf` is the buffer that it lends.
    pub fn make(&self, tallies: &mut [Tally; 2], buf: &mut [u8]) -> Answer {
        match self {
            Self::Open { on, lot, card } => tallies[*on].open(lot, card).into(),
            Self::Enter { on, container, x } => tallies[*on].enter(*container, *x).into(),
            Self::Withdraw { on, container } => tallies[*on].withdraw(*container).into(),
            Self::Join { on, other } => {
                let other = tallies[*other].clone();
                tallies[*on].join(&other).into()
            }
            Self::Weigh { on, container, weighing } => tallies[*on].weigh(*container, weighing).into(),
            Self::Report { on, .. } => report::report(&tallies[*on], buf).into(),
            Self::Write { on, .. } => sheet::write(&tallies[*on], buf).into(),
            Self::List { on, lines } => comma::enter(&mut tallies[*on], lines).into(),
            Self::WriteList { on, .. } => comma::write(&tallies[*on], buf).into(),
            Self::Sums { on, .. } => buffer::lay(&sums_bytes(&tallies[*on]), buf).into(),
        }
    }
}

/// S in four bytes and Q in eight, summed over what is held and not as the tally keeps them.
fn sums_bytes(tally: &Tally) -> [u8; 12] {
    let xs = || tally.held().iter().map(|held| u64::from(held.x));
    let (sum, squares): (u64, u64) = (xs().sum(), xs().map(|x| x * x).sum());
    let mut bytes = [0; 12];
    bytes[..4].copy_from_slice(&(sum as u32).to_be_bytes());
    bytes[4..].copy_from_slice(&squares.to_be_bytes());
    bytes
}

fn decode_open(list: &mut Bytes) -> Option<(Lot, Box<Card>)> {
    let lot = Lot { attribute: list.number()?, containers: list.number()? };
    let mut card = Box::new(Card {
        factor: list.number()?,
        offset: list.number()?,
        seeds: list.number()?,
        row_count: list.number()?.into(),
        ..Card::default()
    });
    for critical in &mut card.criticals {
        *critical = list.wide_number()?.checked_sub(1);
    }
    for place in &mut card.places[..MOST_ROWS] {
        *place = Row {
            lowest: list.number()?,
            highest: list.number()?,
            mean_bound: list.number()?,
            tolerated: list.number()?,
        };
    }
    Some((lot, card))
}

fn decode_weighing(list: &mut Bytes) -> Option<Weighing> {
    Some(Weighing {
        status: list.number()?.into(),
        component: list.wide_number()?,
        remainder: list.wide_number()?,
    })
}

/// The bytes of a list that are still to be read.
struct Bytes<'a>(&'a [u8]);

impl Bytes<'_> {
    fn take<const WIDTH: usize>(&mut self) -> Option<[u8; WIDTH]> {
        let (taken, rest) = self.0.split_first_chunk()?;
        self.0 = rest;
        Some(*taken)
    }

    fn number(&mut self) -> Option<u16> {
        self.take().map(u16::from_be_bytes)
    }

    fn wide_number(&mut self) -> Option<u32> {
        self.take().map(u32::from_be_bytes)
    }

    /// As many bytes as the number before them says.
    fn counted(&mut self) -> Option<Vec<u8>> {
        let length = self.number()?;
        let (taken, rest) = self.0.split_at_checked(length.into())?;
        self.0 = rest;
        Some(taken.to_vec())
    }
}

/// How a call is made: as `Call::make`, or with a fault.
pub type Make = fn(&Call, &mut [Tally; 2], &mut [u8]) -> Answer;

/// Makes the calls of a list and lays the answers into `buf`; gives the number of bytes answered.
pub fn run(list: &[u8], buf: &mut [u8]) -> usize {
    run_by(Call::make, list, buf)
}

/// The same with each call made in a given way.
pub fn run_by(make: Make, list: &[u8], buf: &mut [u8]) -> usize {
    let mut tallies = [Tally::fresh(), Tally::fresh()];
    let mut list = Bytes(list);
    let mut at = 0;
    while let Some(call) = Call::decode(&mut list) {
        let width = call.answer_width();
        let Some(bytes) = buf.get_mut(at..at + width) else { break };
        let (head, room) = bytes.split_at_mut(width.min(3));
        let answer = make(&call, &mut tallies, room);
        head[0] = answer.number;
        if let [_, high, low] = head {
            [*high, *low] = (answer.behind as u16).to_be_bytes();
        }
        at += width;
    }
    at
}

#[cfg(test)]
mod tests {
    use super::*;

    fn card() -> Box<Card> {
        Box::new(Card { factor: 10, offset: 10, seeds: 0, ..Card::default() })
    }

    #[test]
    fn a_call_returns_from_its_bytes() {
        let lot = Lot { attribute: 2, containers: 9 };
        let mut card = card();
        card.criticals[5] = Some(0);
        card.criticals[200] = Some(70_000);
        card.row_count = 97;
        card.places[95] = Row { lowest: 1, highest: 2, mean_bound: 3, tolerated: 4 };
        let calls = [
            Call::Open { on: 1, lot, card },
            Call::Enter { on: 0, container: 1, x: 65_535 },
            Call::Withdraw { on: 1, container: 2 },
            Call::Join { on: 0, other: 1 },
            Call::Join { on: 1, other: 0 },
            Call::Join { on: 0, other: 0 },
            Call::Join { on: 1, other: 1 },
            Call::Weigh {
                on: 1,
                container: 3,
                weighing: Weighing { status: 65_535, component: 0x0102_0304, remainder: u32::MAX },
            },
            Call::Report { on: 0, room: 300 },
            Call::Write { on: 1, room: 0 },
            Call::List { on: 1, lines: vec![b'7'; 300] },
            Call::List { on: 0, lines: Vec::new() },
            Call::WriteList { on: 0, room: 2_600 },
            Call::Sums { on: 1, room: 12 },
        ];
        let mut list = Vec::new();
        calls.iter().for_each(|call| call.encode(&mut list));
        assert_eq!(list.len(), 2 + 1_584 + 6 + 4 + 8 + 14 + 8 + 304 + 4 + 4 + 4);
        let mut bytes = Bytes(&list);
        for call in calls {
            assert_eq!(Call::decode(&mut bytes), Some(call));
        }
        assert_eq!(Call::decode(&mut bytes), None);
    }

    #[test]
    fn answers_stand_one_behind_the_other() {
        let lot = Lot { attribute: 2, containers: 9 };
        let mut list = Vec::new();
        Call::Write { on: 0, room: 2 }.encode(&mut list);
        Call::Open { on: 0, lot, card: card() }.encode(&mut list);
        Call::Enter { on: 0, container: 10, x: 0 }.encode(&mut list);
        Call::Write { on: 0, room: 26 }.encode(&mut list);
        Call::Join { on: 0, other: 0 }.encode(&mut list);
        let mut buf = [b'.'; 45];
        assert_eq!(run(&list, &mut buf), 37);
        assert_eq!(&buf, b"\x03\0\0..\0\x06\0\0\x1901020009\n020A0A0000\n0600\n.\0........");
        // Without room for the last answer the list ends before it.
        let mut short = [b'.'; 36];
        assert_eq!(run(&list, &mut short), 36);
        assert_eq!(short, buf[..36]);
    }

    #[test]
    fn the_sums_are_twelve_bytes() {
        let calls = [
            Call::Open { on: 1, lot: Lot { attribute: 2, containers: 9 }, card: card() },
            Call::Enter { on: 1, container: 9, x: 300 },
            Call::Enter { on: 1, container: 1, x: 2 },
            Call::Sums { on: 1, room: 13 },
            Call::Sums { on: 0, room: 12 },
            Call::Sums { on: 1, room: 11 },
        ];
        let mut bytes = Vec::new();
        calls.iter().for_each(|call| call.encode(&mut bytes));
        let mut buf = [b'.'; 48];
        assert_eq!(run(&bytes, &mut buf), 48);
        let expected: [&[u8]; 4] = [
            b"\0\0\0",
            b"\0\0\x0c\0\0\x01\x2e\0\0\0\0\0\x01\x5f\x94.",
            b"\0\0\x0c\0\0\0\0\0\0\0\0\0\0\0\0",
            b"\x10\0\0...........",
        ];
        assert_eq!(buf[..], expected.concat());
    }

    #[test]
    fn a_comma_list_is_answered_by_its_number_and_line() {
        let list = |on, lines: &str| Call::List { on, lines: lines.into() };
        let calls = [
            Call::Open { on: 0, lot: Lot { attribute: 2, containers: 9 }, card: card() },
            list(0, "9,70\n1,0\n"),
            list(0, "2,5\n9,0\n"),
            list(1, "1,1\n"),
            list(1, ""),
            Call::WriteList { on: 0, room: 10 },
            Call::WriteList { on: 0, room: 8 },
            Call::WriteList { on: 1, room: 1 },
        ];
        let mut bytes = Vec::new();
        calls.iter().for_each(|call| call.encode(&mut bytes));
        let mut buf = [b'.'; 43];
        assert_eq!(run(&bytes, &mut buf), 41);
        assert_eq!(&buf, b"\0\0\0\0\x08\0\x02\x06\0\x01\0\0\0\0\0\x091,0\n9,70\n.\x10\0\0........\0\0\0...");
        // A list whose bytes break off is no whole call.
        let mut short = Vec::new();
        list(0, "1,0\n").encode(&mut short);
        assert_eq!(run(&short[..7], &mut buf), 0);
    }
}
