//! The sheet: lines, frames, reading, writing, and what lotreport prints for it.

use crate::buffer;
use crate::card::{self, Card, Lot, MOST_ROWS, Row};
use crate::refusal::{Fault, Refusal};
use crate::report;
use crate::tally::{MOST_HELD, Tally};
use crate::weights::Weighing;

/// The byte that ends a line.
pub const END: u8 = 0x0A;
/// The longest sheet that is written.
pub const LONGEST_WRITTEN: usize = 5_429;
/// The longest sheet that is accepted: all of its results weighed, each 14 digits longer than it is written.
pub const LONGEST_READ: usize = LONGEST_WRITTEN + MOST_HELD * 14;

/// One line's content.
#[derive(Clone, Copy, Debug, PartialEq, Eq)]
pub enum Frame {
    Lot(Lot),
    Card { factor: u16, offset: u16, seeds: u16 },
    Critical { n: u16, value: u16 },
    Range(Row),
    Result { container: u16, x: u16 },
    Weighed { container: u16, weighing: Weighing },
    End { count: u16 },
}

impl Frame {
    /// The number that the line begins with.
    pub fn kind(&self) -> u8 {
        match self {
            Self::Lot(_) => 1,
            Self::Card { .. } => 2,
            Self::Critical { .. } => 3,
            Self::Range(_) => 4,
            Self::Result { .. } => 5,
            Self::End { .. } => 6,
            Self::Weighed { .. } => 7,
        }
    }

    /// The kind whose place in the order the frame takes: a weighed result stands among the results.
    fn place(&self) -> u8 {
        if let Self::Weighed { .. } = self { 5 } else { self.kind() }
    }

    /// The frame that a line without its end byte spells, if any.
    pub fn parse(line: &[u8]) -> Option<Self> {
        let mut digits = Digits(line);
        let frame = match digits.take(2)? {
            1 => Self::Lot(Lot { attribute: digits.take(2)?, containers: digits.take(4)? }),
            2 => Self::Card { factor: digits.take(2)?, offset: digits.take(2)?, seeds: digits.take(4)? },
            3 => Self::Critical { n: digits.take(2)?, value: digits.take(4)? },
            4 => Self::Range(Row {
                lowest: digits.take(2)?,
                highest: digits.take(2)?,
                mean_bound: digits.take(4)?,
                tolerated: digits.take(4)?,
            }),
            5 => Self::Result { container: digits.take(4)?, x: digits.take(4)? },
            6 => Self::End { count: digits.take(2)? },
            7 => Self::Weighed {
                container: digits.take(4)?,
                weighing: Weighing {
                    status: digits.take(2)?.into(),
                    component: digits.take_bits()?,
                    remainder: digits.take_bits()?,
                },
            },
            _ => return None,
        };
        digits.0.is_empty().then_some(frame)
    }

    /// The line that spells the frame, with its end byte.
    pub fn write(&self, sheet: &mut Vec<u8>) {
        put(sheet, self.kind().into(), 2);
        match *self {
            Self::Lot(Lot { attribute, containers }) => {
                put(sheet, attribute, 2);
                put(sheet, containers, 4);
            }
            Self::Card { factor, offset, seeds } => {
                put(sheet, factor, 2);
                put(sheet, offset, 2);
                put(sheet, seeds, 4);
            }
            Self::Critical { n, value } => {
                put(sheet, n, 2);
                put(sheet, value, 4);
            }
            Self::Range(row) => {
                put(sheet, row.lowest, 2);
                put(sheet, row.highest, 2);
                put(sheet, row.mean_bound, 4);
                put(sheet, row.tolerated, 4);
            }
            Self::Result { container, x } => {
                put(sheet, container, 4);
                put(sheet, x, 4);
            }
            Self::End { count } => put(sheet, count, 2),
            Self::Weighed { container, weighing } => {
                put(sheet, container, 4);
                put(sheet, weighing.status as u16, 2);
                put_bits(sheet, weighing.component);
                put_bits(sheet, weighing.remainder);
            }
        }
        sheet.push(END);
    }
}

/// The digits of a line that are still to be read.
struct Digits<'a>(&'a [u8]);

impl Digits<'_> {
    /// The number in the next `width` digits, at most four of them.
    fn take(&mut self, width: usize) -> Option<u16> {
        let (field, rest) = self.0.split_at_checked(width)?;
        self.0 = rest;
        field.iter().try_fold(0, |number, &byte| Some(number << 4 | digit(byte)?))
    }

    /// The bits of a float in the next eight digits.
    fn take_bits(&mut self) -> Option<u32> {
        Some(u32::from(self.take(4)?) << 16 | u32::from(self.take(4)?))
    }
}

/// A hexadecimal digit's value; lower case is no digit.
fn digit(byte: u8) -> Option<u16> {
    match byte {
        b'0'..=b'9' => Some(u16::from(byte - b'0')),
        b'A'..=b'F' => Some(u16::from(byte - b'A') + 10),
        _ => None,
    }
}

/// Writes the last `width` digits of a number.
fn put(sheet: &mut Vec<u8>, number: u16, width: u32) {
    for place in (0..width).rev() {
        let digit = number >> (4 * place) & 0xF;
        sheet.push(b"0123456789ABCDEF"[usize::from(digit)]);
    }
}

/// Writes the eight digits of a float's bits.
fn put_bits(sheet: &mut Vec<u8>, bits: u32) {
    put(sheet, (bits >> 16) as u16, 4);
    put(sheet, bits as u16, 4);
}

/// A tally that was read, and the line of its 06 frame.
#[derive(Clone, Debug, PartialEq, Eq)]
pub struct Read {
    pub tally: Tally,
    pub end_line: usize,
}

/// What has been read so far.
struct Reader {
    /// The place in the order of the frame before; 0 at the start.
    before: u8,
    lot: Lot,
    card: Card,
    /// The N of the critical frame before; 0 where there is none.
    last_critical: u16,
    /// Opened when the first frame behind the card comes.
    tally: Tally,
    /// The 05 and 07 frames read.
    results: u16,
}

impl Reader {
    fn new() -> Self {
        Self {
            before: 0,
            lot: Lot::default(),
            card: Card::default(),
            last_critical: 0,
            tally: Tally::fresh(),
            results: 0,
        }
    }

    /// Whether a frame that takes this place in the order may stand next.
    fn in_turn(&self, place: u8) -> bool {
        match place {
            1 => self.before == 0,
            2 => self.before == 1,
            3 => (2..=3).contains(&self.before),
            4 => (2..=4).contains(&self.before),
            5 | 6 => (2..=5).contains(&self.before),
            _ => false,
        }
    }

    fn take(&mut self, frame: &Frame) -> Result<(), Refusal> {
        let place = frame.place();
        if !self.in_turn(place) {
            return Err(Refusal::OutOfTurn);
        }
        match *frame {
            Frame::Lot(lot) => {
                lot.check()?;
                self.lot = lot;
            }
            Frame::Card { factor, offset, seeds } => self.take_card(factor, offset, seeds)?,
            Frame::Critical { n, value } => self.take_critical(n, value)?,
            Frame::Range(row) => self.take_row(row)?,
            Frame::Result { container, x } => self.take_result(|tally| tally.enter(container, x))?,
            // The tally answers 2 itself where the lot's attribute is another: the frame is then out of turn.
            Frame::Weighed { container, weighing } => {
                self.take_result(|tally| tally.weigh(container, &weighing))?;
            }
            Frame::End { count } => {
                self.card_is_over()?;
                if count != self.results {
                    return Err(Refusal::CountWrong);
                }
            }
        }
        self.before = place;
        Ok(())
    }

    fn take_card(&mut self, factor: u16, offset: u16, seeds: u16) -> Result<(), Refusal> {
        let attribute = self.lot.check()?;
        self.card = Card { factor, offset, seeds, ..Card::default() };
        if self.card.head_is_good(attribute) { Ok(()) } else { Err(Refusal::BadCard) }
    }

    fn take_critical(&mut self, n: u16, value: u16) -> Result<(), Refusal> {
        if !card::is_critical_n(n) || n <= self.last_critical {
            return Err(Refusal::BadCard);
        }
        self.card.criticals[usize::from(n)] = Some(value.into());
        self.last_critical = n;
        Ok(())
    }

    /// A row with bad content is 4 also where it is the 97th.
    fn take_row(&mut self, row: Row) -> Result<(), Refusal> {
        if !row.is_good() {
            return Err(Refusal::BadCard);
        }
        if self.card.row_count == MOST_ROWS {
            return Err(Refusal::CardFull);
        }
        self.card.places[self.card.row_count] = row;
        self.card.row_count += 1;
        Ok(())
    }

    fn take_result(&mut self, enter: impl FnOnce(&mut Tally) -> Result<(), Refusal>) -> Result<(), Refusal> {
        self.card_is_over()?;
        enter(&mut self.tally)?;
        self.results += 1;
        Ok(())
    }

    /// Opens the tally when the first frame behind the card comes.
    fn card_is_over(&mut self) -> Result<(), Refusal> {
        if self.before == 5 { Ok(()) } else { self.tally.open(&self.lot, &self.card) }
    }
}

/// Reads a sheet. The first line to which any number applies ends the reading.
pub fn read(sheet: &[u8]) -> Result<Read, Fault> {
    let mut reader = Reader::new();
    let mut end_line = 0;
    let mut line = 0;
    for bytes in sheet.split_inclusive(|&byte| byte == END) {
        line += 1;
        let fault = |refusal| Fault { refusal, line };
        let digits = bytes.strip_suffix(&[END]).ok_or(fault(Refusal::BadLine))?;
        let frame = Frame::parse(digits);
        // It is read where it stands: a copy of the widest frame shows in the time of every line.
        reader.take(frame.as_ref().ok_or(fault(Refusal::BadLine))?).map_err(fault)?;
        end_line = line;
    }
    if reader.before == 6 {
        Ok(Read { tally: reader.tally, end_line })
    } else {
        Err(Fault { refusal: Refusal::OutOfTurn, line: line + 1 })
    }
}

/// The sheet of a tally, results in ascending order of container; 3 on a fresh tally.
pub fn text(tally: &Tally) -> Result<Vec<u8>, Refusal> {
    tally.lot().check()?;
    let card = tally.card();
    let mut sheet = Vec::with_capacity(LONGEST_WRITTEN);
    Frame::Lot(*tally.lot()).write(&mut sheet);
    Frame::Card { factor: card.factor, offset: card.offset, seeds: card.seeds }.write(&mut sheet);
    for (n, critical) in (0..).zip(&card.criticals) {
        // An opened tally's critical values have four digits.
        if let Some(value) = critical.and_then(|value| u16::try_from(value).ok()) {
            Frame::Critical { n, value }.write(&mut sheet);
        }
    }
    for row in card.rows() {
        Frame::Range(*row).write(&mut sheet);
    }
    for held in tally.held() {
        Frame::Result { container: held.container, x: held.x }.write(&mut sheet);
    }
    Frame::End { count: tally.held().len() as u16 }.write(&mut sheet);
    Ok(sheet)
}

/// Lays a tally's sheet into a lent buffer; 3 comes before 16.
pub fn write(tally: &Tally, buf: &mut [u8]) -> Result<usize, Refusal> {
    buffer::lay(&text(tally)?, buf)
}

/// Reads a sheet and lays it down again in the writer's own form.
pub fn rewrite(sheet: &[u8], buf: &mut [u8]) -> Result<usize, Refusal> {
    let read = read(sheet).map_err(|fault| fault.refusal)?;
    write(&read.tally, buf)
}

/// What lotreport prints for a sheet.
pub fn printed(sheet: &[u8]) -> String {
    match read(sheet) {
        Err(fault) => fault.printed(),
        Ok(Read { tally, end_line }) => {
            report::text(&tally).unwrap_or_else(|refusal| Fault { refusal, line: end_line }.printed())
        }
    }
}

/// Lays what lotreport prints into a lent buffer; 16 is the only refusal.
pub fn judge(sheet: &[u8], buf: &mut [u8]) -> Result<usize, Refusal> {
    buffer::lay(printed(sheet).as_bytes(), buf)
}

#[cfg(test)]
mod tests {
    use super::*;

    const C1: &str = "01000028\n020A0A03E8\n0305009B\n040509264800C8\n0500032648\n05000825E4\n05000C26AC\n0500112648\n0500282648\n0605\n";

    fn with(old: &str, new: &str) -> String {
        assert!(C1.contains(old));
        printed(C1.replace(old, new).as_bytes())
    }

    fn counts(card: &str, critical: &str) -> String {
        let results = "0500010000\n0500020000\n0500030000\n0500040000\n050005000A\n0605\n";
        printed(format!("01020028\n02{card}0000\n0305{critical}\n{results}").as_bytes())
    }

    #[test]
    fn marked_cases_1_to_3() {
        assert_eq!(
            printed(C1.as_bytes()),
            "N 5\nMEAN 98.00=\nH 1.55+ 1.55 over\nR 2.00 2.00 kept\nLOT heterogeneous\n"
        );
        assert!(with("0305009B", "0305009C").contains("\nH 1.55+ 1.56 kept\n"));
        let c3 = C1.replace("020A0A", "020B0B").replace("0305009B", "0305007A");
        assert!(printed(c3.as_bytes()).contains("\nH 1.22- 1.22 kept\n"));
    }

    #[test]
    fn marked_cases_4_and_5() {
        let five = |last: &str| {
            let mut sheet = String::from("01000028\n020A0A03E8\n0305009B\n040509264800C8\n");
            for (container, x) in (1..).zip(["26FC", "26FC", "26FC", "26FC", last]) {
                sheet += &format!("05{container:04X}{x}\n");
            }
            printed((sheet + "0605\n").as_bytes())
        };
        assert_eq!(five("26FC"), "N 5\nMEAN 99.80=\nH 0.00- 1.55 kept\nR 0.00 none open\nLOT open\n");
        assert_eq!(five("26FD"), "N 5\nMEAN 99.80+\nH void\nR void\nLOT void\n");
    }

    #[test]
    fn marked_cases_6_to_8() {
        assert!(counts("0A0A", "0384").contains("\nH 9.00= 9.00 kept\n"));
        assert!(counts("2000", "0138").contains("\nH 3.13- 3.12 over\n"));
        assert!(counts("2000", "0139").contains("\nH 3.13- 3.13 kept\n"));
        assert!(counts("2000", "0139").contains("\nR 10 none open\n"));
    }

    #[test]
    fn where_a_sheet_ends_too_early() {
        assert_eq!(printed(b""), "REFUSED 2 1\n");
        assert_eq!(printed(b"\n"), "REFUSED 1 1\n");
        assert_eq!(printed(b"01000028"), "REFUSED 1 1\n");
        assert_eq!(printed(b"01000028\n"), "REFUSED 2 2\n");
        assert_eq!(printed(C1.trim_end().as_bytes()), "REFUSED 1 10\n");
        assert_eq!(printed(format!("{C1}0605\n").as_bytes()), "REFUSED 2 11\n");
        assert_eq!(printed(format!("{C1}0\n").as_bytes()), "REFUSED 1 11\n");
        assert_eq!(with("0605", "0606"), "REFUSED 14 10\n");
    }

    #[test]
    fn the_longest_sheet_returns_unchanged() {
        let mut sheet = String::from("0100FFFF\n0232320001\n");
        for n in 5..=200 {
            sheet += &format!("03{n:02X}FFFF\n");
        }
        sheet += &"0405C82710FFFF\n".repeat(96);
        for container in 1..=200 {
            sheet += &format!("05{container:04X}2710\n");
        }
        sheet += "06C8\n";
        assert_eq!(sheet.len(), LONGEST_WRITTEN);
        let read = read(sheet.as_bytes()).unwrap();
        assert_eq!(text(&read.tally).unwrap(), sheet.as_bytes());
        let mut short = [0x55; LONGEST_WRITTEN - 1];
        assert_eq!(write(&read.tally, &mut short), Err(Refusal::BufferShort));
        assert!(short.iter().all(|&byte| byte == 0x55));
    }
}
