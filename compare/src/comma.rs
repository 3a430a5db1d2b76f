//! Comma lists: results as lines of container, comma, value, entered into a tally and written from one.

use crate::buffer;
use crate::card::Attribute;
use crate::refusal::{Fault, Refusal};
use crate::sheet::END;
use crate::tally::{MOST_HELD, Tally};

/// The longest list that is written: a line `65535,100.00` for each result.
pub const LONGEST_WRITTEN: usize = MOST_HELD * 13;

/// A plain number, none where 16 bits do not carry it: it is above every limit then, however long it is.
type Number = Option<u16>;

/// What a good line says. Its numbers may still be no container of the lot, or too high.
struct Line {
    container: Number,
    x: Number,
}

impl Line {
    /// What a line with its end byte says; none where it is a bad one.
    fn parse(line: &[u8], attribute: Attribute) -> Option<Self> {
        let (container, value) = parted(line.strip_suffix(&[END])?, b',')?;
        let x = if attribute.is_percentage() { percentage(value)? } else { plain(value)? };
        Some(Self { container: plain(container)?, x })
    }
}

/// What stands before the first of a byte, and what stands behind it.
fn parted(word: &[u8], byte: u8) -> Option<(&[u8], &[u8])> {
    let place = word.iter().position(|&other| other == byte)?;
    Some((&word[..place], &word[place + 1..]))
}

/// A plain number: digits alone, one at least, the first of several not 0.
fn plain(word: &[u8]) -> Option<Number> {
    match word {
        [] | [b'0', _, ..] => None,
        _ => word.iter().all(u8::is_ascii_digit).then(|| value(word)),
    }
}

/// The value of digits without a leading zero: with more than five of them it is above 16 bits.
fn value(digits: &[u8]) -> Number {
    if digits.len() > 5 {
        return None;
    }
    let number = digits.iter().fold(0, |number, &digit| 10 * number + u32::from(digit - b'0'));
    u16::try_from(number).ok()
}

/// A percentage in hundredths: a plain number, with or without a point and what stands behind it.
fn percentage(word: &[u8]) -> Option<Number> {
    let (whole, more) = match parted(word, b'.') {
        None => (plain(word)?, 0),
        Some((whole, places)) => (plain(whole)?, hundredths(places)?),
    };
    Some(whole.and_then(|whole| u16::try_from(100 * u32::from(whole) + more).ok()))
}

/// The one or two digits behind a point; a single one counts tenths.
fn hundredths(places: &[u8]) -> Option<u32> {
    let digit = |byte: u8| byte.is_ascii_digit().then(|| u32::from(byte - b'0'));
    match *places {
        [tenths] => Some(10 * digit(tenths)?),
        [tenths, hundredths] => Some(10 * digit(tenths)? + digit(hundredths)?),
        _ => None,
    }
}

/// Enters the lines of a list one after the other: 20, or the answer of the enter that the line is. A refusal ends
/// the list and leaves the tally as before it.
pub fn enter(tally: &mut Tally, list: &[u8]) -> Result<(), Fault> {
    let attribute = attribute(tally);
    tally.together(|tally| {
        for (line, bytes) in (1..).zip(list.split_inclusive(|&byte| byte == END)) {
            Line::parse(bytes, attribute)
                .ok_or(Refusal::BadListLine)
                .and_then(|said| tally.enter_wide(said.container, said.x))
                .map_err(|refusal| Fault { refusal, line })?;
        }
        Ok(())
    })
}

/// The attribute that decides how a value is written. A fresh tally's is 0, purity.
fn attribute(tally: &Tally) -> Attribute {
    Attribute::of(tally.lot().attribute).expect("no lot of another attribute is opened")
}

/// The held results as a list, in ascending order of container.
pub fn text(tally: &Tally) -> Vec<u8> {
    let attribute = attribute(tally);
    let mut list = Vec::with_capacity(LONGEST_WRITTEN);
    for held in tally.held() {
        put(&mut list, held.container);
        list.push(b',');
        if attribute.is_percentage() {
            put(&mut list, held.x / 100);
            list.extend([b'.', digit(held.x / 10), digit(held.x)]);
        } else {
            put(&mut list, held.x);
        }
        list.push(END);
    }
    list
}

/// Writes a number without leading zeros.
fn put(list: &mut Vec<u8>, number: u16) {
    if number >= 10 {
        put(list, number / 10);
    }
    list.push(digit(number));
}

/// The last digit of a number.
fn digit(number: u16) -> u8 {
    b'0' + (number % 10) as u8
}

/// Lays the held results as a list into a lent buffer; 16 is the only refusal.
pub fn write(tally: &Tally, buf: &mut [u8]) -> Result<usize, Refusal> {
    buffer::lay(&text(tally), buf)
}
