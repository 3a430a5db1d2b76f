//! The report: H and R of a tally, set against its card.

use std::cmp::Ordering;
use std::fmt::{self, Write as _};

use crate::buffer;
use crate::card::{Attribute, Card, Row};
use crate::refusal::Refusal;
use crate::tally::{Sums, Tally};

/// Fewest results that a report is made from.
pub const FEWEST_REPORTED: usize = 5;

/// What a report is made from, besides lot and card.
struct Figures {
    /// N.
    held: u64,
    /// S, the sum of X.
    sum: u64,
    /// Q, the sum of the squares of X.
    squares: u64,
    smallest: u64,
    largest: u64,
}

impl Figures {
    fn of(tally: &Tally) -> Self {
        let xs = || tally.held().iter().map(|held| u64::from(held.x));
        let Sums { sum, squares } = tally.sums();
        Self {
            held: tally.held().len() as u64,
            sum,
            squares,
            smallest: xs().min().unwrap_or(0),
            largest: xs().max().unwrap_or(0),
        }
    }

    /// Whether the exact mean is within the limits, the limits themselves included.
    fn mean_within(&self, (least, greatest): (u64, u64)) -> bool {
        least * self.held <= self.sum && self.sum <= greatest.saturating_mul(self.held)
    }

    fn range(&self) -> u64 {
        self.largest - self.smallest
    }
}

/// H as an exact fraction of hundredths: `numerator / denominator`, the denominator above 0.
#[derive(Clone, Copy, Debug, PartialEq, Eq)]
pub struct ExactH {
    pub numerator: i128,
    pub denominator: i128,
}

impl ExactH {
    fn of(attribute: Attribute, card: &Card, figures: &Figures) -> Self {
        let [held, sum, squares] = [figures.held, figures.sum, figures.squares].map(i128::from);
        let [factor, offset, seeds] = [card.factor, card.offset, card.seeds].map(i128::from);
        let spread = held * squares - sum * sum;
        let (v_by_w, denominator) = if attribute.is_percentage() {
            (10 * seeds * held * spread, (held - 1) * sum * (10_000 * held - sum) * factor)
        } else {
            (10 * spread, (held - 1) * sum * factor)
        };
        // H = V/W - G/10, and a tenth is ten hundredths.
        Self { numerator: 100 * v_by_w - 10 * offset * denominator, denominator }
    }

    /// The nearest hundredth, the larger of two equally near; 0 below zero.
    pub fn hundredths(self) -> u128 {
        let halves = 2 * self.numerator.max(0) + self.denominator;
        (halves / (2 * self.denominator)).unsigned_abs()
    }

    /// How the exact H stands to a number of hundredths; below zero it is less than 0.
    pub fn compare(self, hundredths: u128) -> Ordering {
        self.numerator.cmp(&(hundredths.cast_signed() * self.denominator))
    }
}

/// The last word of an H or R line.
#[derive(Clone, Copy, PartialEq, Eq)]
enum Verdict {
    Over,
    Kept,
    /// The card has nothing to set the value against.
    Open,
}

impl Verdict {
    fn of(over: bool) -> Self {
        if over { Self::Over } else { Self::Kept }
    }
}

/// A number of 10^-places, printed with that many places.
pub struct Decimal {
    pub value: u128,
    pub places: u32,
}

impl fmt::Display for Decimal {
    fn fmt(&self, f: &mut fmt::Formatter) -> fmt::Result {
        let unit = 10u128.pow(self.places);
        write!(f, "{}", self.value / unit)?;
        if self.places > 0 {
            write!(f, ".{:0width$}", self.value % unit, width = self.places as usize)?;
        }
        Ok(())
    }
}

/// The mark behind a rounded number: how the exact number stands to the one printed.
pub fn mark(exact: Ordering) -> char {
    match exact {
        Ordering::Less => '-',
        Ordering::Equal => '=',
        Ordering::Greater => '+',
    }
}

/// Attribute and figures of a tally that holds enough for a report.
fn reported(tally: &Tally) -> Option<(Attribute, Figures)> {
    let attribute = Attribute::of(tally.lot().attribute)?;
    (tally.held().len() >= FEWEST_REPORTED).then(|| (attribute, Figures::of(tally)))
}

/// The same of a tally that is not void either, so that H and R are worked out.
fn worked_out(tally: &Tally) -> Option<(Attribute, Figures)> {
    reported(tally).filter(|(attribute, figures)| figures.mean_within(attribute.mean_limits()))
}

/// The exact H of a tally that is not void and holds enough.
pub fn exact_h(tally: &Tally) -> Option<ExactH> {
    worked_out(tally).map(|(attribute, figures)| ExactH::of(attribute, tally.card(), &figures))
}

/// The mean as the report prints it, void or not.
pub fn printed_mean(tally: &Tally) -> Option<Decimal> {
    reported(tally).map(|(attribute, figures)| mean(attribute, &figures))
}

/// The row that R is set against, where R is worked out and there is one.
pub fn row(tally: &Tally) -> Option<&Row> {
    let (attribute, figures) = worked_out(tally)?;
    row_for(attribute, tally.card(), &figures, &mean(attribute, &figures))
}

/// The five lines of a report, or 15.
pub fn text(tally: &Tally) -> Result<String, Refusal> {
    let (attribute, figures) = reported(tally).ok_or(Refusal::TooFew)?;
    let mut text = String::with_capacity(96);
    write_lines(&mut text, attribute, tally.card(), &figures).expect("a string takes all that is written");
    Ok(text)
}

fn write_lines(text: &mut String, attribute: Attribute, card: &Card, figures: &Figures) -> fmt::Result {
    let mean = mean(attribute, figures);
    writeln!(text, "N {}", figures.held)?;
    // MEAN has its mark where the lot is void too.
    writeln!(text, "MEAN {mean}{}", mark(mean_against(attribute, figures, mean.value)))?;
    // The limits are for the exact mean, the row is for the one printed.
    if !figures.mean_within(attribute.mean_limits()) {
        return text.write_str("H void\nR void\nLOT void\n");
    }
    let h = write_h(text, attribute, card, figures)?;
    let r = write_r(text, attribute, row_for(attribute, card, figures, &mean), figures)?;
    let lot = match (h, r) {
        (Verdict::Over, _) | (_, Verdict::Over) => "heterogeneous",
        (Verdict::Open, _) | (_, Verdict::Open) => "open",
        (Verdict::Kept, Verdict::Kept) => "even",
    };
    writeln!(text, "LOT {lot}")
}

/// The mean to its places, half up. X has places of its own, which count towards them.
fn mean(attribute: Attribute, figures: &Figures) -> Decimal {
    let places = attribute.mean_places(figures.held as usize);
    let scale = attribute.mean_scale(figures.held as usize);
    let [sum, held] = [figures.sum, figures.held].map(u128::from);
    Decimal { value: (2 * scale * sum + held) / (2 * held), places }
}

/// How the exact mean stands to a number of units of the printed mean's last place.
fn mean_against(attribute: Attribute, figures: &Figures, units: u128) -> Ordering {
    let [sum, held] = [figures.sum, figures.held].map(u128::from);
    (attribute.mean_scale(figures.held as usize) * sum).cmp(&(units * held))
}

/// The first row in sheet order with N within its bounds and a mean bound of at least the printed mean. All
/// places of that mean count: a bound is brought to them, as the mean brought to X's would be rounded again.
fn row_for<'a>(attribute: Attribute, card: &'a Card, figures: &Figures, mean: &Decimal) -> Option<&'a Row> {
    let held = figures.held as usize;
    let scale = attribute.mean_scale(held);
    card.rows().iter().find(|row| row.is_for(held) && mean.value <= u128::from(row.mean_bound) * scale)
}

fn write_h(
    text: &mut String,
    attribute: Attribute,
    card: &Card,
    figures: &Figures,
) -> Result<Verdict, fmt::Error> {
    let exact = ExactH::of(attribute, card, figures);
    let value = Decimal { value: exact.hundredths(), places: 2 };
    let mark = mark(exact.compare(value.value));
    let critical = card.criticals[figures.held as usize];
    // The verdict is the exact fraction's, not that of the value printed.
    let verdict = critical.map(|critical| Verdict::of(exact.compare(critical.into()).is_gt()));
    let limit = critical.map(|critical| Decimal { value: critical.into(), places: 2 });
    write_line(text, 'H', format_args!("{value}{mark}"), limit, verdict)
}

fn write_r(
    text: &mut String,
    attribute: Attribute,
    row: Option<&Row>,
    figures: &Figures,
) -> Result<Verdict, fmt::Error> {
    let places = attribute.places();
    let value = Decimal { value: figures.range().into(), places };
    let verdict = row.map(|row| Verdict::of(figures.range() > row.tolerated.into()));
    let limit = row.map(|row| Decimal { value: row.tolerated.into(), places });
    // R is not rounded, and has no mark.
    write_line(text, 'R', format_args!("{value}"), limit, verdict)
}

fn write_line(
    text: &mut String,
    name: char,
    value: fmt::Arguments,
    limit: Option<Decimal>,
    verdict: Option<Verdict>,
) -> Result<Verdict, fmt::Error> {
    match (limit, verdict) {
        (Some(limit), Some(verdict)) => {
            let word = if verdict == Verdict::Over { "over" } else { "kept" };
            writeln!(text, "{name} {value} {limit} {word}")?;
            Ok(verdict)
        }
        _ => {
            writeln!(text, "{name} {value} none open")?;
            Ok(Verdict::Open)
        }
    }
}

/// Lays the report into a lent buffer; 15 comes before 16.
pub fn report(tally: &Tally, buf: &mut [u8]) -> Result<usize, Refusal> {
    buffer::lay(text(tally)?.as_bytes(), buf)
}
