//! Lot and card: the values that come before the results, and what makes them bad.

use crate::refusal::Refusal;

/// Fewest and most results that a critical value or a range row can be for.
pub const FEWEST_ON_CARD: u16 = 5;
pub const MOST_ON_CARD: u16 = 200;
/// Most range rows on a card.
pub const MOST_ROWS: usize = 96;
/// 100 percent in hundredths; also the highest X and the highest mean bound for counts.
pub const HIGHEST_X: u16 = 10_000;

/// What was measured in each container.
#[derive(Clone, Copy, Debug, PartialEq, Eq)]
pub enum Attribute {
    Purity,
    Germination,
    Count,
}

impl Attribute {
    /// The attribute of a lot frame's number.
    pub fn of(number: u16) -> Option<Self> {
        match number {
            0 => Some(Self::Purity),
            1 => Some(Self::Germination),
            2 => Some(Self::Count),
            _ => None,
        }
    }

    pub fn is_percentage(self) -> bool {
        self != Self::Count
    }

    /// The least and greatest mean, in units of X, for which H and R are worked out.
    pub fn mean_limits(self) -> (u64, u64) {
        match self {
            Self::Purity => (20, 9_980),
            Self::Germination => (100, 9_900),
            Self::Count => (2, u64::MAX),
        }
    }

    /// Decimal places of a single X.
    pub fn places(self) -> u32 {
        if self.is_percentage() { 2 } else { 0 }
    }

    /// Decimal places of the mean of `held` results.
    pub fn mean_places(self, held: usize) -> u32 {
        let places = if self.is_percentage() { 2 } else { 1 };
        if held < 10 { places } else { places + 1 }
    }

    /// How many units of the last place of the mean of `held` results one unit of X has.
    pub fn mean_scale(self, held: usize) -> u128 {
        10u128.pow(self.mean_places(held) - self.places())
    }
}

/// A lot as given: the attribute is still a number, since a call can give any.
#[derive(Clone, Copy, Debug, Default, PartialEq, Eq)]
pub struct Lot {
    pub attribute: u16,
    /// N0, the containers in the lot.
    pub containers: u16,
}

impl Lot {
    /// The attribute, or 3 where the lot is bad.
    pub fn check(&self) -> Result<Attribute, Refusal> {
        match Attribute::of(self.attribute) {
            Some(attribute) if self.containers != 0 => Ok(attribute),
            _ => Err(Refusal::BadLot),
        }
    }
}

/// A range row: for `lowest` to `highest` results with a printed mean of at most `mean_bound`.
#[derive(Clone, Copy, Debug, Default, PartialEq, Eq)]
pub struct Row {
    pub lowest: u16,
    pub highest: u16,
    pub mean_bound: u16,
    pub tolerated: u16,
}

impl Row {
    pub fn is_good(&self) -> bool {
        FEWEST_ON_CARD <= self.lowest
            && self.lowest <= self.highest
            && self.highest <= MOST_ON_CARD
            && self.mean_bound <= HIGHEST_X
    }

    /// Whether the row is for so many results, whatever their mean.
    pub fn is_for(&self, held: usize) -> bool {
        (usize::from(self.lowest)..=usize::from(self.highest)).contains(&held)
    }
}

/// A card as given. Critical values are kept by their N, so that they always rise;
/// they are wider than a frame's field because a call can give any number.
#[derive(Clone, Copy, Debug)]
pub struct Card {
    /// F, the factor f in tenths.
    pub factor: u16,
    /// G, what is subtracted from V/W, in tenths.
    pub offset: u16,
    /// n, the seeds tested per sample.
    pub seeds: u16,
    pub criticals: [Option<u32>; MOST_ON_CARD as usize + 1],
    /// How many of the places below are in use; a call can give any number.
    pub row_count: usize,
    pub places: [Row; MOST_ROWS],
}

impl Default for Card {
    fn default() -> Self {
        Self {
            factor: 0,
            offset: 0,
            seeds: 0,
            criticals: [None; MOST_ON_CARD as usize + 1],
            row_count: 0,
            places: [Row::default(); MOST_ROWS],
        }
    }
}

/// Two cards are the same when all their values are, places past the last row aside.
impl PartialEq for Card {
    fn eq(&self, other: &Self) -> bool {
        (self.factor, self.offset, self.seeds) == (other.factor, other.offset, other.seeds)
            && self.criticals == other.criticals
            && self.row_count == other.row_count
            && self.rows() == other.rows()
    }
}

impl Eq for Card {}

impl Card {
    /// The rows in use, in sheet order.
    pub fn rows(&self) -> &[Row] {
        &self.places[..self.row_count.min(MOST_ROWS)]
    }

    /// F, G and n, which the card frame carries.
    pub fn head_is_good(&self, attribute: Attribute) -> bool {
        let seeds_good =
            if attribute.is_percentage() { (1..=1_000).contains(&self.seeds) } else { self.seeds == 0 };
        (10..=50).contains(&self.factor) && self.offset <= 50 && seeds_good
    }

    /// The number, if any, for which an open with this card is refused.
    pub fn check(&self, attribute: Attribute) -> Result<(), Refusal> {
        let critical_good = |(n, critical): (u16, &Option<u32>)| match critical {
            None => true,
            // A value that four digits cannot carry is no critical value of any frame.
            Some(value) => is_critical_n(n) && *value <= u32::from(u16::MAX),
        };
        let criticals_good = (0..).zip(&self.criticals).all(critical_good);
        if !self.head_is_good(attribute) || !criticals_good || !self.rows().iter().all(Row::is_good) {
            Err(Refusal::BadCard)
        } else if self.row_count > MOST_ROWS {
            Err(Refusal::CardFull)
        } else {
            Ok(())
        }
    }
}

/// Whether a critical value can be for `n` results.
pub fn is_critical_n(n: u16) -> bool {
    (FEWEST_ON_CARD..=MOST_ON_CARD).contains(&n)
}
