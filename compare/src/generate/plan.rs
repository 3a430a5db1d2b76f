//! A plan: the values of a sheet before they are written, good ones or not.

use crate::card::{Card, HIGHEST_X, Lot, MOST_ON_CARD, MOST_ROWS, Row};
use crate::generate::entry::{Balance, Entry};
use crate::generate::weighings;
use crate::prng::Prng;
use crate::report;
use crate::sheet::Frame;
use crate::tally::{MOST_HELD, Tally};

/// Numbers of containers in a lot that lie at some limit.
const LOT_SIZES: [u16; 12] = [1, 4, 5, 6, 15, 40, 60, MOST_ON_CARD, MOST_ON_CARD + 1, 255, 256, 65_535];

#[derive(Clone, Debug)]
pub struct Plan {
    pub lot: Lot,
    pub factor: u16,
    pub offset: u16,
    pub seeds: u16,
    /// N and value, in sheet order.
    pub criticals: Vec<(u16, u16)>,
    pub rows: Vec<Row>,
    /// In sheet order.
    pub results: Vec<Entry>,
    /// What the 06 frame says where it is not the number of results.
    pub count: Option<u16>,
}

impl Plan {
    /// A good plan with the given number of results and no critical values or rows.
    pub fn with_results(prng: &mut Prng, held: usize) -> Self {
        let attribute = prng.below(3) as u16;
        Self::of_attribute(prng, attribute, held)
    }

    fn of_attribute(prng: &mut Prng, attribute: u16, held: usize) -> Self {
        let least = held.max(1) as u16;
        let containers = match prng.below(3) {
            0 => prng.near(&LOT_SIZES).max(least),
            1 => least,
            _ => prng.within(least..=65_535),
        };
        let seeds = match attribute {
            2 => 0,
            _ if prng.once_in(2) => prng.pick(&[1, 2, 100, 400, 999, 1_000]),
            _ => prng.within(1..=1_000),
        };
        let mut plan = Self {
            lot: Lot { attribute, containers },
            factor: card_tenths(prng, 10),
            offset: card_tenths(prng, 0),
            seeds,
            criticals: Vec::new(),
            rows: Vec::new(),
            results: Vec::new(),
            count: None,
        };
        let sum = plan.some_sum(prng, held);
        let xs = spread(prng, held, sum);
        let containers = containers_for(prng, containers, held);
        plan.results =
            containers.into_iter().zip(xs).map(|(container, x)| Entry::entered(container, x)).collect();
        plan
    }

    /// A good plan with critical values and rows that lie close to what the report works out.
    pub fn judged(prng: &mut Prng, held: usize) -> Self {
        let mut plan = Self::with_results(prng, held);
        plan.add_card(prng);
        plan
    }

    /// The same of purity, with some or all of the results weighed.
    pub fn weighed(prng: &mut Prng, held: usize) -> Self {
        let mut plan = Self::of_attribute(prng, 0, held);
        let times = prng.pick(&[1, 1, 2, 5]);
        let balances: [Balance; 4] =
            [weighings::of_share, weighings::of_share, weighings::of_share, weighings::accepted];
        let balance = prng.pick(&balances);
        plan.weigh(prng, times, balance);
        plan.add_card(prng);
        plan
    }

    /// A plan of counts or shares whose exact H is a whole or a half number of hundredths, where a
    /// few tries find one.
    pub fn exact(prng: &mut Prng) -> Self {
        let mut plan = Self::judged(prng, 5);
        for _ in 0..64 {
            let held = prng.pick(&[5, 5, 6, 8, 9, 10, 16, 20, 25, 40, 50]);
            plan = Self::with_results(prng, held);
            plan.factor = prng.pick(&[10, 16, 20, 25, 32, 40, 50]);
            let (low, high, seeds) = match plan.lot.attribute {
                2 => (prng.within(0..=6), prng.within(4..=20), 0),
                _ => (
                    prng.pick(&[2_000, 4_000, 5_000]),
                    prng.pick(&[6_000, 8_000, 10_000]),
                    prng.within(1..=4),
                ),
            };
            plan.seeds = seeds;
            let highs = prng.below(held) + 1;
            for (place, entry) in plan.results.iter_mut().enumerate() {
                *entry = Entry::entered(entry.container, if place < highs { high } else { low });
            }
            let exact = plan.tally().and_then(|tally| report::exact_h(&tally));
            if exact.is_some_and(|h| h.numerator > 0 && 2 * h.numerator % h.denominator == 0) {
                break;
            }
        }
        plan.add_criticals(prng);
        let rows = prng.below(4);
        plan.add_rows(prng, rows);
        plan
    }

    /// A plan whose mean is a whole number of X's units, often a limit for void, or lies about as far from it
    /// as the rounding of the printed mean reaches. Its rows have that number for a bound, or one close by.
    pub fn close(prng: &mut Prng) -> Self {
        let attribute = prng.pick(&[0, 0, 1, 1, 2]);
        let held = prng.pick(&[5, 6, 7, 8, 9, 10, 19, 20, 21, 39, 40, 41, 60, 100, MOST_HELD - 1, MOST_HELD]);
        let mut plan = Self::of_attribute(prng, attribute, held);
        let limits = [[20, 9_980], [100, 9_900], [2, 2]][usize::from(attribute)];
        let whole = if prng.once_in(3) { prng.pick(&limits) } else { prng.within(0..=HIGHEST_X) };
        let sum = close_sum(prng, held, whole);
        let xs = spread(prng, held, sum);
        for (entry, x) in plan.results.iter_mut().zip(xs) {
            *entry = Entry::entered(entry.container, x);
        }
        plan.add_criticals(prng);
        let rows = prng.below(4) + 1;
        plan.add_rows(prng, rows);
        for row in &mut plan.rows {
            row.mean_bound = prng.near(&[whole, whole, whole + 1]).min(HIGHEST_X);
        }
        plan
    }

    /// The largest good sheet that is written: every critical value, and the most rows and results.
    pub fn full(prng: &mut Prng) -> Self {
        Self::filled(prng, MOST_HELD)
    }

    /// A good sheet with so many results, a critical value for each N up to that, and the most rows.
    pub fn filled(prng: &mut Prng, held: usize) -> Self {
        let mut plan = Self::with_results(prng, held);
        plan.fill_card(prng, held as u16);
        plan
    }

    /// The largest good sheet that is read: the same with all results weighed.
    pub fn full_weighed(prng: &mut Prng) -> Self {
        Self::filled_weighed(prng, MOST_HELD)
    }

    /// A good sheet of so many weighed results, with such a card.
    pub fn filled_weighed(prng: &mut Prng, held: usize) -> Self {
        let mut plan = Self::of_attribute(prng, 0, held);
        plan.weigh(prng, 1, weighings::of_share);
        plan.fill_card(prng, held as u16);
        plan
    }

    /// Has the results weighed, one in `times` of them.
    pub fn weigh(&mut self, prng: &mut Prng, times: usize, balance: Balance) {
        for entry in &mut self.results {
            if prng.once_in(times) {
                *entry = Entry::weighed(entry.container, balance(prng, entry.x()));
            }
        }
    }

    /// Adds critical values, and no, some or many rows.
    fn add_card(&mut self, prng: &mut Prng) {
        self.add_criticals(prng);
        let rows = match prng.below(4) {
            0 => 0,
            1 => prng.below(MOST_ROWS + 1),
            _ => prng.below(6),
        };
        self.add_rows(prng, rows);
    }

    /// Adds every critical value for up to so many results, and the most rows.
    fn fill_card(&mut self, prng: &mut Prng, most: u16) {
        self.add_criticals(prng);
        let near = self.criticals.clone();
        self.criticals = (5..=most)
            .map(|n| (n, near.iter().find(|critical| critical.0 == n).map_or(n * 7, |critical| critical.1)))
            .collect();
        self.add_rows(prng, MOST_ROWS);
    }

    /// A sum of X for `held` results, often one at a limit of the mean.
    fn some_sum(&self, prng: &mut Prng, held: usize) -> usize {
        let most = held * usize::from(HIGHEST_X);
        let limits: &[usize] = match self.lot.attribute {
            0 => &[20, 9_980, 20, 9_980, 0, 10_000],
            1 => &[100, 9_900, 100, 9_900, 0, 10_000],
            _ => &[2, 2, 2, 2, 3, 10_000],
        };
        let sum = match prng.below(5) {
            0 | 1 => (held * prng.pick(limits) + prng.below(5)).saturating_sub(2),
            2 => prng.below(most + 1),
            3 if self.lot.attribute == 2 => prng.below(20 * held + 1),
            _ => most - prng.below(most / 20 + 1),
        };
        sum.min(most)
    }

    /// Adds critical values around N, that for N close to the exact H.
    pub fn add_criticals(&mut self, prng: &mut Prng) {
        let held = self.results.len() as u16;
        let exact = self.tally().and_then(|tally| report::exact_h(&tally));
        let value = exact.map_or(0, |h| h.hundredths().min(65_535)) as u16;
        let close = match prng.below(8) {
            0 => value.saturating_sub(1),
            1 => value.saturating_add(1),
            2 => prng.pick(&[0, 1, 65_534, 65_535]),
            _ => value,
        };
        let mut ns: Vec<u16> = (5..=MOST_ON_CARD).filter(|_| prng.once_in(24)).collect();
        if !prng.once_in(6) {
            ns.extend(
                [held.saturating_sub(1), held, held + 1]
                    .into_iter()
                    .filter(|n| (5..=MOST_ON_CARD).contains(n)),
            );
        }
        if prng.once_in(8) {
            ns.retain(|&n| n != held);
        }
        ns.sort_unstable();
        ns.dedup();
        self.criticals =
            ns.into_iter().map(|n| (n, if n == held { close } else { prng.draw() as u16 })).collect();
    }

    /// Adds rows whose bounds lie close to N, the mean and R.
    pub fn add_rows(&mut self, prng: &mut Prng, rows: usize) {
        let held = (self.results.len() as u16).clamp(5, MOST_ON_CARD);
        let xs = || self.results.iter().map(Entry::x);
        let sum: usize = xs().map(usize::from).sum();
        let mean = (sum / self.results.len().max(1)) as u16;
        let range = xs().max().unwrap_or(0) - xs().min().unwrap_or(0);
        self.rows = (0..rows)
            .map(|_| {
                let lowest =
                    prng.pick(&[5, held - 1, held, held, held + 1, MOST_ON_CARD]).clamp(5, MOST_ON_CARD);
                let highest =
                    prng.pick(&[5, held - 1, held, held + 1, 60, MOST_ON_CARD]).clamp(lowest, MOST_ON_CARD);
                let mean_bound =
                    prng.pick(&[mean.saturating_sub(1), mean, mean, mean.saturating_add(1), 0, HIGHEST_X]);
                let tolerated = prng.pick(&[
                    range.saturating_sub(1),
                    range,
                    range,
                    range.saturating_add(1),
                    0,
                    65_535,
                    other_range(range),
                ]);
                Row { lowest, highest, mean_bound: mean_bound.min(HIGHEST_X), tolerated }
            })
            .collect();
    }

    /// The frames in order.
    pub fn frames(&self) -> Vec<Frame> {
        let mut frames = vec![
            Frame::Lot(self.lot),
            Frame::Card { factor: self.factor, offset: self.offset, seeds: self.seeds },
        ];
        frames.extend(self.criticals.iter().map(|&(n, value)| Frame::Critical { n, value }));
        frames.extend(self.rows.iter().map(|&row| Frame::Range(row)));
        frames.extend(self.results.iter().map(Entry::frame));
        frames.push(Frame::End { count: self.count.unwrap_or(self.results.len() as u16) });
        frames
    }

    pub fn sheet(&self) -> Vec<u8> {
        let mut sheet = Vec::new();
        self.frames().iter().for_each(|frame| frame.write(&mut sheet));
        sheet
    }

    /// The card as a call gives it; rows past the 96th have no place.
    pub fn card(&self) -> Card {
        let mut card = Card {
            factor: self.factor,
            offset: self.offset,
            seeds: self.seeds,
            row_count: self.rows.len(),
            ..Card::default()
        };
        for &(n, value) in &self.criticals {
            if let Some(critical) = card.criticals.get_mut(usize::from(n)) {
                *critical = Some(value.into());
            }
        }
        card.places.iter_mut().zip(&self.rows).for_each(|(place, row)| *place = *row);
        card
    }

    /// The tally of a good plan.
    pub fn tally(&self) -> Option<Tally> {
        let mut tally = Tally::fresh();
        tally.open(&self.lot, &self.card()).ok()?;
        for entry in &self.results {
            entry.enter(&mut tally).ok()?;
        }
        Some(tally)
    }
}

/// A value of F or G, often at a limit.
fn card_tenths(prng: &mut Prng, least: u16) -> u16 {
    if prng.once_in(2) { prng.pick(&[least, 10, 11, 12, 14, 22, 50]) } else { prng.within(least..=50) }
}

/// Another tolerated range that is not close to the range itself.
fn other_range(range: u16) -> u16 {
    range / 2 + 37
}

/// A sum of X whose mean is the given number, or lies about as far from it as rounding reaches: half of the
/// last place that a percentage prints, which is the unit of X and from ten results a tenth of it.
fn close_sum(prng: &mut Prng, held: usize, whole: u16) -> usize {
    let sum = held * usize::from(whole);
    let reach = if held < 10 { held / 2 } else { held / 20 };
    let away = prng.pick(&[0, 1, reach.saturating_sub(1), reach, reach + 1]);
    let most = held * usize::from(HIGHEST_X);
    if prng.once_in(3) { sum.saturating_sub(away) } else { (sum + away).min(most) }
}

/// `held` values of X with the given sum, spread more or less widely.
fn spread(prng: &mut Prng, held: usize, sum: usize) -> Vec<u16> {
    if held == 0 {
        return Vec::new();
    }
    let mut xs: Vec<u16> =
        (0..held).map(|place| (sum / held + usize::from(place < sum % held)) as u16).collect();
    let step = prng.pick(&[0, 1, 3, 20, 100, 500, HIGHEST_X]);
    for _ in 0..2 * held {
        let (from, to) = (prng.below(held), prng.below(held));
        let moved = prng.within(0..=step).min(xs[from]).min(HIGHEST_X - xs[to]);
        if from != to {
            xs[from] -= moved;
            xs[to] += moved;
        }
    }
    prng.shuffle(&mut xs);
    xs
}

/// Different containers of a lot, in some order, often the first and the last among them.
fn containers_for(prng: &mut Prng, containers: u16, held: usize) -> Vec<u16> {
    let mut taken = Vec::with_capacity(held);
    for preferred in [1, containers] {
        if taken.len() < held && !taken.contains(&preferred) && prng.once_in(2) {
            taken.push(preferred);
        }
    }
    while taken.len() < held {
        let start = prng.within(1..=containers);
        // The next one that is not taken, from a random start.
        let free = (start..=containers).chain(1..start).find(|container| !taken.contains(container));
        taken.push(free.expect("a lot has at least as many containers as are wanted"));
    }
    match prng.below(3) {
        0 => taken.sort_unstable(),
        1 => taken.sort_unstable_by(|left, right| right.cmp(left)),
        _ => prng.shuffle(&mut taken),
    }
    taken
}
