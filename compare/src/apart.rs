//! Reports that show what a program goes by: where the printed mean and the exact one part, and where H and the critical value print
//! equal, so that the mark tells the verdict.

use std::cmp::Ordering;

use crate::card::Attribute;
use crate::report;
use crate::tally::Tally;

/// How many reports were looked at, how many of them would be others by the other mean, and how many have equal figures.
#[derive(Clone, Copy, Debug, Default, PartialEq, Eq)]
pub struct Apart {
    pub reports: usize,
    /// Those with a row that the exact mean would miss.
    pub rows: usize,
    /// Those that are void though the printed mean is within the limits.
    pub voids: usize,
    /// Those with an H that prints as the critical value does: exact H below it, equal to it, above it.
    pub equal: [usize; 3],
}

impl Apart {
    /// Looks at the report of a tally, where it holds enough for one.
    pub fn look_at(&mut self, tally: &Tally) {
        self.reports += usize::from(report::printed_mean(tally).is_some());
        self.rows += usize::from(in_row(tally));
        self.voids += usize::from(in_void(tally));
        for (times, side) in self.equal.iter_mut().zip([Ordering::Less, Ordering::Equal, Ordering::Greater]) {
            *times += usize::from(equal_figures(tally) == Some(side));
        }
    }
}

/// Whether the exact mean would give another tolerated R than the report's, or none. The report has a row
/// then: one that serves the exact mean serves the printed one too, as a bound has no more places than that.
pub fn in_row(tally: &Tally) -> bool {
    let held = tally.held().len();
    let sum: usize = tally.held().iter().map(|held| usize::from(held.x)).sum();
    let mut rows = tally.card().rows().iter().filter(|row| row.is_for(held));
    let exact = rows.find(|row| sum <= usize::from(row.mean_bound) * held);
    report::row(tally).is_some_and(|row| exact.is_none_or(|exact| exact.tolerated != row.tolerated))
}

/// Whether the report is void, though it would not be by the printed mean.
pub fn in_void(tally: &Tally) -> bool {
    let attribute = Attribute::of(tally.lot().attribute);
    let (Some(attribute), Some(mean)) = (attribute, report::printed_mean(tally)) else { return false };
    let scale = attribute.mean_scale(tally.held().len());
    let (least, greatest) = attribute.mean_limits();
    let within = u128::from(least) * scale..=u128::from(greatest) * scale;
    report::exact_h(tally).is_none() && within.contains(&mean.value)
}

/// How exact H stands to the critical value, where both print equal.
pub fn equal_figures(tally: &Tally) -> Option<Ordering> {
    let h = report::exact_h(tally)?;
    let critical = tally.card().criticals[tally.held().len()]?.into();
    (h.hundredths() == critical).then(|| h.compare(critical))
}
