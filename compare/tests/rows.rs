//! The row for the range: found by the mean as the MEAN line shows it, while void goes by the exact mean.

use compare::card::{Card, Lot, Row};
use compare::report;
use compare::tally::Tally;

const PURITY: u16 = 0;
const GERMINATION: u16 = 1;
const COUNT: u16 = 2;

/// The tally of a lot with the given results, and rows for any number of them. The first row tolerates 1,
/// the next 2, and so on.
fn tally(attribute: u16, xs: &[u16], bounds: &[u16]) -> Tally {
    let seeds = if attribute == COUNT { 0 } else { 1_000 };
    let mut card = Card { factor: 10, offset: 10, seeds, row_count: bounds.len(), ..Card::default() };
    for ((place, &mean_bound), tolerated) in card.places.iter_mut().zip(bounds).zip(1..) {
        *place = Row { lowest: 5, highest: 200, mean_bound, tolerated };
    }
    let mut tally = Tally::fresh();
    tally.open(&Lot { attribute, containers: 200 }, &card).expect("a good lot and card");
    for (container, &x) in (1..).zip(xs) {
        tally.enter(container, x).expect("a good result");
    }
    tally
}

/// What the report has behind MEAN, its mark aside, and behind R and its value.
fn mean_and_row(attribute: u16, xs: &[u16], bounds: &[u16]) -> (String, String) {
    let text = report::text(&tally(attribute, xs, bounds)).expect("enough results");
    let words: Vec<Vec<&str>> = text.lines().map(|line| line.split(' ').collect()).collect();
    let mean = words[1][1].trim_end_matches(['=', '+', '-']);
    (mean.into(), words[3].get(2).copied().unwrap_or("void").into())
}

/// `held` results of `whole`, the last of them so much higher or lower.
fn results(held: usize, whole: u16, more: i16) -> Vec<u16> {
    let mut xs = vec![whole; held];
    xs[held - 1] = whole.checked_add_signed(more).expect("an X");
    xs
}

/// Results close to a whole number, the rows' bounds, and what the report has for MEAN and the tolerated R.
#[track_caller]
fn report_as(attribute: u16, (held, whole, more): (usize, u16, i16), bounds: &[u16], mean: &str, row: &str) {
    let shown = mean_and_row(attribute, &results(held, whole, more), bounds);
    assert_eq!(shown, (mean.into(), row.into()));
}

#[test]
fn below_ten_results_two_places_decide() {
    for attribute in [PURITY, GERMINATION] {
        report_as(attribute, (5, 9_800, 2), &[9_800], "98.00", "0.01"); // 98.004
        report_as(attribute, (5, 9_800, 2), &[9_799], "98.00", "none");
        report_as(attribute, (5, 9_800, 3), &[9_800], "98.01", "none"); // 98.006
        report_as(attribute, (6, 9_800, 3), &[9_800], "98.01", "none"); // 98.005: half goes up
        report_as(attribute, (6, 9_800, 3), &[9_801], "98.01", "0.01");
        report_as(attribute, (9, 9_800, 4), &[9_800], "98.00", "0.01"); // 98.0044..
        report_as(attribute, (9, 9_800, 5), &[9_800], "98.01", "none"); // 98.0055..
        // A mean that is rounded up to a bound lies below it anyway.
        report_as(attribute, (5, 9_800, -2), &[9_800], "98.00", "0.01"); // 97.996
        report_as(attribute, (5, 9_800, -2), &[9_799], "98.00", "none");
    }
}

#[test]
fn from_ten_results_three_places_decide() {
    for attribute in [PURITY, GERMINATION] {
        report_as(attribute, (10, 9_800, 4), &[9_800], "98.004", "none");
        report_as(attribute, (10, 9_800, 4), &[9_801], "98.004", "0.01");
        report_as(attribute, (10, 9_800, 0), &[9_800], "98.000", "0.01");
        report_as(attribute, (10, 9_800, 1), &[9_800], "98.001", "none");
        report_as(attribute, (19, 9_800, 1), &[9_800], "98.001", "none"); // 98.00053
        report_as(attribute, (20, 9_800, 1), &[9_800], "98.001", "none"); // 98.0005: half goes up
        report_as(attribute, (21, 9_800, 1), &[9_800], "98.000", "0.01"); // 98.00048
        report_as(attribute, (40, 9_800, 2), &[9_800], "98.001", "none"); // 98.0005
        report_as(attribute, (41, 9_800, 2), &[9_800], "98.000", "0.01"); // 98.00049
        report_as(attribute, (60, 9_800, 2), &[9_800], "98.000", "0.01"); // 98.00033
        report_as(attribute, (60, 9_800, 3), &[9_800], "98.001", "none"); // 98.0005
        report_as(attribute, (200, 9_800, 9), &[9_800], "98.000", "0.01"); // 98.00045
        report_as(attribute, (200, 9_800, 10), &[9_800], "98.001", "none"); // 98.0005
    }
}

#[test]
fn counts_are_never_rounded_down_to_a_bound() {
    report_as(COUNT, (6, 10, 1), &[10], "10.2", "none"); // 61 seeds
    report_as(COUNT, (6, 10, 1), &[11], "10.2", "1");
    report_as(COUNT, (9, 10, 1), &[10], "10.1", "none");
    report_as(COUNT, (9, 10, 0), &[10], "10.0", "1");
    report_as(COUNT, (60, 10, 1), &[10], "10.02", "none");
    report_as(COUNT, (60, 10, -1), &[10], "9.98", "1");
    report_as(COUNT, (200, 10, 1), &[10], "10.01", "none"); // 10.005
    report_as(COUNT, (200, 10, -1), &[10], "10.00", "1"); // 9.995
}

#[test]
fn the_first_row_in_sheet_order_is_taken() {
    report_as(PURITY, (5, 9_800, 2), &[9_800, 9_801], "98.00", "0.01");
    report_as(PURITY, (5, 9_800, 2), &[9_799, 9_800, 9_801], "98.00", "0.02");
    report_as(PURITY, (5, 9_800, 2), &[10_000, 9_800], "98.00", "0.01");
    report_as(PURITY, (10, 9_800, 4), &[9_800, 9_801], "98.004", "0.02");
}

/// The number of results has to be within the row's bounds, whatever the mean.
#[test]
fn the_row_is_for_its_numbers_of_results() {
    let mut card = *tally(PURITY, &[], &[9_800, 9_800, 9_800]).card();
    (card.places[0].highest, card.places[1].lowest, card.places[2].lowest) = (5, 7, 6);
    let mut tally = Tally::fresh();
    tally.open(&Lot { attribute: PURITY, containers: 200 }, &card).expect("a good lot and card");
    for (container, row) in (1..=8).zip([None, None, None, None, Some(1), Some(3), Some(2), Some(2)]) {
        tally.enter(container, 9_800).expect("a good result");
        assert_eq!(report::row(&tally).map(|row| row.tolerated), row);
    }
}

#[test]
fn void_goes_by_the_exact_mean() {
    report_as(PURITY, (5, 9_980, 0), &[9_980], "99.80", "0.01");
    report_as(PURITY, (5, 9_980, 2), &[9_980], "99.80", "void"); // 99.804
    report_as(PURITY, (60, 9_980, 1), &[9_980], "99.800", "void");
    report_as(PURITY, (5, 20, 0), &[20], "0.20", "0.01");
    report_as(PURITY, (5, 20, -1), &[20], "0.20", "void"); // 0.198
    report_as(PURITY, (60, 20, -1), &[20], "0.200", "void");
    report_as(GERMINATION, (5, 9_900, 2), &[9_900], "99.00", "void");
    report_as(GERMINATION, (5, 100, -2), &[100], "1.00", "void");
    report_as(COUNT, (60, 2, -1), &[2], "1.98", "void");
    report_as(COUNT, (200, 2, -1), &[2], "2.00", "void"); // 1.995
    let five = report::text(&tally(PURITY, &results(5, 9_980, 2), &[9_980]));
    assert_eq!(five, Ok("N 5\nMEAN 99.80+\nH void\nR void\nLOT void\n".into()));
}

/// For each number of results, and means on either side of a bound: the digits of the MEAN line, read as they
/// stand, say whether the row serves.
#[test]
fn the_printed_digits_decide() {
    for (attribute, whole, places) in [(PURITY, 9_800, 2), (GERMINATION, 5_000, 2), (COUNT, 70, 0)] {
        for held in 5..=200 {
            for more in -61..=61 {
                let (mean, row) = mean_and_row(attribute, &results(held, whole, more), &[whole]);
                let (_, fraction) = mean.split_once('.').expect("a mean has a point");
                let digits: u64 = mean.replace('.', "").parse().expect("digits");
                let bound = u64::from(whole) * 10u64.pow(fraction.len() as u32 - places);
                assert_eq!(row != "none", digits <= bound, "{attribute} {held} {more}: {mean}");
            }
        }
    }
}
