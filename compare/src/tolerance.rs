//! Tolerances for counts of weed seeds: tables 14G and 14H of document 004.

use crate::refusal::Refusal;

/// Table 14G: column B for each number labelled, 0 to 100.
#[rustfmt::skip]
const TABLE_14G: [u32; 101] = [
    2, 2, 4, 5, 7, 8, 9, 11, 12, 13,
    14, 16, 17, 18, 19, 21, 22, 23, 24, 25,
    27, 28, 29, 30, 31, 32, 34, 35, 36, 37,
    38, 39, 41, 42, 43, 44, 45, 46, 47, 49,
    50, 51, 52, 53, 54, 55, 56, 58, 59, 60,
    61, 62, 63, 64, 65, 67, 68, 69, 70, 71,
    72, 73, 74, 75, 76, 78, 79, 80, 81, 82,
    83, 84, 85, 86, 87, 89, 90, 91, 92, 93,
    94, 95, 96, 97, 98, 99, 101, 102, 103, 104,
    105, 106, 107, 108, 109, 110, 111, 112, 114, 115,
    116,
];

/// Table 14H: the highest average of each row and column B. The first row begins at 3,
/// each other one behind the row before it.
#[rustfmt::skip]
const TABLE_14H: [(u64, u64); 58] = [
    (3, 5), (4, 6), (6, 7), (8, 8), (10, 9), (13, 10), (15, 11), (18, 12),
    (22, 13), (25, 14), (29, 15), (33, 16), (37, 17), (42, 18), (47, 19), (52, 20),
    (57, 21), (63, 22), (69, 23), (75, 24), (81, 25), (88, 26), (95, 27), (102, 28),
    (110, 29), (117, 30), (125, 31), (133, 32), (142, 33), (151, 34), (160, 35), (169, 36),
    (178, 37), (188, 38), (198, 39), (209, 40), (219, 41), (230, 42), (241, 43), (252, 44),
    (264, 45), (276, 46), (288, 47), (300, 48), (313, 49), (326, 50), (339, 51), (353, 52),
    (366, 53), (380, 54), (394, 55), (409, 56), (424, 57), (439, 58), (454, 59), (469, 60),
    (485, 61), (501, 62),
];

/// Table 14G: whether the number found is within tolerance of the number labelled. Not inlined, since the library's call, whose time is
/// set against it, cannot be.
#[inline(never)]
pub fn label(labelled: u32, found: u32) -> Result<bool, Refusal> {
    let column_b = usize::try_from(labelled).ok().and_then(|row| TABLE_14G.get(row));
    column_b.map(|&most| found <= most).ok_or(Refusal::OutsideTable)
}

/// Table 14H: whether two tests are within tolerance of each other.
pub fn pair(first: u32, second: u32) -> Result<bool, Refusal> {
    let average = (u64::from(first) + u64::from(second)).div_ceil(2);
    let difference = u64::from(first.abs_diff(second));
    if average <= 2 {
        return Ok(true);
    }
    let row = TABLE_14H.iter().find(|(highest, _)| average <= *highest);
    row.map(|&(_, most)| difference <= most).ok_or(Refusal::OutsideTable)
}

#[cfg(test)]
mod tests {
    use super::*;

    #[test]
    fn marked_cases_9_and_10() {
        assert_eq!(pair(4, 10), Ok(true));
        assert_eq!(pair(0, 5), Ok(true));
        assert_eq!(pair(0, 6), Ok(false));
        assert_eq!(label(4, 7), Ok(true));
        assert_eq!(label(4, 9), Ok(false));
    }

    #[test]
    fn the_tables_rise() {
        assert!(TABLE_14G.is_sorted());
        assert!(TABLE_14H.windows(2).all(|rows| rows[0].0 < rows[1].0 && rows[0].1 < rows[1].1));
        assert_eq!(TABLE_14H[57], (501, 62));
    }

    #[test]
    fn outside_the_tables() {
        assert_eq!(label(101, 0), Err(Refusal::OutsideTable));
        assert_eq!(label(u32::MAX, u32::MAX), Err(Refusal::OutsideTable));
        assert_eq!(pair(501, 501), Ok(true));
        assert_eq!(pair(501, 502), Err(Refusal::OutsideTable));
        assert_eq!(pair(u32::MAX, u32::MAX), Err(Refusal::OutsideTable));
    }
}
