//! Mixing: 002, 10.3 as document 01 sets it down.

use crate::refusal::Refusal;

/// Whether component lots may be mixed: their range is at most the tolerated one.
pub fn mixable(results: &[u32], tolerated: u32) -> Result<bool, Refusal> {
    let range = match (results.iter().min(), results.iter().max()) {
        (Some(smallest), Some(largest)) if (2..=60).contains(&results.len()) => largest - smallest,
        _ => return Err(Refusal::OutsideTable),
    };
    if results.iter().any(|&x| x > 10_000) {
        return Err(Refusal::ResultTooHigh);
    }
    Ok(range <= tolerated)
}

#[cfg(test)]
mod tests {
    use super::*;

    #[test]
    fn the_length_comes_before_the_values() {
        assert_eq!(mixable(&[], 0), Err(Refusal::OutsideTable));
        assert_eq!(mixable(&[10_001], 0), Err(Refusal::OutsideTable));
        assert_eq!(mixable(&[10_001; 61], 0), Err(Refusal::OutsideTable));
        assert_eq!(mixable(&[10_001; 60], 0), Err(Refusal::ResultTooHigh));
        assert_eq!(mixable(&[10_000; 60], 0), Ok(true));
        assert_eq!(mixable(&[0, u32::MAX], 0), Err(Refusal::ResultTooHigh));
    }

    #[test]
    fn the_tolerated_range_is_itself_mixable() {
        assert_eq!(mixable(&[9_000, 9_100, 9_050], 100), Ok(true));
        assert_eq!(mixable(&[9_000, 9_101, 9_050], 100), Ok(false));
    }
}
