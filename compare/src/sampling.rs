//! Primary samples: 000, 2.5.1.2 as document 01 sets it down.

use crate::refusal::Refusal;

/// The number of primary samples from `containers` containers of `kilograms` whole kg each.
pub fn samples(containers: u32, kilograms: u32) -> Result<u64, Refusal> {
    let known = 1..=65_535;
    if !known.contains(&containers) || !known.contains(&kilograms) {
        return Err(Refusal::OutsideTable);
    }
    let [containers, kilograms] = [containers, kilograms].map(u64::from);
    Ok(match kilograms {
        // Small containers are taken together in units of at most 100 kg.
        0..15 => table_2a(containers.div_ceil(100 / kilograms)),
        15..=100 => table_2a(containers),
        _ => {
            let least = table_2b(containers * kilograms);
            // Up to 15 containers give the same number of samples each.
            if containers <= 15 { least.next_multiple_of(containers) } else { least }
        }
    })
}

/// Table 2A, on the number of containers or units.
fn table_2a(containers: u64) -> u64 {
    match containers {
        0..=4 => 3 * containers,
        5..=8 => 2 * containers,
        9..=15 => containers,
        16..=30 => 15,
        31..=59 => 20,
        60.. => 30,
    }
}

/// Table 2B, on the weight of the lot.
fn table_2b(weight: u64) -> u64 {
    match weight {
        0..=500 => 5,
        501..=3_000 => weight.div_ceil(300).max(5),
        3_001..=20_000 => weight.div_ceil(500).max(10),
        20_001.. => weight.div_ceil(700).max(40),
    }
}

#[cfg(test)]
mod tests {
    use super::*;

    #[test]
    fn marked_cases_11_and_12() {
        for (containers, kilograms, number) in
            [(4, 50, 12), (16, 50, 15), (34, 3, 6), (20, 1_001, 40), (2, 200, 6)]
        {
            assert_eq!(samples(containers, kilograms), Ok(number));
        }
    }

    #[test]
    fn the_limits_are_1_and_65535() {
        for (containers, kilograms) in [(0, 1), (1, 0), (65_536, 1), (1, 65_536), (u32::MAX, u32::MAX)] {
            assert_eq!(samples(containers, kilograms), Err(Refusal::OutsideTable));
        }
        assert_eq!(samples(65_535, 65_535), Ok(6_135_481));
    }
}
