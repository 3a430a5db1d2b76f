//! Weights: what the bits of a balance mean in tenths of a milligram, and the share of two weights.
//!
//! The bits are those of an IEEE binary32, but nothing here is done with a float: a weight is taken apart into
//! whole numbers, and each step on them is exact.

use crate::card::HIGHEST_X;
use crate::refusal::Refusal;

/// The heaviest weight in grams; it is itself a good one.
const HEAVIEST: u128 = 1_000;
/// Tenths of a milligram in a gram.
const TENTHS: u128 = 10_000;
/// The status of a steady reading.
const STEADY: u32 = 0;

/// What a balance sends for a sample: a status, and the float bits of both weights in grams.
#[derive(Clone, Copy, Debug, PartialEq, Eq)]
pub struct Weighing {
    pub status: u32,
    pub component: u32,
    pub remainder: u32,
}

impl Weighing {
    /// X, the component's share; answers 18, or 19. The weights of a reading that is not steady are not looked at.
    pub fn x(&self) -> Result<u16, Refusal> {
        if self.status != STEADY {
            return Err(Refusal::NotSteady);
        }
        share(tenths(self.component)?, tenths(self.remainder)?)
    }
}

/// A weight in tenths of a milligram, to the nearest one, half up; or 19.
pub fn tenths(bits: u32) -> Result<u32, Refusal> {
    let grams = Exact::of(bits).ok_or(Refusal::BadWeight)?;
    let (whole, rest) = grams.split();
    // The limit is on the exact weight, however little lies above it.
    if whole > HEAVIEST || whole == HEAVIEST && rest.significand > 0 {
        return Err(Refusal::BadWeight);
    }
    let (more, left) = rest.times(TENTHS).split();
    // Of what is left of a tenth the first binary place says whether it is half of one.
    let (half, _) = left.times(2).split();
    Ok((whole * TENTHS + more + half) as u32)
}

/// The component's share of both weights in hundredths of a percent, to the nearest one, half up; 19 without any weight.
fn share(component: u32, remainder: u32) -> Result<u16, Refusal> {
    let [component, remainder] = [component, remainder].map(u64::from);
    let both = component + remainder;
    let hundredths = component * u64::from(HIGHEST_X);
    let rounded = (2 * hundredths + both).checked_div(2 * both).ok_or(Refusal::BadWeight)?;
    Ok(rounded as u16)
}

/// The number `significand` / 2^`places`, exactly.
#[derive(Clone, Copy)]
struct Exact {
    significand: u128,
    places: u32,
}

impl Exact {
    /// The number that bits mean; none where the sign bit is set or they mean no finite number.
    fn of(bits: u32) -> Option<Self> {
        let fraction = u128::from(bits & 0x007F_FFFF);
        let leading = fraction | 0x0080_0000;
        // The exponent with the sign bit before it: from 256 on the bit is set, and 255 is no finite number.
        match bits >> 23 {
            // Zero and the subnormal numbers, without a leading bit.
            0 => Some(Self { significand: fraction, places: 149 }),
            exponent @ 1..150 => Some(Self { significand: leading, places: 150 - exponent }),
            // The largest finite number still fits: it is below 2^128.
            exponent @ 150..255 => Some(Self { significand: leading << (exponent - 150), places: 0 }),
            _ => None,
        }
    }

    /// The whole number in it, and the rest, which is below 1.
    fn split(self) -> (u128, Self) {
        // With more places than bits all of it is rest.
        let whole = self.significand.checked_shr(self.places).unwrap_or(0);
        let taken = whole.checked_shl(self.places).unwrap_or(0);
        (whole, Self { significand: self.significand - taken, ..self })
    }

    fn times(self, factor: u128) -> Self {
        Self { significand: self.significand * factor, ..self }
    }
}
