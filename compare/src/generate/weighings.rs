//! Weighings: ordinary weights with a share that is wanted, and bits at the edges of what a float can mean.

use crate::card::HIGHEST_X;
use crate::prng::Prng;
use crate::weights::Weighing;

/// Bits at some limit: of the numbers, of the weights, or of their rounding.
pub const EDGES: [u32; 18] = [
    0x0000_0000, // zero
    0x0000_0001, // the least subnormal number
    0x007F_FFFF, // the largest one
    0x0080_0000, // the least normal number
    0x3800_0000, // 2^-15 g, 0.3 tenths of a milligram
    0x3851_B717, // the last below half a tenth
    0x3851_B718, // the first above it
    0x38D1_B717, // one tenth
    0x3D00_0000, // 1/32 g, 312.5 tenths
    0x3F80_0000, // 1 g
    0x4479_FE00, // 999.96875 g, the heaviest with half a tenth
    0x447A_0000, // 1000 g
    0x4480_0000, // 1024 g
    0x4B00_0000, // 2^23 g, from where on a number is whole
    0x7F7F_FFFF, // the largest finite number
    0x7F80_0000, // infinity
    0x7FC0_0000, // no number
    0x7FFF_FFFF, // no number either
];

/// Statuses of a reading that is not steady, some of them wider than a frame's field.
const STATUSES: [u16; 8] = [1, 2, 3, 16, 255, 256, 512, 65_535];

/// Two ordinary weights, 0.5 to 100 g together, with a share that is X or close to it.
pub fn of_share(prng: &mut Prng, x: u16) -> Weighing {
    let (x, whole) = (usize::from(x), usize::from(HIGHEST_X));
    let (component, both) = if prng.once_in(2) && x > 0 {
        // The exact share lies in the middle of two hundredths, and X is the upper one.
        let times = prng.below(50) + 1;
        (times * (2 * x - 1), times * 2 * whole)
    } else {
        let both = 5_000 + prng.below(995_001);
        ((both * x + whole / 2) / whole, both)
    };
    steady(close_to(prng, component), close_to(prng, both - component))
}

/// Any two weights that are accepted, whatever the share.
pub fn accepted(prng: &mut Prng, _: u16) -> Weighing {
    loop {
        let weighing = steady(bits(prng), bits(prng));
        if weighing.x().is_ok() {
            return weighing;
        }
    }
}

/// Any weighing: ordinary weights with another status or with one weight changed, or both weights changed.
pub fn any(prng: &mut Prng) -> Weighing {
    let x = prng.within(0..=HIGHEST_X);
    let ordinary = of_share(prng, x);
    let status = prng.pick(&STATUSES).into();
    match prng.below(8) {
        0 => Weighing { status, ..ordinary },
        1 | 2 => Weighing { component: bits(prng), ..ordinary },
        3 | 4 => Weighing { remainder: bits(prng), ..ordinary },
        5 => Weighing { status, ..steady(bits(prng), bits(prng)) },
        _ => steady(bits(prng), bits(prng)),
    }
}

/// A weighing that a frame has digits for.
pub fn in_frame(prng: &mut Prng) -> Weighing {
    let weighing = any(prng);
    Weighing { status: weighing.status & 0xFF, ..weighing }
}

/// The weights of a steady reading.
pub fn steady(component: u32, remainder: u32) -> Weighing {
    Weighing { status: 0, component, remainder }
}

/// The bits of a weight, good or not, often at a limit.
pub fn bits(prng: &mut Prng) -> u32 {
    match prng.below(10) {
        0 | 1 => beside(prng, |prng| prng.pick(&EDGES)),
        // With a sign bit, minus zero more often than others.
        2 if prng.once_in(2) => 1 << 31,
        2 => prng.pick(&EDGES) | 1 << 31,
        // Odd numbers of 1/32 g: these alone lie in the middle of two tenths of a milligram.
        3 | 4 => beside(prng, |prng| ((2 * prng.below(16_010) + 1) as f32 / 32.0).to_bits()),
        // A few tenths and a half, where the weights are so small that the share shows each.
        5 => beside(prng, |prng| ((2 * prng.below(40) + 1) as f32 / 20_000.0).to_bits()),
        6 => prng.draw() as u32,
        _ => {
            let tenths = prng.pick(&[1_000, 100_000, 1_000_000, 10_000_001]);
            let tenths = prng.below(tenths);
            close_to(prng, tenths)
        }
    }
}

/// Some bits, those before them or those behind them.
fn beside(prng: &mut Prng, some: fn(&mut Prng) -> u32) -> u32 {
    let bits = some(prng);
    prng.pick(&[bits, bits, bits.wrapping_sub(1), bits.wrapping_add(1)])
}

/// The bits of a weight that is not further from so many tenths of a milligram than its rounding takes back.
fn close_to(prng: &mut Prng, tenths: usize) -> u32 {
    let nearest = (tenths as f64 / 10_000.0) as f32;
    nearest.to_bits() + prng.below(3) as u32
}
