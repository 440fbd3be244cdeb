//! Tolerances and test specimens that bring DE to where it is decided whether it is near, and pairs
//! that bring one figure to a chosen size.

use super::paper::settings::Formula;
use super::paper::sheet::{semi_axes, PLACES};
use super::paper::standard::Standard;
use super::random::Random;

impl Random {
    /// A tolerance, in thousandths, within a few of them of DE.
    pub fn tolerance_beside(&mut self, de: i128) -> u64 {
        let thousandths = (de as i64 * 1_000) >> 20;
        (thousandths + self.within(4)).clamp(100, 10_000) as u64
    }

    /// Mostly such a one; every so often any.
    pub fn tolerance_near(&mut self, de: i128) -> u64 {
        if self.one_in(4) {
            return 100 + self.below(9_901);
        }
        self.tolerance_beside(de)
    }
}

/// The least ΔL that makes DL so many units.
pub fn least_delta_l(standard: &Standard, units: i64) -> i64 {
    let sl = semi_axes(PLACES, standard.formula, standard.colour).sl;
    let l = match standard.formula {
        Formula::Cielab => 1_000,
        Formula::Cie94 | Formula::Cmc => i128::from(standard.l),
    };
    let (top, bottom) = (i128::from(units) * l * sl, 1_000 << 20);
    ((top + bottom - 1) / bottom) as i64
}

/// 1000 times how far DE, in units, lies beyond what is near to a tolerance in thousandths.
pub fn beyond_near(de: i128, tolerance: i128) -> i128 {
    (1_000 * de - (tolerance << 20)).abs() - (2 << 20)
}

/// Pairs of L*, a*, b* that differ by this size in one way alone under CIELAB: in DL, in DC, in DH.
/// The third is a quarter turn, from one corner of a square to the next, so DH is even.
pub fn one_way_apart(size: i64, one: i64) -> [[[i64; 3]; 2]; 3] {
    let (grey, half) = (50 * one, size / 2);
    [
        [[0, 0, 0], [size, 0, 0]],
        [[grey, 0, 0], [grey, size, 0]],
        [[grey, half, -half], [grey, half, half]],
    ]
}
