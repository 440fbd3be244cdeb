//! The step sheet at n binary places (SCOPE 6), for n from 20 to 40.
//!
//! A quantity at n places is the whole number of its units, 2^-n each. At 40 places the greatest
//! number formed on the way is below 2^120.

use super::cmc;
use super::conversion::Colour;
use super::numbers::square_root;
use super::settings::Formula;
use super::turn::{turn, Turn};

/// SCOPE 6.1: n is 20 in the program.
pub const PLACES: u32 = 20;

/// The number one, in units.
pub fn one(n: u32) -> i128 {
    1 << n
}

/// SCOPE 6.1: the colours are the same grid points. One of their coordinates, in units.
pub fn at(n: u32, coordinate: i64) -> i128 {
    i128::from(coordinate) * (1 << (n - 20))
}

/// SCOPE 6.1: the magnitude is rounded down once. Rust divides towards zero, and keeps the sign.
pub fn down(top: i128, bottom: i128) -> i128 {
    assert!(bottom > 0);
    top / bottom
}

pub fn root(x: i128) -> i128 {
    assert!(x >= 0);
    square_root(x as u128) as i128
}

/// SCOPE 6.2, line 1: C = root of (a² + b²), for each.
pub fn chroma(n: u32, [_, a, b]: Colour) -> i128 {
    let (a, b) = (at(n, a), at(n, b));
    root(a * a + b * b)
}

/// D² - ΔC², of lines 1 and 2. C is rounded and D² is not, so this can be negative.
pub fn hue_square(n: u32, reference: Colour, test: Colour) -> i128 {
    let delta_a = at(n, test[1]) - at(n, reference[1]);
    let delta_b = at(n, test[2]) - at(n, reference[2]);
    let delta_c = chroma(n, test) - chroma(n, reference);
    delta_a * delta_a + delta_b * delta_b - delta_c * delta_c
}

/// SCOPE 6.2, line 2: ΔH is the root of D² - ΔC², or 0 if that is negative, with the turn's sign.
fn delta_h(n: u32, reference: Colour, test: Colour) -> i128 {
    let magnitude = root(hue_square(n, reference, test).max(0));
    match turn(reference, test) {
        None => 0,
        Some(Turn::Plus) => magnitude,
        Some(Turn::Minus) => -magnitude,
    }
}

#[derive(Clone, Copy, PartialEq, Eq, Debug)]
pub struct SemiAxes {
    pub sl: i128,
    pub sc: i128,
    pub sh: i128,
}

/// Lines 3 to 7 of SCOPE 6.2, which use the reference only. SCOPE 6.3: under CIE94 SL = 1,
/// SC = 1 + 0.045C, SH = 1 + 0.015C; under CIELAB all three are 1.
pub fn semi_axes(n: u32, formula: Formula, reference: Colour) -> SemiAxes {
    let c = chroma(n, reference);
    match formula {
        Formula::Cielab => SemiAxes {
            sl: one(n),
            sc: one(n),
            sh: one(n),
        },
        Formula::Cie94 => SemiAxes {
            sl: one(n),
            sc: down(1_000 * one(n) + 45 * c, 1_000),
            sh: down(1_000 * one(n) + 15 * c, 1_000),
        },
        Formula::Cmc => SemiAxes {
            sl: cmc::sl(n, reference),
            sc: cmc::sc(n, reference),
            sh: cmc::sh(n, reference),
        },
    }
}

/// The figures of a sheet, in units of 2^-n.
#[derive(Clone, Copy, PartialEq, Eq, Debug)]
pub struct Sheet {
    pub reference_chroma: i128,
    pub semi_axes: SemiAxes,
    pub test_chroma: i128,
    pub delta_l: i128,
    pub delta_c: i128,
    pub delta_h: i128,
    pub dl: i128,
    pub dc: i128,
    pub dh: i128,
    pub de: i128,
}

/// The whole sheet; l and c in thousandths, as `settings::factor` gives them. SCOPE 6.2, line 8:
/// DL = ΔL/(l·SL), DC = ΔC/(c·SC), DH = ΔH/SH, signs kept. DE = root of (DL² + DC² + DH²).
pub fn sheet(
    n: u32,
    formula: Formula,
    [l, c]: [i128; 2],
    reference: Colour,
    test: Colour,
) -> Sheet {
    // SCOPE 6.3: under CIELAB l and c count as 1
    let [l, c] = match formula {
        Formula::Cielab => [1_000; 2],
        Formula::Cie94 | Formula::Cmc => [l, c],
    };
    let semi_axes = semi_axes(n, formula, reference);
    let reference_chroma = chroma(n, reference);
    let test_chroma = chroma(n, test);
    let delta_l = at(n, test[0]) - at(n, reference[0]);
    let delta_c = test_chroma - reference_chroma;
    let delta_h = delta_h(n, reference, test);
    let dl = down(delta_l * one(n) * 1_000, l * semi_axes.sl);
    let dc = down(delta_c * one(n) * 1_000, c * semi_axes.sc);
    let dh = down(delta_h * one(n), semi_axes.sh);
    Sheet {
        reference_chroma,
        semi_axes,
        test_chroma,
        delta_l,
        delta_c,
        delta_h,
        dl,
        dc,
        dh,
        de: root(dl * dl + dc * dc + dh * dh),
    }
}

#[derive(Clone, Copy, PartialEq, Eq, Debug)]
pub enum Verdict {
    Near,
    Pass,
    Fail,
}

/// SCOPE 6.4: near if DE lies within 0.002 of the tolerance, both ends counted; else pass if below
/// it, fail if above. The tolerance in thousandths, as `settings::tolerance` gives it.
pub fn verdict(n: u32, de: i128, tolerance: i128) -> Verdict {
    let over = 1_000 * de - tolerance * one(n);
    if over.abs() <= 2 * one(n) {
        Verdict::Near
    } else if over < 0 {
        Verdict::Pass
    } else {
        Verdict::Fail
    }
}
