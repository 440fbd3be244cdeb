//! Pairs at the ends of what the sheet tells apart, and a unit to either side.

use crate::aimed::least_delta_l;
use crate::grey::FOUR;
use crate::paper::conversion::Colour;
use crate::paper::readings::{on_grid, GRID_ONE as ONE, LIGHTEST, SIDE};
use crate::records::{Pairs, Terms, CIE94, CIELAB, CMC};

/// SCOPE 6.2, line 6, each sum without its decimal point: the two ends of the sector, where the form
/// changes, and the two lines on which what stands between the strokes of |..| is 0.
pub const LINES: [[i128; 2]; 4] = [
    [27_563_736, 96_126_170],
    [25_881_905, 96_592_583],
    [81_915_204, -57_357_644],
    [97_814_760, 20_791_169],
];

pub fn sector(pairs: &mut Pairs) {
    for [p, q] in LINES {
        // points for which the sum is 0 or next to 0
        for sum in -12..=12 {
            for [a, b] in points(p, q, sum) {
                // few points have a sum of 0
                let times = if sum == 0 { 40 } else { 8 };
                for _ in 0..times {
                    let l = pairs.random.lightness();
                    pairs.try_reference([l, a, b], 10);
                }
            }
        }
        // the points of the grid on either side of the line, of any chroma
        for _ in 0..2_500 {
            let a = pairs.random.of_any_size(28);
            let below = (-p * i128::from(a)).div_euclid(q) as i64;
            for b in below - 1..=below + 2 {
                let l = pairs.random.lightness();
                pairs.try_reference([l, a, b], 1);
            }
        }
    }
}

/// All points of the grid with pa + qb = sum.
fn points(p: i128, q: i128, sum: i128) -> Vec<[i64; 2]> {
    let [divisor, x, _] = euclid(p, q);
    if sum % divisor != 0 {
        return Vec::new();
    }
    let (side, step) = (i128::from(SIDE), (q / divisor).abs());
    let first = (x * (sum / divisor) + side).rem_euclid(step) - side;
    (first..=side)
        .step_by(step as usize)
        .map(|a| [a as i64, ((sum - p * a) / q) as i64])
        .filter(|[_, b]| b.abs() <= SIDE)
        .collect()
}

/// The greatest common divisor d, and x, y with px + qy = d.
fn euclid(p: i128, q: i128) -> [i128; 3] {
    if q == 0 {
        return [p, 1, 0];
    }
    let [divisor, x, y] = euclid(q, p % q);
    [divisor, y, x - p / q * y]
}

/// a² + b² = 16. On the grid only (±4, 0) and (0, ±4) have that exactly, since a power of 2 is a sum
/// of two squares in one way at most.
pub fn achromatic_end(pairs: &mut Pairs) {
    let (mut a, mut b) = (0, FOUR);
    while a <= FOUR {
        // b goes down with a: a² + b² is at most 16, and (b + 1)² would make it more
        while a * a + b * b > FOUR * FOUR {
            b -= 1;
        }
        for b in [b, b + 1] {
            if (a * a + b * b - FOUR * FOUR).abs() <= 40 {
                around_axes(pairs, a, b, 20);
            }
        }
        // and every so many of the others, which C alone cannot tell apart
        if a % 2_000 == 0 {
            around_axes(pairs, a, b, 1);
            around_axes(pairs, a, b + 1, 2);
        }
        a += 1;
    }
    for along in FOUR - 1..=FOUR + 1 {
        for across in -1..=1 {
            around_axes(pairs, along, across, 60);
        }
    }
}

/// A specimen in all four places that quarter turns give it.
fn around_axes(pairs: &mut Pairs, a: i64, b: i64, times: u32) {
    for [a, b] in [[a, b], [-b, a], [-a, -b], [b, -a]] {
        let l = pairs.random.lightness();
        pairs.try_either([l, a, b], times);
    }
}

pub fn dark_end(pairs: &mut Pairs) {
    for _ in 0..4_000 {
        for l in 16 * ONE - 2..=16 * ONE + 2 {
            let [_, a, b] = pairs.random.colour_within(128 * ONE);
            pairs.try_reference([l, a, b], 2);
        }
    }
}

/// The corners of the ranges, and colours a unit away from them.
pub fn corners(pairs: &mut Pairs) {
    let whole = mixtures(&[0, LIGHTEST], &[-SIDE, 0, SIDE]);
    for &reference in &whole {
        for &test in &whole {
            for formula in [CIELAB, CIE94, CMC] {
                for factors in [[500, 500], [500, 10_000], [10_000, 500], [10_000, 10_000]] {
                    pairs.put(formula, factors, reference, test);
                }
            }
        }
    }
    let sides = [-SIDE, 1 - SIDE, -1, 0, 1, SIDE - 1, SIDE];
    let near = mixtures(&[0, 1, LIGHTEST - 1, LIGHTEST], &sides);
    for _ in 0..20_000 {
        let (reference, test) = (pairs.random.pick(&near), pairs.random.pick(&near));
        pairs.add(reference, test);
    }
}

/// Every colour with one of these for L and two of those for a and b.
pub fn mixtures(lightness: &[i64], opponent: &[i64]) -> Vec<Colour> {
    let mut colours = Vec::new();
    for &l in lightness {
        for &a in opponent {
            colours.extend(opponent.iter().map(|&b| [l, a, b]));
        }
    }
    colours
}

/// DE at the two ends of what is near, and a unit to either side. DE comes from lightness alone. It
/// is on an end exactly only where that is a multiple of 1/8.
pub fn tolerance_ends(pairs: &mut Pairs) {
    for step in 0..60_000 {
        let end = if step % 2 == 0 {
            125 * (1 + pairs.random.below(80) as u32)
        } else {
            98 + pairs.random.below(9_905) as u32
        };
        let terms = Terms {
            formula: pairs.random.pick(&[CIELAB, CIE94, CMC]),
            l: pairs.random.factor(),
            c: pairs.random.factor(),
            tolerance: pairs.random.pick(&[end - 2, end + 2]).clamp(100, 10_000),
        };
        let reference = pairs.random.colour();
        // DL is as much as is wanted: the end, or a unit more or less
        let wanted = i64::from(end) * ONE / 1_000 + pairs.random.within(1);
        let delta_l = least_delta_l(&terms.standard(reference), wanted);
        for delta_l in [delta_l, -delta_l] {
            let test = [reference[0] + delta_l, reference[1], reference[2]];
            if on_grid(test).is_ok() {
                pairs.record(terms, reference, test);
            }
        }
    }
}
