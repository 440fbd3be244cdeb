//! Pairs of every kind that the sheet tells apart.

use crate::paper::numbers::square_root;
use crate::paper::readings::{GRID_ONE as ONE, SIDE};
use crate::paper::sheet::{self, PLACES};
use crate::records::Pairs;

pub fn everywhere(pairs: &mut Pairs) {
    for _ in 0..150_000 {
        let (reference, test) = (pairs.random.colour(), pairs.random.colour());
        pairs.add(reference, test);
    }
    // most pairs in practice
    for _ in 0..250_000 {
        let most = pairs.random.pick(&[32, 64, 128, 256]) * ONE;
        let reference = pairs.random.colour_within(most);
        let test = pairs.random.small_difference(reference);
        pairs.add(reference, test);
    }
}

/// Where F is well between 0 and 1, so that a slip in line 5 shows.
pub fn low_chroma(pairs: &mut Pairs) {
    for _ in 0..100_000 {
        let reference = pairs.random.colour_within(12 * ONE);
        pairs.try_reference(reference, 1);
    }
    for a in -3..=3 {
        for b in -3..=3 {
            for _ in 0..400 {
                let reference = [pairs.random.lightness(), a, b];
                pairs.try_reference(reference, 4);
            }
        }
    }
}

pub fn axes(pairs: &mut Pairs) {
    for _ in 0..8_000 {
        let along = pairs.random.of_any_size(28);
        for across in -1..=1 {
            let l = pairs.random.lightness();
            pairs.try_reference([l, along, across], 2);
            pairs.try_reference([l, across, along], 2);
        }
    }
}

/// Same hue and half turns: both colours are whole multiples of the same step. Some are then a unit
/// beside it.
pub fn straight(pairs: &mut Pairs) {
    for _ in 0..80_000 {
        let step = [20, 20].map(|digits| pairs.random.of_any_size(digits));
        let [p, q] = [9, 9].map(|digits| pairs.random.of_any_size(digits));
        let reference = [pairs.random.lightness(), p * step[0], p * step[1]];
        let mut test = [pairs.random.lightness(), q * step[0], q * step[1]];
        if pairs.random.below(3) == 0 {
            test = pairs.random.beside(test, 1);
        }
        pairs.add(reference, test);
    }
}

pub fn equal(pairs: &mut Pairs) {
    for _ in 0..10_000 {
        let most = pairs.random.pick(&[0, 2, 4 * ONE, SIDE]);
        let reference = pairs.random.colour_within(most);
        pairs.add(reference, reference);
    }
}

/// Differences of a few units, where D² - ΔC² can be negative, and pairs of which only the rounded C
/// is the same.
pub fn rounded_chroma(pairs: &mut Pairs) {
    for _ in 0..60_000 {
        let most = 1 << pairs.random.below(29);
        let reference = pairs.random.colour_within(most);
        let few = pairs.random.pick(&[1, 2, 3, 8]);
        let test = pairs.random.beside(reference, few);
        pairs.add(reference, test);
    }
    for _ in 0..40_000 {
        let most = 1 << pairs.random.below(29);
        let reference = pairs.random.colour_within(most);
        let c = sheet::chroma(PLACES, reference) as i64;
        let a = pairs.random.within(c);
        let b = square_root((c * c - a * a) as u128) as i64;
        for b in [b, b + 1] {
            let test = [pairs.random.lightness(), a, pairs.random.with_sign(b)];
            pairs.add(reference, test);
        }
    }
}
