//! Terms and colours that are refused.

use crate::ends::mixtures;
use crate::paper::conversion::Colour;
use crate::paper::readings::{GRID_ONE as ONE, LIGHTEST, SIDE};
use crate::random::Random;
use crate::records::{Pairs, Terms, CIE94, CIELAB, CMC};

/// Every mixture of allowed and refused numbers: 1 comes before 3, 3 before 4, 4 before 6.
pub fn refusals(pairs: &mut Pairs) {
    let ends = mixtures(&[0, LIGHTEST], &[-SIDE, 0, SIDE]);
    for wrong in 0_u32..64 {
        for _ in 0..100 {
            let random = &mut pairs.random;
            let terms = random.terms(wrong);
            let [reference, test] = [4, 5].map(|place| {
                let (any, end) = (random.colour(), random.pick(&ends));
                let colour = random.pick(&[any, any, end]);
                if wrong >> place & 1 == 1 {
                    random.beyond(colour)
                } else {
                    colour
                }
            });
            pairs.record(terms, reference, test);
        }
    }
}

impl Random {
    /// Terms of which some are refused, as the bits of `wrong` say: formula, l, c, tolerance.
    fn terms(&mut self, wrong: u32) -> Terms {
        let is_wrong = |place: u32| wrong >> place & 1 == 1;
        let mut terms = Terms {
            formula: self.pick(&[CIELAB, CIE94, CMC]),
            l: self.factor(),
            c: self.factor(),
            tolerance: self.pick(&[100, 101, 1_000, 9_999, 10_000]),
        };
        if is_wrong(0) {
            terms.formula = self.pick(&[0, 4, 5, 257, 65_539, 1 << 31, u32::MAX]);
        }
        if is_wrong(1) {
            terms.l = self.outside(500);
        }
        if is_wrong(2) {
            terms.c = self.outside(500);
        }
        if is_wrong(3) {
            terms.tolerance = self.outside(100);
        }
        terms
    }

    /// A number outside a range that ends at 10,000. Some come into it if their upper bits are lost.
    fn outside(&mut self, least: u32) -> u32 {
        let beyond = [(1 << 16) + 1_000, (1 << 24) + 1_000, (1 << 31) + 1_000];
        self.pick(&[&[0, 1, least - 1, 10_001, u32::MAX], &beyond[..]].concat())
    }

    /// The colour with one coordinate, or more, put outside its range.
    fn beyond(&mut self, mut colour: Colour) -> Colour {
        let places = 1 + self.below(7);
        for (place, coordinate) in colour.iter_mut().enumerate() {
            if places >> place & 1 == 1 {
                let [lowest, highest] = [[0, LIGHTEST], [-SIDE, SIDE], [-SIDE, SIDE]][place];
                let less = [lowest - 1, lowest - ONE, *coordinate - (1 << 32), i64::MIN];
                let more = [
                    highest + 1,
                    highest + ONE,
                    *coordinate + (1 << 32),
                    i64::MAX,
                ];
                *coordinate = self.pick(&[less, more].concat());
            }
        }
        colour
    }
}
